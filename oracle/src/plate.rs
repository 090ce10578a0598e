//! The program `plate` of document 01: a record and three floats in, 360 lines or one refusal out.
use super::expected::{self, Antenna, Gain, Gains, Parm, Refusal, ROW, TABLE};
use crate::record;

const INPUT: usize = record::BYTES + 12;

fn float_at(bytes: &[u8], from: usize) -> f32 {
    f32::from_be_bytes(bytes[from..from + 4].try_into().unwrap())
}

/// What the record holds, with the two frequencies.
fn gains_of(words: &[u32; record::WORDS], input: &[u8]) -> Gains {
    let frequencies = [225, 229].map(|from| float_at(input, from));
    Gains::new(words[0], &std::array::from_fn(|k| if k < 56 { f32::from_bits(words[1 + k]) } else { frequencies[k - 56] }))
}

/// What the steps leave: the antenna, the parameters that set-up was given, the maximum gain, and the row.
pub struct Steps {
    pub antenna: Antenna,
    pub parm: Parm,
    pub giso: f32,
    pub elevation: f32,
    pub row: [f32; ROW],
}

/// What the maximum gain is found by, as the input has it.
pub fn gains(input: &[u8]) -> Result<Gains, Refusal> {
    if input.len() != INPUT {
        return Err(1);
    }
    Ok(gains_of(&record::read(&input[..record::BYTES])?, input))
}

/// Reader, maximum gain, set-up, row: the first that refuses gives the number.
pub fn steps(input: &[u8]) -> Result<Steps, Refusal> {
    let (giso, parm) = expected::maxgain(&gains(input)?)?;
    let antenna = expected::set_up(&parm, TABLE)?;
    let elevation = float_at(input, 233);
    let (row, _) = expected::row(&antenna, elevation, giso)?;
    Ok(Steps { antenna, parm, giso, elevation, row })
}

fn line(azimuth: usize, gain: Gain) -> String {
    let (number, kind) = match gain {
        Gain::Level(x) => (x, "level"),
        Gain::Floor(x) => (x, "floor"),
        Gain::Silence(x) => (x, "silence"),
        Gain::Refused(_) => unreachable!("a row exists"),
    };
    format!("{azimuth} {:08X} {kind}\n", number.to_bits())
}

fn lines(input: &[u8]) -> Result<String, Refusal> {
    let Steps { antenna, giso, elevation, .. } = steps(input)?;
    Ok((0..ROW).map(|v| line(v, expected::gain(&antenna, elevation, v as f32, giso))).collect())
}

/// The line of a refusal, in place of a text.
pub fn refusal(number: Refusal) -> String {
    format!("refused {number}\n")
}

pub fn output(input: &[u8]) -> String {
    lines(input).unwrap_or_else(refusal)
}
