//! Document 02's card 14, the text for coverage planners, of the bytes that `plate` reads: from the card's words, by whole numbers.
use super::expected::{self, Gain, Refusal, ROW};
use super::plate::{self, Steps};

/// A number over 1,000 in size: tried after 10.
pub const SPAN: Refusal = 18;

/// "A number's exact value becomes whole hundredths, halves away from zero." The size of a number within the span is m / 2^k, so its
/// hundredths are (200 m + 2^k) / 2^(k + 1) rounded down; with more than 100 binary places it is far below half of one.
pub fn hundredths(x: f32) -> i64 {
    let (exponent, digits) = (x.to_bits() >> 23 & 255, u128::from(x.to_bits() & 0x7f_ffff));
    let (m, k) = if exponent == 0 { (digits, 149) } else { (digits + 0x80_0000, 150 - exponent) };
    let size = if k > 100 { 0 } else { ((200 * m + (1 << k)) / (1 << (k + 1))) as i64 };
    if x < 0.0 {
        -size
    } else {
        size
    }
}

/// "Printed with two decimals, zero without a sign."
pub fn two_decimals(h: i64) -> String {
    let sign = if h < 0 { "-" } else { "" };
    format!("{sign}{}.{:02}", h.abs() / 100, h.abs() % 100)
}

/// Elevation and azimuth of a vertical angle above the ground.
fn direction(angle: usize) -> (f32, f32) {
    if angle <= 90 {
        (angle as f32, 0.0)
    } else {
        ((180 - angle) as f32, 180.0)
    }
}

/// The 181 numbers above the ground: `ccirgain`'s, or its refusal.
fn vertical(steps: &Steps) -> Result<Vec<f32>, Refusal> {
    let number = |angle| {
        let (elevation, azimuth) = direction(angle);
        match expected::gain(&steps.antenna, elevation, azimuth, steps.giso) {
            Gain::Level(x) | Gain::Floor(x) | Gain::Silence(x) => Ok(x),
            Gain::Refused(number) => Err(number),
        }
    };
    (0..=180).map(number).collect()
}

/// What a text is of: the type, slot 4, and the numbers of its two parts.
pub struct Numbers {
    jant: i32,
    mhz: f32,
    pub horizontal: [f32; ROW],
    pub vertical: Vec<f32>,
}

/// No number is over 1,000 in size.
pub fn in_span(part: &[f32]) -> bool {
    part.iter().all(|x| x.abs() <= 1000.0)
}

/// The steps of `plate`, the vertical numbers, the span: the first that refuses gives the number.
pub fn numbers(input: &[u8]) -> Result<Numbers, Refusal> {
    let steps = plate::steps(input)?;
    let vertical = vertical(&steps)?;
    if !in_span(&steps.row) || !in_span(&vertical) {
        return Err(SPAN);
    }
    Ok(Numbers { jant: expected::type_of(&steps.parm)?, mhz: steps.parm[4], horizontal: steps.row, vertical })
}

fn greatest(part: &[f32]) -> i64 {
    part.iter().map(|x| hundredths(*x)).max().expect("a part has numbers")
}

/// The lines of a part: "angle, one space and loss", which is "the greatest hundredths of that part less the entry's".
fn lines(part: &[f32], greatest: i64) -> String {
    let loss = |x: &f32| two_decimals(greatest - hundredths(*x));
    part.iter().enumerate().map(|(angle, x)| format!("{angle} {}\n", loss(x))).collect()
}

impl Numbers {
    pub fn text(&self) -> String {
        let Numbers { jant, mhz, horizontal, vertical } = self;
        let gain = greatest(horizontal);
        let mut text = format!("NAME T{jant}\nFREQUENCY {}\nGAIN {} dBi\n", mhz.trunc(), two_decimals(gain));
        text += "HORIZONTAL 360\n";
        text += &lines(horizontal, gain);
        text += "VERTICAL 360\n";
        text += &lines(vertical, greatest(vertical));
        text.extend((181..360).map(|angle| format!("{angle} 99.99\n")));
        text
    }
}

/// The text, whatever the room.
pub fn text(input: &[u8]) -> Result<String, Refusal> {
    Ok(numbers(input)?.text())
}

/// The program's output.
pub fn output(input: &[u8]) -> String {
    text(input).unwrap_or_else(plate::refusal)
}
