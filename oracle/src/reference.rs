//! What `service` exports, in Rust over `expected`: the same arguments, the same words out, lent buffers left alone on a refusal.
//! A slice of the wrong length is refused as 8 before anything else, except a lent table and row, whose place is document 01's.
pub use super::card_text::{card, card_of, card_sentence};
use super::expected::{self, Gains, Refusal, SPACE, TABLE};
use super::plate as program;
use super::{masts, pictures, planet, shown};
use crate::antennas::{prepare, ANTENNA, FOUND};
pub use crate::bandbook::{book, station_for};
pub use crate::calendar::{next_season, open, season};
pub use crate::leaf::by_rules as leaf;
pub use crate::levels::show as levels;
pub use crate::why::{curtain_why, why};
use crate::{board, levels as strengths, preview as slots, record};

/// The refusal's number, or 0.
fn code(answer: Result<(), Refusal>) -> u32 {
    answer.err().unwrap_or(0)
}

fn parm_of(floats: &[f32]) -> Result<&[f32; 20], Refusal> {
    floats.try_into().map_err(|_| SPACE)
}

fn try_maxgain(mode: u32, floats: &[f32], out: &mut [u32]) -> Result<(), Refusal> {
    let out: &mut [u32; 21] = out.try_into().map_err(|_| SPACE)?;
    let floats: &[f32; 58] = floats.try_into().map_err(|_| SPACE)?;
    let (gain, parm) = expected::maxgain(&Gains::new(mode, floats))?;
    out[0] = gain.to_bits();
    out[1..].copy_from_slice(&parm.map(f32::to_bits));
    Ok(())
}

pub fn maxgain(mode: u32, floats: &[f32], out: &mut [u32]) -> u32 {
    code(try_maxgain(mode, floats, out))
}

/// The real call on a copy of the parameters, and of each slot what it holds then or held before.
fn try_preview(mode: u32, floats: &[f32], out: &mut [u32]) -> Result<(), Refusal> {
    let out: &mut [u32; 7] = out.try_into().map_err(|_| SPACE)?;
    let floats: &[f32; 58] = floats.try_into().map_err(|_| SPACE)?;
    let given = Gains::new(mode, floats);
    let (gain, after) = expected::maxgain(&given)?;
    let marks = slots::marks(mode, expected::type_of(&given.parm)?);
    out[0] = gain.to_bits();
    for (words, (slot, written)) in out[1..].chunks_mut(2).zip(marks) {
        let shown = if written { after[slot] } else { given.parm[slot] };
        words.copy_from_slice(&[u32::from(written), shown.to_bits()]);
    }
    Ok(())
}

pub fn preview(mode: u32, floats: &[f32], out: &mut [u32]) -> u32 {
    code(try_preview(mode, floats, out))
}

/// A number's bits, or kind 3 and the refusal's number.
fn packed(answer: Result<f32, Refusal>) -> u64 {
    answer.map_or_else(refused, |x| x.to_bits().into())
}

pub fn curtain(parm: &[f32], azimuth: f32, elevation: f32, factor: f32) -> u64 {
    packed(parm_of(parm).and_then(|parm| expected::curtain_gain(parm, azimuth, elevation, factor)))
}

pub fn curtain_factor(parm: &[f32]) -> u64 {
    packed(parm_of(parm).and_then(expected::curtain_factor))
}

fn try_curtain_levels(parm: &[f32], factor: f32, directions: &[f32], levels: &mut [f32]) -> Result<u64, Refusal> {
    let (found, readings) = expected::curtain_levels(parm_of(parm)?, factor, directions, levels.len())?;
    levels.copy_from_slice(&found);
    Ok(readings.into())
}

pub fn curtain_levels(parm: &[f32], factor: f32, directions: &[f32], levels: &mut [f32]) -> u64 {
    try_curtain_levels(parm, factor, directions, levels).unwrap_or_else(refused)
}

fn try_gains(parm: &[f32], giso: f32, directions: &[f32], out: &mut [u32]) -> Result<(), Refusal> {
    let parm = parm_of(parm)?;
    if directions.len() % 2 == 1 || out.len() != 4 + directions.len() {
        return Err(SPACE);
    }
    let antenna = expected::set_up(parm, TABLE)?;
    let (head, answers) = out.split_at_mut(4);
    head.copy_from_slice(&antenna.words());
    for (pair, answer) in directions.chunks(2).zip(answers.chunks_mut(2)) {
        answer.copy_from_slice(&expected::gain(&antenna, pair[0], pair[1], giso).words());
    }
    Ok(())
}

pub fn gains(parm: &[f32], giso: f32, directions: &[f32], out: &mut [u32]) -> u32 {
    code(try_gains(parm, giso, directions, out))
}

fn try_setup(parm: &[f32], table: &mut [f32], antenna: &mut [u32], out: &mut [u32]) -> Result<(), Refusal> {
    let parm = parm_of(parm)?;
    if antenna.len() != ANTENNA || out.len() != FOUND {
        return Err(SPACE);
    }
    let found = expected::set_up(parm, table.len())?;
    found.copy_table(table);
    antenna.copy_from_slice(&found.record());
    out.copy_from_slice(&found.words());
    Ok(())
}

pub fn setup(parm: &[f32], table: &mut [f32], antenna: &mut [u32], out: &mut [u32]) -> u32 {
    code(try_setup(parm, table, antenna, out))
}

/// Kind 3 and the number.
fn refused(number: Refusal) -> u64 {
    3 << 32 | u64::from(number)
}

pub fn gain_of(antenna: &[u32], table: &[f32], elevation: f32, azimuth: f32, giso: f32) -> u64 {
    if antenna.len() != ANTENNA {
        return refused(SPACE);
    }
    let [kind, word] = expected::kept_gain(antenna, table, [elevation, azimuth, giso]).words();
    u64::from(kind) << 32 | u64::from(word)
}

fn try_row_of(antenna: &[u32], table: &[f32], elevation: f32, giso: f32, row: &mut [f32]) -> Result<u64, Refusal> {
    if antenna.len() != ANTENNA {
        return Err(SPACE);
    }
    let (numbers, front_to_back) = expected::kept_row(antenna, table, elevation, giso, row.len())?;
    row.copy_from_slice(&numbers);
    Ok(front_to_back.to_bits().into())
}

pub fn row_of(antenna: &[u32], table: &[f32], elevation: f32, giso: f32, row: &mut [f32]) -> u64 {
    try_row_of(antenna, table, elevation, giso, row).unwrap_or_else(refused)
}

/// Set-up, words changed, then the gain.
pub fn gain(parm: &[f32], changes: &[u32], asked: &[f32], table: &mut [f32], antenna: &mut [u32]) -> u64 {
    prepare(setup, parm, changes, table, antenna);
    gain_of(antenna, table, asked[0], asked[1], asked[2])
}

/// Set-up, words changed, then the row.
pub fn plate_row(parm: &[f32], changes: &[u32], asked: &[f32], table: &mut [f32], antenna: &mut [u32], row: &mut [f32]) -> u64 {
    prepare(setup, parm, changes, table, antenna);
    row_of(antenna, table, asked[0], asked[1], row)
}

fn try_read(bytes: &[u8], words: &mut [u32]) -> Result<(), Refusal> {
    let words: &mut [u32; record::WORDS] = words.try_into().map_err(|_| SPACE)?;
    *words = record::read(bytes)?;
    Ok(())
}

pub fn read(bytes: &[u8], words: &mut [u32]) -> u32 {
    code(try_read(bytes, words))
}

pub fn write(edition: u32, words: &[u32], bytes: &mut [u8]) -> u32 {
    code(words.try_into().map_err(|_| SPACE).and_then(|words| record::write(edition, words, bytes)))
}

/// A program's output and its length; nothing where the room is less than what the call asks for.
fn output(text: &mut [u8], least: usize, output: impl FnOnce() -> String) -> usize {
    if text.len() < least {
        return 0;
    }
    let output = output();
    text[..output.len()].copy_from_slice(output.as_bytes());
    output.len()
}

pub fn plate(input: &[u8], text: &mut [u8]) -> usize {
    output(text, 8192, || program::output(input))
}

pub fn dbi(input: &[u8], text: &mut [u8]) -> usize {
    output(text, 12_288, || shown::dbi(input))
}

pub fn svg(input: &[u8], fold: u32, text: &mut [u8]) -> usize {
    output(text, 65_536, || pictures::svg(input, fold > 0))
}

pub fn svg_two(first: &[u8], second: &[u8], text: &mut [u8]) -> usize {
    output(text, 131_072, || pictures::svg_two(first, second))
}

pub fn compare(first: &[u8], second: &[u8], base: u32, text: &mut [u8]) -> usize {
    output(text, 2048, || masts::compare(first, second, base))
}

/// The text and its length, or the refusal: the room is tried last of all.
fn try_planet(input: &[u8], text: &mut [u8]) -> Result<u64, Refusal> {
    let output = planet::text(input)?;
    let room = text.get_mut(..output.len()).ok_or(SPACE)?;
    room.copy_from_slice(output.as_bytes());
    Ok(output.len() as u64)
}

pub fn planet(input: &[u8], text: &mut [u8]) -> u64 {
    try_planet(input, text).unwrap_or_else(refused)
}

/// The state is given, and copied to the words that are lent.
pub fn levels_record(state: &[u32], level: f32, left: &mut [u32], out: &mut [u32]) -> u32 {
    left.copy_from_slice(state);
    strengths::record(left, level, out)
}

/// The board's four calls in turn.
pub fn board(calls: &[u32], rows: &[f32], words: &mut [u32], numbers: &mut [f32], ids: &mut [u32]) -> u32 {
    let oracle = board::Calls { empty: board::empty, join: board::join, leave: board::leave, show: board::show };
    board::run(&oracle, calls, rows, words, numbers, ids)
}
