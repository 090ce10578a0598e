//! Records, and whole inputs of the program, as a careless caller might send them.
use crate::random::Random;
use crate::record::{self, BYTES, WORDS};
use crate::stations;

/// Turns a bit of a record, of its first or last byte in two of three.
pub fn turn_a_bit(random: &mut Random, record: &mut [u8]) {
    let Some(last) = record.len().checked_sub(1) else { return };
    let any = random.below(record.len() as u64) as usize;
    record[random.pick(&[0, last, any])] ^= 1 << random.below(8);
}

/// Sets the exponent of one of the 56 words, often slot 1's, to that of an infinity or NaN. Edition 0's words stand half a byte past
/// their four bytes' start, edition 1's a byte.
pub fn break_a_word(random: &mut Random, record: &mut [u8]) {
    let any = random.below(56) as usize;
    let start = 4 * random.pick(&[1, any]);
    if record[0] >> 6 == 0 {
        record[start] |= 0x07;
        record[start + 1] |= 0xf8;
    } else {
        record[start + 1] |= 0x7f;
        record[start + 2] |= 0x80;
    }
}

/// Another edition, 0 to 3, or another type in edition 1's place.
pub fn change_the_header(random: &mut Random, record: &mut [u8]) {
    let any = random.below(16) as u8;
    record[0] = if random.below(2) == 0 { record[0] & 0x3f | any << 6 } else { record[0] & 0xf0 | any };
}

/// A row's elevation: mostly whole and 0 to 90.
pub fn elevation(random: &mut Random) -> f32 {
    match random.below(10) {
        0 => stations::odd(random),
        1 => random.pick(&[0.0, -0.0, 90.0, 0.5, -1.0, 91.0, 89.999_99]),
        _ => random.below(91) as f32,
    }
}

/// The record of a station of any type with realistic gains, sometimes broken.
fn station(random: &mut Random) -> Vec<u8> {
    let parm = stations::station(random);
    let mut words = [random.pick(&[0, 0, 0, 1, 1, 2, 2, 3]); WORDS];
    for (word, x) in words[1..].iter_mut().zip(parm) {
        *word = if x.is_finite() { x.to_bits() } else { 0x4120_0000 };
    }
    words[21..].fill_with(|| random.between(-10.0, 25.0).to_bits());
    if random.below(30) == 0 {
        words[1 + random.below(56) as usize] = stations::odd(random).to_bits();
    }
    let mut bytes = vec![0; BYTES];
    // Words that can't be written leave zeros, a record too.
    let _ = record::write(random.below(2) as u32, &words, &mut bytes);
    bytes
}

/// A record, then operating MHz, design MHz and elevation, each at times odd.
fn plate(random: &mut Random) -> Vec<u8> {
    let mut bytes = station(random);
    let frequency = |random: &mut Random| if random.below(15) == 0 { stations::odd(random) } else { random.between(1.0, 31.0) };
    let elevation = if random.below(12) == 0 { stations::odd(random) } else { random.below(91) as f32 };
    for x in [frequency(random), frequency(random), elevation] {
        bytes.extend(x.to_bits().to_be_bytes());
    }
    bytes
}

/// An input of the program; three in forty are too long, too short, or have a bit or the header changed.
pub fn input(random: &mut Random) -> Vec<u8> {
    let mut bytes = plate(random);
    match random.below(40) {
        0 => bytes.resize(random.pick(&[0, 1, 225, 236, 238, 4096]), 0),
        1 => turn_a_bit(random, &mut bytes[..BYTES]),
        2 => change_the_header(random, &mut bytes),
        _ => {}
    }
    bytes
}
