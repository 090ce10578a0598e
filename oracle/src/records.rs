//! Antenna records to try: those that set-up leaves with a word changed, and made-up ones; and changes of their tables.
use crate::antennas::{ANTENNA, OF_TABLE, SUM};
use crate::random::Random;
use crate::stations;

/// The type, whether it is slewed, and how many elements are active; the numbers of the active elements.
const COUNTS: [usize; 3] = [0, 1, 265];
const IEK: usize = 162;
/// The two float counts.
const DIPOLES: [usize; 2] = [13, 14];

/// A word that a careless caller might have put at this place.
fn word(random: &mut Random, place: usize) -> u32 {
    let count = COUNTS.contains(&place) || (IEK..IEK + 36).contains(&place);
    match random.below(8) {
        0 => random.bits(),
        1 => stations::odd(random).to_bits(),
        _ if count => random.pick(&[0, 1, 2, 5, 6, 7, 9, 10, 29, 30, 31, 35, 36, u32::MAX]),
        _ if DIPOLES.contains(&place) => random.pick(&[0.0, -0.0, 1.0, 2.5, 63.5, 64.0, 64.00001, -1e-30, f32::NAN]).to_bits(),
        _ => random.between(-2.0, 2.0).to_bits(),
    }
}

/// A place and a word for it; places that loops and indices go by are picked often.
pub fn change(random: &mut Random) -> [u32; 2] {
    let place = match random.below(4) {
        0 => random.pick(&COUNTS),
        1 => IEK + random.below(36) as usize,
        2 => 2 + random.below(16) as usize,
        _ => random.below(ANTENNA as u64) as usize,
    };
    [place as u32, word(random, place)]
}

/// Floats of a table to change: the ends of its four parts, or any.
pub fn table_place(random: &mut Random) -> usize {
    match random.below(2) {
        0 => random.pick(&[0, 2820, 2821, 5641, 5642, 8462, 8463, 11_283]),
        _ => random.below(11_284) as usize,
    }
}

/// The bits of a NaN, of either sign, quiet or signalling.
pub fn nan(random: &mut Random) -> u32 {
    random.bits() & 0x8000_0000 | 0x7F80_0000 | 1 + random.below(0x7F_FFFF) as u32
}

/// Changes of a table that all but types 5 and 6 leave at 0: one float; two, with the sum as it was; a NaN, with its sum.
pub fn table_change(random: &mut Random) -> Vec<u32> {
    let [here, there] = [(); 2].map(|()| (OF_TABLE + table_place(random)) as u32);
    let word = random.between(-2.0, 2.0).to_bits();
    match random.below(3) {
        0 => vec![here, word],
        1 => vec![here, word, there, word.wrapping_neg()],
        _ => vec![here, nan(random), SUM as u32, 0x7FC0_0000],
    }
}

/// A record of plausible fields that no set-up left, its counts mostly legal.
pub fn made_up(random: &mut Random) -> Vec<u32> {
    let mut words: Vec<u32> = (0..ANTENNA).map(|_| random.between(-3.0, 3.0).to_bits()).collect();
    words[0] = 1 + random.below(9) as u32;
    words[1] = random.below(2) as u32;
    DIPOLES.iter().for_each(|place| words[*place] = random.between(0.0, 9.0).to_bits());
    words[265] = random.below(31) as u32;
    words[IEK..IEK + 36].iter_mut().for_each(|i| *i = 1 + random.below(30) as u32);
    words[994] = if random.below(8) == 0 { 0 } else { random.between(0.01, 30.0).to_bits() };
    words
}
