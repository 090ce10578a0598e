//! Inputs for the plate that people see: those of `plate` and of the text for coverage planners, and curtains, with a factor in the
//! record or without.
use crate::random::Random;
use crate::record::{self, BYTES, WORDS};
use crate::{broken, planets, stations};

/// A curtain's record: a factor for each whole MHz, -99999 where the integral is asked for.
fn curtain(random: &mut Random) -> Vec<u8> {
    let any = stations::curtain(random);
    let parm = if random.below(8) == 0 { stations::disturbed(random, any) } else { any };
    // The integral takes 3 ms.
    let factor = if random.below(12) == 0 { -99_999.0 } else { random.between(0.0, 20.0) };
    let mut words = [3; WORDS];
    for (word, x) in words[1..].iter_mut().zip(parm) {
        *word = if x.is_finite() { x.to_bits() } else { 0 };
    }
    words[21..].fill(factor.to_bits());
    let mut bytes = vec![0; BYTES];
    record::write(0, &words, &mut bytes).expect("finite floats");
    let elevation = broken::elevation(random);
    let frequencies = [parm[4], parm[7]].map(|x| if random.below(20) == 0 { stations::odd(random) } else { x });
    bytes.extend(frequencies.into_iter().chain([elevation]).flat_map(|x| x.to_bits().to_be_bytes()));
    bytes
}

pub fn input(random: &mut Random) -> Vec<u8> {
    match random.below(4) {
        0 => curtain(random),
        1 => broken::input(random),
        _ => planets::input(random),
    }
}

/// Bytes lent for a text: mostly what a call asks for.
pub fn room(random: &mut Random, least: usize) -> usize {
    match random.below(12) {
        0 => random.pick(&[0, 1, 2047, least - 1]),
        1 => least + random.below(500) as usize,
        _ => least,
    }
}
