//! The maximum gain: `hf_maxgain` against `setmaxgain` of the source.
use crate::cases::{first_difference, hex, run};
use oracle::expected::Gains;
use oracle::random::Random;
use oracle::report::Comparison;
use oracle::stored::LEFT;
use oracle::{reference, service, stations};

/// A mode of the three, mostly; the curtain's, and numbers that are none.
fn mode(random: &mut Random) -> u32 {
    match random.below(20) {
        0 => 3,
        1 => random.pick(&[4, 255, 256, 1 << 31, u32::MAX]),
        n => (n % 3) as u32,
    }
}

fn mhz(random: &mut Random) -> f32 {
    match random.below(4) {
        0 => stations::odd(random),
        1 => 1.0 + random.below(30) as f32,
        _ => random.between(0.5, 31.5),
    }
}

/// A design frequency at a ratio near the limits, the ratio itself, or another.
fn design(random: &mut Random, mhz: f32) -> f32 {
    let ratio: f32 = random.pick(&[0.7, 0.85, 1.0, 1.2, 1.4]);
    match random.below(6) {
        0 => stations::odd(random),
        1 => f32::from_bits(ratio.to_bits() - 1 + random.below(3) as u32),
        2 => mhz / ratio,
        3 => mhz / random.between(0.6, 1.5),
        4 => random.between(0.6, 1.5),
        _ => random.between(1.0, 31.0),
    }
}

/// Gains of a real antenna, sometimes too large to subtract, sometimes odd.
fn gain(random: &mut Random, wild: u64) -> f32 {
    match wild {
        0 if random.below(4) == 0 => random.pick(&[3e38, -3e38, 1e30, 0.0, -0.0]),
        1 if random.below(36) == 0 => stations::odd(random),
        _ => random.between(-10.0, 30.0),
    }
}

pub fn given(random: &mut Random) -> Gains {
    let (mode, mhz, wild) = (mode(random), mhz(random), random.below(20));
    let parm = stations::station(random);
    let gainmax = std::array::from_fn(|_| std::array::from_fn(|_| gain(random, wild)));
    let gainmaxb = std::array::from_fn(|_| gain(random, wild));
    Gains { mode, parm, gainmax, gainmaxb, mhz, design: design(random, mhz) }
}

/// The numbers of floats and of words; now and then one too many or too few.
pub fn lengths(random: &mut Random, words: usize) -> (usize, usize) {
    match random.below(400) {
        0 => (random.pick(&[0, 20, 57, 59]), words),
        1 => (58, random.pick(&[0, 1, words - 1, words + 1])),
        _ => (58, words),
    }
}

fn one(random: &mut Random, found: &mut Comparison) {
    let (given, (floats_len, words)) = (given(random), lengths(random, 21));
    let (mode, mut floats) = (given.mode, given.floats());
    floats.resize(floats_len, 1.0);
    let (mut out, mut expected_out) = (vec![LEFT; words], vec![LEFT; words]);
    let got = service::maxgain(mode, &floats, &mut out);
    let expected = reference::maxgain(mode, &floats, &mut expected_out);
    found.met(if expected == 0 { format!("mode {mode}") } else { format!("refused {expected}") });
    found.hold(&(got, &out), &(expected, &expected_out), || {
        let words = first_difference(&out, &expected_out);
        format!("mode {mode} floats {}: {got}, expected {expected}; {words}", hex(&floats))
    });
}

pub fn compare(count: u64) -> Vec<Comparison> {
    let owed = ["mode 0", "mode 1", "mode 2", "refused 2", "refused 3", "refused 4", "refused 5", "refused 8", "refused 10"];
    vec![run("hf_maxgain", 11, count, one).owing(&owed)]
}
