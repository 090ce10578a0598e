//! The elementary functions: `hf_leaf` and the 64-bit rules, each against document 01's words.
use oracle::leaf::{by_plain, by_rules, NAMES, POWF};
use oracle::random::Random;
use oracle::report::Comparison;
use oracle::service;

/// Where a function's domain or rule changes: their neighbours are tried too.
const ENDS: [f32; 22] = [
    0.0,
    f32::MIN_POSITIVE,
    5.960_464_5e-8,
    9.313_226e-10,
    2.328_306_4e-10,
    9.094_947e-13,
    0.25,
    0.5,
    std::f32::consts::FRAC_PI_4,
    1.0,
    std::f32::consts::FRAC_PI_2,
    2.0,
    std::f32::consts::PI,
    4.0,
    std::f32::consts::TAU,
    8.0,
    10.0,
    1000.0,
    16_777_216.0,
    65_536.0,
    f32::MAX,
    f32::INFINITY,
];

/// Both signs of each end and the 40 floats on either side of it.
fn near_ends() -> impl Iterator<Item = u32> {
    let near = |end: f32| (0..81u32).map(move |k| end.to_bits().wrapping_add(k).wrapping_sub(40));
    ENDS.into_iter().flat_map(near).flat_map(|b| [b, b ^ 0x8000_0000])
}

/// Every sign and exponent, with digits at both ends, in the middle and at random.
fn all_exponents(random: &mut Random) -> Vec<u32> {
    let mut inputs = Vec::new();
    for head in 0..512u32 {
        for digits in [0, 1, 2, 3, 0x35_04f2, 0x35_04f3, 0x35_04f4, 0x3f_ffff, 0x40_0000, 0x40_0001, 0x7f_fffe, 0x7f_ffff] {
            inputs.push(head << 23 | digits);
        }
        inputs.extend((0..500).map(|_| head << 23 | random.bits() & 0x7f_ffff));
    }
    inputs
}

/// Angles, squares and multiples of a quarter turn: where sine and root are used and where they turn.
fn near_use(random: &mut Random) -> Vec<u32> {
    let mut inputs = Vec::new();
    for k in 0..50_000u32 {
        let turned = (f64::from(k) * std::f64::consts::FRAC_PI_2) as f32;
        let square = random.between(0.0, 4096.0).powi(2);
        for x in [turned, square, (k as f32).powi(2), random.between(-720.0, 720.0), random.between(-65_537.0, 65_537.0)] {
            inputs.extend([x.to_bits().wrapping_sub(1), x.to_bits(), x.to_bits() + 1]);
        }
    }
    inputs
}

fn one_argument(count: u64) -> Vec<u32> {
    let mut random = Random(1);
    let mut inputs: Vec<u32> = near_ends().collect();
    inputs.extend(all_exponents(&mut random));
    inputs.extend(near_use(&mut random));
    inputs.extend((0..count).map(|_| random.bits()));
    inputs
}

/// A base that is positive and finite in three of four, an exponent in 0..1 or near it in three of four.
fn random_pair(random: &mut Random) -> (u32, u32) {
    let (a, b) = (random.bits(), random.bits());
    let base = if random.below(4) > 0 { a % 0x7f80_0000 } else { a };
    let exponent = match random.below(4) {
        0 => b,
        1 => random.between(0.0, 1.0).to_bits(),
        _ => 0x3300_0000 + b % 0x0ca0_0000,
    };
    (base, exponent)
}

fn pairs(count: u64) -> Vec<(u32, u32)> {
    let mut random = Random(2);
    let ends: Vec<u32> = ENDS.into_iter().flat_map(|x| [x, -x]).chain([f32::NAN]).map(f32::to_bits).collect();
    let near = |b: u32| [b.wrapping_sub(1), b, b.wrapping_add(1)];
    let ends: Vec<u32> = ends.into_iter().flat_map(near).collect();
    let mut inputs: Vec<(u32, u32)> = ends.iter().flat_map(|a| ends.iter().map(|b| (*a, *b))).collect();
    inputs.extend(all_exponents(&mut random).into_iter().map(|a| (a, 1 + random.bits() % 0x3f80_0000)));
    inputs.extend((0..count).map(|_| random_pair(&mut random)));
    inputs
}

fn compare_one(which: u32, inputs: impl Iterator<Item = (u32, u32)>) -> [Comparison; 2] {
    let name = NAMES[which as usize];
    let mut proved = Comparison::new(format!("hf_leaf {name}"));
    let mut plain = Comparison::new(format!("64-bit rules {name}"));
    for (a, b) in inputs {
        let expected = by_rules(which, a, b);
        for (comparison, got) in [(&mut proved, service::leaf(which, a, b)), (&mut plain, by_plain(which, a, b))] {
            comparison.hold(&got, &expected, || format!("{name}({a:08X}, {b:08X}): {got:08X}, expected {expected:08X}"));
        }
    }
    [proved, plain]
}

/// This many random inputs to each function, after the chosen ones.
pub fn compare(count: u64) -> Vec<Comparison> {
    let (singles, pairs) = (one_argument(count), pairs(count));
    (0..NAMES.len() as u32)
        .flat_map(|which| match which {
            POWF => compare_one(which, pairs.iter().copied()),
            _ => compare_one(which, singles.iter().map(|a| (*a, 0))),
        })
        .collect()
}
