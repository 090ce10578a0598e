//! The curtain: `hf_curtain` against `curtain::gain` of the source, and `hf_curtain_factor` against its integral.
use crate::cases::{hex, run};
use oracle::random::Random;
use oracle::report::Comparison;
use oracle::{reference, service, stations};

/// The factor that asks for the integral of 16,471 readings.
pub const INTEGRATE: f32 = -99_999.0;

struct Case {
    parm: Vec<f32>,
    azimuth: f32,
    elevation: f32,
    factor: f32,
}

/// Whole degrees, the ends of the fold, and any other.
pub fn azimuth(random: &mut Random) -> f32 {
    let fold = random.pick(&[90.0f32, -90.0, 270.0, -270.0]).to_bits();
    match random.below(8) {
        0 => stations::odd(random),
        1 | 2 => f32::from_bits(fold - 4 + random.below(9) as u32),
        3 | 4 => random.below(721) as f32 - 360.0,
        _ => random.between(-400.0, 400.0),
    }
}

pub fn elevation(random: &mut Random) -> f32 {
    match random.below(8) {
        0 => stations::odd(random),
        1 | 2 => random.below(91) as f32,
        _ => random.between(-10.0, 100.0),
    }
}

/// A factor beside the integral's too; never the integral's own.
pub fn factor(random: &mut Random) -> f32 {
    match random.below(8) {
        0 => stations::odd(random),
        1 => random.pick(&[0.0, -0.0, -1.0, 1.0, -99_998.99, -99_999.01, 99_999.0]),
        _ => random.between(0.0, 20.0),
    }
}

fn case(random: &mut Random) -> Case {
    let realistic = stations::curtain(random);
    let mut parm = stations::disturbed(random, realistic).to_vec();
    if random.below(200) == 0 {
        parm.resize(random.pick(&[0, 1, 19, 21, 40]), 1.0);
    }
    Case { parm, azimuth: azimuth(random), elevation: elevation(random), factor: factor(random) }
}

fn hold(case: &Case, found: &mut Comparison) {
    let Case { parm, azimuth, elevation, factor } = case;
    let got = service::curtain(parm, *azimuth, *elevation, *factor);
    let expected = reference::curtain(parm, *azimuth, *elevation, *factor);
    found.met(if expected >> 32 == 0 { "level".into() } else { format!("refused {}", expected as u32) });
    let aim = [*azimuth, *elevation, *factor];
    found.hold(&got, &expected, || format!("{} at {}: {got:X}, expected {expected:X}", hex(parm), hex(&aim)));
}

fn with_factor(random: &mut Random, found: &mut Comparison) {
    hold(&case(random), found);
}

fn with_integral(random: &mut Random, found: &mut Comparison) {
    let parm = stations::curtain(random).to_vec();
    hold(&Case { parm, azimuth: azimuth(random), elevation: elevation(random), factor: INTEGRATE }, found);
}

/// One in a hundred more cases integrate.
pub fn compare(count: u64) -> Vec<Comparison> {
    let owed = ["level", "refused 2", "refused 5", "refused 7", "refused 8", "refused 10"];
    vec![
        run("hf_curtain", 12, count, with_factor).owing(&owed),
        run("hf_curtain, integral", 13, count / 100, with_integral).owing(&["level"]),
    ]
}

/// A curtain, at times with broken slots; many have no bay or no stack, and an integral of 0. Asked with the factor it answers what
/// it answers with the integral.
fn factor_found(random: &mut Random, found: &mut Comparison) {
    let mut parm = stations::curtain(random);
    match random.below(8) {
        0 => parm = stations::damaged(random, parm, 5),
        1 => parm[14] = stations::odd(random),
        _ => {}
    }
    let parm = &parm[..if random.below(20) == 0 { 19 } else { 20 }];
    let (got, expected) = (service::curtain_factor(parm), reference::curtain_factor(parm));
    found.met(if expected >> 32 == 0 { "factor".into() } else { format!("refused {}", expected as u32) });
    found.hold(&got, &expected, || format!("{}: {got:X}, expected {expected:X}", hex(parm)));
    if got >> 32 == 0 {
        let (azimuth, elevation, factor) = (azimuth(random), elevation(random), f32::from_bits(got as u32));
        let asked = [factor, INTEGRATE].map(|factor| service::curtain(parm, azimuth, elevation, factor));
        let aim = [azimuth, elevation, factor];
        found.hold(&asked[0], &asked[1], || format!("{} at {}: {:X}, expected {:X}", hex(parm), hex(&aim), asked[0], asked[1]));
    }
}

pub fn compare_factor(count: u64) -> Vec<Comparison> {
    let owed = ["factor", "refused 2", "refused 5", "refused 7", "refused 8", "refused 10"];
    vec![run("hf_curtain_factor", 60, count, factor_found).owing(&owed)]
}
