//! Card 1: `hf_curtain_levels` against the single call at each pair, the levels that are left and the readings.
use crate::cases::{first_difference, hex, run};
use crate::curtains::{azimuth, elevation, factor, INTEGRATE};
use oracle::expected::{self, INTEGRAL, PAIRS};
use oracle::random::Random;
use oracle::report::Comparison;
use oracle::{reference, service, stations};

/// What is lent before the call.
const LENT: f32 = 7.25;
/// An angle beyond the sine's domain: such a pair is refused as 10.
const BEYOND: f32 = 1e7;

struct Case {
    parm: Vec<f32>,
    factor: f32,
    directions: Vec<f32>,
    room: usize,
}

type Call = fn(&[f32], f32, &[f32], &mut [f32]) -> u64;

/// What a call answers, then the bits that it leaves.
fn left(call: Call, case: &Case) -> (u64, Vec<u32>) {
    let mut levels = vec![LENT; case.room];
    let answer = call(&case.parm, case.factor, &case.directions, &mut levels);
    (answer, levels.into_iter().map(f32::to_bits).collect())
}

/// The answer that is expected.
fn hold(case: &Case, found: &mut Comparison) -> u64 {
    let (got, expected) = (left(service::curtain_levels, case), left(reference::curtain_levels, case));
    found.hold(&got, &expected, || {
        let Case { parm, factor, directions, room } = case;
        let aim = format!("{} by {:08X} at {}, {room} levels", hex(parm), factor.to_bits(), hex(directions));
        format!("{aim}: {:X}, expected {:X}; {}", got.0, expected.0, first_difference(&got.1, &expected.1))
    });
    expected.0
}

/// The numbers of the pairs that are refused by themselves, in their order.
fn refused(case: &Case) -> Vec<u32> {
    let alone = |pair: &[f32]| reference::curtain(&case.parm, pair[0], pair[1], 1.0);
    case.directions.chunks_exact(2).map(alone).filter(|answer| answer >> 32 == 3).map(|answer| answer as u32).collect()
}

fn told(case: &Case, answer: u64, found: &mut Comparison) {
    match (answer >> 32, case.directions.len() / 2) {
        (0, 0) => found.met("no pair"),
        (0, PAIRS) => found.met("64 pairs"),
        (0, _) => found.met("levels"),
        _ => found.met(format!("refused {}", answer as u32)),
    }
    match (answer as u32, refused(case).iter().min()) {
        (10, Some(2)) if answer >> 32 == 3 => found.met("10 before 2"),
        _ => {}
    }
}

/// So many pairs: good ones, and in one of three cases some that may be refused.
fn directions(random: &mut Random, pairs: usize) -> Vec<f32> {
    let odd = random.below(3) == 0;
    let mut directions = Vec::new();
    for _ in 0..pairs {
        let pair = [random.between(-400.0, 400.0), random.between(-10.0, 100.0)];
        let strange = [azimuth(random), elevation(random)];
        directions.extend(if odd && random.below(4) == 0 { strange } else { pair });
        if odd && random.below(20) == 0 {
            let at = directions.len() - 1 - random.below(2) as usize;
            directions[at] = random.pick(&[BEYOND, -BEYOND, f32::NAN, f32::INFINITY]);
        }
    }
    directions
}

/// So many pairs; at times an odd number of floats, or levels of another number.
fn case(random: &mut Random, parm: Vec<f32>, factor: f32, pairs: u64) -> Case {
    let pairs = pairs as usize;
    let mut directions = directions(random, pairs);
    let room = match random.below(16) {
        0 => random.pick(&[pairs + 1, pairs.saturating_sub(1), 0, 2 * pairs]),
        _ => pairs,
    };
    if random.below(32) == 0 {
        directions.pop();
    }
    Case { parm, factor, directions, room }
}

fn with_factor(random: &mut Random, found: &mut Comparison) {
    let realistic = stations::curtain(random);
    let changed = random.below(4) == 0;
    let mut parm = if changed { stations::disturbed(random, realistic).to_vec() } else { realistic.to_vec() };
    if random.below(100) == 0 {
        parm.resize(random.pick(&[0, 1, 19, 21, 40]), 1.0);
    }
    let factor = if random.below(4) == 0 { factor(random) } else { random.between(0.1, 20.0) };
    let pairs = random.below(67);
    let case = case(random, parm, factor, pairs);
    let answer = hold(&case, found);
    told(&case, answer, found);
}

/// Many of these curtains have no bay or no stack, and an integral of 0. Three of four have few pairs, since the oracle integrates for
/// each of them.
fn with_integral(random: &mut Random, found: &mut Comparison) {
    let parm = stations::curtain(random);
    let most = random.pick(&[9, 9, 9, 67]);
    let pairs = random.below(most);
    let case = case(random, parm.to_vec(), INTEGRATE, pairs);
    let answer = hold(&case, found);
    told(&case, answer, found);
    if answer == u64::from(INTEGRAL) && expected::curtain_factor(&parm).is_err() {
        found.met("no pair, integral not finite");
    }
}

/// Of each number of pairs each one refused, as 2 or as 10, and those after it at random, as the other number.
fn every_place(random: &mut Random, found: &mut Comparison) {
    let mut parm = stations::curtain(random);
    (parm[5], parm[6]) = (4.0, 4.0);
    for place in 0..PAIRS {
        for pairs in place + 1..=PAIRS {
            for (first, other) in [(f32::NAN, BEYOND), (BEYOND, f32::INFINITY)] {
                let mut directions: Vec<f32> = (0..2 * pairs).map(|_| random.between(1.0, 80.0)).collect();
                directions[2 * place + random.below(2) as usize] = first;
                for after in place + 1..pairs {
                    if random.below(8) == 0 {
                        directions[2 * after + random.below(2) as usize] = other;
                    }
                }
                let case = Case { parm: parm.to_vec(), factor: 1.5, directions, room: pairs };
                let answer = hold(&case, found);
                found.met(format!("refused {}", answer as u32));
            }
        }
    }
}

/// The source's own readings for one direction: the integral's and one more, or one.
fn source_readings(random: &mut Random, found: &mut Comparison) {
    let parm = stations::curtain(random);
    let readings = [INTEGRATE, 1.5].map(|factor| expected::curtain_readings(&parm, factor));
    found.hold(&readings, &[INTEGRAL + 1, 1], || format!("{}: {readings:?}", hex(&parm)));
}

/// All counts of pairs from 0 to 66. One in ten cases more integrate.
pub fn compare(count: u64) -> Vec<Comparison> {
    let owed = ["levels", "no pair", "64 pairs", "refused 2", "refused 5", "refused 7", "refused 8", "refused 10", "10 before 2"];
    let integral = ["levels", "no pair", "no pair, integral not finite", "refused 2", "refused 8", "refused 10"];
    vec![
        run("hf_curtain_levels", 63, count, with_factor).owing(&owed),
        run("hf_curtain_levels, integral", 64, count / 10, with_integral).owing(&integral),
        run("hf_curtain_levels, every place", 65, 1, every_place).owing(&["refused 2", "refused 10"]),
        run("the source's readings of a curtain", 66, 20, source_readings),
    ]
}
