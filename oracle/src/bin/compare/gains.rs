//! Set-up, then gains: `hf_gains` against `antinit2` and `ccirgain` of the source.
use crate::cases::{first_difference, hex, run};
use oracle::random::Random;
use oracle::report::Comparison;
use oracle::stored::LEFT;
use oracle::{reference, service, stations};

struct Case {
    parm: Vec<f32>,
    giso: f32,
    directions: Vec<f32>,
    words: usize,
}

/// Degrees of every kind: whole, fractions, beside the folds, negative, huge, broken.
pub fn angle(random: &mut Random, high: f32) -> f32 {
    match random.below(10) {
        0 => stations::odd(random),
        1 => f32::from_bits((90.0 * random.below(7) as f32).to_bits().saturating_add(random.below(3) as u32).saturating_sub(1)),
        2 => random.between(-1000.0, 1000.0),
        3 | 4 => random.between(0.0, high),
        _ => random.between(0.0, high).round(),
    }
}

fn case(random: &mut Random) -> Case {
    let mut parm = stations::station(random).to_vec();
    let pairs = random.below(9) as usize;
    let mut directions: Vec<f32> = (0..pairs).flat_map(|_| [angle(random, 90.0), angle(random, 360.0)]).collect();
    let mut words = 4 + 2 * pairs;
    match random.below(400) {
        0 => parm.resize(random.pick(&[0, 19, 21]), 1.0),
        1 => directions.push(1.0),
        2 => words = random.pick(&[0, 3, words - 1, words + 1, words + 2]),
        _ => {}
    }
    Case { parm, giso: stations::giso(random), directions, words }
}

/// Counts the kinds among the words of an accepted set-up.
fn tally(words: &[u32], found: &mut Comparison) {
    for answer in words[4..].chunks(2) {
        match answer[0] {
            3 => found.met(format!("gain refused {}", answer[1])),
            kind => found.met(["level", "floor", "silence"][kind as usize]),
        }
    }
}

fn one(random: &mut Random, found: &mut Comparison) {
    let Case { parm, giso, directions, words } = case(random);
    let (mut out, mut expected_out) = (vec![LEFT; words], vec![LEFT; words]);
    let got = service::gains(&parm, giso, &directions, &mut out);
    let expected = reference::gains(&parm, giso, &directions, &mut expected_out);
    match expected {
        0 => tally(&expected_out, found),
        number => found.met(format!("refused {number}")),
    }
    found.hold(&(got, &out), &(expected, &expected_out), || {
        let words = first_difference(&out, &expected_out);
        let (parm, giso, directions) = (hex(&parm), hex(&[giso]), hex(&directions));
        format!("{parm} giso {giso} at {directions}: {got}, expected {expected}; {words}")
    });
}

pub fn compare(count: u64) -> Vec<Comparison> {
    let refused = ["refused 2", "refused 3", "refused 5", "refused 6", "refused 7", "refused 8", "refused 9"];
    let answers = ["level", "floor", "silence", "gain refused 2", "gain refused 10"];
    vec![run("hf_gains", 14, count, one).owing(&refused).owing(&answers)]
}
