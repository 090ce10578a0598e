//! Which slot a refusal is about: `hf_why` and `hf_curtain_why` against a list of all slots that break a limit, and against the
//! number that set-up, or the curtain, refuses with.
use crate::cases::{hex, run};
use oracle::random::Random;
use oracle::report::Comparison;
use oracle::{reference, service, stations};

/// What an answer is, for a report; of the twenty slots that may not be finite only the number.
fn kind(answer: u64) -> String {
    match (answer >> 32, answer >> 16 & 0xffff, answer & 0xffff) {
        (0, _, _) => "nothing".into(),
        (3, _, number) => format!("refused {number}"),
        (_, 2, _) => "2".into(),
        (_, number, slot) => format!("{number} at {slot}"),
    }
}

/// The number that is told, 0 for nothing.
fn number(answer: u64) -> u32 {
    (answer >> 16 & 0xffff) as u32
}

/// Two in three hundred aren't twenty floats.
fn lent(random: &mut Random, parm: stations::Parm) -> Vec<f32> {
    let mut parm = parm.to_vec();
    if random.below(150) == 0 {
        parm.resize(random.pick(&[0, 1, 19, 21, 40]), 1.0);
    }
    parm
}

fn hold(parm: &[f32], got: u64, expected: u64, found: &mut Comparison) {
    found.met(kind(expected));
    found.hold(&got, &expected, || format!("{}: {got:X}, expected {expected:X}", hex(parm)));
}

/// Where set-up refuses for another reason, the pattern, nothing is told.
fn station(random: &mut Random, found: &mut Comparison) {
    let parm = stations::station(random);
    let parm = stations::damaged(random, parm, 5);
    let parm = lent(random, parm);
    let got = service::why(&parm);
    hold(&parm, got, reference::why(&parm), found);
    if got >> 32 != 3 {
        let refused = service::gains(&parm, 10.0, &[], &mut [0; 4]);
        let refused = if refused == 9 { 0 } else { refused };
        found.hold(&number(got), &refused, || format!("{}: {got:X}, set-up refuses with {refused}", hex(&parm)));
    }
}

/// Where the level isn't finite nothing is told.
fn curtain(random: &mut Random, found: &mut Comparison) {
    let parm = stations::curtain(random);
    let parm = stations::damaged(random, parm, 5);
    let parm = lent(random, parm);
    let got = service::curtain_why(&parm);
    hold(&parm, got, reference::curtain_why(&parm), found);
    if got >> 32 != 3 {
        let answer = service::curtain(&parm, 10.0, 20.0, 1.5);
        let refused = if answer >> 32 == 3 && answer as u32 != 10 { answer as u32 } else { 0 };
        found.hold(&number(got), &refused, || format!("{}: {got:X}, the curtain refuses with {refused}", hex(&parm)));
    }
}

const OF_STATIONS: [&str; 14] = [
    "nothing",
    "refused 8",
    "2",
    "3 at 1",
    "5 at 4",
    "5 at 5",
    "5 at 7",
    "6 at 5",
    "6 at 6",
    "7 at 9",
    "7 at 10",
    "7 at 11",
    "7 at 13",
    "7 at 14",
];

pub fn compare(count: u64) -> Vec<Comparison> {
    vec![
        run("hf_why", 61, count, station).owing(&OF_STATIONS).owing(&["7 at 12"]),
        run("hf_curtain_why", 62, count, curtain).owing(&["nothing", "refused 8", "2", "5 at 4", "5 at 7", "7 at 14"]),
    ]
}
