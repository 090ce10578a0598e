//! The antennas' edges that document 01 states: its own numbers, held against the oracle and against the proved library.
use oracle::antennas::{SetUp, ANTENNA, FOUND};
use oracle::expected::{Gains, ROW, TABLE};
use oracle::reference;
use oracle::report::Comparison;
use oracle::service;

type Maxgain = fn(u32, &[f32], &mut [u32]) -> u32;
type Curtain = fn(&[f32], f32, f32, f32) -> u64;
type Row = fn(&[u32], &[f32], f32, f32, &mut [f32]) -> u64;

const MINUS_30: u32 = 0xc1f0_0000;

fn parm(slots: &[(usize, f32)]) -> [f32; 20] {
    let mut parm = [0.0; 20];
    slots.iter().for_each(|(slot, x)| parm[*slot] = *x);
    parm
}

/// Mode 1 at 31 MHz with design 1 gives 10 and 10; mode 2 at 30 takes the last two entries; at 31 it is 5; a type of 0.49999997
/// rounds to 1, of the float below it to none.
fn maxgain(name: &str, maxgain: Maxgain) -> Comparison {
    let mut found = Comparison::new(format!("edges of setmaxgain, {name}"));
    let gainmaxb = std::array::from_fn(|k| k as f32 * 0.3);
    let answer = |mode, jant, mhz| {
        let mut out = [0; 21];
        let given = Gains { mode, parm: parm(&[(1, jant)]), gainmax: [[0.0; 3]; 2], gainmaxb, mhz, design: 1.0 };
        (maxgain(mode, &given.floats(), &mut out), out[0], out[5], out[8])
    };
    let ten = 10f32.to_bits();
    let last = gainmaxb[28] + (gainmaxb[29] - gainmaxb[28]);
    let edges = [
        (answer(1, 5.0, 31.0), (0, 0, ten, ten)),
        (answer(2, 5.0, 30.0), (0, last.to_bits(), 30f32.to_bits(), 0)),
        (answer(2, 5.0, 31.0), (5, 0, 0, 0)),
        (answer(3, 5.0, 10.0), (4, 0, 0, 0)),
        (answer(0, 0.499_999_97, 10.0), (0, 0, 0, 0)),
        (answer(0, 0.499_999_94, 10.0), (3, 0, 0, 0)),
    ];
    for (got, expected) in edges {
        found.hold(&got, &expected, || format!("{got:X?}, expected {expected:X?}"));
    }
    found
}

/// A curtain whose pattern isn't 0.
const SHAPED: [(usize, f32); 10] =
    [(4, 10.0), (5, 4.0), (6, 2.0), (7, 10.0), (8, 15.0), (9, 10.0), (10, 15.0), (11, 15.0), (12, 7.0), (13, 4.0)];

/// The curtain of nothing but its two frequencies, ahead and behind; a factor of 0 with a pattern that isn't 0.
fn curtain(name: &str, curtain: Curtain) -> Comparison {
    let mut found = Comparison::new(format!("edges of the curtain, {name}"));
    let blank = parm(&[(4, 10.0), (7, 10.0)]);
    let edges = [
        (curtain(&blank, 0.0, 0.0, 1.0), (-1000f32).to_bits().into()),
        (curtain(&blank, 180.0, 0.0, 1.0), (-1020f32).to_bits().into()),
        (curtain(&parm(&SHAPED), 10.0, 20.0, 0.0), 3 << 32 | 10),
    ];
    for (got, expected) in edges {
        found.hold(&got, &expected, || format!("{got:X}, expected {expected:X}"));
    }
    found
}

/// Slew 27 is step 6, whose first slew is 24, and 28 step 7, whose last is 90; `nint`(0.49999997) is 1, of the float below it 0.
fn roundings(name: &str, curtain: Curtain) -> Comparison {
    let mut found = Comparison::new(format!("roundings of the curtain, {name}"));
    let with = |slot, x| {
        let mut parm = parm(&SHAPED);
        parm[slot] = x;
        curtain(&parm, 10.0, 20.0, 1.0)
    };
    let [slew, stacks] = [14, 6].map(|slot| move |x| with(slot, x));
    let edges = [
        ("slew 27 is step 6", slew(27.0) == slew(24.0), true),
        ("slew 28 is step 7", slew(28.0) == slew(90.0), true),
        ("step 6 is step 7", slew(27.0) == slew(28.0), false),
        ("nint(0.49999997) is 1", stacks(0.499_999_97) == stacks(1.0), true),
        ("nint(0.49999994) is 0", stacks(0.499_999_94) == stacks(0.0), true),
        ("a stack is none", stacks(1.0) == stacks(0.0), false),
    ];
    for (what, got, expected) in edges {
        found.hold(&got, &expected, || format!("{what}: {got}, expected {expected}"));
    }
    found
}

/// Case P is silent throughout, its table +0, its row -30; a type 1 with slot 11 at 0 is refused as 9.
fn row(name: &str, set_up: SetUp, row: Row) -> Comparison {
    let mut found = Comparison::new(format!("edges of set-up and row, {name}"));
    let mut p = parm(&[(1, 5.0), (2, 4.0), (3, 0.001), (4, 10.0), (5, 2.0), (6, 40.0), (7, 80.0)]);
    p[8..11].fill(10.0);
    let unreflected =
        parm(&[(1, 1.0), (2, 4.0), (3, 0.001), (4, 10.0), (5, 2.0), (6, 2.0), (7, 10.0), (8, 0.5), (10, 0.3), (12, 2.0)]);
    let answer = |parm: &[f32; 20]| {
        let (mut table, mut antenna, mut numbers, mut out) = ([1.0; TABLE], [0; ANTENNA], [1.0; ROW], [1; FOUND]);
        let code = set_up(parm, &mut table, &mut antenna, &mut out);
        let front_to_back = row(&antenna, &table, 5.0, 10.0, &mut numbers);
        (code, out, front_to_back, numbers.map(f32::to_bits), table.iter().all(|x| x.to_bits() == 0))
    };
    let silent = (0, [90, 0, 90f32.to_bits(), 0], 0, [MINUS_30; ROW], true);
    // The record is left as it was, words of no type.
    let refused = (9, [1; FOUND], 3 << 32 | 3, [1f32.to_bits(); ROW], false);
    for (parm, expected) in [(p, silent), (unreflected, refused)] {
        let got = answer(&parm);
        found.hold(&got, &expected, || {
            format!("{:?}, expected {:?}", (got.0, got.1, got.2), (expected.0, expected.1, expected.2))
        });
    }
    found
}

pub fn compare(_: u64) -> Vec<Comparison> {
    vec![
        maxgain("oracle", reference::maxgain),
        curtain("oracle", reference::curtain),
        roundings("oracle", reference::curtain),
        row("oracle", reference::setup, reference::row_of),
        maxgain("hf_maxgain", service::maxgain),
        curtain("hf_curtain", service::curtain),
        roundings("hf_curtain", service::curtain),
        row("hf_setup and hf_plate_row", service::setup, service::row_of),
    ]
}
