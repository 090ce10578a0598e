//! The elementary functions' edges that document 01 states, and the ends of the subnormal numbers, which document 02's card 3 gave
//! the logarithms: these numbers, held against the oracle and against the proved library.
use oracle::leaf::{by_rules, Leaf};
use oracle::report::Comparison;
use oracle::service;

const NAN: u32 = 0x7fc0_0000;

/// Function, argument, answer, all but the arguments as bits. Numbers from 7 on name no function.
const LEAVES: [(u32, f32, u32); 20] = [
    (1, 0.0, 0x3f80_0000),
    (0, -0.0, 0x8000_0000),
    (0, 0.0, 0),
    (0, 65_536.01, NAN),
    (1, -65_536.01, NAN),
    (0, f32::INFINITY, NAN),
    (3, 1.0, 0),
    (2, 1.0, 0),
    (3, f32::INFINITY, NAN),
    (3, f32::from_bits(1), 0xc233_69f3),
    (2, f32::from_bits(1), 0xc2ce_8ed0),
    (3, f32::from_bits(0x7f_ffff), 0xc217_b818),
    (2, f32::from_bits(0x7f_ffff), 0xc2ae_ac50),
    (3, 0.0, NAN),
    (2, -1e-45, NAN),
    (6, 4.0, 0x4000_0000),
    (6, -0.0, 0x8000_0000),
    (6, -1.0, NAN),
    (7, 1.0, NAN),
    (u32::MAX, 1.0, NAN),
];

fn leaves(name: &str, leaf: Leaf) -> Comparison {
    let mut found = Comparison::new(format!("edges of the leaves, {name}"));
    for (which, x, expected) in LEAVES {
        let got = leaf(which, x.to_bits(), 0);
        found.hold(&got, &expected, || format!("function {which} of {x}: {got:08X}, expected {expected:08X}"));
    }
    for x in [65_536f32, -65_536.0] {
        found.hold(&(leaf(0, x.to_bits(), 0) == NAN), &false, || format!("sin {x} is a NaN"));
    }
    found
}

pub fn compare(_: u64) -> Vec<Comparison> {
    vec![leaves("oracle", by_rules), leaves("hf_leaf", service::leaf)]
}
