//! The elementary functions, each called through the same boundary: a number, bits in, bits out, not inlined.
use crate::clock::least;
use oracle::leaf::{by_plain, by_std, NAMES};
use oracle::random::Random;
use oracle::service;
use std::hint::black_box;

/// A round calls with the next few of many inputs, so that no branch is learnt by heart.
const INPUTS: usize = 1 << 16;
const CALLS: usize = 1 << 12;
const ROUNDS: usize = 480;

fn call_all(inputs: &[u32], round: usize, leaf: impl Fn(u32) -> u32) {
    let start = round * CALLS % INPUTS;
    let mixed = inputs[start..start + CALLS].iter().fold(0, |mixed, a| mixed ^ leaf(black_box(*a)));
    black_box(mixed);
}

/// Angles of both signs for sine and cosine, tangents for atan, positive numbers for the rest.
fn inputs(which: u32) -> Vec<u32> {
    let mut random = Random(7);
    let (low, high) = match which {
        0 | 1 => (-360.0, 360.0),
        5 => (-4.0, 4.0),
        _ => (0.001, 2000.0),
    };
    (0..INPUTS).map(|_| random.between(low, high).to_bits()).collect()
}

fn row(which: u32) {
    let xs = inputs(which);
    let y = black_box(0.3f32.to_bits());
    let [rattle, plain, std] = least(
        ROUNDS,
        CALLS,
        [
            &mut |round| call_all(&xs, round, |a| service::leaf(which, a, y)),
            &mut |round| call_all(&xs, round, |a| by_plain(which, a, y)),
            &mut |round| call_all(&xs, round, |a| by_std(which, a, y)),
        ],
    );
    let name = NAMES[which as usize];
    println!("| {name:5} | {rattle:6.1} | {plain:6.1} | {:5.2} | {std:6.1} | {:5.1} |", rattle / plain, rattle / std);
}

pub fn run() {
    println!("| call  | Rattle ns | plain Rust ns | ratio | std ns | ratio |");
    println!("|---|---|---|---|---|---|");
    for which in 0..NAMES.len() as u32 {
        row(which);
    }
}
