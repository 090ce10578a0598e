//! The calendar's calls, at any times of the hundred years and any hours.
use crate::clock::least;
use oracle::random::Random;
use oracle::service;
use std::hint::black_box;

const INPUTS: usize = 1 << 16;
const CALLS: usize = 1 << 12;
const ROUNDS: usize = 480;

fn call_all(inputs: &[[u32; 4]], round: usize, mut call: impl FnMut([u32; 4]) -> u64) {
    let start = round * CALLS % INPUTS;
    black_box(inputs[start..start + CALLS].iter().fold(0, |mixed, given| mixed ^ call(black_box(*given))));
}

pub fn run() {
    let mut random = Random(8);
    let mut below = |n: u64| random.below(n) as u32;
    let times: Vec<[u32; 4]> = (0..INPUTS).map(|_| [2000 + below(100), 1 + below(12), 1 + below(28), below(1440)]).collect();
    let hours: Vec<[u32; 4]> = (0..INPUTS).map(|_| [0; 4].map(|_: u32| below(1440))).collect();
    let mut out = [0; 4];
    let found = least(
        ROUNDS,
        CALLS,
        [
            &mut |round| call_all(&times, round, |[y, m, d, minute]| service::season(y, m, d, minute)),
            &mut |round| call_all(&times, round, |[y, m, d, minute]| service::next_season(y, m, d, minute, &mut out)),
            &mut |round| call_all(&hours, round, |[first, end, minute, _]| service::open(first, end, minute)),
        ],
    );
    println!("\n| call  | Rattle ns |");
    println!("|---|---|");
    for (name, ns) in ["season", "next season", "open"].iter().zip(found) {
        println!("| {name:11} | {ns:6.1} |");
    }
}
