//! A record of the field strengths into a full ring, beside the oracle, which makes the whole run anew from the state.
use crate::clock::least;
use oracle::levels::{self, SHOWN, STATE};
use oracle::random::Random;
use oracle::service;
use std::hint::black_box;

const RECORDS: usize = 1000;

pub fn run() {
    let mut random = Random(25);
    let sent: Vec<f32> = (0..RECORDS).map(|_| random.between(-140.0, -20.0)).collect();
    let mut full = [0; STATE];
    let mut out = [0; SHOWN];
    sent.iter().for_each(|level| assert!(levels::record(&mut full, *level, &mut out) == 0));
    let call = |record: fn(&mut [u32], f32, &mut [u32]) -> u32| {
        let (mut state, mut out) = (full, [0; SHOWN]);
        sent.iter().for_each(|level| assert!(black_box(record)(&mut state, *level, &mut out) == 0));
        black_box(out);
    };
    let [rattle, oracle] = least(200, RECORDS, [&mut |_| call(service::record_level), &mut |_| call(levels::record)]);
    println!("\n| call | Rattle µs | oracle µs |\n|---|---|---|");
    println!("| a field strength recorded | {:.3} | {:.3} |", rattle / 1000.0, oracle / 1000.0);
}
