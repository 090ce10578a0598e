//! The band book: a lookup in a good book of 64 rows, which judges the book too, beside the counting of every kHz.
use crate::clock::least;
use oracle::bandbook;
use oracle::books;
use oracle::random::Random;
use oracle::service;
use std::hint::black_box;

const CALLS: usize = 64;
const ROUNDS: usize = 480;

/// A lookup of as many kHz of the span as there are calls.
fn call_all(book: &[u32], khz: &[u32], station_for: impl Fn(&[u32], u32) -> u64) {
    black_box(khz.iter().fold(0, |mixed, khz| mixed ^ station_for(black_box(book), black_box(*khz))));
}

pub fn run() {
    let mut random = Random(8);
    // Cuts may fall together: take a tiling that has all 64 rows.
    let rows = std::iter::repeat_with(|| books::tiling(&mut random, bandbook::ROWS)).find(|rows| rows.len() == bandbook::ROWS);
    let book = rows.expect("a book of 64 rows").concat();
    let khz: Vec<u32> = (0..CALLS).map(|_| 2000 + random.below(28_000) as u32).collect();
    let [rattle, counting] = least(
        ROUNDS,
        CALLS,
        [&mut |_| call_all(&book, &khz, service::station_for), &mut |_| call_all(&book, &khz, bandbook::station_for)],
    );
    println!("| call | Rattle µs | counting µs | ratio |");
    println!("|---|---|---|---|");
    println!("| lookup, 64 rows | {:6.2} | {:6.2} | {:5.2} |", rattle / 1e3, counting / 1e3, rattle / counting);
}
