//! The exercise board's calls, with fifteen or sixteen on: the most that they have to look at.
use crate::clock::least;
use oracle::board::{AZIMUTHS, PLACES, WORDS};
use oracle::random::Random;
use oracle::service;
use std::cell::RefCell;
use std::hint::black_box;

/// Sixteen rows of random numbers.
fn rows() -> Vec<Vec<f32>> {
    let mut random = Random(23);
    (0..PLACES).map(|_| (0..AZIMUTHS).map(|_| random.between(-30.0, 20.0)).collect()).collect()
}

/// A full board, of ids 1 to 16.
fn full(rows: &[Vec<f32>]) -> Vec<u32> {
    let mut words = vec![0; WORDS];
    assert!(service::board_empty(&mut words) == 0);
    (1..).zip(rows).for_each(|(id, row)| assert!(service::board_join(&mut words, id, row) == 0));
    words
}

/// A station of a full board leaves and joins again, by turns the one that `pick` gives for a round.
fn leave_and_join(rows: &[Vec<f32>], pick: impl Fn(usize) -> usize) -> [f64; 2] {
    let words = RefCell::new(full(rows));
    least(
        20_000,
        1,
        [
            &mut |round| assert!(black_box(service::board_leave)(&mut words.borrow_mut(), 1 + pick(round) as u32) == 0),
            &mut |round| {
                let k = pick(round);
                assert!(black_box(service::board_join)(&mut words.borrow_mut(), 1 + k as u32, &rows[k]) == 0);
            },
        ],
    )
}

pub fn run() {
    let rows = rows();
    let [leave, join] = leave_and_join(&rows, |round| round % PLACES);
    let mut strong = rows.clone();
    strong[0] = vec![30.0; AZIMUTHS];
    let [leave_shown, _] = leave_and_join(&strong, |_| 0);
    let words = full(&rows);
    let (mut numbers, mut ids) = ([0.0; AZIMUTHS], [0; AZIMUTHS]);
    let [show] = least(20_000, 1, [&mut |_| assert!(black_box(service::board_show)(&words, &mut numbers, &mut ids) == 0)]);
    println!("| board: the sixteenth joins | {:5.2} |", join / 1000.0);
    println!("| board: one of sixteen leaves | {:3.2} |", leave / 1000.0);
    println!("| board: one shown at every azimuth leaves | {:3.2} |", leave_shown / 1000.0);
    println!("| board: show, sixteen on | {:8.2} |", show / 1000.0);
}
