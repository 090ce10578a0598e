//! The exercise board: runs of hundreds of calls, of which the oracle keeps the list of those on the air; and calls on damaged words.
use crate::cases::{first_difference, run};
use oracle::board::{self, Air, AIR, AZIMUTHS, WORDS};
use oracle::random::Random;
use oracle::report::Comparison;
use oracle::service;
use oracle::stored::LEFT;

/// Calls in a run.
const CALLS: u64 = 300;

/// A row of a few numbers that often equal another's, zeros of both signs among them, in broad sectors; some are broken.
fn row(random: &mut Random) -> Vec<f32> {
    const NUMBERS: [f32; 10] = [0.0, -0.0, 7.5, 7.500_000_5, -30.0, -30.000_002, -120.0, f32::MAX, f32::MIN, 1e-45];
    let sector = 1 + random.below(90) as usize;
    let mut x = 0.0;
    let mut row: Vec<f32> = (0..AZIMUTHS)
        .map(|v| {
            if v % sector == 0 {
                x = if random.below(3) == 0 { random.between(-60.0, 20.0) } else { random.pick(&NUMBERS) };
            }
            x
        })
        .collect();
    if random.below(20) == 0 {
        row[random.below(360) as usize] = random.pick(&[f32::NAN, f32::INFINITY, f32::NEG_INFINITY]);
    }
    if random.below(20) == 0 {
        row.resize(random.pick(&[0, 1, 359, 361, 720]), 1.0);
    }
    row
}

/// Mostly one of so few that it is often on already; at times one that no station has.
fn id(random: &mut Random, pool: u64) -> u32 {
    match random.below(12) {
        0 => random.pick(&[0, 65_535, 65_536, 65_537, u32::MAX]),
        _ => 1 + random.below(pool) as u32,
    }
}

fn name(answer: u32, accepted: &str) -> String {
    match answer {
        0 => accepted.into(),
        number => format!("refused {number}"),
    }
}

/// What `show` writes, by bits; lent lengths that are wrong in one of ten.
fn shown(random: &mut Random, words: &[u32], found: &mut Comparison, expected: impl Fn(&mut [f32], &mut [u32]) -> u32) {
    let length = |random: &mut Random| if random.below(20) == 0 { random.pick(&[0, 359, 361]) } else { AZIMUTHS };
    let (n, m) = (length(random), length(random));
    let mut got = (vec![f32::from_bits(LEFT); n], vec![LEFT; m]);
    let mut right = got.clone();
    let answer = service::board_show(words, &mut got.0, &mut got.1);
    let number = expected(&mut right.0, &mut right.1);
    let bits = |floats: &[f32]| floats.iter().map(|x| x.to_bits()).collect::<Vec<_>>();
    found.met(name(number, "shown"));
    found.hold(&(answer, bits(&got.0), got.1), &(number, bits(&right.0), right.1), || {
        format!("show: {answer}, expected {number}")
    });
}

/// A run from an empty board: the words after each call are those of the list, and a refused call leaves the list as it was.
fn one_run(random: &mut Random, found: &mut Comparison) {
    let (pool, joins) = (1 + random.below(40), 1 + random.below(8));
    let mut words = vec![LEFT; WORDS];
    let mut air = Air::default();
    found.hold(&(service::board_empty(&mut words), &words), &(0, &air.words()), || "not an empty board".into());
    for _ in 0..CALLS {
        let id = id(random, pool);
        match random.below(10) {
            0 => shown(random, &words, found, |numbers, ids| board::show(&air.words(), numbers, ids)),
            k => {
                let row = row(random);
                let (got, answer) = if k <= joins {
                    (service::board_join(&mut words, id, &row), air.join(id, &row))
                } else {
                    (service::board_leave(&mut words, id), air.leave(id))
                };
                let number = answer.err().unwrap_or(0);
                found.met(name(number, if k <= joins { "joined" } else { "left" }));
                found.hold(&(got, &words), &(number, &air.words()), || {
                    format!("id {id}, {} on: {got}, expected {number}; {}", air.count(), first_difference(&words, &air.words()))
                });
            }
        }
    }
}

/// The words of a board with some on, and then others.
fn damaged(random: &mut Random) -> Vec<u32> {
    let mut air = Air::default();
    for _ in 0..random.below(20) {
        // A refused join is as good.
        let _ = air.join(1 + random.below(40) as u32, &row(random));
    }
    let mut words = air.words();
    let count = air.count();
    let place = |random: &mut Random, n: usize| 1 + 361 * random.below(n.max(1) as u64) as usize;
    match random.below(13) {
        0 => words.resize(random.pick(&[0, 1, AIR, WORDS - 1, WORDS + 1, 2 * WORDS]), 0),
        1 => words[0] = random.pick(&[0, 15, 16, 17, 18, u32::MAX, count as u32 + 1, (count as u32).wrapping_sub(1)]),
        2 => words[place(random, count)] = random.pick(&[0, 65_535, 65_536, u32::MAX]),
        3 => {
            let (from, to) = (place(random, count), place(random, count));
            words[to] = words[from];
        }
        4 => {
            let at = place(random, count) + 1 + random.below(360) as usize;
            words[at] = random.pick(&[0x7f80_0000, 0xff80_0000, 0x7fc0_0000, 0xffff_ffff, 0x7f7f_ffff, 0x8000_0000]);
        }
        5 => words[AIR - 1 - random.below(361) as usize] = random.pick(&[1, 0x8000_0000]),
        6 => {
            let at = random.below(WORDS as u64) as usize;
            words[at] ^= 1 << random.below(32);
        }
        7 => words[AIR + random.below(360) as usize] ^= 1 << random.below(32),
        8 => words[WORDS - 1 - random.below(360) as usize] = random.pick(&[0, 1, 2, 40, 65_536]),
        // Another of those on is shown, with its own number.
        9 => {
            let (from, v) = (place(random, count), random.below(360) as usize);
            (words[AIR + v], words[AIR + AZIMUTHS + v]) = (words[from + 1 + v], words[from]);
        }
        _ => {}
    }
    words
}

/// Each call on words that a run may not leave.
fn on_damaged(random: &mut Random, found: &mut Comparison) {
    let given = damaged(random);
    let (id, row) = (id(random, 40), row(random));
    let (mut got, mut right) = (given.clone(), given.clone());
    let (answer, number) = match random.below(4) {
        0 => (service::board_empty(&mut got), board::empty(&mut right)),
        1 => (service::board_join(&mut got, id, &row), board::join(&mut right, id, &row)),
        2 => (service::board_leave(&mut got, id), board::leave(&mut right, id)),
        _ => return shown(random, &given, found, |numbers, ids| board::show(&given, numbers, ids)),
    };
    found.met(name(number, "accepted"));
    found.hold(&(answer, &got), &(number, &right), || {
        format!("id {id}, {} words: {answer}, expected {number}; {}", given.len(), first_difference(&got, &right))
    });
}

pub fn compare(count: u64) -> Vec<Comparison> {
    let refusals = ["refused 2", "refused 8", "refused 16", "refused 17"];
    vec![
        run("hf_board_*: runs of 300 calls", 40, count, one_run).owing(&refusals).owing(&["joined", "left", "shown"]),
        run("hf_board_*: damaged words", 41, 100 * count, on_damaged).owing(&refusals).owing(&["accepted", "shown"]),
    ]
}
