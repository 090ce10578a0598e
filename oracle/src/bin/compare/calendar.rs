//! Seasons and service hours: `hf_season`, `hf_next_season` and `hf_open` against the walk through a hundred years and through the
//! minutes of a day.
use oracle::calendar::{self, walk, Date, MINUTES};
use oracle::random::Random;
use oracle::report::Comparison;
use oracle::service;
use oracle::stored::LEFT;

const REFUSED: u64 = 3 << 32;

fn met(found: &mut Comparison, answer: u64, words: [&str; 2]) {
    found.met(if answer < REFUSED { words[answer as usize].into() } else { format!("refused {}", answer - REFUSED) });
}

/// Both calls at one time, with so many words lent.
fn at((year, month, day): Date, minute: u32, lent: usize, seasons: &mut Comparison, next: &mut Comparison) {
    let got = service::season(year, month, day, minute);
    let expected = calendar::season(year, month, day, minute);
    met(seasons, expected, ["A", "B"]);
    seasons.hold(&got, &expected, || format!("{year}-{month}-{day} minute {minute}: {got:X}, expected {expected:X}"));
    let (mut out, mut expected_out) = (vec![LEFT; lent], vec![LEFT; lent]);
    let got = service::next_season(year, month, day, minute, &mut out);
    let expected = calendar::next_season(year, month, day, minute, &mut expected_out);
    met(next, expected, ["none left", "a change"]);
    next.hold(&(got, &out), &(expected, &expected_out), || {
        format!("{year}-{month}-{day} minute {minute}, {lent} lent: {got:X} {out:?}, expected {expected:X} {expected_out:?}")
    });
}

/// Every date of the hundred years at the ends of the day and around the hour of the changes; every minute of a change's day and of
/// the days beside it.
fn every_date(seasons: &mut Comparison, next: &mut Comparison) {
    for date in &walk().days {
        for minute in [0, 1, 59, 60, 61, 1438, 1439] {
            at(*date, minute, 4, seasons, next);
        }
    }
    for ((number, _), _) in &walk().changes {
        for date in &walk().days[number - 1..=number + 1] {
            (0..MINUTES).for_each(|minute| at(*date, minute, 4, seasons, next));
        }
    }
}

/// Years, months, days and minutes at their limits and past them, each with each.
fn limits(seasons: &mut Comparison, next: &mut Comparison) {
    for year in [0, 1900, 1999, 2000, 2001, 2004, 2026, 2096, 2099, 2100, 4000, 1 << 31, u32::MAX] {
        for month in (0..=14).chain([255, 1 << 16, u32::MAX]) {
            for day in (0..=33).chain([256, u32::MAX]) {
                for minute in [0, 59, 60, 1439, 1440, u32::MAX] {
                    at((year, month, day), minute, 4, seasons, next);
                }
            }
        }
    }
}

fn random_time(random: &mut Random) -> (Date, u32) {
    let below = |random: &mut Random, n: u64| random.below(n) as u32;
    match random.below(8) {
        0 => ((random.bits(), below(random, 14), below(random, 33)), below(random, 1500)),
        1 => ((2000 + below(random, 100), random.bits(), random.bits()), random.bits()),
        _ => ((1999 + below(random, 102), below(random, 14), below(random, 33)), below(random, 1450)),
    }
}

fn seasons(count: u64) -> [Comparison; 2] {
    let [mut seasons, mut next] = ["hf_season", "hf_next_season"].map(Comparison::new);
    every_date(&mut seasons, &mut next);
    limits(&mut seasons, &mut next);
    let mut random = Random(18);
    for _ in 0..count {
        let (date, minute) = random_time(&mut random);
        let lent = if random.below(20) == 0 { random.pick(&[0, 1, 3, 5, 8]) } else { 4 };
        at(date, minute, lent, &mut seasons, &mut next);
    }
    let refused = ["refused 11"];
    [seasons.owing(&["A", "B"]).owing(&refused), next.owing(&["a change", "none left", "refused 8"]).owing(&refused)]
}

fn one_service(first: u32, end: u32, minute: u32, found: &mut Comparison) {
    let (got, expected) = (service::open(first, end, minute), calendar::open(first, end, minute));
    met(found, expected, ["shut", "open"]);
    found.hold(&got, &expected, || format!("{first} to {end} at {minute}: {got:X}, expected {expected:X}"));
}

/// Pairs at a stride, each at every minute; pairs near the day's ends and past it; any numbers.
fn hours(count: u64) -> Comparison {
    let mut found = Comparison::new("hf_open");
    for first in (0..MINUTES).step_by(7) {
        for end in (0..MINUTES).step_by(11) {
            let expected = calendar::hours(first, end).map(u64::from);
            let got: [u64; MINUTES as usize] = std::array::from_fn(|minute| service::open(first, end, minute as u32));
            found.hold(&got, &expected, || format!("{first} to {end} is open at other minutes"));
        }
    }
    let ends = [0, 1, 2, 59, 60, 719, 720, 1437, 1438, 1439, 1440, 1441, 1 << 16, u32::MAX];
    for first in ends {
        for end in ends {
            ends.iter().for_each(|minute| one_service(first, end, *minute, &mut found));
        }
    }
    let mut random = Random(19);
    for _ in 0..count {
        let mut any = || if random.below(16) == 0 { random.bits() } else { random.below(1442) as u32 };
        one_service(any(), any(), any(), &mut found);
    }
    found.owing(&["open", "shut", "refused 11"])
}

pub fn compare(count: u64) -> Vec<Comparison> {
    seasons(count).into_iter().chain([hours(count)]).collect()
}
