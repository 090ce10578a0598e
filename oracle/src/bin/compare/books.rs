//! The band book: `hf_book` and `hf_station_for` against the counting of every kHz.
use crate::cases::run;
use oracle::bandbook::{self, SPAN};
use oracle::random::Random;
use oracle::report::Comparison;
use oracle::{books, service};

/// What an answer is, for a report.
fn kind(answer: u64, accepted: &str) -> String {
    match (answer >> 32, answer & 0xffff_ffff) {
        (0, _) => accepted.into(),
        (3, number) => format!("refused {number}"),
        (_, at) => format!("refused {} with a place", at >> 16),
    }
}

fn book(random: &mut Random, found: &mut Comparison) {
    let words = books::words(random);
    let (got, expected) = (service::book(&words), bandbook::book(&words));
    found.met(kind(expected, "good"));
    found.hold(&got, &expected, || format!("{words:?}: {got:X}, expected {expected:X}"));
}

fn lookup(random: &mut Random, found: &mut Comparison) {
    let words = books::words(random);
    let khz = books::khz(random, &words);
    let (got, expected) = (service::station_for(&words, khz), bandbook::station_for(&words, khz));
    found.met(kind(expected, "station"));
    found.hold(&got, &expected, || format!("{khz} in {words:?}: {got:X}, expected {expected:X}"));
}

/// Every kHz of the span in a good book: the id of the row that covers it.
fn every_khz(random: &mut Random, found: &mut Comparison) {
    let rows = 1 + random.below(64) as usize;
    let rows = books::tiling(random, rows);
    let words = rows.concat();
    for khz in SPAN {
        let covers = |row: &&[u32; 3]| row[0] <= khz && khz < row[1];
        let expected = rows.iter().find(covers).map_or(0, |row| u64::from(row[2]));
        let got = service::station_for(&words, khz);
        found.hold(&got, &expected, || format!("{khz} in {words:?}: {got:X}, expected {expected:X}"));
    }
}

const REFUSED: [&str; 4] = ["refused 8", "refused 12 with a place", "refused 13 with a place", "refused 14 with a place"];

pub fn compare(count: u64) -> Vec<Comparison> {
    vec![
        run("hf_book", 22, count, book).owing(&REFUSED).owing(&["good"]),
        run("hf_station_for", 23, count, lookup).owing(&REFUSED).owing(&["station", "refused 12"]),
        run("hf_station_for at every kHz", 24, count.div_ceil(4000), every_khz),
    ]
}
