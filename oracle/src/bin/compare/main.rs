//! Compares the proved library with the oracle, call by call. The last line counts the comparisons; the status is 0 only where none
//! failed.
//! usage: compare [CALL | CALL=CASES ..]     all calls, each with the gate's number of cases
#![cfg_attr(not(source), allow(dead_code))]
#[cfg(source)]
mod antenna_edges;
#[cfg(source)]
mod antennas;
#[cfg(source)]
mod behind;
mod board;
mod books;
mod calendar;
mod cards;
mod cases;
#[cfg(source)]
mod curtains;
#[cfg(source)]
mod directions;
mod edges;
#[cfg(source)]
mod gains;
#[cfg(source)]
mod impostors;
mod leaves;
mod levels;
#[cfg(source)]
mod maxgain;
#[cfg(source)]
mod peak;
#[cfg(source)]
mod pictures;
#[cfg(source)]
mod planets;
#[cfg(source)]
mod plates;
#[cfg(source)]
mod preview;
#[cfg(source)]
mod readings;
#[cfg(source)]
mod records;
mod stored;
#[cfg(source)]
mod whys;

use oracle::report::{finish, Comparison};

/// A call: its name, the gate's number of cases, and its comparisons over a number of cases.
type Call = (&'static str, u64, fn(u64) -> Vec<Comparison>);

/// Those that `service` exports and whose source is at hand.
const CALLS: &[Call] = &[
    ("edges", 1, edges::compare),
    ("stored", 1, stored::compare),
    #[cfg(source)]
    ("impostors", 1, impostors::compare),
    #[cfg(source)]
    ("antenna_edges", 1, antenna_edges::compare),
    ("leaf", 5_000_000, leaves::compare),
    ("calendar", 1_000_000, calendar::compare),
    #[cfg(source)]
    ("maxgain", 300_000, maxgain::compare),
    #[cfg(source)]
    ("preview", 1_000_000, preview::compare),
    #[cfg(source)]
    ("curtain", 30_000, curtains::compare),
    #[cfg(source)]
    ("gains", 100_000, gains::compare),
    #[cfg(source)]
    ("readings", 20_000, readings::compare),
    #[cfg(source)]
    ("peak", 5_000, peak::compare),
    #[cfg(source)]
    ("behind", 1, behind::compare),
    #[cfg(source)]
    ("setup", 10_000, antennas::set_ups),
    #[cfg(source)]
    ("gain", 100_000, antennas::gains),
    #[cfg(source)]
    ("plate_row", 10_000, antennas::rows),
    #[cfg(source)]
    ("record", 300_000, records::compare),
    #[cfg(source)]
    ("plate", 20_000, plates::compare),
    ("book", 200_000, books::compare),
    ("levels", 100_000, levels::compare),
    ("board", 500, board::compare),
    #[cfg(source)]
    ("why", 300_000, whys::compare),
    #[cfg(source)]
    ("curtain_factor", 300, curtains::compare_factor),
    #[cfg(source)]
    ("curtain_levels", 670, directions::compare),
    #[cfg(source)]
    ("planet", 10_000, planets::compare),
    ("card", 30_000, cards::compare),
    ("card_text", 20_000, cards::compare_text),
    #[cfg(source)]
    ("pictures", 4_000, pictures::compare),
];

/// A word of the command line: a call, with its number of cases or the gate's.
fn chosen(word: &str) -> (Call, u64) {
    let (name, cases) = word.split_once('=').map_or((word, None), |(name, cases)| (name, Some(cases)));
    let call = CALLS.iter().find(|call| call.0 == name).unwrap_or_else(|| panic!("no call is named {name}"));
    (*call, cases.map_or(call.1, |n| n.parse().expect("a number of cases")))
}

fn main() {
    if cfg!(not(source)) {
        println!(
            "skipped: the comparisons with the source's Rust, which isn't in ../shared/docs/src (HFCAST_SRC may name its folder)"
        );
        println!("the oracle's stored answers need no source: run `replay`");
    }
    let words: Vec<String> = std::env::args().skip(1).collect();
    let all = || CALLS.iter().map(|call| (*call, call.1)).collect();
    let runs: Vec<(Call, u64)> = if words.is_empty() { all() } else { words.iter().map(|w| chosen(w)).collect() };
    finish(runs.into_iter().flat_map(|(call, cases)| call.2(cases)))
}
