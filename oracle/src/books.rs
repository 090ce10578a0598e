//! Band books to try: tilings of the span with their rows in any order, damaged ones, and words of any kind.
use crate::bandbook::{ROWS, SPAN};
use crate::random::Random;

/// Where a rule changes, and numbers far off.
const EDGES: [u32; 14] =
    [0, 1, 1999, 2000, 2001, 29_998, 29_999, 30_000, 30_001, 65_535, 65_536, 1 << 31, u32::MAX - 1, u32::MAX];

fn inside(random: &mut Random) -> u32 {
    SPAN.start + random.below(u64::from(SPAN.end - SPAN.start)) as u32
}

fn id(random: &mut Random) -> u32 {
    if random.below(16) == 0 {
        random.pick(&[1, 65_535])
    } else {
        1 + random.below(65_535) as u32
    }
}

fn shuffle(random: &mut Random, rows: &mut [[u32; 3]]) {
    for k in (1..rows.len()).rev() {
        rows.swap(k, random.below(k as u64 + 1) as usize);
    }
}

/// A good book of this many rows, or a few less.
pub fn tiling(random: &mut Random, rows: usize) -> Vec<[u32; 3]> {
    let mut cuts: Vec<u32> = (1..rows).map(|_| inside(random)).collect();
    // Neighbours one kHz apart are where a row is shortest.
    if let [first, second, ..] = cuts[..] {
        cuts[1] = if random.below(4) == 0 { first + 1 } else { second };
    }
    cuts.extend([SPAN.start, SPAN.end]);
    cuts.sort();
    cuts.dedup();
    let mut rows: Vec<[u32; 3]> = cuts.windows(2).map(|pair| [pair[0], pair[1], id(random)]).collect();
    shuffle(random, &mut rows);
    rows
}

/// One thing wrong with the rows, most often; what is damaged twice may be right again.
fn damage(random: &mut Random, rows: &mut Vec<[u32; 3]>) {
    if rows.is_empty() {
        return rows.push([inside(random), inside(random), id(random)]);
    }
    let k = random.below(rows.len() as u64) as usize;
    let edge = random.below(2) as usize;
    match random.below(10) {
        0 | 1 => rows[k][edge] += 1,
        2 | 3 => rows[k][edge] -= 1,
        4 => rows.insert(random.below(rows.len() as u64 + 1) as usize, rows[k]),
        5 => drop(rows.remove(k)),
        6 => rows[k].swap(0, 1),
        7 => rows[k][edge] = inside(random),
        8 => rows[k][random.below(3) as usize] = random.pick(&EDGES),
        _ => rows[k][random.below(3) as usize] = random.bits(),
    }
}

/// How many rows: few, any number that a book may have, or the most and more.
fn size(random: &mut Random) -> usize {
    match random.below(4) {
        0 | 1 => 1 + random.below(6) as usize,
        2 => 1 + random.below(ROWS as u64) as usize,
        _ => ROWS - 1 + random.below(4) as usize,
    }
}

/// Rows of any kind: each a random one, in the span or not.
fn any(random: &mut Random) -> Vec<[u32; 3]> {
    let wide = random.below(2) == 0;
    let edge = |random: &mut Random| if wide { random.bits() } else { inside(random) };
    (0..random.below(70)).map(|_| [edge(random), edge(random), id(random)]).collect()
}

/// A book's words: good, damaged once or more, of any kind, or not of whole rows.
pub fn words(random: &mut Random) -> Vec<u32> {
    let kind = random.below(16);
    let mut rows = match kind {
        0 => any(random),
        1 => Vec::new(),
        _ => {
            let rows = size(random);
            tiling(random, rows)
        }
    };
    let damages = if kind < 7 { 0 } else { 1 + random.below(2) };
    (0..damages).for_each(|_| damage(random, &mut rows));
    let mut words = rows.concat();
    if random.below(40) == 0 {
        words.resize(words.len() + 1 + random.below(2) as usize, 1);
    }
    words
}

/// A kHz to look up: in the span, an edge of a row or beside it, at the span's edges, or any number.
pub fn khz(random: &mut Random, words: &[u32]) -> u32 {
    match random.below(8) {
        0 => random.pick(&EDGES),
        1 => random.bits(),
        2..=4 if words.len() >= 3 => {
            let row = random.below(words.len() as u64 / 3) as usize;
            words[3 * row + random.below(2) as usize].wrapping_add(random.pick(&[0, 0, 1, u32::MAX]))
        }
        _ => inside(random),
    }
}
