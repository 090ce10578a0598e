//! Document 02's card 8, the band book, by counting: for every kHz of the span the rows that cover it. Slow, and written from the
//! card's words alone.
use std::ops::Range;

/// A book covers each of these kHz.
pub const SPAN: Range<u32> = 2000..30_000;
/// Rows that a book may have.
pub const ROWS: usize = 64;

const SPACE: u32 = 8;
const ROW: u32 = 12;
const GAP: u32 = 13;
const OVERLAP: u32 = 14;

/// A refusal's number, alone or with its place: the row, or the kHz.
enum Refusal {
    Number(u32),
    At(u32, u32),
}

/// Low kHz, high kHz (not included), station id.
struct Row {
    khz: Range<u32>,
    id: u32,
}

impl Row {
    fn is_bad(&self) -> bool {
        self.khz.start >= self.khz.end
            || self.khz.start < SPAN.start
            || self.khz.end > SPAN.end
            || !(1..=65_535).contains(&self.id)
    }
}

fn rows(words: &[u32]) -> Result<Vec<Row>, Refusal> {
    let threes = words.chunks_exact(3);
    if !threes.remainder().is_empty() {
        return Err(Refusal::Number(SPACE));
    }
    Ok(threes.map(|row| Row { khz: row[0]..row[1], id: row[2] }).collect())
}

/// How many of the rows, none of them bad, cover each kHz below the span's end.
fn counts(rows: &[Row]) -> Vec<u32> {
    let mut counts = vec![0; SPAN.end as usize];
    for row in rows {
        counts[row.khz.start as usize..row.khz.end as usize].iter_mut().for_each(|count| *count += 1);
    }
    counts
}

/// The rows of a good book.
fn good(words: &[u32]) -> Result<Vec<Row>, Refusal> {
    let rows = rows(words)?;
    if let Some(bad) = (0..rows.len()).find(|k| *k >= ROWS || rows[*k].is_bad()) {
        return Err(Refusal::At(ROW, bad as u32));
    }
    let counts = counts(&rows);
    for khz in SPAN {
        match counts[khz as usize] {
            0 => return Err(Refusal::At(GAP, khz)),
            1 => {}
            _ => return Err(Refusal::At(OVERLAP, khz)),
        }
    }
    Ok(rows)
}

fn station(words: &[u32], khz: u32) -> Result<u32, Refusal> {
    let rows = good(words)?;
    if !SPAN.contains(&khz) {
        return Err(Refusal::Number(ROW));
    }
    let stations: Vec<u32> = rows.iter().filter(|row| row.khz.contains(&khz)).map(|row| row.id).collect();
    assert_eq!(stations.len(), 1, "a good book has one station for {khz} kHz");
    Ok(stations[0])
}

/// Kind 0 with the value, kind 3 with the number, kind 4 with number and place.
fn packed(answer: Result<u32, Refusal>) -> u64 {
    match answer {
        Ok(value) => value.into(),
        Err(Refusal::Number(number)) => 3 << 32 | u64::from(number),
        Err(Refusal::At(number, place)) => 4 << 32 | u64::from(number * 65_536 + place),
    }
}

pub fn book(words: &[u32]) -> u64 {
    packed(good(words).map(|_| 0))
}

pub fn station_for(words: &[u32], khz: u32) -> u64 {
    packed(station(words, khz))
}
