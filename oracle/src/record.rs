//! The station record of document 01, and its edition 1 of document 02's card 7, bit by bit: slow, and written from the papers alone.

pub const BYTES: usize = 225;
/// The mode, then 56 floats' bits.
pub const WORDS: usize = 57;

const RECORD: u32 = 1;
const VALUE: u32 = 2;
const TYPE: u32 = 3;
const MODE: u32 = 4;
const SPACE: u32 = 8;

/// `width` bits from bit `from` on, most significant first.
fn field(record: &[u8], from: usize, width: usize) -> u32 {
    (from..from + width).fold(0, |n, i| n << 1 | u32::from(record[i / 8] >> (7 - i % 8) & 1))
}

fn put(record: &mut [u8], from: usize, width: usize, n: u32) {
    for i in 0..width {
        let bit = (n >> (width - 1 - i) & 1) as u8;
        record[(from + i) / 8] |= bit << (7 - (from + i) % 8);
    }
}

fn finite(word: u32) -> bool {
    f32::from_bits(word).is_finite()
}

/// The type, slot 1 rounded; `as` takes a NaN to 0.
fn jant(slot1: u32) -> i32 {
    let v = f32::from_bits(slot1);
    (if v >= 0.0 { v + 0.5 } else { v - 0.5 }) as i32
}

/// Where the words begin: after edition 2 bits and mode 2 bits, in edition 1 after 4 more of the type.
fn start(edition: u32) -> usize {
    if edition == 0 {
        4
    } else {
        8
    }
}

/// Card 7: in modes 0 to 2 the field is 1 to 9 and `jant` of slot 1; mode 3 goes with 10 only.
fn agrees(field: u32, words: &[u32; WORDS]) -> bool {
    match words[0] {
        0..=2 => (1..=9).contains(&field) && field as i32 == jant(words[2]),
        _ => field == 10,
    }
}

/// Edition 0 has 4 zero bits after the words, edition 1 the type before them.
pub fn read(record: &[u8]) -> Result<[u32; WORDS], u32> {
    if record.len() != BYTES || field(record, 0, 2) > 1 {
        return Err(RECORD);
    }
    let edition = field(record, 0, 2);
    let word = |k| field(record, start(edition) + 32 * (k - 1), 32);
    let words = std::array::from_fn(|k| if k == 0 { field(record, 2, 2) } else { word(k) });
    let good = if edition == 0 { field(record, 1796, 4) == 0 } else { agrees(field(record, 4, 4), &words) };
    if !good {
        return Err(RECORD);
    }
    if words[1..].iter().all(|w| finite(*w)) {
        Ok(words)
    } else {
        Err(VALUE)
    }
}

fn refusal(edition: u32, words: &[u32; WORDS], room: usize) -> Result<(), u32> {
    if edition > 1 {
        return Err(RECORD);
    }
    if !words[1..].iter().all(|w| finite(*w)) {
        return Err(VALUE);
    }
    if edition == 1 && words[0] <= 2 && !(1..=9).contains(&jant(words[2])) {
        return Err(TYPE);
    }
    if words[0] > 3 {
        return Err(MODE);
    }
    if room != BYTES {
        return Err(SPACE);
    }
    Ok(())
}

pub fn write(edition: u32, words: &[u32; WORDS], record: &mut [u8]) -> Result<(), u32> {
    refusal(edition, words, record.len())?;
    record.fill(0);
    put(record, 0, 2, edition);
    put(record, 2, 2, words[0]);
    if edition == 1 {
        put(record, 4, 4, if words[0] == 3 { 10 } else { jant(words[2]) as u32 });
    }
    for (k, word) in words[1..].iter().enumerate() {
        put(record, start(edition) + 32 * k, 32, *word);
    }
    Ok(())
}
