//! The station record: `hf_read` and `hf_write` against the bit by bit ones.
use crate::cases::run;
use oracle::broken::{break_a_word, change_the_header, turn_a_bit};
use oracle::random::Random;
use oracle::record::{BYTES, WORDS};
use oracle::report::Comparison;
use oracle::stored::LEFT;
use oracle::{reference, service, stations};

/// A mode and 56 floats' bits, of any kind; a broken word in one of ten.
fn words(random: &mut Random) -> Vec<u32> {
    let broken = random.below(10) == 0;
    let mut words: Vec<u32> = (0..WORDS).map(|_| stations::finite(random).to_bits()).collect();
    words[0] = if random.below(10) == 0 { random.pick(&[4, 5, 256, u32::MAX]) } else { random.below(4) as u32 };
    words[2] = stations::type_slot(random).to_bits();
    if broken {
        let at = 1 + random.below(56) as usize;
        words[at] = random.pick(&[0x7f80_0000, 0xff80_0000, 0x7fc0_0000, 0x7f80_0001, 0xffff_ffff]);
    }
    if random.below(100) == 0 {
        words.resize(random.pick(&[0, 1, 56, 58]), 0);
    }
    words
}

fn length(random: &mut Random) -> usize {
    match random.below(12) {
        0 => random.pick(&[0, 1, 224, 226, 237, 450]),
        1 => random.below(460) as usize,
        _ => BYTES,
    }
}

/// What came of a call in an edition; those above 3 count as 4.
fn met(edition: u32, answer: u32, done: &str) -> String {
    let edition = edition.min(4);
    if answer == 0 {
        format!("edition {edition}, {done}")
    } else {
        format!("edition {edition}, refused {answer}")
    }
}

/// Edition 1 with a slot 1 that isn't finite, in modes 0 to 2.
fn slot_1_broken(record: &[u8]) -> bool {
    let slot1 = || f32::from_bits(u32::from_be_bytes([record[5], record[6], record[7], record[8]]));
    record.len() == BYTES && (4..=6).contains(&(record[0] >> 4)) && !slot1().is_finite()
}

fn read(random: &mut Random, found: &mut Comparison) {
    let mut record = vec![0; length(random)];
    reference::write(random.below(2) as u32, &words(random), &mut record);
    for _ in 0..random.below(3) {
        turn_a_bit(random, &mut record);
    }
    if random.below(10) == 0 && record.len() == BYTES {
        change_the_header(random, &mut record);
    }
    if random.below(10) == 0 && record.len() == BYTES {
        break_a_word(random, &mut record);
    }
    let words = if random.below(100) == 0 { random.pick(&[0, 56, 58]) } else { WORDS };
    let (mut out, mut expected_out) = (vec![LEFT; words], vec![LEFT; words]);
    let got = service::read(&record, &mut out);
    let expected = reference::read(&record, &mut expected_out);
    if record.len() == BYTES {
        found.met(met(u32::from(record[0] >> 6), expected, "read"));
    } else {
        found.met(format!("another length, refused {expected}"));
    }
    if slot_1_broken(&record) && words == WORDS {
        found.met(format!("slot 1 not finite, refused {expected}"));
    }
    found.hold(&(got, &out), &(expected, &expected_out), || format!("{record:02X?}: {got}, expected {expected}"));
}

/// What was written reads back as the same words.
fn write(random: &mut Random, found: &mut Comparison) {
    let (words, length) = (words(random), length(random));
    let edition = if random.below(10) == 0 { random.pick(&[2, 3, 4, u32::MAX]) } else { random.below(2) as u32 };
    let (mut out, mut expected_out) = (vec![0xa5; length], vec![0xa5; length]);
    let got = service::write(edition, &words, &mut out);
    let expected = reference::write(edition, &words, &mut expected_out);
    found.met(met(edition, expected, "written"));
    found.hold(&(got, &out), &(expected, &expected_out), || format!("{edition}, {words:08X?}: {got}, expected {expected}"));
    if got == 0 {
        let mut back = vec![LEFT; WORDS];
        let code = service::read(&out, &mut back);
        found.hold(&(code, &back), &(0, &words), || format!("{words:08X?} read back as {code}, {back:08X?}"));
    }
}

/// What the reading of either edition must meet.
const READ: [&str; 11] = [
    "edition 0, read",
    "edition 0, refused 1",
    "edition 0, refused 2",
    "edition 0, refused 8",
    "edition 1, read",
    "edition 1, refused 1",
    "edition 1, refused 2",
    "edition 2, refused 1",
    "edition 3, refused 1",
    "slot 1 not finite, refused 1",
    "another length, refused 1",
];

/// And the writing.
const WRITTEN: [&str; 12] = [
    "edition 0, written",
    "edition 0, refused 2",
    "edition 0, refused 4",
    "edition 0, refused 8",
    "edition 1, written",
    "edition 1, refused 2",
    "edition 1, refused 3",
    "edition 1, refused 4",
    "edition 1, refused 8",
    "edition 2, refused 1",
    "edition 3, refused 1",
    "edition 4, refused 1",
];

pub fn compare(count: u64) -> Vec<Comparison> {
    vec![run("hf_read", 16, count, read).owing(&READ), run("hf_write", 17, count, write).owing(&WRITTEN)]
}
