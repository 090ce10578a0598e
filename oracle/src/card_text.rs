//! What a card's reader says, and a station written back as a card: the sentences of mistakes, the remark, numbers as people type them;
//! then the three calls of `service`.
use super::cards::{line_of, lines, named, number, read, Card, Mistake, Station, What, CURTAIN, FIELDS, GAINS, STATION};

// ---- sentences

/// Bytes of a typed word that a sentence shows.
const SHOWN: usize = 40;

fn shown(word: &[u8]) -> Vec<u8> {
    match word.get(..SHOWN) {
        Some(start) if word.len() > SHOWN => [start, b".."].concat(),
        _ => word.to_vec(),
    }
}

/// The refusal's number and name.
fn refused(number: u32) -> String {
    let name = match number {
        3 => "type",
        5 => "band",
        6 => "count",
        _ => "aim",
    };
    format!(" (refused {number}, {name})")
}

/// What is said after the field, of a mistake that is about no word: `given` numbers stand in the line, the kind wants `wanted`.
fn said(mistake: &Mistake, kind: &str, other: &str, given: usize, wanted: usize) -> String {
    match mistake.what {
        What::Unknown => "there is no such field".into(),
        What::Twice => format!("given twice, first at line {}", mistake.earlier),
        What::Foreign => format!("{kind} has no such field"),
        What::SecondGain => format!("a second maximum gain, line {} has {other}", mistake.earlier),
        What::TooFew => format!("too few numbers, {given} of {wanted}"),
        What::TooMany => format!("too many numbers, {given} for {wanted}"),
        What::Missing if GAINS.contains(&FIELDS[mistake.field - 1].name) => "no maximum gain is given".into(),
        What::Missing => "missing".into(),
        What::NotANumber | What::TooLarge | What::Limit => unreachable!("about a word"),
    }
}

/// What is said after the field and the word.
fn said_of_a_word(mistake: &Mistake) -> String {
    match (mistake.what, mistake.limit) {
        (What::NotANumber, _) => "is not a number".into(),
        (What::TooLarge, _) => "is too large".into(),
        (_, limit) => limit.map(|(number, how)| how.to_string() + &refused(number)).expect("a limit"),
    }
}

/// The line, the field and what is wrong.
fn sentence_of(text: &[u8], mistake: &Mistake) -> Vec<u8> {
    let lines = lines(text);
    let empty = Vec::new();
    let words = lines.get(mistake.line - 1).unwrap_or(&empty);
    let name = match mistake.field {
        0 => shown(words[0]),
        field => FIELDS[field - 1].name.into(),
    };
    let rest = if mistake.number > 0 {
        [&shown(words[mistake.number])[..], b" ", said_of_a_word(mistake).as_bytes()].concat()
    } else {
        let jant = Card::of(text).map_or(0, |card| card.jant);
        let kind = if jant == CURTAIN { "the curtain".into() } else { format!("type {jant}") };
        let other = lines.get(mistake.earlier.wrapping_sub(1)).map_or("", |words| named(words[0]).expect("a field").name);
        let wanted = named(&name).and_then(|field| field.places(jant)).map_or(1, |places| places.len());
        said(mistake, &kind, other, words.len().saturating_sub(1), wanted).into_bytes()
    };
    [format!("{}: ", mistake.line).as_bytes(), &name, b": ", &rest].concat()
}

/// Of a card without a mistake: in mode 1 a frequency outside 2 to 30 MHz counts as 10.
fn remark(text: &[u8]) -> Option<Vec<u8>> {
    let card = Card::of(text).ok()?;
    let line = line_of(&card.lines, b"mhz")?;
    let outside = card.mode == Some(1) && !(2.0..=30.0).contains(&card.numbers("mhz")[0]);
    let word = shown(card.lines[line - 1][1]);
    outside.then(|| [format!("{line}: mhz: ").as_bytes(), &word, b" is outside 2 to 30 and counts as 10 MHz"].concat())
}

/// The sentence of a card's mistake, or its remark; nothing where there is none.
pub fn sentence(text: &[u8]) -> Vec<u8> {
    match read(text) {
        Ok(_) => remark(text).unwrap_or_default(),
        Err(mistake) => sentence_of(text, &mistake),
    }
}

// ---- a card written back

/// All digits of a float without its sign, which are no more than 149 after the point, cut to so many by rounding, halves up.
fn rounded(exact: &str, decimals: usize) -> String {
    let (whole, fraction) = exact.split_once('.').expect("149 decimals");
    let mut digits: Vec<u8> = [whole, &fraction[..decimals]].concat().into_bytes();
    if fraction.as_bytes().get(decimals).is_some_and(|next| *next >= b'5') {
        let nines = digits.iter().rev().take_while(|digit| **digit == b'9').count();
        let length = digits.len();
        digits[length - nines..].fill(b'0');
        match length - nines {
            0 => digits.insert(0, b'1'),
            kept => digits[kept - 1] += 1,
        }
    }
    if decimals > 0 {
        digits.insert(digits.len() - decimals, b'.');
    }
    String::from_utf8(digits).expect("digits")
}

/// A finite float with the fewest decimals that read back as it.
pub fn typed(x: f32) -> String {
    let exact = format!("{:.149}", x.abs());
    let sign = if x.is_sign_negative() { "-" } else { "" };
    let word = |decimals| format!("{sign}{}", rounded(&exact, decimals));
    let reads_back = |word: &String| number(word.as_bytes()).is_ok_and(|y| y.to_bits() == x.to_bits());
    (0..=149).map(word).find(reads_back).expect("all digits read back")
}

/// A line for each field of the kind.
fn fields(station: &Station) -> Option<String> {
    let jant = ((1..=9).chain([CURTAIN])).find(|jant| *jant as f32 == station.places[1])?;
    let gain = GAINS.get(station.mode as usize).copied().unwrap_or_default();
    if station.places.iter().any(|x| !x.is_finite()) {
        return None;
    }
    let is_there = |name: &str| !GAINS.contains(&name) || name == gain;
    let mut text = String::new();
    for (field, places) in FIELDS.iter().filter_map(|field| Some((field, field.places(jant)?))).filter(|(f, _)| is_there(f.name))
    {
        let numbers: Vec<String> = match (field.name, jant) {
            ("type", CURTAIN) => vec!["curtain".into()],
            _ => places.iter().map(|place| typed(station.places[*place])).collect(),
        };
        text += &format!("{:<12}{}\n", field.name, numbers.join(" "));
    }
    Some(text)
}

/// The card that makes just these bytes; none where no card does, as of a record in edition 1.
pub fn written(bytes: &[u8]) -> Option<String> {
    let text = fields(&Station::of(bytes)?)?;
    read(text.as_bytes()).is_ok_and(|back| back.bytes() == bytes).then_some(text)
}

// ---- the calls

const RECORD: u32 = 1;
const SPACE: u32 = 8;

/// 0 with the station written, 1 with the mistake.
pub fn card(text: &[u8], station: &mut [u8], mistake: &mut [u32]) -> u32 {
    if station.len() != STATION || mistake.len() != 6 {
        return SPACE;
    }
    match read(text) {
        Ok(found) => {
            station.copy_from_slice(&found.bytes());
            0
        }
        Err(found) => {
            mistake.copy_from_slice(&found.words());
            RECORD
        }
    }
}

/// The length of what is written at the start of `out`, or kind 3 and the refusal.
fn put(out: &mut [u8], room: usize, text: Option<Vec<u8>>) -> u64 {
    let refused = |number: u32| 3 << 32 | u64::from(number);
    let Some(text) = text.filter(|_| out.len() >= room) else {
        return refused(if out.len() < room { SPACE } else { RECORD });
    };
    out[..text.len()].copy_from_slice(&text);
    text.len() as u64
}

pub fn card_sentence(text: &[u8], out: &mut [u8]) -> u64 {
    put(out, 256, Some(sentence(text)))
}

pub fn card_of(station: &[u8], out: &mut [u8]) -> u64 {
    put(out, 8192, written(station).map(String::into_bytes))
}
