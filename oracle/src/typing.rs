//! Cards to try: good ones of every kind, typed in every way that is allowed, and damaged as people and machines damage them; stations to
//! write back as cards.
use crate::cards::{self, named, Field, Station, CURTAIN, FIELDS, GAINS, PLACES};
use crate::random::Random;
use crate::record::{self, BYTES};
use crate::{broken, stations};

/// A line's words, the field's name first.
type Line = Vec<Vec<u8>>;

fn place(random: &mut Random, length: usize) -> usize {
    random.below(length.max(1) as u64) as usize
}

// ---- words

/// The exact middle between a float and the next, and perhaps a little more: a tie, or a number just past one.
fn middle(random: &mut Random, x: f32) -> String {
    let next = f32::from_bits(x.to_bits().saturating_add(1));
    let beyond = random.pick(&["", "1", "0000000001"]);
    format!("{:.160}{beyond}", (f64::from(x) + f64::from(next)) / 2.0)
}

/// A number as someone might type it; all but the two with few digits and the middles read as this float.
fn typed(random: &mut Random, x: f32) -> String {
    let short = format!("{x}");
    match random.below(24) {
        0 => format!("{x:.149}"),
        1 => format!("{x:.2}"),
        2 => format!("{x:.0}"),
        3 => middle(random, x),
        4 if x >= 0.0 => format!("+{short}"),
        5 if x >= 0.0 => format!("{}{short}", "0".repeat(place(random, 60))),
        6 if short.contains('.') => short + &"0".repeat(place(random, 60)),
        7 if !short.contains('.') => short + ".",
        8 => short.replacen("0.", ".", 1),
        9 if !short.contains('.') => short + ".0",
        _ => short,
    }
}

/// Ends of limits and numbers just beyond them, whose digits may round to the end itself.
const ENDS: [&str; 40] = [
    "0",
    "-0",
    "+0",
    "-0.0",
    "-1",
    "-0.00000000000000000000000000000000000000000000001",
    "-0.001",
    "1",
    "0.99999999",
    "0.9999999",
    "0.99999997",
    "2",
    "1.9999999",
    "1.99999995",
    "1.9999999403953552",
    "30",
    "30.000001",
    "30.000002",
    "30.9",
    "30.99999",
    "30.999999",
    "30.9999985",
    "30.9999990463256836",
    "31",
    "64",
    "64.000001",
    "64.00001",
    "65",
    "90",
    "90.000001",
    "90.00001",
    "-90",
    "-90.000001",
    "-90.00001",
    "360",
    "360.00001",
    "360.00002",
    "5.5",
    "89.9999999",
    "89.99999",
];

/// Words that are no numbers, or too large.
const ODD: [&str; 36] = [
    "0,5",
    "1O",
    "l2",
    "15MHz",
    "15m",
    "12\u{b0}",
    "1e3",
    "1E-2",
    "--1",
    "+-1",
    "1-",
    "1..2",
    "1.2.3",
    ".",
    "+",
    "-",
    "-.",
    "NaN",
    "inf",
    "-inf",
    "0x10",
    "1_000",
    "1'000",
    "\u{2212}5",
    "\u{ff11}",
    "1/2",
    "50%",
    "340282356779733661637539395458142568448",
    "340282356779733661637539395458142568447",
    "340282346638528859811704183484516925440",
    "-340282356779733661637539395458142568448",
    "9999999999999999999999999999999999999999",
    "curtain",
    "type",
    "=",
    "\"5\"",
];

fn telling(random: &mut Random) -> Vec<u8> {
    match random.below(6) {
        0 | 1 => random.pick(&ENDS).into(),
        2 | 3 => random.pick(&ODD).into(),
        4 => {
            let x = stations::finite(random);
            typed(random, x).into()
        }
        _ => random.below(100_000).to_string().into(),
    }
}

// ---- good cards

/// The twenty slots, then gains, MHz and design MHz as in the slots, an elevation.
fn numbers(random: &mut Random, jant: u32) -> [f32; PLACES] {
    let parm = if jant == CURTAIN { stations::curtain(random) } else { stations::realistic(random, jant) };
    let mut places: [f32; PLACES] = std::array::from_fn(|k| parm.get(k).copied().unwrap_or_else(|| random.between(-10.0, 25.0)));
    places[58] = random.below(91) as f32;
    // Few digits, as people type them, but for one card in eight.
    if random.below(8) > 0 {
        places = places.map(|x| format!("{x:.2}").parse().expect("a number"));
    }
    places
}

fn type_word(random: &mut Random, jant: u32) -> String {
    match random.below(8) {
        _ if jant == CURTAIN => "curtain".into(),
        0 => format!("{jant}{}", random.pick(&[".", ".0", ".00000000001"])),
        1 => format!("{}{jant}", random.pick(&["+", "0", "000"])),
        _ => jant.to_string(),
    }
}

fn line(random: &mut Random, field: &Field, jant: u32, numbers: &[f32; PLACES]) -> Line {
    let places = field.places(jant).unwrap_or(&[0]);
    let words: Vec<String> = match field.name {
        "type" => vec![type_word(random, jant)],
        _ => places.iter().map(|place| typed(random, numbers[*place])).collect(),
    };
    [field.name.to_string()].into_iter().chain(words).map(String::into_bytes).collect()
}

/// The lines of a good card; of one in forty a number's digits may round it beyond a limit.
fn good(random: &mut Random) -> Vec<Line> {
    let jant = if random.below(8) == 0 { CURTAIN } else { 1 + random.below(9) as u32 };
    let modes: Vec<&str> =
        GAINS.into_iter().filter(|name| named(name.as_bytes()).is_some_and(|f| f.places(jant).is_some())).collect();
    let gain = if modes.is_empty() { "" } else { random.pick(&modes) };
    let numbers = numbers(random, jant);
    let of_kind = |field: &&Field| field.places(jant).is_some() && (!GAINS.contains(&field.name) || field.name == gain);
    FIELDS.iter().filter(of_kind).map(|field| line(random, field, jant, &numbers)).collect()
}

// ---- damage to lines

/// A line and a word of it, which may be the field's name.
fn any_word<'a>(random: &mut Random, lines: &'a mut [Line]) -> Option<&'a mut Vec<u8>> {
    let at = place(random, lines.len());
    let line = lines.get_mut(at)?;
    let k = place(random, line.len());
    line.get_mut(k)
}

/// Letters for digits, a comma for a point, a unit stuck to it, kHz for MHz, a letter lost, doubled, or of the other case.
fn mistyped(random: &mut Random, word: &[u8]) -> Vec<u8> {
    let swap = |from: u8, to: u8| word.iter().map(|byte| if *byte == from { to } else { *byte }).collect();
    let k = place(random, word.len());
    match random.below(12) {
        0 => swap(b'0', b'O'),
        1 => swap(b'1', b'l'),
        2 => swap(b'5', b'S'),
        3 => swap(b'.', b','),
        4 => swap(b'-', b'_'),
        5 => [word, random.pick(&["MHz", "m", "dBi", "\u{b0}", ";", "%"]).as_bytes()].concat(),
        6 => [word, b"000"].concat(),
        7 => [&word[..k], &word[(k + 1).min(word.len())..]].concat(),
        8 => [&word[..k], &word[k..(k + 1).min(word.len())], &word[k..]].concat(),
        9 => word.to_ascii_uppercase(),
        10 => [word, &word.repeat(place(random, 60))].concat(),
        _ => [&word[..k], &[random.below(256) as u8], &word[k..]].concat(),
    }
}

/// A line of a field that the card may not have, with numbers of some type that has it.
fn another_line(random: &mut Random) -> Line {
    let jant = if random.below(4) == 0 { CURTAIN } else { 1 + random.below(9) as u32 };
    let numbers = numbers(random, jant);
    let any = &FIELDS[place(random, FIELDS.len())];
    let gain = named(random.pick(&GAINS).as_bytes()).expect("a field");
    let field = if random.below(3) == 0 { gain } else { any };
    line(random, field, jant, &numbers)
}

fn type_changed(random: &mut Random, lines: &mut [Line]) {
    let words =
        ["1", "4", "5", "7", "8", "9", "curtain", "Curtain", "12", "10", "0", "-1", "1.6", "9.5", "0.99999999", "rhombic", "1,5"];
    if let Some(line) = lines.iter_mut().find(|line| line.first().is_some_and(|name| name == b"type")) {
        line[1..].iter_mut().for_each(|word| *word = random.pick(&words).into());
    }
}

fn damage_a_line(random: &mut Random, lines: &mut Vec<Line>) {
    if lines.is_empty() {
        return;
    }
    let at = place(random, lines.len());
    let line = &mut lines[at];
    let k = place(random, line.len());
    match random.below(8) {
        0 if !line.is_empty() => drop(line.remove(k)),
        1 if !line.is_empty() => line.insert(k, line[k].clone()),
        2 if !line.is_empty() => line.rotate_left(1),
        3 => line.push(telling(random)),
        4 => line.truncate(1),
        5 => drop(lines.remove(at)),
        6 => lines.push(lines[at].clone()),
        _ => line.iter_mut().skip(1).for_each(|word| *word = telling(random)),
    }
}

fn damage(random: &mut Random, lines: &mut Vec<Line>) {
    match random.below(12) {
        0..=3 => damage_a_line(random, lines),
        4 => lines.push(another_line(random)),
        5 => lines.insert(0, another_line(random)),
        6 => type_changed(random, lines),
        7 => {
            // A field by another's name.
            let name = FIELDS[place(random, FIELDS.len())].name;
            let at = place(random, lines.len());
            if let Some(first) = lines.get_mut(at).and_then(|line| line.first_mut()) {
                *first = name.into();
            }
        }
        8 | 9 => {
            let new = telling(random);
            let at = place(random, lines.len());
            if let Some(word) = lines.get_mut(at).and_then(|line| line.last_mut()) {
                *word = new;
            }
        }
        _ => {
            if let Some(word) = any_word(random, lines) {
                *word = mistyped(random, word);
            }
        }
    }
}

// ---- the text

/// How a text is laid out: one blank between words, or any blanks, remarks and empty lines.
fn laid_out(random: &mut Random, lines: &[Line]) -> Vec<u8> {
    let plain = random.below(2) == 0;
    let windows = random.below(6) == 0;
    let mut text = if random.below(12) == 0 { b"\xef\xbb\xbf".to_vec() } else { Vec::new() };
    for line in lines {
        if !plain && random.below(6) == 0 {
            text.extend(
                random.pick(&["\n", "  \t\n", "# a remark\n", "#\n", "\r\n", "   # type 5\n", "\t#mhz 40 \u{e4}\n"]).bytes(),
            );
        }
        for (k, word) in line.iter().enumerate() {
            let blank = if plain {
                if k == 0 {
                    ""
                } else {
                    " "
                }
            } else {
                random.pick(&["  ", " ", "\t", " \t ", "     ", "\r ", " "])
            };
            text.extend(blank.bytes());
            text.extend(word);
        }
        if !plain && random.below(4) == 0 {
            text.extend(random.pick(&[" ", "\t", " # m", "#m", " #", "\r", "  # 5 6 7", " ## \u{3bb}/2"]).bytes());
        }
        text.extend(if windows { "\r\n" } else { "\n" }.bytes());
    }
    if random.below(6) == 0 {
        text.pop();
    }
    text
}

/// A byte changed, dropped or put in, a byte-order mark or a long word in the middle, the text cut, doubled or in 16 bits a letter.
fn damaged(random: &mut Random, mut text: Vec<u8>) -> Vec<u8> {
    let at = place(random, text.len());
    let byte = random.pick(&[0, 9, 10, 11, 13, 27, 32, b'#', b'.', b',', b'-', b'0', 127, 128, 0xa0, 0xc3, 0xef, 255]);
    match random.below(10) {
        0 => text.iter_mut().skip(at).take(1).for_each(|old| *old = byte),
        1 => drop(text.drain(at..(at + 1).min(text.len()))),
        2 | 3 => text.insert(at, byte),
        4 => drop(text.splice(at..at, *b"\xef\xbb\xbf")),
        5 => drop(text.splice(at..at, vec![random.pick(b"9#x0 .\n"); place(random, 3000)])),
        6 => text.truncate(at),
        7 => text.extend_from_within(at..),
        8 => text = text.iter().flat_map(|byte| [*byte, 0]).collect(),
        _ => text.clear(),
    }
    text
}

fn shuffle<T>(random: &mut Random, list: &mut [T]) {
    for k in (1..list.len()).rev() {
        list.swap(k, random.below(k as u64 + 1) as usize);
    }
}

/// A card: good in three of eight, its lines in any order in half; else with up to three kinds of damage.
pub fn card(random: &mut Random) -> Vec<u8> {
    let mut lines = good(random);
    let harm = random.below(8);
    for _ in 0..[0, 0, 0, 1, 1, 1, 2, 3][harm as usize] {
        damage(random, &mut lines);
    }
    if random.below(2) == 0 {
        shuffle(random, &mut lines);
    }
    let text = laid_out(random, &lines);
    if harm > 4 && random.below(4) == 0 {
        return damaged(random, text);
    }
    text
}

// ---- stations

/// A station that a card makes, sometimes with a place changed.
fn of_a_card(random: &mut Random) -> Station {
    let mut station = loop {
        let lines = good(random);
        if let Ok(station) = cards::read(&laid_out(random, &lines)) {
            break station;
        }
    };
    for _ in 0..random.pick(&[0, 0, 0, 0, 1, 2]) {
        let at = place(random, PLACES);
        station.places[at] = match random.below(4) {
            0 => -0.0,
            1 => stations::near_end(random),
            2 => station.places[place(random, PLACES)],
            _ => stations::finite(random),
        };
    }
    // MHz and design MHz in both of their places, of any exponent.
    if random.below(8) == 0 {
        let x = stations::finite(random);
        random.pick(&[&[0][..], &[2], &[4, 56], &[5, 57], &[7, 57], &[20], &[55]]).iter().for_each(|at| station.places[*at] = x);
    }
    if random.below(30) == 0 {
        station.mode = random.below(4) as u32;
    }
    station
}

/// Bytes to write back as a card: mostly of a station that a card makes; in edition 1, damaged, or any input of the program.
pub fn station(random: &mut Random) -> Vec<u8> {
    if random.below(20) == 0 {
        return broken::input(random);
    }
    let station = of_a_card(random);
    let mut bytes = station.bytes();
    match random.below(30) {
        0 | 1 => {
            let words = std::array::from_fn(|k| if k == 0 { station.mode } else { station.places[k - 1].to_bits() });
            // A type that edition 1 doesn't write leaves the record as it was.
            let _ = record::write(1, &words, &mut bytes[..BYTES]);
        }
        2 => broken::turn_a_bit(random, &mut bytes),
        3 => broken::break_a_word(random, &mut bytes),
        4 => broken::change_the_header(random, &mut bytes),
        5 => bytes.resize(random.pick(&[0, 1, 225, 236, 238, 300]), 0),
        6 => bytes[BYTES + 4 * place(random, 3)..][..2].copy_from_slice(&[0x7f, 0xc0]),
        _ => {}
    }
    bytes
}
