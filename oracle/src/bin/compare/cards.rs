//! The card that people type: `hf_card`, `hf_card_sentence` and `hf_card_of` against the oracle's own reader and writer, every lent byte
//! and word, written or left. None of it needs the source.
use crate::cases::run;
use oracle::cards::{self, Mistake, Station, What, CURTAIN, FIELDS, GAINS, STATION};
use oracle::random::Random;
use oracle::report::Comparison;
use oracle::stored::LEFT;
use oracle::{card_text, service, typing};

/// The words of a mistake.
const MISTAKE: usize = 6;

/// In the order of their numbers, from 1.
const MISTAKES: [&str; 10] = [
    "an unknown field",
    "given twice",
    "another type's field",
    "a second maximum gain",
    "too few",
    "too many",
    "not a number",
    "too large",
    "a limit",
    "missing",
];

fn kind_of(jant: u32, mode: u32) -> String {
    format!("type {jant}, mode {mode}")
}

/// What came of a card: its kind, or the mistake, the field that it is about, and the limit's refusal.
fn tally(read: &Result<Station, Mistake>, found: &mut Comparison) {
    match read {
        Ok(station) => found.met(kind_of(station.places[1] as u32, station.mode)),
        Err(mistake) => {
            found.met(MISTAKES[mistake.what as usize - 1]);
            if let Some((number, how)) = mistake.limit {
                found.met(format!("refused {number}: {how}"));
            }
            if mistake.what != What::Unknown {
                found.met(format!("about {}", FIELDS[mistake.field - 1].name));
            }
        }
    }
}

/// Text as it is, for a report.
fn shown(text: &[u8]) -> String {
    format!("{:?}", String::from_utf8_lossy(text))
}

fn one_card(random: &mut Random, found: &mut Comparison) {
    let text = typing::card(random);
    let (bytes, words) = match random.below(60) {
        0 => (random.pick(&[0, 1, 225, STATION - 1, STATION + 1]), MISTAKE),
        1 => (STATION, random.pick(&[0, MISTAKE - 1, MISTAKE + 1])),
        _ => (STATION, MISTAKE),
    };
    let answer = |call: fn(&[u8], &mut [u8], &mut [u32]) -> u32| {
        let (mut station, mut mistake) = (vec![0xa5; bytes], vec![LEFT; words]);
        let answer = call(&text, &mut station, &mut mistake);
        (answer, station, mistake)
    };
    let (got, expected) = (answer(service::card), answer(card_text::card));
    if expected.0 == 8 {
        found.met("no room");
    } else {
        tally(&cards::read(&text), found);
    }
    found.hold(&got, &expected, || format!("{}: {} {:?}, expected {} {:?}", shown(&text), got.0, got.2, expected.0, expected.2));
}

/// Every kind, every mistake, every limit's end, every field.
fn owed() -> Vec<String> {
    let has = |jant: u32, name: &str| cards::named(name.as_bytes()).is_some_and(|field| field.places(jant).is_some());
    let modes = |jant: u32| (0..3).filter(move |mode| has(jant, GAINS[*mode])).map(move |mode| kind_of(jant, mode as u32));
    let ends = [
        "3: is not a type, 1 to 9 or curtain",
        "5: is under 1",
        "5: is not below 31",
        "6: is under 0",
        "6: is over 64",
        "6: is under 2",
        "6: is not below 31",
        "7: is under -90",
        "7: is over 90",
        "7: is under 0",
        "7: is over 360",
        "7: is not a whole number",
    ];
    let kinds = (1..=9).flat_map(modes).chain([kind_of(CURTAIN, 3), "no room".into()]);
    let ends = ends.iter().map(|end| format!("refused {end}"));
    let about = FIELDS.iter().map(|field| format!("about {}", field.name));
    kinds.chain(MISTAKES.map(String::from)).chain(ends).chain(about).collect()
}

pub fn compare(count: u64) -> Vec<Comparison> {
    let owed = owed();
    let owed: Vec<&str> = owed.iter().map(String::as_str).collect();
    vec![run("hf_card", 27, count, one_card).owing(&owed)]
}

// ---- what is written

/// A call that writes a text into what is lent.
type Writer = fn(&[u8], &mut [u8]) -> u64;

/// Its answer, and all that was lent.
fn written(call: Writer, given: &[u8], room: usize) -> (u64, Vec<u8>) {
    let mut out = vec![0xa5; room];
    let answer = call(given, &mut out);
    (answer, out)
}

fn room(random: &mut Random, least: usize) -> usize {
    match random.below(40) {
        0 => random.pick(&[0, 1, least - 1]),
        1 => least + 1 + random.below(500) as usize,
        _ => least,
    }
}

fn one_sentence(random: &mut Random, found: &mut Comparison) {
    let text = typing::card(random);
    let room = room(random, 256);
    let (got, expected) = (written(service::card_sentence, &text, room), written(card_text::card_sentence, &text, room));
    match (expected.0 >> 32, cards::read(&text)) {
        (3, _) => found.met("no room"),
        (_, Err(mistake)) => found.met(MISTAKES[mistake.what as usize - 1]),
        (_, Ok(_)) => found.met(if expected.0 == 0 { "nothing to say" } else { "a remark" }),
    }
    found.hold(&got, &expected, || format!("{}: {}, expected {}", shown(&text), shown(&got.1), shown(&expected.1)));
}

/// The card is read back as the station that it was written from.
fn one_station(random: &mut Random, found: &mut Comparison) {
    let bytes = typing::station(random);
    let room = room(random, 8192);
    let (got, expected) = (written(service::card_of, &bytes, room), written(card_text::card_of, &bytes, room));
    found.met(match (expected.0 >> 32, bytes.first()) {
        (0, _) => "a card".to_string(),
        (_, Some(0x40..)) => format!("another edition, refused {}", expected.0 as u32),
        _ => format!("refused {}", expected.0 as u32),
    });
    found.hold(&got, &expected, || format!("{bytes:02X?}: {}, expected {}", shown(&got.1), shown(&expected.1)));
    if let Some(text) = got.1.get(..got.0 as usize).filter(|_| got.0 >> 32 == 0) {
        let (mut back, mut mistake) = (vec![0; STATION], [0; MISTAKE]);
        let answer = service::card(text, &mut back, &mut mistake);
        found.hold(&(answer, &back), &(0, &bytes), || format!("{}: read back as another station", shown(text)));
    }
}

pub fn compare_text(count: u64) -> Vec<Comparison> {
    let said = ["nothing to say", "a remark", "no room"];
    vec![
        run("hf_card_sentence", 28, count, one_sentence).owing(&MISTAKES).owing(&said),
        run("hf_card_of", 29, count, one_station).owing(&["a card", "refused 1", "another edition, refused 1", "refused 8"]),
    ]
}
