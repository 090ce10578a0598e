//! What the stored lists ask: for each call some inputs by number, from the same seed each time, and before them the cases that show
//! an impostor. `bin/write_stored.rs` writes the lists, `compare stored` holds those that are stored to these.
use crate::antennas::{ANTENNA, FOUND};
use crate::board::{self, LEAVES};
use crate::calendar::walk;
use crate::calls::{Call, Value, CALLS};
use crate::expected::{Gains, ROW, TABLE};
use crate::impostor;
use crate::impostors::{Impostor, IMPOSTORS};
use crate::leaf::{NAMES, POWF};
use crate::levels::{self as strengths, Run, SHOWN};
use crate::random::Random;
use crate::record::{self, BYTES, WORDS};
use crate::stored::{head, lent_bytes, lent_floats, lent_words, place, Record, ROOT};
use crate::{books, broken, cards, planet, planets, records, shows, stations, typing};

/// The cases that an impostor has.
pub const CASES: usize = 3;
/// A case's name is this and its impostor's.
const AGAINST: &str = "against ";
/// Inputs that are searched for them.
const SEARCHED: u64 = 300_000;

/// A call's inputs by number.
type Inputs = fn(&mut Random, u64) -> Vec<Value>;

/// The inputs of a call in its list: how many, and which.
fn inputs_of(call: &Call) -> (u64, Inputs) {
    match call.name {
        "leaf" => (2100, leaf),
        "maxgain" => (140, maxgain),
        "curtain" => (480, curtain),
        "read" => (140, read),
        "write" => (140, write),
        "gains" => (240, gains),
        "setup" => (140, setup),
        "plate" => (100, plate),
        "book" => (80, book),
        "station_for" => (80, station_for),
        "season" => (90, season),
        "next_season" => (90, next_season),
        "open" => (60, open),
        "levels_record" => (60, levels_record),
        "levels" => (40, levels),
        "board" => (60, board),
        "gain" => (160, gain),
        "plate_row" => (120, plate_row),
        "why" => (150, why),
        "curtain_why" => (60, curtain_why),
        "curtain_factor" => (24, curtain_factor),
        "preview" => (120, preview),
        "curtain_levels" => (120, curtain_levels),
        "planet" => (120, planet),
        "card" => (140, card),
        "card_sentence" => (90, card_sentence),
        "card_of" => (60, card_of),
        "dbi" => (60, dbi),
        "svg" => (60, svg),
        "svg_two" => (30, svg_two),
        "compare" => (60, compare),
        name => panic!("{name} has no inputs"),
    }
}

/// The nearest number of four digits, so that a list is short.
fn short(x: f32) -> f32 {
    format!("{x:.3e}").parse().expect("a number")
}

/// A station of any type, its realistic slots short numbers, and one float more.
fn station(random: &mut Random) -> Vec<f32> {
    let jant = 1 + random.below(9) as u32;
    let parm = stations::realistic(random, jant).map(short);
    stations::altered(random, parm).into_iter().chain([1.0]).collect()
}

/// A number near the use of the functions, one of any bits, or one where a rule changes.
fn argument(random: &mut Random) -> f32 {
    match random.below(4) {
        0 => f32::from_bits(random.bits()),
        1 => stations::odd(random),
        2 => random.between(-720.0, 720.0),
        _ => random.between(0.0, 2.0),
    }
}

/// One in eight hundred has no function's number; the others are mostly in their function's domain.
fn leaf(random: &mut Random, k: u64) -> Vec<Value> {
    let which = if k % 800 == 799 { 7 } else { (k % NAMES.len() as u64) as u32 };
    let (x, y) = (argument(random), argument(random));
    let inside = random.below(8) > 0;
    let a = if inside && [2, 3, POWF, 6].contains(&which) { x.abs() } else { x };
    let b = match which {
        POWF if inside => y.abs().fract(),
        POWF => y,
        _ => 0.0,
    };
    vec![Value::Word(which), Value::Word(a.to_bits()), Value::Word(b.to_bits())]
}

fn maxgain(random: &mut Random, k: u64) -> Vec<Value> {
    let mode = if k % 12 == 11 { random.pick(&[3, 4, 255, 256, u32::MAX]) } else { (k % 3) as u32 };
    let mut floats = station(random);
    floats.truncate(20);
    floats.extend((0..36).map(|_| short(random.between(-10.0, 30.0))));
    let mhz = if random.below(8) == 0 { stations::odd(random) } else { short(random.between(1.0, 31.0)) };
    floats.extend([mhz, if random.below(8) == 0 { stations::odd(random) } else { mhz / random.between(0.6, 1.5) }, 1.0]);
    match k % 12 {
        // Steps from one gain to the next that are more than a float holds.
        4 | 5 => (20..56).for_each(|at| floats[at] = if at % 2 == 0 { 3e38 } else { -3e38 }),
        6 => floats[20 + random.below(36) as usize] = random.pick(&[f32::NAN, f32::INFINITY]),
        _ => {}
    }
    let (n, lent) = match k % 40 {
        38 => (random.pick(&[0, 57, 59]), 21),
        39 => (58, random.pick(&[0, 20, 22])),
        _ => (58, 21),
    };
    floats.truncate(n);
    vec![Value::Word(mode), Value::Floats(floats), lent_words(lent)]
}

/// What `maxgain` is given; one in three with the bits that the call would write.
fn preview(random: &mut Random, k: u64) -> Vec<Value> {
    let lent = if k % 40 == 39 { random.pick(&[0, 6, 8]) } else { 7 };
    let mut given = maxgain(random, k);
    given[2] = lent_words(lent);
    if let ([Value::Word(mode), Value::Floats(floats), _], 1) = (&mut given[..], k / 3 % 3) {
        if let Ok(whole) = floats[..].try_into() {
            *floats = Gains::new(*mode, whole).settled().floats();
        }
    }
    given
}

/// One in a hundred integrates.
fn curtain(random: &mut Random, k: u64) -> Vec<Value> {
    let realistic = stations::curtain(random).map(short);
    let mut parm = stations::disturbed(random, realistic).to_vec();
    if k % 60 == 59 {
        parm.resize(random.pick(&[0, 19, 21]), 1.0);
    }
    let aim = |random: &mut Random, low, high| match random.below(8) {
        0 => stations::odd(random),
        1 | 2 => random.between(low, high).round(),
        _ => short(random.between(low, high)),
    };
    let (azimuth, elevation) = (aim(random, -400.0, 400.0), aim(random, -10.0, 100.0));
    let factor = match k % 100 {
        0 => -99_999.0,
        _ => aim(random, 0.0, 20.0),
    };
    vec![Value::Floats(parm), Value::Float(azimuth), Value::Float(elevation), Value::Float(factor)]
}

/// 57 words, a mode and 56 floats' bits, and one more.
fn words(random: &mut Random) -> [u32; 58] {
    let mut words = [0; 58].map(|_: u32| stations::finite(random).to_bits());
    words[0] = if random.below(8) == 0 { random.pick(&[4, 5, 256, u32::MAX]) } else { random.below(4) as u32 };
    words[2] = stations::type_slot(random).to_bits();
    if random.below(8) == 0 {
        words[1 + random.below(56) as usize] = random.pick(&[0x7f80_0000, 0xff80_0000, 0x7fc0_0000, 0x7f80_0001, 0xffff_ffff]);
    }
    words
}

/// An edition, at times one that there isn't.
fn edition(random: &mut Random) -> u32 {
    random.pick(&[0, 0, 0, 1, 1, 1, 1, 2, 3, u32::MAX])
}

/// The numbers of words and of bytes, one of them wrong in one of ten.
fn lengths(random: &mut Random, k: u64) -> (usize, usize) {
    match k % 20 {
        18 => (random.pick(&[0, 1, 56, 58]), BYTES),
        19 => (WORDS, random.pick(&[0, 1, 224, 226, 232])),
        _ => (WORDS, BYTES),
    }
}

fn read(random: &mut Random, k: u64) -> Vec<Value> {
    let (lent, n) = lengths(random, k);
    let mut bytes = vec![0; BYTES];
    let written = words(random)[..WORDS].try_into().expect("57 words");
    // Words that can't be written leave zeros, a record too.
    let _ = record::write(random.below(2) as u32, &written, &mut bytes);
    if random.below(4) == 0 {
        broken::turn_a_bit(random, &mut bytes);
    }
    if random.below(6) == 0 {
        broken::change_the_header(random, &mut bytes);
    }
    if random.below(8) == 0 {
        broken::break_a_word(random, &mut bytes);
    }
    bytes.resize(n, 0);
    vec![Value::Bytes(bytes), lent_words(lent)]
}

fn write(random: &mut Random, k: u64) -> Vec<Value> {
    let (n, lent) = lengths(random, k);
    vec![Value::Word(edition(random)), Value::Words(words(random)[..n].to_vec()), lent_bytes(lent)]
}

/// Degrees: whole, fractions, or odd.
fn angle(random: &mut Random, high: f32) -> f32 {
    match random.below(10) {
        0 => stations::odd(random),
        1 => short(random.between(-1000.0, 1000.0)),
        2..=4 => short(random.between(0.0, high)),
        _ => random.between(0.0, high).round(),
    }
}

fn gains(random: &mut Random, k: u64) -> Vec<Value> {
    let parm = station(random);
    let directions: Vec<f32> = (0..17).map(|i| angle(random, if i % 2 == 0 { 90.0 } else { 360.0 })).collect();
    let giso = stations::giso(random);
    let (n, m, lent) = match k % 60 {
        57 => (random.pick(&[0, 19, 21]), 16, 20),
        58 => (20, random.pick(&[15, 17]), 20),
        59 => (20, 16, random.pick(&[0, 4, 19, 21, 22])),
        _ => (20, 16, 20),
    };
    vec![Value::Floats(parm[..n].to_vec()), Value::Float(giso), Value::Floats(directions[..m].to_vec()), lent_words(lent)]
}

fn setup(random: &mut Random, k: u64) -> Vec<Value> {
    let parm = station(random);
    let (n, table, words, lent) = match k % 30 {
        26 => (random.pick(&[0, 19, 21]), TABLE, ANTENNA, FOUND),
        27 => (20, random.pick(&[0, 2821, TABLE - 1, TABLE + 1]), ANTENNA, FOUND),
        28 => (20, TABLE, random.pick(&[0, ANTENNA - 1, ANTENNA + 1]), FOUND),
        29 => (20, TABLE, ANTENNA, random.pick(&[0, 3, 5])),
        _ => (20, TABLE, ANTENNA, FOUND),
    };
    vec![Value::Floats(parm[..n].to_vec()), lent_floats(table), lent_words(words), lent_words(lent)]
}

/// A station, and in half of the cases a word of its record changed; a table or a record of another length now and then.
fn kept_antenna(random: &mut Random, k: u64) -> (Vec<f32>, Vec<u32>, [usize; 2]) {
    let (parm, change, floats) = (station(random)[..20].to_vec(), records::change(random), records::table_change(random));
    let lengths = match k % 30 {
        28 => [random.pick(&[0, 2821, TABLE - 1, TABLE + 1]), ANTENNA],
        29 => [TABLE, random.pick(&[0, ANTENNA - 1, ANTENNA + 1])],
        _ => [TABLE, ANTENNA],
    };
    let changes = match k % 4 {
        0 => Vec::new(),
        1 => floats,
        2 if k % 8 == 2 => Vec::new(),
        _ => change.to_vec(),
    };
    (parm, changes, lengths)
}

fn gain(random: &mut Random, k: u64) -> Vec<Value> {
    let (parm, changes, [table, words]) = kept_antenna(random, k);
    let asked = vec![angle(random, 90.0), angle(random, 360.0), stations::giso(random)];
    vec![Value::Floats(parm), Value::Words(changes), Value::Floats(asked), lent_floats(table), lent_words(words)]
}

fn plate_row(random: &mut Random, k: u64) -> Vec<Value> {
    let (parm, changes, [table, words]) = kept_antenna(random, k);
    let asked = vec![broken::elevation(random), stations::giso(random)];
    let row = if k % 30 == 27 { random.pick(&[0, 359, 361]) } else { ROW };
    let lent = [lent_floats(table), lent_words(words), lent_floats(row)];
    [Value::Floats(parm), Value::Words(changes), Value::Floats(asked)].into_iter().chain(lent).collect()
}

fn plate(random: &mut Random, k: u64) -> Vec<Value> {
    let mut input = broken::input(random);
    input.truncate(240);
    let lent = if k % 20 == 19 { random.pick(&[0, 100, 8191]) } else { 8192 + k as usize % 2 };
    vec![Value::Bytes(input), lent_bytes(lent)]
}

/// One in four is any book; the others have few rows, so that a list is short.
fn short_book(random: &mut Random, k: u64) -> Vec<u32> {
    loop {
        let words = books::words(random);
        if k % 4 == 3 || words.len() <= 18 {
            return words;
        }
    }
}

fn book(random: &mut Random, k: u64) -> Vec<Value> {
    vec![Value::Words(short_book(random, k))]
}

fn station_for(random: &mut Random, k: u64) -> Vec<Value> {
    let words = short_book(random, k);
    let khz = books::khz(random, &words);
    vec![Value::Words(words), Value::Word(khz)]
}

/// A time near a change, any of the hundred years, or none.
fn time(random: &mut Random, k: u64) -> [u32; 4] {
    let year = 2000 + random.below(100) as u32;
    let month = 1 + random.below(12) as u32;
    let (day, minute) = (1 + random.below(28) as u32, random.below(1440) as u32);
    match k % 10 {
        0..=4 => {
            let ((number, minute), _) = walk().changes[random.below(200) as usize];
            let (year, month, day) = walk().days[number];
            [year, month, day, minute - 1 + random.below(3) as u32]
        }
        5 => [random.pick(&[0, 1999, 2100, u32::MAX]), month, day, minute],
        6 => [year, random.pick(&[0, 13, u32::MAX]), day, minute],
        7 => [year, month, random.pick(&[0, 29, 30, 31, 32]), minute],
        8 => [year, month, day, random.pick(&[0, 1439, 1440, u32::MAX])],
        _ => [random.pick(&[2000, 2099]), random.pick(&[1, 3, 10, 12]), random.pick(&[1, 24, 25, 26, 31]), minute],
    }
}

fn season(random: &mut Random, k: u64) -> Vec<Value> {
    time(random, k).map(Value::Word).to_vec()
}

fn next_season(random: &mut Random, k: u64) -> Vec<Value> {
    let lent = if k % 15 == 14 { random.pick(&[0, 3, 5]) } else { 4 };
    time(random, k).map(Value::Word).into_iter().chain([lent_words(lent)]).collect()
}

/// A minute near one of the service's ends, or any.
fn open(random: &mut Random, k: u64) -> Vec<Value> {
    let [first, end, any] = [0; 3].map(|_: u32| random.below(1440) as u32);
    let given = match k % 8 {
        0 | 1 => [first, end, first],
        2 | 3 => [first, end, end],
        4 => [first, first, any],
        5 => [first, end, end.saturating_sub(1)],
        6 => [first, end, any],
        _ => [first, end, any].map(|minute| if random.below(2) == 0 { random.pick(&[1439, 1440, u32::MAX]) } else { minute }),
    };
    given.map(Value::Word).to_vec()
}

/// A state after a short run or one that goes round, damaged in one of three; the words of what is shown.
fn levels_state(random: &mut Random, k: u64) -> (Vec<u32>, usize) {
    let count = [0, 1, 2, 5, 63, 64, 65, 100][k as usize % 8];
    let few: Vec<f32> = strengths::levels(random, 6);
    let sent = (0..count).map(|_| random.pick(&few));
    let mut state = Run::of(sent).state().to_vec();
    if k % 3 == 2 {
        strengths::damage(random, &mut state);
    }
    (state, if k % 20 == 19 { random.pick(&[0, 2, 4]) } else { SHOWN })
}

fn levels_record(random: &mut Random, k: u64) -> Vec<Value> {
    let ((state, out), level) = (levels_state(random, k), strengths::level(random));
    let left = lent_words(state.len());
    vec![Value::Words(state), Value::Float(level), left, lent_words(out)]
}

fn levels(random: &mut Random, k: u64) -> Vec<Value> {
    let (state, out) = levels_state(random, k);
    vec![Value::Words(state), lent_words(out)]
}

/// A few runs fill the board; rows are of six sectors, so that a list is short.
fn board(random: &mut Random, k: u64) -> Vec<Value> {
    let (mut calls, mut rows) = (Vec::new(), Vec::new());
    let fills = k % 10 == 0;
    for n in 0..if fills { 24 } else { random.below(8) as u32 } {
        let id = if fills { 1 + n } else { random.pick(&[0, 1, 1, 2, 3, 40, 41, 65_535, 65_536]) };
        if random.below(if fills { 12 } else { 4 }) == 0 {
            calls.push(id | LEAVES);
            continue;
        }
        calls.push(id);
        let mut row: Vec<f32> = (0..6).flat_map(|_| [random.pick(&[0.0, -0.0, 7.5, -31.0, 1e-3]); 60]).collect();
        if random.below(12) == 0 {
            row[100] = random.pick(&[f32::NAN, f32::INFINITY]);
        }
        rows.extend(row);
    }
    let (words, numbers, ids) = match k % 20 {
        17 => (random.pick(&[0, board::WORDS - 1, board::WORDS + 1]), 360, 360),
        18 => (board::WORDS, random.pick(&[0, 359, 361]), 360),
        19 => (board::WORDS, 360, random.pick(&[0, 359, 361])),
        _ => (board::WORDS, 360, 360),
    };
    rows.truncate(rows.len() - if random.below(12) == 0 { rows.len().min(1) } else { 0 });
    vec![Value::Words(calls), Value::Floats(rows), lent_words(words), lent_floats(numbers), lent_words(ids)]
}

/// Twenty floats, now and then another number of them.
fn twenty(random: &mut Random, k: u64, parm: [f32; 20]) -> Vec<Value> {
    let mut parm = parm.to_vec();
    if k % 20 == 19 {
        parm.resize(random.pick(&[0, 19, 21]), 1.0);
    }
    vec![Value::Floats(parm)]
}

/// A station of any type, up to three of its slots broken.
fn why(random: &mut Random, k: u64) -> Vec<Value> {
    let parm = station(random)[..20].try_into().expect("twenty");
    let parm = stations::damaged(random, parm, 3);
    twenty(random, k, parm)
}

fn curtain_why(random: &mut Random, k: u64) -> Vec<Value> {
    let parm = stations::curtain(random).map(short);
    let parm = stations::damaged(random, parm, 3);
    twenty(random, k, parm)
}

/// One in four has a slot that may be broken.
fn curtain_factor(random: &mut Random, k: u64) -> Vec<Value> {
    let parm = stations::curtain(random).map(short);
    let parm = if k % 4 == 3 { stations::damaged(random, parm, 1) } else { parm };
    twenty(random, k, parm)
}

/// Few pairs, so that a list is short, and the most in one of forty; one in ten integrates, one in four has a pair that is refused.
fn curtain_levels(random: &mut Random, k: u64) -> Vec<Value> {
    let realistic = stations::curtain(random).map(short);
    let parm = if k % 8 == 7 { stations::damaged(random, realistic, 1) } else { realistic };
    let pairs = match k % 40 {
        38 => 64,
        39 => 65,
        _ => random.below(6) as usize,
    };
    let mut directions: Vec<f32> =
        (0..2 * pairs).map(|i| short(random.between(0.0, if i % 2 == 0 { 360.0 } else { 90.0 }))).collect();
    if k % 4 == 3 && pairs > 0 {
        let (first, last) = (random.below(pairs as u64) as usize, random.below(pairs as u64) as usize);
        directions[2 * last] = random.pick(&[f32::NAN, f32::INFINITY]);
        directions[2 * first + 1] = random.pick(&[f32::NEG_INFINITY, 1e7]);
    }
    let (floats, lent) = match k % 20 {
        13 => (directions.len().saturating_sub(1), pairs),
        14 => (directions.len(), pairs + 1),
        _ => (directions.len(), pairs),
    };
    let factor = match k % 30 {
        0 | 10 | 20 => -99_999.0,
        15 => random.pick(&[0.0, f32::NAN, f32::INFINITY]),
        _ => short(random.between(0.0, 20.0)),
    };
    let [parm] = <[Value; 1]>::try_from(twenty(random, k, parm)).expect("the parameters");
    vec![parm, Value::Float(factor), Value::Floats(directions[..floats].to_vec()), lent_floats(lent)]
}

fn planet(random: &mut Random, _: u64) -> Vec<Value> {
    let mut input = planets::input(random);
    input.truncate(240);
    let room = planets::room(random, &planet::text(&input).ok());
    vec![Value::Bytes(input), lent_bytes(room)]
}

/// A card that is not long, so that a list is short.
fn short_card(random: &mut Random) -> Vec<u8> {
    loop {
        let text = typing::card(random);
        if text.len() <= 400 {
            return text;
        }
    }
}

fn card(random: &mut Random, k: u64) -> Vec<Value> {
    let (station, mistake) = match k % 40 {
        38 => (random.pick(&[0, cards::STATION - 1, cards::STATION + 1]), 6),
        39 => (cards::STATION, random.pick(&[0, 5, 7])),
        _ => (cards::STATION, 6),
    };
    vec![Value::Bytes(short_card(random)), lent_bytes(station), lent_words(mistake)]
}

fn card_sentence(random: &mut Random, k: u64) -> Vec<Value> {
    let room = if k % 20 == 19 { random.pick(&[0, 255, 300]) } else { 256 };
    vec![Value::Bytes(short_card(random)), lent_bytes(room)]
}

fn card_of(random: &mut Random, k: u64) -> Vec<Value> {
    let mut station = typing::station(random);
    station.truncate(240);
    let room = if k % 20 == 19 { random.pick(&[0, 8191, 8193]) } else { 8192 };
    vec![Value::Bytes(station), lent_bytes(room)]
}

/// An input for the plate that people see.
fn seen(random: &mut Random) -> Value {
    let mut input = shows::input(random);
    input.truncate(240);
    Value::Bytes(input)
}

fn dbi(random: &mut Random, _: u64) -> Vec<Value> {
    vec![seen(random), lent_bytes(shows::room(random, 12_288))]
}

fn svg(random: &mut Random, k: u64) -> Vec<Value> {
    vec![seen(random), Value::Word((k % 2) as u32), lent_bytes(shows::room(random, 65_536))]
}

fn svg_two(random: &mut Random, _: u64) -> Vec<Value> {
    vec![seen(random), seen(random), lent_bytes(shows::room(random, 131_072))]
}

fn compare(random: &mut Random, k: u64) -> Vec<Value> {
    let base = if k % 20 == 19 { random.pick(&[360, 65_535, u32::MAX]) } else { random.below(360) as u32 };
    vec![seen(random), seen(random), Value::Word(base), lent_bytes(shows::room(random, 2048))]
}

/// Whether a stored record's input is kept: those of a number are made anew, a case goes with its impostor.
fn kept(call: &Call, record: &Record) -> bool {
    let shown = |name| IMPOSTORS.iter().any(|impostor| impostor.call == call.name && impostor.name == name);
    record.name.strip_prefix(AGAINST).map_or(record.name.parse::<u64>().is_err(), shown)
}

/// The stored records that are kept.
fn named(call: &Call) -> Vec<Record> {
    let text = std::fs::read_to_string(format!("{ROOT}{}", place(call))).unwrap_or_default();
    let record = |line| Record::read(call, line).unwrap_or_else(|| panic!("{}: not a record: {line}", place(call)));
    text.lines().skip(1).map(record).filter(|record| kept(call, record)).collect()
}

fn name_of(impostor: &Impostor) -> String {
    format!("{AGAINST}{}", impostor.name)
}

/// The stored cases that show this impostor.
pub fn cases_of(call: &Call, impostor: &Impostor) -> Vec<Record> {
    named(call).into_iter().filter(|record| record.name == name_of(impostor)).collect()
}

/// Whether the impostor of this number answers the record otherwise than the oracle.
pub fn shows(call: &Call, record: &Record, k: usize) -> bool {
    let wrong = impostor::with(Some(k), || record.outcome(call.impostor));
    record.line(&wrong) != record.line(&record.outcome(call.oracle))
}

/// New cases for an impostor that has too few.
fn found(call: &Call, k: usize, impostor: &Impostor) -> Vec<Record> {
    let mut random = Random(1000 + k as u64);
    let missing = CASES.saturating_sub(cases_of(call, impostor).len());
    let tried = (0..SEARCHED).map(|n| Record { name: name_of(impostor), given: inputs_of(call).1(&mut random, n) });
    tried.filter(|record| shows(call, record, k)).take(missing).collect()
}

/// A call's list with the oracle's answers: the cases, then the numbered ones. Each call has a seed of its own.
fn list(seed: usize, call: &Call) -> String {
    let (count, inputs) = inputs_of(call);
    let mut random = Random(21 + seed as u64);
    let impostors = IMPOSTORS.iter().enumerate().filter(|(_, impostor)| impostor.call == call.name);
    let numbered = (0..count).map(|k| Record { name: k.to_string(), given: inputs(&mut random, k) });
    let records = named(call).into_iter().chain(impostors.flat_map(|(k, impostor)| found(call, k, impostor))).chain(numbered);
    let lines = records.map(|record| record.line(&record.outcome(call.oracle)));
    [head(call)].into_iter().chain(lines).map(|line| line + "\n").collect()
}

/// The lists: their place below the repository's root, and their bytes.
pub fn files() -> Vec<(String, Vec<u8>)> {
    CALLS.iter().enumerate().map(|(seed, call)| (place(call), list(seed, call).into_bytes())).collect()
}
