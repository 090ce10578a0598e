//! Set up once, then gains and rows: `hf_setup`, `hf_gain` and `hf_plate_row` against the source's `antinit2`, `ccirgain` and its 360
//! gains. The records are those of the source's own state, changed ones, and made-up ones; so the tables, by whose sum document 02's
//! card 9 tells the antenna's own. Every lent word is compared, written or left.
use crate::cases::{first_difference, hex, run};
use crate::gains::angle;
use oracle::antennas::{ANTENNA, FOUND, SUM};
use oracle::expected::{table_sum, ROW, TABLE};
use oracle::leaf::bits;
use oracle::random::Random;
use oracle::report::Comparison;
use oracle::stored::LEFT;
use oracle::{antennas, broken, records, reference, service, stations};

/// Gains asked of a record.
const GAINS: u64 = 10;

// ---- set-up

struct Case {
    parm: Vec<f32>,
    table: usize,
    antenna: usize,
    words: usize,
}

fn case(random: &mut Random) -> Case {
    let mut case = Case { parm: stations::station(random).to_vec(), table: TABLE, antenna: ANTENNA, words: FOUND };
    match random.below(60) {
        0 => case.parm.resize(random.pick(&[0, 19, 21]), 1.0),
        1 | 2 => case.table = random.pick(&[0, 1, 2821, TABLE - 1]),
        3 | 4 => case.table = TABLE + random.pick(&[1, 17, 2821]),
        5 | 6 => case.antenna = random.pick(&[0, 1, ANTENNA - 1, ANTENNA + 1]),
        7 => case.words = random.pick(&[0, 3, 5]),
        _ => {}
    }
    case
}

/// The answer, then all lent words: out, antenna record, table.
fn words_of(case: &Case, call: antennas::SetUp) -> Vec<u32> {
    let (mut table, mut antenna) = (vec![f32::from_bits(LEFT); case.table], vec![LEFT; case.antenna]);
    let mut out = vec![LEFT; case.words];
    let mut words = vec![call(&case.parm, &mut table, &mut antenna, &mut out)];
    words.extend(out);
    words.extend(antenna);
    words.extend(table.into_iter().map(bits));
    words
}

fn one_set_up(random: &mut Random, found: &mut Comparison) {
    let case = case(random);
    let (got, expected) = (words_of(&case, service::setup), words_of(&case, reference::setup));
    found.met(if expected[0] == 0 { "set up".into() } else { format!("refused {}", expected[0]) });
    found.hold(&got, &expected, || format!("{}: {}", hex(&case.parm), first_difference(&got, &expected)));
}

pub fn set_ups(count: u64) -> Vec<Comparison> {
    let refused = ["refused 2", "refused 3", "refused 5", "refused 6", "refused 7", "refused 8", "refused 9"];
    vec![run("hf_setup", 15, count, one_set_up).owing(&refused).owing(&["set up"])]
}

// ---- gain and row

/// A record and a table that a caller kept.
struct Kept {
    name: &'static str,
    antenna: Vec<u32>,
    table: Vec<f32>,
}

/// What the source's set-up leaves of an accepted station.
fn left(random: &mut Random) -> Kept {
    loop {
        let (mut antenna, mut table) = (vec![0; ANTENNA], vec![0.0; TABLE]);
        if reference::setup(&stations::station(random), &mut table, &mut antenna, &mut [0; FOUND]) == 0 {
            return Kept { name: "left by set-up", antenna, table };
        }
    }
}

fn floats(random: &mut Random) -> Vec<f32> {
    (0..TABLE).map(|_| random.between(-2.0, 2.0)).collect()
}

/// With the sum of its table in the record, so that it isn't refused for that.
fn owned(mut kept: Kept) -> Kept {
    kept.antenna[SUM] = table_sum(&kept.table);
    kept
}

/// A float more in one place and as much less in another, by their bits; a NaN among them may change the sum.
fn changed_twice(random: &mut Random, table: &mut [f32]) {
    let ([here, there], by) = ([(); 2].map(|()| records::table_place(random)), random.bits() % 0x10_0000);
    table[here] = f32::from_bits(bits(table[here]).wrapping_add(by));
    table[there] = f32::from_bits(bits(table[there]).wrapping_sub(by));
}

/// A table changed, or another one, which card 9 mostly notices.
fn other_table(random: &mut Random, kept: &mut Kept) {
    match random.below(6) {
        0 => (kept.name, kept.table) = ("another's table", left(random).table),
        1 => {
            kept.table[records::table_place(random)] = random.between(-2.0, 2.0);
            kept.name = "one float changed";
        }
        2 => {
            changed_twice(random, &mut kept.table);
            kept.name = "two floats changed";
        }
        3 => {
            kept.table.resize_with(TABLE + random.pick(&[1, 17, 2821]), || f32::from_bits(random.bits()));
            kept.name = "floats behind the table";
        }
        4 => {
            kept.table[records::table_place(random)] = f32::from_bits(records::nan(random));
            kept.name = "a NaN unsummed";
        }
        _ => {
            for _ in 0..=random.below(3) {
                kept.table[records::table_place(random)] = f32::from_bits(records::nan(random));
            }
            kept.antenna[SUM] = table_sum(&kept.table);
            kept.name = "NaNs summed";
        }
    }
}

fn kept(random: &mut Random) -> Kept {
    let mut kept = left(random);
    match random.below(16) {
        0 => kept = Kept { name: "any words", antenna: (0..ANTENNA).map(|_| random.bits()).collect(), table: floats(random) },
        1 | 2 => kept = owned(Kept { name: "made up", antenna: records::made_up(random), table: floats(random) }),
        3 | 4 => {
            let [place, word] = records::change(random);
            kept.antenna[place as usize] = word;
            kept.name = "one word changed";
        }
        5..=9 => other_table(random, &mut kept),
        10 => {
            kept.antenna.resize(random.pick(&[0, 1, ANTENNA - 1, ANTENNA + 1]), 1);
            kept.name = "another length";
        }
        11 => {
            kept.table.resize(random.pick(&[0, 2821, TABLE - 1, TABLE + 1]), 0.0);
            kept.name = "another table length";
        }
        _ => {}
    }
    kept
}

/// What each comparison must meet of records and tables.
const ORIGINS: &[&str] = &[
    "left by set-up",
    "any words",
    "made up",
    "one word changed",
    "another's table",
    "one float changed",
    "two floats changed",
    "floats behind the table",
    "a NaN unsummed",
    "NaNs summed",
    "another length",
    "another table length",
];

/// The kind of a packed answer, or the refusal.
fn name(answer: u64, kinds: &[&str]) -> String {
    match answer >> 32 {
        3 => format!("refused {}", answer as u32),
        kind => kinds[kind as usize].into(),
    }
}

fn gains_of_one(random: &mut Random, found: &mut Comparison) {
    let Kept { name: origin, antenna, table } = kept(random);
    found.met(origin);
    for _ in 0..GAINS {
        let [u, v, giso] = [angle(random, 90.0), angle(random, 360.0), stations::giso(random)];
        let got = service::gain_of(&antenna, &table, u, v, giso);
        let expected = reference::gain_of(&antenna, &table, u, v, giso);
        found.met(name(expected, &["level", "floor", "silence"]));
        found.hold(&got, &expected, || format!("{origin} at {}: {got:X}, expected {expected:X}", hex(&[u, v, giso])));
    }
}

pub fn gains(count: u64) -> Vec<Comparison> {
    let answers = ["level", "floor", "silence", "refused 2", "refused 3", "refused 6", "refused 8", "refused 10", "refused 15"];
    vec![run("hf_gain", 16, count / GAINS, gains_of_one).owing(&answers).owing(ORIGINS)]
}

/// The answer, then the lent row.
fn row_words(
    call: fn(&[u32], &[f32], f32, f32, &mut [f32]) -> u64,
    kept: &Kept,
    [u, giso]: [f32; 2],
    room: usize,
) -> (u64, Vec<u32>) {
    let mut row = vec![f32::from_bits(LEFT); room];
    let answer = call(&kept.antenna, &kept.table, u, giso, &mut row);
    (answer, row.into_iter().map(bits).collect())
}

fn one_row(random: &mut Random, found: &mut Comparison) {
    let kept = kept(random);
    found.met(kept.name);
    let asked = [broken::elevation(random), stations::giso(random)];
    let room = if random.below(30) == 0 { random.pick(&[0, 1, 359, 361, 720]) } else { ROW };
    let got = row_words(service::row_of, &kept, asked, room);
    let expected = row_words(reference::row_of, &kept, asked, room);
    found.met(name(expected.0, &["row"]));
    found.hold(&got, &expected, || {
        let words = first_difference(&got.1, &expected.1);
        format!("{} at {}: {:X}, expected {:X}; {words}", kept.name, hex(&asked), got.0, expected.0)
    });
}

pub fn rows(count: u64) -> Vec<Comparison> {
    let answers = ["row", "refused 2", "refused 3", "refused 6", "refused 7", "refused 8", "refused 10", "refused 15"];
    vec![run("hf_plate_row", 17, count, one_row).owing(&answers).owing(ORIGINS)]
}
