//! The antennas' calls beside the source's Rust over the same rules, refusals included on both sides.
use crate::clock::least;
use oracle::antennas::{SetUp, ANTENNA, FOUND};
use oracle::expected::{ROW, TABLE};
use oracle::random::Random;
use oracle::{examples, expected, reference, service, stations};
use std::hint::black_box;

const STATIONS: usize = 16;

fn row(name: &str, [rattle, rust]: [f64; 2]) {
    println!("| {name:29} | {:9.2} | {:9.2} | {:5.2} |", rattle / 1000.0, rust / 1000.0, rattle / rust);
}

/// The 58 floats of stations whose maximum gain is looked for by this mode.
fn gain_inputs(mode: u32, jant: u32) -> Vec<Vec<f32>> {
    let mut random = Random(21);
    let floats = |_| {
        let (parm, mhz) = (stations::realistic(&mut random, jant), random.between(2.0, 30.0));
        let (gainmax, gainmaxb) = ([[10.0, 12.0, 11.0], [13.0, 15.0, 14.0]], [11.0; 30]);
        expected::Gains { mode, parm, gainmax, gainmaxb, mhz, design: 1.1 }.floats()
    };
    (0..STATIONS).map(floats).collect()
}

/// `hf_maxgain`, `hf_preview` or the reference, into N words.
fn each<const N: usize>(call: fn(u32, &[f32], &mut [u32]) -> u32, mode: u32, stations: &[Vec<f32>]) {
    let mut out = [0; N];
    stations.iter().for_each(|f| assert!(black_box(call)(mode, f, &mut out) == 0));
}

fn maxgain(mode: u32) {
    let stations = gain_inputs(mode, 2);
    row(
        &format!("maximum gain, mode {mode}"),
        least(
            2000,
            STATIONS,
            [&mut |_| each::<21>(service::maxgain, mode, &stations), &mut |_| each::<21>(reference::maxgain, mode, &stations)],
        ),
    );
}

/// Card 2 beside the call that it previews.
fn preview(mode: u32, jant: u32) {
    let stations = gain_inputs(mode, jant);
    row(
        &format!("preview, mode {mode}, type {jant}"),
        least(
            2000,
            STATIONS,
            [&mut |_| each::<7>(service::preview, mode, &stations), &mut |_| each::<21>(service::maxgain, mode, &stations)],
        ),
    );
}

fn curtain(name: &str, factor: f32, rounds: usize, calls: usize) {
    let mut random = Random(22);
    let curtains: Vec<_> = (0..calls).map(|_| stations::curtain(&mut random)).collect();
    let call = |curtain: fn(&[f32], f32, f32, f32) -> u64| {
        curtains.iter().for_each(|parm| assert!(black_box(curtain)(parm, 10.0, 20.0, factor) >> 32 == 0));
    };
    row(name, least(rounds, calls, [&mut |_| call(service::curtain), &mut |_| call(reference::curtain)]));
}

/// Card 1: one call of 64 directions beside so many single calls, by this factor.
fn directions(name: &str, factor: f32, rounds: usize, single: usize) {
    let mut random = Random(26);
    let mut parm = stations::curtain(&mut random);
    (parm[5], parm[6]) = (4.0, 4.0);
    let pairs: Vec<f32> = (0..128).map(|k| (k % 61) as f32 + 0.5).collect();
    let many = || assert!(black_box(service::curtain_levels)(&parm, factor, &pairs, &mut [0.0; 64]) >> 32 == 0);
    let alone = |pair: &[f32]| assert!(black_box(service::curtain)(&parm, pair[0], pair[1], factor) >> 32 == 0);
    row(name, least(rounds, 1, [&mut |_| many(), &mut |_| pairs.chunks(2).take(single).for_each(alone)]));
}

/// Stations with nothing broken, of which every slot is tried for every limit.
fn why() {
    let mut random = Random(25);
    let parms: Vec<_> = (0..STATIONS).map(|k| stations::realistic(&mut random, 1 + k as u32 % 9)).collect();
    let call = |why: fn(&[f32]) -> u64| parms.iter().for_each(|parm| assert!(black_box(why)(parm) == 0));
    row("which slot", least(2000, STATIONS, [&mut |_| call(service::why), &mut |_| call(reference::why)]));
}

/// `hf_plate_row` or the reference.
type Row = fn(&[u32], &[f32], f32, f32, &mut [f32]) -> u64;

/// What set-up leaves.
struct Left {
    table: [f32; TABLE],
    antenna: [u32; ANTENNA],
    out: [u32; FOUND],
    row: [f32; ROW],
}

const BLANK: Left = Left { table: [0.0; TABLE], antenna: [0; ANTENNA], out: [0; FOUND], row: [0.0; ROW] };

/// Set-up, then the row: whether both were accepted.
fn set_up_and_row(set_up: SetUp, row: Row, parm: &[f32; 20], left: &mut Left) -> bool {
    set_up(parm, &mut left.table, &mut left.antenna, &mut left.out) == 0
        && row(&left.antenna, &left.table, 20.0, 10.0, &mut left.row) >> 32 == 0
}

/// A realistic station with a row.
fn accepted(random: &mut Random, jant: u32) -> [f32; 20] {
    loop {
        let (parm, mut left) = (stations::realistic(random, jant), BLANK);
        if set_up_and_row(reference::setup, reference::row_of, &parm, &mut left) {
            return parm;
        }
    }
}

/// One with a slew, or one without, as the truncated slot says; types from 5 on have none.
fn of_slew(random: &mut Random, jant: u32, slewed: bool) -> [f32; 20] {
    loop {
        let parm = accepted(random, jant);
        if (jant <= 4 && parm[9].trunc() != 0.0) == slewed {
            return parm;
        }
    }
}

/// One call, into buffers of its own.
fn timed(set_up: SetUp, row: Row, parm: [f32; 20]) -> impl FnMut(usize) {
    let mut left = BLANK;
    move |_| assert!(set_up_and_row(black_box(set_up), black_box(row), &parm, &mut left))
}

/// Each station by itself, since a round must be short to meet the machine idle; then the mean.
fn rows(jant: u32, slewed: bool) {
    let mut random = Random(23);
    let mut mean = [0.0; 2];
    for _ in 0..STATIONS {
        let parm = of_slew(&mut random, jant, slewed);
        let library = &mut timed(service::setup, service::row_of, parm);
        let times = least(60, 1, [library, &mut timed(reference::setup, reference::row_of, parm)]);
        mean.iter_mut().zip(times).for_each(|(mean, time)| *mean += time / STATIONS as f64);
    }
    let slew = if slewed { ", slewed" } else { "" };
    row(&format!("set-up and row, type {jant}{slew}"), mean);
}

/// `hf_gain` or the reference.
type Gain = fn(&[u32], &[f32], f32, f32, f32) -> u64;

/// Records and tables that set-up left, of realistic stations.
fn kept(jant: u32) -> Vec<Left> {
    let mut random = Random(25);
    let one = |_| {
        let mut left = BLANK;
        assert!(set_up_and_row(reference::setup, reference::row_of, &accepted(&mut random, jant), &mut left));
        left
    };
    (0..STATIONS).map(one).collect()
}

/// A gain asked alone.
fn gain(jant: u32) {
    let kept = kept(jant);
    let directions = [0, 1, 2, 3, 4, 5, 6, 7].map(|k| (5.0 + 11.0 * k as f32, 3.0 + 47.0 * k as f32));
    let call = |gain: Gain| {
        for left in &kept {
            for (u, v) in directions {
                black_box(black_box(gain)(&left.antenna, &left.table, u, v, 10.0));
            }
        }
    };
    let calls = STATIONS * directions.len();
    let times = least(500, calls, [&mut |_| call(service::gain_of), &mut |_| call(reference::gain_of)]);
    row(&format!("a gain alone, type {jant}"), times);
}

/// A row asked alone.
fn row_alone(jant: u32) {
    let kept = kept(jant);
    let call = |of: Row| {
        let mut lent = [0.0; ROW];
        kept.iter().for_each(|left| assert!(black_box(of)(&left.antenna, &left.table, 20.0, 10.0, &mut lent) >> 32 == 0));
    };
    let times = least(60, STATIONS, [&mut |_| call(service::row_of), &mut |_| call(reference::row_of)]);
    row(&format!("a row alone, type {jant}"), times);
}

/// `hf_gains` or the reference.
type Gains = fn(&[f32], f32, &[f32], &mut [u32]) -> u32;

/// Set-up of a station of each type, and gains at a thousand directions each.
fn gains() {
    let mut random = Random(24);
    let parms: Vec<_> = (1..=9).map(|jant| accepted(&mut random, jant)).collect();
    let directions: Vec<f32> = (0..2000).map(|k| if k % 2 == 0 { (k % 91) as f32 } else { (k % 360) as f32 }).collect();
    let call = |gains: Gains| {
        let mut out = [0; 2004];
        parms.iter().for_each(|parm| assert!(black_box(gains)(parm, 10.0, &directions, &mut out) == 0));
    };
    row("set-up and 1000 gains", least(100, 9, [&mut |_| call(service::gains), &mut |_| call(reference::gains)]));
}

/// The whole program on the stations of `examples/`, from bytes to text.
fn plate() {
    let inputs: Vec<Vec<u8>> =
        examples::inputs().into_iter().filter(|(path, _)| path.starts_with("examples/")).map(|(_, bytes)| bytes).collect();
    let call = |plate: fn(&[u8], &mut [u8]) -> usize| {
        let mut text = [0; 8192];
        inputs.iter().for_each(|input| assert!(black_box(plate)(input, &mut text) > 0));
    };
    row("the program, a station", least(100, inputs.len(), [&mut |_| call(service::plate), &mut |_| call(reference::plate)]));
}

/// Card 14 beside the plate of the same station, an example of this type.
fn planet(jant: u32) {
    let path = format!("examples/type-{jant}.station");
    let (_, input) = examples::inputs().into_iter().find(|(at, _)| *at == path).expect("an example of each type");
    let mut texts = [[0; 8960]; 2];
    let [ours, plates] = &mut texts;
    let planet = &mut |_| assert!(black_box(service::planet)(&input, ours) >> 32 == 0);
    let plate = &mut |_| assert!(black_box(service::plate)(&input, plates) > 0);
    row(&format!("Planet text, type {jant}"), least(200, 1, [planet, plate]));
}

pub fn run() {
    println!("\n| call | Rattle µs | Rust µs | ratio |\n|---|---|---|---|");
    (0..3).for_each(maxgain);
    {
        curtain("curtain, factor", 1.5, 2000, STATIONS);
        curtain("curtain, integral", -99_999.0, 20, 4);
    }
    why();
    (1..=9).for_each(|jant| rows(jant, false));
    (1..=4).for_each(|jant| rows(jant, true));
    (1..=9).for_each(gain);
    (1..=9).for_each(row_alone);
    gains();
    plate();
    println!("\n| call | preview µs | maximum gain µs | ratio |\n|---|---|---|---|");
    [(0, 2), (1, 2), (1, 8), (2, 2)].into_iter().for_each(|(mode, jant)| preview(mode, jant));
    println!("\n| call | Planet text µs | plate µs | ratio |\n|---|---|---|---|");
    (1..=9).for_each(planet);
    println!("\n| a curtain's 64 directions beside | one call µs | single calls µs | ratio |\n|---|---|---|---|");
    directions("one single call, integral", -99_999.0, 200, 1);
    directions("64 single calls, factor", 1.5, 20_000, 64);
}
