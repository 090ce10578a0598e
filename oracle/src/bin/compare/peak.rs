//! Card 11: the peak is the peak. The source tells each gain that its search read, and where; the peak, the record, the table and the
//! numbers are the proved library's. The three laws are tried on each accepted station, with how often each case occurs.
use crate::cases::{hex, run};
use crate::readings::family;
use oracle::antennas::{ANTENNA, FOUND};
use oracle::expected::{set_up, TABLE};
use oracle::random::Random;
use oracle::report::Comparison;
use oracle::source::Reading;
use oracle::{service, stations};

const FLOOR: f32 = -30.0;

/// What the library's set-up left.
struct Left {
    table: Vec<f32>,
    antenna: [u32; ANTENNA],
    z6: f32,
    umax: f32,
}

fn left(parm: &[f32]) -> Option<Left> {
    let (mut table, mut antenna, mut out) = (vec![0.0; TABLE], [0; ANTENNA], [0; FOUND]);
    let accepted = service::setup(parm, &mut table, &mut antenna, &mut out) == 0;
    accepted.then(|| Left { table, antenna, z6: f32::from_bits(out[1]), umax: f32::from_bits(out[2]) })
}

/// "all gains read in the elevation pass and, where there is one, the last azimuth pass": from elevation 1 on. The horizontal plane is
/// searched at 5 or 45 degrees.
fn last_passes(readings: &[Reading]) -> &[Reading] {
    let climb = readings.iter().position(|r| r.elevation == 1.0).expect("a search climbs from elevation 1");
    &readings[climb..]
}

/// "`z6` is the greatest of 0 and all gains read": it is one of them, and none of them is above it.
fn is_greatest(z6: f32, read: &[Reading]) -> bool {
    let gains = || read.iter().map(|r| r.gain).chain([0.0]);
    gains().any(|gain| gain.to_bits() == z6.to_bits()) && gains().all(|gain| gain <= z6)
}

/// "the dBi number lies between -30 and the larger of -30 and the maximum gain"
fn number_bounded(left: &Left, at: &Reading, giso: f32) -> bool {
    let answer = service::gain_of(&left.antenna, &left.table, at.elevation, at.azimuth, giso);
    let number = f32::from_bits(answer as u32);
    answer >> 32 < 3 && FLOOR <= number && number <= FLOOR.max(giso)
}

/// "the reported elevation is the last of 1 to 90 that has the peak"
fn is_last(left: &Left, read: &[Reading]) -> bool {
    read.len() == 90 && read.iter().rev().find(|r| r.gain == left.z6).is_some_and(|r| r.elevation == left.umax)
}

/// What is told of a station beside its laws.
fn cases(left: &Left, read: &[Reading], found: &mut Comparison) {
    let with_peak = |part: &[Reading]| part.iter().filter(|r| r.gain == left.z6).count();
    let (climb, last) = read.split_at(90);
    found.met(if last.is_empty() { "elevation pass alone" } else { "with a last azimuth pass" });
    if with_peak(climb) == 0 && with_peak(last) > 0 {
        found.met("peak of the last azimuth pass alone");
    }
    if with_peak(climb) > 1 {
        found.met("several elevations with the peak");
    }
    if left.z6 == 0.0 {
        found.met("peak of 0");
    }
}

fn one(random: &mut Random, found: &mut Comparison) {
    let parm = stations::station(random);
    let giso = if random.below(4) == 0 { stations::finite(random) } else { random.between(-60.0, 40.0) };
    let (Ok(source), Some(left)) = (set_up(&parm, TABLE), left(&parm)) else {
        return found.met("refused");
    };
    let read = last_passes(&source.readings);
    cases(&left, read, found);
    let (jant, slewed) = family(&parm);
    let third = !slewed && jant != 4 && read.iter().any(|r| r.gain >= 0.0);
    found.met(if third { "elevation told by the third law" } else { "third law silent" });
    let laws =
        (is_greatest(left.z6, read), read.iter().all(|at| number_bounded(&left, at, giso)), !third || is_last(&left, read));
    found.hold(&laws, &(true, true, true), || format!("{}: giso {giso}, laws {laws:?}", hex(&parm)));
}

pub fn compare(count: u64) -> Vec<Comparison> {
    let owed = ["peak of the last azimuth pass alone", "several elevations with the peak", "peak of 0"];
    vec![run("the peak is the peak", 63, count, one).owing(&owed)]
}
