//! What document 01 expects of each call: the source's answer, and before it the refusals, lowest number first.
use super::source::antenna::AntennaFile;
use super::source::ccir::{antinit2, curtain, setmaxgain, CcirAntenna};
use super::source::{take_factor, take_pattern_readings, take_readings, Reading};
use crate::antennas::SUM;

pub type Refusal = u32;
pub type Parm = [f32; 20];

/// The floats of a lent table.
pub const TABLE: usize = 11_284;
pub const ROW: usize = 360;

const VALUE: Refusal = 2;
const TYPE: Refusal = 3;
const MODE: Refusal = 4;
const BAND: Refusal = 5;
const COUNT: Refusal = 6;
const AIM: Refusal = 7;
pub const SPACE: Refusal = 8;
const PATTERN: Refusal = 9;
const LEVEL: Refusal = 10;
/// Card 9 of document 02: tried after 8 and before 10.
const TABLE_DIFFERS: Refusal = 15;

fn refuse_if(condition: bool, number: Refusal) -> Result<(), Refusal> {
    if condition {
        Err(number)
    } else {
        Ok(())
    }
}

fn any_not_finite(floats: &[f32]) -> bool {
    floats.iter().any(|x| !x.is_finite())
}

fn outside_band(mhz: f32) -> bool {
    !(1.0..31.0).contains(&mhz)
}

fn outside(x: f32, low: f32, high: f32) -> bool {
    !(low <= x && x <= high)
}

fn file_of(parm: Parm, mode: u32) -> AntennaFile {
    AntennaFile { parm, modegain: mode as i32, gainmax: [[0.0; 3]; 2], gainmaxb: [0.0; 30] }
}

/// The type, where it is one of 1..9.
pub fn type_of(parm: &Parm) -> Result<i32, Refusal> {
    let jant = file_of(*parm, 0).jant();
    refuse_if(!(1..=9).contains(&jant), TYPE)?;
    Ok(jant)
}

/// What a station record holds of the maximum gain, and the frequencies.
#[derive(Clone, Debug)]
pub struct Gains {
    pub mode: u32,
    pub parm: Parm,
    pub gainmax: [[f32; 3]; 2],
    pub gainmaxb: [f32; 30],
    pub mhz: f32,
    pub design: f32,
}

impl Gains {
    /// From the 58 floats in their order.
    pub fn new(mode: u32, floats: &[f32; 58]) -> Self {
        let at = |k: usize| floats[k];
        Gains {
            mode,
            parm: std::array::from_fn(at),
            gainmax: std::array::from_fn(|row| std::array::from_fn(|column| at(20 + 3 * row + column))),
            gainmaxb: std::array::from_fn(|k| at(26 + k)),
            mhz: at(56),
            design: at(57),
        }
    }

    /// The 58 floats in their order.
    pub fn floats(&self) -> Vec<f32> {
        let rows = self.gainmax.iter().flatten();
        self.parm.iter().chain(rows).chain(&self.gainmaxb).chain([&self.mhz, &self.design]).copied().collect()
    }

    /// With the parameters as the call leaves them: asked again, it writes the bits that are there.
    pub fn settled(self) -> Self {
        match maxgain(&self) {
            Ok((_, parm)) => Gains { parm, ..self },
            Err(_) => self,
        }
    }
}

/// `setmaxgain`: the maximum gain, and the parameters as it leaves them.
pub fn maxgain(given: &Gains) -> Result<(f32, Parm), Refusal> {
    let Gains { parm, gainmax, gainmaxb, mhz, design, .. } = given;
    refuse_if([&parm[..], &gainmax[0], &gainmax[1], gainmaxb, &[*mhz, *design]].into_iter().any(any_not_finite), VALUE)?;
    type_of(&given.parm)?;
    refuse_if(given.mode > 2, MODE)?;
    refuse_if(given.mode == 2 && outside_band(given.mhz), BAND)?;
    let file = AntennaFile { gainmax: given.gainmax, gainmaxb: given.gainmaxb, ..file_of(given.parm, given.mode) };
    let mut parm = given.parm;
    let gain = setmaxgain(&file, &mut parm, given.mhz, given.design).expect("a mode below 3");
    refuse_if(!gain.is_finite(), LEVEL)?;
    Ok((gain, parm))
}

/// The curtain's limits besides VALUE.
fn curtain_limits(parm: &Parm) -> Result<(), Refusal> {
    refuse_if(outside_band(parm[4]) || outside_band(parm[7]), BAND)?;
    refuse_if(outside(parm[14], -90.0, 90.0), AIM)
}

/// `curtain::gain`: a level.
pub fn curtain_gain(parm: &Parm, azimuth: f32, elevation: f32, factor: f32) -> Result<f32, Refusal> {
    refuse_if(any_not_finite(parm) || any_not_finite(&[azimuth, elevation, factor]), VALUE)?;
    curtain_limits(parm)?;
    let gain = curtain::gain(parm, azimuth, elevation, factor);
    refuse_if(!gain.is_finite(), LEVEL)?;
    Ok(gain)
}

/// The factor that the curtain's integral finds, whatever the direction.
pub fn curtain_factor(parm: &Parm) -> Result<f32, Refusal> {
    refuse_if(any_not_finite(parm), VALUE)?;
    curtain_limits(parm)?;
    curtain::gain(parm, 0.0, 0.0, -99_999.0);
    let factor = take_factor();
    refuse_if(!factor.is_finite(), LEVEL)?;
    Ok(factor)
}

/// How often the source reads the pattern for one direction.
pub fn curtain_readings(parm: &Parm, factor: f32) -> u32 {
    take_pattern_readings();
    curtain::gain(parm, 0.0, 0.0, factor);
    take_pattern_readings()
}

/// The readings of the curtain's integral, and the pairs of a call, as card 1 of document 02 has them.
pub const INTEGRAL: u32 = 16_471;
pub const PAIRS: usize = 64;

/// Card 1: the single call at each pair, in order, the first refused one's number; and the readings.
pub fn curtain_levels(parm: &Parm, factor: f32, directions: &[f32], room: usize) -> Result<(Vec<f32>, u32), Refusal> {
    refuse_if(any_not_finite(parm) || !factor.is_finite(), VALUE)?;
    curtain_limits(parm)?;
    let pairs: Vec<&[f32]> = directions.chunks(2).collect();
    refuse_if(directions.len() % 2 == 1 || pairs.len() > PAIRS || pairs.len() != room, SPACE)?;
    let levels: Vec<f32> = pairs.iter().map(|pair| curtain_gain(parm, pair[0], pair[1], factor)).collect::<Result<_, _>>()?;
    let integral = if factor == -99_999.0 { INTEGRAL } else { 0 };
    Ok((levels, integral + room as u32))
}

/// An accepted set-up, with what its search read.
pub struct Antenna {
    record: CcirAntenna,
    pub count: u32,
    pub readings: Vec<Reading>,
}

impl Antenna {
    /// The reading count and the bits of the peak.
    pub fn words(&self) -> [u32; 4] {
        let r = &self.record;
        [self.count, r.z6.to_bits(), r.umax.to_bits(), r.vmax.to_bits()]
    }

    /// The antenna record's words.
    pub fn record(&self) -> Vec<u32> {
        let (mut words, mut table) = (self.record.words(), vec![0.0; TABLE]);
        self.record.copy_table(&mut table);
        words.push(table_sum(&table));
        words
    }

    /// Writes the first 11,284 floats of a lent table.
    pub fn copy_table(&self, table: &mut [f32]) {
        self.record.copy_table(table);
    }
}

/// The design frequency's slot.
fn design_slot(jant: i32) -> Option<usize> {
    match jant {
        1..=4 => Some(7),
        8 | 9 => Some(5),
        _ => None,
    }
}

/// The slots of the start elevation and azimuth.
fn start_slots(jant: i32) -> Option<(usize, usize)> {
    match jant {
        1 => Some((13, 14)),
        2 | 3 => Some((11, 12)),
        4 | 8 | 9 => Some((10, 11)),
        _ => None,
    }
}

fn count_refused(jant: i32, parm: &Parm) -> bool {
    match jant {
        1..=4 => outside(parm[5], 0.0, 64.0) || outside(parm[6], 0.0, 64.0),
        5 | 6 => !(2..=30).contains(&(parm[5] as i64)),
        _ => false,
    }
}

fn aim_refused(jant: i32, parm: &Parm) -> bool {
    let slewed = jant <= 4 && outside(parm[9], -90.0, 90.0);
    let (elevation, azimuth) = start_slots(jant).map_or((0.0, 0.0), |(u, v)| (parm[u], parm[v]));
    slewed || outside(elevation, 0.0, 90.0) || outside(azimuth, 0.0, 360.0)
}

/// `antinit2`, into a lent table of `room` floats.
pub fn set_up(parm: &Parm, room: usize) -> Result<Antenna, Refusal> {
    refuse_if(any_not_finite(parm), VALUE)?;
    let jant = type_of(parm)?;
    refuse_if(outside_band(parm[4]) || design_slot(jant).is_some_and(|slot| outside_band(parm[slot])), BAND)?;
    refuse_if(count_refused(jant, parm), COUNT)?;
    refuse_if(aim_refused(jant, parm), AIM)?;
    refuse_if(room < TABLE, SPACE)?;
    take_readings();
    let record = antinit2(&file_of(*parm, 0), parm);
    let readings = take_readings();
    let peak_finite = !any_not_finite(&[record.z6, record.umax, record.vmax]);
    refuse_if(!readings.finite || !peak_finite, PATTERN)?;
    Ok(Antenna { record, count: readings.count, readings: readings.list })
}

/// A gain's case and number.
#[derive(Clone, Copy, Debug, PartialEq)]
pub enum Gain {
    Level(f32),
    Floor(f32),
    Silence(f32),
    Refused(Refusal),
}

impl Gain {
    /// The kind's number and the number's bits or the refusal's number, as `hf_gains` writes them.
    pub fn words(self) -> [u32; 2] {
        match self {
            Gain::Level(x) => [0, x.to_bits()],
            Gain::Floor(x) => [1, x.to_bits()],
            Gain::Silence(x) => [2, x.to_bits()],
            Gain::Refused(number) => [3, number],
        }
    }
}

/// The number with its case, beside the peak.
fn graded(record: &CcirAntenna, x: f32) -> Gain {
    if !x.is_finite() {
        Gain::Refused(LEVEL)
    } else if record.z6 == 0.0 {
        Gain::Silence(x)
    } else if x == -30.0 {
        Gain::Floor(x)
    } else {
        Gain::Level(x)
    }
}

/// `ccirgain`, of an antenna that set-up left: types, counts and space are right.
pub fn gain(antenna: &Antenna, elevation: f32, azimuth: f32, giso: f32) -> Gain {
    if any_not_finite(&[elevation, azimuth, giso]) {
        return Gain::Refused(VALUE);
    }
    graded(&antenna.record, antenna.record.ccirgain(elevation, azimuth, giso))
}

/// Counts of an antenna record that no set-up leaves: the source's loops and indices go by them.
fn counts_refused(words: &[u32]) -> bool {
    let [dipoles, stacks] = [13, 14].map(|k| f32::from_bits(words[k]));
    let (iek, nat) = (&words[162..198], words[265] as usize);
    outside(dipoles, 0.0, 64.0) || outside(stacks, 0.0, 64.0) || nat > 30 || iek[1..=nat].iter().any(|i| !(1..=30).contains(i))
}

/// Card 9 of document 02: "the wrapping 32-bit sum of the bit patterns of all 11,284 table floats, any NaN counted as 7FC00000".
pub fn table_sum(table: &[f32]) -> u32 {
    let word = |x: &f32| if x.is_nan() { 0x7FC0_0000 } else { x.to_bits() };
    table[..TABLE].iter().map(word).fold(0, u32::wrapping_add)
}

/// Another sum than set-up's, which stands in the record's last word.
fn table_refused(words: &[u32], table: &[f32]) -> Result<(), Refusal> {
    refuse_if(table_sum(table) != words[SUM], TABLE_DIFFERS)
}

/// What gain and row ask of an antenna record in 998 words, whoever made them.
fn record_refused(words: &[u32]) -> Result<(), Refusal> {
    refuse_if(!(1..=9).contains(&words[0]), TYPE)?;
    refuse_if(counts_refused(words), COUNT)
}

fn try_kept_gain(words: &[u32], table: &[f32], [elevation, azimuth, giso]: [f32; 3]) -> Result<Gain, Refusal> {
    refuse_if(any_not_finite(&[elevation, azimuth, giso]), VALUE)?;
    record_refused(words)?;
    refuse_if(table.len() < TABLE, SPACE)?;
    table_refused(words, table)?;
    let record = CcirAntenna::of_words(words, table);
    Ok(graded(&record, record.ccirgain(elevation, azimuth, giso)))
}

/// `ccirgain`, of an antenna record in 998 words and a table.
pub fn kept_gain(words: &[u32], table: &[f32], asked: [f32; 3]) -> Gain {
    try_kept_gain(words, table, asked).unwrap_or_else(Gain::Refused)
}

/// Card 6 of document 02, in place of document 01's entry at 180: "the greatest number from azimuth 90 to 270, both included", the one
/// that none of them is above. Of +0 and -0 the first; no number of a row is -0. None where the numbers have no order.
pub fn strongest_behind(numbers: &[f32; ROW]) -> Option<f32> {
    let behind = &numbers[90..=270];
    behind.iter().copied().find(|x| behind.iter().all(|y| y <= x))
}

/// The 360 numbers at one elevation and front-to-back.
fn numbers(record: &CcirAntenna, elevation: f32, giso: f32) -> Result<([f32; ROW], f32), Refusal> {
    let numbers: [f32; ROW] = std::array::from_fn(|v| record.ccirgain(elevation, v as f32, giso));
    refuse_if(any_not_finite(&numbers), LEVEL)?;
    let front_to_back = numbers[0] - strongest_behind(&numbers).expect("finite numbers have a greatest");
    refuse_if(!front_to_back.is_finite(), LEVEL)?;
    Ok((numbers, front_to_back))
}

fn elevation_refused(elevation: f32) -> bool {
    outside(elevation, 0.0, 90.0) || elevation.fract() != 0.0
}

/// The plate row at one elevation, of an antenna that set-up left.
pub fn row(antenna: &Antenna, elevation: f32, giso: f32) -> Result<([f32; ROW], f32), Refusal> {
    refuse_if(any_not_finite(&[elevation, giso]), VALUE)?;
    refuse_if(elevation_refused(elevation), AIM)?;
    numbers(&antenna.record, elevation, giso)
}

/// The plate row of an antenna record in 998 words and a table, into `room` floats.
pub fn kept_row(words: &[u32], table: &[f32], elevation: f32, giso: f32, room: usize) -> Result<([f32; ROW], f32), Refusal> {
    refuse_if(any_not_finite(&[elevation, giso]), VALUE)?;
    record_refused(words)?;
    refuse_if(elevation_refused(elevation), AIM)?;
    refuse_if(table.len() < TABLE || room != ROW, SPACE)?;
    table_refused(words, table)?;
    numbers(&CcirAntenna::of_words(words, table), elevation, giso)
}
