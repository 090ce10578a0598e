//! Issue 27, the plate that people see: of the bytes that `plate` reads, a station's or a curtain's, the 360 gains in hundredths with
//! their kinds, and what stands beside them.
use super::expected::{self, Gain, Gains, Refusal, ROW};
use super::planet::{hundredths, in_span, two_decimals, SPAN};
use super::plate::{self, Steps};

const VALUE: Refusal = 2;
const AIM: Refusal = 7;
const LEVEL: Refusal = 10;

#[derive(Clone, Copy, PartialEq)]
pub enum Kind {
    Level,
    Floor,
    Silence,
}

/// A gain in hundredths of dBi.
#[derive(Clone, Copy)]
pub struct Entry {
    pub kind: Kind,
    pub number: i64,
}

/// What stands beside a plate: the type (0 the curtain), MHz in hundredths, the elevation, and whether the mirror law holds.
#[derive(Clone, Copy)]
pub struct Heading {
    pub antenna: i32,
    pub mhz: i64,
    pub elevation: i64,
    pub mirrored: bool,
}

pub struct Shown {
    pub heading: Heading,
    pub entries: Vec<Entry>,
}

fn entries(numbers: &[f32], kinds: &[Kind]) -> Result<Vec<Entry>, Refusal> {
    if !in_span(numbers) {
        return Err(SPAN);
    }
    Ok(numbers.iter().zip(kinds).map(|(x, kind)| Entry { kind: *kind, number: hundredths(*x) }).collect())
}

/// By the steps of `plate`.
fn station(input: &[u8]) -> Result<Shown, Refusal> {
    let Steps { antenna, parm, giso, elevation, row } = plate::steps(input)?;
    let kind = |v: usize| match expected::gain(&antenna, elevation, v as f32, giso) {
        Gain::Level(_) => Kind::Level,
        Gain::Floor(_) => Kind::Floor,
        Gain::Silence(_) => Kind::Silence,
        Gain::Refused(_) => unreachable!("a row exists"),
    };
    let kinds: Vec<Kind> = (0..ROW).map(kind).collect();
    let jant = expected::type_of(&parm)?;
    let mirrored = (jant <= 4 && parm[9].trunc() == 0.0) || [5, 6].contains(&jant);
    let entries = entries(&row, &kinds)?;
    Ok(Shown { heading: Heading { antenna: jant, mhz: hundredths(parm[4]), elevation: elevation as i64, mirrored }, entries })
}

/// The factor that the record lists for slot 4's whole MHz, or the integral's.
fn factor(given: &Gains) -> Result<f32, Refusal> {
    let listed = (1..=30).find(|mhz| given.parm[4] as usize == *mhz).map_or(-99_999.0, |mhz| given.gainmaxb[mhz - 1]);
    if listed == -99_999.0 {
        expected::curtain_factor(&given.parm)
    } else {
        Ok(listed)
    }
}

/// "A curtain's card is drawn too: its 360 levels with one factor."
fn curtain(given: &Gains, elevation: f32) -> Result<Shown, Refusal> {
    if ![given.mhz, given.design, elevation].iter().all(|x| x.is_finite()) {
        return Err(VALUE);
    }
    // A direction and a factor that no limit is about; what is no number there says nothing of the station.
    expected::curtain_gain(&given.parm, 0.0, 0.0, 1.0)
        .map(|_| ())
        .or_else(|number| if number == LEVEL { Ok(()) } else { Err(number) })?;
    if !(0..=90).any(|whole| whole as f32 == elevation) {
        return Err(AIM);
    }
    let factor = factor(given)?;
    let level = |v: usize| expected::curtain_gain(&given.parm, v as f32, elevation, factor);
    let numbers: Vec<f32> = (0..ROW).map(level).collect::<Result<_, _>>()?;
    let entries = entries(&numbers, &[Kind::Level; ROW])?;
    // The curtain's mirror law is of an azimuth and its negative, not of 360 less it.
    Ok(Shown {
        heading: Heading { antenna: 0, mhz: hundredths(given.parm[4]), elevation: elevation as i64, mirrored: false },
        entries,
    })
}

/// The plate of a station, or of a curtain, which is mode 3.
pub fn shown(input: &[u8]) -> Result<Shown, Refusal> {
    let given = plate::gains(input)?;
    if given.mode == 3 {
        curtain(&given, f32::from_be_bytes(input[233..].try_into().expect("four bytes")))
    } else {
        station(input)
    }
}

/// `--dbi`: azimuth, gain in dBi with two decimals, kind.
fn line(azimuth: usize, entry: &Entry) -> String {
    let kind = match entry.kind {
        Kind::Level => "level",
        Kind::Floor => "floor",
        Kind::Silence => "silence",
    };
    format!("{azimuth} {} {kind}\n", two_decimals(entry.number))
}

/// The lines of a plate, or the refusal's.
pub fn dbi(input: &[u8]) -> String {
    let lines = |shown: Shown| shown.entries.iter().enumerate().map(|(v, entry)| line(v, entry)).collect();
    shown(input).map_or_else(plate::refusal, lines)
}
