//! Card 12: how often set-up reads the gain. At most 141, and 90 for an unslewed type other than 4, by the oracle's count and by the
//! proved library's; two stations whose counts are stated.
use crate::cases::{hex, run};
use oracle::random::Random;
use oracle::report::Comparison;
use oracle::{reference, service, stations};

type GainsCall = fn(&[f32], f32, &[f32], &mut [u32]) -> u32;

/// The reading count of an accepted set-up.
fn readings(gains: GainsCall, parm: &[f32]) -> Option<u32> {
    let mut out = [0; 4];
    (gains(parm, 0.0, &[], &mut out) == 0).then_some(out[0])
}

/// A type 2 of two by two dipoles, slewed by 10 degrees; the same without a dipole, so that no gain is above 0, searched from 22.03.
const DEAR: [f32; 20] = [0.0, 2.0, 4.0, 0.01, 10.0, 2.0, 2.0, 10.0, 0.5, 10.0, 0.5, 0.0, 0.0, 0.0, 0.0, 0.0, 0.0, 0.0, 0.0, 0.0];
const SILENT: [f32; 20] =
    [0.0, 2.0, 4.0, 0.01, 10.0, 0.0, 2.0, 10.0, 0.5, 10.0, 0.5, 0.0, 22.03, 0.0, 0.0, 0.0, 0.0, 0.0, 0.0, 0.0];
/// A type 1 of four by four, slewed; a type 4, unslewed; the first without its slew.
const SCREENED: [f32; 20] =
    [20.0, 1.0, 4.0, 0.01, 10.0, 4.0, 4.0, 10.0, 0.5, 10.0, 0.25, 0.2, 3.0, 10.0, 0.0, 0.0, 0.0, 0.0, 0.0, 0.0];
const TROPICAL: [f32; 20] =
    [0.0, 4.0, 4.0, 0.01, 10.0, 2.0, 2.0, 10.0, 0.5, 0.0, 0.0, 0.0, 0.0, 0.0, 0.0, 0.0, 0.0, 0.0, 0.0, 0.0];
const AHEAD: [f32; 20] = [0.0, 2.0, 4.0, 0.01, 10.0, 2.0, 2.0, 10.0, 0.5, 0.99, 0.5, 0.0, 0.0, 0.0, 0.0, 0.0, 0.0, 0.0, 0.0, 0.0];

fn stated(name: &str, gains: GainsCall) -> Comparison {
    let mut found = Comparison::new(format!("stated readings of set-up, {name}"));
    for (parm, count) in [(DEAR, 141), (SILENT, 140), (SCREENED, 141), (TROPICAL, 141), (AHEAD, 90)] {
        let got = readings(gains, &parm);
        found.hold(&got, &Some(count), || format!("{}: {got:?}, expected {count}", hex(&parm)));
    }
    found
}

/// `jant` of slot 1, and whether the slew isn't cut to 0.
pub fn family(parm: &[f32; 20]) -> (i32, bool) {
    let jant = (parm[1] + 0.5) as i32;
    (jant, jant <= 4 && parm[9] as i32 != 0)
}

fn one(random: &mut Random, found: &mut Comparison) {
    let parm = stations::station(random);
    let Some(count) = readings(service::gains, &parm) else {
        found.met("refused");
        return found.hold(&readings(reference::gains, &parm), &None, || format!("{}: accepted by the oracle alone", hex(&parm)));
    };
    let (jant, slewed) = family(&parm);
    let allowed = if slewed || jant == 4 { count <= 141 } else { count == 90 };
    found.met(format!("type {jant}{}, {count} readings", if slewed { " slewed" } else { "" }));
    found.hold(&(readings(reference::gains, &parm), allowed), &(Some(count), true), || {
        format!("{}: {count} readings", hex(&parm))
    });
}

pub fn compare(count: u64) -> Vec<Comparison> {
    vec![
        stated("oracle", reference::gains),
        stated("hf_gains", service::gains),
        run("readings of set-up", 22, count, one).owing(&["type 4, 141 readings", "type 1 slewed, 140 readings"]),
    ]
}
