//! Which slot a refusal is about: every slot that breaks one of document 01's limits is listed with the limit's number, and the
//! lowest number is told with its lowest slot. Written from the table of refusals and the slots of docs/STATION.md.

const VALUE: u64 = 2;
const TYPE: u64 = 3;
const BAND: u64 = 5;
const COUNT: u64 = 6;
const AIM: u64 = 7;

/// A limit's number and a slot that breaks it.
type Broken = (u64, usize);

/// The slots that some limit of a number holds to a range.
fn outside(parm: &[f32; 20], number: u64, slots: &[usize], ok: impl Fn(f64) -> bool) -> Vec<Broken> {
    slots.iter().filter(|slot| !ok(parm[**slot].into())).map(|slot| (number, *slot)).collect()
}

fn in_band(mhz: f64) -> bool {
    (1.0..31.0).contains(&mhz)
}

fn slew(degrees: f64) -> bool {
    degrees.abs() <= 90.0
}

/// The type: slot 1 rounded, halves away from 0. A number that is none of the nine is no type.
fn type_of(parm: &[f32; 20]) -> Option<u32> {
    (1..=9).find(|jant| {
        let rounded = (parm[1] + 0.5f32) as f64;
        f64::from(*jant) <= rounded && rounded < f64::from(*jant + 1)
    })
}

/// What breaks a limit of set-up in an antenna of this type.
fn by_type(parm: &[f32; 20], jant: u32) -> Vec<Broken> {
    let (design, dipoles, elements, slewed, start): (&[usize], &[usize], &[usize], &[usize], Option<usize>) = match jant {
        1 => (&[7], &[5, 6], &[], &[9], Some(13)),
        2 | 3 => (&[7], &[5, 6], &[], &[9], Some(11)),
        4 => (&[7], &[5, 6], &[], &[9], Some(10)),
        5 | 6 => (&[], &[], &[5], &[], None),
        7 => (&[], &[], &[], &[], None),
        _ => (&[5], &[], &[], &[], Some(10)),
    };
    let elevation: Vec<usize> = start.into_iter().collect();
    let azimuth: Vec<usize> = start.into_iter().map(|slot| slot + 1).collect();
    [
        outside(parm, BAND, &[4], in_band),
        outside(parm, BAND, design, in_band),
        outside(parm, COUNT, dipoles, |n| (0.0..=64.0).contains(&n)),
        outside(parm, COUNT, elements, |n| (2.0..31.0).contains(&n)),
        outside(parm, AIM, slewed, slew),
        outside(parm, AIM, &elevation, |degrees| (0.0..=90.0).contains(&degrees)),
        outside(parm, AIM, &azimuth, |degrees| (0.0..=360.0).contains(&degrees)),
    ]
    .concat()
}

fn not_finite(parm: &[f32; 20]) -> Vec<Broken> {
    (0..20).filter(|slot| !parm[*slot].is_finite()).map(|slot| (VALUE, slot)).collect()
}

fn of_station(parm: &[f32; 20]) -> Vec<Broken> {
    [not_finite(parm), type_of(parm).map_or(vec![(TYPE, 1)], |jant| by_type(parm, jant))].concat()
}

fn of_curtain(parm: &[f32; 20]) -> Vec<Broken> {
    [not_finite(parm), outside(parm, BAND, &[4, 7], in_band), outside(parm, AIM, &[14], slew)].concat()
}

/// Kind 4 with the number and the slot, 0 for nothing broken; kind 3 and 8 where there aren't twenty floats.
fn told(parm: &[f32], broken: fn(&[f32; 20]) -> Vec<Broken>) -> u64 {
    let Ok(parm) = parm.try_into() else { return 3 << 32 | 8 };
    broken(parm).into_iter().min().map_or(0, |(number, slot)| 4 << 32 | number << 16 | slot as u64)
}

pub fn why(parm: &[f32]) -> u64 {
    told(parm, of_station)
}

pub fn curtain_why(parm: &[f32]) -> u64 {
    told(parm, of_curtain)
}
