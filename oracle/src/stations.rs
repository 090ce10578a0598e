//! Stations to try: realistic ones of each type, then some with slots at the ends of the limits, beside them, or broken.
use crate::random::Random;

pub type Parm = [f32; 20];

/// The ends of document 01's limits and other telling numbers.
const ENDS: [f32; 24] = [
    0.0, 0.5, 0.7, 0.85, 1.0, 1.2, 1.4, 2.0, 9.5, 10.0, 27.5, 30.0, 31.0, 64.0, 89.5, 90.0, 180.0, 270.0, 360.0, 65_536.0, 1e-30,
    1e19, 3e38, 99_999.0,
];
const BROKEN: [f32; 3] = [f32::NAN, f32::INFINITY, f32::NEG_INFINITY];

/// A finite float of any exponent.
pub fn finite(random: &mut Random) -> f32 {
    let bits = random.bits();
    f32::from_bits(if bits >> 23 & 255 == 255 { bits & 0x807f_ffff } else { bits })
}

/// A slot 1: mostly of a type, or of a number beside the types; at times any float.
pub fn type_slot(random: &mut Random) -> f32 {
    match random.below(10) {
        0 => finite(random),
        1 => random.pick(&[0.5, 0.499_999_97, 0.499_999_94, 9.5, 9.499_999, -0.5, -1.0, 10.0, 15.0, 16.0, 2_147_483_648.0]),
        2 => random.between(-2.0, 17.0),
        _ => random.between(0.5, 9.499_999),
    }
}

/// An end of a limit or a float beside it, of either sign.
pub fn near_end(random: &mut Random) -> f32 {
    let end = random.pick(&ENDS).to_bits();
    let beside = end.saturating_add(random.below(3) as u32).saturating_sub(1);
    let sign = if random.below(3) == 0 { 0x8000_0000 } else { 0 };
    f32::from_bits(beside | sign)
}

/// A number that a careless caller might give.
pub fn odd(random: &mut Random) -> f32 {
    match random.below(12) {
        0 => random.pick(&BROKEN),
        1 | 2 => finite(random),
        3 | 4 => random.between(-100.0, 400.0),
        5 => random.between(-4.0, 4.0),
        _ => near_end(random),
    }
}

/// Half of the time a whole number.
fn whole_or_between(random: &mut Random, low: f32, high: f32) -> f32 {
    let x = random.between(low, high);
    if random.below(2) == 0 {
        x.round()
    } else {
        x
    }
}

/// Zero or a slew; dipoles and stacks; a design frequency near the operating one.
fn array_slots(random: &mut Random, parm: &mut Parm) {
    parm[5] = whole_or_between(random, 0.0, 9.0);
    parm[6] = whole_or_between(random, 0.0, 9.0);
    parm[7] = (parm[4] / random.between(0.6, 1.5)).clamp(1.0, 30.9);
    parm[8] = random.between(0.0, 2.5);
    parm[9] = if random.below(2) == 0 { random.between(-1.0, 1.0) } else { whole_or_between(random, -32.0, 32.0) };
}

fn start_slots(random: &mut Random, parm: &mut Parm, elevation: usize) {
    parm[elevation] = whole_or_between(random, 0.0, 90.0);
    parm[elevation + 1] = if random.below(2) == 0 { 0.0 } else { whole_or_between(random, 0.0, 360.0) };
}

/// Elements from a length well under half a wave to one well over it, on a boom that fits them.
fn log_periodic_slots(random: &mut Random, parm: &mut Parm) {
    let half_wave = 149.9 / parm[4];
    parm[5] = whole_or_between(random, 2.0, 30.9);
    parm[6] = half_wave * random.between(0.2, 1.0);
    parm[7] = half_wave * random.between(1.0, 2.5);
    parm[8] = half_wave * random.between(0.5, 4.0);
    parm[9] = half_wave * random.between(0.1, 1.0);
    parm[10] = half_wave * random.between(0.1, 2.0);
    parm[11] = random.between(50.0, 600.0);
}

fn rhombic_slots(random: &mut Random, parm: &mut Parm) {
    parm[5] = random.between(20.0, 250.0);
    parm[6] = random.between(2.0, 60.0);
    parm[7] = random.between(20.0, 85.0);
}

/// A realistic station of this type.
pub fn realistic(random: &mut Random, jant: u32) -> Parm {
    let mut parm = [0.0; 20];
    parm[0] = random.between(-5.0, 25.0);
    parm[1] = jant as f32;
    parm[2] = random.between(1.0, 81.0);
    parm[3] = random.pick(&[0.0001, 0.001, 0.01, 0.1, 5.0]) * random.between(0.5, 1.0);
    parm[4] = whole_or_between(random, 2.0, 30.0);
    match jant {
        1 => {
            array_slots(random, &mut parm);
            parm[10] = random.between(0.1, 0.5);
            parm[11] = random.between(0.01, 0.3);
            parm[12] = random.between(1.0, 5.0);
            start_slots(random, &mut parm, 13);
            parm[16] = random.between(0.0, 30.0);
        }
        2 | 3 => {
            array_slots(random, &mut parm);
            parm[10] = random.between(0.0, 1.0);
            start_slots(random, &mut parm, 11);
        }
        4 => {
            array_slots(random, &mut parm);
            start_slots(random, &mut parm, 10);
        }
        5 | 6 => log_periodic_slots(random, &mut parm),
        7 => rhombic_slots(random, &mut parm),
        _ => {
            parm[5] = (parm[4] / random.between(0.6, 1.5)).clamp(1.0, 30.9);
            parm[6] = random.between(0.05, 1.5);
            start_slots(random, &mut parm, 10);
        }
    }
    parm
}

/// A realistic curtain: lengths in metres, or in design wavelengths where negative.
pub fn curtain(random: &mut Random) -> Parm {
    let mut parm = [0.0; 20];
    parm[1] = 12.0;
    parm[4] = whole_or_between(random, 2.0, 30.0);
    parm[5] = whole_or_between(random, -3.0, 15.0);
    parm[6] = whole_or_between(random, -1.0, 10.0);
    parm[7] = (parm[4] / random.between(0.6, 1.5)).clamp(1.0, 30.9);
    for length in &mut parm[8..13] {
        *length = if random.below(2) == 0 { -random.between(0.1, 1.5) } else { random.between(1.0, 60.0) };
    }
    parm[13] = whole_or_between(random, -1.0, 17.0);
    parm[14] = whole_or_between(random, -35.0, 35.0);
    parm
}

/// No slot changed in half of the stations, else one to three, the type's own slots most often.
pub fn disturbed(random: &mut Random, mut parm: Parm) -> Parm {
    let changes = [0, 0, 0, 0, 1, 1, 2, 3][random.below(8) as usize];
    for _ in 0..changes {
        parm[random.below(17) as usize] = odd(random);
    }
    if random.below(50) == 0 {
        parm[random.below(20) as usize] = odd(random);
    }
    parm
}

/// Up to so many slots changed, any of the twenty: often several limits are broken at once.
pub fn damaged(random: &mut Random, mut parm: Parm, most: u64) -> Parm {
    for _ in 0..random.below(most + 1) {
        parm[random.below(20) as usize] = odd(random);
    }
    parm
}

/// A log-periodic or rhombic so long that a sine's argument leaves its domain, perhaps only in directions the search doesn't read.
fn stretched(random: &mut Random, parm: &mut Parm) {
    let length = 65_536.0 * 299.8 / (6.283_185_5 * parm[4]);
    match parm[1] as u32 {
        5 | 6 => parm[8] = length * random.between(0.2, 2.0),
        7 => parm[5] = length * random.between(0.4, 1.1),
        _ => {}
    }
}

/// A realistic station made longer, its type's slot a fraction that rounds to it, slots disturbed: each sometimes.
pub fn altered(random: &mut Random, mut parm: Parm) -> Parm {
    if random.below(12) == 0 {
        stretched(random, &mut parm);
    }
    if random.below(10) == 0 {
        parm[1] += random.pick(&[-0.5, -0.49, 0.3, 0.499_999, 0.5]);
    }
    disturbed(random, parm)
}

/// A station of any type.
pub fn station(random: &mut Random) -> Parm {
    let jant = 1 + random.below(9) as u32;
    let parm = realistic(random, jant);
    altered(random, parm)
}

/// A maximum gain; at times one that lifts or sinks every level, or is none.
pub fn giso(random: &mut Random) -> f32 {
    match random.below(8) {
        0 => odd(random),
        1 => random.pick(&[0.0, -0.0, -30.0, 30.0, -10.0]),
        _ => random.between(-25.0, 30.0),
    }
}
