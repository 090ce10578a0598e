//! Inputs for the text of card 14: those of `plate`, and stations whose numbers stand where one of the card's rules changes.
use crate::expected::{self, TABLE};
use crate::random::Random;
use crate::record::{self, BYTES, WORDS};
use crate::{broken, plain, stations};

/// One of these numbers or a float beside it, of either sign.
fn beside(random: &mut Random, numbers: &[f32]) -> f32 {
    let x = f32::from_bits(random.pick(numbers).to_bits() - 1 + random.below(3) as u32);
    if random.below(4) == 0 {
        -x
    } else {
        x
    }
}

/// A maximum gain, which is the peak's number, and 30 more than a floor's: at the span's end; whole eighths, whose hundredths end in a
/// half or don't, each for half of them; beside 0 and beside half of a hundredth.
fn maximum(random: &mut Random) -> f32 {
    match random.below(6) {
        0 => beside(random, &[970.0, 1000.0, 1030.0, 1100.0, 1e30]),
        1 => beside(random, &[1e-44, 1e-30, 0.004, 0.005, 0.015, 0.994_999_9, 0.995, 30.0]),
        2 => random.between(-30.0, 1030.0),
        _ => random.below(400) as f32 / 8.0 - 25.0,
    }
}

/// A station of this maximum gain in mode 0, at its peak's elevation in half of the cases. The frequencies are asked for nothing.
fn of_gain(random: &mut Random, giso: f32) -> Vec<u8> {
    let jant = 1 + random.below(9) as u32;
    let mut parm = stations::realistic(random, jant);
    parm[0] = giso;
    match (jant, random.below(4)) {
        // A ground whose reflection at elevation 0 is 0 / 0: the search doesn't read there, the vertical part does.
        (5 | 6, 0) => (parm[2], parm[3]) = (plain::cos(0.005) * plain::cos(0.005), 0.0),
        // A closed rhombic with legs of five waves: away from the azimuth that is searched it is some 200 dB above its peak.
        (7, 0) => (parm[4], parm[5], parm[7]) = (10.0, 149.9, 0.0),
        _ => {}
    }
    let peak = expected::set_up(&parm, TABLE).ok().map(|antenna| f32::from_bits(antenna.words()[2]));
    let any = random.below(91) as f32;
    let elevation = peak.filter(|_| random.below(2) == 0).unwrap_or(any);
    let words: [u32; WORDS] = std::array::from_fn(|k| if (1..=20).contains(&k) { parm[k - 1].to_bits() } else { 0 });
    let mut bytes = vec![0; BYTES];
    record::write(random.below(2) as u32, &words, &mut bytes).expect("a type and finite floats");
    let frequencies = [(); 2].map(|()| random.between(1.0, 31.0));
    bytes.extend(frequencies.into_iter().chain([elevation]).flat_map(|x| x.to_bits().to_be_bytes()));
    bytes
}

pub fn input(random: &mut Random) -> Vec<u8> {
    if random.below(2) == 0 {
        return broken::input(random);
    }
    let giso = maximum(random);
    of_gain(random, giso)
}

/// Bytes lent for a text: as many as it has, one less, more, or any number.
pub fn room(random: &mut Random, text: &Option<String>) -> usize {
    let length = text.as_ref().map_or(7000, String::len);
    match random.below(8) {
        0 | 1 => length,
        2 => length - 1,
        3 => random.pick(&[0, 1, 237, 4096]),
        4 => random.below(9000) as usize,
        _ => length + 1 + random.below(500) as usize,
    }
}
