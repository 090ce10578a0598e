//! Remarks on a plate, issue 26: what its reader could take for another thing. By the source's own numbers, each asked for twice.
use crate::expected::{self, Gain, Gains, ROW};
use crate::plate::{self, Steps};

/// In mode 1 the maximum gain is the same whatever the six are: the ratio of operating to design MHz is none of theirs.
fn off_band(given: Gains) -> bool {
    let gain = |all: f32| expected::maxgain(&Gains { gainmax: [[all; 3]; 2], ..given }).map(|(gain, _)| gain);
    given.mode == 1 && gain(0.0) == gain(10.0)
}

/// Each a sentence; a plate that is refused has none.
pub fn remarks(input: &[u8]) -> Vec<String> {
    let (Ok(given), Ok(Steps { antenna, giso, elevation, .. })) = (plate::gains(input), plate::steps(input)) else {
        return Vec::new();
    };
    let gain = |v: usize, giso: f32| expected::gain(&antenna, elevation, v as f32, giso);
    let floors = (0..ROW).filter(|v| matches!(gain(*v, giso), Gain::Floor(_))).count();
    // With a maximum gain of 0 what is at the limit of 30 dB below the peak is a floor.
    let limited = (0..ROW).filter(|v| matches!((gain(*v, giso), gain(*v, 0.0)), (Gain::Level(_), Gain::Floor(_)))).count();
    let directions = if limited == 1 { "direction is" } else { "directions are" };
    let band = (floors == ROW && off_band(given)).then(|| "all 360 directions are a floor: MHz is off the design band".into());
    let limit = format!("{limited} {directions} at the limit of 30 dB below the peak: the gain there is that or less");
    band.into_iter().chain((limited > 0).then_some(limit)).collect()
}
