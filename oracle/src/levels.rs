//! Document 02, card 13, the last sixty-four field strengths, from the whole run, which is kept: what the screen shows is taken from
//! its tail, and a state's words are those that some run leaves.
use crate::random::Random;

const HELD: usize = 64;
/// The words of a state: the ring, how many it holds, the next place.
pub const STATE: usize = HELD + 2;
/// The words of what is shown.
pub const SHOWN: usize = 3;

const VALUE: u32 = 2;
const SPACE: u32 = 8;

/// The levels received, the earliest first. One that isn't finite was refused, and isn't among them.
#[derive(Clone, Default)]
pub struct Run(Vec<f32>);

impl Run {
    pub fn record(&mut self, level: f32) -> Result<(), u32> {
        if !level.is_finite() {
            return Err(VALUE);
        }
        self.0.push(level);
        Ok(())
    }

    /// A run of these levels, refused ones among them.
    pub fn of(levels: impl IntoIterator<Item = f32>) -> Self {
        let mut run = Run::default();
        for level in levels {
            let _ = run.record(level);
        }
        run
    }

    /// How many of the last 64 there are, and the bits of the greatest and the least; the earliest of those that tie.
    pub fn shown(&self) -> [u32; SHOWN] {
        let tail = &self.0[self.0.len().saturating_sub(HELD)..];
        let earliest = |beyond: fn(f32, f32) -> f32| {
            let extreme = tail.iter().copied().reduce(beyond);
            tail.iter().find(|level| Some(**level) == extreme).map_or(0, |level| level.to_bits())
        };
        [tail.len() as u32, earliest(f32::max), earliest(f32::min)]
    }

    /// The words that it leaves.
    pub fn state(&self) -> [u32; STATE] {
        let mut words = [0; STATE];
        for (k, level) in self.0.iter().enumerate() {
            words[k % HELD] = level.to_bits();
            words[HELD] = (k + 1).min(HELD) as u32;
            words[HELD + 1] = ((k + 1) % HELD) as u32;
        }
        words
    }

    /// A run that leaves these words. Where any does, this one does: the ring's levels from place 0 on, then once more those before
    /// the next place of a full ring.
    fn leaving(words: &[u32]) -> Option<Run> {
        let ring = words.get(..HELD)?;
        let levels = |places: u32| ring.iter().take(places as usize).map(|bits| f32::from_bits(*bits));
        let (held, next) = (*words.get(HELD)?, *words.get(HELD + 1)?);
        let again = if held as usize == HELD { next } else { 0 };
        let run = Run::of(levels(held).chain(levels(again)));
        (run.state() == *words).then_some(run)
    }
}

fn try_show(state: &[u32], out: &mut [u32]) -> Result<(), u32> {
    let out: &mut [u32; SHOWN] = out.try_into().map_err(|_| SPACE)?;
    *out = Run::leaving(state).ok_or(SPACE)?.shown();
    Ok(())
}

/// `hf_levels`.
pub fn show(state: &[u32], out: &mut [u32]) -> u32 {
    try_show(state, out).err().unwrap_or(0)
}

fn try_record(state: &mut [u32], level: f32, out: &mut [u32]) -> Result<(), u32> {
    let out: &mut [u32; SHOWN] = out.try_into().map_err(|_| SPACE)?;
    Run::default().record(level)?;
    let mut run = Run::leaving(state).ok_or(SPACE)?;
    run.record(level)?;
    state.copy_from_slice(&run.state());
    *out = run.shown();
    Ok(())
}

/// `hf_levels_record`.
pub fn record(state: &mut [u32], level: f32, out: &mut [u32]) -> u32 {
    try_record(state, level, out).err().unwrap_or(0)
}

/// A level to try: measured ones, a few that come again and again, zeros of both signs, subnormals, any bits, and some that aren't
/// finite.
pub fn level(random: &mut Random) -> f32 {
    match random.below(12) {
        0..=2 => random.between(-140.0, -20.0).round(),
        3..=5 => random.pick(&[0.0, -0.0]),
        6 => random.pick(&[1.0, -1.0, f32::MAX, f32::MIN, f32::MIN_POSITIVE]),
        7 | 8 => f32::from_bits((random.bits() & 0x8000_0000) | random.below(8) as u32),
        9 | 10 => f32::from_bits(random.bits()),
        _ => random.pick(&[f32::NAN, f32::INFINITY, f32::NEG_INFINITY]),
    }
}

/// Levels of one kind, so that zeros of both signs, or equal levels, are the greatest and the least of a tail.
pub fn levels(random: &mut Random, count: usize) -> Vec<f32> {
    let kind = random.below(4);
    let one = |random: &mut Random| match kind {
        0 => random.pick(&[0.0, -0.0, 0.0, -0.0, f32::NAN]),
        1 => random.pick(&[0.0, -0.0, 1.0]),
        2 => random.pick(&[0.0, -0.0, -1e-45]),
        _ => level(random),
    };
    (0..count).map(|_| one(random)).collect()
}

/// A state with one word, or several, that a run wouldn't leave there; or of another length.
pub fn damage(random: &mut Random, state: &mut Vec<u32>) {
    for _ in 0..1 + random.below(2) {
        let at = match random.below(3) {
            0 => HELD,
            1 => HELD + 1,
            _ => random.below(STATE as u64) as usize,
        };
        state[at] = match random.below(6) {
            0 => state[at].wrapping_add(1),
            1 => state[at].wrapping_sub(1),
            2 => random.pick(&[0, 1, 62, 63, 64, 65, 66, 128, u32::MAX]),
            3 => random.pick(&[0x7f80_0000, 0xff80_0000, 0x7fc0_0000, 0x7f80_0001, 0xffff_ffff]),
            4 => 0x8000_0000,
            _ => random.bits(),
        };
    }
    if random.below(20) == 0 {
        state.resize(random.pick(&[0, 1, 64, 65, 67, 132]), 0);
    }
}
