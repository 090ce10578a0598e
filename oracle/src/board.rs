//! Document 02's card 10, the exercise board, from its words: a list of those on the air, and the board worked out afresh from it.
//! In words it is how many are on, then sixteen places of an id and 360 numbers' bits, the first to join first, the rest 0; after
//! these the bits of the 360 numbers shown, and the 360 ids that have them.

/// The words of those on.
pub const AIR: usize = 5777;
pub const WORDS: usize = AIR + 2 * AZIMUTHS;
pub const AZIMUTHS: usize = 360;
pub const PLACES: usize = 16;

const VALUE: u32 = 2;
const SPACE: u32 = 8;
const CALL: u32 = 16;
const FULL: u32 = 17;

#[derive(Clone, Debug)]
struct Station {
    id: u32,
    row: Vec<f32>,
}

/// Those on the air, the first to join first.
#[derive(Clone, Debug, Default)]
pub struct Air(Vec<Station>);

impl Air {
    /// Their number.
    pub fn count(&self) -> usize {
        self.0.len()
    }

    fn is_on(&self, id: u32) -> bool {
        self.0.iter().any(|station| station.id == id)
    }

    pub fn join(&mut self, id: u32, row: &[f32]) -> Result<(), u32> {
        if row.iter().any(|x| !x.is_finite()) {
            return Err(VALUE);
        }
        if row.len() != AZIMUTHS {
            return Err(SPACE);
        }
        if !(1..=65_535).contains(&id) || self.is_on(id) {
            return Err(CALL);
        }
        if self.count() == PLACES {
            return Err(FULL);
        }
        self.0.push(Station { id, row: row.to_vec() });
        Ok(())
    }

    pub fn leave(&mut self, id: u32) -> Result<(), u32> {
        if !self.is_on(id) {
            return Err(CALL);
        }
        self.0.retain(|station| station.id != id);
        Ok(())
    }

    /// The greatest number at an azimuth and the lowest id that has it; -30 and 0 with nobody on.
    pub fn shown(&self, azimuth: usize) -> (f32, u32) {
        let number = |station: &Station| station.row[azimuth];
        let greatest = self.0.iter().map(number).fold(f32::NEG_INFINITY, f32::max);
        let shown = self.0.iter().filter(|s| number(s) == greatest).min_by_key(|s| s.id);
        shown.map_or((-30.0, 0), |s| (number(s), s.id))
    }

    pub fn words(&self) -> Vec<u32> {
        let places = self.0.iter().flat_map(|s| std::iter::once(s.id).chain(s.row.iter().map(|x| x.to_bits())));
        let mut words: Vec<u32> = std::iter::once(self.count() as u32).chain(places).collect();
        words.resize(AIR, 0);
        let shown: Vec<(f32, u32)> = (0..AZIMUTHS).map(|v| self.shown(v)).collect();
        words.extend(shown.iter().map(|(number, _)| number.to_bits()));
        words.extend(shown.iter().map(|(_, id)| id));
        words
    }

    /// The board in these words, where joining its stations one by one leaves just them.
    pub fn from_words(words: &[u32]) -> Option<Air> {
        let count = *words.first()? as usize;
        let mut air = Air::default();
        for place in words.get(1..AIR)?.chunks_exact(1 + AZIMUTHS).take(count) {
            let row: Vec<f32> = place[1..].iter().map(|bits| f32::from_bits(*bits)).collect();
            air.join(place[0], &row).ok()?;
        }
        (air.words() == words).then_some(air)
    }
}

/// The number of the refusal, or 0 with the board's words written anew.
fn left(board: &mut [u32], answer: Result<Air, u32>) -> u32 {
    match answer {
        Ok(air) => {
            board.copy_from_slice(&air.words());
            0
        }
        Err(number) => number,
    }
}

pub fn empty(board: &mut [u32]) -> u32 {
    let air = if board.len() == WORDS { Ok(Air::default()) } else { Err(SPACE) };
    left(board, air)
}

pub fn join(board: &mut [u32], id: u32, row: &[f32]) -> u32 {
    if row.iter().any(|x| !x.is_finite()) {
        return VALUE;
    }
    let air = Air::from_words(board).ok_or(SPACE);
    left(board, air.and_then(|mut air| air.join(id, row).map(|()| air)))
}

pub fn leave(board: &mut [u32], id: u32) -> u32 {
    let air = Air::from_words(board).ok_or(SPACE);
    left(board, air.and_then(|mut air| air.leave(id).map(|()| air)))
}

pub fn show(board: &[u32], numbers: &mut [f32], ids: &mut [u32]) -> u32 {
    let Some(air) = Air::from_words(board) else {
        return SPACE;
    };
    if numbers.len() != AZIMUTHS || ids.len() != AZIMUTHS {
        return SPACE;
    }
    for v in 0..AZIMUTHS {
        (numbers[v], ids[v]) = air.shown(v);
    }
    0
}

/// The four calls, the library's or those above.
pub struct Calls {
    pub empty: fn(&mut [u32]) -> u32,
    pub join: fn(&mut [u32], u32, &[f32]) -> u32,
    pub leave: fn(&mut [u32], u32) -> u32,
    pub show: fn(&[u32], &mut [f32], &mut [u32]) -> u32,
}

pub const LEAVES: u32 = 1 << 31;

/// An empty board, then each word of `calls` as a call: an id that joins with the next 360 of `rows`, or leaves where the word has
/// the bit `LEAVES`; at last the board is shown. The digest of the answers in turn.
pub fn run(of: &Calls, calls: &[u32], rows: &[f32], board: &mut [u32], numbers: &mut [f32], ids: &mut [u32]) -> u32 {
    let mut rows = rows.chunks(AZIMUTHS);
    let mut answers = vec![(of.empty)(board)];
    answers.extend(calls.iter().map(|word| match word & LEAVES {
        0 => (of.join)(board, *word, rows.next().unwrap_or_default()),
        _ => (of.leave)(board, word ^ LEAVES),
    }));
    answers.push((of.show)(board, numbers, ids));
    answers.iter().fold(0, |digest: u32, answer| digest.wrapping_mul(31).wrapping_add(*answer))
}
