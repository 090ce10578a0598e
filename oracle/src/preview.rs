//! Document 02, card 2: which slots `setmaxgain` writes, "even with the same bits". What it writes is the source's own.

/// Slots 4, 5 and 7, each with whether it is written by this mode for this type.
pub fn marks(mode: u32, jant: i32) -> [(usize, bool); 3] {
    let written: &[usize] = match mode {
        1 if jant == 8 => &[4, 5, 7],
        1 => &[4, 7],
        2 => &[4],
        _ => &[],
    };
    [4, 5, 7].map(|slot| (slot, written.contains(&slot)))
}
