//! Stored gains and rows: set-up into lent buffers, words of the antenna record or floats of the table changed, then the call. So a
//! list needs to hold neither a record nor a table.

/// `hf_setup` or the oracle's.
pub type SetUp = fn(&[f32], &mut [f32], &mut [u32], &mut [u32]) -> u32;

/// The words of an antenna record.
pub const ANTENNA: usize = 998;
/// The table's sum, the last of them.
pub const SUM: usize = 997;
/// What set-up says of its search.
pub const FOUND: usize = 4;

/// Among the places of changes, the table's first float; those of the record begin at 0.
pub const OF_TABLE: usize = 1 << 16;

/// Sets up, then changes words and floats: pairs of a place and a word. A refused set-up leaves all as it was.
pub fn prepare(set_up: SetUp, parm: &[f32], changes: &[u32], table: &mut [f32], antenna: &mut [u32]) {
    set_up(parm, table, antenna, &mut [0; FOUND]);
    for change in changes.chunks_exact(2) {
        let (place, word) = (change[0] as usize, change[1]);
        if place >= OF_TABLE {
            table.get_mut(place - OF_TABLE).into_iter().for_each(|float| *float = f32::from_bits(word));
        } else {
            antenna.get_mut(place).into_iter().for_each(|kept| *kept = word);
        }
    }
}
