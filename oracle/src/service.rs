//! The proved library's calls. Nothing checks these declarations against the Rattle: keep both side by side in a review.
//! A slice is a pointer, then a length.
use crate::antennas::prepare;
use crate::board;

mod raw {
    extern "C" {
        pub fn hf_leaf(which: u32, a: u32, b: u32) -> u32;
        pub fn hf_maxgain(mode: u32, floats: *const f32, floats_len: usize, out: *mut u32, out_len: usize) -> u32;
        pub fn hf_preview(mode: u32, floats: *const f32, floats_len: usize, out: *mut u32, out_len: usize) -> u32;
        pub fn hf_curtain(parm: *const f32, parm_len: usize, azimuth: f32, elevation: f32, factor: f32) -> u64;
        pub fn hf_gains(
            parm: *const f32,
            parm_len: usize,
            giso: f32,
            directions: *const f32,
            directions_len: usize,
            out: *mut u32,
            out_len: usize,
        ) -> u32;
        pub fn hf_setup(
            parm: *const f32,
            parm_len: usize,
            table: *mut f32,
            table_len: usize,
            antenna: *mut u32,
            antenna_len: usize,
            out: *mut u32,
            out_len: usize,
        ) -> u32;
        pub fn hf_gain(
            antenna: *const u32,
            antenna_len: usize,
            table: *const f32,
            table_len: usize,
            elevation: f32,
            azimuth: f32,
            giso: f32,
        ) -> u64;
        pub fn hf_plate_row(
            antenna: *const u32,
            antenna_len: usize,
            table: *const f32,
            table_len: usize,
            elevation: f32,
            giso: f32,
            row: *mut f32,
            row_len: usize,
        ) -> u64;
        pub fn hf_read(record: *const u8, record_len: usize, words: *mut u32, words_len: usize) -> u32;
        pub fn hf_write(edition: u32, words: *const u32, words_len: usize, record: *mut u8, record_len: usize) -> u32;
        pub fn hf_book(rows: *const u32, rows_len: usize) -> u64;
        pub fn hf_station_for(rows: *const u32, rows_len: usize, khz: u32) -> u64;
        pub fn hf_season(year: u32, month: u32, day: u32, minute: u32) -> u64;
        pub fn hf_next_season(year: u32, month: u32, day: u32, minute: u32, out: *mut u32, out_len: usize) -> u64;
        pub fn hf_open(first: u32, end: u32, minute: u32) -> u64;
        pub fn hf_plate(input: *const u8, input_len: usize, text: *mut u8, text_len: usize) -> usize;
        pub fn hf_planet(input: *const u8, input_len: usize, text: *mut u8, text_len: usize) -> u64;
        pub fn hf_levels_record(state: *mut u32, state_len: usize, level: f32, out: *mut u32, out_len: usize) -> u32;
        pub fn hf_levels(state: *const u32, state_len: usize, out: *mut u32, out_len: usize) -> u32;
        pub fn hf_board_empty(board: *mut u32, board_len: usize) -> u32;
        pub fn hf_board_join(board: *mut u32, board_len: usize, id: u32, row: *const f32, row_len: usize) -> u32;
        pub fn hf_board_leave(board: *mut u32, board_len: usize, id: u32) -> u32;
        pub fn hf_board_show(
            board: *const u32,
            board_len: usize,
            numbers: *mut f32,
            numbers_len: usize,
            ids: *mut u32,
            ids_len: usize,
        ) -> u32;
        pub fn hf_why(parm: *const f32, parm_len: usize) -> u64;
        pub fn hf_curtain_why(parm: *const f32, parm_len: usize) -> u64;
        pub fn hf_curtain_factor(parm: *const f32, parm_len: usize) -> u64;
        pub fn hf_curtain_levels(
            parm: *const f32,
            parm_len: usize,
            factor: f32,
            directions: *const f32,
            directions_len: usize,
            levels: *mut f32,
            levels_len: usize,
        ) -> u64;
        pub fn hf_card(
            text: *const u8,
            text_len: usize,
            station: *mut u8,
            station_len: usize,
            mistake: *mut u32,
            mistake_len: usize,
        ) -> u32;
        pub fn hf_card_sentence(text: *const u8, text_len: usize, out: *mut u8, out_len: usize) -> u64;
        pub fn hf_card_of(station: *const u8, station_len: usize, out: *mut u8, out_len: usize) -> u64;
        pub fn hf_dbi(input: *const u8, input_len: usize, text: *mut u8, text_len: usize) -> usize;
        pub fn hf_svg(input: *const u8, input_len: usize, fold: u32, text: *mut u8, text_len: usize) -> usize;
        pub fn hf_svg_two(
            first: *const u8,
            first_len: usize,
            second: *const u8,
            second_len: usize,
            text: *mut u8,
            text_len: usize,
        ) -> usize;
        pub fn hf_compare(
            first: *const u8,
            first_len: usize,
            second: *const u8,
            second_len: usize,
            base: u32,
            text: *mut u8,
            text_len: usize,
        ) -> usize;
    }
}

pub fn leaf(which: u32, a: u32, b: u32) -> u32 {
    // SAFETY: numbers alone.
    unsafe { raw::hf_leaf(which, a, b) }
}

pub fn maxgain(mode: u32, floats: &[f32], out: &mut [u32]) -> u32 {
    // SAFETY: the pointers and lengths are those of live slices, and one borrowed mutably overlaps no other; so in all calls below.
    unsafe { raw::hf_maxgain(mode, floats.as_ptr(), floats.len(), out.as_mut_ptr(), out.len()) }
}

pub fn preview(mode: u32, floats: &[f32], out: &mut [u32]) -> u32 {
    // SAFETY: as above.
    unsafe { raw::hf_preview(mode, floats.as_ptr(), floats.len(), out.as_mut_ptr(), out.len()) }
}

pub fn curtain(parm: &[f32], azimuth: f32, elevation: f32, factor: f32) -> u64 {
    // SAFETY: as above.
    unsafe { raw::hf_curtain(parm.as_ptr(), parm.len(), azimuth, elevation, factor) }
}

pub fn gains(parm: &[f32], giso: f32, directions: &[f32], out: &mut [u32]) -> u32 {
    let (out_len, out) = (out.len(), out.as_mut_ptr());
    // SAFETY: as above.
    unsafe { raw::hf_gains(parm.as_ptr(), parm.len(), giso, directions.as_ptr(), directions.len(), out, out_len) }
}

pub fn setup(parm: &[f32], table: &mut [f32], antenna: &mut [u32], out: &mut [u32]) -> u32 {
    let (table_len, table) = (table.len(), table.as_mut_ptr());
    let (antenna_len, antenna) = (antenna.len(), antenna.as_mut_ptr());
    let (out_len, out) = (out.len(), out.as_mut_ptr());
    // SAFETY: as above.
    unsafe { raw::hf_setup(parm.as_ptr(), parm.len(), table, table_len, antenna, antenna_len, out, out_len) }
}

/// `hf_gain` itself; `gain` below sets up before it.
pub fn gain_of(antenna: &[u32], table: &[f32], elevation: f32, azimuth: f32, giso: f32) -> u64 {
    // SAFETY: as above.
    unsafe { raw::hf_gain(antenna.as_ptr(), antenna.len(), table.as_ptr(), table.len(), elevation, azimuth, giso) }
}

/// `hf_plate_row` itself; `plate_row` below sets up before it.
pub fn row_of(antenna: &[u32], table: &[f32], elevation: f32, giso: f32, row: &mut [f32]) -> u64 {
    let (row_len, row) = (row.len(), row.as_mut_ptr());
    let (table_len, table) = (table.len(), table.as_ptr());
    // SAFETY: as above.
    unsafe { raw::hf_plate_row(antenna.as_ptr(), antenna.len(), table, table_len, elevation, giso, row, row_len) }
}

/// Set-up, words changed, then the gain.
pub fn gain(parm: &[f32], changes: &[u32], asked: &[f32], table: &mut [f32], antenna: &mut [u32]) -> u64 {
    prepare(setup, parm, changes, table, antenna);
    gain_of(antenna, table, asked[0], asked[1], asked[2])
}

/// Set-up, words changed, then the row.
pub fn plate_row(parm: &[f32], changes: &[u32], asked: &[f32], table: &mut [f32], antenna: &mut [u32], row: &mut [f32]) -> u64 {
    prepare(setup, parm, changes, table, antenna);
    row_of(antenna, table, asked[0], asked[1], row)
}

pub fn read(record: &[u8], words: &mut [u32]) -> u32 {
    // SAFETY: as above.
    unsafe { raw::hf_read(record.as_ptr(), record.len(), words.as_mut_ptr(), words.len()) }
}

pub fn write(edition: u32, words: &[u32], record: &mut [u8]) -> u32 {
    // SAFETY: as above.
    unsafe { raw::hf_write(edition, words.as_ptr(), words.len(), record.as_mut_ptr(), record.len()) }
}

pub fn book(rows: &[u32]) -> u64 {
    // SAFETY: as above.
    unsafe { raw::hf_book(rows.as_ptr(), rows.len()) }
}

pub fn station_for(rows: &[u32], khz: u32) -> u64 {
    // SAFETY: as above.
    unsafe { raw::hf_station_for(rows.as_ptr(), rows.len(), khz) }
}

pub fn season(year: u32, month: u32, day: u32, minute: u32) -> u64 {
    // SAFETY: numbers alone.
    unsafe { raw::hf_season(year, month, day, minute) }
}

pub fn next_season(year: u32, month: u32, day: u32, minute: u32, out: &mut [u32]) -> u64 {
    // SAFETY: as above.
    unsafe { raw::hf_next_season(year, month, day, minute, out.as_mut_ptr(), out.len()) }
}

pub fn open(first: u32, end: u32, minute: u32) -> u64 {
    // SAFETY: numbers alone.
    unsafe { raw::hf_open(first, end, minute) }
}

pub fn plate(input: &[u8], text: &mut [u8]) -> usize {
    // SAFETY: as above.
    unsafe { raw::hf_plate(input.as_ptr(), input.len(), text.as_mut_ptr(), text.len()) }
}

pub fn planet(input: &[u8], text: &mut [u8]) -> u64 {
    // SAFETY: as above.
    unsafe { raw::hf_planet(input.as_ptr(), input.len(), text.as_mut_ptr(), text.len()) }
}

/// `hf_levels_record` itself; `levels_record` below gives a state and lends the words that it is copied to.
pub fn record_level(state: &mut [u32], level: f32, out: &mut [u32]) -> u32 {
    // SAFETY: as above.
    unsafe { raw::hf_levels_record(state.as_mut_ptr(), state.len(), level, out.as_mut_ptr(), out.len()) }
}

pub fn levels_record(state: &[u32], level: f32, left: &mut [u32], out: &mut [u32]) -> u32 {
    left.copy_from_slice(state);
    record_level(left, level, out)
}

pub fn levels(state: &[u32], out: &mut [u32]) -> u32 {
    // SAFETY: as above.
    unsafe { raw::hf_levels(state.as_ptr(), state.len(), out.as_mut_ptr(), out.len()) }
}

pub fn board_empty(board: &mut [u32]) -> u32 {
    // SAFETY: as above.
    unsafe { raw::hf_board_empty(board.as_mut_ptr(), board.len()) }
}

pub fn board_join(board: &mut [u32], id: u32, row: &[f32]) -> u32 {
    // SAFETY: as above.
    unsafe { raw::hf_board_join(board.as_mut_ptr(), board.len(), id, row.as_ptr(), row.len()) }
}

pub fn board_leave(board: &mut [u32], id: u32) -> u32 {
    // SAFETY: as above.
    unsafe { raw::hf_board_leave(board.as_mut_ptr(), board.len(), id) }
}

pub fn board_show(board: &[u32], numbers: &mut [f32], ids: &mut [u32]) -> u32 {
    let (numbers_len, numbers) = (numbers.len(), numbers.as_mut_ptr());
    // SAFETY: as above.
    unsafe { raw::hf_board_show(board.as_ptr(), board.len(), numbers, numbers_len, ids.as_mut_ptr(), ids.len()) }
}

/// The board's four calls in turn.
pub fn board(calls: &[u32], rows: &[f32], words: &mut [u32], numbers: &mut [f32], ids: &mut [u32]) -> u32 {
    let library = board::Calls { empty: board_empty, join: board_join, leave: board_leave, show: board_show };
    board::run(&library, calls, rows, words, numbers, ids)
}

pub fn why(parm: &[f32]) -> u64 {
    // SAFETY: as above.
    unsafe { raw::hf_why(parm.as_ptr(), parm.len()) }
}

pub fn curtain_why(parm: &[f32]) -> u64 {
    // SAFETY: as above.
    unsafe { raw::hf_curtain_why(parm.as_ptr(), parm.len()) }
}

pub fn curtain_factor(parm: &[f32]) -> u64 {
    // SAFETY: as above.
    unsafe { raw::hf_curtain_factor(parm.as_ptr(), parm.len()) }
}

pub fn curtain_levels(parm: &[f32], factor: f32, directions: &[f32], levels: &mut [f32]) -> u64 {
    let (directions_len, directions) = (directions.len(), directions.as_ptr());
    let (levels_len, levels) = (levels.len(), levels.as_mut_ptr());
    // SAFETY: as above.
    unsafe { raw::hf_curtain_levels(parm.as_ptr(), parm.len(), factor, directions, directions_len, levels, levels_len) }
}

pub fn card(text: &[u8], station: &mut [u8], mistake: &mut [u32]) -> u32 {
    let (station_len, station) = (station.len(), station.as_mut_ptr());
    // SAFETY: as above.
    unsafe { raw::hf_card(text.as_ptr(), text.len(), station, station_len, mistake.as_mut_ptr(), mistake.len()) }
}

pub fn card_sentence(text: &[u8], out: &mut [u8]) -> u64 {
    // SAFETY: as above.
    unsafe { raw::hf_card_sentence(text.as_ptr(), text.len(), out.as_mut_ptr(), out.len()) }
}

pub fn card_of(station: &[u8], out: &mut [u8]) -> u64 {
    // SAFETY: as above.
    unsafe { raw::hf_card_of(station.as_ptr(), station.len(), out.as_mut_ptr(), out.len()) }
}

pub fn dbi(input: &[u8], text: &mut [u8]) -> usize {
    // SAFETY: as above.
    unsafe { raw::hf_dbi(input.as_ptr(), input.len(), text.as_mut_ptr(), text.len()) }
}

pub fn svg(input: &[u8], fold: u32, text: &mut [u8]) -> usize {
    // SAFETY: as above.
    unsafe { raw::hf_svg(input.as_ptr(), input.len(), fold, text.as_mut_ptr(), text.len()) }
}

pub fn svg_two(first: &[u8], second: &[u8], text: &mut [u8]) -> usize {
    let (text_len, text) = (text.len(), text.as_mut_ptr());
    // SAFETY: as above.
    unsafe { raw::hf_svg_two(first.as_ptr(), first.len(), second.as_ptr(), second.len(), text, text_len) }
}

pub fn compare(first: &[u8], second: &[u8], base: u32, text: &mut [u8]) -> usize {
    let (text_len, text) = (text.len(), text.as_mut_ptr());
    // SAFETY: as above.
    unsafe { raw::hf_compare(first.as_ptr(), first.len(), second.as_ptr(), second.len(), base, text, text_len) }
}
