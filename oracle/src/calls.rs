//! The calls of `service`, each described once: its name, what it is given in its order, and its answer. The same description
//! writes a stored list, replays it and checks it; `stored.rs` has the lists' layout.
#[cfg(source)]
use crate::impostor::reference as impostor;
#[cfg(source)]
use crate::reference;
use crate::service;

/// What a call is given, or lent to write into.
#[derive(Clone, Debug)]
pub enum Value {
    Word(u32),
    Float(f32),
    Words(Vec<u32>),
    Floats(Vec<f32>),
    Bytes(Vec<u8>),
    LentWords(Vec<u32>),
    LentFloats(Vec<f32>),
    LentBytes(Vec<u8>),
}

#[derive(Clone, Copy, Debug)]
pub enum Kind {
    Word,
    Float,
    Words,
    Floats,
    Bytes,
    LentWords,
    LentFloats,
    LentBytes,
}

/// A call on its values: what it returns.
pub type Function = fn(&mut [Value]) -> u64;

pub struct Call {
    /// Without the `hf_` that `service` has before it.
    pub name: &'static str,
    pub given: &'static [(&'static str, Kind)],
    pub library: Function,
    #[cfg(source)]
    pub oracle: Function,
    /// The oracle with the switches of `impostors.rs`.
    #[cfg(source)]
    pub impostor: Function,
}

/// A number goes by value, a slice is lent.
macro_rules! passed {
    (Word $value:ident) => {
        *$value
    };
    (Float $value:ident) => {
        *$value
    };
    ($kind:ident $value:ident) => {
        $value
    };
}

macro_rules! function {
    ($module:ident $name:ident ($($value:ident: $kind:ident),*)) => {
        |values| match values {
            [$(Value::$kind($value)),*] => $module::$name($(passed!($kind $value)),*) as u64,
            _ => panic!("not what {} is given", stringify!($name)),
        }
    };
}

macro_rules! calls {
    ($($name:ident $values:tt)*) => { &[$(call!($name $values)),*] };
}

macro_rules! call {
    ($name:ident ($($value:ident: $kind:ident),*)) => {
        Call {
            name: stringify!($name),
            given: &[$((stringify!($value), Kind::$kind)),*],
            library: function!(service $name ($($value: $kind),*)),
            #[cfg(source)]
            oracle: function!(reference $name ($($value: $kind),*)),
            #[cfg(source)]
            impostor: function!(impostor $name ($($value: $kind),*)),
        }
    };
}

/// `service` and `reference` have a function of each name, `lists.rs` its inputs.
#[allow(clippy::unnecessary_cast)]
pub const CALLS: &[Call] = calls! {
    leaf(which: Word, a: Word, b: Word)
    maxgain(mode: Word, floats: Floats, out: LentWords)
    curtain(parm: Floats, azimuth: Float, elevation: Float, factor: Float)
    read(record: Bytes, words: LentWords)
    write(edition: Word, words: Words, record: LentBytes)
    gains(parm: Floats, giso: Float, directions: Floats, out: LentWords)
    setup(parm: Floats, table: LentFloats, antenna: LentWords, out: LentWords)
    plate(input: Bytes, text: LentBytes)
    book(rows: Words)
    station_for(rows: Words, khz: Word)
    season(year: Word, month: Word, day: Word, minute: Word)
    next_season(year: Word, month: Word, day: Word, minute: Word, out: LentWords)
    open(first: Word, end: Word, minute: Word)
    levels_record(state: Words, level: Float, left: LentWords, out: LentWords)
    levels(state: Words, out: LentWords)
    board(calls: Words, rows: Floats, words: LentWords, numbers: LentFloats, ids: LentWords)
    gain(parm: Floats, changes: Words, asked: Floats, table: LentFloats, antenna: LentWords)
    plate_row(parm: Floats, changes: Words, asked: Floats, table: LentFloats, antenna: LentWords, row: LentFloats)
    why(parm: Floats)
    curtain_why(parm: Floats)
    curtain_factor(parm: Floats)
    preview(mode: Word, floats: Floats, out: LentWords)
    curtain_levels(parm: Floats, factor: Float, directions: Floats, levels: LentFloats)
    planet(input: Bytes, text: LentBytes)
    card(text: Bytes, station: LentBytes, mistake: LentWords)
    card_sentence(text: Bytes, out: LentBytes)
    card_of(station: Bytes, out: LentBytes)
    dbi(input: Bytes, text: LentBytes)
    svg(input: Bytes, fold: Word, text: LentBytes)
    svg_two(first: Bytes, second: Bytes, text: LentBytes)
    compare(first: Bytes, second: Bytes, base: Word, text: LentBytes)
};
