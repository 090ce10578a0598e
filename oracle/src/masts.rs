//! Issue 27, what a buyer asks of two masts: peak and where, the width of the beam at 3 dB, front-to-back, which leads where. By counting
//! azimuths one by one.
use super::planet::two_decimals;
use super::plate;
use super::shown::{shown, Entry, Kind};

/// The first azimuth of these whose number none of theirs is above.
fn greatest(row: &[Entry], azimuths: impl Iterator<Item = usize> + Clone) -> usize {
    let mut all = azimuths.clone();
    all.find(|v| azimuths.clone().all(|w| row[w].number <= row[*v].number)).expect("azimuths")
}

pub fn peak(row: &[Entry]) -> usize {
    greatest(row, 0..360)
}

/// Behind are the azimuths 90 to 270.
pub fn behind(row: &[Entry]) -> usize {
    greatest(row, 90..271)
}

pub fn front_to_back(row: &[Entry]) -> i64 {
    row[0].number - row[behind(row)].number
}

/// How many azimuths are within 3 dB of the peak and in one piece with it.
pub fn beam(row: &[Entry]) -> usize {
    let top = peak(row);
    let within = |steps: usize| row[(top + steps) % 360].number >= row[top].number - 300;
    // An azimuth is in one piece with the peak where all on the way to it are within, one way round or the other.
    (0..360).filter(|n| (0..=*n).all(within) || (*n..360).all(within)).count()
}

fn leads_at(row: &[Entry], other: &[Entry], v: usize) -> bool {
    row[v].kind == Kind::Level && row[v].number > other[v].number
}

pub fn leads(row: &[Entry], other: &[Entry]) -> usize {
    (0..360).filter(|v| leads_at(row, other, *v)).count()
}

/// A silent row's first entry is, and so are all.
pub fn silent(row: &[Entry]) -> bool {
    row[0].kind == Kind::Silence
}

pub fn all_floor(row: &[Entry]) -> bool {
    row[peak(row)].kind == Kind::Floor
}

fn told(entry: Entry) -> String {
    match entry.kind {
        Kind::Level => format!("{} dBi", two_decimals(entry.number)),
        Kind::Floor => "floor".into(),
        Kind::Silence => "silence".into(),
    }
}

/// Who leads at the base, and by how much where the other is a level.
fn at_base(a: &[Entry], b: &[Entry], base: usize) -> String {
    let by = |name: &str, leader: Entry, other: Entry| match other.kind {
        Kind::Level => format!("{name} leads by {} dB", two_decimals(leader.number - other.number)),
        _ => format!("{name} leads"),
    };
    let leader = if leads_at(a, b, base) {
        by("A", a[base], b[base])
    } else if leads_at(b, a, base) {
        by("B", b[base], a[base])
    } else {
        "neither leads".into()
    };
    format!("at the base, azimuth {base}: {leader} (A {}, B {})\n", told(a[base]), told(b[base]))
}

fn beam_line(name: &str, row: &[Entry]) -> String {
    let top = peak(row);
    if silent(row) {
        format!("{name}: silence, no gain in any direction\n")
    } else if all_floor(row) {
        format!("{name}: floor all round, -30 dBi or less\n")
    } else {
        let number = two_decimals(row[top].number);
        format!("{name}: peak {number} dBi at {top}, beam {} degrees wide at 3 dB\n", beam(row))
    }
}

fn behind_line(name: &str, row: &[Entry]) -> String {
    let (entry, ratio) = (row[behind(row)], two_decimals(front_to_back(row)));
    let what = if silent(row) {
        "silence".into()
    } else if all_floor(row) {
        "floor".into()
    } else if entry.kind == Kind::Floor {
        format!("floor, -30 dBi or less, front-to-back {ratio} dB or more")
    } else {
        format!("at most {} dBi, front-to-back {ratio} dB", two_decimals(entry.number))
    };
    format!("behind {name}, 90 to 270: {what}\n")
}

fn words(a: &[Entry], b: &[Entry], base: usize) -> String {
    let (first, second) = (leads(a, b), leads(b, a));
    let all = format!("all round: A leads in {first} azimuths, B in {second}, neither in {}\n", 360 - first - second);
    [at_base(a, b, base), beam_line("A", a), beam_line("B", b), behind_line("A", a), behind_line("B", b), all].concat()
}

/// `--compare`: the words of two masts, or what is refused.
pub fn compare(first: &[u8], second: &[u8], base: u32) -> String {
    if base > 359 {
        return format!("base: {}", plate::refusal(7));
    }
    match (shown(first), shown(second)) {
        (Ok(a), Ok(b)) => words(&a.entries, &b.entries, base as usize),
        (a, b) => [("A", a), ("B", b)]
            .into_iter()
            .filter_map(|(name, mast)| Some(format!("{name}: {}", plate::refusal(mast.err()?))))
            .collect(),
    }
}
