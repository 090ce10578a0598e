//! The plate that people see: lines in dBi, pictures, two masts in a picture and in words; each against the oracle's, every lent byte,
//! written or left.
use crate::cases::run;
use oracle::random::Random;
use oracle::report::Comparison;
use oracle::shown::{shown, Kind};
use oracle::{masts, reference, service, shows};

/// What a plate shows, for the counts.
fn tally(input: &[u8], found: &mut Comparison) {
    match shown(input) {
        Err(number) => found.met(format!("refused {number}")),
        Ok(plate) => {
            let met = [
                ("curtain", plate.heading.antenna == 0),
                ("silence", masts::silent(&plate.entries)),
                ("floor all round", masts::all_floor(&plate.entries)),
                ("floors among levels", !masts::all_floor(&plate.entries) && plate.entries.iter().any(|e| e.kind == Kind::Floor)),
                ("mirrored", plate.heading.mirrored),
                ("not mirrored", !plate.heading.mirrored),
            ];
            met.into_iter().filter(|(_, is)| *is).for_each(|(what, _)| found.met(what));
        }
    }
}

const SHOWN: &[&str] = &["curtain", "silence", "floor all round", "floors among levels", "mirrored", "not mirrored"];
const REFUSED: &[&str] =
    &["refused 1", "refused 2", "refused 3", "refused 5", "refused 6", "refused 7", "refused 9", "refused 10", "refused 18"];

/// Both texts with their lengths, in so many lent bytes.
fn held(
    found: &mut Comparison,
    room: usize,
    got: impl Fn(&mut [u8]) -> usize,
    expected: impl Fn(&mut [u8]) -> usize,
    what: &[u8],
) {
    let (mut out, mut expected_out) = (vec![0xa5; room], vec![0xa5; room]);
    let (length, expected_length) = (got(&mut out), expected(&mut expected_out));
    found.met(if expected_length == 0 { "no room" } else { "room" });
    found.hold(&(length, &out), &(expected_length, &expected_out), || {
        let at = out.iter().zip(&expected_out).position(|(a, b)| a != b);
        format!("{what:02X?}: length {length}, expected {expected_length}, first difference at {at:?}")
    });
}

fn one_dbi(random: &mut Random, found: &mut Comparison) {
    let input = shows::input(random);
    tally(&input, found);
    let room = shows::room(random, 12_288);
    held(found, room, |out| service::dbi(&input, out), |out| reference::dbi(&input, out), &input);
}

fn one_svg(random: &mut Random, found: &mut Comparison) {
    let input = shows::input(random);
    tally(&input, found);
    let (fold, room) = (random.below(3) as u32, shows::room(random, 65_536));
    held(found, room, |out| service::svg(&input, fold, out), |out| reference::svg(&input, fold, out), &input);
}

fn two(random: &mut Random, found: &mut Comparison) -> [Vec<u8>; 2] {
    let first = shows::input(random);
    // The same mast twice leads nowhere.
    let second = if random.below(8) == 0 { first.clone() } else { shows::input(random) };
    tally(&first, found);
    tally(&second, found);
    [first, second]
}

fn one_svg_two(random: &mut Random, found: &mut Comparison) {
    let [first, second] = two(random, found);
    let room = shows::room(random, 131_072);
    let both = [&first[..], &second].concat();
    held(found, room, |out| service::svg_two(&first, &second, out), |out| reference::svg_two(&first, &second, out), &both);
}

fn one_compare(random: &mut Random, found: &mut Comparison) {
    let [first, second] = two(random, found);
    let base = if random.below(20) == 0 { random.pick(&[359, 360, 65_535, u32::MAX]) } else { random.below(360) as u32 };
    let room = shows::room(random, 2048);
    let both = [&first[..], &second].concat();
    let words = masts::compare(&first, &second, base);
    for what in
        ["A leads by", "B leads by", "A leads (", "B leads (", "neither leads", "or more", "base: refused 7", "B: refused"]
    {
        if words.contains(what) {
            found.met(what);
        }
    }
    held(
        found,
        room,
        |out| service::compare(&first, &second, base, out),
        |out| reference::compare(&first, &second, base, out),
        &both,
    );
}

pub fn compare(count: u64) -> Vec<Comparison> {
    let room = ["room", "no room"];
    let words =
        ["A leads by", "B leads by", "A leads (", "B leads (", "neither leads", "or more", "base: refused 7", "B: refused"];
    vec![
        run("hf_dbi", 27, count, one_dbi).owing(SHOWN).owing(REFUSED).owing(&room),
        run("hf_svg", 28, count, one_svg).owing(SHOWN).owing(REFUSED).owing(&room),
        run("hf_svg_two", 29, count / 2, one_svg_two).owing(SHOWN).owing(&room),
        run("hf_compare", 30, count, one_compare).owing(SHOWN).owing(&words).owing(&room),
    ]
}
