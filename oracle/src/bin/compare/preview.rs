//! Document 02, card 2: `hf_preview` against the source's `setmaxgain` on a copy of the parameters.
use crate::cases::{first_difference, hex, run};
use crate::maxgain::{given, lengths};
use oracle::expected::{self, Gains};
use oracle::random::Random;
use oracle::report::Comparison;
use oracle::stored::LEFT;
use oracle::{reference, service};

/// One in four has the bits that the call would write.
fn inputs(random: &mut Random) -> Gains {
    let given = given(random);
    if random.below(4) == 0 {
        given.settled()
    } else {
        given
    }
}

/// What was met: the refusal, or the mode and the type, and whether a written slot keeps its bits.
fn meet(found: &mut Comparison, given: &Gains, expected: u32, out: &[u32]) {
    let jant = match (expected, expected::type_of(&given.parm)) {
        (0, Ok(jant)) => jant,
        _ => return found.met(format!("refused {expected}")),
    };
    found.met(format!("mode {} type {jant}", given.mode));
    for (slot, words) in [4, 5, 7].into_iter().zip(out[1..].chunks(2)) {
        if words == [1, given.parm[slot].to_bits()] {
            found.met(format!("slot {slot} written with its bits"));
        }
    }
}

fn one(random: &mut Random, found: &mut Comparison) {
    let (given, (floats_len, words)) = (inputs(random), lengths(random, 7));
    let (mode, mut floats) = (given.mode, given.floats());
    floats.resize(floats_len, 1.0);
    let (mut out, mut expected_out) = (vec![LEFT; words], vec![LEFT; words]);
    let got = service::preview(mode, &floats, &mut out);
    let expected = reference::preview(mode, &floats, &mut expected_out);
    meet(found, &given, expected, &expected_out);
    found.hold(&(got, &out), &(expected, &expected_out), || {
        let words = first_difference(&out, &expected_out);
        format!("mode {mode} floats {}: {got}, expected {expected}; {words}", hex(&floats))
    });
}

/// Whether the source writes the slot: it then doesn't hold what was put there before the call.
fn source_writes(given: &Gains, slot: usize) -> bool {
    let mut parm = given.parm;
    let left = |parm| expected::maxgain(&Gains { parm, ..given.clone() }).expect("accepted before").1[slot];
    parm[slot] = if left(parm) == 1.25 { 2.5 } else { 1.25 };
    left(parm) != parm[slot]
}

/// The marks, beside what the source does to a slot that held something else.
fn marks(random: &mut Random, found: &mut Comparison) {
    let given = inputs(random);
    let mut out = [0; 7];
    if service::preview(given.mode, &given.floats(), &mut out) != 0 {
        return;
    }
    let got = [1, 3, 5].map(|k| out[k] == 1);
    let expected = [4, 5, 7].map(|slot| source_writes(&given, slot));
    found.met(format!("mode {}, slots {}", given.mode, expected.iter().filter(|written| **written).count()));
    found.hold(&got, &expected, || format!("mode {} floats {}: {got:?}", given.mode, hex(&given.floats())));
}

pub fn compare(count: u64) -> Vec<Comparison> {
    let modes = (0..3).flat_map(|mode| (1..=9).map(move |jant| format!("mode {mode} type {jant}")));
    let refusals = [2, 3, 4, 5, 8, 10].into_iter().map(|number| format!("refused {number}"));
    let same = [4, 5, 7].into_iter().map(|slot| format!("slot {slot} written with its bits"));
    let owed: Vec<String> = modes.chain(refusals).chain(same).collect();
    let owed: Vec<&str> = owed.iter().map(String::as_str).collect();
    vec![
        run("hf_preview", 50, count, one).owing(&owed),
        run("hf_preview's marks by the source", 51, count / 10, marks).owing(&[
            "mode 0, slots 0",
            "mode 1, slots 2",
            "mode 1, slots 3",
            "mode 2, slots 1",
        ]),
    ]
}
