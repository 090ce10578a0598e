//! The whole program: `hf_plate` against the oracle's `plate`.
use crate::cases::run;
use oracle::random::Random;
use oracle::report::Comparison;
use oracle::{broken, examples, reference, service};

/// The answers among a text's lines.
fn tally(text: &[u8], found: &mut Comparison) {
    let text = String::from_utf8_lossy(text);
    for kind in ["level", "floor", "silence"] {
        if text.contains(kind) {
            found.met(kind);
        }
    }
    if text.starts_with("refused") {
        found.met(text.trim());
    }
}

fn one(random: &mut Random, found: &mut Comparison) {
    let input = broken::input(random);
    let room = if random.below(100) == 0 { random.pick(&[0, 100, 8191]) } else { 8192 + random.below(3) as usize };
    let (mut out, mut expected_out) = (vec![0xa5; room], vec![0xa5; room]);
    let got = service::plate(&input, &mut out);
    let expected = reference::plate(&input, &mut expected_out);
    tally(&expected_out[..expected], found);
    if expected == 0 {
        found.met("no room");
    }
    found.hold(&(got, &out), &(expected, &expected_out), || format!("{input:02X?}: {got} bytes, expected {expected}"));
}

/// The text of an input.
fn text_of(input: &[u8]) -> Vec<u8> {
    let mut text = vec![0; 8192];
    let length = service::plate(input, &mut text);
    text[..length].to_vec()
}

/// Each station of `examples/`, its record in edition 0 and in edition 1: the same text.
fn editions() -> Comparison {
    let mut found = Comparison::new("hf_plate on both editions");
    for (name, inputs) in examples::editions() {
        let [old, new] = inputs.map(|input| text_of(&input));
        found.met(if old.starts_with(b"refused") { "refused" } else { "plate" });
        found.hold(&new, &old, || format!("{name}: another text in edition 1"));
    }
    found.owing(&["plate", "refused"])
}

pub fn compare(count: u64) -> Vec<Comparison> {
    let kinds = ["level", "floor", "silence", "no room"];
    let refused =
        ["refused 1", "refused 2", "refused 3", "refused 4", "refused 5", "refused 6", "refused 7", "refused 9", "refused 10"];
    vec![run("hf_plate", 18, count, one).owing(&kinds).owing(&refused), editions()]
}
