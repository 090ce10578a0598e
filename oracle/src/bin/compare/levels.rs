//! The last sixty-four field strengths: `hf_levels_record` and `hf_levels` against the whole run.
use crate::cases::run;
use oracle::levels::{self, damage, level, Run, SHOWN, STATE};
use oracle::random::Random;
use oracle::report::Comparison;
use oracle::service;
use oracle::stored::LEFT;

/// The longest run.
const LONGEST: u64 = 3000;

fn answer(code: u32, out: &[u32]) -> String {
    match (code, out) {
        (0, [0, ..]) => "nothing".into(),
        (0, [64, ..]) => "64 shown".into(),
        (0, _) => "fewer shown".into(),
        _ => format!("refused {code}"),
    }
}

/// A run from 66 zeros, the state held to the run's own words and the answers to its own tail after each record.
fn whole_run(random: &mut Random, found: &mut Comparison) {
    let count = if random.below(2) == 0 { random.below(200) } else { random.below(LONGEST) } as usize;
    let (mut kept, mut state) = (Run::default(), vec![0; STATE]);
    for (k, level) in levels::levels(random, count).into_iter().enumerate() {
        let mut out = vec![LEFT; SHOWN];
        let code = service::record_level(&mut state, level, &mut out);
        let expected = kept.record(level).err().unwrap_or(0);
        let shown = if expected == 0 { kept.shown() } else { [LEFT; SHOWN] };
        found.met(answer(expected, &shown));
        let (got, owed) = ((code, &out[..], &state[..]), (expected, &shown[..], &kept.state()[..]));
        found.hold(&got, &owed, || format!("level {k}, {level}: {got:X?}, expected {owed:X?}"));
    }
    let mut out = vec![LEFT; SHOWN];
    let code = service::levels(&state, &mut out);
    found.met(answer(0, &kept.shown()));
    found.hold(&(code, &out[..]), &(0, &kept.shown()[..]), || format!("after {count} levels: {code}, {out:X?}"));
}

/// A state that a run left, mostly damaged, and lengths that are wrong.
fn state_of(random: &mut Random) -> (Vec<u32>, usize) {
    let count = random.pick(&[0, 1, 5, 62, 63, 64, 65, 100, 127, 128, 129, 190]);
    let mut state = Run::of(levels::levels(random, count)).state().to_vec();
    if random.below(4) > 0 {
        damage(random, &mut state);
    }
    let out = if random.below(20) == 0 { random.pick(&[0, 2, 4]) } else { SHOWN };
    (state, out)
}

fn record(random: &mut Random, found: &mut Comparison) {
    let ((mut state, out), level) = (state_of(random), level(random));
    let (given, mut out) = (state.clone(), vec![LEFT; out]);
    let (mut expected_state, mut expected_out) = (state.clone(), out.clone());
    let got = service::record_level(&mut state, level, &mut out);
    let expected = levels::record(&mut expected_state, level, &mut expected_out);
    found.met(answer(expected, &expected_out));
    found.hold(&(got, &state, &out), &(expected, &expected_state, &expected_out), || {
        format!("{given:X?}, {level}: {got}, expected {expected}")
    });
}

fn show(random: &mut Random, found: &mut Comparison) {
    let (state, out) = state_of(random);
    let (mut out, mut expected_out) = (vec![LEFT; out], vec![LEFT; out]);
    let got = service::levels(&state, &mut out);
    let expected = levels::show(&state, &mut expected_out);
    found.met(answer(expected, &expected_out));
    found.hold(&(got, &out), &(expected, &expected_out), || format!("{state:X?}: {got}, expected {expected}"));
}

/// Each word of a state, given each of many values: those that a run could leave there and those that none could.
fn each_word(found: &mut Comparison) {
    let values =
        [0, 1, 2, 62, 63, 64, 65, 128, 0x3f80_0000, 0x7f7f_ffff, 0x7f80_0000, 0x7f80_0001, 0x8000_0000, 0xff80_0000, u32::MAX];
    for count in [0, 1, 2, 62, 63, 64, 65, 127, 128, 129] {
        let whole = Run::of((0..count).map(|k| k as f32 - 100.0)).state();
        for (at, value) in (0..STATE).flat_map(|at| values.map(|value| (at, value))) {
            let mut state = whole;
            state[at] = value;
            let (mut out, mut expected_out) = ([LEFT; SHOWN], [LEFT; SHOWN]);
            let (got, expected) = (service::levels(&state, &mut out), levels::show(&state, &mut expected_out));
            found.met(answer(expected, &expected_out));
            found.hold(&(got, out), &(expected, expected_out), || {
                format!("{count} levels, word {at} {value:X}: {got}, expected {expected}")
            });
        }
    }
}

pub fn compare(count: u64) -> Vec<Comparison> {
    let mut words = Comparison::new("hf_levels, each word of a state");
    each_word(&mut words);
    vec![
        run("hf_levels_record, whole runs", 21, count / 100, whole_run).owing(&[
            "nothing",
            "fewer shown",
            "64 shown",
            "refused 2",
        ]),
        run("hf_levels_record, any state", 22, count, record).owing(&["fewer shown", "64 shown", "refused 2", "refused 8"]),
        run("hf_levels, any state", 23, count, show).owing(&["nothing", "fewer shown", "64 shown", "refused 8"]),
        words.owing(&["nothing", "fewer shown", "64 shown", "refused 8"]),
    ]
}
