//! Runs numbered cases on all processors. A case's inputs come from its own number, so that a run can be repeated.
use oracle::random::Random;
use oracle::report::Comparison;
use std::sync::atomic::{AtomicU64, Ordering::Relaxed};

/// Cases that a thread takes at a time.
const BLOCK: u64 = 32;

fn run_blocks(name: &str, seed: u64, count: u64, next: &AtomicU64, one: &impl Fn(&mut Random, &mut Comparison)) -> Comparison {
    let mut found = Comparison::new(name);
    loop {
        let start = next.fetch_add(BLOCK, Relaxed);
        if start >= count {
            return found;
        }
        for case in start..count.min(start + BLOCK) {
            one(&mut Random(seed << 40 | case << 4), &mut found);
        }
    }
}

/// What `one` found over this many cases.
pub fn run(name: &str, seed: u64, count: u64, one: impl Fn(&mut Random, &mut Comparison) + Sync) -> Comparison {
    let threads = std::thread::available_parallelism().map_or(1, |n| n.get());
    let next = AtomicU64::new(0);
    let mut found = Comparison::new(name);
    std::thread::scope(|scope| {
        let workers: Vec<_> = (0..threads).map(|_| scope.spawn(|| run_blocks(name, seed, count, &next, &one))).collect();
        for worker in workers {
            found.add(worker.join().expect("a case that panics fails the run"));
        }
    });
    found
}

/// The first place where two lists differ.
pub fn first_difference(got: &[u32], expected: &[u32]) -> String {
    match got.iter().zip(expected).position(|(a, b)| a != b) {
        None => "no word differs".into(),
        Some(k) => format!("word {k} is {:08X}, expected {:08X}", got[k], expected[k]),
    }
}

/// Bits in a row, for a report.
pub fn hex(floats: &[f32]) -> String {
    floats.iter().map(|x| format!("{:08X}", x.to_bits())).collect::<Vec<_>>().join(" ")
}
