//! Every input of each one-argument function: `hf_leaf` against the 64-bit rules. Not part of the gate.
//! usage: exhaustive [THREADS [STRIDE [NAME..]]]     2 threads, every input, all six functions
use oracle::leaf::{by_plain, NAMES, POWF};
use oracle::service;
use std::sync::atomic::{AtomicU64, Ordering::Relaxed};
use std::time::Instant;

/// Inputs that a thread takes at a time.
const BLOCK: u64 = 1 << 20;
const ALL: u64 = 1 << 32;

fn differs(which: u32, a: u32) -> bool {
    let (got, expected) = (service::leaf(which, a, 0), by_plain(which, a, 0));
    if got != expected {
        println!("{}({a:08X}): {got:08X}, expected {expected:08X}", NAMES[which as usize]);
    }
    got != expected
}

/// Takes blocks until none is left; how many of the inputs were tried, and how many differ.
fn run_blocks(which: u32, stride: u64, next: &AtomicU64) -> (u64, u64) {
    let (mut inputs, mut differences) = (0, 0);
    loop {
        let start = next.fetch_add(BLOCK, Relaxed);
        if start >= ALL || differences > 10 {
            return (inputs, differences);
        }
        for a in (start.next_multiple_of(stride)..start + BLOCK).step_by(stride as usize) {
            inputs += 1;
            differences += u64::from(differs(which, a as u32));
        }
    }
}

/// Prints what one function's run found; true where nothing differs.
fn run(which: u32, threads: u64, stride: u64) -> bool {
    let (start, next) = (Instant::now(), AtomicU64::new(0));
    let (inputs, differences) = std::thread::scope(|scope| {
        let workers: Vec<_> = (0..threads).map(|_| scope.spawn(|| run_blocks(which, stride, &next))).collect();
        workers.into_iter().map(|w| w.join().unwrap()).fold((0, 0), |(n, d), (m, e)| (n + m, d + e))
    });
    let (name, seconds) = (NAMES[which as usize], start.elapsed().as_secs());
    println!("{name:6} {inputs:>10} inputs (stride {stride}), {differences} differences, {seconds} s, {threads} threads");
    differences == 0
}

fn main() {
    let mut words = std::env::args().skip(1);
    let mut number = |default| words.next().map_or(default, |w| w.parse().expect("a number"));
    let (threads, stride) = (number(2), number(1));
    let names: Vec<String> = words.collect();
    let wanted = |which: &u32| *which != POWF && (names.is_empty() || names.iter().any(|n| n == NAMES[*which as usize]));
    let failed = (0..NAMES.len() as u32).filter(wanted).filter(|which| !run(*which, threads, stride)).count();
    std::process::exit(i32::from(failed > 0));
}
