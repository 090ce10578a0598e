//! What one comparison found: a line that says how many inputs agreed, the answers that they met, and the first that did not agree.
use std::collections::BTreeMap;

const SHOWN: usize = 5;

pub struct Comparison {
    name: String,
    inputs: u64,
    differences: u64,
    first: Vec<String>,
    answers: BTreeMap<String, u64>,
    owed: Vec<String>,
}

impl Comparison {
    pub fn new(name: impl Into<String>) -> Self {
        let name = name.into();
        Comparison { name, inputs: 0, differences: 0, first: Vec::new(), answers: BTreeMap::new(), owed: Vec::new() }
    }

    /// Counts one input; `describe` says what it was where the two answers differ.
    pub fn hold<T: PartialEq>(&mut self, got: &T, expected: &T, describe: impl FnOnce() -> String) {
        self.inputs += 1;
        if got != expected {
            self.differences += 1;
            if self.first.len() < SHOWN {
                self.first.push(describe());
            }
        }
    }

    /// Counts an answer that was expected.
    pub fn met(&mut self, answer: impl Into<String>) {
        *self.answers.entry(answer.into()).or_default() += 1;
    }

    /// Each of these answers must be among those met, or the inputs tried too little.
    pub fn owing(mut self, answers: &[&str]) -> Self {
        self.owed.extend(answers.iter().map(|a| a.to_string()));
        self
    }

    /// Adds what another thread found.
    pub fn add(&mut self, other: Comparison) {
        self.inputs += other.inputs;
        self.differences += other.differences;
        self.first.extend(other.first);
        self.first.truncate(SHOWN);
        for (answer, times) in other.answers {
            *self.answers.entry(answer).or_default() += times;
        }
    }

    /// Prints the comparison; true where it passed. Without inputs none passes.
    pub fn passed(&self) -> bool {
        let missing: Vec<&String> = self.owed.iter().filter(|a| !self.answers.contains_key(*a)).collect();
        let passed = self.inputs > 0 && self.differences == 0 && missing.is_empty();
        let word = if passed { "ok  " } else { "FAIL" };
        println!("{word} {:38} {:>10} inputs, {} differences", self.name, self.inputs, self.differences);
        if !self.answers.is_empty() {
            let met: Vec<String> = self.answers.iter().map(|(answer, times)| format!("{answer}: {times}")).collect();
            println!("       {}", met.join(", "));
        }
        for case in &self.first {
            println!("       {case}");
        }
        if !missing.is_empty() {
            println!("       never met: {missing:?}");
        }
        passed
    }
}

/// Prints the comparisons, then their counts; the status is 0 only where none failed and one passed.
pub fn finish(comparisons: impl Iterator<Item = Comparison>) -> ! {
    let results: Vec<bool> = comparisons.map(|c| c.passed()).collect();
    let passed = results.iter().filter(|ok| **ok).count();
    let failed = results.len() - passed;
    println!("{passed} passed, {failed} failed");
    std::process::exit(i32::from(failed > 0 || passed == 0))
}
