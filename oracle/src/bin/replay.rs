//! Replays the stored lists: what the oracle answered, held to what the proved library answers. It needs no source tree. Then a bit
//! of each word of an answer is turned, one at a time, and none of them may pass. The last line counts the comparisons; the status
//! is 0 only where none failed.
//! usage: replay
use oracle::calls::{Call, CALLS};
use oracle::report::{finish, Comparison};
use oracle::stored::{head, place, Record, ROOT};

/// One line: the library's answer, and the same with a bit turned.
fn replay(call: &Call, line: &str, right: &mut Comparison, turned: &mut Comparison) {
    let Some(record) = Record::read(call, line) else {
        return right.hold(&false, &true, || format!("not a record: {line}"));
    };
    let outcome = record.outcome(call.library);
    let got = record.line(&outcome);
    right.hold(&got.as_str(), &line, || format!("{got}\n  stored {line}"));
    for wrong in record.turned(outcome) {
        turned.hold(&(wrong == line), &false, || format!("a turned bit doesn't show in {line}"));
    }
}

fn list(call: &Call) -> [Comparison; 2] {
    let mut right = Comparison::new(format!("stored answers of hf_{}", call.name));
    let mut turned = Comparison::new(format!("turned bits of hf_{}", call.name));
    let text = std::fs::read_to_string(format!("{ROOT}{}", place(call))).unwrap_or_default();
    let mut lines = text.lines();
    let first = lines.next().unwrap_or_default();
    if first != head(call) {
        right.hold(&first, &head(call).as_str(), || format!("{} begins with {first:?}", place(call)));
    }
    lines.for_each(|line| replay(call, line, &mut right, &mut turned));
    [right, turned]
}

/// A list that no call has would be replayed by none.
fn lists_have_calls() -> Comparison {
    let mut found = Comparison::new("lists of calls");
    let files = std::fs::read_dir(format!("{ROOT}oracle/stored")).into_iter().flatten().flatten();
    for file in files.map(|file| file.file_name()) {
        found.hold(&CALLS.iter().any(|call| file == *call.name), &true, || format!("{file:?} is the list of no call"));
    }
    found
}

fn main() {
    finish(CALLS.iter().flat_map(list).chain([lists_have_calls()]))
}
