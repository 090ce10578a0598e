//! Each wrong program of `impostors.rs` answers the stored cases named after it wrongly: the lists see it. With no impostor on, the
//! same cases are answered as they are stored, so that it isn't the switches that show.
use oracle::calls::CALLS;
use oracle::impostor::with;
use oracle::impostors::{Impostor, IMPOSTORS};
use oracle::lists::{cases_of, shows, CASES};
use oracle::report::Comparison;

fn seen(k: usize, impostor: &Impostor) -> Comparison {
    let mut found = Comparison::new(format!("impostor: {}", impostor.name));
    let call = CALLS.iter().find(|call| call.name == impostor.call).expect("an impostor's call");
    let cases = cases_of(call, impostor);
    found.hold(&(cases.len() < CASES), &false, || "too few stored cases: run write_stored".into());
    for case in &cases {
        let right = case.line(&case.outcome(call.oracle));
        let off = case.line(&with(None, || case.outcome(call.impostor)));
        found.hold(&off, &right, || format!("{off} with no impostor on, expected {right}"));
        found.hold(&shows(call, case, k), &true, || format!("not seen in {right}"));
    }
    found
}

pub fn compare(_: u64) -> Vec<Comparison> {
    IMPOSTORS.iter().enumerate().map(|(k, impostor)| seen(k, impostor)).collect()
}
