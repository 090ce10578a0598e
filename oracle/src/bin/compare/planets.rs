//! Card 14, the text for coverage planners: `hf_planet` against the oracle's, every lent byte, written or left.
use crate::cases::run;
use oracle::planet::{self, in_span, Numbers};
use oracle::random::Random;
use oracle::report::Comparison;
use oracle::{planets, plate, reference, service};

/// Twice the hundredths are an odd whole number: doubles hold them exactly.
fn at_a_half(x: &f32) -> bool {
    f64::from(*x) * 200.0 % 2.0 != 0.0 && (f64::from(*x) * 200.0).fract() == 0.0
}

/// What stands in a text, and which of the card's rules its numbers meet.
fn tally(text: &str, numbers: &Numbers, found: &mut Comparison) {
    let mut lines = text.lines().map(|line| line.split(' ').collect::<Vec<_>>());
    let [name, _, gain] = [(); 3].map(|()| lines.next().expect("a head"));
    found.met(name[1]);
    let all = || numbers.horizontal.iter().chain(&numbers.vertical);
    let met = [
        ("a gain below 0", gain[1].starts_with('-')),
        ("a gain below 0 printed as 0.00", gain[1] == "0.00" && numbers.horizontal.iter().all(|x| *x < 0.0)),
        ("a half above 0", all().any(|x| *x > 0.0 && at_a_half(x))),
        ("a half below 0", all().any(|x| *x < 0.0 && at_a_half(x))),
        ("1,000 itself", all().any(|x| *x == 1000.0)),
        ("a loss over 99.99", lines.any(|line| line[1].len() > 5)),
    ];
    met.into_iter().filter(|(_, is)| *is).for_each(|(what, _)| found.met(what));
}

fn one(random: &mut Random, found: &mut Comparison) {
    let input = planets::input(random);
    let numbers = planet::numbers(&input);
    let text = numbers.as_ref().map(Numbers::text).ok();
    let room = planets::room(random, &text);
    let (mut out, mut expected_out) = (vec![0xa5; room], vec![0xa5; room]);
    let got = service::planet(&input, &mut out);
    let expected = reference::planet(&input, &mut expected_out);
    if expected >> 32 == 3 {
        found.met(format!("refused {}", expected as u32));
    }
    if numbers.as_ref().is_err_and(|number| [10, 18].contains(number))
        && plate::steps(&input).is_ok_and(|steps| in_span(&steps.row))
    {
        found.met(format!("refused {} for the vertical part alone", expected as u32));
    }
    if let (Some(text), Ok(numbers)) = (&text, &numbers) {
        tally(text, numbers, found);
        found.met(match room as i64 - text.len() as i64 {
            -1 => "room a byte short",
            0 => "room to the byte",
            less if less < 0 => "less room",
            _ => "more room",
        });
    }
    found.hold(&(got, &out), &(expected, &expected_out), || format!("{input:02X?}: {got:X}, expected {expected:X}, room {room}"));
}

/// The float's own decimal digits, rounded as at school by the third after the point.
fn by_digits(x: f32) -> i64 {
    let digits: Vec<u8> = format!("{:.150}", x.abs()).bytes().filter(u8::is_ascii_digit).collect();
    let (whole, rest) = digits.split_at(digits.len() - 148);
    let size = whole.iter().fold(0, |n, digit| 10 * n + i64::from(digit - b'0')) + i64::from(rest[0] >= b'5');
    if x < 0.0 {
        -size
    } else {
        size
    }
}

/// A float within the span: of any exponent, beside a half of a hundredth, or on one.
fn within(random: &mut Random) -> f32 {
    let x = match random.below(3) {
        0 => f32::from_bits(random.bits() % (1000f32.to_bits() + 1)),
        1 => f32::from_bits((((random.below(100_000) as f32) + 0.5) / 100.0).to_bits() - 1 + random.below(3) as u32),
        _ => random.below(8001) as f32 / 8.0,
    };
    if random.below(2) == 0 {
        -x
    } else {
        x
    }
}

/// The oracle's hundredths: stated ones, and those that the decimal digits give.
fn hundredths(count: u64) -> Comparison {
    let one = |random: &mut Random, found: &mut Comparison| {
        let x = within(random);
        let (got, expected) = (planet::hundredths(x), by_digits(x));
        found.hold(&got, &expected, || format!("{x:?}: {got}, by its digits {expected}"));
    };
    let mut found = run("hundredths by decimal digits", 26, count, one);
    let stated =
        [(0.125, 13), (-0.125, -13), (0.375, 38), (0.005, 0), (0.015, 1), (-0.004, 0), (-29.875, -2988), (1000.0, 100_000)];
    for (x, expected) in stated {
        let got = planet::hundredths(x);
        found.hold(&got, &expected, || format!("{x:?}: {got}, stated {expected}"));
    }
    found
}

/// Each must be met among the inputs.
const OWED: &[&str] = &[
    "T1",
    "T2",
    "T3",
    "T4",
    "T5",
    "T6",
    "T7",
    "T8",
    "T9",
    "a gain below 0",
    "a gain below 0 printed as 0.00",
    "a half above 0",
    "a half below 0",
    "1,000 itself",
    "a loss over 99.99",
    "refused 10 for the vertical part alone",
    "refused 18 for the vertical part alone",
    "room a byte short",
    "room to the byte",
    "less room",
    "more room",
];

pub fn compare(count: u64) -> Vec<Comparison> {
    let refused = [1, 2, 3, 4, 5, 6, 7, 8, 9, 10, 18].map(|number| format!("refused {number}"));
    let refused = refused.each_ref().map(String::as_str);
    vec![run("hf_planet", 25, count, one).owing(OWED).owing(&refused), hundredths(10 * count)]
}
