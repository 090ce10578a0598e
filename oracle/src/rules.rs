//! Document 01, "Leaves", word by word, in 128-bit whole numbers: slow, and meant to be read. The logarithm is that of document 02's
//! card 3, of every positive finite number.
//! Written from the paper, apart from the Rattle. One unit is 2^-30.

/// 1, in units.
const ONE: i128 = 1 << 30;
/// T: a whole turn, in 2^-40.
const TURN: i128 = 6_908_435_304_715;

/// A finite |x| as (m, e): |x| = m × 2^e, m a whole number below 2^24.
fn parts(x: f32) -> (i128, i32) {
    let bits = x.to_bits() & 0x7fff_ffff;
    let (field, digits) = ((bits >> 23) as i32, i128::from(bits & 0x7f_ffff));
    match field {
        0 => (digits, -149),
        _ => (digits + (1 << 23), field - 150),
    }
}

/// |x| × 2^k, truncated.
fn truncated(x: f32, k: i32) -> i128 {
    let (m, e) = parts(x);
    match e + k {
        up if up >= 0 => m << up,
        down if down > -64 => m >> -down,
        _ => 0,
    }
}

/// n × 2^k rounded once to binary32, ties to even. n is not negative.
fn nearest(n: i128, k: i32) -> f32 {
    if n == 0 {
        return 0.0;
    }
    let length = 128 - n.leading_zeros() as i32;
    // the exponent of the result's last digit
    let last = (length + k - 24).max(-149);
    let digits = match last - k {
        gap if gap <= 0 => n << -gap,
        gap if gap > 126 => 0,
        gap => {
            let (cut, rest, half) = (n >> gap, n & ((1 << gap) - 1), 1 << (gap - 1));
            cut + i128::from(rest > half || (rest == half && cut % 2 == 1))
        }
    };
    // digits of 2^23 and more carry into the exponent's field
    let bits = i128::from(last + 149) * (1 << 23) + digits;
    f32::from_bits(bits.min(0x7f80_0000) as u32)
}

/// F(W): W / 2^30 rounded once.
fn f(w: i128) -> f32 {
    negated_if(w < 0, nearest(w.abs(), -30))
}

fn negated_if(negative: bool, x: f32) -> f32 {
    if negative {
        -x
    } else {
        x
    }
}

/// The first term and the ones after it, signs alternating, cut to 0..2^30.
fn series(t: i128, first: i128, divisors: impl Iterator<Item = i128>) -> i128 {
    let (mut term, mut sum, mut sign) = (first, first, -1);
    for divisor in divisors {
        term = term * t / ONE * t / ONE / divisor;
        sum += sign * term;
        sign = -sign;
    }
    sum.clamp(0, ONE)
}

/// Document 01's S, in units of 2^-30.
fn sine_units(t: i128) -> i128 {
    series(t, t, (1..=7).map(|k| (2 * k) * (2 * k + 1)))
}

fn s(t: i128) -> f32 {
    f(sine_units(t))
}

/// The sine of 0 to 90 whole degrees in units of 2^-30: a turn of 360 degrees has T units of 2^-40.
pub fn whole_sine(degrees: i64) -> i64 {
    sine_units(TURN * i128::from(degrees) / 360 / 1024) as i64
}

fn c(t: i128) -> f32 {
    f(series(t, ONE, (1..=8).map(|k| (2 * k - 1) * (2 * k))))
}

/// q and t of an angle, or nothing outside the domain.
fn reduced(a: f32) -> Option<(i128, i128)> {
    if a.is_nan() || a.abs() > 65536.0 {
        return None;
    }
    let r = truncated(a, 40) % TURN;
    let q = 4 * r / TURN;
    Some((q, (4 * r - q * TURN) / 4096))
}

pub fn sin(a: f32) -> f32 {
    let Some((q, t)) = reduced(a) else {
        return f32::NAN;
    };
    let y = match q {
        0 => s(t),
        1 => c(t),
        2 => -s(t),
        _ => -c(t),
    };
    negated_if(a.is_sign_negative(), y)
}

pub fn cos(a: f32) -> f32 {
    let Some((q, t)) = reduced(a) else {
        return f32::NAN;
    };
    match q {
        0 => c(t),
        1 => -s(t),
        2 => -c(t),
        _ => s(t),
    }
}

/// The digits of the binary logarithm of x units, `left` of them left.
fn digits(x: i128, left: u32) -> i128 {
    if left == 0 {
        return 0;
    }
    let square = x * x / ONE;
    if square >= 1 << 31 {
        (1 << (left - 1)) + digits(square / 2, left - 1)
    } else {
        digits(square, left - 1)
    }
}

/// L, of a positive finite number; nothing for any other. "m is scaled to 1 ≤ m < 2 and e goes down to -149".
fn binary_logarithm(x: f32) -> Option<i128> {
    if !x.is_finite() || x <= 0.0 {
        return None;
    }
    // m in units of 2^-23
    let (mut m, mut e) = parts(x);
    while m < 1 << 23 {
        (m, e) = (2 * m, e - 1);
    }
    Some(i128::from(e + 23) * ONE + digits(m << 7, 30))
}

/// F of L × k / 2^24, rounded down also below zero.
fn logarithm(x: f32, k: i128) -> f32 {
    match binary_logarithm(x) {
        Some(l) => f((l * k).div_euclid(1 << 24)),
        None => f32::NAN,
    }
}

pub fn ln(x: f32) -> f32 {
    logarithm(x, 11_629_080)
}

pub fn log10(x: f32) -> f32 {
    logarithm(x, 5_050_445)
}

pub fn powf(x: f32, y: f32) -> f32 {
    let Some(l) = binary_logarithm(x) else {
        return f32::NAN;
    };
    if !(x.is_normal() && y > 0.0 && y <= 1.0) {
        return f32::NAN;
    }
    let e = (l * truncated(y, 24)).div_euclid(1 << 24);
    let w = e.rem_euclid(ONE) * 744_261_118 / ONE;
    let (mut term, mut sum) = (ONE, ONE);
    for k in 1..=12 {
        term = term * w / ONE / k;
        sum += term;
    }
    nearest(sum, e.div_euclid(ONE) as i32 - 30)
}

/// The largest whole number whose square is at most n, digit by digit.
fn isqrt(n: i128) -> i128 {
    let mut root = 0;
    for k in (0..63).rev() {
        let tried = root + (1 << k);
        if tried * tried <= n {
            root = tried;
        }
    }
    root
}

pub fn atan(a: f32) -> f32 {
    if a.is_nan() {
        return a;
    }
    let beyond = a.abs() > 1.0;
    let mut t = truncated(if beyond { 1.0 / a.abs() } else { a }, 30);
    for _ in 0..2 {
        t = t * ONE / (ONE + isqrt((1 << 60) + t * t));
    }
    let (mut power, mut sum, mut sign) = (t, 0, 1);
    for divisor in [1, 3, 5, 7, 9, 11, 13] {
        sum += sign * (power / divisor);
        sign = -sign;
        power = power * t / ONE * t / ONE;
    }
    let angle = if beyond { 1_686_629_713 - 4 * sum } else { 4 * sum };
    negated_if(a.is_sign_negative(), f(angle))
}

/// IEEE 754 squareRoot of m × 2^e: a root of 50 digits and more, with one more digit that says
/// whether anything is left, rounds as the exact root does.
pub fn sqrt(x: f32) -> f32 {
    if x == 0.0 || x == f32::INFINITY {
        return x;
    }
    if x.is_nan() || x < 0.0 {
        return f32::NAN;
    }
    let (m, e) = parts(x);
    let shift = 100 + e.rem_euclid(2);
    let n = m << shift;
    let root = isqrt(n);
    let more = i128::from(root * root < n);
    nearest(2 * root + more, (e - shift) / 2 - 1)
}
