//! The rules of `rules` in 64-bit arithmetic, as a Rust programmer would write them: for the run over all inputs, for the benchmark,
//! and inside the patterns of the source. `compare` holds them to `rules`.

const ONE: u64 = 1 << 30;
const TURN: u64 = 6_908_435_304_715;
const UNIT: f32 = 1.0 / ONE as f32;

fn from_units(w: u64) -> f32 {
    w as f32 * UNIT
}

fn from_signed_units(w: i64) -> f32 {
    w as f32 * UNIT
}

/// The first term and the `n` after it; the divisors are j (j + 1).
#[inline(always)]
fn series(t: u64, first: u64, start: u64, n: u64) -> u64 {
    let (mut term, mut sum, mut j) = (first, first as i64, start);
    for k in 0..n {
        term = ((((term * t) >> 30) * t) >> 30) / (j * (j + 1));
        sum += if k % 2 == 0 { -(term as i64) } else { term as i64 };
        j += 2;
    }
    sum.clamp(0, ONE as i64) as u64
}

fn s(t: u64) -> f32 {
    from_units(series(t, t, 2, 7))
}

fn c(t: u64) -> f32 {
    from_units(series(t, ONE, 1, 8))
}

fn reduced(a: f32) -> (u64, u64) {
    let n = (a.abs() * (1u64 << 40) as f32) as u64;
    let r = 4 * (n % TURN);
    let q = r / TURN;
    (q, (r - q * TURN) / 4096)
}

fn in_domain(a: f32) -> bool {
    a.abs() <= 65536.0
}

pub fn sin(a: f32) -> f32 {
    if !in_domain(a) {
        return f32::NAN;
    }
    let (q, t) = reduced(a);
    let y = match q {
        0 => s(t),
        1 => c(t),
        2 => -s(t),
        _ => -c(t),
    };
    if a.is_sign_negative() {
        -y
    } else {
        y
    }
}

pub fn cos(a: f32) -> f32 {
    if !in_domain(a) {
        return f32::NAN;
    }
    let (q, t) = reduced(a);
    match q {
        0 => c(t),
        1 => -s(t),
        2 => -c(t),
        _ => s(t),
    }
}

fn normal(x: f32) -> bool {
    (f32::MIN_POSITIVE..f32::INFINITY).contains(&x)
}

/// Of a positive finite number, as m × 2^e; a subnormal one's digits are moved up.
fn binary_logarithm(x: f32) -> i64 {
    let bits = u64::from(x.to_bits());
    let (mut m, e) = if bits < 0x80_0000 {
        let up = bits.leading_zeros() - 40;
        (bits << (up + 7), -126 - i64::from(up))
    } else {
        (((bits & 0x7f_ffff) + 0x80_0000) << 7, (bits >> 23) as i64 - 127)
    };
    let mut digits = 0;
    for _ in 0..30 {
        m = (m * m) >> 30;
        digits *= 2;
        if m >= 1 << 31 {
            digits += 1;
            m >>= 1;
        }
    }
    e * ONE as i64 + digits
}

fn logarithm(x: f32, k: i64) -> f32 {
    if x > 0.0 && x < f32::INFINITY {
        from_signed_units((binary_logarithm(x) * k) >> 24)
    } else {
        f32::NAN
    }
}

pub fn ln(x: f32) -> f32 {
    logarithm(x, 11_629_080)
}

pub fn log10(x: f32) -> f32 {
    logarithm(x, 5_050_445)
}

pub fn powf(x: f32, y: f32) -> f32 {
    if !(normal(x) && y > 0.0 && y <= 1.0) {
        return f32::NAN;
    }
    let e = (binary_logarithm(x) * (y * 16_777_216.0) as i64) >> 24;
    let w = ((e & (ONE as i64 - 1)) as u64 * 744_261_118) >> 30;
    let (mut term, mut sum) = (ONE, ONE);
    for k in 1..=12 {
        term = ((term * w) >> 30) / k;
        sum += term;
    }
    from_units(sum) * f32::from_bits(((e >> 30) + 127) as u32 * 0x80_0000)
}

/// The two powers that the source takes.
pub fn powi(z: f32, n: i32) -> f32 {
    let square = z * z;
    match n {
        3 => square * z,
        4 => square * square,
        _ => unreachable!("no rule for this power"),
    }
}

fn isqrt(n: u64) -> u64 {
    if n == 0 {
        return 0;
    }
    let mut x = 1u64 << ((65 - n.leading_zeros()) / 2);
    loop {
        let y = (x + n / x) / 2;
        if x <= y {
            break x;
        }
        x = y;
    }
}

fn halved(t: u64) -> u64 {
    t * ONE / (ONE + isqrt(ONE * ONE + t * t))
}

fn angle(t: u64) -> u64 {
    let quarter = halved(halved(t));
    let (mut power, mut sum) = (quarter, 0);
    for i in 0..7 {
        let term = (power / (2 * i + 1)) as i64;
        sum += if i % 2 == 0 { term } else { -term };
        power = (((power * quarter) >> 30) * quarter) >> 30;
    }
    4 * sum as u64
}

pub fn atan(a: f32) -> f32 {
    if a.is_nan() {
        return a;
    }
    let x = a.abs();
    let y = if x > 1.0 {
        from_units(1_686_629_713 - angle((1.0 / x * ONE as f32) as u64))
    } else {
        from_units(angle((x * ONE as f32) as u64))
    };
    y.copysign(a)
}

pub fn sqrt(x: f32) -> f32 {
    if x == 0.0 || x == f32::INFINITY {
        return x;
    }
    if x.is_nan() || x < 0.0 {
        return f32::NAN;
    }
    // x is m × 2^k steps of 2^-149; its root in half steps of 2^t has 25 digits, one more than is kept
    let bits = x.to_bits();
    let k = (bits >> 23).saturating_sub(1);
    let m = bits - k * 0x80_0000;
    let e = k + 151;
    let t = (e - m.leading_zeros() - 18).div_ceil(2);
    let root = isqrt(u64::from(m) << (e - 2 * t));
    f32::from_bits(t * 0x80_0000 + root.div_ceil(2) as u32)
}
