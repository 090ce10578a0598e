//! The seven elementary functions behind one call, bits in and bits out, as `hf_leaf` has them; a NaN comes out as 7FC00000.
use crate::{plain, rules};

/// Their numbers in `hf_leaf`.
pub const NAMES: [&str; 7] = ["sin", "cos", "ln", "log10", "powf", "atan", "sqrt"];
pub const POWF: u32 = 4;

pub type Leaf = fn(u32, u32, u32) -> u32;

/// A NaN has no fixed bits.
pub fn bits(x: f32) -> u32 {
    if x.is_nan() {
        0x7fc0_0000
    } else {
        x.to_bits()
    }
}

macro_rules! leaf {
    ($(#[$note:meta])* $name:ident, $sin:expr, $cos:expr, $ln:expr, $log10:expr, $powf:expr, $atan:expr, $sqrt:expr) => {
        $(#[$note])*
        #[inline(never)]
        pub fn $name(which: u32, a: u32, b: u32) -> u32 {
            let (x, y) = (f32::from_bits(a), f32::from_bits(b));
            bits(match which {
                0 => $sin(x),
                1 => $cos(x),
                2 => $ln(x),
                3 => $log10(x),
                POWF => $powf(x, y),
                5 => $atan(x),
                6 => $sqrt(x),
                _ => f32::NAN,
            })
        }
    };
}

leaf!(
    /// Document 01's words.
    by_rules, rules::sin, rules::cos, rules::ln, rules::log10, rules::powf, rules::atan, rules::sqrt
);
leaf!(
    /// The same in 64-bit arithmetic.
    by_plain, plain::sin, plain::cos, plain::ln, plain::log10, plain::powf, plain::atan, plain::sqrt
);
leaf!(
    /// Rust's own, whose bits differ: only to be timed.
    by_std, f32::sin, f32::cos, f32::ln, f32::log10, f32::powf, f32::atan, f32::sqrt
);
