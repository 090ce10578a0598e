//! The Rust of the antennas, taken from the source tree by build.rs, over document 01's elementary functions.
use std::cell::{Cell, RefCell};

pub mod con {
    pub type R = f32;
}

/// What `ccir.rs` uses of `antenna.rs`.
pub mod antenna {
    use super::con::R;

    pub struct AntennaFile {
        pub parm: [R; 20],
        pub modegain: i32,
        pub gainmax: [[R; 3]; 2],
        pub gainmaxb: [R; 30],
    }

    impl AntennaFile {
        /// The antenna type, `parm(2)` rounded.
        pub fn jant(&self) -> i32 {
            let v = self.parm[1];
            (if v >= 0.0 { v + 0.5 } else { v - 0.5 }) as i32
        }
    }
}

/// The elementary methods under the names that build.rs gives them. They are the 64-bit rules, which `compare` holds to document
/// 01's words; the 128-bit ones are too slow for a search.
mod elementary {
    use crate::plain;

    pub trait Elementary {
        fn rule_sin(self) -> f32;
        fn rule_cos(self) -> f32;
        fn rule_ln(self) -> f32;
        fn rule_log10(self) -> f32;
        fn rule_powf(self, y: f32) -> f32;
        fn rule_powi(self, n: i32) -> f32;
        fn rule_atan(self) -> f32;
        fn rule_sqrt(self) -> f32;
    }

    #[rustfmt::skip]
    impl Elementary for f32 {
        fn rule_sin(self) -> f32 { plain::sin(self) }
        fn rule_cos(self) -> f32 { plain::cos(self) }
        fn rule_ln(self) -> f32 { plain::ln(self) }
        fn rule_log10(self) -> f32 { plain::log10(self) }
        fn rule_powf(self, y: f32) -> f32 { plain::powf(self, y) }
        fn rule_powi(self, n: i32) -> f32 { plain::powi(self, n) }
        fn rule_atan(self) -> f32 { plain::atan(self) }
        fn rule_sqrt(self) -> f32 { plain::sqrt(self) }
    }
}

/// A gain that the search read, and where.
#[derive(Clone, Copy)]
pub struct Reading {
    pub elevation: f32,
    pub azimuth: f32,
    pub gain: f32,
}

/// What the search read: how often it called `gainrel`, whether every gain was finite, and each in its order.
pub struct Readings {
    pub count: u32,
    pub finite: bool,
    pub list: Vec<Reading>,
}

const NONE: Readings = Readings { count: 0, finite: true, list: Vec::new() };

thread_local! {
    static READINGS: RefCell<Readings> = const { RefCell::new(NONE) };
}

/// The readings since the last call, which starts a new count.
pub fn take_readings() -> Readings {
    READINGS.replace(NONE)
}

/// A gain on its way to the search.
fn met(elevation: f32, azimuth: f32, gain: f32) -> f32 {
    READINGS.with_borrow_mut(|r| {
        r.count += 1;
        r.finite &= gain.is_finite();
        r.list.push(Reading { elevation, azimuth, gain });
    });
    gain
}

thread_local! {
    static FACTOR: RefCell<f32> = const { RefCell::new(f32::NAN) };
}

/// The factor of the last integral.
pub fn take_factor() -> f32 {
    FACTOR.replace(f32::NAN)
}

/// A factor on its way from the integral.
fn integrated(factor: f32) -> f32 {
    FACTOR.replace(factor);
    factor
}

thread_local! {
    static PATTERN: Cell<u32> = const { Cell::new(0) };
}

/// The readings of a curtain's pattern since the last call, which starts a new count.
pub fn take_pattern_readings() -> u32 {
    PATTERN.replace(0)
}

/// A reading of a curtain's pattern.
fn read() {
    PATTERN.set(PATTERN.get() + 1);
}

#[allow(dead_code, clippy::all)]
pub mod ccir {
    include!(concat!(env!("OUT_DIR"), "/ccir.rs"));

    impl CcirAntenna {
        /// `ww1` to `ww4` in turn, each by elevation, then element: the lent table.
        pub fn copy_table(&self, table: &mut [R]) {
            let rows = [&self.ww1, &self.ww2, &self.ww3, &self.ww4].into_iter().flatten();
            for (lent, row) in table.chunks_mut(31).zip(rows) {
                lent.copy_from_slice(row);
            }
        }

        /// The record without its table and the table's sum, as 997 words in the order of the fields; of `ifs` only whether it isn't 0.
        pub fn words(&self) -> Vec<u32> {
            let constants = [
                self.d1, self.e1, self.beta, self.cpfr, self.cp11, self.fr1, self.h1, self.pfr, self.p11, self.p11s, self.q2,
                self.r2, self.r3, self.sl, self.costh, self.sinth,
            ];
            let floats = |lists: &[&[R]]| -> Vec<u32> { lists.concat().into_iter().map(crate::leaf::bits).collect() };
            [
                vec![self.iant as u32, u32::from(self.ifs != 0)],
                floats(&[&constants, &self.fi, &self.rim, &self.x, &self.y]),
                self.iek.iter().map(|i| *i as u32).collect(),
                floats(&[&self.rl, &self.h]),
                vec![self.nat as u32],
                floats(&[&self.a, &self.b, &self.w3, &self.w4, &self.w5, &self.w6, &self.w9, &self.w10]),
                floats(&[&[self.z6, self.umax, self.vmax]]),
            ]
            .concat()
        }

        /// The record in its first 997 words, with the table's floats.
        pub fn of_words(words: &[u32], table: &[R]) -> Self {
            let mut words = words.iter().copied();
            let mut word = || words.next().expect("997 words");
            let (iant, ifs) = (word() as i32, i32::from(word() != 0));
            let mut float = || R::from_bits(word());
            let [d1, e1, beta, cpfr, cp11, fr1, h1, pfr] = [(); 8].map(|()| float());
            let [p11, p11s, q2, r2, r3, sl, costh, sinth] = [(); 8].map(|()| float());
            let [fi, rim, x, y] = [(); 4].map(|()| [(); 36].map(|()| float()));
            let iek = [(); 36].map(|()| word() as usize);
            let mut float = || R::from_bits(word());
            let (rl, h) = ([(); 36].map(|()| float()), [(); 31].map(|()| float()));
            let nat = word() as usize;
            let mut float = || R::from_bits(word());
            let [a, b, w3, w4, w5, w6, w9, w10] = [(); 8].map(|()| [(); 91].map(|()| float()));
            let [z6, umax, vmax] = [(); 3].map(|()| float());
            let part = |k: usize| -> Vec<[R; 31]> {
                table[k * 91 * 31..(k + 1) * 91 * 31].chunks(31).map(|row| row.try_into().expect("31 floats")).collect()
            };
            let [ww1, ww2, ww3, ww4] = [0, 1, 2, 3].map(part);
            CcirAntenna {
                iant,
                d1,
                e1,
                beta,
                cpfr,
                cp11,
                fr1,
                h1,
                pfr,
                p11,
                p11s,
                q2,
                r2,
                r3,
                sl,
                costh,
                sinth,
                fi,
                rim,
                x,
                y,
                iek,
                rl,
                h,
                nat,
                a,
                b,
                w3,
                w4,
                w5,
                w6,
                w9,
                w10,
                ww1,
                ww2,
                ww3,
                ww4,
                z6,
                umax,
                vmax,
                ifs,
            }
        }
    }
}
