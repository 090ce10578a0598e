//! Stations with a name, in words that a reader can follow: the files of `examples/` and the stored runs of the program.
//! `bin/write_stored.rs` writes the files, `compare` holds those that are stored to these.
use crate::{card_examples, record};
#[cfg(source)]
use crate::{masts, pictures, planet, plate, remarks, shown};

/// A station and what is asked of it. `parm` has the slots from 0 on; those left out are 0. Its first five are the maximum gain of
/// mode 0 (dBi), the type, the ground's dielectric constant and conductivity (S/m), and the operating MHz of mode 0.
#[derive(Clone, Copy)]
struct Station {
    mode: u32,
    parm: &'static [f32],
    gainmax: [[f32; 3]; 2],
    gainmaxb: [f32; 30],
    mhz: f32,
    design: f32,
    elevation: f32,
}

/// Document 01's Case P: a log-periodic whose two elements are too long at 10 MHz.
const CASE_P: Station = Station {
    mode: 0,
    parm: &[0.0, 5.0, 4.0, 0.001, 10.0, 2.0, 40.0, 80.0, 10.0, 10.0, 10.0],
    gainmax: [[0.0; 3]; 2],
    gainmaxb: [0.0; 30],
    mhz: 10.0,
    design: 10.0,
    elevation: 5.0,
};

/// Mode 1: the maximum gain by the ratio of operating to design MHz, a row for 2 MHz and one for 30.
const BY_RATIO: Station = Station { mode: 1, ..CASE_P };

/// Mode 2: the maximum gain by MHz, 1 to 30.
const BY_MHZ: Station = Station { mode: 2, ..CASE_P };

// Types 1 to 4: dipoles side by side, rows of them, design MHz, height of the lowest row (wavelengths), slew; then type 1: distance
// of the screen (wavelengths), spacing of its wires (m), their diameter (mm); types 2 and 3: share of the current in the reflector;
// last the elevation and azimuth that the search starts from.

const TYPE_1: Station = Station {
    parm: &[0.0, 1.0, 10.0, 0.01, 0.0, 4.0, 4.0, 0.0, 0.5, 0.0, 0.25, 0.05, 2.0, 7.0, 0.0],
    gainmax: [[18.5, 20.5, 21.5], [19.0, 21.0, 22.0]],
    mhz: 15.0,
    design: 12.0,
    elevation: 8.0,
    ..BY_RATIO
};
const TYPE_2: Station = Station {
    parm: &[0.0, 2.0, 10.0, 0.01, 0.0, 4.0, 4.0, 0.0, 1.0, 15.0, 0.7, 7.0, 0.0],
    gainmax: [[20.0, 21.0, 21.5], [20.5, 21.5, 22.0]],
    mhz: 11.8,
    design: 11.0,
    elevation: 6.0,
    ..BY_RATIO
};
const TYPE_3: Station = Station {
    parm: &[0.0, 3.0, 10.0, 0.01, 0.0, 4.0, 2.0, 0.0, 0.5, 0.0, 0.7, 12.0, 0.0],
    gainmax: [[16.5, 17.0, 17.5], [17.0, 17.5, 18.0]],
    mhz: 9.6,
    design: 9.6,
    elevation: 12.0,
    ..BY_RATIO
};
const TYPE_4: Station = Station {
    parm: &[13.0, 4.0, 15.0, 0.005, 5.0, 2.0, 2.0, 5.0, 0.2, 0.0, 90.0, 0.0],
    mhz: 5.0,
    design: 5.0,
    elevation: 60.0,
    ..CASE_P
};

// Types 5 and 6: elements, length of the shortest and the longest, distance between them, height of the shortest and the longest
// (all m), impedance of the feeder (ohms).

const TYPE_5: Station = Station {
    parm: &[0.0, 5.0, 10.0, 0.01, 0.0, 18.0, 5.0, 30.0, 36.0, 12.0, 30.0, 200.0],
    gainmaxb: [10.0; 30],
    mhz: 12.0,
    elevation: 20.0,
    ..BY_MHZ
};
const TYPE_6: Station = Station {
    parm: &[0.0, 6.0, 80.0, 5.0, 0.0, 16.0, 6.0, 36.0, 40.0, 4.0, 19.0, 300.0],
    gainmaxb: [9.0; 30],
    mhz: 10.5,
    elevation: 10.0,
    ..BY_MHZ
};

/// Length of a leg (m), height (m), half of the angle at the sides (degrees).
const TYPE_7: Station = Station {
    parm: &[0.0, 7.0, 10.0, 0.01, 0.0, 100.0, 20.0, 70.0],
    gainmaxb: [
        0.0, 2.0, 4.5, 6.5, 8.5, 10.0, 11.5, 12.5, 13.5, 14.5, 15.5, 16.0, 16.5, 17.0, 17.5, 18.0, 18.0, 18.5, 18.5, 18.5, 18.5,
        18.5, 18.5, 18.5, 18.0, 18.0, 17.5, 17.5, 17.0, 17.0,
    ],
    mhz: 14.2,
    elevation: 12.0,
    ..BY_MHZ
};

// Types 8 and 9: design MHz, height (wavelengths), three slots without use, then the search's start.

const TYPE_8: Station = Station {
    parm: &[0.0, 8.0, 10.0, 0.01, 0.0, 0.0, 0.4, 0.0, 0.0, 0.0, 45.0, 0.0],
    gainmax: [[6.0, 6.5, 7.0], [6.0, 6.5, 7.0]],
    mhz: 7.2,
    design: 7.0,
    elevation: 35.0,
    ..BY_RATIO
};
const TYPE_9: Station = Station {
    parm: &[7.0, 9.0, 4.0, 0.001, 4.8, 4.8, 0.25, 0.0, 0.0, 0.0, 90.0, 0.0],
    mhz: 4.8,
    design: 4.8,
    elevation: 70.0,
    ..CASE_P
};

/// The same rhombic below its own peak: a maximum gain of 0, so that what lies 30 dB below is a floor.
const RELATIVE: Station = Station { mode: 0, parm: &[0.0, 7.0, 10.0, 0.01, 14.2, 100.0, 20.0, 70.0], ..TYPE_7 };

/// Type 4 with 65 dipoles side by side; 64 are the most.
const REFUSED: Station = Station { parm: &[13.0, 4.0, 15.0, 0.005, 5.0, 65.0, 2.0, 5.0, 0.2, 0.0, 90.0, 0.0], ..TYPE_4 };

/// Type 4 with a maximum gain that somebody mistyped: a plate, but no text for planners, whose numbers go up to 1,000.
const SPAN: Station = Station { parm: &[1300.0, 4.0, 15.0, 0.005, 5.0, 2.0, 2.0, 5.0, 0.2, 0.0, 90.0, 0.0], ..TYPE_4 };

impl Station {
    /// The mode, then the 56 floats' bits.
    fn words(&self) -> [u32; record::WORDS] {
        let floats: Vec<f32> = self.parm.iter().copied().chain(std::iter::repeat(0.0)).take(20).collect();
        let gains = self.gainmax.iter().flatten().chain(&self.gainmaxb);
        let bits: Vec<u32> = floats.iter().chain(gains).map(|x| x.to_bits()).collect();
        std::array::from_fn(|k| if k == 0 { self.mode } else { bits[k - 1] })
    }

    /// The 237 bytes that the program reads, the record in edition 0.
    fn input(&self) -> Vec<u8> {
        self.in_edition(0)
    }

    fn in_edition(&self, edition: u32) -> Vec<u8> {
        let mut bytes = vec![0; record::BYTES];
        record::write(edition, &self.words(), &mut bytes).expect("finite floats, and a type for edition 1");
        bytes.extend([self.mhz, self.design, self.elevation].iter().flat_map(|x| x.to_bits().to_be_bytes()));
        bytes
    }
}

/// Antennas by name, slot by slot.
fn stations() -> [(&'static str, Station); 13] {
    [
        ("case-p", CASE_P),
        ("type-1", TYPE_1),
        ("type-2", TYPE_2),
        ("type-3", TYPE_3),
        ("type-4", TYPE_4),
        ("type-5", TYPE_5),
        ("type-6", TYPE_6),
        ("type-7", TYPE_7),
        ("type-8", TYPE_8),
        ("type-9", TYPE_9),
        ("relative", RELATIVE),
        ("refused", REFUSED),
        ("span", SPAN),
    ]
}

/// The stations of `examples/`: what its cards make, for the nine types the antennas above with both frequencies in their slots too;
/// those above that have no card; document 01's Case Q, which is empty; and a record of edition 1.
fn named() -> Vec<(String, Vec<u8>)> {
    let cards = card_examples::stations();
    let of_card = |name: &str| cards.iter().find(|(card, _)| card == name).map(|(_, station)| station);
    let type_1 = of_card("type-1").expect("a card of type 1");
    let others = [("case-q".to_string(), vec![]), ("edition-1".to_string(), type_1.in_edition(1))];
    let without = stations().into_iter().filter(|(name, _)| of_card(name).is_none());
    let without = without.map(|(name, station)| (name.to_string(), station.input()));
    without.chain(cards.iter().map(|(name, station)| (name.clone(), station.bytes()))).chain(others).collect()
}

/// The plates of the antennas above and of their cards.
#[cfg(source)]
pub fn beside_cards() -> Vec<(&'static str, [String; 2])> {
    let cards = card_examples::stations();
    let pair = |(name, station): (&'static str, Station)| {
        let (_, card) = cards.iter().find(|(card, _)| card == name)?;
        Some((name, [plate::output(&station.input()), plate::output(&card.bytes())]))
    };
    stations().into_iter().filter_map(pair).collect()
}

/// The input of each antenna in editions 0 and 1.
pub fn editions() -> Vec<(&'static str, [Vec<u8>; 2])> {
    stations().iter().map(|(name, station)| (*name, [0, 1].map(|edition| station.in_edition(edition)))).collect()
}

/// An input for each refusal that the program can give, 1 to 7, 9 and 10: it lends itself the space that 8 is about.
fn refusals() -> Vec<Vec<u8>> {
    let short = CASE_P.input()[..236].to_vec();
    let mut infinite = CASE_P.input();
    // The exponent of slot 0, which starts 4 bits into the record.
    infinite[0] |= 0x07;
    infinite[1] |= 0xf8;
    let stations = [
        Station { parm: &[0.0, 0.0], ..CASE_P },
        Station { mode: 3, ..CASE_P },
        Station { mhz: 31.0, ..TYPE_7 },
        REFUSED,
        Station { parm: &[13.0, 4.0, 15.0, 0.005, 5.0, 2.0, 2.0, 5.0, 0.2, 91.0, 90.0, 0.0], ..TYPE_4 },
        // Wires without spacing: the logarithm of 0.
        Station { parm: &[0.0, 1.0, 10.0, 0.01, 0.0, 4.0, 4.0, 0.0, 0.5, 0.0, 0.25, 0.0, 2.0, 7.0, 0.0], ..TYPE_1 },
        // The step from one row to the other is more than a float holds.
        Station { gainmax: [[-3e38; 3], [3e38; 3]], ..TYPE_1 },
    ];
    [short, infinite].into_iter().chain(stations.iter().map(Station::input)).collect()
}

/// Lengths that aren't a station's: Case Q, and a station with zeros after it.
fn lengths() -> Vec<Vec<u8>> {
    let long = [TYPE_1.input(), vec![0; 63]].concat();
    vec![vec![], long[..238].to_vec(), long]
}

/// Edition 1: an antenna, the same with another type in the field, and an edition that there isn't.
fn edition_1() -> Vec<Vec<u8>> {
    let antenna = TYPE_1.in_edition(1);
    let other = |first: u8| [&[first], &antenna[1..]].concat();
    vec![antenna.clone(), other(antenna[0] ^ 2), other(antenna[0] ^ 0xc0)]
}

/// The inputs of the crate `test_plate` in its order: an antenna of each type, floors, then the refusals, the lengths and edition 1.
fn cases() -> Vec<Vec<u8>> {
    let is_antenna = |name: &str| name.starts_with("type-") || name == "relative";
    let antennas = stations().into_iter().filter(|(name, _)| is_antenna(name)).map(|(_, station)| station.input());
    antennas.chain(refusals()).chain(lengths()).chain(edition_1()).collect()
}

/// The stored inputs: their place below the repository's root, and their bytes. The cases are named by letters.
pub fn inputs() -> Vec<(String, Vec<u8>)> {
    let examples = named().into_iter().map(|(name, input)| (format!("examples/{name}.station"), input));
    let cases = ('a'..='z').zip(cases()).map(|(letter, input)| (format!("crates/test_plate/data/{letter}"), input));
    let stdins = [("plate", CASE_P), ("planet", TYPE_1), ("station_remarks", TYPE_7)];
    let stdins = stdins.map(|(program, station)| (format!("crates/{program}/stdin"), station.input()));
    let seen = seen_inputs().map(|(program, input)| (format!("crates/{program}/stdin"), input));
    examples.chain(cases).chain(stdins).chain(seen).collect()
}

/// A station of `examples/`.
fn example(name: &str) -> Vec<u8> {
    named().into_iter().find(|(example, _)| example == name).expect("an example").1
}

/// The azimuth of the base in the stored words.
const BASE: u16 = 40;

/// What the programs of the plate that people see are given: a station; a byte that asks for one, one with its fold or two masts, then
/// the stations; the azimuth of the base, then two masts.
fn seen_inputs() -> [(&'static str, Vec<u8>); 3] {
    let two = [example("type-1"), example("type-7")].concat();
    [
        ("dbi", example("type-7")),
        ("svg", [vec![1], example("type-1")].concat()),
        ("compare", [BASE.to_be_bytes().to_vec(), two].concat()),
    ]
}

/// Two masts, by their names.
#[cfg(source)]
const PAIRS: [(&str, &str); 5] =
    [("type-1", "type-7"), ("type-5", "type-6"), ("curtain", "type-1"), ("relative", "case-p"), ("type-4", "refused")];

/// Pictures beside those of the examples: what is folded shown apart, a plate of floors, two masts, with their words.
#[cfg(source)]
fn pictures() -> Vec<(String, String)> {
    let folded = ["type-1", "type-7"].map(|name| (format!("{name}-fold.svg"), pictures::svg(&example(name), true)));
    let floors = ("off-band.svg".to_string(), pictures::svg(&card_examples::mistake("off-band"), false));
    let two = PAIRS.into_iter().flat_map(|(first, second)| {
        let [a, b] = [first, second].map(example);
        let words = masts::compare(&a, &b, BASE.into());
        [(format!("{first}-{second}.svg"), pictures::svg_two(&a, &b)), (format!("{first}-{second}.words"), words)]
    });
    folded.into_iter().chain([floors]).chain(two).collect()
}

/// The stored texts that the programs must write, by the oracle's own `plate`, `planet`, plates that people see and remarks.
#[cfg(source)]
pub fn texts() -> Vec<(String, Vec<u8>)> {
    let both = |(name, input): (String, Vec<u8>)| {
        [
            ("txt", plate::output(&input)),
            ("planet", planet::output(&input)),
            ("dbi", shown::dbi(&input)),
            ("svg", pictures::svg(&input, false)),
        ]
        .map(|(kind, text)| (format!("examples/{name}.{kind}"), text.into_bytes()))
    };
    let examples = named().into_iter().flat_map(both);
    let plates = cases().iter().map(|input| plate::output(input)).collect();
    let remarks = remarks::remarks(&TYPE_7.input()).iter().map(|remark| format!("{remark}\n")).collect();
    let runs = [
        ("plate", plate::output(&CASE_P.input())),
        ("test_plate", plates),
        ("planet", planet::output(&TYPE_1.input())),
        ("station_remarks", remarks),
        ("dbi", shown::dbi(&example("type-7"))),
        ("svg", pictures::svg(&example("type-1"), true)),
        ("compare", masts::compare(&example("type-1"), &example("type-7"), BASE.into())),
    ];
    let runs = runs.map(|(program, text)| (format!("crates/{program}/stdout"), text.into_bytes()));
    let pictures = pictures().into_iter().map(|(name, text)| (format!("examples/pictures/{name}"), text.into_bytes()));
    examples.chain(runs).chain(pictures).chain(card_examples::said()).collect()
}
