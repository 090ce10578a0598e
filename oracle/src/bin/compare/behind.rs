//! Card 6: front-to-back counts from the greatest number of azimuths 90 to 270. Stations whose strongest number behind isn't at 180, each
//! with the figure by that rule and by document 01's own, the entry at 0 less the one at 180; by the oracle and by the proved library.
use crate::cases::hex;
use oracle::antennas::{prepare, SetUp, ANTENNA};
use oracle::expected::{ROW, TABLE};
use oracle::report::Comparison;
use oracle::{expected, reference, service};

/// A station, its maximum gain, the elevation; where its strongest number behind is, front-to-back, and what document 01's rule gave.
type Stated = ([f32; 20], f32, f32, &'static [usize], f32, f32);

/// A log-periodic antenna with a lobe on each side behind; a rhombic whose greatest is at 90; one whose greatest is at 270.
const STATED: [Stated; 3] = [
    (
        [
            20.52, 5.0, 41.43, 0.0688, 18.25, 12.0, 4.927, 12.01, 16.38, 4.663, 10.77, 543.0, 0.0, 0.0, 0.0, 0.0, 0.0, 0.0, 0.0,
            0.0,
        ],
        4.1,
        32.0,
        &[126, 234],
        17.081087,
        19.135942,
    ),
    (
        [18.85, 7.0, 66.13, 0.000918, 19.0, 141.8, 19.02, 51.85, 0.0, 0.0, 0.0, 0.0, 0.0, 0.0, 0.0, 0.0, 0.0, 0.0, 0.0, 0.0],
        7.0,
        51.0,
        &[90],
        5.19534,
        9.667433,
    ),
    (
        [5.497, 7.0, 45.54, 0.009835, 3.0, 44.41, 8.474, 45.73, 0.0, 0.0, 0.0, 0.0, 0.0, 0.0, 0.0, 0.0, 0.0, 0.0, 0.0, 0.0],
        10.5,
        45.0,
        &[270],
        1.74611,
        4.4121003,
    ),
];

/// `hf_plate_row` or the reference.
type Row = fn(&[u32], &[f32], f32, f32, &mut [f32]) -> u64;

fn stated(name: &str, set_up: SetUp, row_of: Row) -> Comparison {
    let mut found = Comparison::new(format!("stated front-to-back, {name}"));
    for (parm, giso, elevation, places, new, old) in STATED {
        let (mut table, mut antenna, mut row) = (vec![0.0; TABLE], [0; ANTENNA], [0.0; ROW]);
        prepare(set_up, &parm, &[], &mut table, &mut antenna);
        let answer = row_of(&antenna, &table, elevation, giso, &mut row);
        let greatest = expected::strongest_behind(&row);
        let at: Vec<usize> = (90..=270).filter(|&v| Some(row[v]) == greatest).collect();
        let got = (answer, at, row[0] - row[180]);
        found.hold(&got, &(new.to_bits().into(), places.to_vec(), old), || format!("{}: {got:?}", hex(&parm)));
    }
    found
}

pub fn compare(_: u64) -> Vec<Comparison> {
    vec![stated("oracle", reference::setup, reference::row_of), stated("hf_plate_row", service::setup, service::row_of)]
}
