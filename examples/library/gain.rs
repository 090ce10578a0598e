//! The library from Rust: the maximum gain of a rhombic at 14.2 MHz, then its gain in a few directions.

/// As `include/hf.h` has them: a slice is a pointer, then a length.
mod raw {
    extern "C" {
        pub fn hf_maxgain(mode: u32, floats: *const f32, floats_len: usize, out: *mut u32, out_len: usize) -> u32;
        pub fn hf_gains(
            parm: *const f32,
            parm_len: usize,
            giso: f32,
            directions: *const f32,
            directions_len: usize,
            out: *mut u32,
            out_len: usize,
        ) -> u32;
    }
}

/// The refusal's number.
type Refusal = u32;

fn answered<T>(refused: Refusal, answer: T) -> Result<T, Refusal> {
    if refused == 0 {
        Ok(answer)
    } else {
        Err(refused)
    }
}

/// The maximum gain, and the parameters for set-up.
fn maxgain(mode: u32, floats: &[f32; 58]) -> Result<(f32, [f32; 20]), Refusal> {
    let mut out = [0; 21];
    // SAFETY: the pointers and lengths are those of live arrays that don't overlap; so below.
    let refused = unsafe { raw::hf_maxgain(mode, floats.as_ptr(), floats.len(), out.as_mut_ptr(), out.len()) };
    answered(refused, (f32::from_bits(out[0]), std::array::from_fn(|k| f32::from_bits(out[1 + k]))))
}

/// The readings, the bits of the peak, its elevation and azimuth, then a kind and a word for each pair of elevation and azimuth.
fn gains(parm: &[f32; 20], giso: f32, directions: &[f32]) -> Result<Vec<u32>, Refusal> {
    let mut out = vec![0; 4 + directions.len()];
    let (out_len, lent) = (out.len(), out.as_mut_ptr());
    // SAFETY: as above.
    let refused = unsafe { raw::hf_gains(parm.as_ptr(), parm.len(), giso, directions.as_ptr(), directions.len(), lent, out_len) };
    answered(refused, out)
}

/// Mode 2: the maximum gain by MHz, here 17 dBi at 14 MHz and 17.5 at 15.
fn station(parm: &[f32], mhz: f32) -> [f32; 58] {
    let mut floats = [0.0; 58];
    floats[..parm.len()].copy_from_slice(parm);
    floats[26 + 13] = 17.0;
    floats[26 + 14] = 17.5;
    floats[56] = mhz;
    floats[57] = mhz;
    floats
}

fn line(direction: &[f32], answer: &[u32]) -> String {
    let number = f32::from_bits(answer[1]);
    let gain = match answer[0] {
        0 => format!("level {number:.2} dBi"),
        1 => format!("floor {number:.2} dBi"),
        2 => format!("silence {number:.2} dBi"),
        _ => format!("refused {}", answer[1]),
    };
    format!("elevation {:.0}, azimuth {:.0}: {gain}", direction[0], direction[1])
}

fn print_gains(directions: &[f32], answers: &[u32]) {
    for (direction, answer) in directions.chunks(2).zip(answers.chunks(2)) {
        println!("{}", line(direction, answer));
    }
}

fn print_rhombic() -> Result<(), Refusal> {
    // A leg of 100 m, 20 m above the ground, the angle at the sides 2 x 70 degrees; ground of dielectric constant 10 and 0.01 S/m.
    let rhombic = [0.0, 7.0, 10.0, 0.01, 0.0, 100.0, 20.0, 70.0];
    // Pairs of elevation and azimuth.
    let directions = [12.0, 0.0, 12.0, 10.0, 12.0, 180.0, 90.0, 0.0];
    let (giso, mut parm) = maxgain(2, &station(&rhombic, 14.2))?;
    println!("maximum gain {giso:.2} dBi");
    let out = gains(&parm, giso, &directions)?;
    let [elevation, azimuth] = [out[2], out[3]].map(f32::from_bits);
    println!("peak at elevation {elevation:.0}, azimuth {azimuth:.0}, found in {} readings", out[0]);
    print_gains(&directions, &out[4..]);
    println!("relative to the peak, with a maximum gain of 0:");
    print_gains(&directions, &gains(&parm, 0.0, &directions)?[4..]);
    parm[4] = 31.0; // outside the band
    println!("at 31 MHz: refused {}", gains(&parm, giso, &directions).unwrap_err());
    Ok(())
}

fn main() {
    if let Err(number) = print_rhombic() {
        println!("refused {number}");
        std::process::exit(1);
    }
}
