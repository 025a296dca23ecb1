//! The intended differences from the Rust, each in one place, named as in docs/DIFFERENCES.md. (D5, refusals, is table.rs.)

/// D1: no rows have no flux, where the Rust gives one slot.
pub fn no_rows(mut flux: Vec<f64>, rows: usize) -> Vec<f64> {
    flux.truncate(rows);
    flux
}

/// D2: a flux that is zero is +0, whichever zero the Rust's `max` and sum leave.
pub fn flux_zero(flux: f64) -> f64 {
    if flux == 0.0 { 0.0 } else { flux }
}

/// D3: a dot product starts at +0, so it is never -0; the Rust's sums start at -0 from some version on, and a dot product of which each
/// product is -0 stays there.
pub fn dot_zero(slot: f64, one: &[f64], other: &[f64]) -> f64 {
    let mut dot = 0.0;
    for (a, b) in one.iter().zip(other) {
        dot += a * b;
    }
    if dot == 0.0 && slot == 0.0 { 0.0 } else { slot }
}

/// D4: lag 0 is "no tempo" and has no stability; the Rust never asks its inner function about lag 0, which would agree with no window.
pub fn no_lag(stability: Option<f64>, whole_lag: usize) -> Option<f64> {
    if whole_lag == 0 { None } else { stability }
}

/// The smallest inputs of D1 to D4, and what the Rust says to them on this machine, in this version.
pub fn tell() {
    let flux = |rows: &[f32]| {
        let rows = rows.iter().map(|&x| vec![x]).collect();
        oracle::onsets::open::spectral_flux(&oracle::onsets::open::stft(rows, 1))
    };
    println!("D1: to no rows the Rust gives the flux {:?}, here it is []", flux(&[]));
    println!("D2: to a bin from +0 to -0 the Rust gives {:?}, here it is 0.0", flux(&[0.0, -0.0])[1]);
    let (mut one, mut other) = ([-0.0; 16], [1.0; 16]);
    (one[0], other[0]) = (1.0, -0.0);
    let alike = oracle::structure::open::Similarity::compute(&[one, other]);
    println!("D3: to a dot product of sixteen times -0 the Rust gives {:?}, here it is 0.0", alike.values()[1]);
    let steady = oracle::tempo::open::stability_of(&[0.0; 8], 1, 2, 1.0 / 256.0, 0);
    println!("D4: of lag 0 the Rust's inner function gives {steady:?}, here there is no stability");
}
