//! Thresholds of curves of several shapes, beside the Rust: the bits of both compared.
use crate::clock::{in_turns, ran};
use crate::music::{Numbers, magnitudes};
use crate::stages::counted;
use oracle::onsets;
use prohunsev as port;

// what original / ours should reach, from the study of a sliding window
fn aim(shape: &str) -> f64 {
    if shape == "flux" { 9.0 } else { 7.0 }
}

fn curve(shape: &str, slots: usize) -> Vec<f64> {
    let mut r = Numbers(7);
    match shape {
        "flux" => {
            let mut flux = vec![0.0; slots];
            port::spectral_flux(&magnitudes(slots, 8, 1), slots, 8, &mut flux).unwrap();
            flux
        }
        "zeros" => vec![0.0; slots],
        "rising" => (0..slots).map(|t| t as f64).collect(),
        "falling" => (0..slots).map(|t| (slots - t) as f64).collect(),
        // with both zeros, which compare as equal
        _ => (0..slots).map(|_| [0.0, -0.0, 1.0, -1.0, 2.0][(5.0 * r.part()) as usize]).collect(),
    }
}

/// The table of thresholds.
pub fn tell(quick: bool) {
    crate::place();
    println!("| threshold of | slots | original ms | ours ms | original / ours | aim | |");
    println!("|---|---|---|---|---|---|---|");
    let sizes = [(8_000, 40), (33_750, 25), (675_000, 5), (1_048_576, 5)];
    for &(slots, rounds) in &sizes[..if quick { 2 } else { 4 }] {
        for shape in ["flux", "zeros", "rising", "falling", "ties of five values"] {
            let (flux, mut threshold, mut work) = (curve(shape, slots), vec![0.0; slots], [0.0; 21]);
            port::adaptive_threshold(&flux, &mut threshold, &mut work).unwrap();
            let same =
                onsets::open::adaptive_threshold(&flux).iter().zip(&threshold).all(|(a, b)| a.to_bits() == b.to_bits());
            assert!(same, "threshold of {shape}: the port's bits are not the Rust's");
            let [rust, ours] = in_turns(
                rounds,
                [&mut || ran(onsets::open::adaptive_threshold(&flux)), &mut || {
                    port::adaptive_threshold(&flux, &mut threshold, &mut work).unwrap()
                }],
            )
            .map(|seconds| 1e3 * seconds);
            let verdict = if rust / ours >= aim(shape) { "reached" } else { "not reached" };
            println!(
                "| {shape} | {} | {rust:.3} | {ours:.3} | {:.2} | {} | {verdict} |",
                counted(slots),
                rust / ours,
                aim(shape)
            );
        }
    }
}
