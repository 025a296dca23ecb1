//! Feature rows, beside the Rust with its transform left out, and beside a mere look at each magnitude and sample: the bits of both compared.
use crate::clock::{in_turns, ran};
use crate::music::{Numbers, RATE, magnitudes};
use crate::stages::counted;
use oracle::structure;
use prohunsev as port;

// what original / ours must reach, from the request for feature rows
const ASKED: f64 = 10.0;

const BINS: usize = port::limits::FEATURE_BINS;

/// Noise, and in each second another level.
fn samples(count: usize) -> Vec<f32> {
    let mut r = Numbers(5);
    (0..count).map(|i| ((0.2 + (i / RATE as usize % 7) as f64 / 10.0) * (r.part() - 0.5)) as f32).collect()
}

// every bit of them, in eight strands
fn looked_at(values: &[f32]) -> [u32; 8] {
    let mut seen = [0; 8];
    for eight in values.chunks_exact(8) {
        seen.iter_mut().zip(eight).for_each(|(seen, x)| *seen |= x.to_bits());
    }
    seen
}

/// Prints the table: at a feature row a second, with the transform's rows of so many seconds.
pub fn tell(quick: bool) {
    crate::place();
    println!(
        "| feature rows | of rows x 2,049, and samples | original ms | ours ms | original / ours | asked | | looked at ms |"
    );
    println!("|---|---|---|---|---|---|---|---|");
    // An hour has 1.4 GB of magnitudes, and of these there are two copies: the Rust's are in rows of their own.
    for &(count, rounds) in &[(180, 15), (3_600, 3)][..if quick { 1 } else { 2 }] {
        let heard = samples(count * RATE as usize);
        let rows = (heard.len() - port::limits::FEATURE_FRAME) / port::limits::FEATURE_HOP + 1;
        let slab = magnitudes(rows, BINS, 1);
        let given = structure::open::stft(slab.chunks(BINS).map(<[f32]>::to_vec).collect(), RATE);
        let mut features = vec![0.0; port::rooms::features(count)];
        port::feature_rows(&slab, rows, &heard, RATE, RATE.into(), count, &mut features).unwrap();
        let bits = |xs: &[f64]| xs.iter().map(|x| x.to_bits()).collect::<Vec<_>>();
        let by_the_rust = || structure::open::feature_vectors(&given, &heard, RATE as usize, count);
        assert!(
            bits(by_the_rust().as_flattened()) == bits(&features),
            "feature rows: the port's bits are not the Rust's"
        );
        let [rust, port, looked] = in_turns(
            rounds,
            [
                &mut || ran(by_the_rust()),
                &mut || port::feature_rows(&slab, rows, &heard, RATE, RATE.into(), count, &mut features).unwrap(),
                &mut || ran((looked_at(&slab), looked_at(&heard))),
            ],
        );
        let (ratio, ms) = (rust / port, |seconds: f64| format!("{:.3}", 1e3 * seconds));
        println!(
            "| {} | {}, {} | {} | {} | {ratio:.2} | {ASKED} | {} | {} |",
            counted(count),
            counted(rows),
            counted(heard.len()),
            ms(rust),
            ms(port),
            if ratio >= ASKED { "reached" } else { "not reached" },
            ms(looked)
        );
    }
}
