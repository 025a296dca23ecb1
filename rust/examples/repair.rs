//! Repairs a track: two minutes of clicks with twenty seconds of noise in them are analysed; the noise is replaced by what was played, and
//! the new grid comes from the mended curves. It equals that of a full run on the repaired rows, bit for bit.
//!
//!     cargo run --release --example repair
//!     cargo run --release --example repair -- --time     ten minutes of 513 bins: a repair's time beside a full run's
use prohunsev::{limits, Analysis, Buffers, Refused, TempoOpts};
use std::time::Instant;

const RATE: u32 = 48_000;
const OPTS: TempoOpts = TempoOpts::new();

// rows in so many seconds
const fn rows_in(seconds: usize) -> usize {
    seconds * RATE as usize / limits::HOP as usize
}

// clicks every 94 rows, 119.7 beats a minute, each ringing for some rows over a floor, the first of a bar the loudest
fn clicks(rows: usize, bins: usize) -> Vec<f32> {
    let mut magnitudes = vec![0.01; rows * bins];
    for (beat, at) in (5..rows).step_by(94).enumerate() {
        let mut loud = if beat % 4 == 0 { 3.0 } else { 1.0 };
        for row in magnitudes[at * bins..].chunks_mut(bins).take(8) {
            row.iter_mut().for_each(|m| *m += loud);
            loud *= 0.5;
        }
    }
    magnitudes
}

// a damaged stretch: noise, louder than the clicks; each value is a hash of its place
fn noise(values: &mut [f32], loud: f32) {
    for (value, place) in values.iter_mut().zip(1_u32..) {
        let x = place.wrapping_mul(2_654_435_761);
        let x = (x ^ x >> 15).wrapping_mul(2_246_822_519);
        *value = ((x ^ x >> 13) >> 8) as f32 / (1 << 24) as f32 * loud;
    }
}

// the answers in numbers, and the first beats from the damage on
fn show(what: &str, track: Analysis, start: usize, past: usize) {
    let tempo = track.tempo.map_or("no tempo".into(), |t| format!("{:.2} bpm, clarity {:.3}", t.bpm, t.clarity));
    let (onsets, beats, downbeats) = (track.onsets.len(), track.beats.len(), track.downbeats.len());
    println!("{what}: {tempo}, {onsets} onsets, {beats} beats, {downbeats} downbeats");
    let there: Vec<String> =
        track.beats.iter().filter(|&&b| (start..past).contains(&(b as usize))).map(u32::to_string).collect();
    println!("  {} beats in the twenty seconds, at rows {} ..", there.len(), there[..there.len().min(8)].join(" "));
}

fn bits(curve: &[f64]) -> impl Iterator<Item = u64> + '_ {
    curve.iter().map(|x| x.to_bits())
}

// analyses, repairs, and holds the repair to a full run
fn repair() -> Result<(), Refused> {
    let (rows, bins, start, count) = (rows_in(120), 16, rows_in(50), rows_in(20));
    let played = clicks(rows, bins);
    let mut magnitudes = played.clone();
    noise(&mut magnitudes[start * bins..][..count * bins], 6.0);

    let mut buffers = Buffers::for_tracks(rows, RATE, OPTS)?;
    let damaged = buffers.analyse_magnitudes(&magnitudes, rows, bins, RATE, OPTS)?;
    show("damaged", damaged, start, start + count);

    // the rows that replace the noise go into `magnitudes`, and the buffers' flux and threshold are mended around them
    let new = &played[start * bins..][..count * bins];
    let patched = buffers.patch_magnitudes(&mut magnitudes, rows, bins, start, new)?;
    let (flux, threshold) = (patched.flux, patched.threshold);
    println!("rows {start} to {} of {rows} replaced", start + count - 1);
    println!(
        "  mended: flux {} to {}, threshold {} to {}",
        flux.start,
        flux.end - 1,
        threshold.start,
        threshold.end - 1
    );

    // the grid, from the mended curves
    show("repaired", buffers.analyse_patched()?, start, start + count);

    let mut full = Buffers::for_tracks(rows, RATE, OPTS)?;
    full.analyse_magnitudes(&magnitudes, rows, bins, RATE, OPTS)?;
    assert_eq!(buffers.analysis(), full.analysis());
    for (mended, whole) in [
        (buffers.flux(), full.flux()),
        (buffers.threshold(), full.threshold()),
        (buffers.clarity(), full.clarity()),
        (buffers.weight(), full.weight()),
    ] {
        assert!(!mended.is_empty() && bits(mended).eq(bits(whole)));
    }
    println!("a full run on the repaired rows: the same answers, lists and curves, bit for bit");
    Ok(())
}

// the least of so many runs, in milliseconds
fn least(mut run: impl FnMut() -> Result<(), Refused>) -> Result<f64, Refused> {
    let mut least = f64::INFINITY;
    for _ in 0..7 {
        let begun = Instant::now();
        run()?;
        least = least.min(begun.elapsed().as_secs_f64() * 1e3);
    }
    Ok(least)
}

fn time() -> Result<(), Refused> {
    let (rows, bins, start, count) = (rows_in(600), 513, rows_in(290), rows_in(20));
    let mut magnitudes = clicks(rows, bins);
    // a floor that isn't flat, as music has
    let mut floor = vec![0.0; rows * bins];
    noise(&mut floor, 0.2);
    magnitudes.iter_mut().zip(floor).for_each(|(m, f)| *m += f);
    let new = magnitudes[start * bins..][..count * bins].to_vec();
    let mut buffers = Buffers::for_tracks(rows, RATE, OPTS)?;
    let full = least(|| buffers.analyse_magnitudes(&magnitudes, rows, bins, RATE, OPTS).map(drop))?;
    let patch = least(|| buffers.patch_magnitudes(&mut magnitudes, rows, bins, start, &new).map(drop))?;
    let grid = least(|| buffers.analyse_patched().map(drop))?;
    let flux = buffers.flux().to_vec();
    let again = least(|| buffers.analyse_envelope(&flux, RATE, OPTS).map(drop))?;
    println!("{rows} rows of {bins} bins, {count} of them replaced; the least of seven runs, ms");
    println!("a full run {full:.1}; a patch {patch:.1} and the new grid {grid:.1}, together {:.1}", patch + grid);
    println!("the grid with thresholds computed again (analyse_envelope) {again:.1}");
    Ok(())
}

fn main() -> Result<(), Refused> {
    match std::env::args().nth(1).as_deref() {
        None => repair(),
        Some("--time") => time(),
        Some(_) => {
            eprintln!("repair [--time]");
            std::process::exit(2)
        }
    }
}
