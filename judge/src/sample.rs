//! The fixed sample that crates/replay runs in the gate: the same inputs, made by the same sequence of whole numbers, answered by the Rust.
use crate::cases::Field::{self, *};
use crate::expected::{self, Expected, flux_of, novelty_of, similarity_of};
use crate::lent::{Slot, poisoned};
use crate::table::{BAND, WIDTH};

fn next(s: u64) -> u64 {
    (s % 2147483646 + 1) * 48271 % 2147483647
}

fn level(kind: u64, t: usize, s: u64) -> f64 {
    match kind {
        0 => (s % 3) as f64,
        1 if t % 5 == 1 => (s % 8) as f64 + 40.0,
        1 => (s % 2) as f64,
        2 => (s % 1000) as f64 / 8.0,
        _ => ((s % 201) as f64 - 100.0) / 16.0,
    }
}

fn curve(n: usize, s: u64) -> Vec<f64> {
    let mut x = s;
    let slot = |t| {
        x = next(x);
        level(s % 4, t, x)
    };
    (0..n).map(slot).collect()
}

fn slab(n: usize, s: u64) -> Vec<f32> {
    let mut x = s;
    let slot = |_| {
        x = next(x);
        (x % 50) as f32
    };
    (0..n).map(slot).collect()
}

fn peaks(s: u64) -> Vec<u32> {
    let mut x = s;
    let slot = |t: u32| {
        x = next(x);
        3 * t + (x % 3) as u32
    };
    (0..12).map(slot).collect()
}

fn size(n: usize) -> Field {
    Whole(n as u64)
}

fn line(label: &str, words: impl IntoIterator<Item = String>) {
    println!("{label}{}", words.into_iter().map(|w| format!(" {w}")).collect::<String>());
}

fn float(bits: u64) -> String {
    format!("{bits:016x}")
}

fn number(n: impl Into<u64>) -> String {
    n.into().to_string()
}

// the first slots of an output that held zeros
fn slots<T: Slot>(e: &Expected, k: usize, n: usize) -> Vec<u64> {
    let was = poisoned::<T>(e.slots[k].bits.len());
    (0..n).map(|i| if e.slots[k].bits[i] == was[i] { 0 } else { e.slots[k].bits[i] }).collect()
}

fn floats(label: &str, e: &Expected, k: usize, n: usize) {
    line(label, [number(e.number)].into_iter().chain(slots::<f64>(e, k, n).into_iter().map(float)));
}

// the entries of a list, its first slots (no list of this sample is refused)
fn list(label: &str, e: &Expected, k: usize) -> Vec<u32> {
    let entries: Vec<u32> = e.slots[k].bits.iter().take(e.answers[0] as usize).map(|&t| t as u32).collect();
    line(label, [number(e.number)].into_iter().chain(entries.iter().map(|&t| number(t))));
    entries
}

fn value(label: &str, e: &Expected) {
    let value = if e.number == 0 { vec![float(e.answers[0])] } else { vec![] };
    line(label, [number(e.number)].into_iter().chain(value));
}

fn curves(s: u64) {
    let all = curve(40, s);
    let n = (next(s) % 41) as usize;
    let rate = Whole(s % 192000 + 1);
    let part = || Reals(all[..n].to_vec());
    value("median", &expected::median_of(&[part(), size(40)]));
    value("mad", &expected::mad_of(&[part(), Real(level(2, 0, s)), size(40)]));
    let threshold = expected::adaptive_threshold(&[part(), size(40), size(21)]);
    floats("threshold", &threshold, 0, n);
    let made = Reals(slots::<f64>(&threshold, 0, n).into_iter().map(f64::from_bits).collect());
    list("onsets", &expected::pick_onsets(&[part(), made, rate.clone(), size(60)]), 0);
    let gap = Whole(s % 21 / 2);
    list("suppressed", &expected::suppress_close_peaks(&[Frames(peaks(s)), Reals(all.clone()), gap, size(60)]), 0);
    floats("times", &expected::frame_times(&[Frames(peaks(s)), rate, size(12)]), 0, 12);
    let rows = || Singles(slab(40, s));
    floats("flux of one bin", &expected::spectral_flux(&[rows(), size(40), size(1), size(40)]), 0, 40);
    floats("flux of five bins", &expected::spectral_flux(&[rows(), size(8), size(5), size(40)]), 0, 8);
}

fn tempos(s: u64) {
    let all = curve(60, s);
    let envelope = || Reals(all.clone());
    let (rate, low, high) = (Whole(s % 5000 + 1), Real(30.0 + level(2, 0, s)), Real(300.0));
    let lags = expected::lag_range(&[rate.clone(), low.clone(), high.clone(), size(4)]);
    line("lags", [number(lags.number), number(lags.answers[0]), number(lags.answers[1])]);
    let room = || size(60);
    let e = expected::estimate(&[envelope(), size(2), rate.clone(), low.clone(), high.clone(), size(4), room(), room(), room()]);
    let found = if e.answers[0] == 1 { vec![float(e.answers[1]), float(e.answers[2])] } else { vec!["none".into()] };
    let pairs = (0..3).flat_map(|k| [number(e.slots[3].bits[k]), float(e.slots[4].bits[k])]);
    line("tempo", [number(e.number)].into_iter().chain(found).chain([number(e.answers[3])]).chain(pairs));
    let lag = if e.answers[3] == 0 { Whole(s % 21) } else { Whole(e.slots[3].bits[0]) };
    let w = expected::stability_of(&[envelope(), rate, low, high, size(4), lag.clone(), room(), room(), room()]);
    let share = || vec![float(w.answers[1]), number(w.answers[2]), number(w.answers[3])];
    line("stability", if w.answers[0] == 1 { share() } else { vec!["none".into()] });
    let grid = expected::beat_grid(&[envelope(), lag, room(), room(), room()]);
    let beats = list("beats", &grid, 2);
    line("last score", [float(slots::<f64>(&grid, 0, 60)[59])]);
    list("downbeats", &expected::downbeats(&[envelope(), Frames(beats), size(4), room()]), 0);
    let at = expected::bar_beat_at(&[Real(level(s % 4, 1, next(s))), Reals(curve(7, s)), Reals(curve(30, s))]);
    line("at", if at.answers[0] == 1 { vec![number(at.answers[1]), number(at.answers[2])] } else { vec!["nowhere".into()] });
}

fn sections(novelty: Vec<f64>, s: u64) {
    let length = 12000 * (s % 16 + 1);
    let e = expected::boundaries(&[Reals(novelty), Whole(length), Whole(48000), Whole(s % 4 + 1), size(60), size(60)]);
    let rows: Vec<u32> = e.slots[0].bits.iter().take(e.answers[1] as usize).map(|&t| t as u32).collect();
    let told = [number(e.number), number(e.answers[0]), float(e.answers[2])];
    line("sections", told.into_iter().chain(rows.iter().map(|&t| number(t))));
    floats("first time", &expected::boundary_times(&[Frames(rows), Whole(length), Whole(48000), size(60)]), 0, 1);
}

fn forms(s: u64) {
    let rows = (next(s) % 21) as usize;
    let features = curve(320, s)[..WIDTH * rows].to_vec();
    floats("similarity", &expected::similarity(&[Reals(features.clone()), size(rows), size(340)]), 0, 34);
    let similarity = similarity_of(&features);
    floats("novelty", &expected::novelty(&[Reals(similarity.clone()), size(rows), size(20)]), 0, rows);
    sections(novelty_of(&similarity, rows), s);
    sections(curve(40, s), s);
}

fn patched(label: &str, e: &Expected) {
    let named = if e.number == 0 { e.answers.iter().map(|&n| number(n)).collect() } else { vec![] };
    line(label, [number(e.number)].into_iter().chain(named));
}

fn after(label: &str, e: &Expected, k: usize) {
    line(label, e.slots[k].bits.iter().map(|&b| float(b)));
}

fn repairs(s: u64) {
    let rows = slab(40, s);
    let flux = flux_of(&rows, 40, 1);
    let threshold = oracle::onsets::open::adaptive_threshold(&flux);
    let e = expected::patch_magnitudes(&[
        Singles(rows),
        size(40),
        size(1),
        Whole(s % 41),
        Singles(slab(20, next(s))),
        Reals(flux),
        Reals(threshold),
        size(21),
    ]);
    patched("patch", &e);
    after("patched flux", &e, 1);
    after("patched threshold", &e, 2);
    let lent = curve(20 * WIDTH, s);
    let similarity = similarity_of(&lent);
    assert_eq!(similarity.len(), 20 * BAND);
    let novelty = novelty_of(&similarity, 20);
    let e = expected::patch_features(&[Reals(lent), size(20), Whole(s % 21), Reals(curve(48, next(s))), Reals(similarity), Reals(novelty)]);
    patched("feature patch", &e);
    after("patched novelty", &e, 2);
}

pub fn print() {
    let mut s = 1;
    for _ in 0..100 {
        s = next(s);
        curves(s);
        tempos(s);
        forms(s);
        repairs(s);
    }
}
