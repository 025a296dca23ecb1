//! Whole tracks: the calls one after the other, as a worker makes them, and the one call that makes them all, against the Rust's own whole
//! run.
//!
//! Here the Rust is not taken apart: onsets by `analyze_stft`, tempo, candidates, stability, beats and downbeats by `estimate_from_parts`, for
//! another meter than its own by the copy of it that has that number in the place of its 4, and which with 4 must say the same;
//! sections by the functions that `detect_structure` calls, from feature rows on.
use crate::cases::Field::{self, *};
use crate::expected;
use crate::numbers::{Numbers, features, magnitudes, open_bpm};
use crate::port::{self, Outcome};
use crate::table::BAND;
use oracle::structure::StructureOpts;
use oracle::tempo::{DEFAULT_BEATS_PER_BAR, TempoOpts};
use oracle::{onsets, structure, tempo};

fn size(n: usize) -> Field {
    Whole(n as u64)
}
fn reals(bits: &[u64]) -> Vec<f64> {
    bits.iter().map(|&b| f64::from_bits(b)).collect()
}
fn frames(bits: &[u64]) -> Vec<u32> {
    bits.iter().map(|&b| b as u32).collect()
}
fn bits(xs: &[f64]) -> Vec<u64> {
    xs.iter().map(|x| x.to_bits()).collect()
}

// the calls of one track, counted; a refusal is a difference, since a track's own curves are never refused
struct Worker {
    calls: u64,
    refused: bool,
}

impl Worker {
    fn call(&mut self, f: fn(&[Field]) -> Outcome, fields: Vec<Field>) -> Outcome {
        self.calls += 1;
        let outcome = f(&fields);
        self.refused |= outcome.number != 0 || outcome.harm;
        outcome
    }

    fn times(&mut self, list: Vec<u32>, rate: u32) -> Vec<u64> {
        let n = list.len();
        self.call(port::frame_times, vec![Frames(list), Whole(rate.into()), size(n)]).slots.remove(0)
    }
}

/// What a track's analysis is, in bits, by either side: onset times; tempo and clarity; candidates' tempos and saliences; stability;
/// beat times; downbeat times.
type Analysis = [Vec<u64>; 6];

fn by_the_rust(slab: &[f32], bins: usize, rate: u32, opts: &TempoOpts, meter: Option<usize>) -> Analysis {
    let stft = onsets::open::stft(slab.chunks(bins).map(|row| row.to_vec()).collect(), rate);
    let heard = onsets::open::analyze_stft(&stft);
    let report = match meter {
        None => tempo::open::estimate_from_parts(&stft, &heard, rate, opts),
        Some(meter) => tempo::bars::estimate_from_parts(&stft, &heard, rate, opts, meter),
    };
    [
        bits(&heard.times_ms),
        report.bpm.map_or(vec![], |bpm| vec![bpm.to_bits(), report.confidence.to_bits()]),
        report.candidates.iter().flat_map(|c| [c.bpm.to_bits(), c.salience.to_bits()]).collect(),
        report.stability.map_or(vec![], |s| vec![s.to_bits()]),
        bits(&report.beats_ms),
        bits(&report.downbeats_ms),
    ]
}

// the options as the calls take them
fn options(opts: &TempoOpts, meter: usize) -> [Field; 3] {
    [Real(opts.min_bpm), Real(opts.max_bpm), size(meter)]
}

fn by_the_port(w: &mut Worker, slab: &[f32], rows: usize, bins: usize, rate: u32, opts: &[Field; 3]) -> Analysis {
    let hertz = Whole(rate.into());
    let flux = w.call(port::spectral_flux, vec![Singles(slab.to_vec()), size(rows), size(bins), size(rows)]);
    let flux = reals(&flux.slots[0]);
    let envelope = || Reals(flux.clone());
    let threshold = w.call(port::adaptive_threshold, vec![envelope(), size(rows), size(rows.min(21))]);
    let threshold = reals(&threshold.slots[0]);
    let picked = w.call(port::pick_onsets, vec![envelope(), Reals(threshold), hertz.clone(), size(rows)]);
    let heard = frames(&picked.slots[0][..picked.answers[0] as usize]);
    let lags = w.call(port::lag_range, [&[hertz.clone()][..], opts].concat());
    let count = Whole(lags.answers[1] - lags.answers[0] + 1);
    let rooms = [count.clone(), count.clone(), count.clone()];
    let onset_count = size(heard.len());
    let fields = [&[envelope(), onset_count, hertz.clone()][..], opts, &rooms].concat();
    let found = w.call(port::estimate, fields);
    let mut out = [w.times(heard, rate), vec![], vec![], vec![], vec![], vec![]];
    if found.answers[0] == 1 {
        out[1] = found.answers[1..3].to_vec();
        for k in 0..found.answers[3] as usize {
            let bpm = tempo::open::frame_rate(rate) * 60.0 / found.slots[3][k] as f64;
            out[2].extend([bpm.to_bits(), found.slots[4][k]]);
        }
        let lag = Whole(found.slots[3][0]);
        let fields = [&[envelope(), hertz][..], opts, &[lag.clone()], &rooms].concat();
        let steady = w.call(port::stability_of, fields);
        if steady.answers[0] == 1 {
            out[3] = vec![steady.answers[1]];
        }
        let grid = w.call(port::beat_grid, vec![envelope(), lag, size(rows), size(rows), size(rows)]);
        let beats = frames(&grid.slots[2][..grid.answers[0] as usize]);
        let bars = w.call(port::downbeats, vec![envelope(), Frames(beats.clone()), opts[2].clone(), size(beats.len())]);
        let bars = frames(&bars.slots[0][..bars.answers[0] as usize]);
        out[4] = w.times(beats, rate);
        out[5] = w.times(bars, rate);
    }
    out
}

// the same by the one call that does it all
fn by_one_call(w: &mut Worker, slab: &[f32], rows: usize, bins: usize, rate: u32, opts: &[Field; 3]) -> Analysis {
    let hertz = Whole(rate.into());
    let room = w.call(port::room_of, [&[size(rows), hertz.clone()][..], opts].concat());
    let (n, l, sorting) = (Whole(room.answers[0]), Whole(room.answers[1]), Whole(room.answers[2]));
    let input = [&[Singles(slab.to_vec()), size(rows), size(bins), hertz][..], opts, &[n.clone()]].concat();
    let rooms = [vec![n.clone(); 2], vec![l; 4], vec![n; 4], vec![sorting]].concat();
    let a = w.call(port::analyse_magnitudes, [input, rooms].concat());
    let list = |k: usize, count: u64| frames(&a.slots[k][..count as usize]);
    let mut out = [w.times(list(2, a.answers[0]), rate), vec![], vec![], vec![], vec![], vec![]];
    if a.answers[1] == 1 {
        out[1] = a.answers[2..4].to_vec();
        for k in 0..a.answers[4] as usize {
            let bpm = tempo::open::frame_rate(rate) * 60.0 / a.slots[12][k] as f64;
            out[2].extend([bpm.to_bits(), a.slots[13][k]]);
        }
        if a.answers[5] == 1 {
            out[3] = vec![a.answers[6]];
        }
        out[4] = w.times(list(9, a.answers[9]), rate);
        out[5] = w.times(list(10, a.answers[10]), rate);
    }
    out
}

/// One track in bars of so many beats: calls made, and what differs.
pub fn track(r: &mut Numbers, meter: usize) -> (u64, Option<String>) {
    let bins = r.size(1, 6);
    let (rate, rows) = if r.once_in(3) { (48_000, r.size(340, 1_700)) } else { (r.whole(1, 9_000) as u32, r.size(0, 400)) };
    let mut slab = magnitudes(r, rows, bins);
    if r.once_in(2) {
        // music: a steady beat with jitter over noise, or two tempos one after the other
        let (one, two) = (r.size(20, 200) as f64, r.size(20, 200) as f64);
        let turn = if r.once_in(2) { rows } else { rows / 2 };
        let mut at = r.real(0.0, one);
        let mut level = vec![0.0; rows];
        while (at as usize) < rows {
            let t = (at + r.real(0.0, 1.5)) as usize;
            for k in 0..4 {
                if t + k < rows {
                    level[t + k] += 30.0 * 0.3f64.powi(k as i32);
                }
            }
            at += if (at as usize) < turn { one } else { two };
        }
        slab = (0..rows * bins).map(|i| (level[i / bins] + r.part() * 0.2) as f32).collect();
    }
    let (min_bpm, max_bpm) = match r.whole(0, 7) {
        0 | 1 => (r.real(20.0, 300.0), r.real(20.0, 300.0)),
        2 | 3 => open_bpm(r),
        _ => (30.0, 300.0),
    };
    let opts = TempoOpts { min_bpm, max_bpm };
    let mut w = Worker { calls: 0, refused: false };
    let lent = options(&opts, meter);
    let is = by_the_port(&mut w, &slab, rows, bins, rate, &lent);
    let at_once = by_one_call(&mut w, &slab, rows, bins, rate, &lent);
    let must = by_the_rust(&slab, bins, rate, &opts, (meter != DEFAULT_BEATS_PER_BAR).then_some(meter));
    let names = ["onset times", "tempo", "candidates", "stability", "beat times", "downbeat times"];
    let unlike = (0..6).find(|&k| is[k] != must[k] || at_once[k] != must[k]).map(|k| names[k]);
    let copied = || meter == DEFAULT_BEATS_PER_BAR && must != by_the_rust(&slab, bins, rate, &opts, Some(meter));
    let wrong = unlike.or(w.refused.then_some("a refusal")).or(copied().then_some("the Rust's copy with a number in the place of its 4"));
    let bounds = (opts.min_bpm, opts.max_bpm);
    let what = |name| format!("{name}, rate {rate}, {bins} bins, bounds {bounds:?}, meter {meter}, rows {slab:?}");
    (w.calls, wrong.map(what))
}

/// The sections of some feature rows: calls made, and what differs.
pub fn sections(r: &mut Numbers) -> (u64, Option<String>) {
    let rows = r.size(0, 150);
    let lent = features(r, rows);
    let (length, rate, most) = (r.of(&[48_000u64, 24_000, 96_000, 12_345]), 48_000u32, r.size(0, 8));
    let mut w = Worker { calls: 0, refused: false };
    let alike = w.call(port::similarity, vec![Reals(lent.clone()), size(rows), size(rows * BAND)]);
    let novel = w.call(port::novelty, vec![Reals(reals(&alike.slots[0])), size(rows), size(rows)]);
    let curve = Reals(reals(&novel.slots[0]));
    let cut = w.call(port::boundaries, vec![curve, Whole(length), Whole(rate.into()), size(most), size(rows), size(rows)]);
    let picked = frames(&cut.slots[0][..cut.answers[1] as usize]);
    let room = size(picked.len());
    let ms = w.call(port::boundary_times, vec![Frames(picked), Whole(length), Whole(rate.into()), room]);

    let novelty = expected::novelty_of(&expected::similarity_of(&lent), rows);
    let opts = StructureOpts::default().with_max_sections(most);
    let report = structure::open::sections(&novelty, length as usize, rate, &opts, &mut vec![]);
    let same = bits(&report.boundaries_ms) == ms.slots[0]
        && report.section_count as u64 == cut.answers[0]
        && report.confidence.to_bits() == cut.answers[2]
        && !w.refused;
    (w.calls, (!same).then(|| format!("sections, length {length}, most {most}, rows {lent:?}")))
}
