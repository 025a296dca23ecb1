//! The inputs: for each call every small one of some kind, and random ones of every length around each boundary.
use crate::cases::Field::{self, *};
use crate::expected;
use crate::formats;
use crate::labels;
use crate::numbers::*;
use crate::table::{BAND, MOST_FEATURE_ROWS, MOST_FRAME, MOST_MAGNITUDE, MOST_ROWS, MOST_VALUE, RATE, WIDTH};

pub type Fields = Vec<Field>;

fn room_field(r: &mut Numbers, need: usize) -> Field {
    Whole(room(r, need) as u64)
}

fn size(n: usize) -> Field {
    Whole(n as u64)
}

// the usual meter; `other_meters` and main.rs have the others
const FOUR: Field = Whole(4);

// every list over these values up to a length
fn lists<T: Copy>(values: &[T], most: usize, each: &mut dyn FnMut(&[T])) {
    fn go<T: Copy>(values: &[T], list: &mut Vec<T>, most: usize, each: &mut dyn FnMut(&[T])) {
        each(list);
        if list.len() < most {
            for &x in values {
                list.push(x);
                go(values, list, most, each);
                list.pop();
            }
        }
    }
    go(values, &mut Vec::new(), most, each);
}

// a curve, damaged at times
fn lent_curve(r: &mut Numbers, n: usize) -> Vec<f64> {
    let mut xs = curve(r, n);
    if r.once_in(12) {
        damage(r, &mut xs);
    }
    xs
}

// around the threshold's windows, the least lengths, and plain ones
fn length(r: &mut Numbers) -> usize {
    match r.whole(0, 9) {
        0..=2 => r.size(0, 6),
        3..=5 => r.size(7, 24),
        6..=7 => r.size(25, 60),
        8 => r.size(61, 200),
        _ => r.size(200, 500),
    }
}

// ---- medians

pub fn all_medians(each: &mut dyn FnMut(Fields)) {
    lists(&[-1.0, -0.0, 0.0, 1.0, 2.0], 6, &mut |xs| each(vec![Reals(xs.to_vec()), size(xs.len())]));
}

pub fn median_of(r: &mut Numbers) -> Fields {
    let n = length(r);
    vec![Reals(lent_curve(r, n)), room_field(r, n)]
}

pub fn all_mads(each: &mut dyn FnMut(Fields)) {
    for median in [-0.0, 0.0, 1.0, 0.5] {
        lists(&[-1.0, -0.0, 0.0, 1.0], 6, &mut |xs| each(vec![Reals(xs.to_vec()), Real(median), size(xs.len())]));
    }
}

pub fn mad_of(r: &mut Numbers) -> Fields {
    let n = length(r);
    let values = lent_curve(r, n);
    let mut median = [if n == 0 { 0.0 } else { values[r.size(0, n - 1)] }];
    if r.once_in(3) {
        median[0] = r.any_size(149);
    }
    if r.once_in(12) {
        damage(r, &mut median);
    }
    vec![Reals(values), Real(median[0]), room_field(r, n)]
}

// ---- onsets

pub fn all_fluxes(each: &mut dyn FnMut(Fields)) {
    for bins in 1..=2usize {
        lists(&[0.0f32, -0.0, 1.0, 3.0], 8, &mut |xs| {
            if xs.len() % bins == 0 {
                let rows = xs.len() / bins;
                each(vec![Singles(xs.to_vec()), size(rows), size(bins), size(rows + 1)]);
            }
        });
    }
}

pub fn spectral_flux(r: &mut Numbers) -> Fields {
    let (rows, bins) = (if r.once_in(4) { r.size(0, 60) } else { r.size(0, 12) }, r.size(1, 40));
    let mut xs = magnitudes(r, rows, bins);
    if r.once_in(12) {
        damage_singles(r, &mut xs);
    }
    if r.once_in(30) {
        xs.pop();
    }
    if r.once_in(30) {
        xs.push(1.0);
    }
    let rows_said = if r.once_in(60) { r.of(&[rows + 1, MOST_ROWS + 1, usize::MAX, usize::MAX / bins + 1]) } else { rows };
    let bins_said = if r.once_in(60) { r.of(&[0, bins + 1, 4096, 4097, usize::MAX]) } else { bins };
    vec![Singles(xs), size(rows_said), size(bins_said), room_field(r, rows)]
}

pub fn all_thresholds(each: &mut dyn FnMut(Fields)) {
    lists(&[0.0, 1.0, 3.0], 9, &mut |xs| each(vec![Reals(xs.to_vec()), size(xs.len() + 1), size(xs.len() + 1)]));
}

pub fn adaptive_threshold(r: &mut Numbers) -> Fields {
    let n = length(r);
    vec![Reals(lent_curve(r, n)), room_field(r, n), room_field(r, n.min(21))]
}

pub fn all_onsets(each: &mut dyn FnMut(Fields)) {
    lists(&[0.0, 1.0, 2.0], 5, &mut |flux| {
        lists(&[0.0, 1.0], flux.len(), &mut |threshold| {
            if threshold.len() == flux.len() {
                for rate in [1, 8534, 17067] {
                    each(vec![Reals(flux.to_vec()), Reals(threshold.to_vec()), Whole(rate), size(flux.len() + 1)]);
                }
            }
        });
    });
}

pub fn pick_onsets(r: &mut Numbers) -> Fields {
    let n = length(r);
    let flux = lent_curve(r, n);
    let fine = flux.iter().all(|x| x.abs() <= MOST_VALUE);
    let mut threshold = match r.whole(0, 3) {
        0 if fine => oracle::onsets::open::adaptive_threshold(&flux),
        1 => curve(r, n),
        _ => (0..n).map(|_| r.of(&[-1.0, 0.0, 0.5])).collect(),
    };
    if r.once_in(15) {
        damage(r, &mut threshold);
    }
    if r.once_in(20) {
        threshold.push(0.0);
    }
    if r.once_in(20) {
        threshold.pop();
    }
    vec![Reals(flux), Reals(threshold), Whole(rate(r)), room_field(r, n)]
}

pub fn all_peaks(each: &mut dyn FnMut(Fields)) {
    for gap in 0..5u64 {
        for set in 0..64u32 {
            let peaks: Vec<u32> = (0..6).filter(|t| set >> t & 1 == 1).collect();
            lists(&[0.0, 1.0, 2.0], 6, &mut |curve| {
                // values matter only at the peaks: leave out the curves that differ elsewhere
                let idle = |t: usize| set >> t & 1 == 0 && curve[t] != 0.0;
                if curve.len() == 6 && !(0..6).any(idle) {
                    each(vec![Frames(peaks.clone()), Reals(curve.to_vec()), Whole(gap), size(peaks.len() + 1)]);
                }
            });
        }
    }
}

pub fn suppress_close_peaks(r: &mut Numbers) -> Fields {
    let n = length(r);
    let curve = lent_curve(r, n);
    let sparse = r.whole(1, 6);
    let mut peaks: Vec<u32> = (0..n as u32).filter(|_| r.once_in(sparse)).collect();
    if r.once_in(25) && !peaks.is_empty() {
        let i = r.size(0, peaks.len() - 1);
        peaks[i] = r.of(&[0, n as u32, u32::MAX, MOST_FRAME + 1, peaks[i] + 1]);
    }
    let gap = match r.whole(0, 20) {
        0 => u64::MAX,
        1 => r.whole(0, 100),
        _ => r.whole(0, 9),
    };
    let need = peaks.len();
    vec![Frames(peaks), Reals(curve), Whole(gap), room_field(r, need)]
}

pub fn all_times(each: &mut dyn FnMut(Fields)) {
    for rate in (1..=192_000).step_by(19) {
        each(vec![Frames(vec![0, 1, 2, 3, 100, 12_345, MOST_FRAME]), Whole(rate), size(7)]);
    }
}

pub fn frame_times(r: &mut Numbers) -> Fields {
    let n = r.size(0, 12);
    let mut frames: Vec<u32> = (0..n).map(|_| r.whole(0, MOST_FRAME.into()) as u32).collect();
    if r.once_in(15) && n > 0 {
        frames[r.size(0, n - 1)] = r.of(&[MOST_FRAME, MOST_FRAME + 1, u32::MAX]);
    }
    vec![Frames(frames), Whole(rate(r)), room_field(r, n)]
}

// ---- tempo

pub fn all_lag_ranges(each: &mut dyn FnMut(Fields)) {
    for rate in 0..=192_001 {
        each(vec![Whole(rate), Real(30.0), Real(300.0), FOUR]);
    }
    for low in 0..200 {
        for high in 0..200 {
            each(vec![Whole(48_000), Real(low as f64), Real(high as f64), FOUR]);
        }
    }
}

pub fn lag_range(r: &mut Numbers) -> Fields {
    let (low, high) = bpm(r);
    vec![Whole(rate(r)), Real(low), Real(high), FOUR]
}

// the lags of a search, some where its rate is refused
fn lags(rate: u64, (low, high): (f64, f64)) -> (usize, usize) {
    if RATE.contains(&rate) { expected::lags(rate as u32, low, high) } else { (1, 9) }
}

fn lag_rooms(r: &mut Numbers, rate: u64, bpm: (f64, f64)) -> [usize; 3] {
    let (min, max) = lags(rate, bpm);
    [0; 3].map(|_| room(r, max - min + 1))
}

pub fn all_tempos(each: &mut dyn FnMut(Fields)) {
    for rate in [1, 512, 900] {
        lists(&[0.0, 1.0, 3.0], 8, &mut |xs| {
            each(vec![Reals(xs.to_vec()), Whole(2), Whole(rate), Real(30.0), Real(300.0), FOUR, size(9), size(8), size(7)])
        });
    }
    lists(&FAINT, 5, &mut |xs| {
        each(vec![Reals(faint(1.0, 4, xs)), Whole(2), Whole(512), Real(30.0), Real(300.0), FOUR, size(4), size(5), size(4)])
    });
}

// Between a great value and its opposite, whose mean is 0, values whose products are the least floats: neighbouring lags then have equal
// weights, and some clarities are -0.
fn faint(great: f64, rest: usize, between: &[f64]) -> Vec<f64> {
    let rest = vec![0.0; rest];
    [&[great][..], &rest, between, &rest, &[-great]].concat()
}

const FAINT: [f64; 5] = [0.0, f64::from_bits(486 << 52), -f64::from_bits(486 << 52), f64::from_bits(487 << 52), -f64::from_bits(487 << 52)];

// a rate with few lags, and envelopes on both sides of max_lag + 1
fn search(r: &mut Numbers) -> (Vec<f64>, u64, (f64, f64)) {
    if r.once_in(8) {
        let (rate, bpm) = (r.whole(1, 1_500), (30.0, 300.0));
        let max = lags(rate, bpm).1;
        let between: Vec<f64> = (0..r.size(2, 40)).map(|_| r.of(&FAINT)).collect();
        return (faint(r.of(&[1.0, 2.0, 4.0, 1e3]), max, &between), rate, bpm);
    }
    let mut rate = if r.once_in(12) { rate(r) } else { r.whole(1, 9_000) };
    let bpm = if r.once_in(3) { bpm(r) } else { (30.0, 300.0) };
    let mut max = lags(rate, bpm).1;
    if max > 1_500 {
        rate = r.whole(1, 300);
        max = lags(rate, bpm).1;
    }
    let n = match r.whole(0, 9) {
        0 => r.size(0, 5),
        1..=2 => (max + r.size(0, 4)).saturating_sub(1),
        3..=5 => max + r.size(2, 60),
        6..=7 => (2 * max + r.size(0, 9)).min(3_000),
        _ => r.size(4, 9) * (max + 2) / 2,
    };
    (lent_curve(r, n.min(4_000)), rate, bpm)
}

pub fn estimate(r: &mut Numbers) -> Fields {
    let (envelope, rate, bpm) = search(r);
    let onsets = r.of(&[0, 1, 2, 2, 2, 3, 9, 100, u64::MAX]);
    let [a, b, c] = lag_rooms(r, rate, bpm);
    vec![Reals(envelope), Whole(onsets), Whole(rate), Real(bpm.0), Real(bpm.1), FOUR, size(a), size(b), size(c)]
}

pub fn all_stabilities(each: &mut dyn FnMut(Fields)) {
    for whole_lag in 0..4u64 {
        lists(&[0.0, 1.0, 3.0], 9, &mut |xs| {
            if xs.len() >= 7 {
                each(vec![Reals(xs.to_vec()), Whole(1), Real(30.0), Real(300.0), FOUR, Whole(whole_lag), size(3), size(2), size(4)])
            }
        });
    }
}

pub fn stability_of(r: &mut Numbers) -> Fields {
    let (envelope, rate, bpm) = search(r);
    let (min, max) = lags(rate, bpm);
    let whole_lag = match r.whole(0, 30) {
        0 => r.of(&[0, 45_000, 45_001, u64::MAX]),
        1..=5 => r.whole(1, 4 * max as u64),
        _ => r.whole(min as u64, max as u64),
    };
    let [a, b, c] = lag_rooms(r, rate, bpm);
    vec![Reals(envelope), Whole(rate), Real(bpm.0), Real(bpm.1), FOUR, Whole(whole_lag), size(a), size(b), size(c)]
}

// ---- beats and bars

pub fn all_grids(each: &mut dyn FnMut(Fields)) {
    for period in 0..6u64 {
        lists(&[0.0, 1.0, 4.0], 8, &mut |xs| {
            each(vec![Reals(xs.to_vec()), Whole(period), size(xs.len() + 1), size(xs.len() + 2), size(xs.len())])
        });
    }
}

pub fn beat_grid(r: &mut Numbers) -> Fields {
    let n = if r.once_in(20) { r.size(200, 1_200) } else { r.size(0, 120) };
    // a period above 2,048 has no table, and half of it has to fit for a frame to have earlier ones to choose from
    let untabled = r.once_in(60);
    let n = if untabled { r.size(1_100, 1_200) } else { n };
    let period = match r.whole(0, 30) {
        _ if untabled => r.of(&[2_047, 2_048, 2_049, 2_100]),
        0 => r.of(&[0, 45_000, 45_001, u64::MAX, 44_999]),
        1..=3 => r.whole(n as u64 / 3, 2 * n as u64 + 2),
        4..=6 => r.whole(60, 110),
        _ => r.whole(1, 30),
    };
    vec![Reals(lent_curve(r, n)), Whole(period), room_field(r, n), room_field(r, n), room_field(r, n)]
}

pub fn all_downbeats(each: &mut dyn FnMut(Fields)) {
    lists(&[-1.0, 0.0, 2.0], 3, &mut |envelope| {
        lists(&[0u32, 1, 2, 3], 6, &mut |beats| {
            if envelope.len() == 3 {
                each(vec![Reals(envelope.to_vec()), Frames(beats.to_vec()), FOUR, size(beats.len())]);
            }
        })
    });
}

pub fn downbeats(r: &mut Numbers) -> Fields {
    let n = length(r);
    let envelope = lent_curve(r, n);
    let count = r.size(0, 30);
    let mut beats: Vec<u32> = (0..count).map(|_| r.whole(0, n as u64 + 2) as u32).collect();
    if r.once_in(2) {
        beats.sort_unstable();
    }
    if r.once_in(20) && count > 0 {
        beats[r.size(0, count - 1)] = r.of(&[MOST_FRAME, MOST_FRAME + 1, u32::MAX]);
    }
    vec![Reals(envelope), Frames(beats), FOUR, room_field(r, count)]
}

pub fn all_bars(each: &mut dyn FnMut(Fields)) {
    let slack = 0.000001;
    for time in [0.0, 1.0, 1.0 - slack, f64::NAN, f64::INFINITY, f64::NEG_INFINITY] {
        lists(&[0.0, 1.0, 1.0 + slack, f64::NAN, f64::INFINITY], 3, &mut |downbeats| {
            lists(&[0.0, 1.0, -slack, f64::NAN, f64::NEG_INFINITY], 3, &mut |beats| {
                each(vec![Real(time), Reals(downbeats.to_vec()), Reals(beats.to_vec())])
            })
        });
    }
}

pub fn bar_beat_at(r: &mut Numbers) -> Fields {
    let step = r.of(&[1.0, 0.000001, 333.3, 1e-300, 1e300]);
    let times = |r: &mut Numbers, most: usize| -> Vec<f64> {
        let n = r.size(0, most);
        let mut xs: Vec<f64> = (0..n).map(|_| r.whole(0, 20) as f64 * step).collect();
        if r.once_in(2) {
            xs.sort_by(f64::total_cmp);
        }
        xs
    };
    let downbeats = times(r, 8);
    let beats = times(r, 30);
    let time = match r.whole(0, 3) {
        0 => f64::from_bits(r.next()),
        1 => r.real(-1.0, 21.0) * step,
        _ => r.whole(0, 20) as f64 * step + r.of(&[0.0, 0.000001, -0.000001, -0.0000010000000000000002]),
    };
    vec![Real(time), Reals(downbeats), Reals(beats)]
}

// ---- sections

pub fn all_similarities(each: &mut dyn FnMut(Fields)) {
    lists(&[0.0, -0.0, 1.0, -1.0], 6, &mut |xs| {
        if xs.len() % 2 == 0 {
            let rows = xs.len() / 2;
            let mut features = vec![0.0; rows * WIDTH];
            for (i, x) in xs.iter().enumerate() {
                features[i / 2 * WIDTH + i % 2 * 15] = *x;
            }
            each(vec![Reals(features), size(rows), size(rows * BAND + 1)]);
        }
    });
}

fn feature_rows(r: &mut Numbers) -> usize {
    match r.whole(0, 5) {
        0 => r.size(0, 3),
        1..=3 => r.size(4, 22),
        // some span more than one block of 112 rows
        _ if r.once_in(8) => r.size(105, 240),
        _ => r.size(23, 60),
    }
}

pub fn similarity(r: &mut Numbers) -> Fields {
    let rows = feature_rows(r);
    let mut xs = features(r, rows);
    if r.once_in(12) {
        damage(r, &mut xs);
    }
    if r.once_in(30) {
        xs.push(1.0);
    }
    if r.once_in(30) {
        xs.pop();
    }
    let said = if r.once_in(40) { r.of(&[rows + 1, MOST_FEATURE_ROWS + 1, usize::MAX]) } else { rows };
    vec![Reals(xs), size(said), room_field(r, rows * BAND)]
}

pub fn all_novelties(each: &mut dyn FnMut(Fields)) {
    // one pair at a time: each slot of the kernel
    for rows in 1..=20usize {
        for slot in 0..rows * BAND {
            for level in [1.0, -0.5] {
                let mut xs = vec![0.0; rows * BAND];
                xs[slot] = level;
                each(vec![Reals(xs), size(rows), size(rows + 1)]);
            }
        }
    }
}

pub fn novelty(r: &mut Numbers) -> Fields {
    let rows = feature_rows(r);
    let mut xs = match r.whole(0, 2) {
        0 => (0..rows * BAND).map(|_| r.real(-1.0, 1.0)).collect(),
        1 => (0..rows * BAND).map(|_| r.of(&[0.0, -0.0, 1.0, -1.0, 1e-310])).collect(),
        _ => {
            let xs = features(r, rows);
            expected::similarity_of(&xs)
        }
    };
    if r.once_in(10) && !xs.is_empty() {
        let i = r.of(&[0, xs.len() - 1, xs.len() / 2]);
        xs[i] = r.of(&[1.0, -1.0, 1.0 + f64::EPSILON, -1.0 - f64::EPSILON, f64::NAN, f64::INFINITY, 2.0]);
    }
    if r.once_in(30) {
        xs.push(0.0);
    }
    if r.once_in(30) {
        xs.pop();
    }
    let said = if r.once_in(40) { r.of(&[rows + 1, MOST_FEATURE_ROWS + 1, usize::MAX]) } else { rows };
    vec![Reals(xs), size(said), room_field(r, rows)]
}

pub fn all_boundaries(each: &mut dyn FnMut(Fields)) {
    // every set of peaks at the odd ones of sixteen rows, of heights 1 to 3
    for set in 0..1u32 << 8 {
        for most in 0..5u64 {
            for length in [24_000, 96_000] {
                let xs = (0..16).map(|t| if t % 2 == 1 && set >> (t / 2) & 1 == 1 { 1.0 + (t % 3) as f64 } else { 0.0 });
                each(vec![Reals(xs.collect()), Whole(length), Whole(48_000), Whole(most), size(17), size(16)]);
            }
        }
    }
}

pub fn boundaries(r: &mut Numbers) -> Fields {
    let n = if r.once_in(4) { r.size(0, 17) } else { r.size(14, 80) };
    let novelty = lent_curve(r, n);
    let length = match r.whole(0, 30) {
        0 => r.of(&[0, 1, 1 << 31, (1 << 31) + 1, u64::MAX]),
        1..=10 => 48_000,
        11..=20 => r.whole(1, 200_000),
        _ => 48_000 * r.whole(1, 9),
    };
    let most = r.of(&[0, 1, 2, 3, 4, 5, 12, u64::MAX]);
    vec![Reals(novelty), Whole(length), Whole(rate(r)), Whole(most), room_field(r, n), room_field(r, n)]
}

pub fn all_row_times(each: &mut dyn FnMut(Fields)) {
    for rate in (1..=192_000).step_by(37) {
        for length in [1, 48_000, 1 << 31] {
            each(vec![Frames(vec![0, 1, 2, 3, 12_345, 49_999]), Whole(length), Whole(rate), size(6)]);
        }
    }
}

pub fn boundary_times(r: &mut Numbers) -> Fields {
    let n = r.size(0, 10);
    let mut rows: Vec<u32> = (0..n).map(|_| r.whole(0, 49_999) as u32).collect();
    if r.once_in(15) && n > 0 {
        rows[r.size(0, n - 1)] = r.of(&[49_999, 50_000, u32::MAX]);
    }
    let length = if r.once_in(15) { r.of(&[0, 1, 1 << 31, (1 << 31) + 1, u64::MAX]) } else { r.whole(1, 1 << 31) };
    vec![Frames(rows), Whole(length), Whole(rate(r)), room_field(r, n)]
}

// ---- patches on any curves (patches.rs has runs of them)

fn start_and_count(r: &mut Numbers, rows: usize) -> (usize, usize) {
    let start = match r.whole(0, 12) {
        0 => rows,
        1 => rows + r.size(1, 3),
        2 => 0,
        _ => r.size(0, rows),
    };
    let most = rows.saturating_sub(start);
    let count = match r.whole(0, 12) {
        0 => 0,
        1 => most + 1,
        2 => most,
        _ => r.size(0, most.min(12)),
    };
    (start, count)
}

/// A patch of these rows: mostly a good one. The caller says what the lent curves hold.
pub fn patch_of_magnitudes(r: &mut Numbers, slab: &[f32], rows: usize, bins: usize, flux: &[f64], threshold: &[f64]) -> Fields {
    let (start, count) = start_and_count(r, rows);
    let mut new = magnitudes(r, count, bins);
    let (mut slab, mut flux, mut threshold) = (slab.to_vec(), flux.to_vec(), threshold.to_vec());
    let (mut rows, mut bins, mut start) = (rows, bins, start);
    match r.whole(0, 40) {
        0 => damage_singles(r, &mut new),
        1 => damage_singles(r, &mut slab),
        2 => damage(r, &mut flux),
        3 => damage(r, &mut threshold),
        4 => new.push(1.0),
        5 => drop(slab.pop()),
        6 => drop(flux.pop()),
        7 => drop(threshold.pop()),
        8 => bins = r.of(&[0, 4097, bins + 1, usize::MAX]),
        9 => rows = r.of(&[rows + 1, MOST_ROWS + 1, usize::MAX]),
        10 => start = r.of(&[usize::MAX, rows + 1]),
        11 => new.clear(),
        _ => {}
    }
    // slots beyond the formula are not read
    for curve in [&mut flux, &mut threshold] {
        for _ in 0..r.whole(0, 3) {
            curve.push(f64::NAN);
        }
    }
    vec![Singles(slab), size(rows), size(bins), size(start), Singles(new), Reals(flux), Reals(threshold), room_field(r, rows.min(21))]
}

pub fn all_patches_of_magnitudes(each: &mut dyn FnMut(Fields)) {
    // every patch of up to 26 rows: each start, each count
    for rows in 0..=26usize {
        let slab: Vec<f32> = (0..rows).map(|t| (t * t % 7) as f32).collect();
        let flux = expected::flux_of(&slab, rows, 1);
        let threshold = oracle::onsets::open::adaptive_threshold(&flux);
        for start in 0..=rows + 1 {
            for count in 0..=(rows + 1).saturating_sub(start) {
                let new: Vec<f32> = (0..count).map(|t| (t * 3 % 5) as f32).collect();
                each(vec![
                    Singles(slab.clone()),
                    size(rows),
                    Whole(1),
                    size(start),
                    Singles(new),
                    Reals(flux.clone()),
                    Reals(threshold.clone()),
                    size(rows.min(21)),
                ]);
            }
        }
    }
}

pub fn patch_magnitudes(r: &mut Numbers) -> Fields {
    let (rows, bins) = (r.size(0, 40), r.size(1, 6));
    let slab = magnitudes(r, rows, bins);
    let (flux, threshold) = (curve(r, rows), curve(r, rows));
    patch_of_magnitudes(r, &slab, rows, bins, &flux, &threshold)
}

pub fn patch_of_features(r: &mut Numbers, rows_lent: &[f64], rows: usize, similarity: &[f64], novelty: &[f64]) -> Fields {
    let (start, count) = start_and_count(r, rows);
    let mut new = features(r, count);
    let (mut lent, mut similarity, mut novelty) = (rows_lent.to_vec(), similarity.to_vec(), novelty.to_vec());
    let (mut rows, mut start) = (rows, start);
    match r.whole(0, 40) {
        0 => damage(r, &mut new),
        1 => damage(r, &mut lent),
        2 => damage(r, &mut novelty),
        3 => damage(r, &mut similarity),
        4 => new.push(1.0),
        5 => drop(lent.pop()),
        6 => drop(similarity.pop()),
        7 => drop(novelty.pop()),
        8 => rows = r.of(&[rows + 1, MOST_FEATURE_ROWS + 1, usize::MAX]),
        9 => start = r.of(&[usize::MAX, rows + 1]),
        10 => new.clear(),
        11 if !similarity.is_empty() => {
            let i = r.size(0, similarity.len() - 1);
            similarity[i] = r.of(&[1.0, -1.0, 1.0 + f64::EPSILON, -1.5]);
        }
        _ => {}
    }
    for curve in [&mut similarity, &mut novelty] {
        for _ in 0..r.whole(0, 3) {
            curve.push(f64::NAN);
        }
    }
    vec![Reals(lent), size(rows), size(start), Reals(new), Reals(similarity), Reals(novelty)]
}

pub fn all_patches_of_features(each: &mut dyn FnMut(Fields)) {
    for rows in [0usize, 1, 2, 15, 16, 17, 18, 33, 36] {
        let lent: Vec<f64> = (0..rows * WIDTH).map(|i| (i * i % 11) as f64 - 3.0).collect();
        let similarity = expected::similarity_of(&lent);
        let novelty = expected::novelty_of(&similarity, rows);
        for start in 0..=rows + 1 {
            for count in 0..=(rows + 1).saturating_sub(start) {
                let new: Vec<f64> = (0..count * WIDTH).map(|i| (i * 7 % 13) as f64 - 5.0).collect();
                each(vec![Reals(lent.clone()), size(rows), size(start), Reals(new), Reals(similarity.clone()), Reals(novelty.clone())]);
            }
        }
    }
}

pub fn patch_features(r: &mut Numbers) -> Fields {
    let rows = if r.once_in(40) { r.size(113, 260) } else { r.size(0, 44) };
    let lent = features(r, rows);
    let similarity: Vec<f64> = (0..rows * BAND).map(|_| r.real(-1.0, 1.0)).collect();
    let novelty = curve(r, rows);
    patch_of_features(r, &lent, rows, &similarity, &novelty)
}

// ---- whole tracks in one call

fn track_needs(n: usize, (min, max): (usize, usize)) -> [usize; 11] {
    let lags = max - min + 1;
    [n, n, lags, lags, lags, lags, n, n, n, n, lags.max(n.min(21))]
}

// the rooms of a track, mostly enough; at times one slice is just short
fn track_rooms(r: &mut Numbers, n: usize, rate: u64, bpm: (f64, f64)) -> Vec<usize> {
    let need = track_needs(n, lags(rate, bpm));
    let more = r.size(0, 2);
    let mut rooms: Vec<usize> = need.iter().map(|&k| k + r.size(0, more)).collect();
    if r.once_in(5) {
        let k = r.size(0, 10);
        rooms[k] = need[k].saturating_sub(1);
    }
    rooms
}

pub fn all_rooms(each: &mut dyn FnMut(Fields)) {
    for rate in (0..=192_001).step_by(7) {
        each(vec![Whole(rate % 30), Whole(rate), Real(30.0), Real(300.0), FOUR]);
    }
}

pub fn room_of(r: &mut Numbers) -> Fields {
    let (low, high) = bpm(r);
    let rows = r.of(&[0, 1, 20, 21, 22, 8_000, MOST_ROWS as u64, MOST_ROWS as u64 + 1, u64::MAX]);
    vec![Whole(rows), Whole(rate(r)), Real(low), Real(high), FOUR]
}

pub fn all_envelopes(each: &mut dyn FnMut(Fields)) {
    lists(&[0.0, 1.0, 9.0], 9, &mut |xs| {
        if xs.len() >= 6 {
            let mut rooms: Vec<Field> = vec![size(10); 11];
            (rooms[1], rooms[2]) = (size(9), size(2));
            each([vec![Reals(xs.to_vec()), Whole(1), Real(30.0), Real(300.0), FOUR], rooms].concat());
        }
    });
}

pub fn analyse_envelope(r: &mut Numbers) -> Fields {
    let (envelope, rate, bpm) = search(r);
    let rooms = track_rooms(r, envelope.len(), rate, bpm);
    let first = vec![Reals(envelope), Whole(rate), Real(bpm.0), Real(bpm.1), FOUR];
    [first, rooms.into_iter().map(size).collect()].concat()
}

pub fn all_slabs(each: &mut dyn FnMut(Fields)) {
    lists(&[0.0f32, 1.0, 5.0], 8, &mut |xs| {
        let n = xs.len();
        let first = vec![Singles(xs.to_vec()), size(n), Whole(1), Whole(1), Real(30.0), Real(300.0), FOUR, size(n)];
        each([first, vec![size(9); 11]].concat());
    });
}

pub fn analyse_magnitudes(r: &mut Numbers) -> Fields {
    let (bins, rate) = (r.size(1, 5), if r.once_in(20) { rate(r) } else { r.whole(1, 4_000) });
    let rows = r.size(0, 150);
    let bpm = if r.once_in(4) { bpm(r) } else { (30.0, 300.0) };
    let mut slab = magnitudes(r, rows, bins);
    let (mut rows_said, mut bins_said, mut flux) = (rows, bins, rows + r.size(0, 2));
    match r.whole(0, 40) {
        0 => damage_singles(r, &mut slab),
        1 => slab.push(0.0),
        2 => drop(slab.pop()),
        3 => rows_said = r.of(&[rows + 1, MOST_ROWS + 1, usize::MAX]),
        4 => bins_said = r.of(&[0, bins + 1, 4097, usize::MAX]),
        5 => flux = rows.saturating_sub(1),
        _ => {}
    }
    let mut rooms = track_rooms(r, rows, rate, bpm);
    if rooms.iter().any(|&k| k > 100_000) {
        rooms = vec![rows; 11];
    }
    let first = vec![Singles(slab), size(rows_said), size(bins_said), Whole(rate), Real(bpm.0), Real(bpm.1), FOUR, size(flux)];
    [first, rooms.into_iter().map(size).collect()].concat()
}

// ---- files

// rooms at, below and above what is needed
fn rooms_around(need: usize) -> [usize; 3] {
    [need, need.saturating_sub(1), need + 2]
}

pub fn all_tempo_tracks(each: &mut dyn FnMut(Fields)) {
    for rate in [0, 1, 7, 44_100, 192_000, 192_001] {
        lists(&[0, 1, 2, 40, MOST_FRAME, MOST_FRAME + 1], 4, &mut |beats| {
            for room in rooms_around(formats::size(beats.len().max(1))) {
                each(vec![Frames(beats.to_vec()), Whole(rate), size(room)]);
            }
        });
    }
    // gaps that are not whole, and at the first three of these rates times that end in halves
    for rate in [32_768, 65_536, 98_304].into_iter().chain((1..=192_000).step_by(7)) {
        each(vec![Frames(vec![0, 1, 2, 3, 5, 8, 100, 101, 500]), Whole(rate), size(formats::size(9))]);
    }
    // 1,024 frames in 15,625 are 16,777,216 microseconds: the rates at which as many frames come within some microseconds of that
    for rate in (1..=192_000u64).filter(|rate| (rate * 1_024 + 12) % 15_625 <= 24) {
        let long = ((rate * 1_024 + 12) / 15_625) as u32;
        for first in [0, 1, 2, 3, 1_000, 900_000] {
            each(vec![Frames(vec![first, first + long, first + long + 1]), Whole(rate), size(formats::size(3))]);
        }
    }
}

pub fn write_tempo_track(r: &mut Numbers) -> Fields {
    let rate = rate(r);
    let count = if r.once_in(30) { r.size(100, 400) } else { r.size(0, 12) };
    // steps up to the longest gap of the rate, or short ones
    let longest = (rate.clamp(1, 192_000) * 1_024 / 15_625).max(1);
    let step = if r.once_in(4) { longest } else { longest.min(400) };
    let mut at = r.whole(0, 1_000) as u32;
    let mut beats = Vec::new();
    for _ in 0..count {
        beats.push(at);
        at += r.whole(1, step) as u32;
    }
    if count > 0 {
        let k = r.size(0, count - 1);
        match r.whole(0, 20) {
            0 => beats[k] = r.of(&[MOST_FRAME, MOST_FRAME + 1, u32::MAX, 0]),
            1 => beats[k] = beats[count - 1 - k],
            2 => beats[k..].iter_mut().for_each(|beat| *beat += longest as u32 + 1),
            3 => beats[count - 1] = MOST_FRAME,
            _ => {}
        }
    }
    let need = formats::size(count.max(1));
    vec![Frames(beats), Whole(rate), room_field(r, need)]
}

// tempos of every size that three bytes hold
fn tempo(r: &mut Numbers) -> u64 {
    let most = r.of(&[3, 255, 65_535, formats::MOST_TEMPO]);
    r.whole(1, most)
}

pub fn all_tempo_files(each: &mut dyn FnMut(Fields)) {
    for count in 0..=3usize {
        let good = formats::written(&[500_000, 1, formats::MOST_TEMPO][..count]);
        for room in rooms_around(count) {
            each(vec![Bytes(good.clone()), size(room)]);
        }
        // every byte as every other, every length up to it and some bytes more
        for at in 0..good.len() {
            for value in 0..=255 {
                let mut file = good.clone();
                file[at] = value;
                each(vec![Bytes(file), size(4)]);
            }
            each(vec![Bytes(good[..at].to_vec()), size(4)]);
            each(vec![Bytes([&good[..at], &good[at + 1..]].concat()), size(4)]);
        }
        for more in 1..=8 {
            each(vec![Bytes([&good[..], &vec![0; more]].concat()), size(4)]);
        }
    }
    tempo_files_of_others().into_iter().for_each(|file| each(vec![Bytes(file), size(9)]));
}

// files that other programs may write and read: all of them sound, none of this shape
fn tempo_files_of_others() -> Vec<Vec<u8>> {
    let file = |format: u8, tracks: &[&[u8]], division: u8| {
        let mut file = [&b"MThd\0\0\0\x06\0"[..], &[format, 0, tracks.len() as u8, 0, division]].concat();
        for track in tracks {
            file.extend([&b"MTrk"[..], &(track.len() as u32).to_be_bytes(), track].concat());
        }
        file
    };
    let (tempo, end) = (&[0, 0xff, 0x51, 3, 7, 0xa1, 0x20][..], &[96, 0xff, 0x2f, 0][..]);
    let later = &[96, 0xff, 0x51, 3, 7, 0xa1, 0x20][..];
    let whole = |parts: &[&[u8]]| parts.concat();
    let plain = whole(&[tempo, later, end]);
    vec![
        file(1, &[&plain], 96),
        file(2, &[&plain], 96),
        file(0, &[&plain], 97),
        file(0, &[&plain, end], 96),
        file(0, &[], 96),
        file(0, &[end], 96),
        file(0, &[&[0, 0xff, 0x2f, 0]], 96),
        // the first later, the second at once, the end at once
        file(0, &[&whole(&[later, later, end])], 96),
        file(0, &[&whole(&[tempo, tempo, end])], 96),
        file(0, &[&whole(&[tempo, later, &[0, 0xff, 0x2f, 0]])], 96),
        // deltas in two bytes, in one more than is needed, and in a length of three
        file(0, &[&whole(&[tempo, &[0x81, 0x40], &later[1..], end])], 96),
        file(0, &[&whole(&[tempo, &[0x80], later, end])], 96),
        file(0, &[&whole(&[tempo, &[96, 0xff, 0x51, 0x80, 3, 7, 0xa1, 0x20], end])], 96),
        // a name, a time signature, a note, a status left out, an event behind the end
        file(0, &[&whole(&[&[0, 0xff, 3, 0], &tempo[..], end])], 96),
        file(0, &[&whole(&[&[0, 0xff, 0x58, 4, 4, 2, 24, 8], &tempo[..], end])], 96),
        file(0, &[&whole(&[tempo, &[0, 0x90, 60, 64, 96, 0x80, 60, 0], &end[..]])], 96),
        file(0, &[&whole(&[tempo, &[0, 0x90, 60, 64, 96, 60, 0], &end[..]])], 96),
        file(0, &[&whole(&[tempo, &[96, 0x51, 3, 7, 0xa1, 0x20], &end[..]])], 96),
        file(0, &[&whole(&[tempo, end, later])], 96),
        // a tempo of 0, and a longer header
        file(0, &[&whole(&[tempo, &[96, 0xff, 0x51, 3, 0, 0, 0], &end[..]])], 96),
        whole(&[b"MThd\0\0\0\x08\0\0\0\x01\0\x60\0\0", &file(0, &[&plain], 96)[14..]]),
        whole(&[b"RIFF\0\0\0\0RMIDdata", &file(0, &[&plain], 96)]),
    ]
}

pub fn read_tempo_track(r: &mut Numbers) -> Fields {
    let count = if r.once_in(30) { r.size(30, 300) } else { r.size(0, 6) };
    let gaps: Vec<u64> = (0..count).map(|_| tempo(r)).collect();
    let mut file = formats::written(&gaps);
    let at = r.size(0, file.len() - 1);
    match r.whole(0, 15) {
        0 => file[at] = r.whole(0, 255) as u8,
        1 => file[at] ^= 1 << r.whole(0, 7),
        2 => drop(file.remove(at)),
        3 => file.insert(at, r.whole(0, 255) as u8),
        4 => file.truncate(at),
        5 => file.extend(vec![r.of(&[0, 96, 255]); r.size(1, 9)]),
        // an event more or fewer than the length says, and a length that says so
        6 => drop(file.splice(at.min(22)..at.min(22), [0, 0xff, 0x51, 3, 1, 2, 3])),
        7 => file[21] = file[21].wrapping_add(r.of(&[1, 4, 7, 249, 252, 255])),
        // a tempo of 0
        8 if count > 0 => file[26 + 7 * r.size(0, count - 1)..][..3].fill(0),
        _ => {}
    }
    vec![Bytes(file), room_field(r, count)]
}

// ---- label tracks and cue chunks

// every small list of frames, at rates from end to end, and all rates in steps
fn each_list(each: &mut dyn FnMut(&[u32], u64)) {
    for rate in [0, 1, 7, 44_100, 192_000, 192_001] {
        lists(&[0, 1, 2, 40, MOST_FRAME, MOST_FRAME + 1], 4, &mut |frames| each(frames, rate));
    }
    // halves, and times that are not whole; seconds of one digit and more
    for rate in (1..=192_000).step_by(7) {
        each(&[0, 1, 2, 3, 5, 8, 100, 101, 500, 8_191, 65_536, MOST_FRAME - 1, MOST_FRAME], rate);
    }
    // the rates at which times end in half a microsecond: 256 (t + 2) 10^6 has 2^14, so these have 2^15 at least
    for rate in (32_768..=192_000).step_by(32_768) {
        (0..300).for_each(|t| each(&[t, t + 1, t + 2], rate));
    }
    // one microsecond before ten seconds, and ten; the same of a hundred and so on
    for tens in [10, 100, 1_000, 10_000, 100_000u64] {
        for rate in (256..=192_000).step_by(256).filter(|rate| tens * rate <= 256 * u64::from(MOST_FRAME)) {
            let at = (tens * rate - 512) / 256;
            each(&[at as u32 - 1, at as u32], rate);
        }
    }
}

// the bytes of a label track, for room; of a list that is refused anything will do
fn labels_size(frames: &[u32], rate: u64) -> usize {
    labels::labels(&frames.iter().map(|&t| t.min(MOST_FRAME)).collect::<Vec<_>>(), rate.max(1)).len()
}

pub fn all_label_rooms(each: &mut dyn FnMut(Fields)) {
    each_list(&mut |frames, rate| each(vec![Frames(frames.to_vec()), Whole(rate)]));
}

pub fn all_labels_written(each: &mut dyn FnMut(Fields)) {
    each_list(&mut |frames, rate| {
        for room in rooms_around(labels_size(frames, rate)) {
            each(vec![Frames(frames.to_vec()), Whole(rate), size(room)]);
        }
    });
}

pub fn all_cues_written(each: &mut dyn FnMut(Fields)) {
    lists(&[0, 1, 2, 40, MOST_FRAME, MOST_FRAME + 1, u32::MAX], 5, &mut |frames| {
        for room in rooms_around(12 + 24 * frames.len()) {
            each(vec![Frames(frames.to_vec()), size(room)]);
        }
    });
}

// a grid at a rate, and at times one that is none
fn grid(r: &mut Numbers) -> (Vec<u32>, u64) {
    let rate = rate(r);
    let count = if r.once_in(30) { r.size(100, 400) } else { r.size(0, 12) };
    let step = r.of(&[2, 200, 20_000]);
    let mut at = r.whole(0, 1_000) as u32;
    let mut frames = Vec::new();
    for _ in 0..count {
        frames.push(at.min(MOST_FRAME));
        at += r.whole(1, step) as u32;
    }
    frames.dedup();
    let count = frames.len();
    if count > 0 {
        let k = r.size(0, count - 1);
        match r.whole(0, 20) {
            0 => frames[k] = r.of(&[MOST_FRAME, MOST_FRAME + 1, u32::MAX, 0]),
            1 => frames[k] = frames[count - 1 - k],
            2 => frames[count - 1] = MOST_FRAME,
            _ => {}
        }
    }
    (frames, rate)
}

pub fn labels_room(r: &mut Numbers) -> Fields {
    let (frames, rate) = grid(r);
    vec![Frames(frames), Whole(rate)]
}

pub fn write_labels(r: &mut Numbers) -> Fields {
    let (frames, rate) = grid(r);
    let need = labels_size(&frames, rate);
    vec![Frames(frames), Whole(rate), room_field(r, need)]
}

pub fn write_cues(r: &mut Numbers) -> Fields {
    let (frames, _) = grid(r);
    let need = 12 + 24 * frames.len();
    vec![Frames(frames), room_field(r, need)]
}

// every byte as every other, every length up to it, every byte left out or there twice, and some bytes more
fn each_damage(good: &[u8], each: &mut dyn FnMut(Vec<u8>)) {
    each(good.to_vec());
    for at in 0..good.len() {
        for value in 0..=255 {
            let mut bytes = good.to_vec();
            bytes[at] = value;
            each(bytes);
        }
        each(good[..at].to_vec());
        each([&good[..at], &good[at + 1..]].concat());
        each([&good[..=at], &good[at..]].concat());
    }
    for more in [&b"\n"[..], b"\r\n", b"\0", b" ", b"0", b"\t", b"beat", &[0; 24]] {
        each([good, more].concat());
    }
}

// label tracks, each with a rate
fn each_text(each: &mut dyn FnMut(Vec<u8>, u64)) {
    for count in 0..=2 {
        each_damage(&labels::labels(&[0, 1_874][..count], 48_000), &mut |text| each(text, 48_000));
    }
    each_damage(&labels::labels(&[MOST_FRAME], 1), &mut |text| each(text, 1));
    // lines of every kind, in every order: 9 anywhere before 10 anywhere, before 11; then 3
    let line = |time: &str| format!("{time}\t{time}\tbeat\n");
    let kinds = [line("0.010667"), line("0.512000"), line("7.000000"), line("00.512000"), "0.512000\t0.512000\tbeat\r\n".to_string()];
    for rate in [0, 48_000, 192_001] {
        lists(&[0, 1, 2, 3, 4usize], 4, &mut |list| {
            each(list.iter().map(|&kind| kinds[kind].as_str()).collect::<String>().into_bytes(), rate);
        });
    }
    // times of every form about one, in the first place, the second and both
    for time in [
        "",
        ".",
        "0",
        "0.",
        "0.51200",
        "0.5120000",
        "0.512000",
        ".512000",
        "00.512000",
        "+0.512000",
        "-0.512000",
        " 0.512000",
        "0.512000 ",
        "0,512000",
        "0.512 00",
        "0.512e00",
        "5.12e-1",
        "0x0.51200",
        "1.000000",
        "10.000000",
        "01.000000",
        "0.0.512000",
        "nan",
        "inf",
        "0.51200\u{665}",
        "１.000000",
        "0.512000\0",
    ] {
        for text in [
            line(time),
            format!("{time}\t0.512000\tbeat\n"),
            format!("0.512000\t{time}\tbeat\n"),
            format!("{}{}", line("0.010667"), line(time)),
        ] {
            each(text.into_bytes(), 48_000);
        }
    }
    for name in ["", "Beat", "BEAT", "beats", "bea", "beat ", " beat", "beat\t", "beat\tbeat", "beat\0", "1.1", "beat\u{feff}"] {
        each(format!("0.512000\t0.512000\t{name}\n").into_bytes(), 48_000);
    }
    for text in [
        "\u{feff}0.512000\t0.512000\tbeat\n",
        "\n",
        "\n\n",
        "\r\n",
        "\t\t\n",
        "beat\n",
        "0.512000\n",
        "0.512000\t0.512000\n",
        "0.512000 0.512000 beat\n",
        "0.512000\t0.512000\tbeat\n\n",
        "\n0.512000\t0.512000\tbeat\n",
        "0.512000\t0.512000\tbeat\r0.600000\t0.600000\tbeat\n",
        "0.512000\t0.512000\tbeat\n\\\t0.000000\t0.000000\n",
    ] {
        each(text.as_bytes().to_vec(), 48_000);
    }
    // every microsecond about a frame's time, at the ends and at rates at which halves are met
    for (rate, frame) in
        [(48_000, 0), (32_768, 1), (44_100, 94), (192_000, MOST_FRAME), (1, MOST_FRAME), (1, 0), (191_999, 524_288), (7, 3)]
    {
        let time = formats::microseconds(frame, rate);
        for near in time.saturating_sub(9)..=time + 9 {
            each(line(&format!("{}.{:06}", near / 1_000_000, near % 1_000_000)).into_bytes(), rate);
        }
    }
    // seconds of many digits, those among them that are a frame's time where a number of so many bits wraps round
    for bits in [32, 53, 63, 64, 127] {
        let time = (1_u128 << bits) + 512_000;
        each(line(&format!("{}.{:06}", time / 1_000_000, time % 1_000_000)).into_bytes(), 48_000);
    }
    for digits in [9, 10, 18, 19, 20, 21, 38, 39, 40, 77, 78, 1_000, 10_000] {
        for digit in ["1", "9"] {
            let time = digit.repeat(digits) + ".512000";
            for rate in [1, 192_000] {
                each(line(&time).into_bytes(), rate);
            }
            each([line(&time), line("0.512000").replace('.', ",")].concat().into_bytes(), 48_000);
            each((line(&time) + &time).into_bytes(), 48_000);
        }
    }
}

// how many lines a text may have
fn lines(text: &[u8]) -> usize {
    text.iter().filter(|&&byte| byte == b'\n').count()
}

pub fn all_labels_read(each: &mut dyn FnMut(Fields)) {
    each_text(&mut |text, rate| {
        let room = lines(&text);
        each(vec![Bytes(text.clone()), Whole(rate), size(room)]);
        if room > 0 && text.len() < 100 {
            each(vec![Bytes(text), Whole(rate), size(room - 1)]);
        }
    });
}

pub fn all_labels_to_cues(each: &mut dyn FnMut(Fields)) {
    each_text(&mut |text, rate| {
        let room = 12 + 24 * lines(&text);
        each(vec![Bytes(text.clone()), Whole(rate), size(room)]);
        each(vec![Bytes(text), Whole(rate), size(room - 1)]);
    });
}

// cue chunks
fn each_chunk(each: &mut dyn FnMut(Vec<u8>)) {
    for count in 0..=3usize {
        each_damage(&labels::cues(&[0, 94, MOST_FRAME][..count]), each);
    }
    // points of every kind, in every order; a name, a chunk id or a field that isn't as said stands for 9
    lists(&[512, 24_576, 513, u32::MAX, 0], 4, &mut |offsets| {
        let good = labels::chunk(offsets);
        each(good.clone());
        for k in 0..offsets.len() {
            for field in [0, 8, 12, 16] {
                let mut chunk = good.clone();
                chunk[12 + 24 * k + field] ^= 1;
                each(chunk);
            }
        }
    });
    // position and offset together, byte by byte, and about the ends
    for at in 0..4 {
        for value in 0..=255 {
            let mut offset = 24_576_u32.to_le_bytes();
            offset[at] = value;
            each(labels::chunk(&[512, u32::from_le_bytes(offset)]));
        }
    }
    for end in [0, 512, 256 * MOST_FRAME + 512, 1 << 31, u32::MAX] {
        for near in end.saturating_sub(600)..=end.saturating_add(600) {
            each(labels::chunk(&[near]));
        }
    }
    // counts and sizes that lie, large ones among them
    let good = labels::cues(&[0, 94]);
    for lie in [0, 1, 2, 3, 4, 27, 28, 29, 51, 52, 53, 76, 1 << 16, 1 << 31, (1 << 31) + 2, u32::MAX / 24, u32::MAX / 24 + 3, u32::MAX] {
        for at in [4, 8] {
            let mut chunk = good.clone();
            chunk[at..at + 4].copy_from_slice(&u32::to_le_bytes(lie));
            each(chunk.clone());
            chunk[4..8].copy_from_slice(&u32::wrapping_add(4, u32::wrapping_mul(24, lie)).to_le_bytes());
            chunk[8..12].copy_from_slice(&u32::to_le_bytes(lie));
            each(chunk);
        }
    }
    // others' chunks, sound all of them: names from 0, places in a playlist, another order, an empty one with a byte behind it
    let names = |first: u32| {
        let mut chunk = good.clone();
        for k in 0..2 {
            chunk[12 + 24 * k..][..4].copy_from_slice(&(first + k as u32).to_le_bytes());
        }
        chunk
    };
    for chunk in [
        names(0),
        names(2),
        [&b"RIFF\0\0\0\0WAVE"[..], &good].concat(),
        [&b"LIST"[..], &good[4..]].concat(),
        [&good[..], &good[..]].concat(),
    ] {
        each(chunk);
    }
}

pub fn all_cues_read(each: &mut dyn FnMut(Fields)) {
    each_chunk(&mut |chunk| {
        let room = chunk.len().saturating_sub(12) / 24;
        each(vec![Bytes(chunk.clone()), size(room)]);
        if room > 0 {
            each(vec![Bytes(chunk), size(room - 1)]);
        }
    });
}

pub fn all_cues_to_labels(each: &mut dyn FnMut(Fields)) {
    each_chunk(&mut |chunk| {
        let frames: Vec<u32> = labels::named_in_cues(&chunk).unwrap_or_default().into_iter().flatten().collect();
        for rate in [48_000, 1, 0] {
            let need = labels_size(&frames, rate);
            each(vec![Bytes(chunk.clone()), Whole(rate), size(need)]);
            if need > 0 && rate == 1 {
                each(vec![Bytes(chunk.clone()), Whole(rate), size(need - 1)]);
            }
        }
    });
    for rate in (0..=192_001).step_by(83) {
        each(vec![Bytes(labels::cues(&[0, 1, 94, 8_191, MOST_FRAME])), Whole(rate), size(5 * 39)]);
    }
}

fn damaged(r: &mut Numbers, mut bytes: Vec<u8>) -> Vec<u8> {
    if bytes.is_empty() {
        return if r.once_in(4) { vec![r.whole(0, 255) as u8; r.size(1, 30)] } else { bytes };
    }
    let at = r.size(0, bytes.len() - 1);
    match r.whole(0, 20) {
        0 => bytes[at] = r.whole(0, 255) as u8,
        1 => bytes[at] ^= 1 << r.whole(0, 7),
        2 => drop(bytes.remove(at)),
        3 => bytes.insert(at, r.whole(0, 255) as u8),
        4 => bytes.truncate(at),
        5 => bytes.extend(vec![r.of(&[0, 9, 10, 13, 32, 48]); r.size(1, 30)]),
        6 => bytes[at] = r.of(b"0123456789.\t\r\n beat"),
        // a part of it twice
        7 => bytes.extend_from_within(..=at),
        _ => {}
    }
    bytes
}

// a label track whose times may be others' than its frames', or in another order
fn text(r: &mut Numbers) -> (Vec<u8>, u64) {
    let (mut frames, rate) = grid(r);
    frames.iter_mut().for_each(|frame| *frame = (*frame).min(MOST_FRAME));
    let mut times: Vec<u64> = frames.iter().map(|&t| formats::microseconds(t, rate.max(1))).collect();
    if !times.is_empty() && r.once_in(8) {
        let k = r.size(0, times.len() - 1);
        times[k] = match r.whole(0, 5) {
            0 => times[k] + 1,
            1 => times[k].saturating_sub(1),
            2 => r.next(),
            3 => r.whole(0, 400_000_000_000_000),
            4 => formats::microseconds(MOST_FRAME + 1, rate.max(1)),
            _ => times[times.len() - 1 - k],
        };
    }
    let lines = times.iter().map(|time| format!("{0}.{1:06}\t{0}.{1:06}\tbeat\n", time / 1_000_000, time % 1_000_000)).collect::<String>();
    (damaged(r, lines.into_bytes()), rate)
}

pub fn read_labels(r: &mut Numbers) -> Fields {
    let (text, rate) = text(r);
    let need = lines(&text);
    vec![Bytes(text), Whole(rate), room_field(r, need)]
}

pub fn labels_to_cues(r: &mut Numbers) -> Fields {
    let (text, rate) = text(r);
    let need = 12 + 24 * lines(&text);
    vec![Bytes(text), Whole(rate), room_field(r, need)]
}

fn random_chunk(r: &mut Numbers) -> (Vec<u8>, u64) {
    let (frames, rate) = grid(r);
    let mut offsets: Vec<u32> = frames.iter().map(|&t| t.wrapping_mul(256).wrapping_add(512)).collect();
    if !offsets.is_empty() && r.once_in(8) {
        let k = r.size(0, offsets.len() - 1);
        offsets[k] = match r.whole(0, 3) {
            0 => offsets[k] + 1,
            1 => r.next() as u32,
            2 => r.next() as u32 & !255,
            _ => offsets[offsets.len() - 1 - k],
        };
    }
    (damaged(r, labels::chunk(&offsets)), rate)
}

pub fn read_cues(r: &mut Numbers) -> Fields {
    let (chunk, _) = random_chunk(r);
    let need = chunk.len().saturating_sub(12) / 24;
    vec![Bytes(chunk), room_field(r, need)]
}

pub fn cues_to_labels(r: &mut Numbers) -> Fields {
    let (chunk, rate) = random_chunk(r);
    let frames: Vec<u32> = labels::named_in_cues(&chunk).unwrap_or_default().into_iter().flatten().collect();
    let need = labels_size(&frames, rate);
    vec![Bytes(chunk), Whole(rate), room_field(r, need)]
}

// ---- open bounds of the tempo: every kind of pair, on clicks that repeat, at rates of which the bounds make a difference

pub fn open_bounds(call: &str, each: &mut dyn FnMut(Fields)) {
    let open = [NANS.as_slice(), &[f64::INFINITY, f64::NEG_INFINITY]].concat();
    let kinds = [open.as_slice(), &[30.0, 300.0]].concat();
    // the rates of most tracks, and the least and the greatest, are among those of every pair
    let rates = |step| [1, 44_100, 48_000, 192_000].into_iter().chain((0..=192_001).step_by(step));
    for (low, high) in kinds.iter().flat_map(|&low| kinds.iter().map(move |&high| (low, high))) {
        let bounds = [Real(low), Real(high), FOUR];
        match call {
            "lag_range" => rates(61).for_each(|rate| each([&[Whole(rate)][..], &bounds].concat())),
            "room_of" => rates(997).for_each(|rate| each([&[Whole(rate % 30), Whole(rate)][..], &bounds].concat())),
            _ => {}
        }
        if !["estimate", "stability_of", "analyse_envelope", "analyse_magnitudes"].contains(&call) {
            continue;
        }
        let sizes = [8, 24, 60].into_iter().flat_map(|n| (2..=9).map(move |period| (n, period)));
        for (rate, (n, period)) in [1, 20, 40, 100].into_iter().flat_map(|rate| sizes.clone().map(move |size| (rate, size))) {
            // they decay, so that there is a tempo of lag 1 too, where that is all that the bounds leave
            let clicks: Vec<f64> = (0..n).map(|t| [0.0, 4.0, 3.0, 1.0, 0.0, 0.0, 0.0, 0.0, 0.0][t % period]).collect();
            let (min, max) = lags(rate, (low, high));
            let (curves, rooms) = (vec![size(max - min + 1); 3], track_needs(n, (min, max)).map(size));
            let hertz = Whole(rate);
            each(match call {
                "estimate" => [&[Reals(clicks), Whole(2), hertz][..], &bounds, &curves].concat(),
                "stability_of" => [&[Reals(clicks), hertz][..], &bounds, &[size(period)], &curves].concat(),
                "analyse_envelope" => [&[Reals(clicks), hertz][..], &bounds, &rooms].concat(),
                _ => {
                    let rows = clicks.iter().map(|&x| x as f32).collect();
                    [&[Singles(rows), size(n), Whole(1), hertz][..], &bounds, &[size(n)], &rooms].concat()
                }
            });
        }
    }
}

// ---- beats of a bar: every number of them but the usual four, also outside its bounds, on clicks of which some are accented

pub fn other_meters(call: &str, each: &mut dyn FnMut(Fields)) {
    for meter in METERS_TRIED.filter(|&meter| meter != 4).chain(HUGE_METERS) {
        let opts = [Real(30.0), Real(300.0), Whole(meter)];
        match call {
            "lag_range" => (0..=192_001).step_by(997).for_each(|rate| each([&[Whole(rate)][..], &opts].concat())),
            "room_of" => (0..=192_001).step_by(997).for_each(|rate| each([&[Whole(rate % 30), Whole(rate)][..], &opts].concat())),
            "downbeats" => {
                lists(&[-1.0, 0.0, 2.0], 3, &mut |envelope| {
                    lists(&[0u32, 1, 2, 3], 4, &mut |beats| {
                        if envelope.len() == 3 {
                            each(vec![Reals(envelope.to_vec()), Frames(beats.to_vec()), Whole(meter), size(beats.len())]);
                        }
                    })
                });
                // an accent on each place of bars of each length, and sums that are equal
                for (bar, at) in (1..=17usize).flat_map(|bar| (0..bar).map(move |at| (bar, at))) {
                    for (accent, n) in [(2.0, 40), (0.5, 40), (2.0, 48), (1.0, 49)] {
                        let envelope = (0..n).map(|t| if t % bar == at { accent } else { 1.0 }).collect();
                        each(vec![Reals(envelope), Frames((0..n as u32).collect()), Whole(meter), size(n)]);
                    }
                }
            }
            _ => {}
        }
        if !["estimate", "stability_of", "analyse_envelope", "analyse_magnitudes"].contains(&call) {
            continue;
        }
        let (rate, hertz) = (1_000, Whole(1_000));
        let (min, max) = lags(rate, (30.0, 300.0));
        for (n, period, accent) in [40, 150].into_iter().flat_map(|n| (2..=8).flat_map(move |p| (2..=5).map(move |a| (n, p, a)))) {
            let level = |t: usize| if t / period % accent == 1 { 9.0 } else { 4.0 };
            let clicks: Vec<f64> = (0..n).map(|t| if t % period == 1 { level(t) } else { 0.0 }).collect();
            let (curves, rooms) = (vec![size(max - min + 1); 3], track_needs(n, (min, max)).map(size));
            each(match call {
                "estimate" => [&[Reals(clicks), Whole(9), hertz.clone()][..], &opts, &curves].concat(),
                "stability_of" => [&[Reals(clicks), hertz.clone()][..], &opts, &[size(period)], &curves].concat(),
                "analyse_envelope" => [&[Reals(clicks), hertz.clone()][..], &opts, &rooms].concat(),
                _ => {
                    let rows = clicks.iter().map(|&x| x as f32).collect();
                    [&[Singles(rows), size(n), Whole(1), hertz.clone()][..], &opts, &[size(n)], &rooms].concat()
                }
            });
        }
    }
}

// ---- sizes at the bounds, each just inside and just outside

pub fn at_the_bounds(call: &str, each: &mut dyn FnMut(Fields)) {
    let saw = |n: usize| -> Vec<f64> { (0..n).map(|t| (t * t % 101) as f64).collect() };
    for n in [MOST_ROWS, MOST_ROWS + 1] {
        match call {
            "median_of" => each(vec![Reals(saw(n)), size(n)]),
            "mad_of" => each(vec![Reals(saw(n)), Real(50.0), size(n)]),
            "spectral_flux" => each(vec![Singles(vec![1.0; n]), size(n), Whole(1), size(n)]),
            "adaptive_threshold" => each(vec![Reals(saw(n)), size(n), Whole(21)]),
            "pick_onsets" => {
                each(vec![Reals(saw(n)), Reals(vec![40.0; n]), Whole(48_000), size(n)]);
                // a threshold of another length than its flux is number 2, however long
                each(vec![Reals(saw(3)), Reals(vec![40.0; n]), Whole(48_000), size(3)]);
            }
            "suppress_close_peaks" => each(vec![Frames((0..n as u32).step_by(3).collect()), Reals(saw(n)), Whole(7), size(n)]),
            "estimate" => each(vec![Reals(saw(n)), Whole(2), Whole(900), Real(30.0), Real(300.0), FOUR, Whole(9), Whole(9), Whole(9)]),
            "stability_of" => each(vec![Reals(saw(n)), Whole(900), Real(30.0), Real(300.0), FOUR, Whole(3), Whole(9), Whole(9), Whole(9)]),
            "beat_grid" => each(vec![Reals(saw(n)), Whole(5), size(n), size(n), size(n)]),
            "downbeats" => each(vec![Reals(saw(n)), Frames((0..n.min(MOST_ROWS) as u32).step_by(97).collect()), FOUR, size(n)]),
            "patch_magnitudes" => {
                let slab: Vec<f32> = (0..n).map(|t| (t * t % 101) as f32).collect();
                let (bins, start, new) = (Whole(1), size(n - 9), Singles(vec![50.0; 9]));
                each(vec![Singles(slab), size(n), bins, start, new, Reals(saw(n)), Reals(saw(n)), Whole(21)]);
            }
            "room_of" => each(vec![size(n), Whole(48_000), Real(30.0), Real(300.0), FOUR]),
            "analyse_envelope" => {
                let rooms = [vec![size(n); 2], vec![Whole(9); 4], vec![size(n); 4], vec![Whole(21)]].concat();
                each([vec![Reals(saw(n)), Whole(900), Real(30.0), Real(300.0), FOUR], rooms].concat());
            }
            "analyse_magnitudes" => {
                let slab: Vec<f32> = (0..n).map(|t| (t * t % 101) as f32).collect();
                let rooms = [vec![size(n); 3], vec![Whole(9); 4], vec![size(n); 4], vec![Whole(21)]].concat();
                each([vec![Singles(slab), size(n), Whole(1), Whole(900), Real(30.0), Real(300.0), FOUR], rooms].concat());
            }
            _ => {}
        }
    }
    for bins in [4096usize, 4097] {
        let row = |k: u32| -> Vec<f32> { (0..3 * bins).map(|i| ((i as u32 * k) % 17) as f32 * MOST_MAGNITUDE / 16.0).collect() };
        match call {
            "spectral_flux" => each(vec![Singles(row(5)), Whole(3), size(bins), Whole(3)]),
            "patch_magnitudes" => each(vec![
                Singles(row(5)),
                Whole(3),
                size(bins),
                Whole(1),
                Singles(row(3)[..bins].to_vec()),
                Reals(vec![0.0; 3]),
                Reals(vec![0.0; 3]),
                Whole(3),
            ]),
            _ => {}
        }
    }
    for rows in [MOST_FEATURE_ROWS, MOST_FEATURE_ROWS + 1] {
        let wave = |n: usize| -> Vec<f64> { (0..n).map(|i| (i * i % 103) as f64 / 103.0).collect() };
        match call {
            "similarity" => each(vec![Reals(wave(rows * WIDTH)), size(rows), size(rows * BAND)]),
            "novelty" => each(vec![Reals(wave(rows * BAND)), size(rows), size(rows)]),
            "boundaries" => {
                each(vec![Reals(wave(rows)), Whole(48_000), Whole(48_000), Whole(12), size(rows), size(rows)]);
                each(vec![Reals(wave(rows)), Whole(1), Whole(192_000), Whole(9_000), size(rows), size(rows)]);
                each(vec![Reals(wave(rows)), Whole(1 << 31), Whole(1), Whole(9_000), size(rows), size(rows)]);
            }
            "patch_features" => each(vec![
                Reals(wave(rows * WIDTH)),
                size(rows),
                size(rows - 300),
                Reals(wave(300 * WIDTH)),
                Reals(wave(rows * BAND)),
                Reals(wave(rows)),
            ]),
            _ => {}
        }
    }
    match call {
        // every frame there is, and one more: once again, or past the last
        "write_tempo_track" => {
            let all: Vec<u32> = (0..=MOST_FRAME).collect();
            let need = formats::size(all.len());
            for (last, room) in [(None, need), (None, need - 1), (Some(MOST_FRAME), need + 7), (Some(MOST_FRAME + 1), need + 7)] {
                each(vec![Frames([&all[..], last.as_slice()].concat()), Whole(48_000), size(room)]);
            }
        }
        "labels_room" | "write_labels" | "write_cues" => {
            let all: Vec<u32> = (0..=MOST_FRAME).collect();
            let need = if call == "write_cues" { 12 + 24 * all.len() } else { labels::labels(&all, 48_000).len() };
            for (last, room) in [(None, need), (None, need - 1), (Some(MOST_FRAME), need + 41), (Some(MOST_FRAME + 1), need + 41)] {
                let frames = Frames([&all[..], last.as_slice()].concat());
                each(match call {
                    "labels_room" => vec![frames, Whole(48_000)],
                    "write_labels" => vec![frames, Whole(48_000), size(room)],
                    _ => vec![frames, size(room)],
                });
            }
        }
        "read_labels" | "labels_to_cues" | "read_cues" | "cues_to_labels" => {
            let all: Vec<u32> = (0..=MOST_FRAME).collect();
            let (text, chunk) = (labels::labels(&all, 48_000), labels::cues(&all));
            let need = match call {
                "read_labels" | "read_cues" => all.len(),
                "labels_to_cues" => chunk.len(),
                _ => text.len(),
            };
            // all of them, with room and without, and then one more: the last once again
            let again = labels::labels(&[MOST_FRAME], 48_000);
            for (more, room) in [(false, need), (false, need - 1), (true, need + 41)] {
                each(match call {
                    "read_labels" | "labels_to_cues" => {
                        vec![Bytes([&text[..], if more { &again } else { &[] }].concat()), Whole(48_000), size(room)]
                    }
                    _ => {
                        let frames = [&all[..], if more { &[MOST_FRAME] } else { &[] }].concat();
                        let chunk = Bytes(labels::cues(&frames));
                        if call == "read_cues" { vec![chunk, size(room)] } else { vec![chunk, Whole(48_000), size(room)] }
                    }
                });
            }
        }
        "read_tempo_track" => {
            let file = formats::written(&vec![1; MOST_ROWS + 9]);
            each(vec![Bytes(file.clone()), size(MOST_ROWS + 9)]);
            each(vec![Bytes(file), size(MOST_ROWS + 8)]);
        }
        // all 45,000 lags less a few, and lags 38 to 375 on both sides of 377 slots
        "estimate" => {
            for n in [45_001, 45_002] {
                each(vec![
                    Reals(saw(n)),
                    Whole(2),
                    Whole(192_000),
                    Real(1.0),
                    Real(300.0),
                    FOUR,
                    Whole(45_000),
                    Whole(45_000),
                    Whole(45_000),
                ]);
            }
            for n in [375, 376, 377, 378] {
                each(vec![Reals(saw(n)), Whole(2), Whole(48_000), Real(30.0), Real(300.0), FOUR, Whole(338), Whole(338), Whole(338)]);
            }
        }
        "beat_grid" => {
            for (n, period) in [(30_000, 45_000u64), (30_000, 20_000), (25_000, 45_001), (9_000, 2_047), (9_000, 2_048), (9_000, 2_049)] {
                each(vec![Reals(saw(n)), Whole(period), size(n), size(n), size(n)]);
            }
        }
        _ => {}
    }
}
