//! Document 01's table of refusals, written down from the document alone: the number that each call must answer.
//!
//! "The lowest number that applies is given." A test is asked only where no lower number applies. Files have document 02's order.
use crate::{formats, labels};

pub const RATE: std::ops::RangeInclusive<u64> = 1..=192_000;
pub const MOST_ROWS: usize = 1_048_576;
pub const MOST_BINS: u64 = 4_096;
pub const MOST_PERIOD: u64 = 45_000;
pub const MOST_FEATURE_ROWS: usize = 50_000;
pub const LENGTH: std::ops::RangeInclusive<u64> = 1..=1 << 31;
pub const MOST_FRAME: u32 = 1_048_575;
/// Request No. 4: beats of a bar.
pub const METER: std::ops::RangeInclusive<u64> = 1..=16;
/// 2^126 and 2^150, by their bits
pub const MOST_MAGNITUDE: f32 = f32::from_bits(253 << 23);
pub const MOST_VALUE: f64 = f64::from_bits(1173 << 52);
pub const WIDTH: usize = 16;
pub const BAND: usize = 17;

fn lowest(one: bool, two: impl FnOnce() -> bool, three: impl FnOnce() -> bool, four: impl FnOnce() -> bool) -> u32 {
    if one {
        1
    } else if two() {
        2
    } else if three() {
        3
    } else if four() {
        4
    } else {
        0
    }
}

// "has size above" and "isn't finite", which NaN meets too
fn value(x: &f64) -> bool {
    !(x.abs() <= MOST_VALUE)
}
fn magnitude(x: &f32) -> bool {
    !(x.abs() <= MOST_MAGNITUDE)
}
fn likeness(x: &f64) -> bool {
    !(-1.0 <= *x && *x <= 1.0)
}
fn any<T>(xs: &[T], wrong: fn(&T) -> bool) -> bool {
    xs.iter().any(wrong)
}
fn no() -> bool {
    false
}

/// Sorting room of a threshold.
pub fn window(n: usize) -> usize {
    n.min(21)
}

pub fn median_of(values: &[f64], work: usize) -> u32 {
    lowest(values.is_empty(), no, || work < values.len(), || any(values, value))
}

pub fn mad_of(values: &[f64], median: f64, work: usize) -> u32 {
    lowest(values.is_empty(), no, || work < values.len(), || any(values, value) || value(&median))
}

fn slab_bounds(rows: u64, bins: u64) -> bool {
    rows > MOST_ROWS as u64 || !(1..=MOST_BINS).contains(&bins)
}

pub fn spectral_flux(magnitudes: &[f32], rows: u64, bins: u64, flux: usize) -> u32 {
    let short = || (flux as u64) < rows;
    lowest(slab_bounds(rows, bins), || magnitudes.len() as u64 != rows * bins, short, || any(magnitudes, magnitude))
}

pub fn adaptive_threshold(flux: &[f64], threshold: usize, work: usize) -> u32 {
    let n = flux.len();
    lowest(n > MOST_ROWS, no, || threshold < n || work < window(n), || any(flux, value))
}

pub fn pick_onsets(flux: &[f64], threshold: &[f64], rate: u64, frames: usize) -> u32 {
    let n = flux.len();
    let wrong = || any(flux, value) || any(threshold, value);
    lowest(n > MOST_ROWS || !RATE.contains(&rate), || threshold.len() != n, || frames < n, wrong)
}

pub fn suppress_close_peaks(peaks: &[u32], curve: &[f64], frames: usize) -> u32 {
    let ascending = peaks.windows(2).all(|p| p[0] < p[1]);
    let past = peaks.iter().any(|&p| p as usize >= curve.len() || p > MOST_FRAME);
    lowest(curve.len() > MOST_ROWS || !ascending || past, no, || frames < peaks.len(), || any(curve, value))
}

pub fn frame_times(frames: &[u32], rate: u64, ms: usize) -> u32 {
    lowest(!RATE.contains(&rate) || frames.iter().any(|&t| t > MOST_FRAME), no, || ms < frames.len(), no)
}

// a search's rate, and of its options the meter; no number covers the bounds of the tempo: any two floats are taken
fn search_bounds(rate: u64, meter: u64) -> bool {
    !RATE.contains(&rate) || !METER.contains(&meter)
}

pub fn lag_range(rate: u64, meter: u64) -> u32 {
    lowest(search_bounds(rate, meter), no, no, no)
}

/// `lags` answers L, the number of lags, and is asked only where number 1 doesn't apply.
pub fn estimate(envelope: &[f64], rate: u64, meter: u64, rooms: [usize; 3], lags: impl FnOnce() -> usize) -> u32 {
    let bounds = envelope.len() > MOST_ROWS || search_bounds(rate, meter);
    lowest(bounds, no, || rooms.iter().min() < Some(&lags()), || any(envelope, value))
}

pub fn stability_of(envelope: &[f64], rate: u64, meter: u64, whole_lag: u64, rooms: [usize; 3], lags: impl FnOnce() -> usize) -> u32 {
    if whole_lag > MOST_PERIOD { 1 } else { estimate(envelope, rate, meter, rooms, lags) }
}

pub fn room_of(rows: u64, rate: u64, meter: u64) -> u32 {
    lowest(rows > MOST_ROWS as u64 || search_bounds(rate, meter), no, no, no)
}

/// Sorting room of a whole track: that of the thresholds and that of the lags, one after the other.
pub fn track_sorting(rows: usize, lags: usize) -> usize {
    lags.max(window(rows))
}

/// The room of a whole track: six slices of a slot a frame, four of a slot a lag, and sorting room.
pub struct TrackRoom {
    pub frames: [usize; 6],
    pub curves: [usize; 4],
    pub work: usize,
}

impl TrackRoom {
    fn short(&self, rows: usize, lags: usize) -> bool {
        self.frames.iter().any(|&r| r < rows) || self.curves.iter().any(|&r| r < lags) || self.work < track_sorting(rows, lags)
    }
}

pub fn analyse_envelope(envelope: &[f64], rate: u64, meter: u64, room: &TrackRoom, lags: impl FnOnce() -> usize) -> u32 {
    let n = envelope.len();
    lowest(n > MOST_ROWS || search_bounds(rate, meter), no, || room.short(n, lags()), || any(envelope, value))
}

#[allow(clippy::too_many_arguments)]
pub fn analyse_magnitudes(
    magnitudes: &[f32],
    rows: u64,
    bins: u64,
    rate: u64,
    meter: u64,
    flux: usize,
    room: &TrackRoom,
    lags: impl FnOnce() -> usize,
) -> u32 {
    let n = rows as usize;
    let length = || magnitudes.len() as u64 != rows * bins;
    let bounds = slab_bounds(rows, bins) || search_bounds(rate, meter);
    lowest(bounds, length, || flux < n || room.short(n, lags()), || any(magnitudes, magnitude))
}

pub fn beat_grid(envelope: &[f64], period: u64, rooms: [usize; 3]) -> u32 {
    let n = envelope.len();
    lowest(n > MOST_ROWS || period > MOST_PERIOD, no, || rooms.iter().any(|&r| r < n), || any(envelope, value))
}

// of the options the meter alone: the bounds of the tempo are not lent
pub fn downbeats(envelope: &[f64], beats: &[u32], meter: u64, frames: usize) -> u32 {
    let bounds = envelope.len() > MOST_ROWS || beats.iter().any(|&t| t > MOST_FRAME) || !METER.contains(&meter);
    lowest(bounds, no, || frames < beats.len(), || any(envelope, value))
}

pub fn similarity(features: &[f64], rows: u64, similarity: usize) -> u32 {
    let length = || features.len() as u64 != rows * WIDTH as u64;
    let short = || (similarity as u64) < rows * BAND as u64;
    lowest(rows > MOST_FEATURE_ROWS as u64, length, short, || any(features, value))
}

pub fn novelty(similarity: &[f64], rows: u64, novelty: usize) -> u32 {
    let length = || similarity.len() as u64 != rows * BAND as u64;
    lowest(rows > MOST_FEATURE_ROWS as u64, length, || (novelty as u64) < rows, || any(similarity, likeness))
}

pub fn boundaries(novelty: &[f64], length: u64, rate: u64, rows: usize, work: usize) -> u32 {
    let n = novelty.len();
    let bounds = n > MOST_FEATURE_ROWS || !LENGTH.contains(&length) || !RATE.contains(&rate);
    lowest(bounds, no, || rows < n || work < n, || any(novelty, value))
}

pub fn boundary_times(rows: &[u32], length: u64, rate: u64, ms: usize) -> u32 {
    let past = rows.iter().any(|&r| r as usize >= MOST_FEATURE_ROWS);
    lowest(!LENGTH.contains(&length) || !RATE.contains(&rate) || past, no, || ms < rows.len(), no)
}

// "a patch isn't whole rows or runs past the end"; only an empty patch may start at the row count itself
fn patch_length(rows: u64, start: u64, new: usize, width: usize) -> bool {
    new % width != 0 || start + (new / width) as u64 > rows
}

#[allow(clippy::too_many_arguments)]
pub fn patch_magnitudes(
    magnitudes: &[f32],
    rows: u64,
    bins: u64,
    start: u64,
    new: &[f32],
    flux: &[f64],
    threshold: &[f64],
    work: usize,
) -> u32 {
    let n = rows as usize;
    let length = || magnitudes.len() as u64 != rows * bins || patch_length(rows, start, new.len(), bins as usize);
    let short = || flux.len() < n || threshold.len() < n || work < window(n);
    let wrong = || any(magnitudes, magnitude) || any(new, magnitude) || any(&flux[..n], value) || any(&threshold[..n], value);
    lowest(slab_bounds(rows, bins) || start > rows, length, short, wrong)
}

pub fn patch_features(features: &[f64], rows: u64, start: u64, new: &[f64], similarity: &[f64], novelty: &[f64]) -> u32 {
    let n = rows as usize;
    let length = || features.len() != n * WIDTH || patch_length(rows, start, new.len(), WIDTH);
    let short = || similarity.len() < n * BAND || novelty.len() < n;
    let wrong = || any(features, value) || any(new, value) || any(&similarity[..n * BAND], likeness) || any(&novelty[..n], value);
    lowest(rows > MOST_FEATURE_ROWS as u64 || start > rows, length, short, wrong)
}

// ---- document 02, No. 3: "6 for fewer than two beats or frames not strictly ascending, 7 for a gap above 16,777,215, 8 for a file of another
// shape or a tempo of 0, in that order after 1, then 3 when the output doesn't fit". What is written has that shape, and frames are apart: no 8.

pub fn write_tempo_track(beats: &[u32], rate: u64, file: usize) -> u32 {
    if !RATE.contains(&rate) || beats.iter().any(|&t| t > MOST_FRAME) {
        1
    } else if beats.len() < 2 || beats.windows(2).any(|pair| pair[1] <= pair[0]) {
        6
    } else if formats::gaps(beats, rate).iter().any(|&gap| gap > formats::MOST_TEMPO) {
        7
    } else if file < formats::size(beats.len()) {
        3
    } else {
        0
    }
}

pub fn read_tempo_track(file: &[u8], gaps: usize) -> u32 {
    formats::read(file).map_or(8, |read| if gaps < read.len() { 3 } else { 0 })
}

// ---- document 02, No. 6: "9 for a line or chunk not of this form, 10 for a time or offset that is no listed frame's, 11 for frames not strictly
// ascending, in that order after 1, then 3 when the output doesn't fit". A chunk alone has no rate, and frames have no 9 and no 10.

fn no_rate(rate: Option<u64>) -> bool {
    rate.is_some_and(|rate| !RATE.contains(&rate))
}

fn fall(frames: &[u32]) -> bool {
    frames.windows(2).any(|pair| pair[1] <= pair[0])
}

// frames that are lent: 1, 11, and then room, which is asked where there is an answer
fn of_frames(frames: &[u32], rate: Option<u64>, fits: impl FnOnce() -> bool) -> u32 {
    if no_rate(rate) || frames.iter().any(|&t| t > MOST_FRAME) {
        1
    } else if fall(frames) {
        11
    } else if !fits() {
        3
    } else {
        0
    }
}

// what is in a label track or a cue chunk: 1, 9, 10, 11, and then room for these frames
fn of_file(rate: Option<u64>, named: impl FnOnce() -> Option<labels::Named>, fits: impl FnOnce(&[u32]) -> bool) -> u32 {
    if no_rate(rate) {
        return 1;
    }
    let Some(named) = named() else { return 9 };
    let Some(frames) = named.into_iter().collect::<Option<Vec<u32>>>() else { return 10 };
    if fall(&frames) {
        11
    } else if !fits(&frames) {
        3
    } else {
        0
    }
}

pub fn labels_room(frames: &[u32], rate: u64) -> u32 {
    of_frames(frames, Some(rate), || true)
}

pub fn write_labels(frames: &[u32], rate: u64, text: usize) -> u32 {
    of_frames(frames, Some(rate), || text >= labels::labels(frames, rate).len())
}

pub fn read_labels(text: &[u8], rate: u64, frames: usize) -> u32 {
    of_file(Some(rate), || labels::named_in_labels(text, rate), |read| frames >= read.len())
}

pub fn write_cues(frames: &[u32], chunk: usize) -> u32 {
    of_frames(frames, None, || chunk >= 12 + 24 * frames.len())
}

pub fn read_cues(chunk: &[u8], frames: usize) -> u32 {
    of_file(None, || labels::named_in_cues(chunk), |read| frames >= read.len())
}

pub fn labels_to_cues(text: &[u8], rate: u64, chunk: usize) -> u32 {
    of_file(Some(rate), || labels::named_in_labels(text, rate), |read| chunk >= 12 + 24 * read.len())
}

pub fn cues_to_labels(chunk: &[u8], rate: u64, text: usize) -> u32 {
    of_file(Some(rate), || labels::named_in_cues(chunk), |read| text >= labels::labels(read, rate).len())
}
