//! The exported functions: how each is called, what it is fed, and which slots an answer may have changed.
use crate::ffi::*;
use crate::lend::{cell, changed, input, output, whole, After, Arg, Word};
use crate::numbers::*;
use prohunsev::limits::*;
use prohunsev::{lag_range, rooms, LagRange, TempoOpts};
use std::ops::Range;

/// Ranges of slots by argument, several for one where slots between them are held; or what is wrong with an answer.
pub type Reach = Result<Vec<(usize, Range<usize>)>, String>;

/// An exported function and how it is tried.
pub struct Call {
    pub name: &'static str,
    pub function: fn(&[Word]) -> u32,
    /// The numbers of refusal that it has; it gives no other, and each of these for some input.
    pub refuses: &'static [u32],
    /// Draws its arguments.
    pub draw: fn(&mut Numbers) -> Vec<Arg>,
    /// Its arguments at the bounds, the number so-and-so of them; None past the last.
    pub bound: fn(&mut Numbers, u64) -> Option<Vec<Arg>>,
    /// Which slots of each lent argument an answer may have changed, by argument; or what is wrong with the answer.
    pub reach: fn(&[Arg], &After) -> Reach,
    /// The lent arguments that are chosen by the meter; in no other does it make a difference to an answer.
    pub chosen: &'static [usize],
}

// how an exported function is handed its words, by the kind of each: s a slice, p a lent number, n size, u u32, l u64, f float
macro_rules! hand {
    ($function:ident, $($word:tt)*) => {
        |w: &[Word]| {
            let mut k = 0;
            let mut next = || {
                k += 1;
                w[k - 1]
            };
            // SAFETY: the words are the arguments that the header declares, each slice mapped as far as its length says; that the function
            // stays inside is what is tried here
            hand!(@ $function next [] $($word)*)
        }
    };
    (@ $f:ident $next:ident [$($done:expr,)*]) => { unsafe { $f($($done),*) } };
    (@ $f:ident $next:ident [$($done:expr,)*] s $($rest:tt)*) => {{
        let slice = $next();
        hand!(@ $f $next [$($done,)* slice.at(), slice.slots(),] $($rest)*)
    }};
    (@ $f:ident $next:ident [$($done:expr,)*] p $($rest:tt)*) => {{
        let at = $next().at();
        hand!(@ $f $next [$($done,)* at,] $($rest)*)
    }};
    (@ $f:ident $next:ident [$($done:expr,)*] n $($rest:tt)*) => {{
        let n = $next().size();
        hand!(@ $f $next [$($done,)* n,] $($rest)*)
    }};
    (@ $f:ident $next:ident [$($done:expr,)*] u $($rest:tt)*) => {{
        let n = $next().small();
        hand!(@ $f $next [$($done,)* n,] $($rest)*)
    }};
    (@ $f:ident $next:ident [$($done:expr,)*] l $($rest:tt)*) => {{
        let n = $next().long();
        hand!(@ $f $next [$($done,)* n,] $($rest)*)
    }};
    (@ $f:ident $next:ident [$($done:expr,)*] f $($rest:tt)*) => {{
        let x = $next().real();
        hand!(@ $f $next [$($done,)* x,] $($rest)*)
    }};
}

macro_rules! call {
    ($name:ident, $function:ident, $module:ident, $refuses:tt, $($word:ident)*) => {
        call!($name, $function, $module, $refuses, $($word)*; [])
    };
    ($name:ident, $function:ident, $module:ident, $refuses:tt, $($word:ident)*; $chosen:tt) => {
        Call {
            name: stringify!($name),
            function: hand!($function, $($word)*),
            refuses: &$refuses,
            draw: $module::draw,
            bound: $module::bound,
            reach: $module::reach,
            chosen: &$chosen,
        }
    };
}

/// The version of the library that is linked: major * 1,000,000 + minor * 1,000 + patch. It takes nothing, so there is nothing to guard.
pub fn version() -> u32 {
    // it takes nothing, and returns a constant
    unsafe { ph_version() }
}

pub const CALLS: [Call; 32] = [
    call!(median_of, ph_median_of, median, [1, 3, 4], s s p),
    call!(mad_of, ph_mad_of, mad, [1, 3, 4], s f s p),
    call!(spectral_flux, ph_spectral_flux, flux, [1, 2, 3, 4], s n n s),
    call!(adaptive_threshold, ph_adaptive_threshold, threshold, [1, 3, 4], s s s),
    call!(pick_onsets, ph_pick_onsets, onsets, [1, 2, 3, 4], s s u s p),
    call!(suppress_close_peaks, ph_suppress_close_peaks, peaks, [1, 3, 4], s s n s p),
    call!(frame_times, ph_frame_times, times, [1, 3], s u s),
    call!(lag_range, ph_lag_range, lags, [1], u f f n p p),
    call!(estimate, ph_estimate, tempo, [1, 3, 4], s n u f f n s s s p p p p p p),
    call!(stability_of, ph_stability_of, stability, [1, 3, 4], s u f f n n s s s p p p p),
    call!(beat_grid, ph_beat_grid, grid, [1, 3, 4], s n s s s p),
    call!(downbeats, ph_downbeats, bars, [1, 3, 4], s s n s p; [3, 4]),
    call!(bar_beat_at, ph_bar_beat_at, places, [], f s s p p p),
    call!(feature_rows, ph_feature_rows, track_features, [1, 2, 3, 4], s n s u l n s),
    call!(similarity, ph_similarity, similarity, [1, 2, 3, 4], s n s),
    call!(novelty, ph_novelty, novelty, [1, 2, 3, 4], s n s),
    call!(boundaries, ph_boundaries, sections, [1, 3, 4], s l u n s s p p p),
    call!(boundary_times, ph_boundary_times, section_times, [1, 3], s l u s),
    call!(patch_magnitudes, ph_patch_magnitudes, magnitudes, [1, 2, 3, 4], s n n n s s s s p p p p),
    call!(patch_features, ph_patch_features, features, [1, 2, 3, 4], s n n s s s p p p p),
    call!(room_of, ph_room_of, track_rooms, [1], n u f f n p p p),
    call!(
        analyse_envelope,
        ph_analyse_envelope,
        tracks,
        [1, 3, 4],
        s u f f n s s s s s s s s s s s p p p p p p p p p p p p p; [14, 28]
    ),
    call!(
        analyse_magnitudes,
        ph_analyse_magnitudes,
        slabs,
        [1, 2, 3, 4],
        s n n u f f n s s s s s s s s s s s s p p p p p p p p p p p p p; [17, 31]
    ),
    call!(write_tempo_track, ph_write_tempo_track, tempo_tracks, [1, 3, 6, 7], s u s p),
    call!(read_tempo_track, ph_read_tempo_track, tempo_files, [3, 8], s s p),
    call!(labels_room, ph_labels_room, label_rooms, [1, 11], s u p),
    call!(write_labels, ph_write_labels, label_tracks, [1, 3, 11], s u s p),
    call!(read_labels, ph_read_labels, label_texts, [1, 3, 9, 10, 11], s u s p),
    call!(write_cues, ph_write_cues, cue_chunks, [1, 3, 11], s s p),
    call!(read_cues, ph_read_cues, cue_points, [3, 9, 10, 11], s s p),
    call!(labels_to_cues, ph_labels_to_cues, labels_as_cues, [1, 3, 9, 10, 11], s u s p),
    call!(cues_to_labels, ph_cues_to_labels, cues_as_labels, [1, 3, 9, 10, 11], s u s p),
];

/// The downbeats by a call that doesn't hand the meter on (misbehave.rs).
pub const BARS_OF_FOUR: Call = Call {
    name: "lists_every_fourth_beat",
    // SAFETY: as above
    function: |w| unsafe {
        ph_downbeats(w[0].at(), w[0].slots(), w[1].at(), w[1].slots(), 4, w[3].at(), w[3].slots(), w[4].at())
    },
    refuses: &[1, 3, 4],
    draw: |r| bars::draw(r).into_iter().map(|arg| if let Arg::Meter(_) = arg { Arg::Meter(3) } else { arg }).collect(),
    bound: |_, _| None,
    reach: bars::reach,
    chosen: &[3, 4],
};

/// The bounds of the tempo, of a call that takes them: the only two floats side by side.
pub fn bounds(args: &[Arg]) -> Option<[f64; 2]> {
    args.windows(2).find_map(|pair| match pair {
        [Arg::Real(low), Arg::Real(high)] => Some([*low, *high]),
        _ => None,
    })
}
/// The same arguments with the usual bounds.
pub fn with_usual_bounds(args: &[Arg]) -> Vec<Arg> {
    let usual = [TempoOpts::DEFAULT_MIN_BPM, TempoOpts::DEFAULT_MAX_BPM].map(Arg::Real);
    let mut bounds = usual.into_iter();
    let one = |arg: &Arg| if let Arg::Real(_) = arg { bounds.next() } else { None }.unwrap_or_else(|| arg.clone());
    args.iter().map(one).collect()
}
/// The beats of a bar, of a call that takes them.
pub fn meter_of(args: &[Arg]) -> Option<usize> {
    args.iter().find_map(|arg| if let Arg::Meter(meter) = arg { Some(*meter) } else { None })
}
/// Whether number 1 leaves a meter alone, as request No. 4 says it.
pub fn is_meter(meter: usize) -> bool {
    (1..=16).contains(&meter)
}
/// The same arguments with four beats to the bar.
pub fn with_usual_meter(args: &[Arg]) -> Vec<Arg> {
    args.iter().map(|arg| if let Arg::Meter(_) = arg { Arg::Meter(4) } else { arg.clone() }).collect()
}
// The downbeats of beats, by their rule: each meter-th, from the first of the first meter beats that makes the sum of their values greatest;
// a beat past the envelope adds 0.
fn bars_of(envelope: &[f64], beats: &[u32], meter: usize) -> Vec<u32> {
    let of = |phase: usize| beats.iter().copied().skip(phase).step_by(meter);
    let value = |beat: u32| envelope.get(beat as usize).copied().unwrap_or(0.0);
    let sums: Vec<f64> = (0..meter).map(|phase| of(phase).fold(0.0, |sum, beat| sum + value(beat))).collect();
    let first = (0..meter).fold(0, |best, phase| if sums[phase] > sums[best] { phase } else { best });
    of(first).collect()
}

// ---- what the calls' arguments have in common

fn slots(arg: &Arg) -> usize {
    match arg {
        Arg::Lent { slots, .. } => *slots,
        _ => unreachable!("a number has no slots"),
    }
}
fn number(arg: &Arg) -> usize {
    match arg {
        Arg::Whole(n) => *n as usize,
        _ => unreachable!("no whole number"),
    }
}
// of an answer, which no other meter has
fn beats_of_a_bar(arg: &Arg) -> Result<usize, String> {
    match arg {
        Arg::Meter(meter) if is_meter(*meter) => Ok(*meter),
        Arg::Meter(meter) => Err(format!("answers the meter {meter}")),
        _ => unreachable!("no meter"),
    }
}
fn real(arg: &Arg) -> f64 {
    match arg {
        Arg::Real(x) => *x,
        _ => unreachable!("no float"),
    }
}
// the floats of these bytes
fn floats(bytes: &[u8]) -> Vec<f64> {
    bytes.chunks(8).map(|b| f64::from_ne_bytes(b.try_into().unwrap())).collect()
}
// those of an input
fn reals(arg: &Arg) -> Vec<f64> {
    match arg {
        Arg::Lent { values, .. } => floats(values),
        _ => unreachable!("a number has no slots"),
    }
}
fn frames(arg: &Arg) -> Vec<u32> {
    match arg {
        Arg::Lent { values, .. } => values.chunks(4).map(|b| u32::from_ne_bytes(b.try_into().unwrap())).collect(),
        _ => unreachable!("a number has no slots"),
    }
}
fn bytes(arg: &Arg) -> &[u8] {
    match arg {
        Arg::Lent { values, .. } => values,
        _ => unreachable!("a number has no slots"),
    }
}
// a lent number, or the three in a row that candidates are
fn all(k: usize) -> (usize, Range<usize>) {
    (k, 0..3)
}
fn must(fine: bool, what: &str) -> Result<(), String> {
    if fine {
        Ok(())
    } else {
        Err(what.into())
    }
}
// a count of at most so many
fn counted(after: &After, k: usize, most: usize) -> Result<usize, String> {
    let count = after.whole(k);
    must(count <= most, "counts more entries than there can be")?;
    Ok(count)
}
fn ascend(frames: &[u32], below: usize) -> Result<(), String> {
    must(frames.windows(2).all(|w| w[0] < w[1]), "the list doesn't ascend")?;
    must(frames.last().is_none_or(|&f| (f as usize) < below), "the list points past the curve")
}
// a frame, now and then one that no call accepts
fn frame(r: &mut Numbers, below: usize) -> u32 {
    if r.once_in(400) {
        return r.one_of(&[MOST_FRAME, MOST_FRAME + 1, u32::MAX, 1 << 31]);
    }
    r.between(0, below.max(1) - 1) as u32
}
// fine values at a bound
fn steady(n: usize) -> Vec<f64> {
    (0..n).map(|t| (t % 11) as f64 + if t % 64 == 3 { 9.0 } else { 0.0 }).collect()
}
// lengths at the bound, just past it, and just before it
fn around(k: u64, most: usize) -> Option<usize> {
    [most, most + 1, most - 1].get(k as usize).copied()
}

mod median {
    use super::*;
    pub fn draw(r: &mut Numbers) -> Vec<Arg> {
        let n = length(r);
        vec![input(&values::<f64>(r, n)), output::<f64>(room(r, n)), cell::<f64>()]
    }
    pub fn bound(_: &mut Numbers, k: u64) -> Option<Vec<Arg>> {
        let n = *[1 << 20, (1 << 20) + 1].get(k as usize)?;
        Some(vec![input(&steady(n)), output::<f64>(n), cell::<f64>()])
    }
    pub fn reach(a: &[Arg], _: &After) -> Reach {
        Ok(vec![(1, 0..slots(&a[0])), all(2)])
    }
}

mod mad {
    use super::*;
    pub fn draw(r: &mut Numbers) -> Vec<Arg> {
        let n = length(r);
        let median = values::<f64>(r, 1)[0];
        vec![input(&values::<f64>(r, n)), Arg::Real(median), output::<f64>(room(r, n)), cell::<f64>()]
    }
    pub fn bound(_: &mut Numbers, k: u64) -> Option<Vec<Arg>> {
        let n = *[1 << 20, (1 << 20) + 1].get(k as usize)?;
        Some(vec![input(&steady(n)), Arg::Real(5.0), output::<f64>(n), cell::<f64>()])
    }
    pub fn reach(a: &[Arg], _: &After) -> Reach {
        Ok(vec![(2, 0..slots(&a[0])), all(3)])
    }
}

mod flux {
    use super::*;
    pub fn draw(r: &mut Numbers) -> Vec<Arg> {
        let (bins, rows) = (r.one_of(&[1, 1, 2, 3, 4, 5, 7, 8, 33]), length(r).min(300));
        let mut slab = values::<f32>(r, rows * bins);
        if r.once_in(30) {
            slab.truncate(r.between(0, slab.len()));
        }
        vec![input(&slab), whole(count(r, rows)), whole(count(r, bins)), output::<f64>(room(r, rows))]
    }
    pub fn bound(_: &mut Numbers, k: u64) -> Option<Vec<Arg>> {
        let shapes = [(MOST_ROWS, 1), (MOST_ROWS + 1, 1), (256, MOST_BINS), (256, MOST_BINS + 1), (MOST_ROWS - 1, 3)];
        let (rows, bins) = *shapes.get(k as usize)?;
        let slab: Vec<f32> = (0..rows * bins).map(|i| (i % 13) as f32).collect();
        Some(vec![input(&slab), whole(rows), whole(bins), output::<f64>(rows)])
    }
    pub fn reach(a: &[Arg], _: &After) -> Reach {
        Ok(vec![(3, 0..number(&a[1]))])
    }
}

mod threshold {
    use super::*;
    pub fn draw(r: &mut Numbers) -> Vec<Arg> {
        let n = length(r);
        vec![input(&values::<f64>(r, n)), output::<f64>(room(r, n)), output::<f64>(room(r, n.min(21)))]
    }
    pub fn bound(_: &mut Numbers, k: u64) -> Option<Vec<Arg>> {
        let n = around(k, MOST_ROWS)?;
        Some(vec![input(&steady(n)), output::<f64>(n), output::<f64>(21)])
    }
    pub fn reach(a: &[Arg], _: &After) -> Reach {
        let n = slots(&a[0]);
        Ok(vec![(1, 0..n), (2, 0..n.min(21))])
    }
}

mod onsets {
    use super::*;
    pub fn draw(r: &mut Numbers) -> Vec<Arg> {
        let n = length(r);
        let m = if r.once_in(30) { r.between(0, n + 1) } else { n };
        let (flux, threshold) = (values::<f64>(r, n), values::<f64>(r, m));
        vec![input(&flux), input(&threshold), whole(rate(r) as usize), output::<u32>(room(r, n)), cell::<usize>()]
    }
    pub fn bound(_: &mut Numbers, k: u64) -> Option<Vec<Arg>> {
        let n = around(k, MOST_ROWS)?;
        let threshold = vec![1.0; n];
        Some(vec![input(&steady(n)), input(&threshold), whole(48_000), output::<u32>(n), cell::<usize>()])
    }
    pub fn reach(a: &[Arg], after: &After) -> Reach {
        let n = slots(&a[0]);
        let count = counted(after, 4, n)?;
        ascend(&after.frames(3, count), n)?;
        Ok(vec![(3, 0..count), all(4)])
    }
}

mod peaks {
    use super::*;
    pub fn draw(r: &mut Numbers) -> Vec<Arg> {
        let m = length(r);
        let chance = r.between(1, 9) as u64;
        let mut peaks: Vec<u32> = (0..m as u32).filter(|_| r.once_in(chance)).collect();
        if r.once_in(10) && !peaks.is_empty() {
            let k = r.between(0, peaks.len() - 1);
            peaks[k] = frame(r, m + 2);
        }
        let gap = r.between(0, 20);
        let gap = count(r, gap);
        vec![
            input(&peaks),
            input(&values::<f64>(r, m)),
            whole(gap),
            output::<u32>(room(r, peaks.len())),
            cell::<usize>(),
        ]
    }
    pub fn bound(_: &mut Numbers, k: u64) -> Option<Vec<Arg>> {
        let n = around(k, MOST_ROWS)?;
        let peaks: Vec<u32> = (0..n as u32).collect();
        Some(vec![input(&peaks), input(&steady(n)), whole(6), output::<u32>(n), cell::<usize>()])
    }
    pub fn reach(a: &[Arg], after: &After) -> Reach {
        let count = counted(after, 4, slots(&a[0]))?;
        ascend(&after.frames(3, count), slots(&a[1]))?;
        Ok(vec![(3, 0..count), all(4)])
    }
}

mod times {
    use super::*;
    pub fn draw(r: &mut Numbers) -> Vec<Arg> {
        let n = length(r);
        let frames: Vec<u32> = (0..n).map(|_| frame(r, 1 << 20)).collect();
        vec![input(&frames), whole(rate(r) as usize), output::<f64>(room(r, n))]
    }
    pub fn bound(_: &mut Numbers, k: u64) -> Option<Vec<Arg>> {
        let n = *[MOST_ROWS, 2 * MOST_ROWS + 1].get(k as usize)?;
        Some(vec![input(&vec![MOST_FRAME; n]), whole(1), output::<f64>(n)])
    }
    pub fn reach(a: &[Arg], _: &After) -> Reach {
        Ok(vec![(2, 0..slots(&a[0]))])
    }
}

mod lags {
    use super::*;
    pub fn draw(r: &mut Numbers) -> Vec<Arg> {
        let (hertz, low, high) = (rate(r), bpm(r), bpm(r));
        let opts = [Arg::Real(low), Arg::Real(high), Arg::Meter(meter(r))];
        [whole(hertz as usize)].into_iter().chain(opts).chain([cell::<usize>(), cell::<usize>()]).collect()
    }
    pub fn bound(_: &mut Numbers, _: u64) -> Option<Vec<Arg>> {
        None
    }
    pub fn reach(_: &[Arg], after: &After) -> Reach {
        let (least, most) = (after.whole(4), after.whole(5));
        must(1 <= least && least < most && most <= MOST_PERIOD, "lags out of range")?;
        Ok(vec![all(4), all(5)])
    }
}

// a search's rate and bounds, with the room of its lag curves; 64 where its rate is refused. Few have many lags.
fn search(r: &mut Numbers) -> (u32, f64, f64, usize) {
    loop {
        let (rate, low, high) = (rate(r), bpm(r), bpm(r));
        let room = rooms::lags(rate, TempoOpts::between(low, high)).unwrap_or(64);
        if room <= 600 || r.once_in(60) {
            return (rate, low, high, room);
        }
    }
}
// an envelope, often long enough for the lags
fn searched(r: &mut Numbers, room: usize) -> Vec<f64> {
    let n = if r.once_in(3) { length(r) } else { (room * r.between(1, 5)).min(4_000) + r.between(0, 9) };
    values::<f64>(r, n)
}
// rate and bounds with few lags and with the most, and envelopes at the bound and past it
fn widest(k: u64) -> Option<(u32, f64, f64, usize)> {
    let widest = [(1, 30.0, 300.0, MOST_ROWS), (1, 30.0, 300.0, MOST_ROWS + 1), (192_000, 1.0, 2.0, 45_003)];
    widest.get(k as usize).copied()
}

// the lent numbers of a tempo: found, bpm, clarity, lags, saliences, count
fn tempo_cells() -> [Arg; 6] {
    [cell::<u32>(), cell::<f64>(), cell::<f64>(), output::<usize>(3), output::<f64>(3), cell::<usize>()]
}
// those of a stability: found, fraction, agreeing, windows
fn stability_cells() -> [Arg; 4] {
    [cell::<u32>(), cell::<f64>(), cell::<usize>(), cell::<usize>()]
}
// what they hold, from `found` at this argument on
fn tempo_fits(after: &After, found: usize, range: LagRange) -> Result<(), String> {
    let count = counted(after, found + 5, 3)?;
    match after.whole(found) {
        0 => must((found + 1..=found + 5).all(|k| after.zeros(k)), "no tempo, but values"),
        1 => {
            must(count >= 1, "a tempo without a winner")?;
            let lag = |k: usize| usize::from_ne_bytes(after.held[found + 3][8 * k..8 * k + 8].try_into().unwrap());
            must((0..count).all(|k| (range.min_lag..=range.max_lag).contains(&lag(k))), "a lag out of range")?;
            must((count..3).all(|k| lag(k) == 0), "an unused candidate isn't zero")
        }
        _ => Err("found is neither 0 nor 1".into()),
    }
}
// whether the sum of squares about the mean is at most 2^-52
fn flat(envelope: &[f64]) -> bool {
    let mean = envelope.iter().sum::<f64>() / envelope.len() as f64;
    envelope.iter().map(|x| (x - mean) * (x - mean)).sum::<f64>() <= f64::EPSILON
}
// the slots of the lag curves: none where the envelope is too short, has fewer than two onsets or is flat
fn heard_at(envelope: &[f64], onsets: usize, range: LagRange) -> Range<usize> {
    if envelope.len() > range.max_lag + 1 && onsets >= 2 && !flat(envelope) {
        0..range.lags()
    } else {
        0..0
    }
}
// the lent numbers of a stability likewise
fn stability_fits(after: &After, found: usize) -> Result<(), String> {
    let (agreeing, windows) = (after.whole(found + 2), after.whole(found + 3));
    match after.whole(found) {
        0 => must((found + 1..=found + 3).all(|k| after.zeros(k)), "no stability, but values"),
        1 => must((2..=4).contains(&windows) && agreeing <= windows, "counts out of range"),
        _ => Err("found is neither 0 nor 1".into()),
    }
}

mod tempo {
    use super::*;
    pub fn draw(r: &mut Numbers) -> Vec<Arg> {
        let (rate, low, high, lags) = search(r);
        let envelope = searched(r, lags);
        let onsets = r.one_of(&[0, 1, 2, 3, 9, usize::MAX]);
        let rooms = [room(r, lags), room(r, lags), room(r, lags)];
        call(rate, [low, high], meter(r), &envelope, onsets, rooms)
    }
    pub fn bound(_: &mut Numbers, k: u64) -> Option<Vec<Arg>> {
        let (rate, low, high, n) = widest(k)?;
        let lags = rooms::lags(rate, TempoOpts::between(low, high)).unwrap();
        Some(call(rate, [low, high], 4, &steady(n), 9, [lags; 3]))
    }
    fn call(rate: u32, bounds: [f64; 2], meter: usize, envelope: &[f64], onsets: usize, rooms: [usize; 3]) -> Vec<Arg> {
        let mut args = vec![input(envelope), whole(onsets), whole(rate as usize)];
        args.extend(bounds.map(Arg::Real));
        args.push(Arg::Meter(meter));
        args.extend(rooms.map(output::<f64>));
        args.extend(tempo_cells());
        args
    }
    pub fn reach(a: &[Arg], after: &After) -> Reach {
        let opts = TempoOpts::between(real(&a[3]), real(&a[4]));
        let range = lag_range(number(&a[2]) as u32, opts).map_err(|e| e.to_string())?;
        tempo_fits(after, 9, range)?;
        // the work slice is asked for and left alone
        let curves = heard_at(&reals(&a[0]), number(&a[1]), range);
        let mut reach = vec![(6, curves.clone()), (7, curves)];
        reach.extend((9..=14).map(all));
        Ok(reach)
    }
}

mod stability {
    use super::*;
    pub fn draw(r: &mut Numbers) -> Vec<Arg> {
        let (rate, low, high, lags) = search(r);
        let envelope = searched(r, lags);
        let right = r.between(0, 2 * lags + 40);
        let lag = if r.once_in(10) { r.one_of(&[0, 45_000, 45_001, usize::MAX]) } else { right };
        let rooms = [room(r, lags), room(r, lags), room(r, lags)];
        call(rate, [low, high], meter(r), &envelope, lag, rooms)
    }
    pub fn bound(_: &mut Numbers, k: u64) -> Option<Vec<Arg>> {
        let (rate, low, high, n) = widest(k)?;
        let lags = rooms::lags(rate, TempoOpts::between(low, high)).unwrap();
        Some(call(rate, [low, high], 4, &steady(n), 2, [lags; 3]))
    }
    fn call(rate: u32, bounds: [f64; 2], meter: usize, envelope: &[f64], lag: usize, rooms: [usize; 3]) -> Vec<Arg> {
        let mut args = vec![input(envelope), whole(rate as usize)];
        args.extend(bounds.map(Arg::Real));
        args.extend([Arg::Meter(meter), whole(lag)]);
        args.extend(rooms.map(output::<f64>));
        args.extend(stability_cells());
        args
    }
    pub fn reach(a: &[Arg], after: &After) -> Reach {
        let opts = TempoOpts::between(real(&a[2]), real(&a[3]));
        let lags = rooms::lags(number(&a[1]) as u32, opts).map_err(|e| e.to_string())?;
        stability_fits(after, 9)?;
        // without a stability no window was searched
        let searched = if after.whole(9) == 1 { 0..lags } else { 0..0 };
        Ok((6..=8).map(|k| (k, searched.clone())).chain((9..=12).map(all)).collect())
    }
}

mod grid {
    use super::*;
    pub fn draw(r: &mut Numbers) -> Vec<Arg> {
        let n = length(r).min(600);
        let near = r.between(0, n + 20);
        let period = match r.between(0, 19) {
            0 => r.one_of(&[0, 2_048, 2_049, 45_000, 45_001, usize::MAX, 1 << 63]),
            1..=9 => r.between(1, 30),
            _ => near,
        };
        call(&values::<f64>(r, n), period, [room(r, n), room(r, n), room(r, n)])
    }
    pub fn bound(_: &mut Numbers, k: u64) -> Option<Vec<Arg>> {
        let (n, period) =
            *[(MOST_ROWS, 2), (MOST_ROWS + 1, 2), (4_500, 45_000), (9_000, 2_048), (3_000, 2_049)].get(k as usize)?;
        Some(call(&steady(n), period, [n; 3]))
    }
    fn call(envelope: &[f64], period: usize, rooms: [usize; 3]) -> Vec<Arg> {
        let [score, back, beats] = rooms;
        vec![
            input(envelope),
            whole(period),
            output::<f64>(score),
            output::<u32>(back),
            output::<u32>(beats),
            cell::<usize>(),
        ]
    }
    pub fn reach(a: &[Arg], after: &After) -> Reach {
        let n = slots(&a[0]);
        let count = counted(after, 5, n)?;
        ascend(&after.frames(4, count), n)?;
        let curves = if count == 0 { 0..0 } else { 0..n };
        Ok(vec![(2, curves.clone()), (3, curves), (4, 0..count), all(5)])
    }
}

mod bars {
    use super::*;
    pub fn draw(r: &mut Numbers) -> Vec<Arg> {
        let (n, m) = (length(r), length(r));
        let past = r.between(1, 2 * n + 1);
        let beats: Vec<u32> = (0..m).map(|_| frame(r, past)).collect();
        let (envelope, room) = (values::<f64>(r, n), room(r, m));
        vec![input(&envelope), input(&beats), Arg::Meter(meter(r)), output::<u32>(room), cell::<usize>()]
    }
    pub fn bound(_: &mut Numbers, k: u64) -> Option<Vec<Arg>> {
        // the usual meter, and then the least and the most
        let (n, meter) =
            [4, 1, 16].into_iter().flat_map(|m| (0..3).map(move |k| (around(k, MOST_ROWS), m))).nth(k as usize)?;
        let beats: Vec<u32> = (0..MOST_ROWS as u32).rev().collect();
        let (envelope, frames) = (input(&steady(n?)), output::<u32>(beats.len()));
        Some(vec![envelope, input(&beats), Arg::Meter(meter), frames, cell::<usize>()])
    }
    pub fn reach(a: &[Arg], after: &After) -> Reach {
        let (beats, meter) = (frames(&a[1]), beats_of_a_bar(&a[2])?);
        let count = counted(after, 4, beats.len().div_ceil(meter))?;
        must(after.frames(3, count) == bars_of(&reals(&a[0]), &beats, meter), "other downbeats than the beats give")?;
        Ok(vec![(3, 0..count), all(4)])
    }
}

mod places {
    use super::*;
    pub fn draw(r: &mut Numbers) -> Vec<Arg> {
        let (n, m) = (length(r), length(r));
        let mut list = |n| {
            let mut xs = values::<f64>(r, n);
            if r.once_in(2) {
                xs.sort_by(f64::total_cmp);
            }
            xs
        };
        let (downbeats, beats) = (list(n), list(m));
        let time = if r.once_in(2) { values::<f64>(r, 1)[0] } else { r.one_of(&[&downbeats[..], &[0.5]].concat()) };
        vec![Arg::Real(time), input(&downbeats), input(&beats), cell::<u32>(), cell::<usize>(), cell::<usize>()]
    }
    pub fn bound(_: &mut Numbers, k: u64) -> Option<Vec<Arg>> {
        let n = *[1 << 20, (1 << 20) + 1].get(k as usize)?;
        let lists = [input(&steady(n)), input(&steady(n))];
        let cells = [cell::<u32>(), cell::<usize>(), cell::<usize>()];
        Some([Arg::Real(8.0)].into_iter().chain(lists).chain(cells).collect())
    }
    pub fn reach(a: &[Arg], after: &After) -> Reach {
        let (bar, beat) = (after.whole(4), after.whole(5));
        match after.whole(3) {
            0 => must(bar == 0 && beat == 0, "nowhere, but a bar")?,
            1 => must(
                1 <= bar && bar <= slots(&a[1]) && 1 <= beat && beat <= slots(&a[2]).max(1),
                "no such bar or beat",
            )?,
            _ => return Err("found is neither 0 nor 1".into()),
        }
        Ok((3..=5).map(all).collect())
    }
}

#[path = "features.rs"]
mod track_features;

// rows of a track's features, few enough to be quick
fn feature_rows(r: &mut Numbers) -> usize {
    length(r).min(120)
}

mod similarity {
    use super::*;
    pub fn draw(r: &mut Numbers) -> Vec<Arg> {
        let rows = feature_rows(r);
        let mut slab = values::<f64>(r, rows * FEATURE_WIDTH);
        if r.once_in(20) {
            slab.truncate(r.between(0, slab.len()));
        }
        vec![input(&slab), whole(count(r, rows)), output::<f64>(room(r, rows * SIMILARITY_WIDTH))]
    }
    pub fn bound(_: &mut Numbers, k: u64) -> Option<Vec<Arg>> {
        let rows = around(k, MOST_FEATURE_ROWS)?;
        Some(vec![input(&steady(rows * FEATURE_WIDTH)), whole(rows), output::<f64>(rows * SIMILARITY_WIDTH)])
    }
    pub fn reach(a: &[Arg], _: &After) -> Reach {
        Ok(vec![(2, 0..number(&a[1]) * SIMILARITY_WIDTH)])
    }
}

mod novelty {
    use super::*;
    pub fn draw(r: &mut Numbers) -> Vec<Arg> {
        let rows = feature_rows(r);
        let mut band = values_up_to::<f64>(r, rows * SIMILARITY_WIDTH, 1.0);
        if r.once_in(20) {
            band.truncate(r.between(0, band.len()));
        }
        vec![input(&band), whole(count(r, rows)), output::<f64>(room(r, rows))]
    }
    pub fn bound(_: &mut Numbers, k: u64) -> Option<Vec<Arg>> {
        let rows = around(k, MOST_FEATURE_ROWS)?;
        let band: Vec<f64> = (0..rows * SIMILARITY_WIDTH).map(|i| (i % 5) as f64 / 4.0 - 0.5).collect();
        Some(vec![input(&band), whole(rows), output::<f64>(rows)])
    }
    pub fn reach(a: &[Arg], _: &After) -> Reach {
        Ok(vec![(2, 0..number(&a[1]))])
    }
}

// samples of a feature row
fn row_length(r: &mut Numbers) -> u64 {
    match r.between(0, 9) {
        0 => r.one_of(&[0, 1, 1 << 31, (1 << 31) + 1, u64::MAX, 1 << 32, (1 << 32) + 48_000]),
        1..=4 => r.between(1, 200_000) as u64,
        _ => r.one_of(&[24_000, 48_000, 22_050]),
    }
}

mod sections {
    use super::*;
    pub fn draw(r: &mut Numbers) -> Vec<Arg> {
        let n = length(r);
        let most = r.one_of(&[0, 1, 2, 3, 8, 1000, usize::MAX]);
        let curve = values::<f64>(r, n);
        call(&curve, row_length(r), rate(r), most, [room(r, n), room(r, n)])
    }
    pub fn bound(_: &mut Numbers, k: u64) -> Option<Vec<Arg>> {
        let n = around(k, MOST_FEATURE_ROWS)?;
        Some(call(&steady(n), 4_800, 48_000, 40, [n; 2]))
    }
    fn call(curve: &[f64], length: u64, rate: u32, most: usize, rooms: [usize; 2]) -> Vec<Arg> {
        let [rows, work] = rooms;
        let mut args = vec![input(curve), Arg::Whole(length), whole(rate as usize), whole(most)];
        args.extend([output::<u32>(rows), output::<f64>(work), cell::<usize>(), cell::<usize>(), cell::<f64>()]);
        args
    }
    pub fn reach(a: &[Arg], after: &After) -> Reach {
        let n = slots(&a[0]);
        let count = counted(after, 7, n.min(number(&a[3]).max(1) - 1))?;
        must(after.whole(6) == if n == 0 { 0 } else { count + 1 }, "sections aren't boundaries and one")?;
        ascend(&after.frames(4, count), n)?;
        // fewer than 16 rows are one section: nothing is sorted
        let sorted = if n < 16 { 0 } else { n };
        Ok(vec![(4, 0..count), (5, 0..sorted), all(6), all(7), all(8)])
    }
}

mod section_times {
    use super::*;
    pub fn draw(r: &mut Numbers) -> Vec<Arg> {
        let n = length(r);
        let mut rows: Vec<u32> = (0..n).map(|_| r.between(0, MOST_FEATURE_ROWS - 1) as u32).collect();
        if n > 0 && r.once_in(10) {
            let k = r.between(0, n - 1);
            rows[k] = r.one_of(&[49_999, 50_000, u32::MAX]);
        }
        vec![input(&rows), Arg::Whole(row_length(r)), whole(rate(r) as usize), output::<f64>(room(r, n))]
    }
    pub fn bound(_: &mut Numbers, k: u64) -> Option<Vec<Arg>> {
        let n = *[MOST_FEATURE_ROWS, 1 << 20].get(k as usize)?;
        Some(vec![input(&vec![49_999_u32; n]), Arg::Whole(1 << 31), whole(1), output::<f64>(n)])
    }
    pub fn reach(a: &[Arg], _: &After) -> Reach {
        Ok(vec![(3, 0..slots(&a[0]))])
    }
}

// the rows that a patch replaces: at both ends, in the middle, none, and now and then too many
fn replaced(r: &mut Numbers, rows: usize) -> (usize, usize) {
    let start = match r.between(0, 5) {
        0 => 0,
        1 => rows,
        2 => rows.saturating_sub(1),
        _ => r.between(0, rows),
    };
    let new = r.between(0, rows - start);
    (start, if r.once_in(20) { new + r.between(1, 3) } else { new })
}
// the slots from `before` a patch's first row to `after` its last, cut at the ends
fn mended(start: usize, new: usize, rows: usize, before: usize, after: usize) -> Range<usize> {
    if new == 0 {
        0..0
    } else {
        start.saturating_sub(before)..(start + new + after).min(rows)
    }
}
// the lent numbers that name them: the first and the past-last slot of two curves
fn named_cells() -> [Arg; 4] {
    [(); 4].map(|_| cell::<usize>())
}
fn named(after: &After, k: usize) -> Range<usize> {
    after.whole(k)..after.whole(k + 1)
}

mod magnitudes {
    use super::*;
    pub fn draw(r: &mut Numbers) -> Vec<Arg> {
        let (bins, rows) = (r.one_of(&[1, 1, 2, 3, 4, 5, 8]), length(r).min(200));
        let (start, new) = replaced(r, rows);
        let mut patch = values::<f32>(r, new * bins);
        if r.once_in(20) {
            patch.truncate(r.between(0, patch.len()));
        }
        let (slab, flux, threshold) = (values::<f32>(r, rows * bins), values::<f64>(r, rows), values::<f64>(r, rows));
        let rooms = [room(r, rows), room(r, rows), room(r, rows.min(21))];
        call(&slab, [count(r, rows), count(r, bins), count(r, start)], &patch, &flux, &threshold, rooms)
    }
    pub fn bound(_: &mut Numbers, k: u64) -> Option<Vec<Arg>> {
        let all = MOST_ROWS;
        let patches =
            [(all, 0, 9), (all, all - 9, 9), (all, all, 0), (all, 0, all), (all + 1, 0, 9), (all, 500_000, 1_000)];
        let (rows, start, new) = *patches.get(k as usize)?;
        let slab: Vec<f32> = (0..rows).map(|i| (i % 7) as f32).collect();
        let curve = steady(rows);
        Some(call(&slab, [rows, 1, start], &vec![9.0; new], &curve, &curve, [rows, rows, 21]))
    }
    fn call(
        slab: &[f32],
        told: [usize; 3],
        patch: &[f32],
        flux: &[f64],
        threshold: &[f64],
        rooms: [usize; 3],
    ) -> Vec<Arg> {
        // slots past the formula are not read: they are room, which holds what no call accepts
        let curves = [changed(flux, rooms[0]), changed(threshold, rooms[1]), output::<f64>(rooms[2])];
        let mut args = vec![changed(slab, slab.len()), whole(told[0]), whole(told[1]), whole(told[2]), input(patch)];
        args.extend(curves.into_iter().chain(named_cells()));
        args
    }
    pub fn reach(a: &[Arg], after: &After) -> Reach {
        let (rows, bins, start) = (number(&a[1]), number(&a[2]), number(&a[3]));
        let new = slots(&a[4]) / bins;
        let (flux, threshold) = (mended(start, new, rows, 0, 1), mended(start, new, rows, 10, 11));
        must(named(after, 8) == flux && named(after, 10) == threshold, "names other slots than those that follow")?;
        let work = if new == 0 { 0 } else { rows.min(21) };
        let mut reach = vec![(0, start * bins..(start + new) * bins), (5, flux), (6, threshold), (7, 0..work)];
        reach.extend((8..=11).map(all));
        Ok(reach)
    }
}

mod features {
    use super::*;
    pub fn draw(r: &mut Numbers) -> Vec<Arg> {
        let rows = feature_rows(r);
        let (start, new) = replaced(r, rows);
        let mut patch = values::<f64>(r, new * FEATURE_WIDTH);
        if r.once_in(20) {
            patch.truncate(r.between(0, patch.len()));
        }
        let slab = values::<f64>(r, rows * FEATURE_WIDTH);
        let (band, curve) = (values_up_to::<f64>(r, rows * SIMILARITY_WIDTH, 1.0), values::<f64>(r, rows));
        let rooms = [room(r, rows * SIMILARITY_WIDTH), room(r, rows)];
        call(&slab, [count(r, rows), count(r, start)], &patch, &band, &curve, rooms)
    }
    pub fn bound(_: &mut Numbers, k: u64) -> Option<Vec<Arg>> {
        let all = MOST_FEATURE_ROWS;
        let patches =
            [(all, 0, 9), (all, all - 9, 9), (all, all, 0), (all, 0, all), (all + 1, 0, 9), (all, 25_000, 40)];
        let (rows, start, new) = *patches.get(k as usize)?;
        let band = vec![0.25; rows * SIMILARITY_WIDTH];
        let (slab, patch) = (steady(rows * FEATURE_WIDTH), steady(new * FEATURE_WIDTH));
        Some(call(&slab, [rows, start], &patch, &band, &steady(rows), [rows * SIMILARITY_WIDTH, rows]))
    }
    fn call(slab: &[f64], told: [usize; 2], patch: &[f64], band: &[f64], curve: &[f64], rooms: [usize; 2]) -> Vec<Arg> {
        let mut args = vec![changed(slab, slab.len()), whole(told[0]), whole(told[1]), input(patch)];
        args.extend([changed(band, rooms[0]), changed(curve, rooms[1])].into_iter().chain(named_cells()));
        args
    }
    pub fn reach(a: &[Arg], after: &After) -> Reach {
        let (rows, start) = (number(&a[1]), number(&a[2]));
        let new = slots(&a[3]) / FEATURE_WIDTH;
        let curve = mended(start, new, rows, 7, 8);
        // from the pair of the first row that reaches the patch with the patch's first row, to the end of the patch's last row
        let first = start.saturating_sub(16);
        let band = if new == 0 { 0..0 } else { first * 17 + (start - first)..(start + new) * 17 };
        must(named(after, 6) == band && named(after, 8) == curve, "names other slots than those that follow")?;
        let mut reach = vec![(0, start * FEATURE_WIDTH..(start + new) * FEATURE_WIDTH), (5, curve)];
        // of the named slots only the pairs that touch the patch: those of its own rows, and of each row before it those with one of them
        let last = start + new;
        reach.extend((first..start).map(|i| (4, 17 * i + (start - i)..17 * i + (last - i).min(17))));
        reach.push((4, start * 17..last * 17));
        reach.extend((6..=9).map(all));
        Ok(reach)
    }
}

// ---- whole tracks

mod track_rooms {
    use super::*;
    pub fn draw(r: &mut Numbers) -> Vec<Arg> {
        let rows = length(r);
        let (rows, rate, bounds) = (count(r, rows), rate(r), [bpm(r), bpm(r)]);
        call(rows, rate, bounds, meter(r))
    }
    pub fn bound(_: &mut Numbers, k: u64) -> Option<Vec<Arg>> {
        Some(call(around(k, MOST_ROWS)?, 48_000, [30.0, 300.0], 4))
    }
    fn call(rows: usize, rate: u32, bounds: [f64; 2], meter: usize) -> Vec<Arg> {
        let mut args = vec![whole(rows), whole(rate as usize)];
        args.extend(bounds.map(Arg::Real));
        args.push(Arg::Meter(meter));
        args.extend([(); 3].map(|_| cell::<usize>()));
        args
    }
    pub fn reach(a: &[Arg], after: &After) -> Reach {
        let (rows, rate) = (number(&a[0]), number(&a[1]) as u32);
        let lags = rooms::lags(rate, TempoOpts::between(real(&a[2]), real(&a[3]))).map_err(|e| e.to_string())?;
        let need = [rows, lags, lags.max(rows.min(21))];
        must([5, 6, 7].map(|k| after.whole(k)) == need, "another room than the calls of its own ask for")?;
        Ok((5..=7).map(all).collect())
    }
}

// the slices of a track's analysis, from its thresholds to its work slice, and the lent numbers behind them
const TRACK_SLICES: usize = 11;
fn track_needs(n: usize, lags: usize) -> [usize; TRACK_SLICES] {
    [n, n, lags, lags, lags, lags, n, n, n, n, lags.max(n.min(21))]
}
// mostly room for all of it; at times one slice is short
fn track_room(r: &mut Numbers, n: usize, lags: usize) -> [usize; TRACK_SLICES] {
    let mut rooms = track_needs(n, lags).map(|need| need + r.one_of(&[0, 0, 1, 9]));
    let k = r.between(0, 4 * TRACK_SLICES);
    if k < TRACK_SLICES {
        rooms[k] = room(r, track_needs(n, lags)[k]);
    }
    rooms
}
fn lend_track(args: &mut Vec<Arg>, rooms: [usize; TRACK_SLICES]) {
    let lists = [1, 7, 8, 9];
    args.extend(rooms.iter().enumerate().map(
        |(k, &n)| {
            if lists.contains(&k) {
                output::<u32>(n)
            } else {
                output::<f64>(n)
            }
        },
    ));
    args.push(cell::<usize>());
    args.extend(tempo_cells().into_iter().chain(stability_cells()));
    args.extend([cell::<usize>(), cell::<usize>()]);
}
// what a track with this envelope may have changed, its thresholds being argument k
fn track_reach(after: &After, k: usize, envelope: &[f64], range: LagRange, meter: usize) -> Reach {
    let (n, first) = (envelope.len(), k + TRACK_SLICES);
    let [onsets, found, steady, beats, bars] = [0, 1, 7, 11, 12].map(|i| first + i);
    let heard = counted(after, onsets, n)?;
    let heard_frames = after.frames(k + 1, heard);
    ascend(&heard_frames, n)?;
    tempo_fits(after, found, range)?;
    stability_fits(after, steady)?;
    let laid = counted(after, beats, n)?;
    let laid_frames = after.frames(k + 8, laid);
    ascend(&laid_frames, n)?;
    let begun = counted(after, bars, laid.div_ceil(meter))?;
    must(after.frames(k + 9, begun) == bars_of(envelope, &laid_frames, meter), "other downbeats than the beats give")?;
    must(after.whole(found) == 1 || after.whole(steady) == 0 && laid == 0, "no tempo, but a stability or beats")?;

    let curves = heard_at(envelope, heard, range);
    // without a stability no window was searched; the tempo leaves the work slice alone
    let searched = if after.whole(steady) == 1 { range.lags() } else { 0 };
    let links = if laid == 0 { 0..0 } else { 0..n };
    let slices = [
        0..n,
        0..heard,
        curves.clone(),
        curves,
        0..searched,
        0..searched,
        links.clone(),
        links,
        0..laid,
        0..begun,
        0..searched.max(n.min(21)),
    ];
    Ok((k..).zip(slices).chain((first..first + 13).map(all)).collect())
}
// so many frames at most, so that many tracks are tried
const TRACK_FRAMES: usize = 1_600;

mod tracks {
    use super::*;
    pub fn draw(r: &mut Numbers) -> Vec<Arg> {
        let (rate, low, high, lags) = search(r);
        let mut envelope = searched(r, lags);
        envelope.truncate(TRACK_FRAMES);
        let rooms = track_room(r, envelope.len(), lags);
        call(&envelope, rate, [low, high], meter(r), rooms)
    }
    pub fn bound(_: &mut Numbers, k: u64) -> Option<Vec<Arg>> {
        let tracks = [(1, 30.0, 300.0, MOST_ROWS), (1, 30.0, 300.0, MOST_ROWS + 1), (192_000, 1.0, 2.0, TRACK_FRAMES)];
        let (rate, low, high, n) = *tracks.get(k as usize)?;
        let lags = rooms::lags(rate, TempoOpts::between(low, high)).unwrap();
        Some(call(&steady(n), rate, [low, high], 4, track_needs(n, lags)))
    }
    fn call(envelope: &[f64], rate: u32, bounds: [f64; 2], meter: usize, rooms: [usize; TRACK_SLICES]) -> Vec<Arg> {
        let mut args = vec![input(envelope), whole(rate as usize)];
        args.extend(bounds.map(Arg::Real));
        args.push(Arg::Meter(meter));
        lend_track(&mut args, rooms);
        args
    }
    pub fn reach(a: &[Arg], after: &After) -> Reach {
        let opts = TempoOpts::between(real(&a[2]), real(&a[3]));
        let range = lag_range(number(&a[1]) as u32, opts).map_err(|e| e.to_string())?;
        track_reach(after, 5, &reals(&a[0]), range, beats_of_a_bar(&a[4])?)
    }
}

mod slabs {
    use super::*;
    pub fn draw(r: &mut Numbers) -> Vec<Arg> {
        let (rate, low, high, lags) = search(r);
        let bins = r.one_of(&[1, 1, 1, 2, 3, 4]);
        let rows = searched(r, lags).len().min(TRACK_FRAMES / bins);
        let mut slab = values::<f32>(r, rows * bins);
        if r.once_in(30) {
            slab.truncate(r.between(0, slab.len()));
        }
        let flux = if r.once_in(20) { room(r, rows) } else { rows + r.between(0, 3) };
        let rooms = track_room(r, rows, lags);
        let told = [count(r, rows), count(r, bins)];
        call(&slab, told, rate, [low, high], meter(r), flux, rooms)
    }
    pub fn bound(_: &mut Numbers, k: u64) -> Option<Vec<Arg>> {
        let shapes = [(MOST_ROWS, 1), (MOST_ROWS + 1, 1), (300, MOST_BINS), (300, MOST_BINS + 1)];
        let (rows, bins) = *shapes.get(k as usize)?;
        let slab: Vec<f32> = (0..rows * bins).map(|i| if i / bins % 16 == 3 { 9.0 } else { 0.0 }).collect();
        let lags = rooms::lags(900, TempoOpts::new()).unwrap();
        Some(call(&slab, [rows, bins], 900, [30.0, 300.0], 4, rows, track_needs(rows, lags)))
    }
    fn call(
        slab: &[f32],
        told: [usize; 2],
        rate: u32,
        bounds: [f64; 2],
        meter: usize,
        flux: usize,
        rooms: [usize; TRACK_SLICES],
    ) -> Vec<Arg> {
        let mut args = vec![input(slab), whole(told[0]), whole(told[1]), whole(rate as usize)];
        args.extend(bounds.map(Arg::Real));
        args.extend([Arg::Meter(meter), output::<f64>(flux)]);
        lend_track(&mut args, rooms);
        args
    }
    pub fn reach(a: &[Arg], after: &After) -> Reach {
        let opts = TempoOpts::between(real(&a[4]), real(&a[5]));
        let range = lag_range(number(&a[3]) as u32, opts).map_err(|e| e.to_string())?;
        let rows = number(&a[1]);
        let flux = floats(&after.held[7][..8 * rows]);
        let mut reach = track_reach(after, 8, &flux, range, beats_of_a_bar(&a[6])?)?;
        reach.push((7, 0..rows));
        Ok(reach)
    }
}

// ---- files

// a beat's time in microseconds, by request No. 3's words: exact, half up
fn microseconds(beat: u32, rate: usize) -> u64 {
    let (twice, rate) = ((256 * u64::from(beat) + 512) * 2_000_000, rate as u64);
    (twice + rate) / (2 * rate)
}
// the file of these gaps, event by event
fn track_of(gaps: &[u32]) -> Vec<u8> {
    let mut file = b"MThd\0\0\0\x06\0\0\0\x01\0\x60MTrk".to_vec();
    file.extend((7 * gaps.len() as u32 + 4).to_be_bytes());
    for (k, gap) in gaps.iter().enumerate() {
        file.extend([if k == 0 { 0 } else { 96 }, 0xff, 0x51, 3]);
        file.extend(&gap.to_be_bytes()[1..]);
    }
    file.extend([96, 0xff, 0x2f, 0]);
    file
}

// a third of the files are damaged somewhere
fn damage_bytes(r: &mut Numbers, file: &mut Vec<u8>) {
    if file.is_empty() || !r.once_in(3) {
        return;
    }
    let at = r.between(0, file.len() - 1);
    match r.between(0, 5) {
        0 => file[at] = r.next() as u8,
        1 => file[at] ^= 1 << r.between(0, 7),
        2 => file.truncate(at),
        3 => drop(file.remove(at)),
        4 => file.insert(at, r.next() as u8),
        _ => file.extend(vec![r.next() as u8; r.between(1, 9)]),
    }
}

mod tempo_tracks {
    use super::*;
    pub fn draw(r: &mut Numbers) -> Vec<Arg> {
        // at 32,768 times end in halves
        let (rate, count) = (if r.once_in(8) { 32_768 } else { rate(r) }, length(r).min(300));
        // the longest gap is 1,024 frames at 15,625: most lists keep below it
        let longest = (rate.clamp(1, MOST_RATE) as usize * 1_024 / 15_625).max(1);
        let step = if r.once_in(8) { longest + 2 } else { longest.min(200) };
        let mut at = r.between(0, 900);
        let mut beats = Vec::with_capacity(count);
        for _ in 0..count {
            beats.push(at as u32);
            at += r.between(1, step);
        }
        if r.once_in(8) && count > 0 {
            let k = r.between(0, count - 1);
            beats[k] = r.one_of(&[0, beats[0], beats[count - 1], MOST_FRAME, MOST_FRAME + 1, u32::MAX]);
        }
        call(&beats, rate, room(r, rooms::tempo_track(count)))
    }
    pub fn bound(_: &mut Numbers, k: u64) -> Option<Vec<Arg>> {
        // every frame there is, then one more: once again, or past the last
        let every = 0..=MOST_FRAME;
        let more: [&[u32]; 3] = [&[], &[MOST_FRAME], &[MOST_FRAME + 1]];
        let beats: Vec<u32> = every.chain(more.get(k as usize)?.iter().copied()).collect();
        Some(call(&beats, MOST_RATE, rooms::tempo_track(beats.len())))
    }
    fn call(beats: &[u32], rate: u32, file: usize) -> Vec<Arg> {
        vec![input(beats), whole(rate as usize), output::<u8>(file), cell::<usize>()]
    }
    pub fn reach(a: &[Arg], after: &After) -> Reach {
        let (beats, rate) = (frames(&a[0]), number(&a[1]));
        let count = counted(after, 3, rooms::tempo_track(beats.len()))?;
        let gap = |pair: &[u32]| (microseconds(pair[1], rate) - microseconds(pair[0], rate)) as u32;
        let gaps: Vec<u32> = beats.windows(2).map(gap).collect();
        must(after.held[2][..count] == track_of(&gaps), "another file than the beats give")?;
        Ok(vec![(2, 0..count), all(3)])
    }
}

mod tempo_files {
    use super::*;
    pub fn draw(r: &mut Numbers) -> Vec<Arg> {
        let count = length(r).min(300);
        let most = r.one_of(&[2, 255, 65_535, MOST_TEMPO as usize]);
        let gaps: Vec<u32> = (0..count).map(|_| r.between(1, most) as u32).collect();
        let mut file = track_of(&gaps);
        damage_bytes(r, &mut file);
        vec![input(&file), output::<u32>(room(r, count)), cell::<usize>()]
    }
    pub fn bound(_: &mut Numbers, k: u64) -> Option<Vec<Arg>> {
        let room = *[MOST_ROWS, MOST_ROWS - 1].get(k as usize)?;
        Some(vec![input(&track_of(&vec![MOST_TEMPO; MOST_ROWS])), output::<u32>(room), cell::<usize>()])
    }
    pub fn reach(a: &[Arg], after: &After) -> Reach {
        let values = bytes(&a[0]);
        let count = counted(after, 2, rooms::tempo_gaps(values.len()))?;
        let gaps = after.frames(1, count);
        must(!gaps.is_empty() && gaps.iter().all(|gap| (1..=MOST_TEMPO).contains(gap)), "a gap that no file has")?;
        must(track_of(&gaps) == values, "reads a file that is not written for these gaps")?;
        Ok(vec![(1, 0..count), all(2)])
    }
}

// the label track of frames, by request No. 6's words
fn labels_of(frames: &[u32], rate: usize) -> Vec<u8> {
    let line = |&frame: &u32| {
        let time = microseconds(frame, rate);
        let seconds = format!("{}.{:06}", time / 1_000_000, time % 1_000_000);
        format!("{seconds}\t{seconds}\tbeat\n")
    };
    frames.iter().map(line).collect::<String>().into_bytes()
}
// a cue chunk of these offsets, and that of frames
fn chunk_of(offsets: &[u32]) -> Vec<u8> {
    let count = offsets.len() as u32;
    let mut chunk = [&b"cue "[..], &(24 * count + 4).to_le_bytes(), &count.to_le_bytes()].concat();
    for (k, offset) in offsets.iter().enumerate() {
        let (name, offset) = ((k as u32 + 1).to_le_bytes(), offset.to_le_bytes());
        chunk.extend([&name[..], &offset, b"data", &[0; 8], &offset].concat());
    }
    chunk
}
fn cues_of(frames: &[u32]) -> Vec<u8> {
    chunk_of(&frames.iter().map(|frame| 256 * frame + 512).collect::<Vec<_>>())
}
// the frames that a chunk's offsets are those of, whatever else is in it
fn frames_in(chunk: &[u8]) -> Vec<u32> {
    let points = chunk.get(12..).unwrap_or(&[]).chunks_exact(24);
    points.map(|point| (u32::from_le_bytes(point[20..].try_into().unwrap()) / 256).wrapping_sub(2)).collect()
}
// frames that ascend, mostly
fn frame_list(r: &mut Numbers) -> Vec<u32> {
    let (count, step) = (length(r).min(300), r.one_of(&[2, 200, 3_000]));
    let mut at = r.between(0, 900);
    let mut frames = Vec::with_capacity(count);
    for _ in 0..count {
        frames.push(at as u32);
        at += r.between(1, step);
    }
    if r.once_in(8) && count > 0 {
        let k = r.between(0, count - 1);
        frames[k] = r.one_of(&[0, frames[0], frames[count - 1], MOST_FRAME, MOST_FRAME + 1, u32::MAX]);
    }
    frames
}
// frames of an answer: a list is taken, and listed, that ascends and ends in time
fn listed(frames: &[u32]) -> Result<(), String> {
    ascend(frames, MOST_FRAME as usize + 1)
}
// every frame there is, then one more: once again, or past the last
fn every_frame(k: u64) -> Option<Vec<u32>> {
    let more: [&[u32]; 3] = [&[], &[MOST_FRAME], &[MOST_FRAME + 1]];
    Some((0..=MOST_FRAME).chain(more.get(k as usize)?.iter().copied()).collect())
}
// a label track, its times now and then of no frame, or of very many digits
fn text(r: &mut Numbers) -> (Vec<u8>, u32) {
    let (frames, rate) = (frame_list(r), rate(r));
    let mut text = labels_of(&frames, rate.clamp(1, MOST_RATE) as usize);
    if r.once_in(6) {
        let seconds = "123456789".repeat(r.one_of(&[1, 2, 3, 5, 120]));
        let time = r.one_of(&["0.512001", "0.000000", "7.000000", &format!("{seconds}.512000")]).to_string();
        text.extend(format!("{time}\t{time}\tbeat\n").into_bytes());
    }
    damage_bytes(r, &mut text);
    (text, rate)
}
// a cue chunk, its offsets now and then of no frame
fn chunk(r: &mut Numbers) -> Vec<u8> {
    let mut offsets: Vec<u32> = frame_list(r).iter().map(|frame| frame.wrapping_mul(256).wrapping_add(512)).collect();
    if r.once_in(6) && !offsets.is_empty() {
        let k = r.between(0, offsets.len() - 1);
        offsets[k] = r.one_of(&[0, 256, 511, offsets[k] + 1, u32::MAX, 268_435_968]);
    }
    let mut chunk = chunk_of(&offsets);
    damage_bytes(r, &mut chunk);
    chunk
}
fn lines(text: &[u8]) -> usize {
    text.iter().filter(|&&byte| byte == b'\n').count()
}

mod label_rooms {
    use super::*;
    pub fn draw(r: &mut Numbers) -> Vec<Arg> {
        vec![input(&frame_list(r)), whole(rate(r) as usize), cell::<usize>()]
    }
    pub fn bound(_: &mut Numbers, k: u64) -> Option<Vec<Arg>> {
        Some(vec![input(&every_frame(k)?), whole(1), cell::<usize>()])
    }
    pub fn reach(a: &[Arg], after: &After) -> Reach {
        let (frames, rate) = (frames(&a[0]), number(&a[1]));
        listed(&frames)?;
        must(
            counted(after, 2, rooms::labels(frames.len()))? == labels_of(&frames, rate).len(),
            "another room than the labels take",
        )?;
        Ok(vec![all(2)])
    }
}

mod label_tracks {
    use super::*;
    pub fn draw(r: &mut Numbers) -> Vec<Arg> {
        let (frames, rate) = (frame_list(r), rate(r));
        let need = labels_of(&frames, rate.clamp(1, MOST_RATE) as usize).len();
        vec![input(&frames), whole(rate as usize), output::<u8>(room(r, need)), cell::<usize>()]
    }
    pub fn bound(_: &mut Numbers, k: u64) -> Option<Vec<Arg>> {
        let frames = every_frame(k)?;
        Some(vec![input(&frames), whole(1), output::<u8>(rooms::labels(frames.len())), cell::<usize>()])
    }
    pub fn reach(a: &[Arg], after: &After) -> Reach {
        let (frames, rate) = (frames(&a[0]), number(&a[1]));
        listed(&frames)?;
        let count = counted(after, 3, rooms::labels(frames.len()))?;
        must(after.held[2][..count] == labels_of(&frames, rate), "another text than the frames give")?;
        Ok(vec![(2, 0..count), all(3)])
    }
}

mod label_texts {
    use super::*;
    pub fn draw(r: &mut Numbers) -> Vec<Arg> {
        let (text, rate) = text(r);
        vec![input(&text), whole(rate as usize), output::<u32>(room(r, lines(&text))), cell::<usize>()]
    }
    pub fn bound(_: &mut Numbers, k: u64) -> Option<Vec<Arg>> {
        let (room, frames) = (MOST_ROWS - (k == 1) as usize, every_frame(k / 2)?);
        (k < 4).then(|| {
            vec![
                input(&labels_of(&frames, 192_000)),
                whole(192_000),
                output::<u32>(room + k as usize / 2),
                cell::<usize>(),
            ]
        })
    }
    pub fn reach(a: &[Arg], after: &After) -> Reach {
        let (text, rate) = (bytes(&a[0]), number(&a[1]));
        let count = counted(after, 3, rooms::label_frames(text.len()))?;
        let frames = after.frames(2, count);
        listed(&frames)?;
        must(labels_of(&frames, rate) == text, "reads a text that is not written for these frames")?;
        Ok(vec![(2, 0..count), all(3)])
    }
}

mod cue_chunks {
    use super::*;
    pub fn draw(r: &mut Numbers) -> Vec<Arg> {
        let frames = frame_list(r);
        vec![input(&frames), output::<u8>(room(r, rooms::cues(frames.len()))), cell::<usize>()]
    }
    pub fn bound(_: &mut Numbers, k: u64) -> Option<Vec<Arg>> {
        let frames = every_frame(k)?;
        Some(vec![input(&frames), output::<u8>(rooms::cues(frames.len())), cell::<usize>()])
    }
    pub fn reach(a: &[Arg], after: &After) -> Reach {
        let frames = frames(&a[0]);
        listed(&frames)?;
        let count = counted(after, 2, rooms::cues(frames.len()))?;
        must(after.held[1][..count] == cues_of(&frames), "another chunk than the frames give")?;
        Ok(vec![(1, 0..count), all(2)])
    }
}

mod cue_points {
    use super::*;
    pub fn draw(r: &mut Numbers) -> Vec<Arg> {
        let chunk = chunk(r);
        vec![input(&chunk), output::<u32>(room(r, rooms::cue_frames(chunk.len()))), cell::<usize>()]
    }
    pub fn bound(_: &mut Numbers, k: u64) -> Option<Vec<Arg>> {
        let (room, frames) = (MOST_ROWS - (k == 1) as usize, every_frame(k / 2)?);
        (k < 4).then(|| vec![input(&cues_of(&frames)), output::<u32>(room + k as usize / 2), cell::<usize>()])
    }
    pub fn reach(a: &[Arg], after: &After) -> Reach {
        let chunk = bytes(&a[0]);
        let count = counted(after, 2, rooms::cue_frames(chunk.len()))?;
        let frames = after.frames(1, count);
        listed(&frames)?;
        must(cues_of(&frames) == chunk, "reads a chunk that is not written for these frames")?;
        Ok(vec![(1, 0..count), all(2)])
    }
}

mod labels_as_cues {
    use super::*;
    pub fn draw(r: &mut Numbers) -> Vec<Arg> {
        let (text, rate) = text(r);
        vec![input(&text), whole(rate as usize), output::<u8>(room(r, rooms::cues(lines(&text)))), cell::<usize>()]
    }
    pub fn bound(_: &mut Numbers, k: u64) -> Option<Vec<Arg>> {
        let frames = every_frame(k)?;
        Some(vec![
            input(&labels_of(&frames, 48_000)),
            whole(48_000),
            output::<u8>(rooms::cues(frames.len())),
            cell::<usize>(),
        ])
    }
    pub fn reach(a: &[Arg], after: &After) -> Reach {
        let (text, rate) = (bytes(&a[0]), number(&a[1]));
        let count = counted(after, 3, rooms::cues(lines(text)))?;
        let chunk = &after.held[2][..count];
        let frames = frames_in(chunk);
        listed(&frames)?;
        must(
            cues_of(&frames) == chunk && labels_of(&frames, rate) == text,
            "another chunk than the labels' frames give",
        )?;
        Ok(vec![(2, 0..count), all(3)])
    }
}

mod cues_as_labels {
    use super::*;
    pub fn draw(r: &mut Numbers) -> Vec<Arg> {
        let (chunk, rate) = (chunk(r), rate(r));
        let frames: Vec<u32> = frames_in(&chunk).into_iter().filter(|&frame| frame <= MOST_FRAME).collect();
        let need = labels_of(&frames, rate.clamp(1, MOST_RATE) as usize).len();
        vec![input(&chunk), whole(rate as usize), output::<u8>(room(r, need)), cell::<usize>()]
    }
    pub fn bound(_: &mut Numbers, k: u64) -> Option<Vec<Arg>> {
        let frames = every_frame(k)?;
        Some(vec![input(&cues_of(&frames)), whole(48_000), output::<u8>(rooms::labels(frames.len())), cell::<usize>()])
    }
    pub fn reach(a: &[Arg], after: &After) -> Reach {
        let (chunk, rate) = (bytes(&a[0]), number(&a[1]));
        let frames = frames_in(chunk);
        listed(&frames)?;
        let count = counted(after, 3, rooms::labels(frames.len()))?;
        must(
            cues_of(&frames) == chunk && after.held[2][..count] == labels_of(&frames, rate),
            "other labels than the points' frames give",
        )?;
        Ok(vec![(2, 0..count), all(3)])
    }
}
