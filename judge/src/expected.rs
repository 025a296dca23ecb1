//! What each call must do: its number by document 01's table, its answer by the Rust, every other slot as it was.
use crate::cases::Field;
use crate::differences;
use crate::formats;
use crate::labels;
use crate::lent::{Floats, Slot, cell, held, poisoned};
use crate::table::{self, BAND, WIDTH};
use oracle::structure::StructureOpts;
use oracle::tempo::{DEFAULT_BEATS_PER_BAR, TempoOpts, TempoReport};
use oracle::{onsets, structure, tempo};

/// One lent slice afterwards; its first `open` slots may hold anything (docs/EXCEPTIONS.md).
pub struct Slots {
    pub bits: Vec<u64>,
    pub open: usize,
    /// Which floats its slots are, if they are.
    pub floats: Option<Floats>,
}

impl Slots {
    /// Of each slot of floats that is not open, whether it holds a NaN that no operation gives.
    pub fn nans(&self) -> impl Iterator<Item = bool> {
        self.floats.into_iter().flat_map(|floats| self.bits.iter().skip(self.open).map(move |&bits| floats.own_nan(bits)))
    }
}

pub struct Expected {
    pub number: u32,
    pub answers: Vec<u64>,
    pub slots: Vec<Slots>,
}

fn fixed<T: Slot>(bits: Vec<u64>) -> Slots {
    Slots { bits, open: 0, floats: T::FLOATS }
}

// sorting room or lag room: open as far as its formula, where the call is answered
fn room(slots: usize, formula: usize, number: u32) -> Slots {
    Slots { open: if number == 0 { formula } else { 0 }, ..fixed::<f64>(poisoned::<f64>(slots)) }
}

// the slots of an output: entries first, the rest as it was
pub fn listed<T: Slot>(slots: usize, entries: &[T]) -> Slots {
    let mut bits = poisoned::<T>(slots);
    for (slot, x) in bits.iter_mut().zip(entries) {
        *slot = x.bits();
    }
    fixed::<T>(bits)
}

// the slots that a call is lent to change
fn changed<T: Slot>(slots: &[T]) -> Slots {
    fixed::<T>(held(slots))
}

fn frames(list: &[usize]) -> Vec<u32> {
    list.iter().map(|&t| u32::try_from(t).unwrap()).collect()
}
fn indices(list: &[u32]) -> Vec<usize> {
    list.iter().map(|&t| t as usize).collect()
}

pub fn median_of(f: &[Field]) -> Expected {
    let number = table::median_of(f[0].reals(), f[1].size());
    let median = if number == 0 { onsets::open::median_of(f[0].reals()).bits() } else { cell::<f64>() };
    Expected { number, answers: vec![median], slots: vec![room(f[1].size(), f[0].reals().len(), number)] }
}

pub fn mad_of(f: &[Field]) -> Expected {
    let number = table::mad_of(f[0].reals(), f[1].real(), f[2].size());
    let mad = if number == 0 { onsets::open::mad_of(f[0].reals(), f[1].real()).bits() } else { cell::<f64>() };
    Expected { number, answers: vec![mad], slots: vec![room(f[2].size(), f[0].reals().len(), number)] }
}

/// The flux that the Rust gives these rows, with D1 and D2.
pub fn flux_of(magnitudes: &[f32], rows: usize, bins: usize) -> Vec<f64> {
    let slab: Vec<Vec<f32>> = magnitudes.chunks(bins).map(|row| row.to_vec()).collect();
    let flux = onsets::open::spectral_flux(&onsets::open::stft(slab, 1));
    differences::no_rows(flux, rows).into_iter().map(differences::flux_zero).collect()
}

pub fn spectral_flux(f: &[Field]) -> Expected {
    let number = table::spectral_flux(f[0].singles(), f[1].whole(), f[2].whole(), f[3].size());
    let flux = if number == 0 { flux_of(f[0].singles(), f[1].size(), f[2].size()) } else { vec![] };
    Expected { number, answers: vec![], slots: vec![listed(f[3].size(), &flux)] }
}

pub fn adaptive_threshold(f: &[Field]) -> Expected {
    let number = table::adaptive_threshold(f[0].reals(), f[1].size(), f[2].size());
    let threshold = if number == 0 { onsets::open::adaptive_threshold(f[0].reals()) } else { vec![] };
    let sorting = room(f[2].size(), table::window(f[0].reals().len()), number);
    Expected { number, answers: vec![], slots: vec![listed(f[1].size(), &threshold), sorting] }
}

fn list(number: u32, entries: &[usize], slots: usize) -> Expected {
    let count = if number == 0 { entries.len().bits() } else { cell::<usize>() };
    Expected { number, answers: vec![count], slots: vec![listed(slots, &frames(entries))] }
}

pub fn pick_onsets(f: &[Field]) -> Expected {
    let number = table::pick_onsets(f[0].reals(), f[1].reals(), f[2].whole(), f[3].size());
    let picked = if number == 0 { onsets::open::pick_onsets(f[0].reals(), f[1].reals(), f[2].small()) } else { vec![] };
    list(number, &picked, f[3].size())
}

pub fn suppress_close_peaks(f: &[Field]) -> Expected {
    let number = table::suppress_close_peaks(f[0].frames(), f[1].reals(), f[3].size());
    let kept = if number == 0 { onsets::open::suppress_close_peaks(&indices(f[0].frames()), f[1].reals(), f[2].size()) } else { vec![] };
    list(number, &kept, f[3].size())
}

pub fn frame_times(f: &[Field]) -> Expected {
    let number = table::frame_times(f[0].frames(), f[1].whole(), f[2].size());
    let time = |&t: &u32| tempo::open::frame_center_ms(t as usize, f[1].small());
    let ms: Vec<f64> = if number == 0 { f[0].frames().iter().map(time).collect() } else { vec![] };
    Expected { number, answers: vec![], slots: vec![listed(f[2].size(), &ms)] }
}

/// The least and the greatest lag of the Rust.
pub fn lags(rate: u32, min_bpm: f64, max_bpm: f64) -> (usize, usize) {
    tempo::open::lag_range(&TempoOpts { min_bpm, max_bpm }, tempo::open::frame_rate(rate))
}

pub fn lag_range(f: &[Field]) -> Expected {
    let number = table::lag_range(f[0].whole(), f[3].whole());
    let mut answers = vec![cell::<usize>(); 2];
    if number == 0 {
        let (min, max) = lags(f[0].small(), f[1].real(), f[2].real());
        answers = vec![min.bits(), max.bits()];
    }
    Expected { number, answers, slots: vec![] }
}

fn lag_count(rate: u32, bpm: (f64, f64)) -> usize {
    let (min, max) = lags(rate, bpm.0, bpm.1);
    max - min + 1
}

pub fn estimate(f: &[Field]) -> Expected {
    let (envelope, rate, bpm) = (f[0].reals(), f[2].small(), (f[3].real(), f[4].real()));
    let rooms = [f[6].size(), f[7].size(), f[8].size()];
    let number = table::estimate(envelope, f[2].whole(), f[5].whole(), rooms, || lag_count(rate, bpm));
    let mut curves = (vec![], vec![]);
    let mut answers = vec![cell::<u32>(), cell::<f64>(), cell::<f64>(), cell::<usize>()];
    let mut pairs = (poisoned::<usize>(3), poisoned::<f64>(3));
    if number == 0 {
        let (min, max) = lags(rate, bpm.0, bpm.1);
        let frame_rate = tempo::open::frame_rate(rate);
        // the tests of `estimate_from_parts` before it picks peaks
        let searched = envelope.len() >= 3 && f[1].size() >= 2 && envelope.len() > max + 1;
        let picked = if searched { tempo::open::pick_tempo_peaks(envelope, min, max, frame_rate) } else { None };
        if searched {
            curves = tempo::open::lag_curves(envelope, min, max, frame_rate).unwrap_or_default();
        }
        (answers, pairs) = (vec![0; 4], (vec![0; 3], vec![0; 3]));
        if let Some(p) = picked {
            let tempo = frame_rate * 60.0 / p.winner_lag as f64;
            answers = vec![1, tempo.bits(), p.winner_salience.bits(), p.peaks.len() as u64];
            for (k, &(lag, salience)) in p.peaks.iter().enumerate() {
                (pairs.0[k], pairs.1[k]) = (lag.bits(), salience.bits());
            }
        }
    }
    let (lags, saliences) = (fixed::<usize>(pairs.0), fixed::<f64>(pairs.1));
    let slots = vec![listed(rooms[0], &curves.0), listed(rooms[1], &curves.1), room(rooms[2], 0, number), lags, saliences];
    Expected { number, answers, slots }
}

pub fn stability_of(f: &[Field]) -> Expected {
    let (envelope, rate, bpm, whole_lag) = (f[0].reals(), f[1].small(), (f[2].real(), f[3].real()), f[5].size());
    let rooms = [f[6].size(), f[7].size(), f[8].size()];
    let number = table::stability_of(envelope, f[1].whole(), f[4].whole(), f[5].whole(), rooms, || lag_count(rate, bpm));
    let mut answers = vec![cell::<u32>(), cell::<f64>(), cell::<usize>(), cell::<usize>()];
    // lag room is open only where windows are searched
    let mut formula = 0;
    if number == 0 {
        let (min, max) = lags(rate, bpm.0, bpm.1);
        let frame_rate = tempo::open::frame_rate(rate);
        let share = tempo::open::stability_of(envelope, min, max, frame_rate, whole_lag);
        answers = vec![0; 4];
        if let Some(share) = differences::no_lag(share, whole_lag) {
            let (agreeing, windows) = tempo::open::windows_of(envelope, min, max, frame_rate, whole_lag).unwrap();
            answers = vec![1, share.bits(), agreeing.bits(), windows.bits()];
            formula = lag_count(rate, bpm);
        }
    }
    Expected { number, answers, slots: rooms.map(|r| room(r, formula, number)).into() }
}

pub fn beat_grid(f: &[Field]) -> Expected {
    let rooms = [f[2].size(), f[3].size(), f[4].size()];
    let number = table::beat_grid(f[0].reals(), f[1].whole(), rooms);
    let (mut scores, mut links, mut beats, mut count) = (vec![], vec![], vec![], cell::<usize>());
    if number == 0 {
        beats = tempo::open::beat_grid(f[0].reals(), f[1].size());
        count = beats.len().bits();
        if let Some((score, back)) = tempo::open::scores(f[0].reals(), f[1].size()) {
            scores = score;
            links = back.iter().map(|link| link.map_or(u32::MAX, |t| t as u32)).collect();
        }
    }
    let slots = vec![listed(rooms[0], &scores), listed(rooms[1], &links), listed(rooms[2], &frames(&beats))];
    Expected { number, answers: vec![count], slots }
}

pub fn room_of(f: &[Field]) -> Expected {
    let bpm = (f[2].real(), f[3].real());
    let number = table::room_of(f[0].whole(), f[1].whole(), f[4].whole());
    let mut answers = [cell::<usize>(); 3];
    if number == 0 {
        let lags = lag_count(f[1].small(), bpm);
        answers = [f[0].size(), lags, table::track_sorting(f[0].size(), lags)].map(Slot::bits);
    }
    Expected { number, answers: answers.into(), slots: vec![] }
}

fn track_room(f: &[Field]) -> table::TrackRoom {
    let size = |k: usize| f[k].size();
    table::TrackRoom { frames: [0, 1, 6, 7, 8, 9].map(size), curves: [2, 3, 4, 5].map(size), work: size(10) }
}

// A whole track from its envelope: the Rust's functions one after the other. `f` are the lent rooms.
fn track(number: u32, envelope: &[f64], rate: u32, bpm: (f64, f64), meter: &Field, f: &[Field]) -> Expected {
    let room_at = |k: usize| f[k].size();
    let field = |n: usize| Field::Whole(n as u64);
    let hertz = field(rate as usize);
    let opts = [Field::Real(bpm.0), Field::Real(bpm.1), meter.clone()];
    let lent = || Field::Reals(envelope.to_vec());
    let mut answers = vec![cell::<usize>(); 11];
    (answers[1], answers[5]) = (cell::<u32>(), cell::<u32>());
    (answers[2], answers[3], answers[6]) = (cell::<f64>(), cell::<f64>(), cell::<f64>());
    let empty = |k: usize| if [1, 7, 8, 9].contains(&k) { listed::<u32>(room_at(k), &[]) } else { listed::<f64>(room_at(k), &[]) };
    let mut slots: Vec<Slots> = (0..11).map(empty).collect();
    slots.extend([listed::<usize>(3, &[]), listed::<f64>(3, &[])]);
    if number != 0 {
        return Expected { number, answers, slots };
    }
    let lags = lag_count(rate, bpm);
    // thresholds are sorted there; the tempo leaves it alone, and stability writes it only where windows are searched
    slots[10].open = table::window(envelope.len());
    let threshold = onsets::open::adaptive_threshold(envelope);
    let heard = onsets::open::pick_onsets(envelope, &threshold, rate);
    slots[0] = listed(room_at(0), &threshold);
    slots[1] = listed(room_at(1), &frames(&heard));
    let curves = [field(room_at(2)), field(room_at(3)), field(lags)];
    let found = estimate(&[&[lent(), field(heard.len()), hertz.clone()][..], &opts, &curves].concat());
    answers = vec![0; 11];
    answers[0] = heard.len().bits();
    answers[1..5].copy_from_slice(&found.answers);
    let [clarity, weight, _, candidates, saliences] = found.slots.try_into().ok().unwrap();
    (slots[2], slots[3], slots[11], slots[12]) = (clarity, weight, candidates, saliences);
    if answers[1] == 1 {
        let lag = Field::Whole(slots[11].bits[0]);
        let enough = [field(lags), field(lags), field(lags)];
        let steady = stability_of(&[&[lent(), hertz][..], &opts, &[lag.clone()], &enough].concat());
        answers[5..9].copy_from_slice(&steady.answers);
        if answers[5] == 1 {
            (slots[4].open, slots[5].open) = (lags, lags);
            slots[10].open = table::track_sorting(envelope.len(), lags);
        }
        let grid = beat_grid(&[lent(), lag, field(room_at(6)), field(room_at(7)), field(room_at(8))]);
        answers[9] = grid.answers[0];
        let beats: Vec<u32> = grid.slots[2].bits.iter().take(answers[9] as usize).map(|&t| t as u32).collect();
        let [score, back, list] = grid.slots.try_into().ok().unwrap();
        (slots[6], slots[7], slots[8]) = (score, back, list);
        let bars = downbeats(&[lent(), Field::Frames(beats), meter.clone(), field(room_at(9))]);
        answers[10] = bars.answers[0];
        slots[9] = bars.slots.into_iter().next().unwrap();
    }
    Expected { number, answers, slots }
}

pub fn analyse_envelope(f: &[Field]) -> Expected {
    let (rate, bpm) = (f[1].small(), (f[2].real(), f[3].real()));
    let number = table::analyse_envelope(f[0].reals(), f[1].whole(), f[4].whole(), &track_room(&f[5..]), || lag_count(rate, bpm));
    track(number, f[0].reals(), rate, bpm, &f[4], &f[5..])
}

pub fn analyse_magnitudes(f: &[Field]) -> Expected {
    let (rate, bpm, flux_room) = (f[3].small(), (f[4].real(), f[5].real()), f[7].size());
    let lags = || lag_count(rate, bpm);
    let room = track_room(&f[8..]);
    let [rows, bins, hertz, meter] = [1, 2, 3, 6].map(|k: usize| f[k].whole());
    let number = table::analyse_magnitudes(f[0].singles(), rows, bins, hertz, meter, flux_room, &room, lags);
    let flux = if number == 0 { flux_of(f[0].singles(), f[1].size(), f[2].size()) } else { vec![] };
    let mut e = track(number, &flux, rate, bpm, &f[6], &f[8..]);
    e.slots.insert(0, listed(flux_room, &flux));
    e
}

pub fn downbeats(f: &[Field]) -> Expected {
    let number = table::downbeats(f[0].reals(), f[1].frames(), f[2].whole(), f[3].size());
    // the Rust has no meter: its lines with another number in the place of their 4
    let bars = if number == 0 { tempo::bars::downbeats(f[0].reals(), &indices(f[1].frames()), f[2].size()) } else { vec![] };
    list(number, &bars, f[3].size())
}

pub fn bar_beat_at(f: &[Field]) -> Expected {
    let report = TempoReport {
        bpm: None,
        confidence: 0.0,
        candidates: vec![],
        stability: None,
        beats_ms: f[2].reals().to_vec(),
        beats_per_bar: DEFAULT_BEATS_PER_BAR,
        downbeats_ms: f[1].reals().to_vec(),
    };
    let answers = match report.bar_beat_at(f[0].real()) {
        Some((bar, beat)) => vec![1, bar.into(), beat.into()],
        None => vec![0; 3],
    };
    Expected { number: 0, answers, slots: vec![] }
}

fn feature_rows(features: &[f64]) -> Vec<[f64; WIDTH]> {
    features.chunks(WIDTH).map(|row| row.try_into().unwrap()).collect()
}

/// The similarity that the Rust gives these rows, with D3.
pub fn similarity_of(features: &[f64]) -> Vec<f64> {
    let rows = feature_rows(features);
    let mut slots = structure::open::Similarity::compute(&rows).values().to_vec();
    for i in 0..rows.len() {
        for d in 0..BAND.min(rows.len() - i) {
            slots[i * BAND + d] = differences::dot_zero(slots[i * BAND + d], &rows[i], &rows[i + d]);
        }
    }
    slots
}

pub fn novelty_of(similarity: &[f64], rows: usize) -> Vec<f64> {
    structure::open::Similarity::given(rows, similarity.to_vec()).novelty()
}

pub fn similarity(f: &[Field]) -> Expected {
    let number = table::similarity(f[0].reals(), f[1].whole(), f[2].size());
    let slots = if number == 0 { similarity_of(f[0].reals()) } else { vec![] };
    Expected { number, answers: vec![], slots: vec![listed(f[2].size(), &slots)] }
}

pub fn novelty(f: &[Field]) -> Expected {
    let number = table::novelty(f[0].reals(), f[1].whole(), f[2].size());
    let slots = if number == 0 { novelty_of(f[0].reals(), f[1].size()) } else { vec![] };
    Expected { number, answers: vec![], slots: vec![listed(f[2].size(), &slots)] }
}

pub fn boundaries(f: &[Field]) -> Expected {
    let number = table::boundaries(f[0].reals(), f[1].whole(), f[2].whole(), f[4].size(), f[5].size());
    let mut rows = vec![];
    let mut answers = vec![cell::<usize>(), cell::<usize>(), cell::<f64>()];
    if number == 0 {
        let opts = StructureOpts::default().with_max_sections(f[3].size());
        let report = structure::open::sections(f[0].reals(), f[1].size(), f[2].small(), &opts, &mut rows);
        answers = vec![report.section_count.bits(), rows.len().bits(), report.confidence.bits()];
    }
    // fewer than 16 rows are one section: nothing is sorted
    let sorted = if f[0].reals().len() < 16 { 0 } else { f[0].reals().len() };
    let sorting = room(f[5].size(), sorted, number);
    Expected { number, answers, slots: vec![listed(f[4].size(), &frames(&rows)), sorting] }
}

pub fn boundary_times(f: &[Field]) -> Expected {
    let number = table::boundary_times(f[0].frames(), f[1].whole(), f[2].whole(), f[3].size());
    let time = |&r: &u32| structure::open::boundary_ms(r as usize, f[1].size(), f[2].small());
    let ms: Vec<f64> = if number == 0 { f[0].frames().iter().map(time).collect() } else { vec![] };
    Expected { number, answers: vec![], slots: vec![listed(f[3].size(), &ms)] }
}

fn named(number: u32, ranges: [usize; 4]) -> Vec<u64> {
    if number == 0 { ranges.map(Slot::bits).into() } else { vec![cell::<usize>(); 4] }
}

// Patching is added; its parts are the Rust's: slots of the flux of the edited rows, thresholds of the flux as it then stands.
pub fn patch_magnitudes(f: &[Field]) -> Expected {
    let (rows, bins, start, new) = (f[1].size(), f[2].size(), f[3].size(), f[4].singles());
    let (mut slab, mut flux, mut threshold) = (f[0].singles().to_vec(), f[5].reals().to_vec(), f[6].reals().to_vec());
    let number = table::patch_magnitudes(&slab, f[1].whole(), f[2].whole(), f[3].whole(), new, &flux, &threshold, f[7].size());
    let mut ranges = [0; 4];
    if number == 0 && !new.is_empty() {
        let past = start + new.len() / bins;
        slab[start * bins..past * bins].copy_from_slice(new);
        ranges = [start, (past + 1).min(rows), start.saturating_sub(10), (past + 11).min(rows)];
        let fresh = flux_of(&slab, rows, bins);
        flux[ranges[0]..ranges[1]].copy_from_slice(&fresh[ranges[0]..ranges[1]]);
        let fresh = onsets::open::adaptive_threshold(&flux[..rows]);
        threshold[ranges[2]..ranges[3]].copy_from_slice(&fresh[ranges[2]..ranges[3]]);
    }
    // an empty patch sorts nothing
    let sorted = if new.is_empty() { 0 } else { table::window(rows) };
    let sorting = room(f[7].size(), sorted, number);
    let slots = vec![changed(&slab), changed(&flux), changed(&threshold), sorting];
    Expected { number, answers: named(number, ranges), slots }
}

// Likewise: the similarity of pairs that touch a replaced row, novelty of the similarity as it then stands.
pub fn patch_features(f: &[Field]) -> Expected {
    let (rows, start, new) = (f[1].size(), f[2].size(), f[3].reals());
    let (mut features, mut similarity, mut novelty) = (f[0].reals().to_vec(), f[4].reals().to_vec(), f[5].reals().to_vec());
    let number = table::patch_features(&features, f[1].whole(), f[2].whole(), new, &similarity, &novelty);
    let mut ranges = [0; 4];
    if number == 0 && !new.is_empty() {
        let past = start + new.len() / WIDTH;
        features[start * WIDTH..past * WIDTH].copy_from_slice(new);
        // the pair (start - 16, start), or (0, start) where there are fewer rows before
        let first = BAND * start.saturating_sub(16) + start.min(16);
        ranges = [first, BAND * past, start.saturating_sub(7), (past + 8).min(rows)];
        let fresh = similarity_of(&features);
        for i in 0..rows {
            for d in 0..BAND {
                if (start..past).contains(&i) || (start..past).contains(&(i + d)) {
                    similarity[i * BAND + d] = fresh[i * BAND + d];
                }
            }
        }
        let fresh = novelty_of(&similarity[..rows * BAND], rows);
        novelty[ranges[2]..ranges[3]].copy_from_slice(&fresh[ranges[2]..ranges[3]]);
    }
    let slots = vec![changed(&features), changed(&similarity), changed(&novelty)];
    Expected { number, answers: named(number, ranges), slots }
}

// ---- files, which the Rust has not: by document 02 (formats.rs, labels.rs)

pub fn write_tempo_track(f: &[Field]) -> Expected {
    let (beats, rate, room) = (f[0].frames(), f[1].whole(), f[2].size());
    let number = table::write_tempo_track(beats, rate, room);
    let file = if number == 0 { formats::written(&formats::gaps(beats, rate)) } else { vec![] };
    let count = if number == 0 { file.len().bits() } else { cell::<usize>() };
    Expected { number, answers: vec![count], slots: vec![listed(room, &file)] }
}

pub fn read_tempo_track(f: &[Field]) -> Expected {
    let (file, room) = (f[0].bytes(), f[1].size());
    let number = table::read_tempo_track(file, room);
    let gaps = if number == 0 { formats::read(file).unwrap_or_default() } else { vec![] };
    let count = if number == 0 { gaps.len().bits() } else { cell::<usize>() };
    Expected { number, answers: vec![count], slots: vec![listed(room, &gaps)] }
}

// what a call writes that answers entries and how many they are: nothing where it refuses
fn counted<T: Slot>(number: u32, room: usize, entries: impl FnOnce() -> Vec<T>) -> Expected {
    let entries = if number == 0 { entries() } else { vec![] };
    let count = if number == 0 { entries.len().bits() } else { cell::<usize>() };
    Expected { number, answers: vec![count], slots: vec![listed(room, &entries)] }
}

// the frames that a label track or a cue chunk has
fn frames_in(named: Option<labels::Named>) -> Vec<u32> {
    named.unwrap_or_default().into_iter().flatten().collect()
}

pub fn labels_room(f: &[Field]) -> Expected {
    let (frames, rate) = (f[0].frames(), f[1].whole());
    let number = table::labels_room(frames, rate);
    let count = if number == 0 { labels::labels(frames, rate).len().bits() } else { cell::<usize>() };
    Expected { number, answers: vec![count], slots: vec![] }
}

pub fn write_labels(f: &[Field]) -> Expected {
    let (frames, rate, room) = (f[0].frames(), f[1].whole(), f[2].size());
    counted(table::write_labels(frames, rate, room), room, || labels::labels(frames, rate))
}

pub fn read_labels(f: &[Field]) -> Expected {
    let (text, rate, room) = (f[0].bytes(), f[1].whole(), f[2].size());
    counted(table::read_labels(text, rate, room), room, || frames_in(labels::named_in_labels(text, rate)))
}

pub fn write_cues(f: &[Field]) -> Expected {
    let (frames, room) = (f[0].frames(), f[1].size());
    counted(table::write_cues(frames, room), room, || labels::cues(frames))
}

pub fn read_cues(f: &[Field]) -> Expected {
    let (chunk, room) = (f[0].bytes(), f[1].size());
    counted(table::read_cues(chunk, room), room, || frames_in(labels::named_in_cues(chunk)))
}

pub fn labels_to_cues(f: &[Field]) -> Expected {
    let (text, rate, room) = (f[0].bytes(), f[1].whole(), f[2].size());
    counted(table::labels_to_cues(text, rate, room), room, || labels::cues(&frames_in(labels::named_in_labels(text, rate))))
}

pub fn cues_to_labels(f: &[Field]) -> Expected {
    let (chunk, rate, room) = (f[0].bytes(), f[1].whole(), f[2].size());
    counted(table::cues_to_labels(chunk, rate, room), room, || labels::labels(&frames_in(labels::named_in_cues(chunk)), rate))
}
