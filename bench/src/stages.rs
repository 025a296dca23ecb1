//! The stages: each by the Rust and by the port on the same input, the bits compared first, then timed in turns.
use crate::clock::{in_turns, ran};
use crate::music::{RATE, TWENTY_SECONDS, features, magnitudes};
use oracle::stft::Stft;
use oracle::{onsets, structure, tempo};
use prohunsev as port;
use std::cell::RefCell;

/// One line of the table: times in seconds, the Rust's first; and the port's own full run beside a patch.
pub struct Line {
    pub stage: &'static str,
    pub size: String,
    pub rust: f64,
    pub port: f64,
    pub full: Option<f64>,
}

/// A number with its thousands apart.
pub fn counted(n: usize) -> String {
    let digits = n.to_string();
    let head = digits.len() % 3;
    let mut parts: Vec<&str> = digits.as_bytes()[head..].chunks(3).map(|c| str::from_utf8(c).unwrap()).collect();
    if head > 0 {
        parts.insert(0, &digits[..head]);
    }
    parts.join(",")
}

fn bits(xs: &[f64]) -> Vec<u64> {
    xs.iter().map(|x| x.to_bits()).collect()
}

fn same<T: PartialEq>(what: &str, rust: T, port: T) {
    assert!(rust == port, "{what}: the port's bits are not the Rust's");
}

fn frames(list: &[usize]) -> Vec<u32> {
    list.iter().map(|&t| t as u32).collect()
}

fn stft(slab: &[f32], bins: usize) -> Stft {
    onsets::open::stft(slab.chunks(bins).map(|row| row.to_vec()).collect(), RATE)
}

/// The options of a lag search, for both sides.
#[derive(Clone, Copy)]
pub struct Search {
    rust: tempo::TempoOpts,
    pub port: port::TempoOpts,
    min_lag: usize,
    max_lag: usize,
}

impl Search {
    pub fn of(min_bpm: f64, max_bpm: f64) -> Search {
        let rust = tempo::TempoOpts { min_bpm, max_bpm };
        let opts = port::TempoOpts::new().with_min_bpm(min_bpm).with_max_bpm(max_bpm);
        let (min_lag, max_lag) = tempo::open::lag_range(&rust, tempo::open::frame_rate(RATE));
        Search { rust, port: opts, min_lag, max_lag }
    }

    pub fn lags(&self) -> usize {
        self.max_lag - self.min_lag + 1
    }
}

/// What the calls on one envelope are lent.
pub struct Room {
    pub threshold: Vec<f64>,
    pub clarity: Vec<f64>,
    pub weight: Vec<f64>,
    pub work: Vec<f64>,
    pub score: Vec<f64>,
    pub back: Vec<u32>,
    pub beats: Vec<u32>,
}

impl Room {
    pub fn of(rows: usize, lags: usize) -> Room {
        let (lag_curve, frames) = (|| vec![0.0; lags], || vec![0; rows]);
        Room {
            threshold: vec![0.0; rows],
            clarity: lag_curve(),
            weight: lag_curve(),
            work: vec![0.0; lags.max(21)],
            score: vec![0.0; rows],
            back: frames(),
            beats: frames(),
        }
    }
}

/// The flux of so many rows and bins, of which the Rust has its own copy.
fn flux(slab: &[f32], given: &Stft, rows: usize, bins: usize, rounds: usize) -> (Vec<f64>, [f64; 2]) {
    let mut flux = vec![0.0; rows];
    port::spectral_flux(slab, rows, bins, &mut flux).unwrap();
    same("flux", bits(&onsets::open::spectral_flux(given)), bits(&flux));
    let mut out = vec![0.0; rows];
    let times = in_turns(
        rounds,
        [&mut || ran(onsets::open::spectral_flux(given)), &mut || {
            port::spectral_flux(slab, rows, bins, &mut out).unwrap()
        }],
    );
    (flux, times)
}

/// The flux alone.
pub fn flux_of(rows: usize, bins: usize, rounds: usize) -> [f64; 2] {
    let slab = magnitudes(rows, bins, 1);
    let given = stft(&slab, bins);
    flux(&slab, &given, rows, bins, rounds).1
}

/// The lag curves of the most lags that there are: all from 1 to 45,000, at 192,000 samples a second.
pub fn most_lags(flux: &[f64], rounds: usize) -> [f64; 2] {
    let (rate, rust) = (192_000, tempo::TempoOpts { min_bpm: 1.0, max_bpm: 45_000.0 });
    let opts = port::TempoOpts::new().with_min_bpm(rust.min_bpm).with_max_bpm(rust.max_bpm);
    let frame_rate = tempo::open::frame_rate(rate);
    let (low, high) = tempo::open::lag_range(&rust, frame_rate);
    assert_eq!((low, high), (1, 45_000));
    let Room { mut clarity, mut weight, mut work, .. } = Room::of(0, high - low + 1);
    port::estimate(flux, 2, rate, opts, &mut clarity, &mut weight, &mut work).unwrap();
    let curves = tempo::open::lag_curves(flux, low, high, frame_rate).unwrap();
    same("most lag curves", (bits(&curves.0), bits(&curves.1)), (bits(&clarity), bits(&weight)));
    in_turns(
        rounds,
        [&mut || ran(tempo::open::pick_tempo_peaks(flux, low, high, frame_rate)), &mut || {
            ran(port::estimate(flux, 2, rate, opts, &mut clarity, &mut weight, &mut work))
        }],
    )
}

/// The stages of a track of so many rows and bins.
pub fn track(rows: usize, bins: usize, rounds: usize, tell: &mut dyn FnMut(Line)) {
    let slab = magnitudes(rows, bins, 1);
    let given = stft(&slab, bins);
    let size = format!("{} x {bins}", counted(rows));
    let mut line =
        |stage, size: &str, [rust, port]: [f64; 2]| tell(Line { stage, size: size.into(), rust, port, full: None });

    let (flux, times) = flux(&slab, &given, rows, bins, rounds);
    line("flux", &size, times);

    let slots = counted(rows);
    envelope(&flux, Search::of(30.0, 300.0), rounds, &mut |stage, times| line(stage, &slots, times));
    line("whole track", &size, whole(&slab, &given, rows, bins, rounds));
    drop(given);
    tell(patch(slab, rows, bins, rounds));
}

/// The stages of an envelope: threshold, lag curves, stability, beats.
fn envelope(flux: &[f64], search: Search, rounds: usize, line: &mut dyn FnMut(&'static str, [f64; 2])) {
    let mut room = Room::of(flux.len(), search.lags());
    let Room { threshold, clarity, weight, work, .. } = &mut room;
    port::adaptive_threshold(flux, threshold, work).unwrap();
    same("threshold", bits(&onsets::open::adaptive_threshold(flux)), bits(threshold));
    line(
        "threshold",
        in_turns(
            rounds,
            [&mut || ran(onsets::open::adaptive_threshold(flux)), &mut || {
                port::adaptive_threshold(flux, threshold, work).unwrap()
            }],
        ),
    );

    let (low, high, frame_rate) = (search.min_lag, search.max_lag, tempo::open::frame_rate(RATE));
    let found = port::estimate(flux, 2, RATE, search.port, clarity, weight, work).unwrap();
    let curves = tempo::open::lag_curves(flux, low, high, frame_rate).unwrap();
    let picked = tempo::open::pick_tempo_peaks(flux, low, high, frame_rate).unwrap();
    same("lag curves", (bits(&curves.0), bits(&curves.1)), (bits(clarity), bits(weight)));
    let heard: Vec<(usize, u64)> = picked.peaks.iter().map(|p| (p.0, p.1.to_bits())).collect();
    same("tempo", heard, found.candidates().iter().map(|c| (c.lag, c.salience.to_bits())).collect());
    line(
        "lag curves",
        in_turns(
            rounds,
            [&mut || ran(tempo::open::pick_tempo_peaks(flux, low, high, frame_rate)), &mut || {
                ran(port::estimate(flux, 2, RATE, search.port, clarity, weight, work))
            }],
        ),
    );

    let lag = picked.winner_lag;
    let steady = port::stability_of(flux, RATE, search.port, lag, clarity, weight, work).unwrap();
    let share = tempo::open::stability_of(flux, low, high, frame_rate, lag);
    same("stability", share.map(f64::to_bits), steady.map(|s| s.fraction.to_bits()));
    line(
        "stability",
        in_turns(
            rounds,
            [&mut || ran(tempo::open::stability_of(flux, low, high, frame_rate, lag)), &mut || {
                ran(port::stability_of(flux, RATE, search.port, lag, clarity, weight, work))
            }],
        ),
    );
    line("beats", beats(flux, lag, rounds));
}

/// The beat grid of an envelope at a period.
pub fn beats(flux: &[f64], period: usize, rounds: usize) -> [f64; 2] {
    let Room { mut score, mut back, mut beats, .. } = Room::of(flux.len(), 0);
    let count = port::beat_grid(flux, period, &mut score, &mut back, &mut beats).unwrap();
    same("beats", frames(&tempo::open::beat_grid(flux, period)), beats[..count].to_vec());
    in_turns(
        rounds,
        [&mut || ran(tempo::open::beat_grid(flux, period)), &mut || {
            ran(port::beat_grid(flux, period, &mut score, &mut back, &mut beats))
        }],
    )
}

/// What the calls on a track answer: the tempo, its clarity, the stability, and how many onset, beat and downbeat times there are.
pub struct Told {
    tempo: Option<[f64; 2]>,
    stability: Option<f64>,
    candidates: [Option<(usize, f64)>; 3],
    times: [usize; 3],
}

/// From magnitudes to onset times, tempo, stability, beat times and downbeat times, in lent room that is made once.
pub struct Worker {
    buffers: port::Buffers,
    ms: [Vec<f64>; 3],
}

impl Worker {
    pub fn for_tracks(rows: usize) -> Worker {
        let buffers = port::Buffers::for_tracks(rows, RATE, port::TempoOpts::new()).unwrap();
        Worker { buffers, ms: [(); 3].map(|()| vec![0.0; rows]) }
    }

    pub fn analyse(&mut self, slab: &[f32], rows: usize, bins: usize) -> Told {
        let found = self.buffers.analyse_magnitudes(slab, rows, bins, RATE, port::TempoOpts::new()).unwrap();
        let lists = [found.onsets, found.beats, found.downbeats];
        for (list, ms) in lists.iter().zip(&mut self.ms) {
            port::frame_times(list, RATE, ms).unwrap();
        }
        Told {
            tempo: found.tempo.map(|t| [t.bpm, t.clarity]),
            stability: found.stability.map(|s| s.fraction),
            candidates: std::array::from_fn(|k| found.candidates().get(k).map(|c| (c.lag, c.salience))),
            times: lists.map(<[u32]>::len),
        }
    }
}

fn whole(slab: &[f32], given: &Stft, rows: usize, bins: usize, rounds: usize) -> [f64; 2] {
    let opts = Search::of(30.0, 300.0).rust;
    let run = || {
        let heard = onsets::open::analyze_stft(given);
        let report = tempo::open::estimate_from_parts(given, &heard, RATE, &opts);
        (heard, report)
    };
    let mut worker = Worker::for_tracks(rows);
    let told = worker.analyse(slab, rows, bins);
    let (heard, report) = run();
    let tempo = report.bpm.map(|bpm| bits(&[bpm, report.confidence]));
    same("tempo", tempo, told.tempo.map(|tempo| bits(&tempo)));
    same("stability", report.stability.map(f64::to_bits), told.stability.map(f64::to_bits));
    let bpm_of = |lag: usize| tempo::open::frame_rate(RATE) * 60.0 / lag as f64;
    let candidates = told.candidates.iter().flatten().map(|&(lag, salience)| bits(&[bpm_of(lag), salience])).collect();
    same("candidates", report.candidates.iter().map(|c| bits(&[c.bpm, c.salience])).collect::<Vec<_>>(), candidates);
    for (k, (name, ms)) in
        [("onsets", &heard.times_ms), ("beats", &report.beats_ms), ("downbeats", &report.downbeats_ms)]
            .iter()
            .enumerate()
    {
        same(name, bits(ms), bits(&worker.ms[k][..told.times[k]]));
    }
    in_turns(rounds, [&mut || ran(run()), &mut || ran(worker.analyse(slab, rows, bins))])
}

/// Twenty seconds in the middle of a track replaced and the curves repaired; the Rust, and the port's full run, begin anew on the edited rows.
fn patch(slab: Vec<f32>, rows: usize, bins: usize, rounds: usize) -> Line {
    let mut patched = Patched::of(slab, rows, bins, TWENTY_SECONDS);
    patched.turn();
    let given = stft(&patched.slab, bins);
    let anew = onsets::open::spectral_flux(&given);
    same("patched flux", bits(&anew), bits(&patched.flux));
    same("patched threshold", bits(&onsets::open::adaptive_threshold(&anew)), bits(&patched.threshold));
    let (mut flux, mut threshold, mut work) = (vec![0.0; rows], vec![0.0; rows], vec![0.0; 21]);
    let patched = RefCell::new(patched);
    let [rust, port, full] = in_turns(
        rounds,
        [
            &mut || ran(onsets::open::adaptive_threshold(&onsets::open::spectral_flux(&given))),
            &mut || patched.borrow_mut().turn(),
            &mut || {
                port::spectral_flux(&patched.borrow().slab, rows, bins, &mut flux).unwrap();
                port::adaptive_threshold(&flux, &mut threshold, &mut work).unwrap();
            },
        ],
    );
    Line { stage: "twenty seconds", size: format!("{} x {bins}", counted(rows)), rust, port, full: Some(full) }
}

/// A track whose middle is replaced by other rows and then by its own again, in turns: each patch changes all rows that it brings.
pub struct Patched {
    slab: Vec<f32>,
    rows: usize,
    bins: usize,
    start: usize,
    other: [Vec<f32>; 2],
    flux: Vec<f64>,
    threshold: Vec<f64>,
    work: Vec<f64>,
}

impl Patched {
    pub fn of(slab: Vec<f32>, rows: usize, bins: usize, count: usize) -> Patched {
        let start = (rows - count) / 2;
        let own = slab[start * bins..(start + count) * bins].to_vec();
        let (mut flux, mut threshold, mut work) = (vec![0.0; rows], vec![0.0; rows], vec![0.0; 21]);
        port::spectral_flux(&slab, rows, bins, &mut flux).unwrap();
        port::adaptive_threshold(&flux, &mut threshold, &mut work).unwrap();
        Patched { slab, rows, bins, start, other: [magnitudes(count, bins, 2), own], flux, threshold, work }
    }

    pub fn turn(&mut self) {
        let Patched { slab, rows, bins, start, other, flux, threshold, work } = self;
        port::patch_magnitudes(slab, *rows, *bins, *start, &other[0], flux, threshold, work).unwrap();
        other.swap(0, 1);
    }
}

/// Feature rows whose middle is replaced by others and then by its own again, in turns.
pub struct PatchedRows {
    given: Vec<f64>,
    rows: usize,
    start: usize,
    other: [Vec<f64>; 2],
    alike: Vec<f64>,
    novel: Vec<f64>,
}

impl PatchedRows {
    pub fn of(given: Vec<f64>, rows: usize, count: usize) -> PatchedRows {
        let start = (rows - count) / 2;
        let own = given[16 * start..16 * (start + count)].to_vec();
        let (mut alike, mut novel) = (vec![0.0; 17 * rows], vec![0.0; rows]);
        port::similarity(&given, rows, &mut alike).unwrap();
        port::novelty(&alike, rows, &mut novel).unwrap();
        PatchedRows { given, rows, start, other: [features(count, 4), own], alike, novel }
    }

    pub fn turn(&mut self) {
        let PatchedRows { given, rows, start, other, alike, novel } = self;
        port::patch_features(given, *rows, *start, &other[0], alike, novel).unwrap();
        other.swap(0, 1);
    }
}

/// The stages of so many feature rows.
pub fn sections(rows: usize, rounds: usize, tell: &mut dyn FnMut(Line)) {
    let given = features(rows, 3);
    let size = counted(rows);
    let of_rust = |given: &[f64]| -> Vec<[f64; 16]> { given.chunks(16).map(|row| row.try_into().unwrap()).collect() };
    let rust_rows = of_rust(&given);
    let mut line = |stage, [rust, port]: [f64; 2], full| tell(Line { stage, size: size.clone(), rust, port, full });

    let (mut alike, mut novel) = (vec![0.0; 17 * rows], vec![0.0; rows]);
    port::similarity(&given, rows, &mut alike).unwrap();
    let band = structure::open::Similarity::compute(&rust_rows);
    same("similarity", bits(band.values()), bits(&alike));
    line(
        "similarity",
        in_turns(
            rounds,
            [&mut || ran(structure::open::Similarity::compute(&rust_rows)), &mut || {
                port::similarity(&given, rows, &mut alike).unwrap()
            }],
        ),
        None,
    );

    port::novelty(&alike, rows, &mut novel).unwrap();
    same("novelty", bits(&band.novelty()), bits(&novel));
    line(
        "novelty",
        in_turns(rounds, [&mut || ran(band.novelty()), &mut || port::novelty(&alike, rows, &mut novel).unwrap()]),
        None,
    );

    let opts = structure::StructureOpts::default();
    let (mut list, mut work, mut picked) = (vec![0; rows], vec![0.0; rows], vec![]);
    let found = port::boundaries(&novel, RATE.into(), RATE, opts.max_sections, &mut list, &mut work).unwrap();
    let report = structure::open::sections(&novel, RATE as usize, RATE, &opts, &mut picked);
    same("boundaries", frames(&picked), list[..found.count].to_vec());
    same("confidence", report.confidence.to_bits(), found.confidence.to_bits());
    line(
        "boundaries",
        in_turns(
            rounds,
            [&mut || ran(structure::open::sections(&novel, RATE as usize, RATE, &opts, &mut picked)), &mut || {
                ran(port::boundaries(&novel, RATE.into(), RATE, opts.max_sections, &mut list, &mut work))
            }],
        ),
        None,
    );

    // a row is a second long
    let mut patched = PatchedRows::of(given, rows, 20);
    patched.turn();
    let edited = patched.given.clone();
    let rust_rows = of_rust(&edited);
    let band = structure::open::Similarity::compute(&rust_rows);
    same("patched similarity", bits(band.values()), bits(&patched.alike));
    same("patched novelty", bits(&band.novelty()), bits(&patched.novel));
    let [rust, port, full] = in_turns(
        rounds,
        [&mut || ran(structure::open::Similarity::compute(&rust_rows).novelty()), &mut || patched.turn(), &mut || {
            port::similarity(&edited, rows, &mut alike).unwrap();
            port::novelty(&alike, rows, &mut novel).unwrap();
        }],
    );
    line("twenty feature rows", [rust, port], Some(full));
}
