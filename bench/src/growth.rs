//! How the port's cost grows: each count doubled three times, all else kept.
use crate::clock::{in_turns, ran};
use crate::music::{RATE, features, magnitudes};
use crate::stages::{Patched, PatchedRows, Room, Search, Worker, counted};
use prohunsev as port;

/// Tells the stage, the count, its first value and the four times in seconds.
type Tell<'a> = &'a mut dyn FnMut(&str, &str, usize, [f64; 4]);

fn doubled(first: usize) -> [usize; 4] {
    [first, 2 * first, 4 * first, 8 * first]
}

fn times(works: &mut [Box<dyn FnMut() + '_>; 4], rounds: usize) -> [f64; 4] {
    let [a, b, c, d] = works;
    in_turns(rounds, [&mut **a, &mut **b, &mut **c, &mut **d])
}

fn envelope_of(rows: usize) -> Vec<f64> {
    let mut flux = vec![0.0; rows];
    port::spectral_flux(&magnitudes(rows, 8, 1), rows, 8, &mut flux).unwrap();
    flux
}

// lags from 38 on, so many
fn search(lags: usize) -> Search {
    let found = Search::of(f64::from(RATE) / 256.0 * 60.0 / (37 + lags) as f64, 300.0);
    assert_eq!(found.lags(), lags);
    found
}

/// A stage of an envelope, in lent room.
type Stage = fn(&[f64], Search, usize, &mut Room);

fn threshold(flux: &[f64], _: Search, _: usize, room: &mut Room) {
    port::adaptive_threshold(flux, &mut room.threshold, &mut room.work).unwrap();
}
fn lag_curves(flux: &[f64], search: Search, _: usize, room: &mut Room) {
    let Room { clarity, weight, work, .. } = room;
    ran(port::estimate(flux, 2, RATE, search.port, clarity, weight, work).unwrap());
}
fn stability(flux: &[f64], search: Search, lag: usize, room: &mut Room) {
    let Room { clarity, weight, work, .. } = room;
    ran(port::stability_of(flux, RATE, search.port, lag, clarity, weight, work).unwrap());
}
fn beats(flux: &[f64], _: Search, period: usize, room: &mut Room) {
    ran(port::beat_grid(flux, period, &mut room.score, &mut room.back, &mut room.beats).unwrap());
}

fn of_envelopes(rounds: usize, stage: &str, run: Stage, tell: Tell) {
    let mut each = |stage: &str, count: &str, first: usize, sizes: [[usize; 3]; 4], rounds: usize| {
        let mut works = sizes.map(|[slots, lags, period]| -> Box<dyn FnMut()> {
            let (flux, mut room, search) = (envelope_of(slots), Room::of(slots, lags), search(lags));
            Box::new(move || run(&flux, search, period, &mut room))
        });
        tell(stage, count, first, times(&mut works, rounds));
    };
    each(stage, "slots", 16_384, doubled(16_384).map(|n| [n, 338, 95]), rounds);
    if stage == "lag curves" || stage == "stability" {
        each(stage, "lags", 256, doubled(256).map(|n| [16_384, n, 95]), rounds);
    }
    if stage == "beats" {
        each(stage, "period", 50, doubled(50).map(|n| [16_384, 338, n]), rounds);
        // a period above 2,048 has no table: few slots and runs, since it takes seconds; in 8,192 slots the last period has no frame far
        // enough back
        each("beats, no table", "slots", 2_048, doubled(2_048).map(|n| [n, 338, 2_500]), rounds.min(3));
        each("beats, no table", "period", 2_500, doubled(2_500).map(|n| [8_192, 338, n]), rounds.min(3));
    }
}

fn of_magnitudes(rounds: usize, tell: Tell) {
    for (count, first, sizes) in
        [("rows", 4_096, doubled(4_096).map(|n| [n, 128])), ("bins", 128, doubled(128).map(|n| [4_096, n]))]
    {
        let mut works = sizes.map(|[rows, bins]| -> Box<dyn FnMut()> {
            let (slab, mut flux) = (magnitudes(rows, bins, 1), vec![0.0; rows]);
            Box::new(move || port::spectral_flux(&slab, rows, bins, &mut flux).unwrap())
        });
        tell("flux", count, first, times(&mut works, rounds));
    }
    let patches =
        [("rows", 8_192, doubled(8_192).map(|n| [n, 512])), ("new rows", 512, doubled(512).map(|n| [65_536, n]))];
    for (count, first, sizes) in patches {
        let mut works = sizes.map(|[rows, new]| -> Box<dyn FnMut()> {
            let mut patched = Patched::of(magnitudes(rows, 128, 1), rows, 128, new);
            Box::new(move || patched.turn())
        });
        tell("patch of magnitudes", count, first, times(&mut works, rounds));
    }
    for (count, first, sizes) in
        [("rows", 4_096, doubled(4_096).map(|n| [n, 128])), ("bins", 128, doubled(128).map(|n| [4_096, n]))]
    {
        let mut works = sizes.map(|[rows, bins]| -> Box<dyn FnMut()> {
            let (slab, mut worker) = (magnitudes(rows, bins, 1), Worker::for_tracks(rows));
            Box::new(move || ran(worker.analyse(&slab, rows, bins)))
        });
        tell("whole track", count, first, times(&mut works, rounds));
    }
}

fn of_features(rounds: usize, tell: Tell) {
    let sizes = doubled(6_250);
    let curves = sizes.map(|rows| {
        let (given, mut alike, mut novel) = (features(rows, 3), vec![0.0; 17 * rows], vec![0.0; rows]);
        port::similarity(&given, rows, &mut alike).unwrap();
        port::novelty(&alike, rows, &mut novel).unwrap();
        (given, alike, novel)
    });
    let mut k = 0;
    let mut works = sizes.map(|rows| -> Box<dyn FnMut()> {
        let ((given, alike, _), mut out) = (&curves[k], vec![0.0; 17 * rows]);
        k += 1;
        assert_eq!(alike.len(), out.len());
        Box::new(move || port::similarity(given, rows, &mut out).unwrap())
    });
    tell("similarity", "rows", sizes[0], times(&mut works, rounds));
    k = 0;
    let mut works = sizes.map(|rows| -> Box<dyn FnMut()> {
        let ((_, alike, _), mut out) = (&curves[k], vec![0.0; rows]);
        k += 1;
        Box::new(move || port::novelty(alike, rows, &mut out).unwrap())
    });
    tell("novelty", "rows", sizes[0], times(&mut works, rounds));
    let mut bounds = |count: &str, first: usize, pairs: [(usize, usize); 4]| {
        let mut works = pairs.map(|(at, most)| -> Box<dyn FnMut()> {
            let novel = &curves[at].2;
            let (mut list, mut work) = (vec![0; novel.len()], vec![0.0; novel.len()]);
            Box::new(move || ran(port::boundaries(novel, RATE.into(), RATE, most, &mut list, &mut work)))
        });
        tell("boundaries", count, first, times(&mut works, rounds));
    };
    bounds("rows", sizes[0], [(0, 12), (1, 12), (2, 12), (3, 12)]);
    bounds("most sections", 12, doubled(12).map(|most| (3, most)));
    let patches =
        [("rows", 6_250, doubled(6_250).map(|n| [n, 512])), ("new rows", 512, doubled(512).map(|n| [50_000, n]))];
    for (count, first, sizes) in patches {
        let mut works = sizes.map(|[rows, new]| -> Box<dyn FnMut()> {
            let mut patched = PatchedRows::of(features(rows, 3), rows, new);
            Box::new(move || patched.turn())
        });
        tell("patch of features", count, first, times(&mut works, rounds));
    }
}

/// Every stage, by each count that it depends on, as rows of a table.
pub fn tell(rounds: usize) {
    crate::place();
    println!("| stage | count | from | once | twice | four times | eight times | last doubling |");
    println!("|---|---|---|---|---|---|---|---|");
    let mut tell = |stage: &str, count: &str, first: usize, [a, b, c, d]: [f64; 4]| {
        let ms = |s: f64| format!("{:.3}", 1e3 * s);
        let (a, b, c, last, d) = (ms(a), ms(b), ms(c), d / c, ms(d));
        println!("| {stage} | {count} | {} | {a} | {b} | {c} | {d} | {last:.2} |", counted(first));
    };
    of_magnitudes(rounds, &mut tell);
    let stages: [(&str, Stage); 4] =
        [("threshold", threshold), ("lag curves", lag_curves), ("stability", stability), ("beats", beats)];
    for (stage, run) in stages {
        of_envelopes(rounds, stage, run, &mut tell);
    }
    of_features(rounds, &mut tell);
}
