//! Each parameter and each output at least once with a value that tells it from its neighbours: a call that hands one on in another's place
//! gives another answer. Values "by the original" are what the Rust of docs/src answers; the others can be had by hand.
use prohunsev::*;

// what slots behind an answer hold before a call, and after it
const WAS: f64 = -7.5;
const WAS_FRAME: u32 = 77;

// a pulse every 94 frames, from frame 2,600 on every 73
fn turn() -> Vec<f64> {
    let mut envelope = vec![0.0; 4_000];
    let mut t = 5;
    while t < envelope.len() {
        envelope[t] = 1.0;
        t += if t < 2_600 { 94 } else { 73 };
    }
    envelope
}

// what is said of `turn`, by the original
struct Heard {
    rate: u32,
    bpm: (f64, f64),
    lags: (usize, usize),
    // lag, salience, which is its clarity, and weight
    candidates: &'static [(usize, f64, f64)],
    agreeing: usize,
    // how many, the first three and the last
    beats: (usize, [u32; 3], u32),
    downbeats: (usize, [u32; 3], u32),
}

const HEARD: [Heard; 4] = [
    Heard {
        rate: 48_000,
        bpm: (30.0, 300.0),
        lags: (38, 375),
        candidates: &[
            (94, 0.6053914404141673, 0.6053887964940086),
            (188, 0.5979661177347704, 0.4438107911577112),
            (73, 0.38291976654311355, 0.3684428394942035),
        ],
        agreeing: 3,
        beats: (43, [5, 99, 193], 3_951),
        downbeats: (11, [5, 381, 757], 3_756),
    },
    Heard {
        rate: 48_000,
        bpm: (30.0, 100.0),
        lags: (113, 375),
        candidates: &[
            (188, 0.5979661177347704, 0.4438107911577112),
            (146, 0.36812752505098095, 0.32622749504847576),
            (282, 0.5904374946358724, 0.27978724444305986),
        ],
        agreeing: 3,
        beats: (21, [5, 193, 381], 3_732),
        downbeats: (6, [5, 757, 1_509], 3_732),
    },
    Heard {
        rate: 48_000,
        bpm: (140.0, 300.0),
        lags: (38, 80),
        candidates: &[(73, 0.38291976654311355, 0.3684428394942035)],
        agreeing: 2,
        beats: (56, [5, 75, 145], 3_951),
        downbeats: (14, [75, 358, 639], 3_805),
    },
    Heard {
        rate: 24_000,
        bpm: (30.0, 300.0),
        lags: (19, 188),
        candidates: &[
            (94, 0.6053914404141673, 0.4493218698546586),
            (73, 0.38291976654311355, 0.3393360934545913),
            (188, 0.5979661177347704, 0.18228127280439488),
        ],
        agreeing: 3,
        beats: (43, [5, 99, 193], 3_951),
        downbeats: (11, [5, 381, 757], 3_756),
    },
];

// call by call, and all in one from the envelope and from magnitudes
#[test]
fn tracks() {
    let (envelope, n) = (turn(), 4_000);
    // two bins that rise to a quarter and to three: their flux is the envelope
    let magnitudes: Vec<f32> = envelope.iter().flat_map(|&x| [0.25 * x as f32, 0.75 * x as f32]).collect();
    for heard in &HEARD {
        let (rate, opts) = (heard.rate, TempoOpts::between(heard.bpm.0, heard.bpm.1));
        let (mut flux, mut threshold, mut onsets) = (vec![WAS; n], vec![WAS; n], vec![WAS_FRAME; n]);
        spectral_flux(&magnitudes, n, 2, &mut flux).unwrap();
        assert_eq!(flux, envelope);
        adaptive_threshold(&flux, &mut threshold, &mut [0.0; 21]).unwrap();
        assert_eq!(threshold, vec![0.000001; n]);
        let count = pick_onsets(&flux, &threshold, rate, &mut onsets).unwrap();
        let pulses: Vec<u32> = (0..4_000).filter(|&t| envelope[t as usize] == 1.0).collect();
        assert_eq!((count, &onsets[..count]), (47, &pulses[..]));

        let range = lag_range(rate, opts).unwrap();
        assert_eq!((range.min_lag, range.max_lag), heard.lags);
        let room = range.lags() + 1;
        let (mut clarity, mut weight, mut work) = (vec![WAS; room], vec![WAS; room], vec![WAS; room]);
        for onsets in [0, 1] {
            let found = estimate(&envelope, onsets, rate, opts, &mut clarity, &mut weight, &mut work).unwrap();
            assert_eq!((found.tempo, found.candidates().len(), &clarity, &weight), (None, 0, &work, &work));
        }
        let found = estimate(&envelope, 2, rate, opts, &mut clarity, &mut weight, &mut work).unwrap();
        let (lag, salience, _) = heard.candidates[0];
        let bpm = f64::from(rate) / 256.0 * 60.0 / lag as f64;
        assert_eq!((found.lag(), found.tempo), (Some(lag), Some(Tempo { bpm, clarity: salience })));
        let listed: Vec<_> =
            found.candidates().iter().map(|c| (c.lag, c.salience, weight[c.lag - range.min_lag])).collect();
        assert_eq!(listed, heard.candidates);
        assert!(found.candidates().iter().all(|c| clarity[c.lag - range.min_lag] == c.salience));
        assert_eq!((clarity[room - 1], weight[room - 1], work), (WAS, WAS, vec![WAS; room]));

        let mut work = vec![WAS; room];
        let steady = stability_of(&envelope, rate, opts, lag, &mut clarity, &mut weight, &mut work).unwrap();
        let fraction = heard.agreeing as f64 / 4.0;
        assert_eq!(steady, Some(Stability { fraction, agreeing: heard.agreeing, windows: 4 }));

        let (mut score, mut back, mut beats) = (vec![WAS; n], vec![WAS_FRAME; n], vec![WAS_FRAME; n]);
        let laid = beat_grid(&envelope, lag, &mut score, &mut back, &mut beats).unwrap();
        let mut bars = vec![WAS_FRAME; laid + 1];
        let begun = downbeats(&envelope, &beats[..laid], opts, &mut bars).unwrap();
        for (count, list, (many, first, last)) in [(laid, &beats, heard.beats), (begun, &bars, heard.downbeats)] {
            assert_eq!((count, &list[..3], list[count - 1], list[count]), (many, &first[..], last, WAS_FRAME));
        }

        let (mut one, mut other) =
            (Buffers::for_tracks(n, rate, opts).unwrap(), Buffers::for_tracks(n, rate, opts).unwrap());
        for track in [
            one.analyse_envelope(&envelope, rate, opts).unwrap(),
            other.analyse_magnitudes(&magnitudes, n, 2, rate, opts).unwrap(),
        ] {
            assert_eq!((track.tempo, track.candidates(), track.stability), (found.tempo, found.candidates(), steady));
            assert_eq!((track.onsets, track.beats, track.downbeats), (&pulses[..], &beats[..laid], &bars[..begun]));
        }
    }
}

// no limit above and below, and what a program that writes a number would be given as an empty field
const MOST: f64 = f64::INFINITY;
const LEAST: f64 = f64::NEG_INFINITY;
const NONE: f64 = f64::NAN;

// bounds that are not finite, finite ones that mean the same, and the lags of both at 48,000 by the original
const OPEN: [([f64; 2], [f64; 2], (usize, usize)); 8] = [
    ([MOST, MOST], [f64::MAX, f64::MAX], (1, 2)),
    ([30.0, MOST], [30.0, f64::MAX], (1, 375)),
    ([MOST, 30.0], [30.0, f64::MAX], (1, 375)),
    ([LEAST, MOST], [1.0, f64::MAX], (1, 11_250)),
    ([LEAST, LEAST], [1.0, 2.0], (5_625, 11_250)),
    ([NONE, 300.0], [300.0, 301.0], (37, 38)),
    ([30.0, NONE], [1.0, 30.0], (375, 11_250)),
    ([NONE, NONE], [1.0, 2.0], (5_625, 11_250)),
];

#[test]
fn open_bounds() {
    let (envelope, n, rate) = (turn(), 4_000, 12_000);
    let magnitudes: Vec<f32> = envelope.iter().map(|&x| x as f32).collect();
    let mut tempos = 0;
    for (open, finite, lags) in OPEN {
        let [open, finite] = [open, finite].map(|[low, high]| TempoOpts::new().with_min_bpm(low).with_max_bpm(high));
        for opts in [open, finite] {
            let range = lag_range(48_000, opts).unwrap();
            assert_eq!((range.min_lag, range.max_lag), lags, "{opts:?}");
        }
        assert_eq!(rooms::Track::of(n, rate, open), rooms::Track::of(n, rate, finite));
        let told = |opts: TempoOpts| {
            let room = rooms::lags(rate, opts).unwrap();
            let (mut clarity, mut weight, mut work) = (vec![WAS; room], vec![WAS; room], vec![WAS; room]);
            let found = estimate(&envelope, 47, rate, opts, &mut clarity, &mut weight, &mut work).unwrap();
            let curves = (clarity.clone(), weight.clone());
            let lag = found.lag().unwrap_or(0);
            let steady = stability_of(&envelope, rate, opts, lag, &mut clarity, &mut weight, &mut work).unwrap();
            (found, curves, steady)
        };
        assert_eq!(told(open), told(finite), "{open:?}");
        tempos += usize::from(told(open).0.tempo.is_some());
        let made = |opts| Buffers::for_tracks(n, rate, opts).unwrap();
        let (mut one, mut other) = (made(open), made(finite));
        let by_open = one.analyse_envelope(&envelope, rate, open).unwrap();
        assert_eq!(by_open, other.analyse_envelope(&envelope, rate, finite).unwrap());
        assert_eq!(by_open.candidates(), told(open).0.candidates());
        let by_open = one.analyse_magnitudes(&magnitudes, n, 1, rate, open).unwrap();
        assert_eq!(by_open, other.analyse_magnitudes(&magnitudes, n, 1, rate, finite).unwrap());
        assert_eq!(by_open.candidates(), told(open).0.candidates());
    }
    assert!(tempos >= 5, "too few of them have a tempo to compare");
}

// pulses a beat apart, each third of them louder, from the second on
fn waltz(n: usize) -> Vec<f64> {
    let level = |t: usize| if t / 80 % 3 == 1 { 1.5 } else { 1.0 };
    (0..n).map(|t| if t % 80 == 5 { level(t) } else { 0.0 }).collect()
}

// by its rule: of the beats that many apart those whose values sum up to the most, the earliest of equal ones
fn bars_of(envelope: &[f64], beats: &[u32], meter: usize) -> Vec<u32> {
    let of = |phase: usize| beats.iter().copied().skip(phase).step_by(meter);
    let sum = |phase| of(phase).fold(0.0, |sum, t| sum + envelope.get(t as usize).unwrap_or(&0.0));
    let best = (0..meter).fold(0, |best, phase| if sum(phase) > sum(best) { phase } else { best });
    of(best).collect()
}

#[test]
fn the_options_meter() {
    let new = TempoOpts::new();
    assert_eq!((TempoOpts::DEFAULT_METER, TempoOpts::MOST_METER, limits::MOST_METER), (4, 16, 16));
    assert_eq!((new.meter, TempoOpts::default().meter, TempoOpts::between(50.0, 60.0).meter), (4, 4, 4));
    let opts = new.with_meter(3).with_min_bpm(50.0).with_max_bpm(60.0);
    assert_eq!(opts, TempoOpts { min_bpm: 50.0, max_bpm: 60.0, meter: 3 });
    assert_eq!((opts.with_meter(4), opts.with_meter(0).meter), (TempoOpts::between(50.0, 60.0), 0));
}

#[test]
fn meters() {
    let (n, rate, usual) = (4_000, 48_000, TempoOpts::new());
    // uneven levels, with ties for the greatest sum at 8, 9, 13 and 14, and then every third
    let uneven: Vec<f64> = (0..n).map(|t| if t % 80 == 5 { 1.0 + 0.25 * ((t * t) % 7) as f64 } else { 0.0 }).collect();
    for envelope in [uneven, waltz(n), turn()] {
        let magnitudes: Vec<f32> = envelope.iter().map(|&x| x as f32).collect();
        let room = rooms::lags(rate, usual).unwrap();
        let told = |opts: TempoOpts| {
            let (mut clarity, mut weight, mut work) = (vec![WAS; room], vec![WAS; room], vec![WAS; room]);
            let found = estimate(&envelope, 40, rate, opts, &mut clarity, &mut weight, &mut work).unwrap();
            let curves = (clarity.clone(), weight.clone());
            let lag = found.lag().unwrap();
            let steady = stability_of(&envelope, rate, opts, lag, &mut clarity, &mut weight, &mut work).unwrap();
            (lag_range(rate, opts).unwrap(), rooms::Track::of(n, rate, opts).unwrap(), found, curves, steady)
        };
        let (mut score, mut back, mut beats) = (vec![WAS; n], vec![WAS_FRAME; n], vec![WAS_FRAME; n]);
        let lag = told(usual).2.lag().unwrap();
        let laid = beat_grid(&envelope, lag, &mut score, &mut back, &mut beats).unwrap();
        let beats = &beats[..laid];
        let mut counts = vec![];
        for meter in 1..=16 {
            let opts = usual.with_meter(meter);
            // nothing else is chosen by it
            assert_eq!(told(opts), told(usual), "{opts:?}");
            let mut bars = vec![WAS_FRAME; laid + 1];
            let begun = downbeats(&envelope, beats, opts, &mut bars).unwrap();
            assert_eq!((&bars[..begun], bars[begun]), (&bars_of(&envelope, beats, meter)[..], WAS_FRAME), "{opts:?}");
            // neither are these bounds read
            let other = TempoOpts::between(f64::NAN, -1.0).with_meter(meter);
            assert_eq!(downbeats(&envelope, beats, other, &mut vec![0; laid]), Ok(begun));
            let mut buffers = Buffers::for_tracks(n, rate, usual).unwrap();
            let by_usual = buffers.analyse_envelope(&envelope, rate, usual).unwrap();
            let heard = (by_usual.tempo, by_usual.stability, by_usual.onsets.to_vec(), by_usual.beats.to_vec());
            let same = |track: Analysis| {
                assert_eq!((track.tempo, track.stability, track.onsets.to_vec(), track.beats.to_vec()), heard);
                assert_eq!((track.beats, track.downbeats), (beats, &bars[..begun]), "{opts:?}");
            };
            same(buffers.analyse_envelope(&envelope, rate, opts).unwrap());
            same(buffers.analyse_magnitudes(&magnitudes, n, 1, rate, opts).unwrap());
            // a repaired grid has the meter of the last analysis
            let mut rows = magnitudes.clone();
            buffers.patch_magnitudes(&mut rows, n, 1, 0, &magnitudes[..1]).unwrap();
            same(buffers.analyse_patched().unwrap());
            same(buffers.analysis().unwrap());
            assert_eq!(buffers.lags(), lag_range(rate, usual).ok());
            counts.push(begun);
        }
        // a meter that another stood for would be seen
        assert!(counts[..8].windows(2).all(|c| c[0] > c[1]), "{counts:?}");
    }
}

// three beats apart, on the accent
#[test]
fn a_waltz() {
    let (envelope, rate, opts) = (waltz(4_000), 48_000, TempoOpts::new().with_meter(3));
    let mut buffers = Buffers::for_tracks(4_000, rate, opts).unwrap();
    let track = buffers.analyse_envelope(&envelope, rate, opts).unwrap();
    assert_eq!((track.candidates()[0].lag, track.beats.len()), (80, 50));
    let accents: Vec<u32> = (0..4_000).filter(|&t| envelope[t as usize] == 1.5).collect();
    assert_eq!((track.downbeats, track.downbeats[0]), (&accents[..], 85));
    assert!(track.downbeats.windows(2).all(|d| d[1] - d[0] == 3 * 80));
    // in bars of four they are off it
    let track = buffers.analyse_envelope(&envelope, rate, TempoOpts::new()).unwrap();
    assert!(track.downbeats.iter().any(|d| !accents.contains(d)));
}

#[test]
fn windows() {
    let (opts, mut a, mut b, mut c) = (TempoOpts::new(), [0.0; 338], [0.0; 338], [0.0; 338]);
    // slots of `turn`, rate and lag; agreeing and windows by the original
    for (n, rate, lag, expected) in [
        (4_000, 48_000, 94, Some((3, 4))),
        (4_000, 48_000, 73, Some((1, 4))),
        (4_000, 48_000, 0, None),
        (1_300, 48_000, 94, Some((3, 3))),
        (700, 44_100, 94, Some((2, 2))),
        (700, 48_000, 94, None),
    ] {
        let steady = stability_of(&turn()[..n], rate, opts, lag, &mut a, &mut b, &mut c).unwrap();
        assert_eq!(steady.map(|s| (s.agreeing, s.windows)), expected, "{n} slots at {rate}, lag {lag}");
        assert!(steady.is_none_or(|s| s.fraction == s.agreeing as f64 / s.windows as f64));
        // a whole track has lag 94; the last has a tempo and no stability
        let mut buffers = Buffers::for_tracks(n, rate, opts).unwrap();
        let track = buffers.analyse_envelope(&turn()[..n], rate, opts).unwrap();
        assert_eq!(track.candidates()[0].lag, 94);
        assert!(track.tempo.is_some() && (track.stability == steady || lag != 94));
    }
}

#[test]
fn medians() {
    let values = [1.0, 2.0, 3.0, 9.0, 2.0];
    assert_eq!((median_of(&values, &mut [0.0; 5]), median_of(&values[2..], &mut [0.0; 3])), (Ok(2.0), Ok(3.0)));
    assert_eq!((mad_of(&values, 2.0, &mut [0.0; 5]), mad_of(&values, 5.0, &mut [0.0; 5])), (Ok(1.0), Ok(3.0)));
}

#[test]
fn peaks() {
    let mut flux = [0.0; 30];
    (flux[10], flux[13], flux[20]) = (5.0, 6.0, 4.0);
    // 30 ms are 1.9, 5.6 and 11.3 frames
    for (threshold, rate, expected) in
        [(1.0, 16_000, &[10, 13, 20][..]), (1.0, 48_000, &[13, 20]), (1.0, 96_000, &[13]), (4.5, 48_000, &[13])]
    {
        let mut frames = [WAS_FRAME; 30];
        let count = pick_onsets(&flux, &[threshold; 30], rate, &mut frames).unwrap();
        assert_eq!((&frames[..count], frames[count]), (expected, WAS_FRAME), "{threshold} at {rate}");
    }
    for (gap, expected) in [(0, &[10, 13, 20][..]), (2, &[10, 13, 20]), (3, &[13, 20]), (6, &[13, 20]), (7, &[13])] {
        let mut frames = [WAS_FRAME; 4];
        let count = suppress_close_peaks(&[10, 13, 20], &flux, gap, &mut frames).unwrap();
        assert_eq!((&frames[..count], frames[count]), (expected, WAS_FRAME), "a gap of {gap}");
    }
    for (rate, expected) in [(1_000, [1_280.0, 512.0, WAS]), (500, [2_560.0, 1_024.0, WAS])] {
        let mut ms = [WAS; 3];
        frame_times(&[3, 0], rate, &mut ms).unwrap();
        assert_eq!(ms, expected);
    }
}

#[test]
fn grids() {
    const NO: u32 = limits::NO_LINK;
    // period, scores and links by the original, beats
    for (period, scores, links, expected) in [
        (1, [0.0, 2.0, 2.0, 4.0, 4.0, 6.0], [NO, NO, 1, 2, 3, 4], &[1, 2, 3, 4, 5][..]),
        (2, [0.0, 2.0, 0.0, 4.0, 0.0, 6.0], [NO, NO, NO, 1, NO, 3], &[1, 3, 5]),
        (3, [0.0, 2.0, 0.0, 2.0, 2.0, 2.0], [NO, NO, NO, NO, 1, NO], &[1]),
    ] {
        let (mut score, mut back, mut beats) = ([WAS; 7], [WAS_FRAME; 7], [WAS_FRAME; 7]);
        let count = beat_grid(&[0.0, 4.0, 0.0, 4.0, 0.0, 4.0], period, &mut score, &mut back, &mut beats).unwrap();
        assert_eq!((&score[..6], &back[..6], &beats[..count]), (&scores[..], &links[..], expected), "period {period}");
        assert_eq!((score[6], back[6], beats[count]), (WAS, WAS_FRAME, WAS_FRAME));
    }
    let (bars, beats) = ([0.5, 2.5], [0.5, 1.0, 1.5, 2.0, 2.5, 3.0]);
    for (time, expected) in [(0.4, None), (1.6, Some((1, 3))), (2.5, Some((2, 1))), (9.0, Some((2, 2)))] {
        assert_eq!(bar_beat_at(time, &bars, &beats), expected.map(|(bar, beat)| BarBeat { bar, beat }));
    }
}

#[test]
fn likeness() {
    // two rows whose cosine is 3/5; room behind them
    let (mut features, mut band) = ([0.0; 32], [WAS; 35]);
    (features[0], features[16], features[17]) = (2.0, 3.0, 4.0);
    similarity(&features, 2, &mut band).unwrap();
    let mut expected = [0.0; 35];
    (expected[0], expected[1], expected[17], expected[34]) = (1.0, 0.6, 1.0, WAS);
    assert_eq!(band, expected);
    // nine rows of one kind, nine of another; by the original
    let mut features = [0.0; 18 * 16];
    (0..18).for_each(|row| features[16 * row + row / 9] = 1.0);
    let (mut band, mut novel) = ([WAS; 18 * 17], [WAS; 19]);
    similarity(&features, 18, &mut band).unwrap();
    novelty(&band, 18, &mut novel).unwrap();
    assert_eq!((novel[0], novel[9], novel[17]), (27.163394960670146, 46.06142697369474, 11.203658657106502));
    assert_eq!(novel[18], WAS);
}

#[test]
fn sections() {
    let mut novelty = [0.0; 40];
    (novelty[12], novelty[25], novelty[28], novelty[31]) = (2.0, 3.0, 1.5, 2.5);
    // length, rate and most sections; rows and confidence by the original: 4 s are 4, 8 or 2 rows
    for (length, rate, most, expected, confidence) in [
        (48_000, 48_000, 8, &[12, 25, 31][..], 0.8333333333333334),
        (24_000, 48_000, 8, &[12, 25], 0.8333333333333334),
        (48_000, 24_000, 8, &[12, 25, 28, 31], 0.75),
        (48_000, 48_000, 3, &[25, 31], 0.9166666666666666),
        (48_000, 48_000, 2, &[25], 1.0),
        (48_000, 48_000, 1, &[], 0.0),
    ] {
        let (mut rows, mut work) = ([WAS_FRAME; 40], [0.0; 40]);
        let found = boundaries(&novelty, length, rate, most, &mut rows, &mut work).unwrap();
        let count = expected.len();
        assert_eq!(found, Sections { sections: count + 1, count, confidence }, "{length} at {rate}, {most}");
        assert_eq!((&rows[..count], rows[count]), (expected, WAS_FRAME));
    }
    for (length, rate, expected) in [
        (24_000, 48_000, [12_500.0, 6_000.0, WAS]),
        (48_000, 96_000, [12_500.0, 6_000.0, WAS]),
        (24_000, 8_000, [75_000.0, 36_000.0, WAS]),
    ] {
        let mut ms = [WAS; 3];
        boundary_times(&[25, 12], length, rate, &mut ms).unwrap();
        assert_eq!(ms, expected);
    }
}

#[test]
fn rooms_of_tracks() {
    for (rows, rate, bpm, expected) in [
        (67_500, 48_000, (30.0, 300.0), (67_500, 338, 338)),
        (67_500, 48_000, (30.0, 200.0), (67_500, 320, 320)),
        (67_500, 48_000, (60.0, 300.0), (67_500, 151, 151)),
        (30, 1, (30.0, 300.0), (30, 2, 21)),
        (10, 1, (30.0, 300.0), (10, 2, 10)),
    ] {
        let opts = TempoOpts::between(bpm.0, bpm.1);
        let room = rooms::Track::of(rows, rate, opts).unwrap();
        assert_eq!((room.rows, room.lags, room.sorting), expected);
        let mut buffers = Buffers::with_room(room).unwrap();
        assert_eq!(buffers.room(), room);
        assert!(buffers.analyse_envelope(&vec![1.0; rows], rate, opts).is_ok());
    }
}
