//! With exactly the room of `rooms` no call refuses for room, and with one slot fewer it does.
use prohunsev::*;

const RATE: u32 = 48_000;

// pulses on a wavy floor
fn envelope(n: usize) -> Vec<f64> {
    (0..n).map(|t| (t % 7) as f64 * 0.01 + if t % 94 == 5 { 2.0 } else { 0.0 }).collect()
}

fn short<T>(answer: Result<T, Refused>) -> bool {
    answer.is_err_and(|r| r == Refusal::TooLittleRoom)
}

// a call by its name, its slots, and itself with other numbers of them
type Case<'a> = (&'a str, &'a [usize], &'a dyn Fn(&[usize]) -> Result<(), Refused>);

// each call with the slots of its outputs and work slices, by `rooms`: with so many it is answered; with one slot fewer in any of them, and
// different numbers to spare in the others, it is not
#[test]
fn one_slot_short() {
    let (new, open) = (TempoOpts::new(), TempoOpts::between(0.0, 0.0));
    for (n, rate, opts) in [
        (1, RATE, new),
        (2, 1, new),
        (3, RATE, new),
        (20, RATE, new),
        (21, 192_000, open),
        (22, 24_000, new),
        (500, RATE, new),
    ] {
        let flux = envelope(n);
        let (row, lags) = (flux[n - 1] as f32, rooms::lags(rate, opts).unwrap());
        let (magnitudes, list, ones) = (vec![row; n], (0..n as u32).collect::<Vec<_>>(), vec![1.0; 16 * n]);
        let (reals, frames) = (|slots| vec![0.0; slots], |slots| vec![0; slots]);
        let cases: [Case; 17] = [
            ("median_of", &[rooms::entries(n)], &|r| median_of(&flux, &mut reals(r[0])).map(drop)),
            ("mad_of", &[rooms::entries(n)], &|r| mad_of(&flux, 1.0, &mut reals(r[0])).map(drop)),
            ("spectral_flux", &[rooms::flux(n)], &|r| spectral_flux(&magnitudes, n, 1, &mut reals(r[0]))),
            ("adaptive_threshold", &[rooms::threshold(n), rooms::threshold_work(n)], &|r| {
                adaptive_threshold(&flux, &mut reals(r[0]), &mut reals(r[1]))
            }),
            ("pick_onsets", &[rooms::onsets(n)], &|r| pick_onsets(&flux, &flux, rate, &mut frames(r[0])).map(drop)),
            ("suppress_close_peaks", &[rooms::entries(n)], &|r| {
                suppress_close_peaks(&list, &flux, 1, &mut frames(r[0])).map(drop)
            }),
            ("frame_times", &[rooms::entries(n)], &|r| frame_times(&list, rate, &mut reals(r[0]))),
            ("estimate", &[lags; 3], &|r| {
                estimate(&flux, 2, rate, opts, &mut reals(r[0]), &mut reals(r[1]), &mut reals(r[2])).map(drop)
            }),
            ("stability_of", &[lags; 3], &|r| {
                stability_of(&flux, rate, opts, 60, &mut reals(r[0]), &mut reals(r[1]), &mut reals(r[2])).map(drop)
            }),
            ("beat_grid", &[rooms::beats(n); 3], &|r| {
                beat_grid(&flux, 60, &mut reals(r[0]), &mut frames(r[1]), &mut frames(r[2])).map(drop)
            }),
            ("downbeats", &[rooms::entries(n)], &|r| downbeats(&flux, &list, new, &mut frames(r[0])).map(drop)),
            ("similarity", &[rooms::similarity(n)], &|r| similarity(&ones, n, &mut reals(r[0]))),
            ("novelty", &[rooms::novelty(n)], &|r| novelty(&vec![1.0; 17 * n], n, &mut reals(r[0]))),
            ("boundaries", &[rooms::boundaries(n); 2], &|r| {
                boundaries(&flux, 4_800, rate, 8, &mut frames(r[0]), &mut reals(r[1])).map(drop)
            }),
            ("boundary_times", &[rooms::entries(n)], &|r| boundary_times(&list, 4_800, rate, &mut reals(r[0]))),
            ("patch_magnitudes", &[rooms::flux(n), rooms::threshold(n), rooms::threshold_work(n)], &|r| {
                let (mut rows, mut work) = (magnitudes.clone(), reals(r[2]));
                patch_magnitudes(&mut rows, n, 1, 0, &[2.0], &mut reals(r[0]), &mut reals(r[1]), &mut work).map(drop)
            }),
            ("patch_features", &[rooms::similarity(n), rooms::novelty(n)], &|r| {
                patch_features(&mut ones.clone(), n, 0, &[2.0; 16], &mut reals(r[0]), &mut reals(r[1])).map(drop)
            }),
        ];
        for (name, exact, call) in cases {
            assert_eq!(call(exact), Ok(()), "{name}, {n}");
            for short in 0..exact.len() {
                let mut slots: Vec<usize> = exact.iter().zip(1..).map(|(slots, spare)| slots + spare).collect();
                assert_eq!(call(&slots), Ok(()), "{name}, {n}, and to spare");
                slots[short] = exact[short] - 1;
                assert_eq!(
                    call(&slots),
                    Err(Refusal::TooLittleRoom.into()),
                    "{name}, {n}, slice {short} of its outputs"
                );
            }
        }
    }
}

#[test]
fn a_whole_track() {
    let opts = TempoOpts::new();
    let room = rooms::Track::of(2_000, RATE, opts).unwrap();
    assert_eq!(room.bytes(), 8 * (3 * 2_000 + 4 * 338 + 338) + 4 * 4 * 2_000);
    let mut exact = Buffers::with_room(room).unwrap();
    let track = exact.analyse_envelope(&envelope(2_000), RATE, opts).unwrap();
    assert_eq!((track.candidates()[0].lag, track.stability.map(|s| s.windows)), (94, Some(4)));
    assert!(track.downbeats.iter().all(|d| track.beats.contains(d)) && track.beats.len() > 18);
    for less in [
        rooms::Track { rows: 1_999, ..room },
        rooms::Track { lags: 337, ..room },
        rooms::Track { sorting: 337, ..room },
    ] {
        assert!(short(Buffers::with_room(less).unwrap().analyse_envelope(&envelope(2_000), RATE, opts)));
    }
    assert_eq!(rooms::Track::of(limits::MOST_ROWS + 1, RATE, opts), Err(Refusal::OutOfBounds.into()));
    assert!(Buffers::for_tracks(10, 0, opts).is_err());
    // the most that a track can use, and one more of each
    let most = rooms::Track { rows: limits::MOST_ROWS, lags: 45_000, sorting: 45_000 };
    assert_eq!(Buffers::with_room(most).unwrap().room().bytes(), 43_743_040);
    for more in [
        rooms::Track { rows: most.rows + 1, ..most },
        rooms::Track { lags: 45_001, ..most },
        rooms::Track { sorting: usize::MAX, ..most },
    ] {
        assert_eq!(Buffers::with_room(more).err(), Some(Refusal::OutOfBounds.into()));
    }
}

// one call, judged before it begins: the lowest number, and nothing in the buffers changes
#[test]
fn a_refused_track() {
    let opts = TempoOpts::new();
    let mut buffers = Buffers::for_tracks(1_000, RATE, opts).unwrap();
    let beats = buffers.analyse_envelope(&envelope(1_000), RATE, opts).unwrap().beats.to_vec();
    assert!(!beats.is_empty());
    let was = buffers.clone();
    assert_eq!(buffers.analyse_envelope(&[0.0; 1_001], 0, opts), Err(Refusal::OutOfBounds.into()));
    assert_eq!(buffers.analyse_magnitudes(&[0.0; 1_001], 1_001, 1, 0, opts), Err(Refusal::OutOfBounds.into()));
    assert_eq!(buffers.analyse_magnitudes(&[f32::NAN], 1, 1, 0, opts), Err(Refusal::OutOfBounds.into()));
    assert_eq!(buffers.analyse_magnitudes(&[f32::NAN], 2, 1, RATE, opts), Err(Refusal::WrongLength.into()));
    assert_eq!(
        buffers.analyse_magnitudes(&[f32::NAN; 1_001], 1_001, 1, RATE, opts),
        Err(Refusal::TooLittleRoom.into())
    );
    assert_eq!(buffers.analyse_magnitudes(&[0.0, f32::NAN], 2, 1, RATE, opts), Err(Refusal::WrongValue.into()));
    assert_eq!(buffers.analyse_envelope(&[9.0, limits::MOST_VALUE * 2.0], RATE, opts), Err(Refusal::WrongValue.into()));
    let slow = opts.with_min_bpm(5.0);
    assert_eq!(buffers.analyse_envelope(&envelope(1_000), RATE, slow), Err(Refusal::TooLittleRoom.into()));
    assert!(buffers == was);
}

// its thresholds come out above 2^150, and are no lent values
#[test]
fn the_largest_values_are_answered() {
    let mut buffers = Buffers::for_tracks(3, RATE, TempoOpts::new()).unwrap();
    let most = limits::MOST_VALUE;
    let track = buffers.analyse_envelope(&[most, -most, 0.0], RATE, TempoOpts::new()).unwrap();
    assert_eq!((track.tempo, track.beats.len()), (None, 0));
}

// the same buffers, shorter and longer tracks in turn, magnitudes and envelopes: an answer depends on nothing left behind
#[test]
fn buffers_used_again() {
    let opts = TempoOpts::new();
    let mut buffers = Buffers::for_tracks(3_000, RATE, opts).unwrap();
    for n in [3_000, 700, 0, 2_999, 700] {
        let rows: Vec<f32> = envelope(n).iter().map(|&x| x as f32).collect();
        let mut fresh = Buffers::for_tracks(n, RATE, opts).unwrap();
        let again = buffers.analyse_magnitudes(&rows, n, 1, RATE, opts);
        assert_eq!(again, fresh.analyse_magnitudes(&rows, n, 1, RATE, opts));
        assert!(again.is_ok());
    }
}

#[test]
fn numbers_of_ones_own() {
    let most = usize::MAX;
    assert_eq!(rooms::Track { rows: most, lags: 0, sorting: 0 }.bytes(), most);
    assert_eq!(rooms::Track { rows: most / 40, lags: most, sorting: most }.bytes(), most);
    assert_eq!(rooms::Track { rows: 1, lags: 1, sorting: 1 }.bytes(), 80);
    assert_eq!(LagRange { min_lag: 0, max_lag: most }.lags(), most);
    assert_eq!(LagRange { min_lag: 5, max_lag: 2 }.lags(), 1);
    assert_eq!(rooms::similarity(most), most);
}
