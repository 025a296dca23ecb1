//! A track that is patched in its buffers has the curves, the tempo and the grid of a full run on the edited rows, bit for bit.
use prohunsev::*;

// a plain generator of numbers, so that runs repeat
struct Numbers(u64);
impl Numbers {
    fn below(&mut self, n: usize) -> usize {
        self.0 = self.0.wrapping_mul(6_364_136_223_846_793_005).wrapping_add(1_442_695_040_888_963_407);
        (self.0 >> 33) as usize % n
    }
    fn value(&mut self) -> f32 {
        self.below(1_000_000) as f32 / 1e6
    }
}

// rows of hits over noise, about `beat` rows apart; beat 0 is silence
fn rows_of(count: usize, bins: usize, beat: usize, r: &mut Numbers) -> Vec<f32> {
    let mut magnitudes = vec![0.0; count * bins];
    for (t, row) in magnitudes.chunks_mut(bins).enumerate() {
        let hit = if beat > 0 && t % beat == 5 { 1.0 + r.value() } else { 0.0 };
        row.iter_mut().for_each(|m| *m = if beat == 0 { 0.25 } else { hit + 0.05 * r.value() });
    }
    magnitudes
}

fn bits(xs: &[f64]) -> Vec<u64> {
    xs.iter().map(|x| x.to_bits()).collect()
}

// everything that buffers tell of a track, floats by their bits
fn told(buffers: &Buffers) -> impl PartialEq + std::fmt::Debug {
    let track = buffers.analysis().expect("a track was analysed");
    let curves = [buffers.flux(), buffers.threshold(), buffers.clarity(), buffers.weight()].map(bits);
    let tempo = track.tempo.map(|tempo| (tempo.bpm.to_bits(), tempo.clarity.to_bits()));
    let candidates: Vec<_> = track.candidates().iter().map(|c| (c.lag, c.salience.to_bits())).collect();
    let steady = track.stability.map(|s| (s.fraction.to_bits(), s.agreeing, s.windows));
    let lists = [track.onsets, track.beats, track.downbeats].map(<[u32]>::to_vec);
    (curves, buffers.lags(), tempo, candidates, steady, lists)
}

// tracks with a tempo and without, too short for one or for windows, at several rates and bounds; patches anywhere, some empty, some
// refused, some over the whole track
#[test]
fn patched_tracks() {
    let mut r = Numbers(7);
    let (mut tempos, mut none, mut changed) = (0, 0, 0);
    let (new, slow, fast) = (TempoOpts::new(), TempoOpts::between(30.0, 100.0), TempoOpts::between(140.0, 300.0));
    for (rows, bins, rate, opts, beat) in [
        (0, 1, 48_000, new, 94),
        (1, 3, 48_000, new, 94),
        (30, 2, 1, new, 3),
        (376, 1, 48_000, new, 94),
        (377, 1, 48_000, new, 94),
        (700, 2, 44_100, new, 94),
        (1_300, 3, 48_000, slow, 73),
        (2_000, 2, 24_000, new, 60),
        (2_500, 1, 48_000, fast, 73),
        (2_500, 1, 48_000, new, 0),
        (4_000, 4, 48_000, new, 94),
        (2_500, 1, 48_000, new.with_meter(3), 94),
        (2_500, 2, 48_000, slow.with_meter(7), 94),
    ] {
        let mut magnitudes = rows_of(rows, bins, beat, &mut r);
        // room to spare, and another track's curves in it
        let room = rooms::Track { rows: rows + 50, lags: 400, sorting: 450 };
        let (mut buffers, mut full) = (Buffers::with_room(room).unwrap(), Buffers::with_room(room).unwrap());
        buffers.analyse_envelope(&vec![1.0; rows + 50], rate, opts).unwrap();
        buffers.analyse_magnitudes(&magnitudes, rows, bins, rate, opts).unwrap();
        for round in 0..12 {
            let before = buffers.clone();
            let patches = 1 + r.below(3);
            let mut written = false;
            for _ in 0..patches {
                let start = if round == 0 { 0 } else { r.below(rows + 1) };
                let count = if round == 0 { rows } else { r.below(rows - start + 1) };
                let other = [beat, 0, 47, 110][r.below(4)];
                let mut new = rows_of(count, bins, other, &mut r);
                let bad = !new.is_empty() && r.below(5) == 0;
                if bad {
                    let at = r.below(new.len());
                    new[at] = f32::NAN;
                }
                let was = (magnitudes.clone(), buffers.clone());
                match buffers.patch_magnitudes(&mut magnitudes, rows, bins, start, &new) {
                    Ok(patched) => {
                        assert_eq!((bad, patched.flux.is_empty()), (false, new.is_empty()));
                        written |= !new.is_empty();
                    }
                    Err(refused) => {
                        assert_eq!((refused.refusal, bad), (Refusal::WrongValue, true));
                        assert!(magnitudes == was.0 && buffers == was.1);
                    }
                }
            }
            // stale from the first new row on
            assert_eq!(buffers.analysis().is_none(), written);
            assert!(!written || buffers.clarity().is_empty() && buffers.weight().is_empty());
            buffers.analyse_patched().unwrap();
            let track = *full.analyse_magnitudes(&magnitudes, rows, bins, rate, opts).as_ref().unwrap();
            (tempos, none) = (tempos + usize::from(track.tempo.is_some()), none + usize::from(track.tempo.is_none()));
            assert_eq!(told(&buffers), told(&full), "{rows} rows of {bins} at {rate}, round {round}");
            changed += usize::from(told(&buffers) != told(&before));
            // once more, and by the flux as an envelope
            buffers.analyse_patched().unwrap();
            assert_eq!(told(&buffers), told(&full));
            let mut third = Buffers::with_room(room).unwrap();
            let envelope = full.flux().to_vec();
            assert_eq!(third.analyse_envelope(&envelope, rate, opts).unwrap(), full.analysis().unwrap());
            assert_eq!((bits(third.threshold()), third.flux().len()), (bits(full.threshold()), 0));
            assert_eq!((bits(third.clarity()), bits(third.weight())), (bits(full.clarity()), bits(full.weight())));
        }
    }
    assert!(tempos > 40 && none > 20 && changed > 60, "{tempos} with a tempo, {none} without, {changed} changed");
}

// a flux that repeats and has no onset: no tempo, by the count of onsets alone
#[test]
fn swells_without_onsets() {
    let (n, rate, opts, mut level) = (1_500, 48_000, TempoOpts::new(), 0.0);
    let mut magnitudes = vec![0.0; n];
    for (t, m) in magnitudes.iter_mut().enumerate() {
        level += 1.0 + (t as f32 * std::f32::consts::TAU / 94.0).sin();
        *m = level;
    }
    let (mut buffers, mut full) =
        (Buffers::for_tracks(n, rate, opts).unwrap(), Buffers::for_tracks(n, rate, opts).unwrap());
    buffers.analyse_magnitudes(&magnitudes, n, 1, rate, opts).unwrap();
    let new = magnitudes[700..710].to_vec();
    buffers.patch_magnitudes(&mut magnitudes, n, 1, 700, &new).unwrap();
    buffers.analyse_patched().unwrap();
    full.analyse_magnitudes(&magnitudes, n, 1, rate, opts).unwrap();
    assert_eq!(told(&buffers), told(&full));
    let track = buffers.analysis().unwrap();
    assert!(track.onsets.len() < 2 && track.tempo.is_none() && track.beats.is_empty(), "{track:?}");
    let (mut a, mut b, mut c) = ([0.0; 338], [0.0; 338], [0.0; 338]);
    assert!(estimate(buffers.flux(), 2, rate, opts, &mut a, &mut b, &mut c).unwrap().tempo.is_some());
}

// each curve is the one of its name
#[test]
fn curves_are_handed_out() {
    let (n, rate, opts) = (2_000, 48_000, TempoOpts::between(40.0, 250.0));
    let magnitudes = rows_of(n, 2, 94, &mut Numbers(3));
    let (mut flux, mut threshold) = (vec![0.0; n], vec![0.0; n]);
    spectral_flux(&magnitudes, n, 2, &mut flux).unwrap();
    adaptive_threshold(&flux, &mut threshold, &mut [0.0; 21]).unwrap();
    let lags = rooms::lags(rate, opts).unwrap();
    let (mut clarity, mut weight, mut work) = (vec![0.0; lags], vec![0.0; lags], vec![0.0; lags]);
    estimate(&flux, 20, rate, opts, &mut clarity, &mut weight, &mut work).unwrap();
    let mut buffers = Buffers::for_tracks(n + 5, rate, TempoOpts::new()).unwrap();
    assert_eq!((buffers.flux(), buffers.threshold(), buffers.lags()), (&[][..], &[][..], None));
    assert_eq!((buffers.clarity(), buffers.weight(), buffers.analysis()), (&[][..], &[][..], None));
    let lag = buffers.analyse_magnitudes(&magnitudes, n, 2, rate, opts).unwrap().candidates()[0].lag;
    assert_eq!((bits(buffers.flux()), bits(buffers.threshold())), (bits(&flux), bits(&threshold)));
    assert_eq!((bits(buffers.clarity()), bits(buffers.weight())), (bits(&clarity), bits(&weight)));
    assert!(clarity != weight);
    let range = buffers.lags().unwrap();
    assert_eq!((range, range.lags()), (lag_range(rate, opts).unwrap(), lags));
    let found = buffers.analysis().unwrap();
    assert_eq!(buffers.clarity()[lag - range.min_lag], found.tempo.unwrap().clarity);
    // a track without a tempo shows no other's lag curves
    buffers.analyse_magnitudes(&magnitudes[..400], 200, 2, rate, opts).unwrap();
    assert_eq!((buffers.flux().len(), buffers.threshold().len()), (200, 200));
    assert_eq!((buffers.clarity(), buffers.weight()), (&[][..], &[][..]));
    // a refused call leaves what was handed out
    assert!(buffers.analyse_magnitudes(&magnitudes, n, 2, 0, opts).is_err());
    assert_eq!((buffers.flux().len(), buffers.analysis().is_some()), (200, true));
}

#[test]
fn only_what_was_analysed() {
    let (rate, opts) = (48_000, TempoOpts::new());
    let mut buffers = Buffers::for_tracks(10, rate, opts).unwrap();
    let mut rows = [1.0; 12];
    let said = |refused: Result<Patched, Refused>| {
        let refused = refused.unwrap_err();
        assert_eq!(refused, Refusal::WrongLength);
        refused.to_string()
    };
    let none = "refused with 2: these buffers hold the flux of no rows: analyse_magnitudes comes first";
    assert_eq!(said(buffers.patch_magnitudes(&mut rows, 6, 2, 0, &[2.0; 2])), format!("patch_magnitudes {none}"));
    assert_eq!(buffers.analyse_patched().unwrap_err().to_string(), format!("analyse_patched {none}"));
    buffers.analyse_magnitudes(&rows, 6, 2, rate, opts).unwrap();
    for (r, b) in [(5, 2), (6, 1), (4, 3), (3, 4), (12, 1), (7, 2), (0, 2)] {
        let words = format!(
            "patch_magnitudes refused with 2: {r} rows of {b} bins lent, and these buffers analysed 6 rows of 2 last"
        );
        assert_eq!(said(buffers.patch_magnitudes(&mut rows, r, b, 0, &[])), words);
    }
    // the proved call's own refusals, and nothing stale for them
    for (number, start, new) in [(1, 7, &[][..]), (2, 0, &[1.0][..]), (2, 6, &[1.0; 2]), (4, 0, &[1.0, f32::NAN])] {
        assert_eq!(buffers.patch_magnitudes(&mut rows, 6, 2, start, new).unwrap_err().number(), number);
        assert!(buffers.analysis().is_some() && rows == [1.0; 12]);
    }
    assert_eq!(buffers.patch_magnitudes(&mut rows, 6, 2, 6, &[]), Ok(Patched { flux: 0..0, threshold: 0..0 }));
    assert!(buffers.analysis().is_some());
    buffers.patch_magnitudes(&mut rows, 6, 2, 5, &[3.0; 2]).unwrap();
    assert!(buffers.analysis().is_none() && buffers.flux() == [0.0, 0.0, 0.0, 0.0, 0.0, 4.0]);
    buffers.analyse_envelope(&[0.0; 6], rate, opts).unwrap();
    assert_eq!(said(buffers.patch_magnitudes(&mut rows, 6, 2, 0, &[2.0; 2])), format!("patch_magnitudes {none}"));
    assert!(buffers.analyse_patched().is_err() && buffers.analysis().is_some());
}

#[test]
fn printed() {
    let (rate, opts) = (48_000, TempoOpts::new());
    let envelope: Vec<f64> = (0..2_000).map(|t| if t % 80 == 5 { 1.0 } else { 0.0 }).collect();
    let mut buffers = Buffers::for_tracks(100_000, rate, opts).unwrap();
    let room = "room: Track { rows: 100000, lags: 338, sorting: 338 }";
    assert_eq!(format!("{buffers:?}"), format!("Buffers {{ {room}, rows_analysed: None, .. }}"));
    let said = format!("{:?}", buffers.analyse_envelope(&envelope, rate, opts).unwrap());
    for part in [
        "Analysis { tempo: Some(Tempo { bpm: 140.625, clarity: 1.0 }), candidates: [Candidate { lag: 80, salience: ",
        "stability: Some(Stability { fraction: 1.0, agreeing: 4, windows: 4 })",
        "onsets: 25 [5, 85, 165, 245, ..], beats: 25 [5, 85, 165, 245, ..], downbeats: 7 [5, 325, 645, 965, ..] }",
    ] {
        assert!(said.contains(part), "{said}");
    }
    assert_eq!(format!("{buffers:?}"), format!("Buffers {{ {room}, rows_analysed: Some(2000), .. }}"));
    let said = format!("{:?}", buffers.analyse_envelope(&[0.0, 1.0, 0.0], rate, opts).unwrap());
    assert!(said.ends_with("stability: None, onsets: 1 [1], beats: 0 [], downbeats: 0 [] }"), "{said}");
}
