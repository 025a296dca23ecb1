//! Patching equals starting over, bit for bit, and threads don't disturb each other.
use prohunsev::*;

// a plain generator of numbers, so that runs repeat
struct Numbers(u64);
impl Numbers {
    fn next(&mut self) -> u64 {
        self.0 = self.0.wrapping_mul(6_364_136_223_846_793_005).wrapping_add(1_442_695_040_888_963_407);
        self.0 >> 33
    }
    fn below(&mut self, n: usize) -> usize {
        self.next() as usize % n
    }
    fn value(&mut self) -> f64 {
        self.next() as f64 / 1e9 - 1.0
    }
}

fn bits(xs: &[f64]) -> Vec<u64> {
    xs.iter().map(|x| x.to_bits()).collect()
}

fn magnitude_curves(magnitudes: &[f32], rows: usize, bins: usize) -> (Vec<f64>, Vec<f64>) {
    let (mut flux, mut threshold, mut work) = (vec![0.0; rows], vec![0.0; rows], vec![0.0; rows]);
    spectral_flux(magnitudes, rows, bins, &mut flux).unwrap();
    adaptive_threshold(&flux, &mut threshold, &mut work).unwrap();
    (flux, threshold)
}

fn feature_curves(features: &[f64], rows: usize) -> (Vec<f64>, Vec<f64>) {
    let (mut band, mut novel) = (vec![0.0; rooms::similarity(rows)], vec![0.0; rows]);
    similarity(features, rows, &mut band).unwrap();
    novelty(&band, rows, &mut novel).unwrap();
    (band, novel)
}

#[test]
fn runs_of_magnitude_patches() {
    let mut r = Numbers(1);
    for rows in [1, 2, 12, 60] {
        let bins = 1 + r.below(5);
        let mut magnitudes: Vec<f32> = (0..rows * bins).map(|_| r.value() as f32).collect();
        let (mut flux, mut threshold) = magnitude_curves(&magnitudes, rows, bins);
        for _ in 0..40 {
            let start = r.below(rows + 1);
            let mut new: Vec<f32> = (0..r.below(rows - start + 1) * bins).map(|_| r.value() as f32).collect();
            if !new.is_empty() && r.below(4) == 0 {
                new[0] = f32::NAN; // a refused one among them
            }
            let (before, work) = (flux.clone(), &mut [0.0; 21]);
            match patch_magnitudes(&mut magnitudes, rows, bins, start, &new, &mut flux, &mut threshold, work) {
                Ok(patched) => {
                    let past = start + new.len() / bins;
                    let named = Patched {
                        flux: start..rows.min(past + 1),
                        threshold: start.saturating_sub(10)..rows.min(past + 11),
                    };
                    assert_eq!(patched, if new.is_empty() { Patched { flux: 0..0, threshold: 0..0 } } else { named });
                    for t in (0..rows).filter(|t| !patched.flux.contains(t)) {
                        assert_eq!(before[t].to_bits(), flux[t].to_bits());
                    }
                }
                Err(refused) => assert_eq!((refused.refusal, new[0].is_nan()), (Refusal::WrongValue, true)),
            }
            let fresh = magnitude_curves(&magnitudes, rows, bins);
            assert_eq!((bits(&flux), bits(&threshold)), (bits(&fresh.0), bits(&fresh.1)));
        }
    }
}

#[test]
fn runs_of_feature_patches() {
    let mut r = Numbers(2);
    for rows in [1, 17, 50] {
        let mut features: Vec<f64> = (0..rows * 16).map(|_| r.value()).collect();
        let (mut band, mut novel) = feature_curves(&features, rows);
        for _ in 0..20 {
            let start = r.below(rows + 1);
            let new: Vec<f64> = (0..r.below(rows - start + 1) * 16).map(|_| r.value()).collect();
            let patched = patch_features(&mut features, rows, start, &new, &mut band, &mut novel).unwrap();
            // from the first pair with a replaced row, 16 rows before it, to the last
            let past = start + new.len() / 16;
            let similarity = 17 * start.saturating_sub(16) + start.min(16)..17 * past;
            let named = PatchedFeatures { similarity, novelty: start.saturating_sub(7)..rows.min(past + 8) };
            assert_eq!(
                patched,
                if new.is_empty() { PatchedFeatures { similarity: 0..0, novelty: 0..0 } } else { named }
            );
            let fresh = feature_curves(&features, rows);
            assert_eq!((bits(&band), bits(&novel)), (bits(&fresh.0), bits(&fresh.1)));
        }
    }
}

// eight threads share an envelope and have buffers of their own
#[test]
fn threads() {
    let envelope: Vec<f64> = (0..3_000).map(|t| if t % 75 == 3 { 3.0 } else { 0.1 * (t % 5) as f64 }).collect();
    let (opts, envelope) = (TempoOpts::new(), &envelope);
    let analyse = || {
        let mut buffers = Buffers::for_tracks(envelope.len(), 48_000, opts).unwrap();
        let track = buffers.analyse_envelope(envelope, 48_000, opts).unwrap();
        (track.tempo, track.stability, track.onsets.to_vec(), track.beats.to_vec(), track.downbeats.to_vec())
    };
    let alone = analyse();
    assert!(alone.0.is_some());
    std::thread::scope(|s| {
        let all: Vec<_> = (0..8).map(|_| s.spawn(analyse)).collect();
        for one in all {
            assert_eq!(one.join().unwrap(), alone);
        }
    });
}
