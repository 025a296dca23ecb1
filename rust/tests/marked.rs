//! Document 01's marked numbers, through the safe calls.
use prohunsev::*;

fn suppressed(peaks: &[u32], heights: &[f64]) -> Vec<u32> {
    let mut curve = vec![0.0; *peaks.last().unwrap() as usize + 1];
    for (&p, &h) in peaks.iter().zip(heights) {
        curve[p as usize] = h;
    }
    let mut frames = vec![0; peaks.len()];
    let count = suppress_close_peaks(peaks, &curve, 6, &mut frames).unwrap();
    frames.truncate(count);
    frames
}

fn lags(rate: u32, opts: TempoOpts) -> (usize, usize) {
    let range = lag_range(rate, opts).unwrap();
    (range.min_lag, range.max_lag)
}

fn grid(envelope: &[f64], period: usize) -> Vec<u32> {
    let n = envelope.len();
    let (mut score, mut back, mut beats) = (vec![0.0; n], vec![0; n], vec![0; n]);
    let count = beat_grid(envelope, period, &mut score, &mut back, &mut beats).unwrap();
    beats.truncate(count);
    beats
}

#[test]
fn m1_the_upper_middle() {
    assert_eq!(median_of(&[1.0, 2.0, 3.0, 4.0], &mut [0.0; 4]), Ok(3.0));
}

#[test]
fn m2_to_m4_close_peaks() {
    assert_eq!(suppressed(&[10, 16], &[5.0, 5.0]), [10]);
    assert_eq!(suppressed(&[10, 17], &[5.0, 5.0]), [10, 17]);
    assert_eq!(suppressed(&[10, 16, 22], &[5.0, 6.0, 7.0]), [22]);
}

#[test]
fn m5_to_m8_lags() {
    assert_eq!(lags(48_000, TempoOpts::default()), (38, 375));
    assert_eq!(lags(48_000, TempoOpts::between(200.0, 100.0)), (56, 113));
    assert_eq!(lags(48_000, TempoOpts::between(0.0, 0.0)), (5_625, 11_250));
    assert_eq!(lags(1, TempoOpts::new()), (1, 2));
}

#[test]
fn m11_and_m12_grids() {
    let envelope = [0.0, 4.0, 0.0, 4.0, 0.0, 4.0];
    let beats = grid(&envelope, 2);
    assert_eq!(beats, [1, 3, 5]);
    let mut frames = [0; 3];
    assert_eq!(downbeats(&envelope, &beats, TempoOpts::new(), &mut frames), Ok(1));
    assert_eq!(frames[0], 1);
    assert!(grid(&[4.0; 4], 2).is_empty());
}

// by run: an envelope of 376 slots is too short for lags up to 375, one of 377 is not
#[test]
fn the_shortest_envelope_with_a_tempo() {
    let tempo = |n: usize| {
        let envelope: Vec<f64> = (0..n).map(|t| if t % 94 == 0 { 1.0 } else { 0.0 }).collect();
        let (mut clarity, mut weight, mut work) = ([0.0; 338], [0.0; 338], [0.0; 338]);
        estimate(&envelope, 4, 48_000, TempoOpts::new(), &mut clarity, &mut weight, &mut work).unwrap()
    };
    assert_eq!((tempo(376).tempo, tempo(376).lag(), tempo(376).candidates().len()), (None, None, 0));
    assert_eq!(tempo(377).lag(), Some(94));
}

// by run: fifteen rows are one section, sixteen may be two
#[test]
fn the_fewest_rows_with_a_boundary() {
    let sections = |n: usize| {
        let mut novelty = vec![0.0; n];
        novelty[7] = 1.0;
        let (mut rows, mut work) = (vec![0; n], vec![0.0; n]);
        boundaries(&novelty, 48_000, 48_000, 9, &mut rows, &mut work).unwrap()
    };
    assert_eq!((sections(15).sections, sections(15).count, sections(15).confidence), (1, 0, 0.0));
    assert_eq!((sections(16).sections, sections(16).count), (2, 1));
}
