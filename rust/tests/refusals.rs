//! Each call refuses with each of its numbers, the lowest that applies, says of what, and leaves every lent slot as it was.
use prohunsev::Refusal::*;
use prohunsev::*;

const OPTS: TempoOpts = TempoOpts::new();
// what a slot holds before a call
const WAS: f64 = -7.5;
const WAS_FRAME: u32 = 77;
const TOO_LARGE: f64 = limits::MOST_VALUE * 2.0;
// one more than the most magnitude rows, and than the most feature rows
const TOO_MANY: usize = limits::MOST_ROWS + 1;
const TOO_MANY_FEATURES: usize = limits::MOST_FEATURE_ROWS + 1;

// meters outside their bounds, among them one that is 4 in fewer bits, and what is said of them
const NO_METERS: [(usize, &str); 4] = [
    (0, "meter 0, 1 to 16"),
    (17, "meter 17, 1 to 16"),
    ((1 << 32) + 4, "meter 4,294,967,300, 1 to 16"),
    (usize::MAX, "meter 18,446,744,073,709,551,615, 1 to 16"),
];

// what is said of a value that is too large, or isn't finite
fn value(named: &str) -> String {
    format!("{named}: a value is finite and at most 2^150 in size")
}

fn magnitude(named: &str) -> String {
    format!("{named}: a value is finite and at most 2^126 in size")
}

// a refusal with this number, by this call, with these words, and none of the slices changed
macro_rules! refuses {
    ($number:ident, $words:expr, $call:ident($($word:expr),* $(,)?) $(, $kept:expr => $was:expr)*) => {
        let refused = $call($($word),*).map(|_| ()).unwrap_err();
        assert_eq!(refused, $number, "{} {:?}", stringify!($call), $words);
        assert_eq!(refused.to_string(), format!("{} refused with {}: {}", stringify!($call), $number.number(), $words));
        $(assert!($kept.iter().all(|x| *x == $was), "{} changed {}", stringify!($call), stringify!($kept));)*
    };
}

#[test]
fn medians() {
    let mut work = [WAS; 3];
    refuses!(OutOfBounds, "values: no value lent, at least one needed", median_of(&[], &mut work), work => WAS);
    refuses!(TooLittleRoom, "work: 3 slots lent, 4 needed", median_of(&[1.0; 4], &mut work), work => WAS);
    refuses!(WrongValue, value("values[1] is NaN"), median_of(&[1.0, f64::NAN], &mut work), work => WAS);
    refuses!(OutOfBounds, "values: no value lent, at least one needed", mad_of(&[], 1.0, &mut work), work => WAS);
    refuses!(WrongValue, value("median is inf"), mad_of(&[1.0, 2.0], f64::INFINITY, &mut work), work => WAS);
    refuses!(WrongValue, value("values[0] is -inf"), mad_of(&[-f64::INFINITY, 2.0], 1.0, &mut work), work => WAS);
    let nan = [1.0, f64::NAN, 1.0, 1.0];
    refuses!(TooLittleRoom, "work: 3 slots lent, 4 needed", mad_of(&nan, 1.0, &mut work), work => WAS);
}

#[test]
fn onsets() {
    let (mut curve, mut work, mut frames) = ([WAS; 4], [WAS; 4], [WAS_FRAME; 4]);
    refuses!(OutOfBounds, "bins 0, 1 to 4,096", spectral_flux(&[], 0, 0, &mut curve), curve => WAS);
    refuses!(OutOfBounds, "bins 4,097, 1 to 4,096", spectral_flux(&[], 0, 4_097, &mut curve), curve => WAS);
    let words = "rows 18,446,744,073,709,551,615, 0 to 1,048,576";
    refuses!(OutOfBounds, words, spectral_flux(&[], usize::MAX, 4_096, &mut curve), curve => WAS);
    let words = "magnitudes: 7 values lent, 8 needed: 4 rows of 2";
    refuses!(WrongLength, words, spectral_flux(&[0.0; 7], 4, 2, &mut curve), curve => WAS);
    refuses!(TooLittleRoom, "flux: 4 slots lent, 5 needed", spectral_flux(&[0.0; 5], 5, 1, &mut curve), curve => WAS);
    let words = magnitude("magnitudes[1] is 3.4028234663852886e38");
    refuses!(WrongValue, words, spectral_flux(&[0.0, f32::MAX, f32::NAN], 3, 1, &mut curve), curve => WAS);

    let long = vec![0.0; TOO_MANY];
    let words = "flux: 1,048,577 slots lent, at most 1,048,576";
    refuses!(OutOfBounds, words, adaptive_threshold(&long, &mut curve, &mut work), curve => WAS, work => WAS);
    let words = "work: 3 slots lent, 4 needed";
    refuses!(TooLittleRoom, words, adaptive_threshold(&[0.0; 4], &mut curve, &mut work[..3]), curve => WAS, work => WAS);
    let words = "threshold: 4 slots lent, 30 needed";
    refuses!(TooLittleRoom, words, adaptive_threshold(&[0.0; 30], &mut curve, &mut [0.0; 21]), curve => WAS);
    let words = "work: 20 slots lent, 21 needed";
    refuses!(TooLittleRoom, words, adaptive_threshold(&[0.0; 30], &mut [0.0; 30], &mut [0.0; 20]));
    let words = value("flux[1] is 2.85449538541192e45");
    refuses!(WrongValue, words, adaptive_threshold(&[0.0, TOO_LARGE], &mut curve, &mut work), curve => WAS, work => WAS);

    let words = "flux: 1,048,577 slots lent, at most 1,048,576";
    refuses!(OutOfBounds, words, pick_onsets(&long, &long, 48_000, &mut frames), frames => WAS_FRAME);
    refuses!(OutOfBounds, "rate 0, 1 to 192,000", pick_onsets(&[0.0; 4], &[0.0; 4], 0, &mut frames), frames => WAS_FRAME);
    let words = "threshold: 3 slots lent, 4 needed, as many as flux has";
    refuses!(WrongLength, words, pick_onsets(&[0.0; 4], &[0.0; 3], 48_000, &mut frames), frames => WAS_FRAME);
    let words = "frames: 4 slots lent, 5 needed";
    refuses!(TooLittleRoom, words, pick_onsets(&[0.0; 5], &[0.0; 5], 48_000, &mut frames), frames => WAS_FRAME);
    let words = value("threshold[0] is NaN");
    refuses!(WrongValue, words, pick_onsets(&[0.0; 1], &[f64::NAN], 48_000, &mut frames), frames => WAS_FRAME);
    let words = value("flux[2] is NaN");
    refuses!(WrongValue, words, pick_onsets(&[0.0, 0.0, f64::NAN], &[f64::NAN; 3], 48_000, &mut frames), frames => WAS_FRAME);

    let words = "curve: 1,048,577 slots lent, at most 1,048,576";
    refuses!(OutOfBounds, words, suppress_close_peaks(&[2, 2], &long, 1, &mut frames), frames => WAS_FRAME);
    let words = "peaks[1] is 2 and the one before it 2: a list of peaks ascends";
    refuses!(OutOfBounds, words, suppress_close_peaks(&[2, 2], &[0.0; 4], 1, &mut frames), frames => WAS_FRAME);
    let words = "peaks[0] is 4, past its curve of 4 slots";
    refuses!(OutOfBounds, words, suppress_close_peaks(&[4], &[0.0; 4], 1, &mut frames), frames => WAS_FRAME);
    let words = "frames: 1 slot lent, 2 needed";
    refuses!(TooLittleRoom, words, suppress_close_peaks(&[1, 2], &[0.0; 4], 1, &mut frames[..1]), frames => WAS_FRAME);
    let words = value("curve[3] is inf");
    refuses!(WrongValue, words, suppress_close_peaks(&[1], &[0.0, 0.0, 0.0, f64::INFINITY], 1, &mut frames), frames => WAS_FRAME);

    let words = "frames[1] is 1,048,576, at most 1,048,575";
    refuses!(OutOfBounds, words, frame_times(&[3, limits::MOST_FRAME + 1], 48_000, &mut curve), curve => WAS);
    refuses!(OutOfBounds, "rate 192,001, 1 to 192,000", frame_times(&[1], limits::MOST_RATE + 1, &mut curve), curve => WAS);
    refuses!(TooLittleRoom, "ms: 4 slots lent, 5 needed", frame_times(&[1; 5], 48_000, &mut curve), curve => WAS);
}

#[test]
fn tempos() {
    // an open bound is no refusal (answers.rs), and hides none
    let open = OPTS.with_min_bpm(f64::NEG_INFINITY);
    refuses!(OutOfBounds, "rate 192,001, 1 to 192,000", lag_range(192_001, open));
    refuses!(OutOfBounds, "rate 0, 1 to 192,000", lag_range(0, OPTS.with_max_bpm(f64::NAN)));
    assert_eq!(rooms::lags(0, OPTS), Err(OutOfBounds.into()));
    assert_eq!(rooms::lags(0, OPTS).unwrap_err().to_string(), "lag_range refused with 1: rate 0, 1 to 192,000");

    let (mut a, mut b, mut c) = ([WAS; 338], [WAS; 338], [WAS; 338]);
    let (envelope, long) = ([1.0; 3], vec![0.0; TOO_MANY]);
    macro_rules! unchanged {
        ($number:ident, $words:expr, $call:ident($($word:expr),*)) => {
            refuses!($number, $words, $call($($word),*), a => WAS, b => WAS, c => WAS)
        };
    }
    let many = "envelope: 1,048,577 slots lent, at most 1,048,576";
    unchanged!(OutOfBounds, many, estimate(&long, 2, 48_000, OPTS, &mut a, &mut b, &mut c));
    unchanged!(OutOfBounds, "rate 0, 1 to 192,000", estimate(&envelope, 2, 0, OPTS, &mut a, &mut b, &mut c));
    let few = "clarity: 338 slots lent, 11,213 needed";
    unchanged!(TooLittleRoom, few, estimate(&envelope, 2, 48_000, open, &mut a, &mut b, &mut c));
    let short = |slice| format!("{slice}: 337 slots lent, 338 needed");
    unchanged!(TooLittleRoom, short("clarity"), estimate(&[], 0, 48_000, OPTS, &mut a[1..], &mut b, &mut c));
    unchanged!(TooLittleRoom, short("weight"), estimate(&[], 0, 48_000, OPTS, &mut a, &mut b[1..], &mut c));
    unchanged!(TooLittleRoom, short("work"), estimate(&[], 0, 48_000, OPTS, &mut a, &mut b, &mut c[1..]));
    unchanged!(WrongValue, value("envelope[0] is NaN"), estimate(&[f64::NAN], 0, 48_000, OPTS, &mut a, &mut b, &mut c));

    let lag = limits::MOST_PERIOD + 1;
    unchanged!(OutOfBounds, many, stability_of(&long, 48_000, OPTS, lag, &mut a, &mut b, &mut c));
    unchanged!(
        OutOfBounds,
        "whole_lag 45,001, 0 to 45,000",
        stability_of(&envelope, 48_000, OPTS, lag, &mut a, &mut b, &mut c)
    );
    unchanged!(OutOfBounds, "rate 0, 1 to 192,000", stability_of(&envelope, 0, OPTS, lag, &mut a, &mut b, &mut c));
    unchanged!(TooLittleRoom, few, stability_of(&envelope, 48_000, open, 9, &mut a, &mut b, &mut c));
    unchanged!(TooLittleRoom, short("clarity"), stability_of(&envelope, 48_000, OPTS, 0, &mut a[1..], &mut b, &mut c));
    unchanged!(TooLittleRoom, short("weight"), stability_of(&envelope, 48_000, OPTS, 0, &mut a, &mut b[1..], &mut c));
    unchanged!(
        TooLittleRoom,
        "work: 0 slots lent, 338 needed",
        stability_of(&envelope, 48_000, OPTS, 0, &mut a, &mut b, &mut [])
    );
    let words = value("envelope[0] is 2.85449538541192e45");
    unchanged!(WrongValue, words, stability_of(&[TOO_LARGE], 48_000, OPTS, 9, &mut a, &mut b, &mut c));

    // a meter that is none, though these answer the same for all: before room and values
    for (meter, words) in NO_METERS {
        let opts = open.with_meter(meter);
        refuses!(OutOfBounds, words, lag_range(48_000, opts));
        unchanged!(OutOfBounds, words, estimate(&envelope, 2, 48_000, opts, &mut a, &mut b, &mut c));
        unchanged!(OutOfBounds, words, estimate(&[f64::NAN], 2, 48_000, opts, &mut a[1..], &mut b, &mut c));
        unchanged!(OutOfBounds, words, stability_of(&envelope, 48_000, opts, 9, &mut a, &mut b, &mut c));
        unchanged!(OutOfBounds, words, stability_of(&envelope, 48_000, opts, lag, &mut a, &mut b, &mut c));
    }
}

#[test]
fn beats_and_bars() {
    let (mut score, mut back, mut beats) = ([WAS; 6], [WAS_FRAME; 6], [WAS_FRAME; 6]);
    let (envelope, many) = ([0.0, 4.0, 0.0, 4.0, 0.0, 4.0], vec![0.0; TOO_MANY]);
    let long = limits::MOST_PERIOD + 1;
    macro_rules! unchanged {
        ($number:ident, $words:expr, $call:ident($($word:expr),*)) => {
            refuses!($number, $words, $call($($word),*), score => WAS, back => WAS_FRAME, beats => WAS_FRAME)
        };
    }
    let words = "envelope: 1,048,577 slots lent, at most 1,048,576";
    unchanged!(OutOfBounds, words, beat_grid(&many, 2, &mut score, &mut back, &mut beats));
    unchanged!(
        OutOfBounds,
        "period 45,001, 0 to 45,000",
        beat_grid(&envelope, long, &mut score, &mut back, &mut beats)
    );
    let short = |slice| format!("{slice}: 5 slots lent, 6 needed");
    unchanged!(TooLittleRoom, short("score"), beat_grid(&envelope, 2, &mut score[1..], &mut back, &mut beats));
    unchanged!(TooLittleRoom, short("back"), beat_grid(&envelope, 2, &mut score, &mut back[1..], &mut beats));
    unchanged!(TooLittleRoom, short("beats"), beat_grid(&envelope, 2, &mut score, &mut back, &mut beats[1..]));
    unchanged!(WrongValue, value("envelope[0] is NaN"), beat_grid(&[f64::NAN], 2, &mut score, &mut back, &mut beats));
    unchanged!(OutOfBounds, words, downbeats(&many, &[1], OPTS, &mut beats));
    let entry = "beats[1] is 4,294,967,295, at most 1,048,575";
    unchanged!(OutOfBounds, entry, downbeats(&envelope, &[1, u32::MAX], OPTS, &mut beats));
    unchanged!(TooLittleRoom, "frames: 6 slots lent, 7 needed", downbeats(&envelope, &[1; 7], OPTS, &mut beats));
    unchanged!(
        WrongValue,
        value("envelope[0] is 2.85449538541192e45"),
        downbeats(&[TOO_LARGE], &[1], OPTS, &mut beats)
    );
    // of the options the meter alone is judged; before room and values
    let open = OPTS.with_min_bpm(f64::NAN).with_max_bpm(f64::INFINITY);
    assert_eq!(downbeats(&envelope, &[1, 3, 5], open, &mut [0; 3]), Ok(1));
    for (meter, words) in NO_METERS {
        unchanged!(OutOfBounds, words, downbeats(&envelope, &[1, 3, 5], OPTS.with_meter(meter), &mut beats));
        unchanged!(OutOfBounds, words, downbeats(&[f64::NAN], &[1; 7], open.with_meter(meter), &mut beats));
    }
    // bar_beat_at refuses nothing
    assert_eq!(bar_beat_at(f64::NAN, &[0.0], &[0.0]), None);
    assert_eq!(bar_beat_at(f64::INFINITY, &[0.0], &[]), Some(BarBeat { bar: 1, beat: 1 }));
}

#[test]
fn sections() {
    let (mut curve, mut rows, mut work) = ([WAS; 34], [WAS_FRAME; 2], [WAS; 2]);
    let many = "rows 50,001, 0 to 50,000";
    refuses!(OutOfBounds, many, similarity(&[], TOO_MANY_FEATURES, &mut curve), curve => WAS);
    let words = "features: 31 values lent, 32 needed: 2 rows of 16";
    refuses!(WrongLength, words, similarity(&[0.0; 31], 2, &mut curve), curve => WAS);
    refuses!(TooLittleRoom, "similarity: 34 slots lent, 51 needed", similarity(&[0.0; 48], 3, &mut curve), curve => WAS);
    let words = value("features[0] is 2.85449538541192e45");
    refuses!(WrongValue, words, similarity(&[TOO_LARGE; 16], 1, &mut curve), curve => WAS);

    refuses!(OutOfBounds, many, novelty(&[], TOO_MANY_FEATURES, &mut curve), curve => WAS);
    let words = "similarity: 35 values lent, 34 needed: 2 rows of 17";
    refuses!(WrongLength, words, novelty(&[0.0; 35], 2, &mut curve), curve => WAS);
    refuses!(TooLittleRoom, "novelty: 1 slot lent, 2 needed", novelty(&[0.0; 34], 2, &mut curve[..1]), curve => WAS);
    let words = "similarity[0] is 1.5: a similarity is -1 to 1";
    refuses!(WrongValue, words, novelty(&[1.5; 17], 1, &mut curve), curve => WAS);

    macro_rules! unchanged {
        ($number:ident, $words:expr, $call:ident($($word:expr),*)) => {
            refuses!($number, $words, $call($($word),*), rows => WAS_FRAME, work => WAS)
        };
    }
    let past = limits::MOST_FEATURE_LENGTH + 1;
    let words = "novelty: 50,001 slots lent, at most 50,000";
    unchanged!(OutOfBounds, words, boundaries(&vec![0.0; TOO_MANY_FEATURES], 1, 48_000, 4, &mut rows, &mut work));
    let words = "length 2,147,483,649, 1 to 2,147,483,648";
    unchanged!(OutOfBounds, words, boundaries(&[0.0; 2], past, 48_000, 4, &mut rows, &mut work));
    unchanged!(OutOfBounds, "rate 0, 1 to 192,000", boundaries(&[0.0; 2], 1, 0, 4, &mut rows, &mut work));
    unchanged!(
        TooLittleRoom,
        "rows: 2 slots lent, 3 needed",
        boundaries(&[0.0; 3], 1, 48_000, 4, &mut rows, &mut work)
    );
    unchanged!(
        TooLittleRoom,
        "work: 1 slot lent, 2 needed",
        boundaries(&[0.0; 2], 1, 48_000, 4, &mut rows, &mut work[1..])
    );
    unchanged!(
        WrongValue,
        value("novelty[1] is NaN"),
        boundaries(&[0.0, f64::NAN], 1, 48_000, 4, &mut rows, &mut work)
    );

    refuses!(OutOfBounds, "length 0, 1 to 2,147,483,648", boundary_times(&[1], 0, 48_000, &mut curve), curve => WAS);
    refuses!(OutOfBounds, "rate 0, 1 to 192,000", boundary_times(&[1], 1, 0, &mut curve), curve => WAS);
    let words = "rows[1] is 50,000, at most 49,999";
    refuses!(OutOfBounds, words, boundary_times(&[1, 50_000], 1, 48_000, &mut curve), curve => WAS);
    refuses!(TooLittleRoom, "ms: 2 slots lent, 3 needed", boundary_times(&[1; 3], 1, 48_000, &mut curve[..2]), curve => WAS);
}

#[test]
fn patches() {
    let (mut rows, mut flux, mut threshold, mut work) = ([1.0_f32; 4], [0.0; 3], [0.0; 3], [WAS; 2]);
    macro_rules! patch {
        ($number:ident, $words:expr, $rows:expr, $bins:expr, $start:expr, $new:expr, [$a:expr, $b:expr, $c:expr]) => {
            refuses!($number, $words, patch_magnitudes(&mut rows, $rows, $bins, $start, $new,
                &mut flux[..$a], &mut threshold[..$b], &mut work[..$c]), rows => 1.0, flux => 0.0, threshold => 0.0, work => WAS)
        };
    }
    patch!(OutOfBounds, "rows 1,048,577, 0 to 1,048,576", TOO_MANY, 2, 3, &[], [2, 2, 2]);
    patch!(OutOfBounds, "start 3, 0 to 2", 2, 2, 3, &[], [2, 2, 2]);
    patch!(OutOfBounds, "bins 0, 1 to 4,096", 2, 0, 0, &[], [2, 2, 2]);
    patch!(WrongLength, "magnitudes: 4 values lent, 6 needed: 3 rows of 2", 3, 2, 0, &[5.0], [2, 2, 2]);
    patch!(WrongLength, "new_rows: 1 value lent, whole rows of 2 needed", 2, 2, 0, &[5.0], [2, 2, 2]);
    patch!(WrongLength, "new_rows: 2 rows lent, 1 of 2 left from row 1 on", 2, 2, 1, &[5.0; 4], [2, 2, 2]);
    patch!(WrongLength, "new_rows: 1 row lent, 0 of 2 left from row 2 on", 2, 2, 2, &[5.0; 2], [2, 2, 2]);
    patch!(TooLittleRoom, "flux: 1 slot lent, 2 needed", 2, 2, 0, &[5.0; 2], [1, 2, 2]);
    patch!(TooLittleRoom, "threshold: 1 slot lent, 2 needed", 2, 2, 0, &[5.0; 2], [2, 1, 2]);
    patch!(TooLittleRoom, "work: 1 slot lent, 2 needed", 2, 2, 0, &[5.0; 2], [2, 2, 1]);
    patch!(WrongValue, magnitude("new_rows[1] is NaN"), 2, 2, 0, &[5.0, f32::NAN], [2, 2, 2]);
    // an old row, and each curve, whose slots past the rows may hold anything
    let (new, nan, work) = ([5.0; 2], [f64::NAN; 3], &mut [0.0; 3]);
    let mut old = [1.0, 1.0, 1.0, -f32::MAX];
    let words = magnitude("magnitudes[3] is -3.4028234663852886e38");
    refuses!(WrongValue, words, patch_magnitudes(&mut old, 2, 2, 0, &new, &mut [0.0; 2], &mut [0.0; 2], work));
    let words = value("flux[1] is NaN");
    refuses!(WrongValue, words, patch_magnitudes(&mut rows, 2, 2, 0, &new, &mut [0.0, f64::NAN], &mut nan.clone(), work), rows => 1.0);
    let words = value("threshold[0] is NaN");
    let mut curve = [0.0, 0.0, f64::NAN];
    refuses!(WrongValue, words, patch_magnitudes(&mut rows, 2, 2, 0, &new, &mut curve, &mut nan.clone(), work), rows => 1.0);

    let (mut features, mut band, mut curve) = ([1.0; 32], [0.0; 35], [0.0; 3]);
    macro_rules! patch {
        ($number:ident, $words:expr, $rows:expr, $start:expr, $new:expr, [$a:expr, $b:expr]) => {
            refuses!($number, $words, patch_features(&mut features, $rows, $start, $new, &mut band[..$a], &mut curve[..$b]),
                features => 1.0, band => 0.0, curve => 0.0)
        };
    }
    patch!(OutOfBounds, "rows 50,001, 0 to 50,000", TOO_MANY_FEATURES, 0, &[], [34, 2]);
    patch!(OutOfBounds, "start 3, 0 to 2", 2, 3, &[], [34, 2]);
    patch!(WrongLength, "features: 32 values lent, 16 needed: 1 row of 16", 1, 0, &[5.0; 16], [34, 2]);
    patch!(WrongLength, "new_rows: 17 values lent, whole rows of 16 needed", 2, 0, &[5.0; 17], [34, 2]);
    patch!(WrongLength, "new_rows: 2 rows lent, 1 of 2 left from row 1 on", 2, 1, &[5.0; 32], [34, 2]);
    patch!(TooLittleRoom, "similarity: 33 slots lent, 34 needed", 2, 0, &[5.0; 16], [33, 2]);
    patch!(TooLittleRoom, "novelty: 1 slot lent, 2 needed", 2, 0, &[5.0; 16], [34, 1]);
    patch!(WrongValue, value("new_rows[0] is 2.85449538541192e45"), 2, 0, &[TOO_LARGE; 16], [34, 2]);
    let (mut old, new) = ([1.0; 32], [5.0; 16]);
    old[20] = f64::INFINITY;
    refuses!(WrongValue, value("features[20] is inf"), patch_features(&mut old, 2, 0, &new, &mut band, &mut curve), band => 0.0);
    (band[33], band[34]) = (-1.5, f64::NAN);
    let words = "similarity[33] is -1.5: a similarity is -1 to 1";
    refuses!(WrongValue, words, patch_features(&mut features, 2, 0, &new, &mut band, &mut curve), features => 1.0);
    (band[33], curve[1], curve[2]) = (1.0, f64::NAN, f64::INFINITY);
    refuses!(WrongValue, value("novelty[1] is NaN"), patch_features(&mut features, 2, 0, &new, &mut band, &mut curve), features => 1.0);
    (curve[1], curve[2]) = (0.0, f64::INFINITY);
    assert!(patch_features(&mut features, 2, 0, &new, &mut band, &mut curve).is_ok());
}

#[test]
fn whole_tracks() {
    let room = |rows: usize, rate: u32, opts: TempoOpts| rooms::Track::of(rows, rate, opts).map(drop);
    for (words, refused) in [
        ("rows 1,048,577, 0 to 1,048,576", room(TOO_MANY, 48_000, OPTS)),
        ("rate 0, 1 to 192,000", room(1, 0, OPTS)),
        ("rate 192,001, 1 to 192,000", room(1, 192_001, OPTS.with_max_bpm(f64::INFINITY))),
        ("meter 0, 1 to 16", room(1, 48_000, OPTS.with_meter(0))),
        ("meter 17, 1 to 16", room(1, 48_000, OPTS.with_meter(17))),
    ] {
        assert_eq!(refused, Err(OutOfBounds.into()));
        assert_eq!(refused.unwrap_err().to_string(), format!("room_of refused with 1: {words}"));
    }
    for (words, room) in [
        ("rows 1,048,577, 0 to 1,048,576", rooms::Track { rows: TOO_MANY, lags: 1, sorting: 1 }),
        ("lags 45,001, 0 to 45,000", rooms::Track { rows: 1, lags: 45_001, sorting: 1 }),
        ("sorting 45,001, 0 to 45,000", rooms::Track { rows: 1, lags: 1, sorting: 45_001 }),
    ] {
        let refused = Buffers::with_room(room).unwrap_err();
        assert_eq!((refused.number(), refused.to_string()), (1, format!("with_room refused with 1: {words}")));
    }

    let mut buffers = Buffers::for_tracks(10, 48_000, OPTS).unwrap();
    let made = "Buffers::for_tracks of as many rows, this rate and these options has them";
    let (long, open) = (vec![0.0; TOO_MANY], OPTS.with_min_bpm(f64::NEG_INFINITY));
    let slow = OPTS.with_min_bpm(5.0);
    for (number, words, envelope, rate, opts) in [
        (1, "envelope: 1,048,577 slots lent, at most 1,048,576", &long[..], 48_000, OPTS),
        (1, "rate 0, 1 to 192,000", &long[..11], 0, OPTS),
        (1, "meter 0, 1 to 16", &long[..9], 48_000, OPTS.with_meter(0)),
        (1, "meter 17, 1 to 16", &long[..11], 48_000, OPTS.with_meter(17)),
        (3, &format!("threshold: 10 slots lent, 11 needed; {made}"), &long[..11], 48_000, OPTS),
        (3, &format!("clarity: 338 slots lent, 2,213 needed; {made}"), &long[..9], 48_000, slow),
        (3, &format!("clarity: 338 slots lent, 11,213 needed; {made}"), &long[..9], 48_000, open),
        (4, &value("envelope[1] is -inf"), &[1.0, -f64::INFINITY], 48_000, OPTS),
    ] {
        let refused = buffers.analyse_envelope(envelope, rate, opts).unwrap_err();
        assert_eq!(refused.to_string(), format!("analyse_envelope refused with {number}: {words}"));
    }
    for (number, words, magnitudes, rows, bins, rate, opts) in [
        (1, "rows 1,048,577, 0 to 1,048,576", &[][..], TOO_MANY, 1, 48_000, OPTS),
        (1, "bins 0, 1 to 4,096", &[], 1, 0, 48_000, OPTS),
        (1, "rate 0, 1 to 192,000", &[], 1, 1, 0, OPTS),
        (1, "meter 0, 1 to 16", &[1.0; 4], 2, 2, 48_000, OPTS.with_meter(0)),
        (1, "meter 17, 1 to 16", &[1.0; 3], 2, 2, 48_000, OPTS.with_meter(17)),
        (2, "magnitudes: 3 values lent, 4 needed: 2 rows of 2", &[1.0; 3], 2, 2, 48_000, OPTS),
        (3, &format!("flux: 10 slots lent, 11 needed; {made}"), &[f32::NAN; 11], 11, 1, 48_000, OPTS),
        (3, &format!("clarity: 338 slots lent, 2,213 needed; {made}"), &[1.0; 4], 2, 2, 48_000, slow),
        (3, &format!("clarity: 338 slots lent, 11,213 needed; {made}"), &[1.0; 4], 2, 2, 48_000, open),
        (4, &magnitude("magnitudes[2] is NaN"), &[1.0, 1.0, f32::NAN, f32::NAN], 2, 2, 48_000, OPTS),
    ] {
        let refused = buffers.analyse_magnitudes(magnitudes, rows, bins, rate, opts).unwrap_err();
        assert_eq!(refused.to_string(), format!("analyse_magnitudes refused with {number}: {words}"));
    }
    // work alone too short: the threshold's window is longer than two lags
    let mut buffers = Buffers::with_room(rooms::Track { rows: 30, lags: 2, sorting: 20 }).unwrap();
    let refused = buffers.analyse_envelope(&long[..30], 1, OPTS).unwrap_err();
    assert_eq!(refused.to_string(), format!("analyse_envelope refused with 3: work: 20 slots lent, 21 needed; {made}"));
}

#[test]
fn a_refusal_explains_itself() {
    for (refusal, number, word) in [
        (OutOfBounds, 1, "192,000"),
        (WrongLength, 2, "rows times"),
        (TooLittleRoom, 3, "rooms"),
        (WrongValue, 4, "finite"),
        (WrongGrid, 6, "ascend"),
        (GapTooLong, 7, "16,777,215"),
        (OtherShape, 8, "write_tempo_track"),
        (NotOfThisForm, 9, "write_cues"),
        (NoListedFrame, 10, "1,048,575"),
        (NotAscending, 11, "ascend"),
    ] {
        assert_eq!(refusal.number(), number);
        let said = refusal.to_string();
        assert!(said.starts_with(&format!("refused with {number}: ")) && said.contains(word), "{said}");
        // one made of a reason alone says no more than it
        let refused = Refused::from(refusal);
        assert_eq!((refused.number(), refused.call, refused.to_string()), (number, "", said));
        assert_eq!(Refusal::from(refused), refusal);
        assert!(
            refused == refusal
                && refused != Refused::from([OutOfBounds, WrongValue][usize::from(refusal == OutOfBounds)])
        );
    }
    let error: Box<dyn std::error::Error + Send + Sync> = Box::new(WrongValue);
    assert_eq!(error.downcast_ref(), Some(&WrongValue));
    let error: Box<dyn std::error::Error + Send + Sync> = Box::new(lag_range(0, OPTS).unwrap_err());
    assert_eq!(error.downcast_ref::<Refused>().map(|refused| refused.refusal), Some(OutOfBounds));
    // what a main that ends with it says
    assert_eq!(format!("{:?}", lag_range(0, OPTS)), "Err(Refused(lag_range refused with 1: rate 0, 1 to 192,000))");
}

// the README shows ten
#[test]
fn as_the_readme_says() {
    let mut nan = [0.0; 18];
    nan[17] = f64::NAN;
    for refused in [
        adaptive_threshold(&[0.0; 4_096], &mut [0.0; 4_095], &mut [0.0; 21]).unwrap_err(),
        Buffers::for_tracks(1, 1, OPTS).unwrap().analyse_envelope(&[0.0], 0, OPTS).unwrap_err(),
        downbeats(&[0.0], &[0], OPTS.with_meter(17), &mut [0]).unwrap_err(),
        write_tempo_track(&[94, 94], 48_000).unwrap_err(),
        read_tempo_track(&[b"RIFF".as_slice(), &[0; 29]].concat()).unwrap_err(),
        read_labels(b"0.5\t0.5\tbeat\n", 48_000).unwrap_err(),
        read_cues(b"cue \x1c\0\0\0\x01\0\0\0\x01\0\0\0\x01\x02\0\0data\0\0\0\0\0\0\0\0\x01\x02\0\0").unwrap_err(),
        write_labels(&[94, 94], 48_000).unwrap_err(),
        spectral_flux(&[0.0; 7], 4, 2, &mut [0.0; 4]).unwrap_err(),
        pick_onsets(&nan, &[0.0; 18], 48_000, &mut [0; 18]).unwrap_err(),
    ] {
        assert!(include_str!("../README.md").contains(&format!("\n{refused}\n")), "{refused}");
    }
}

// a function that answers Result<_, Refusal>, as callers have written them
#[test]
fn the_reason_alone() {
    fn lags(rate: u32) -> Result<usize, Refusal> {
        Ok(lag_range(rate, OPTS)?.lags())
    }
    assert_eq!((lags(48_000), lags(0)), (Ok(338), Err(OutOfBounds)));
}
