//! Feature rows: values by hand, edges of pitches and bands, where a row of the transform belongs, refusals in their order, and that slots stay.
use prohunsev::Refusal::*;
use prohunsev::*;

const WAS: f64 = -7.5;
const BINS: usize = limits::FEATURE_BINS;
// a bin is 5 Hz
const FIVE: u32 = 20_480;

// rows of the transform, each with these bins
fn slab(rows: &[&[(usize, f32)]]) -> Vec<f32> {
    let mut slab = vec![0.0; rows.len() * BINS];
    for (row, bins) in slab.chunks_mut(BINS).zip(rows) {
        bins.iter().for_each(|&(bin, magnitude)| row[bin] = magnitude);
    }
    slab
}

fn made(magnitudes: &[f32], samples: &[f32], rate: u32, length: u64) -> Vec<f64> {
    let count = rooms::feature_count(samples.len(), length);
    let mut features = vec![WAS; rooms::features(count) + 3];
    feature_rows(magnitudes, magnitudes.len() / BINS, samples, rate, length, count, &mut features).unwrap();
    assert_eq!(features.split_off(16 * count), [WAS; 3]);
    features
}

// one row with values in these places
fn row(values: &[(usize, f64)]) -> [f64; 16] {
    let mut row = [0.0; 16];
    values.iter().for_each(|&(place, value)| row[place] = value);
    row
}

#[test]
fn by_hand() {
    // 440 Hz, an A, twice in one row; 130 Hz, a C; 6,000 Hz, which is above all pitches
    let magnitudes = slab(&[&[(88, 1.5), (26, 0.75), (1_200, 1.0)], &[(88, 1.5)]]);
    let energy = 2.0 * 1.5 * 1.5 + 0.75 * 0.75 + 1.0;
    let parts = [0.75 * 0.75 / energy, 2.0 * 1.5 * 1.5 / energy, 1.0 / energy];
    let expected = row(&[(0, 0.25), (9, 1.0), (12, parts[0]), (13, parts[1]), (14, parts[2]), (15, 0.25)]);
    assert_eq!(made(&magnitudes, &[0.25; 5_120], FIVE, 5_120), expected);
    // other samples, and more of them: the level alone is of the samples
    let level = ((1.0 + 4.0 + 4.0 + 16.0_f64) / 4.0).sqrt();
    assert_eq!(made(&slab(&[]), &[1.0, -2.0, 2.0, 4.0], 1, 9), row(&[(15, level)]));
    // the last row has the samples that are left
    assert_eq!(made(&slab(&[]), &[1.0, 1.0, 3.0], 1, 2), [row(&[(15, 1.0)]), row(&[(15, 3.0)])].concat());
}

#[test]
fn edges() {
    // a bin alone: its pitch class, if it has one, and its band
    for (bin, class, band) in [
        (0, None, 12),
        (10, None, 12),
        (11, Some(9), 12),
        (49, Some(11), 12),
        (50, Some(11), 13),
        (800, Some(11), 13),
        (801, Some(11), 14),
        (1_000, Some(3), 14),
        (1_001, None, 14),
        (2_048, None, 14),
    ] {
        let class = class.map(|class| (class, 1.0));
        let expected = row(&class.into_iter().chain([(band, 1.0), (15, 0.5)]).collect::<Vec<_>>());
        assert_eq!(made(&slab(&[&[(bin, 0.1)]]), &[0.5; 9], FIVE, 9), expected, "bin {bin}");
    }
    // the rate is read: bin 11 is at 129 Hz, a C
    assert_eq!(made(&slab(&[&[(11, 0.1)]]), &[0.5; 9], 48_000, 9), row(&[(0, 1.0), (12, 1.0), (15, 0.5)]));
}

#[test]
fn places() {
    let rows: Vec<&[(usize, f32)]> = vec![&[(88, 1.0)], &[(26, 1.0)], &[], &[(88, 1.0)], &[(26, 3.0)]];
    let (a, c, both) = ([(9, 1.0), (13, 1.0)], [(0, 1.0), (12, 1.0)], [(0, 1.0), (9, 1.0 / 3.0), (12, 0.9), (13, 0.1)]);
    // centres at 2,048, 3,072 and so on; those past the last row belong to it
    let expected = [row(&[]), row(&[]), row(&a), row(&c), row(&[]), row(&both)].concat();
    assert_eq!(made(&slab(&rows), &[0.0; 6_000], FIVE, 1_024), expected);
    assert_eq!(made(&slab(&rows[..2]), &[0.0; 3_073], FIVE, 3_072), [row(&a), row(&c)].concat());
    // one long row has them all, and rows of one sample have them in the last
    let all = [(0, 1.0), (9, 0.5), (12, 10.0 / 12.0), (13, 2.0 / 12.0)];
    assert_eq!(made(&slab(&rows), &[0.0; 7], FIVE, limits::MOST_FEATURE_LENGTH), row(&all));
    assert_eq!(made(&slab(&rows), &[0.0; 3], FIVE, 1), [row(&[]), row(&[]), row(&all)].concat());
}

#[test]
fn nothing() {
    assert_eq!(made(&slab(&[&[(88, 1.0)]]), &[], 48_000, 48_000), []);
    assert_eq!(made(&[], &[], 1, 1), []);
    // silence, of either sign
    for zero in [0.0, -0.0] {
        let values = made(&[zero; 2 * BINS], &[zero as f32; 5], 48_000, 5);
        assert!(values.len() == 16 && values.iter().all(|x| x.to_bits() == 0), "{values:?}");
    }
}

#[test]
fn to_sections() {
    // ten stretches of one tone, ten of another
    let (length, count) = (1_024, 22);
    let tones: Vec<&[(usize, f32)]> =
        (0..count - 2).map(|t| if t < 9 { &[(88, 1.0)][..] } else { &[(26, 1.0)] }).collect();
    let features = made(&slab(&tones), &vec![0.5; count * length], FIVE, length as u64);
    let (mut band, mut novel) = (vec![0.0; rooms::similarity(count)], vec![0.0; count]);
    similarity(&features, count, &mut band).unwrap();
    novelty(&band, count, &mut novel).unwrap();
    let (mut rows, mut work) = (vec![0; count], vec![0.0; count]);
    let found = boundaries(&novel, length as u64, 256, 2, &mut rows, &mut work).unwrap();
    assert_eq!((found.sections, &rows[..found.count]), (2, &[11][..]));
}

#[test]
fn refusals() {
    let (fine, mut features) = (slab(&[&[(88, 1.0)], &[]]), [WAS; 33]);
    let heard = [0.5_f32; 10];
    let mut refuses =
        |number: Refusal, words: &str, magnitudes: &[f32], rows, samples: &[f32], (rate, length, count), room| {
            let refused =
                feature_rows(magnitudes, rows, samples, rate, length, count, &mut features[..room]).unwrap_err();
            assert_eq!(refused, number, "{words}");
            assert_eq!(refused.to_string(), format!("feature_rows refused with {}: {words}", number.number()));
            assert_eq!(features, [WAS; 33], "{words}");
        };
    let (grid, least, most) = ((48_000, 5, 2), -f32::from_bits(1), limits::MOST_MAGNITUDE);
    refuses(OutOfBounds, "rows 1,048,577, 0 to 1,048,576", &fine, limits::MOST_ROWS + 1, &heard, grid, 33);
    refuses(OutOfBounds, "rate 0, 1 to 192,000", &fine, 2, &heard, (0, 5, 2), 33);
    refuses(OutOfBounds, "rate 192,001, 1 to 192,000", &fine, 2, &heard, (192_001, 5, 2), 33);
    refuses(OutOfBounds, "length 0, 1 to 2,147,483,648", &fine, 2, &heard, (48_000, 0, 2), 33);
    refuses(OutOfBounds, "length 2,147,483,649, 1 to 2,147,483,648", &fine, 2, &heard, (48_000, (1 << 31) + 1, 1), 33);
    refuses(OutOfBounds, "count 3, 2 needed: 10 samples, 5 a row", &fine, 2, &heard, (48_000, 5, 3), 33);
    refuses(OutOfBounds, "count 1, 2 needed: 10 samples, 9 a row", &fine, 2, &heard, (48_000, 9, 1), 33);
    refuses(OutOfBounds, "count 0, 1 needed: 1 sample, 1 a row", &fine, 2, &heard[..1], (48_000, 1, 0), 33);
    refuses(OutOfBounds, "count 50,001, 0 to 50,000", &fine, 2, &[0.0; 50_001], (48_000, 1, 50_001), 33);
    // 1 before 2, 2 before 3, and 3 before 4
    refuses(OutOfBounds, "rate 0, 1 to 192,000", &[f32::NAN], 2, &heard, (0, 5, 2), 0);
    refuses(WrongLength, "magnitudes: 1 value lent, 4,098 needed: 2 rows of 2,049", &[f32::NAN], 2, &heard, grid, 0);
    refuses(WrongLength, "magnitudes: 4,098 values lent, 2,049 needed: 1 row of 2,049", &fine, 1, &heard, grid, 33);
    refuses(TooLittleRoom, "features: 31 slots lent, 32 needed", &[f32::NAN; 2 * BINS], 2, &heard, grid, 31);
    for (wrong, told) in [(f32::NAN, "NaN"), (f32::INFINITY, "inf"), (-1.0, "-1.0"), (least, "-1.401298464324817e-45")]
    {
        let mut magnitudes = fine.clone();
        magnitudes[4_000] = wrong;
        let words = format!("magnitudes[4000] is {told}: a magnitude is 0 to 2^126");
        refuses(WrongValue, &words, &magnitudes, 2, &heard, grid, 33);
        // also where nothing would be written
        refuses(WrongValue, &words, &magnitudes, 2, &[], (48_000, 5, 0), 33);
    }
    refuses(WrongValue, "samples[1] is -inf: a sample is finite", &fine, 2, &[1.0, -f32::INFINITY], (48_000, 5, 1), 33);
    // the greatest of each are taken, and -0 is not below 0
    let mut magnitudes = fine;
    (magnitudes[7], magnitudes[8]) = (most, -0.0);
    let energy = f64::from(most) * f64::from(most);
    let expected = row(&[(9, 1.0), (12, 1.0), (13, 1.0 / energy), (15, f32::MAX.into())]);
    assert_eq!(made(&magnitudes, &[f32::MAX, -f32::MAX], FIVE, 2), expected);
}

#[test]
fn as_the_readme_says() {
    let refused = feature_rows(&[], 0, &[0.0; 96_000], 48_000, 48_000, 3, &mut [0.0; 48]).unwrap_err();
    assert!(include_str!("../README.md").contains(&format!("\n{refused}\n")), "{refused}");
}

#[test]
fn how_many() {
    for (samples, length, count) in [(0, 1, 0), (1, 1, 1), (10, 5, 2), (11, 5, 3), (1, 1 << 31, 1), (7, 0, usize::MAX)]
    {
        assert_eq!(rooms::feature_count(samples, length), count, "{samples} by {length}");
    }
    assert_eq!((rooms::features(3), rooms::features(usize::MAX)), (48, usize::MAX));
}
