//! Feature rows from the rows of their transform and from samples.
use super::*;

pub fn draw(r: &mut Numbers) -> Vec<Arg> {
    let rows = r.one_of(&[0, 1, 1, 1, 2, 2, 3]);
    // mostly magnitudes that aren't below 0, which may be -0
    let (below, fine) = (r.once_in(12), |x: f32| if x == 0.0 { x } else { x.abs() });
    let mut slab: Vec<f32> =
        values(r, rows * FEATURE_BINS).into_iter().map(|x| if below { x } else { fine(x) }).collect();
    if r.once_in(30) {
        slab.truncate(r.between(0, slab.len()));
    }
    let n = length(r);
    let samples: Vec<f32> = values(r, n);
    let length = match r.between(0, 19) {
        0 => row_length(r),
        1..=3 => 1,
        4 => 1 << 31,
        _ => r.between(1, n + 3) as u64,
    };
    let right = (n as u64).div_ceil(length.max(1)) as usize;
    call(&slab, count(r, rows), &samples, rate(r), length, count(r, right), room(r, right * FEATURE_WIDTH))
}

pub fn bound(_: &mut Numbers, k: u64) -> Option<Vec<Arg>> {
    let few = MOST_FEATURE_ROWS;
    let (rows, n, length) =
        *[(3, few, 1), (3, few + 1, 1), (3, few - 1, 1), (2, 4 * few, 4), (2, 4 * few + 1, 4), (300, 9_000, 1 << 31)]
            .get(k as usize)?;
    let slab: Vec<f32> = (0..rows * FEATURE_BINS).map(|i| (i % 13) as f32).collect();
    let samples: Vec<f32> = (0..n).map(|i| (i % 9) as f32 / 8.0 - 0.5).collect();
    let count = n.div_ceil(length);
    Some(call(&slab, rows, &samples, 192_000, length as u64, count, count * FEATURE_WIDTH))
}

fn call(slab: &[f32], rows: usize, samples: &[f32], rate: u32, length: u64, count: usize, room: usize) -> Vec<Arg> {
    let numbers = [whole(rate as usize), Arg::Whole(length), whole(count)];
    [input(slab), whole(rows), input(samples)].into_iter().chain(numbers).chain([output::<f64>(room)]).collect()
}

// Sixteen values a row: the pitch classes and the bands are parts of 1, of which a pitch class is the whole unless all are 0 and the bands make
// 1 together unless all are 0, up to rounding; and the last is the root of the mean square of the samples.
pub fn reach(a: &[Arg], after: &After) -> Reach {
    let (length, count) = (number(&a[4]), number(&a[5]));
    let samples: Vec<f64> = bytes(&a[2]).chunks(4).map(|b| f32::from_ne_bytes(b.try_into().unwrap()).into()).collect();
    let rows = floats(&after.held[6]);
    must(count == samples.len().div_ceil(length), "another count than that of the samples")?;
    for (row, heard) in rows.chunks(FEATURE_WIDTH).zip(samples.chunks(length)) {
        let silent = |part: &[f64]| part.iter().all(|x| x.to_bits() == 0);
        let (classes, bands) = (&row[..12], &row[12..15]);
        must(row[..15].iter().all(|x| (0.0..=1.0).contains(x)), "a part outside 0 to 1")?;
        must(silent(classes) || classes.contains(&1.0), "no pitch class is the greatest")?;
        must(silent(bands) || (bands.iter().sum::<f64>() - 1.0).abs() < 1e-9, "the bands are not the parts of 1")?;
        let square = heard.iter().fold(0.0, |sum, x| sum + x * x) / heard.len() as f64;
        must(row[15].to_bits() == square.sqrt().to_bits(), "not the root mean square of the samples")?;
    }
    Ok(vec![(6, 0..count * FEATURE_WIDTH)])
}
