//! Feature rows: what each second or so of a track sounds like.
use crate::{ffi, limits, rooms, Refused};

/// Writes sixteen values for each stretch of `length` samples, for [`similarity`](crate::similarity): twelve pitch classes, C first, over the
/// greatest of them, the parts of the energy below 250 Hz, to 4,000 Hz and above, and the root mean square of the samples.
///
/// `magnitudes` holds `rows` rows of 2,049 bins, of a transform of 4,096 samples every 1,024; they need not be as many as the samples have. A row
/// belongs to the stretch that its centre's time falls in, each operation rounded (exactly on a border perhaps to the one before), and past the last one to
/// that. `count` is how many stretches the samples have, the last perhaps
/// shorter: [`rooms::feature_count`](crate::rooms::feature_count). Room: [`rooms::features`](crate::rooms::features), 16 slots each; no samples are a
/// count of 0, and then nothing is written.
/// Refuses [`OutOfBounds`](crate::Refusal::OutOfBounds) (the rate, rows, the length, the count), [`WrongLength`](crate::Refusal::WrongLength) (not
/// 2,049 magnitudes a row), [`TooLittleRoom`](crate::Refusal::TooLittleRoom), and [`WrongValue`](crate::Refusal::WrongValue) (a magnitude, also one
/// below 0, or a sample that isn't finite).
///
/// ```
/// # use prohunsev::*;
/// let mut magnitudes = [0.0; 2 * limits::FEATURE_BINS];
/// magnitudes[38] = 3.0; // 445 Hz at a rate of 48,000: an A
/// let (samples, length) = ([0.5; 6_000], 3_072);
/// let count = rooms::feature_count(samples.len(), length);
/// let mut features = vec![9.0; rooms::features(count)];
/// feature_rows(&magnitudes, 2, &samples, 48_000, length, count, &mut features)?;
/// // the first row of the transform is in the first stretch, and the second, which is silent, in the second
/// assert_eq!(features[..16], [0., 0., 0., 0., 0., 0., 0., 0., 0., 1., 0., 0., 0., 1., 0., 0.5]);
/// assert_eq!(features[16..31], [0.0; 15]);
/// # Ok::<(), Refused>(())
/// ```
pub fn feature_rows(
    magnitudes: &[f32],
    rows: usize,
    samples: &[f32],
    rate: u32,
    length: u64,
    count: usize,
    features: &mut [f64],
) -> Result<(), Refused> {
    // SAFETY: the pointers and lengths are those of borrowed slices (the reason in lib.rs)
    let number = unsafe {
        ffi::ph_feature_rows(
            magnitudes.as_ptr(),
            magnitudes.len(),
            rows,
            samples.as_ptr(),
            samples.len(),
            rate,
            length,
            count,
            features.as_mut_ptr(),
            features.len(),
        )
    };
    Refused::unless_answered("feature_rows", number, |why| {
        why.number("rows", rows as u64, 0, limits::MOST_ROWS as u64)
            .rate(rate)
            .number("length", length, 1, limits::MOST_FEATURE_LENGTH)
            .feature_count(count, samples.len(), length)
            .table("magnitudes", magnitudes.len(), rows, limits::FEATURE_BINS)
            .room("features", features.len(), rooms::features(count))
            .strengths("magnitudes", magnitudes)
            .samples("samples", samples)
    })
}
