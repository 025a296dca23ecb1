//! Patches: rows replaced, and the curves that follow from them repaired, as one fresh analysis of the edited rows would give them.
use crate::{ffi, limits, rooms, Refused};
use std::ops::Range;

/// The slots that [`patch_magnitudes`] repaired; both ranges are `0..0` for an empty patch.
#[derive(Clone, Debug, PartialEq, Eq)]
pub struct Patched {
    /// Of the flux.
    pub flux: Range<usize>,
    /// Of the threshold.
    pub threshold: Range<usize>,
}

/// The slots that [`patch_features`] repaired; both ranges are `0..0` for an empty patch.
#[derive(Clone, Debug, PartialEq, Eq)]
pub struct PatchedFeatures {
    /// Of the similarity; inside it, slots of pairs that touch no replaced row are not written.
    pub similarity: Range<usize>,
    /// Of the novelty.
    pub novelty: Range<usize>,
}

/// Replaces magnitude rows from row `start` on, and repairs flux and threshold: where they were those of the rows, they are then those
/// of the edited rows, bit for bit.
///
/// `new_rows` holds whole rows. Lent as well: `rows` slots of `flux` and `threshold` that hold the curves, and
/// [`rooms::threshold_work`](crate::rooms::threshold_work) slots of `work`, which then hold anything.
/// Refuses [`OutOfBounds`](crate::Refusal::OutOfBounds) (rows, bins, a start above rows), [`WrongLength`](crate::Refusal::WrongLength) (not rows times
/// bins, a patch that isn't whole rows or runs past the end), [`TooLittleRoom`](crate::Refusal::TooLittleRoom) (a curve or `work` too short),
/// and [`WrongValue`](crate::Refusal::WrongValue) (a magnitude, old or new, or a curve's value).
///
/// ```
/// # use prohunsev::*;
/// let mut magnitudes = [0.0, 1.0, 2.0, 3.0];
/// let (mut flux, mut threshold, mut work) = ([0.0; 4], [0.0; 4], [0.0; 4]);
/// spectral_flux(&magnitudes, 4, 1, &mut flux)?;
/// adaptive_threshold(&flux, &mut threshold, &mut work)?;
/// let patched = patch_magnitudes(&mut magnitudes, 4, 1, 1, &[5.0], &mut flux, &mut threshold, &mut work)?;
/// assert_eq!(flux, [0.0, 5.0, 0.0, 1.0]);
/// assert_eq!(patched, Patched { flux: 1..3, threshold: 0..4 });
/// # Ok::<(), Refused>(())
/// ```
// the rows, the patch and the curves are eight slices and numbers of the caller's; a struct to hold them would be taken apart again
#[allow(clippy::too_many_arguments)]
pub fn patch_magnitudes(
    magnitudes: &mut [f32],
    rows: usize,
    bins: usize,
    start: usize,
    new_rows: &[f32],
    flux: &mut [f64],
    threshold: &mut [f64],
    work: &mut [f64],
) -> Result<Patched, Refused> {
    let mut named = Patched { flux: 0..0, threshold: 0..0 };
    // SAFETY: the pointers and lengths are those of borrowed slices and of a local's fields (the reason in lib.rs)
    let number = unsafe {
        ffi::ph_patch_magnitudes(
            magnitudes.as_mut_ptr(),
            magnitudes.len(),
            rows,
            bins,
            start,
            new_rows.as_ptr(),
            new_rows.len(),
            flux.as_mut_ptr(),
            flux.len(),
            threshold.as_mut_ptr(),
            threshold.len(),
            work.as_mut_ptr(),
            work.len(),
            &mut named.flux.start,
            &mut named.flux.end,
            &mut named.threshold.start,
            &mut named.threshold.end,
        )
    };
    Refused::unless_answered("patch_magnitudes", number, |why| {
        why.magnitude_rows("magnitudes", magnitudes.len(), rows, bins)
            .new_rows("new_rows", new_rows.len(), start, rows, bins)
            .room("flux", flux.len(), rooms::flux(rows))
            .room("threshold", threshold.len(), rooms::threshold(rows))
            .room("work", work.len(), rooms::threshold_work(rows))
            .magnitudes("magnitudes", magnitudes)
            .magnitudes("new_rows", new_rows)
            .values("flux", &flux[..rows.min(flux.len())])
            .values("threshold", &threshold[..rows.min(threshold.len())])
    })?;
    Ok(named)
}

/// Replaces feature rows from row `start` on, and repairs similarity and novelty: where they were those of the rows, they are then
/// those of the edited rows, bit for bit.
///
/// `new_rows` holds whole rows of 16. Lent as well: 17 slots a row of `similarity` and `rows` slots of `novelty`, which hold the curves.
/// Refuses as [`patch_magnitudes`] does, and [`WrongValue`](crate::Refusal::WrongValue) for a lent similarity outside -1 to 1.
///
/// ```
/// # use prohunsev::*;
/// let mut features = [1.0; 48];
/// let (mut band, mut novel) = ([0.0; 51], [0.0; 3]);
/// similarity(&features, 3, &mut band)?;
/// novelty(&band, 3, &mut novel)?;
/// let patched = patch_features(&mut features, 3, 2, &[-1.0; 16], &mut band, &mut novel)?;
/// assert_eq!(patched, PatchedFeatures { similarity: 2..51, novelty: 0..3 });
/// assert_eq!((band[0], band[2]), (1.0, -1.0));
/// # Ok::<(), Refused>(())
/// ```
pub fn patch_features(
    features: &mut [f64],
    rows: usize,
    start: usize,
    new_rows: &[f64],
    similarity: &mut [f64],
    novelty: &mut [f64],
) -> Result<PatchedFeatures, Refused> {
    let mut named = PatchedFeatures { similarity: 0..0, novelty: 0..0 };
    // SAFETY: the pointers and lengths are those of borrowed slices and of a local's fields (the reason in lib.rs)
    let number = unsafe {
        ffi::ph_patch_features(
            features.as_mut_ptr(),
            features.len(),
            rows,
            start,
            new_rows.as_ptr(),
            new_rows.len(),
            similarity.as_mut_ptr(),
            similarity.len(),
            novelty.as_mut_ptr(),
            novelty.len(),
            &mut named.similarity.start,
            &mut named.similarity.end,
            &mut named.novelty.start,
            &mut named.novelty.end,
        )
    };
    Refused::unless_answered("patch_features", number, |why| {
        why.feature_rows("features", features.len(), rows, limits::FEATURE_WIDTH)
            .new_rows("new_rows", new_rows.len(), start, rows, limits::FEATURE_WIDTH)
            .room("similarity", similarity.len(), rooms::similarity(rows))
            .room("novelty", novelty.len(), rooms::novelty(rows))
            .values("features", features)
            .values("new_rows", new_rows)
            .similarities("similarity", &similarity[..rooms::similarity(rows).min(similarity.len())])
            .values("novelty", &novelty[..rows.min(novelty.len())])
    })?;
    Ok(named)
}
