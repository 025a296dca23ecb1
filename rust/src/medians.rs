//! Medians by IEEE 754's total order.
use crate::{ffi, Refused};

/// The median of a list: the entry at `len / 2` of the list sorted by IEEE total order, so the upper middle of an even length.
///
/// Room: `work` as long as the list; it then holds anything.
/// Refuses [`OutOfBounds`](crate::Refusal::OutOfBounds) for an empty list, [`TooLittleRoom`](crate::Refusal::TooLittleRoom), and
/// [`WrongValue`](crate::Refusal::WrongValue) for a value that isn't finite or has size above 2^150.
///
/// ```
/// # use prohunsev::*;
/// assert_eq!(median_of(&[4.0, 1.0, 3.0, 2.0], &mut [0.0; 4]), Ok(3.0));
/// assert_eq!(median_of(&[], &mut []).unwrap_err(), Refusal::OutOfBounds);
/// ```
pub fn median_of(values: &[f64], work: &mut [f64]) -> Result<f64, Refused> {
    let mut median = 0.0;
    // SAFETY: the pointers and lengths are those of borrowed slices and a local (the reason in lib.rs)
    let number =
        unsafe { ffi::ph_median_of(values.as_ptr(), values.len(), work.as_mut_ptr(), work.len(), &mut median) };
    Refused::unless_answered("median_of", number, |why| {
        why.some("values", values.len()).room("work", work.len(), values.len()).values("values", values)
    })?;
    Ok(median)
}

/// The median of the distances of a list's values from a given median.
///
/// Room and refusals are those of [`median_of`]; the given median is judged as the values are.
///
/// ```
/// # use prohunsev::*;
/// assert_eq!(mad_of(&[1.0, 2.0, 3.0, 9.0, 2.0], 2.0, &mut [0.0; 5]), Ok(1.0));
/// ```
pub fn mad_of(values: &[f64], median: f64, work: &mut [f64]) -> Result<f64, Refused> {
    let mut mad = 0.0;
    // SAFETY: the pointers and lengths are those of borrowed slices and a local (the reason in lib.rs)
    let number =
        unsafe { ffi::ph_mad_of(values.as_ptr(), values.len(), median, work.as_mut_ptr(), work.len(), &mut mad) };
    Refused::unless_answered("mad_of", number, |why| {
        why.some("values", values.len())
            .room("work", work.len(), values.len())
            .values("values", values)
            .value("median", median)
    })?;
    Ok(mad)
}
