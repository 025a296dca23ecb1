//! Onsets: where a track rises.
use crate::{ffi, limits, rooms, Refused};

/// Onset strength: `flux[t]` is how much magnitude row t rises over row t - 1, summed over the bins; `flux[0]` is 0.
///
/// `magnitudes` holds `rows` rows of `bins` values, row after row. Room: `rows` slots of `flux`.
/// Refuses [`OutOfBounds`](crate::Refusal::OutOfBounds) (rows, bins), [`WrongLength`](crate::Refusal::WrongLength) (not rows times bins),
/// [`TooLittleRoom`](crate::Refusal::TooLittleRoom), and [`WrongValue`](crate::Refusal::WrongValue) (a magnitude).
///
/// ```
/// # use prohunsev::*;
/// let mut flux = [7.0; 4];
/// spectral_flux(&[0.0, 1.0, 2.0, 0.5, 2.0, 4.0], 3, 2, &mut flux)?;
/// assert_eq!(flux, [0.0, 2.0, 3.5, 7.0]); // the slot behind the rows is unchanged
/// # Ok::<(), Refused>(())
/// ```
pub fn spectral_flux(magnitudes: &[f32], rows: usize, bins: usize, flux: &mut [f64]) -> Result<(), Refused> {
    // SAFETY: the pointers and lengths are those of borrowed slices (the reason in lib.rs)
    let number = unsafe {
        ffi::ph_spectral_flux(magnitudes.as_ptr(), magnitudes.len(), rows, bins, flux.as_mut_ptr(), flux.len())
    };
    Refused::unless_answered("spectral_flux", number, |why| {
        why.magnitude_rows("magnitudes", magnitudes.len(), rows, bins)
            .room("flux", flux.len(), rows)
            .magnitudes("magnitudes", magnitudes)
    })
}

/// What a flux must exceed to be an onset: around each slot the median of the slots from ten before to ten after, eight times their
/// median distance from it, and 0.000001.
///
/// Room: `flux.len()` slots of `threshold`, and [`rooms::threshold_work`](crate::rooms::threshold_work) slots of `work`, which then
/// hold anything.
/// Refuses [`OutOfBounds`](crate::Refusal::OutOfBounds) (the length of `flux`), [`TooLittleRoom`](crate::Refusal::TooLittleRoom), and
/// [`WrongValue`](crate::Refusal::WrongValue) (a flux value).
///
/// ```
/// # use prohunsev::*;
/// let mut threshold = [0.0; 3];
/// adaptive_threshold(&[1.0, 1.0, 1.0], &mut threshold, &mut [0.0; 3])?;
/// assert_eq!(threshold, [1.000001; 3]);
/// # Ok::<(), Refused>(())
/// ```
pub fn adaptive_threshold(flux: &[f64], threshold: &mut [f64], work: &mut [f64]) -> Result<(), Refused> {
    // SAFETY: the pointers and lengths are those of borrowed slices (the reason in lib.rs)
    let number = unsafe {
        ffi::ph_adaptive_threshold(
            flux.as_ptr(),
            flux.len(),
            threshold.as_mut_ptr(),
            threshold.len(),
            work.as_mut_ptr(),
            work.len(),
        )
    };
    Refused::unless_answered("adaptive_threshold", number, |why| {
        why.frames("flux", flux.len())
            .room("threshold", threshold.len(), rooms::threshold(flux.len()))
            .room("work", work.len(), rooms::threshold_work(flux.len()))
            .values("flux", flux)
    })
}

/// Lists the frames of the onsets, ascending: the peaks of the flux above its threshold, of each group closer than 30 ms the best.
/// Answers how many there are.
///
/// Room: `flux.len()` slots of `frames`.
/// Refuses [`OutOfBounds`](crate::Refusal::OutOfBounds) (the length of `flux`, the rate), [`WrongLength`](crate::Refusal::WrongLength) (a threshold
/// of another length), [`TooLittleRoom`](crate::Refusal::TooLittleRoom), and [`WrongValue`](crate::Refusal::WrongValue) (a value of either).
///
/// ```
/// # use prohunsev::*;
/// let mut frames = [0; 4];
/// let count = pick_onsets(&[0.0, 0.0, 5.0, 0.0], &[1.0; 4], 48_000, &mut frames)?;
/// assert_eq!(frames[..count], [2]);
/// # Ok::<(), Refused>(())
/// ```
pub fn pick_onsets(flux: &[f64], threshold: &[f64], rate: u32, frames: &mut [u32]) -> Result<usize, Refused> {
    let mut count = 0;
    // SAFETY: the pointers and lengths are those of borrowed slices and a local (the reason in lib.rs)
    let number = unsafe {
        ffi::ph_pick_onsets(
            flux.as_ptr(),
            flux.len(),
            threshold.as_ptr(),
            threshold.len(),
            rate,
            frames.as_mut_ptr(),
            frames.len(),
            &mut count,
        )
    };
    Refused::unless_answered("pick_onsets", number, |why| {
        why.frames("flux", flux.len())
            .rate(rate)
            .of_length("threshold", threshold.len(), "flux", flux.len())
            .room("frames", frames.len(), rooms::onsets(flux.len()))
            .values("flux", flux)
            .values("threshold", threshold)
    })?;
    Ok(count)
}

/// Thins a list of peaks: a peak joins the group of the one before it while it is at most `gap` from the group's best, and of each
/// group the highest is kept (of equals the first). Answers how many are kept.
///
/// Room: `peaks.len()` slots of `frames`.
/// Refuses [`OutOfBounds`](crate::Refusal::OutOfBounds) (a list that doesn't ascend strictly or points past its curve, the curve's length),
/// [`TooLittleRoom`](crate::Refusal::TooLittleRoom), and [`WrongValue`](crate::Refusal::WrongValue) (a curve value).
///
/// ```
/// # use prohunsev::*;
/// let mut curve = [0.0; 23];
/// (curve[10], curve[16], curve[22]) = (5.0, 6.0, 7.0);
/// let mut frames = [0; 3];
/// let count = suppress_close_peaks(&[10, 16, 22], &curve, 6, &mut frames)?;
/// assert_eq!(frames[..count], [22]);
/// # Ok::<(), Refused>(())
/// ```
pub fn suppress_close_peaks(peaks: &[u32], curve: &[f64], gap: usize, frames: &mut [u32]) -> Result<usize, Refused> {
    let mut count = 0;
    // SAFETY: the pointers and lengths are those of borrowed slices and a local (the reason in lib.rs)
    let number = unsafe {
        ffi::ph_suppress_close_peaks(
            peaks.as_ptr(),
            peaks.len(),
            curve.as_ptr(),
            curve.len(),
            gap,
            frames.as_mut_ptr(),
            frames.len(),
            &mut count,
        )
    };
    Refused::unless_answered("suppress_close_peaks", number, |why| {
        why.frames("curve", curve.len())
            .peaks("peaks", peaks, curve.len())
            .room("frames", frames.len(), rooms::entries(peaks.len()))
            .values("curve", curve)
    })?;
    Ok(count)
}

/// Writes the time of each frame's centre in milliseconds, `(256 t + 512) / rate * 1000`.
///
/// Room: `frames.len()` slots of `ms`. Frames need not ascend.
/// Refuses [`OutOfBounds`](crate::Refusal::OutOfBounds) (the rate, a frame above 1,048,575) and [`TooLittleRoom`](crate::Refusal::TooLittleRoom).
///
/// ```
/// # use prohunsev::*;
/// let mut ms = [0.0; 2];
/// frame_times(&[0, 2], 1_000, &mut ms)?;
/// assert_eq!(ms, [512.0, 1024.0]);
/// # Ok::<(), Refused>(())
/// ```
pub fn frame_times(frames: &[u32], rate: u32, ms: &mut [f64]) -> Result<(), Refused> {
    // SAFETY: the pointers and lengths are those of borrowed slices (the reason in lib.rs)
    let number = unsafe { ffi::ph_frame_times(frames.as_ptr(), frames.len(), rate, ms.as_mut_ptr(), ms.len()) };
    Refused::unless_answered("frame_times", number, |why| {
        why.rate(rate).entries("frames", frames, limits::MOST_FRAME).room("ms", ms.len(), rooms::entries(frames.len()))
    })
}
