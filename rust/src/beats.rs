//! Beats and bars.
use crate::{ffi, limits, rooms, Refused, TempoOpts};

/// A place in the music: bar and beat, both counted from 1.
#[derive(Clone, Copy, Debug, PartialEq, Eq)]
pub struct BarBeat {
    /// The bar.
    pub bar: usize,
    /// The beat of the bar.
    pub beat: usize,
}

/// Lays the beat grid of an envelope, beats about `period` frames apart (the winner's lag of a tempo). Answers how many beats there
/// are: none for an empty or flat envelope or a period of 0, and then nothing is written.
///
/// Room: `envelope.len()` slots of each of `score`, `back` and `beats`. Beats are listed as frames, ascending; `score` and `back` then
/// hold each frame's score and the beat before it ([`NO_LINK`](crate::limits::NO_LINK) where there is none).
/// Refuses [`OutOfBounds`](crate::Refusal::OutOfBounds) (the envelope's length, the period), [`TooLittleRoom`](crate::Refusal::TooLittleRoom), and
/// [`WrongValue`](crate::Refusal::WrongValue) (an envelope value).
///
/// ```
/// # use prohunsev::*;
/// let (mut score, mut back, mut beats) = ([0.0; 6], [0; 6], [0; 6]);
/// let count = beat_grid(&[0.0, 4.0, 0.0, 4.0, 0.0, 4.0], 2, &mut score, &mut back, &mut beats)?;
/// assert_eq!(beats[..count], [1, 3, 5]);
/// assert_eq!((back[1], back[3]), (limits::NO_LINK, 1));
/// # Ok::<(), Refused>(())
/// ```
pub fn beat_grid(
    envelope: &[f64],
    period: usize,
    score: &mut [f64],
    back: &mut [u32],
    beats: &mut [u32],
) -> Result<usize, Refused> {
    let mut count = 0;
    // SAFETY: the pointers and lengths are those of borrowed slices and a local (the reason in lib.rs)
    let number = unsafe {
        ffi::ph_beat_grid(
            envelope.as_ptr(),
            envelope.len(),
            period,
            score.as_mut_ptr(),
            score.len(),
            back.as_mut_ptr(),
            back.len(),
            beats.as_mut_ptr(),
            beats.len(),
            &mut count,
        )
    };
    Refused::unless_answered("beat_grid", number, |why| {
        why.frames("envelope", envelope.len())
            .number("period", period as u64, 0, limits::MOST_PERIOD as u64)
            .room("score", score.len(), rooms::beats(envelope.len()))
            .room("back", back.len(), rooms::beats(envelope.len()))
            .room("beats", beats.len(), rooms::beats(envelope.len()))
            .values("envelope", envelope)
    })?;
    Ok(count)
}

/// Lists the downbeats of a beat list, the first beat of each bar: every `opts.meter`-th beat, from the one of the first bar's that makes
/// their flux sum greatest, the earliest of equal ones. Answers how many there are. The bounds of the options are not read.
///
/// Room: `beats.len()` slots of `frames`. A beat past the envelope counts as silent. Fewer beats than the meter leave phases empty: where all
/// others' sums are negative an empty one wins, and none is listed.
/// Refuses [`OutOfBounds`](crate::Refusal::OutOfBounds) (the envelope's length, a beat above 1,048,575, the meter),
/// [`TooLittleRoom`](crate::Refusal::TooLittleRoom), and [`WrongValue`](crate::Refusal::WrongValue) (an envelope value).
///
/// ```
/// # use prohunsev::*;
/// let mut frames = [0; 3];
/// let count = downbeats(&[0.0, 4.0, 0.0, 4.0, 0.0, 4.0], &[1, 3, 5], TempoOpts::new(), &mut frames)?;
/// assert_eq!(frames[..count], [1]);
/// // a waltz: the accent is on the second beat, and on every third from there
/// let (envelope, waltz) = ([1.0, 4.0, 1.0, 1.0, 4.0, 1.0, 1.0, 4.0], TempoOpts::new().with_meter(3));
/// let mut frames = [0; 8];
/// let count = downbeats(&envelope, &[0, 1, 2, 3, 4, 5, 6, 7], waltz, &mut frames)?;
/// assert_eq!(frames[..count], [1, 4, 7]);
/// # Ok::<(), Refused>(())
/// ```
pub fn downbeats(envelope: &[f64], beats: &[u32], opts: TempoOpts, frames: &mut [u32]) -> Result<usize, Refused> {
    let mut count = 0;
    // SAFETY: the pointers and lengths are those of borrowed slices and a local (the reason in lib.rs)
    let number = unsafe {
        ffi::ph_downbeats(
            envelope.as_ptr(),
            envelope.len(),
            beats.as_ptr(),
            beats.len(),
            opts.meter,
            frames.as_mut_ptr(),
            frames.len(),
            &mut count,
        )
    };
    Refused::unless_answered("downbeats", number, |why| {
        why.frames("envelope", envelope.len())
            .entries("beats", beats, limits::MOST_FRAME)
            .meter(opts)
            .room("frames", frames.len(), rooms::entries(beats.len()))
            .values("envelope", envelope)
    })?;
    Ok(count)
}

/// Says which bar and beat a time lies in: the last bar whose downbeat it has reached, and how many of its beats. `None` before the
/// first bar. All three are times in one unit, seconds in the original; both tests have a slack of 0.000001. Refuses nothing.
///
/// ```
/// # use prohunsev::*;
/// let (bars, beats) = ([0.5, 2.5], [0.5, 1.0, 1.5, 2.0, 2.5, 3.0]);
/// assert_eq!(bar_beat_at(1.6, &bars, &beats), Some(BarBeat { bar: 1, beat: 3 }));
/// assert_eq!(bar_beat_at(2.5, &bars, &beats), Some(BarBeat { bar: 2, beat: 1 }));
/// assert_eq!(bar_beat_at(0.4, &bars, &beats), None);
/// ```
pub fn bar_beat_at(time: f64, downbeats: &[f64], beats: &[f64]) -> Option<BarBeat> {
    let (mut found, mut bar, mut beat) = (0, 0, 0);
    // SAFETY: the pointers and lengths are those of borrowed slices and locals (the reason in lib.rs)
    let number = unsafe {
        ffi::ph_bar_beat_at(
            time,
            downbeats.as_ptr(),
            downbeats.len(),
            beats.as_ptr(),
            beats.len(),
            &mut found,
            &mut bar,
            &mut beat,
        )
    };
    debug_assert_eq!(number, 0, "bar_beat_at refuses nothing");
    (found != 0).then_some(BarBeat { bar, beat })
}
