//! Room: how many slots each lent slice needs, from the counts alone.
//!
//! With fewer slots a call refuses with [`Refusal::TooLittleRoom`](crate::Refusal::TooLittleRoom) and changes nothing; with exactly these it never does.
use crate::{ffi, lag_range, limits, Refused, TempoOpts};

/// Slots of `flux` for so many magnitude rows.
pub const fn flux(rows: usize) -> usize {
    rows
}

/// Slots of `threshold` for a flux of so many slots.
pub const fn threshold(slots: usize) -> usize {
    slots
}

/// Slots of `work` for the threshold of so many slots, also while patching: one window, at most 21.
pub const fn threshold_work(slots: usize) -> usize {
    if slots < 21 {
        slots
    } else {
        21
    }
}

/// Slots of `frames` for the onsets of a flux of so many slots.
pub const fn onsets(slots: usize) -> usize {
    slots
}

/// Slots of each lag curve and of the work slice beside them, for [`estimate`](crate::estimate) and
/// [`stability_of`](crate::stability_of). Refuses as [`lag_range`] does.
///
/// ```
/// # use prohunsev::*;
/// assert_eq!(rooms::lags(48_000, TempoOpts::new()), Ok(338));
/// ```
pub fn lags(rate: u32, opts: TempoOpts) -> Result<usize, Refused> {
    Ok(lag_range(rate, opts)?.lags())
}

/// Slots of each of `score`, `back` and `beats` for an envelope of so many slots.
pub const fn beats(slots: usize) -> usize {
    slots
}

/// How many feature rows so many samples have, of `length` samples each, the last perhaps shorter: samples over length, rounded up, and `usize::MAX`
/// for a length of 0, which no call takes.
///
/// ```
/// # use prohunsev::*;
/// assert_eq!((rooms::feature_count(96_000, 48_000), rooms::feature_count(96_001, 48_000)), (2, 3));
/// ```
pub const fn feature_count(samples: usize, length: u64) -> usize {
    match (samples as u64).checked_div(length) {
        Some(whole) if (samples as u64) % length > 0 => whole as usize + 1,
        Some(whole) => whole as usize,
        None => usize::MAX,
    }
}

/// Slots of `features` for so many feature rows: 16 each.
pub const fn features(rows: usize) -> usize {
    rows.saturating_mul(limits::FEATURE_WIDTH)
}

/// Slots of `similarity` for so many feature rows: 17 each.
pub const fn similarity(rows: usize) -> usize {
    rows.saturating_mul(limits::SIMILARITY_WIDTH)
}

/// Slots of `novelty` for so many feature rows.
pub const fn novelty(rows: usize) -> usize {
    rows
}

/// Slots of each of `rows` and `work` of [`boundaries`](crate::boundaries) for so many feature rows.
pub const fn boundaries(rows: usize) -> usize {
    rows
}

/// Slots for a list made of another, entry by entry: suppressed peaks, times, downbeats; and a median's `work`.
pub const fn entries(count: usize) -> usize {
    count
}

/// Bytes of the tempo track of so many beats: 26, and 7 for each gap.
pub const fn tempo_track(beats: usize) -> usize {
    beats.saturating_sub(1).saturating_mul(7).saturating_add(26)
}

/// Slots of `gaps` for a tempo track of so many bytes: one for each gap.
pub const fn tempo_gaps(bytes: usize) -> usize {
    bytes.saturating_sub(26) / 7
}

/// Bytes of the label track of so many frames, at most: 39 each, at a rate of 1 and late in the longest track. How many they are is what
/// [`labels_room`](crate::labels_room) answers, 2 d + 21 for a time with d digits of seconds.
pub const fn labels(frames: usize) -> usize {
    frames.saturating_mul(39)
}

/// Slots of `frames` for a label track of so many bytes, at most: a line has 23 bytes or more.
pub const fn label_frames(bytes: usize) -> usize {
    bytes / 23
}

/// Bytes of the cue chunk of so many frames: 12, and 24 for each.
pub const fn cues(frames: usize) -> usize {
    frames.saturating_mul(24).saturating_add(12)
}

/// Slots of `frames` for a cue chunk of so many bytes: one for each point.
pub const fn cue_frames(bytes: usize) -> usize {
    bytes.saturating_sub(12) / 24
}

/// The room of one whole analysis, as three numbers.
#[derive(Clone, Copy, Debug, PartialEq, Eq)]
pub struct Track {
    /// Slots of flux, threshold and score (f64), and of onsets, back links, beats and downbeats (u32).
    pub rows: usize,
    /// Slots of each of four lag curves (f64): clarity and weight of the whole track, and of a window.
    pub lags: usize,
    /// Slots of the work slice (f64) that all calls share: the greater of the lags and the threshold's window.
    pub sorting: usize,
}

impl Track {
    /// The room for a track of at most so many rows, the same for every meter. Refuses [`OutOfBounds`](crate::Refusal::OutOfBounds) for more than
    /// 1,048,576 rows, for the rate and for the meter.
    ///
    /// ```
    /// # use prohunsev::*;
    /// let room = rooms::Track::of(67_500, 48_000, TempoOpts::new())?; // six minutes
    /// assert_eq!((room.rows, room.lags, room.sorting), (67_500, 338, 338));
    /// assert_eq!(room.bytes(), 2_713_520);
    /// # Ok::<(), Refused>(())
    /// ```
    pub fn of(rows: usize, rate: u32, opts: TempoOpts) -> Result<Track, Refused> {
        let mut room = Track { rows: 0, lags: 0, sorting: 0 };
        let Track { rows: row_slots, lags: lag_slots, sorting: work_slots } = &mut room;
        // SAFETY: the pointers are those of a local's three fields (the reason in lib.rs)
        let number = unsafe {
            ffi::ph_room_of(rows, rate, opts.min_bpm, opts.max_bpm, opts.meter, row_slots, lag_slots, work_slots)
        };
        Refused::unless_answered("room_of", number, |why| {
            why.number("rows", rows as u64, 0, limits::MOST_ROWS as u64).rate(rate).meter(opts)
        })?;
        Ok(room)
    }

    /// All of it in bytes: 40 a row, 32 a lag and 8 a slot of sorting; `usize::MAX` for numbers of your own that come to more.
    pub const fn bytes(self) -> usize {
        let sorted = self.lags.saturating_mul(32).saturating_add(self.sorting.saturating_mul(8));
        self.rows.saturating_mul(40).saturating_add(sorted)
    }
}
