//! Sections: where the sound of a track changes.
use crate::{ffi, limits, rooms, Refused};

/// The answer of [`boundaries`].
#[derive(Clone, Copy, Debug, PartialEq)]
pub struct Sections {
    /// How many sections the track has: one more than boundaries, and none without rows.
    pub sections: usize,
    /// How many boundaries are listed.
    pub count: usize,
    /// How far the boundaries stand out, 0 to 1.
    pub confidence: f64,
}

/// Compares each feature row with itself and the sixteen rows after it: slot `17 i + d` is the cosine of rows i and i + d, from -1 to 1,
/// and 0 past the end or where a row is all zeros.
///
/// `features` holds `rows` rows of 16 values. Room: [`rooms::similarity`](crate::rooms::similarity), 17 slots a row.
/// Refuses [`OutOfBounds`](crate::Refusal::OutOfBounds) (rows), [`WrongLength`](crate::Refusal::WrongLength) (not 16 values a row),
/// [`TooLittleRoom`](crate::Refusal::TooLittleRoom), and [`WrongValue`](crate::Refusal::WrongValue) (a feature value).
///
/// ```
/// # use prohunsev::*;
/// let mut features = [0.0; 32];
/// (features[0], features[17]) = (2.0, 3.0);
/// let mut band = [9.0; 34];
/// similarity(&features, 2, &mut band)?;
/// assert_eq!(band[..2], [1.0, 0.0]); // row 0 with itself, and with row 1, which is at a right angle to it
/// # Ok::<(), Refused>(())
/// ```
pub fn similarity(features: &[f64], rows: usize, similarity: &mut [f64]) -> Result<(), Refused> {
    // SAFETY: the pointers and lengths are those of borrowed slices (the reason in lib.rs)
    let number = unsafe {
        ffi::ph_similarity(features.as_ptr(), features.len(), rows, similarity.as_mut_ptr(), similarity.len())
    };
    Refused::unless_answered("similarity", number, |why| {
        why.feature_rows("features", features.len(), rows, limits::FEATURE_WIDTH)
            .room("similarity", similarity.len(), rooms::similarity(rows))
            .values("features", features)
    })
}

/// How much the sound changes at each row: the similarities around it under a checkerboard of sixteen rows.
///
/// `similarity` is what [`similarity`] writes, exactly 17 slots a row. Room: `rows` slots of `novelty`.
/// Refuses [`OutOfBounds`](crate::Refusal::OutOfBounds) (rows), [`WrongLength`](crate::Refusal::WrongLength),
/// [`TooLittleRoom`](crate::Refusal::TooLittleRoom), and [`WrongValue`](crate::Refusal::WrongValue) (a similarity outside -1 to 1).
///
/// ```
/// # use prohunsev::*;
/// let mut novel = [9.0; 3];
/// novelty(&[0.0; 51], 3, &mut novel)?;
/// assert_eq!(novel, [0.0; 3]);
/// # Ok::<(), Refused>(())
/// ```
pub fn novelty(similarity: &[f64], rows: usize, novelty: &mut [f64]) -> Result<(), Refused> {
    // SAFETY: the pointers and lengths are those of borrowed slices (the reason in lib.rs)
    let number =
        unsafe { ffi::ph_novelty(similarity.as_ptr(), similarity.len(), rows, novelty.as_mut_ptr(), novelty.len()) };
    Refused::unless_answered("novelty", number, |why| {
        why.feature_rows("similarity", similarity.len(), rows, limits::SIMILARITY_WIDTH)
            .room("novelty", novelty.len(), rooms::novelty(rows))
            .similarities("similarity", similarity)
    })
}

/// Lists the rows at which sections begin, ascending, at most `max(1, max_sections) - 1` of them. A row is `length` samples long.
///
/// Room: `novelty.len()` slots of `rows` and of `work`, which then holds anything. Fewer than 16 rows: one section, no boundary.
/// Refuses [`OutOfBounds`](crate::Refusal::OutOfBounds) (the number of rows, the length, the rate),
/// [`TooLittleRoom`](crate::Refusal::TooLittleRoom), and [`WrongValue`](crate::Refusal::WrongValue) (a novelty value).
///
/// ```
/// # use prohunsev::*;
/// let mut novelty = [0.0; 40];
/// (novelty[12], novelty[25]) = (2.0, 3.0);
/// let (mut rows, mut work) = ([0; 40], [0.0; 40]);
/// let found = boundaries(&novelty, 48_000, 48_000, 8, &mut rows, &mut work)?;
/// assert_eq!((found.sections, &rows[..found.count]), (3, &[12, 25][..]));
/// # Ok::<(), Refused>(())
/// ```
pub fn boundaries(
    novelty: &[f64],
    length: u64,
    rate: u32,
    max_sections: usize,
    rows: &mut [u32],
    work: &mut [f64],
) -> Result<Sections, Refused> {
    let mut answer = Sections { sections: 0, count: 0, confidence: 0.0 };
    // SAFETY: the pointers and lengths are those of borrowed slices and of a local's fields (the reason in lib.rs)
    let number = unsafe {
        ffi::ph_boundaries(
            novelty.as_ptr(),
            novelty.len(),
            length,
            rate,
            max_sections,
            rows.as_mut_ptr(),
            rows.len(),
            work.as_mut_ptr(),
            work.len(),
            &mut answer.sections,
            &mut answer.count,
            &mut answer.confidence,
        )
    };
    Refused::unless_answered("boundaries", number, |why| {
        why.slots("novelty", novelty.len(), limits::MOST_FEATURE_ROWS)
            .number("length", length, 1, limits::MOST_FEATURE_LENGTH)
            .rate(rate)
            .room("rows", rows.len(), rooms::boundaries(novelty.len()))
            .room("work", work.len(), rooms::boundaries(novelty.len()))
            .values("novelty", novelty)
    })?;
    Ok(answer)
}

/// Writes the time of each boundary's row in milliseconds: the row times the length of a row.
///
/// Room: `rows.len()` slots of `ms`.
/// Refuses [`OutOfBounds`](crate::Refusal::OutOfBounds) (the length, the rate, a row of 50,000 and above) and
/// [`TooLittleRoom`](crate::Refusal::TooLittleRoom).
///
/// ```
/// # use prohunsev::*;
/// let mut ms = [0.0; 2];
/// boundary_times(&[12, 25], 24_000, 48_000, &mut ms)?;
/// assert_eq!(ms, [6_000.0, 12_500.0]);
/// # Ok::<(), Refused>(())
/// ```
pub fn boundary_times(rows: &[u32], length: u64, rate: u32, ms: &mut [f64]) -> Result<(), Refused> {
    // SAFETY: the pointers and lengths are those of borrowed slices (the reason in lib.rs)
    let number = unsafe { ffi::ph_boundary_times(rows.as_ptr(), rows.len(), length, rate, ms.as_mut_ptr(), ms.len()) };
    Refused::unless_answered("boundary_times", number, |why| {
        why.number("length", length, 1, limits::MOST_FEATURE_LENGTH)
            .rate(rate)
            .entries("rows", rows, limits::MOST_FEATURE_ROWS as u32 - 1)
            .room("ms", ms.len(), rooms::entries(rows.len()))
    })
}
