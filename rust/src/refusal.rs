//! Why a call refuses.
use crate::why::{Detail, Why};
use std::error::Error;
use std::fmt;

/// Why a call refused. A refusal changes nothing that was lent. Of numbers 1 to 4 the lowest that applies is given; the calls of files have an
/// order of their own, which they say. Other calls may come with other numbers.
///
/// A call's error is a [`Refused`], which holds one of these; `?` turns it into one where a function answers `Result<_, Refusal>`.
///
/// ```
/// use prohunsev::{lag_range, Refusal, TempoOpts};
/// let refusal = Refusal::from(lag_range(0, TempoOpts::new()).unwrap_err());
/// assert_eq!(refusal, Refusal::OutOfBounds);
/// assert_eq!(refusal.number(), 1);
/// assert!(refusal.to_string().contains("sample rate"));
/// ```
#[derive(Clone, Copy, Debug, PartialEq, Eq, PartialOrd, Ord, Hash)]
#[repr(u32)]
#[non_exhaustive]
pub enum Refusal {
    /// Number 1: a number is outside its bounds (see [`limits`](crate::limits)), a patch's start is above its row count, a median's
    /// list is empty, a peak list doesn't ascend or points past its curve, or a count of feature rows isn't that of the samples.
    OutOfBounds = 1,
    /// Number 2: an input's length isn't rows times width, or a patch isn't whole rows or runs past the end.
    WrongLength = 2,
    /// Number 3: an output or work slice has fewer slots than its formula (see [`rooms`](crate::rooms)).
    TooLittleRoom = 3,
    /// Number 4: a value isn't finite, or is too large: magnitudes 2^126, envelopes, curves, medians and features 2^150, a similarity 1; or a
    /// magnitude of [`feature_rows`](crate::feature_rows) is below 0.
    WrongValue = 4,
    /// Number 6: of a tempo track's beats there are fewer than two, or they don't ascend strictly. (5 is of the reporting program alone.)
    WrongGrid = 6,
    /// Number 7: from one beat to the next are more than 16,777,215 microseconds, which is the longest tempo of a track.
    GapTooLong = 7,
    /// Number 8: a file isn't of the one shape that [`write_tempo_track`](crate::write_tempo_track) writes, or has a tempo of 0.
    OtherShape = 8,
    /// Number 9: a line of a label track, or a cue chunk, isn't of the one form that [`write_labels`](crate::write_labels) and
    /// [`write_cues`](crate::write_cues) write.
    NotOfThisForm = 9,
    /// Number 10: a time of a label track at its rate, or an offset of a cue chunk, is no listed frame's.
    NoListedFrame = 10,
    /// Number 11: frames that are lent, or those of a label track or a cue chunk, don't ascend strictly.
    NotAscending = 11,
}

impl Refusal {
    /// The number of the refusal, 1 to 4 or 6 to 11.
    pub const fn number(self) -> u32 {
        self as u32
    }

    const fn sentence(self) -> &'static str {
        match self {
            Refusal::OutOfBounds => {
                "a number is out of bounds: sample rate 1 to 192,000, at most 1,048,576 rows or slots of 1 to 4,096 bins, period at most \
                 45,000, meter 1 to 16, at most 50,000 feature rows of 1 to 2^31 samples, frames at most 1,048,575; or a patch starts past its rows, \
                 a median's list is empty, a peak list doesn't ascend or points past its curve, or a count of feature rows isn't that of the samples"
            }
            Refusal::WrongLength => {
                "an input's length isn't rows times width, or a patch isn't whole rows or runs past the end"
            }
            Refusal::TooLittleRoom => {
                "an output or work slice has fewer slots than its formula: prohunsev::rooms has them"
            }
            Refusal::WrongValue => {
                "a value isn't finite or is too large: magnitudes up to 2^126, envelopes, curves, medians and features up to 2^150, \
                 similarities -1 to 1; or a magnitude of feature_rows is below 0"
            }
            Refusal::WrongGrid => "a tempo track needs two beats at least, which ascend strictly",
            Refusal::GapTooLong => "from one beat to the next are more than 16,777,215 microseconds, the longest tempo of a track",
            Refusal::OtherShape => {
                "the file isn't of the shape that write_tempo_track writes: format 0, one track of Set Tempo events, division 96; or it has a \
                 tempo of 0"
            }
            Refusal::NotOfThisForm => {
                "a line isn't START TAB END TAB beat LF with two equal times of six decimals and no needless zero, or the chunk isn't a cue chunk \
                 as write_cues writes it"
            }
            Refusal::NoListedFrame => "a time at this rate, or an offset, is that of no frame from 0 to 1,048,575",
            Refusal::NotAscending => "frames don't ascend strictly",
        }
    }
}

impl fmt::Display for Refusal {
    fn fmt(&self, f: &mut fmt::Formatter<'_>) -> fmt::Result {
        write!(f, "refused with {}: {}", self.number(), self.sentence())
    }
}

impl Error for Refusal {}

/// A refusal of a call: why, which call, and what of all that was lent to it, in words.
///
/// The reason is the proved call's. The words are worked out afterwards from what was lent: they name the argument, what it was and what
/// is taken; where nothing is found they are the reason's own. Two are equal where their reasons are, and one may be compared with a
/// [`Refusal`]. Nothing is allocated.
///
/// ```
/// use prohunsev::{adaptive_threshold, lag_range, Refusal, Refused, TempoOpts};
/// let refused = adaptive_threshold(&[0.0; 30], &mut [0.0; 29], &mut [0.0; 21]).unwrap_err();
/// assert_eq!(refused.to_string(), "adaptive_threshold refused with 3: threshold: 29 slots lent, 30 needed");
/// assert_eq!(refused, Refusal::TooLittleRoom);
/// match lag_range(0, TempoOpts::new()) {
///     Err(Refused { refusal: Refusal::OutOfBounds, .. }) => {}
///     other => panic!("{other:?}"),
/// }
/// ```
#[derive(Clone, Copy)]
pub struct Refused {
    /// The reason.
    pub refusal: Refusal,
    /// The name of the call; empty for one made of a [`Refusal`].
    pub call: &'static str,
    detail: Detail,
}

impl Refused {
    /// The number of the refusal, 1 to 4 or 6 to 11.
    pub const fn number(&self) -> u32 {
        self.refusal.number()
    }

    pub(crate) const fn of(call: &'static str, refusal: Refusal, detail: Detail) -> Refused {
        Refused { refusal, call, detail }
    }

    // 0 is an answer; the calls are proved to give no number but these. What is lent is looked at only where the number refuses.
    pub(crate) fn unless_answered(
        call: &'static str,
        number: u32,
        explain: impl FnOnce(Why) -> Why,
    ) -> Result<(), Refused> {
        let refusal = match number {
            0 => return Ok(()),
            1 => Refusal::OutOfBounds,
            2 => Refusal::WrongLength,
            3 => Refusal::TooLittleRoom,
            4 => Refusal::WrongValue,
            6 => Refusal::WrongGrid,
            7 => Refusal::GapTooLong,
            8 => Refusal::OtherShape,
            9 => Refusal::NotOfThisForm,
            10 => Refusal::NoListedFrame,
            11 => Refusal::NotAscending,
            _ => unreachable!("the library linked answers {number}, which is no number of refusal"),
        };
        Err(Refused { refusal, call, detail: explain(Why::of(refusal)).found() })
    }

    // the same refusal, told of the call that the caller made
    pub(crate) fn of_call(self, call: &'static str) -> Refused {
        Refused { call, ..self }
    }
}

impl PartialEq for Refused {
    fn eq(&self, other: &Refused) -> bool {
        self.refusal == other.refusal
    }
}

impl Eq for Refused {}

impl PartialEq<Refusal> for Refused {
    fn eq(&self, other: &Refusal) -> bool {
        self.refusal == *other
    }
}

impl From<Refused> for Refusal {
    fn from(refused: Refused) -> Refusal {
        refused.refusal
    }
}

impl From<Refusal> for Refused {
    fn from(refusal: Refusal) -> Refused {
        Refused { refusal, call: "", detail: Detail::Unknown }
    }
}

impl fmt::Display for Refused {
    fn fmt(&self, f: &mut fmt::Formatter<'_>) -> fmt::Result {
        if !self.call.is_empty() {
            write!(f, "{} ", self.call)?;
        }
        match self.detail {
            Detail::Unknown => write!(f, "{}", self.refusal),
            detail => write!(f, "refused with {}: {detail}", self.number()),
        }
    }
}

// what a program says whose main ends with one
impl fmt::Debug for Refused {
    fn fmt(&self, f: &mut fmt::Formatter<'_>) -> fmt::Result {
        write!(f, "Refused({self})")
    }
}

impl Error for Refused {}
