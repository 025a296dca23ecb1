//! What a call was refused for, found by looking at what it was lent, once it has refused.
//!
//! A call names all that it takes, in the order of its parameters, and the first that the number of its refusal fits is told. It decides
//! nothing: the number is the proved call's, and where none is found here the general sentence is told.
use crate::{limits, rooms, shapes, Refusal, TempoOpts};
use std::fmt;

/// A slice by its name, and the slots that were lent.
pub type Named = (&'static str, usize);

/// What is wrong with one thing that was lent.
#[derive(Clone, Copy)]
pub enum Detail {
    Unknown,
    /// A number, and its bounds.
    Number {
        name: &'static str,
        is: u64,
        least: u64,
        most: u64,
    },
    /// An input of more slots than any track has.
    TooMany {
        slice: &'static str,
        lent: usize,
        most: usize,
    },
    Empty {
        slice: &'static str,
    },
    /// An entry of a list.
    Entry {
        slice: &'static str,
        at: usize,
        is: u32,
        most: u32,
    },
    /// An entry of a list that isn't above the one before it.
    Falls {
        slice: &'static str,
        at: usize,
        is: u32,
        before: u32,
    },
    /// A list of fewer beats than a tempo track has.
    TooFew {
        slice: &'static str,
        lent: usize,
    },
    /// A beat or frame that isn't after the one before it.
    Unordered {
        slice: &'static str,
        at: usize,
        is: u32,
        before: u32,
        what: &'static str,
    },
    /// A beat that comes too long after the one before it, in microseconds.
    Late {
        slice: &'static str,
        at: usize,
        gap: u64,
    },
    /// A file of no tempo track's length.
    Bytes {
        slice: &'static str,
        lent: usize,
    },
    /// A byte of a file that is another in every tempo track of its length.
    Byte {
        slice: &'static str,
        at: usize,
        is: u8,
        needed: u8,
    },
    /// A tempo of 0.
    NoTempo {
        slice: &'static str,
        event: usize,
    },
    /// A byte of a label track that isn't of the form; none where the text ends too soon.
    Line {
        slice: &'static str,
        at: usize,
        is: Option<u8>,
        needed: &'static str,
        line: usize,
    },
    /// A cue chunk of no length that one has.
    Points {
        slice: &'static str,
        lent: usize,
    },
    /// A time of a label track that is no frame's.
    NoTime {
        slice: &'static str,
        line: usize,
        rate: u32,
    },
    /// An offset of a cue chunk that is no frame's.
    NoOffset {
        slice: &'static str,
        point: usize,
        is: u32,
    },
    /// A label or a cue point whose frame isn't after that of the one before it.
    Backward {
        slice: &'static str,
        part: &'static str,
        at: usize,
        is: u32,
        before: u32,
    },
    /// A list of peaks that points past its curve.
    Past {
        slice: &'static str,
        at: usize,
        is: u32,
        curve: usize,
    },
    /// Rows of another number of values.
    Rows {
        slice: &'static str,
        lent: usize,
        rows: usize,
        width: usize,
    },
    /// An input that isn't as long as another.
    Unlike {
        slice: &'static str,
        lent: usize,
        needed: usize,
        other: &'static str,
    },
    /// A count of feature rows that the samples don't have.
    Stretches {
        is: usize,
        needed: usize,
        samples: usize,
        length: u64,
    },
    /// New rows that aren't whole.
    Broken {
        slice: &'static str,
        lent: usize,
        width: usize,
    },
    /// New rows that run past the last.
    Runs {
        slice: &'static str,
        count: usize,
        start: usize,
        rows: usize,
    },
    /// A slice that is too short; `whole` where it is one of `Buffers`.
    Room {
        slice: &'static str,
        lent: usize,
        needed: usize,
        whole: bool,
    },
    /// A value of a slice, and what is taken.
    Value {
        slice: &'static str,
        at: usize,
        is: f64,
        taken: Taken,
    },
    /// A value that is lent alone.
    Alone {
        name: &'static str,
        is: f64,
        taken: Taken,
    },
    /// Rows that aren't those that the buffers analysed last.
    Analysed {
        rows: usize,
        bins: usize,
        last: (usize, usize),
    },
    /// Buffers that have analysed no magnitudes, or an envelope since.
    NoRows,
}

/// What values are taken.
#[derive(Clone, Copy)]
pub enum Taken {
    Magnitudes,
    /// Magnitudes of which none is below 0.
    Strengths,
    Samples,
    Values,
    Similarities,
}

impl Taken {
    fn takes(self, value: f64) -> bool {
        let most = match self {
            Taken::Magnitudes => f64::from(limits::MOST_MAGNITUDE),
            Taken::Strengths => return (0.0..=f64::from(limits::MOST_MAGNITUDE)).contains(&value),
            Taken::Samples => f64::MAX,
            Taken::Values => limits::MOST_VALUE,
            Taken::Similarities => 1.0,
        };
        value.abs() <= most
    }
}

/// The search for a detail.
pub struct Why {
    refusal: Refusal,
    detail: Detail,
}

impl Why {
    pub fn of(refusal: Refusal) -> Why {
        Why { refusal, detail: Detail::Unknown }
    }

    pub fn found(self) -> Detail {
        self.detail
    }

    // what `look` finds, where this is the reason and nothing has been found before
    fn or(self, reason: Refusal, look: impl FnOnce() -> Option<Detail>) -> Why {
        match self.detail {
            Detail::Unknown if self.refusal == reason => Why { detail: look().unwrap_or(Detail::Unknown), ..self },
            _ => self,
        }
    }

    // ---- number 1

    pub fn number(self, name: &'static str, is: u64, least: u64, most: u64) -> Why {
        let outside = !(least..=most).contains(&is);
        self.or(Refusal::OutOfBounds, || outside.then_some(Detail::Number { name, is, least, most }))
    }

    pub fn rate(self, rate: u32) -> Why {
        self.number("rate", rate.into(), 1, limits::MOST_RATE.into())
    }

    pub fn meter(self, opts: TempoOpts) -> Why {
        self.number("meter", opts.meter as u64, 1, limits::MOST_METER as u64)
    }

    pub fn slots(self, slice: &'static str, lent: usize, most: usize) -> Why {
        self.or(Refusal::OutOfBounds, || (lent > most).then_some(Detail::TooMany { slice, lent, most }))
    }

    // an envelope, a flux or a curve
    pub fn frames(self, slice: &'static str, lent: usize) -> Why {
        self.slots(slice, lent, limits::MOST_ROWS)
    }

    pub fn some(self, slice: &'static str, lent: usize) -> Why {
        self.or(Refusal::OutOfBounds, || (lent == 0).then_some(Detail::Empty { slice }))
    }

    pub fn entries(self, slice: &'static str, list: &[u32], most: u32) -> Why {
        self.or(Refusal::OutOfBounds, || {
            let at = list.iter().position(|&is| is > most)?;
            Some(Detail::Entry { slice, at, is: list[at], most })
        })
    }

    pub fn peaks(self, slice: &'static str, list: &[u32], curve: usize) -> Why {
        self.or(Refusal::OutOfBounds, || {
            let at = (0..list.len()).find(|&at| list[at] as usize >= curve || at > 0 && list[at] <= list[at - 1])?;
            Some(if list[at] as usize >= curve {
                Detail::Past { slice, at, is: list[at], curve }
            } else {
                Detail::Falls { slice, at, is: list[at], before: list[at - 1] }
            })
        })
    }

    // ---- numbers 6, 7 and 8

    pub fn grid(self, slice: &'static str, beats: &[u32]) -> Why {
        self.or(Refusal::WrongGrid, || {
            if beats.len() < 2 {
                return Some(Detail::TooFew { slice, lent: beats.len() });
            }
            let at = 1 + beats.windows(2).position(|pair| pair[1] <= pair[0])?;
            Some(Detail::Unordered { slice, at, is: beats[at], before: beats[at - 1], what: "beats" })
        })
    }

    pub fn gaps(self, slice: &'static str, beats: &[u32], rate: u32) -> Why {
        self.or(Refusal::GapTooLong, || {
            let rate = u64::from(rate).max(1);
            // half up, as the call has it
            let time = |beat: u32| ((256 * u64::from(beat) + 512) * 2_000_000 + rate) / (2 * rate);
            let gap = |pair: &[u32]| time(pair[1]).saturating_sub(time(pair[0]));
            let at = 1 + beats.windows(2).position(|pair| gap(pair) > limits::MOST_TEMPO.into())?;
            Some(Detail::Late { slice, at, gap: gap(&beats[at - 1..=at]) })
        })
    }

    pub fn tempo_track(self, slice: &'static str, file: &[u8]) -> Why {
        self.or(Refusal::OtherShape, || {
            let (bytes, count) = (file.len(), rooms::tempo_gaps(file.len()));
            if count == 0 || bytes != 26 + 7 * count {
                return Some(Detail::Bytes { slice, lent: bytes });
            }
            let unlike = |&at: &usize| shape(at, bytes).is_some_and(|needed| needed != file[at]);
            if let Some(at) = (0..bytes).find(unlike) {
                return Some(Detail::Byte { slice, at, is: file[at], needed: shape(at, bytes)? });
            }
            let event = (0..count).find(|k| file[26 + 7 * k..][..3] == [0; 3])?;
            Some(Detail::NoTempo { slice, event })
        })
    }

    // ---- numbers 9, 10 and 11, and 1 of a list

    // frames that are lent as a grid
    pub fn listed(self, slice: &'static str, frames: &[u32]) -> Why {
        self.entries(slice, frames, limits::MOST_FRAME).or(Refusal::NotAscending, || {
            let at = 1 + frames.windows(2).position(|pair| pair[1] <= pair[0])?;
            Some(Detail::Unordered { slice, at, is: frames[at], before: frames[at - 1], what: "frames" })
        })
    }

    pub fn labels(self, slice: &'static str, text: &[u8], rate: u32) -> Why {
        let frames = || shapes::times(text).map(|time| shapes::frame_of(time, rate));
        let why = self.or(Refusal::NotOfThisForm, || {
            let shapes::Misfit { at, line, needed } = shapes::misfit(text)?;
            Some(Detail::Line { slice, at, is: text.get(at).copied(), needed, line })
        });
        let why = why.or(Refusal::NoListedFrame, || {
            let line = 1 + frames().position(|frame| frame.is_none())?;
            Some(Detail::NoTime { slice, line, rate })
        });
        why.or(Refusal::NotAscending, || backward(slice, "line", frames().flatten()))
    }

    pub fn cues(self, slice: &'static str, chunk: &[u8]) -> Why {
        let why = self.or(Refusal::NotOfThisForm, || {
            if chunk.len() < 12 || (chunk.len() - 12) % 24 != 0 {
                return Some(Detail::Points { slice, lent: chunk.len() });
            }
            let unlike = |&at: &usize| shapes::chunk_byte(chunk, at).is_some_and(|needed| needed != chunk[at]);
            let at = (0..chunk.len()).find(unlike)?;
            Some(Detail::Byte { slice, at, is: chunk[at], needed: shapes::chunk_byte(chunk, at)? })
        });
        let why = why.or(Refusal::NoListedFrame, || {
            let (at, is) = shapes::offsets(chunk).enumerate().find(|&(_, is)| shapes::frame_at(is).is_none())?;
            Some(Detail::NoOffset { slice, point: at + 1, is })
        });
        why.or(Refusal::NotAscending, || backward(slice, "point", shapes::offsets(chunk).filter_map(shapes::frame_at)))
    }

    // ---- numbers 1 and 2

    pub fn magnitude_rows(self, slice: &'static str, lent: usize, rows: usize, bins: usize) -> Why {
        let why = self.number("rows", rows as u64, 0, limits::MOST_ROWS as u64);
        why.number("bins", bins as u64, 1, limits::MOST_BINS as u64).table(slice, lent, rows, bins)
    }

    pub fn feature_rows(self, slice: &'static str, lent: usize, rows: usize, width: usize) -> Why {
        self.number("rows", rows as u64, 0, limits::MOST_FEATURE_ROWS as u64).table(slice, lent, rows, width)
    }

    // as many as the samples have
    pub fn feature_count(self, count: usize, samples: usize, length: u64) -> Why {
        let needed = rooms::feature_count(samples, length);
        let why = self.number("count", count as u64, 0, limits::MOST_FEATURE_ROWS as u64);
        why.or(Refusal::OutOfBounds, || {
            (count != needed).then_some(Detail::Stretches { is: count, needed, samples, length })
        })
    }

    pub fn table(self, slice: &'static str, lent: usize, rows: usize, width: usize) -> Why {
        let whole = rows.checked_mul(width) == Some(lent);
        self.or(Refusal::WrongLength, || (!whole).then_some(Detail::Rows { slice, lent, rows, width }))
    }

    pub fn new_rows(self, slice: &'static str, lent: usize, start: usize, rows: usize, width: usize) -> Why {
        self.number("start", start as u64, 0, rows as u64).or(Refusal::WrongLength, || {
            if width == 0 || lent % width != 0 {
                return Some(Detail::Broken { slice, lent, width });
            }
            let count = lent / width;
            (count > rows.saturating_sub(start)).then_some(Detail::Runs { slice, count, start, rows })
        })
    }

    pub fn of_length(self, slice: &'static str, lent: usize, other: &'static str, needed: usize) -> Why {
        self.or(Refusal::WrongLength, || (lent != needed).then_some(Detail::Unlike { slice, lent, needed, other }))
    }

    // ---- number 3

    pub fn room(self, slice: &'static str, lent: usize, needed: usize) -> Why {
        self.short(slice, lent, needed, false)
    }

    fn short(self, slice: &'static str, lent: usize, needed: usize, whole: bool) -> Why {
        self.or(Refusal::TooLittleRoom, || (lent < needed).then_some(Detail::Room { slice, lent, needed, whole }))
    }

    // three slices of a lag each; what that comes to is asked where it matters
    pub fn lag_curves(self, rate: u32, opts: TempoOpts, lent: [Named; 3]) -> Why {
        let lags = rooms::lags(rate, opts).unwrap_or(0);
        lent.into_iter().fold(self, |why, (slice, slots)| why.room(slice, slots, lags))
    }

    // slices of `Buffers`: those of a row, of a lag, and to work in
    pub fn track(
        self,
        (rows, rate, opts): (usize, u32, TempoOpts),
        of_rows: &[Named],
        of_lags: &[Named],
        work: usize,
    ) -> Why {
        let Ok(room) = rooms::Track::of(rows, rate, opts) else { return self };
        let why = of_rows.iter().fold(self, |why, &(slice, lent)| why.short(slice, lent, room.rows, true));
        let why = of_lags.iter().fold(why, |why, &(slice, lent)| why.short(slice, lent, room.lags, true));
        why.short("work", work, room.sorting, true)
    }

    // ---- number 4

    pub fn value(self, name: &'static str, is: f64) -> Why {
        let taken = Taken::Values;
        self.or(Refusal::WrongValue, || (!taken.takes(is)).then_some(Detail::Alone { name, is, taken }))
    }

    pub fn values(self, slice: &'static str, lent: &[f64]) -> Why {
        self.first(slice, lent.iter().copied(), Taken::Values)
    }

    pub fn magnitudes(self, slice: &'static str, lent: &[f32]) -> Why {
        self.first(slice, lent.iter().map(|&x| f64::from(x)), Taken::Magnitudes)
    }

    pub fn strengths(self, slice: &'static str, lent: &[f32]) -> Why {
        self.first(slice, lent.iter().map(|&x| f64::from(x)), Taken::Strengths)
    }

    pub fn samples(self, slice: &'static str, lent: &[f32]) -> Why {
        self.first(slice, lent.iter().map(|&x| f64::from(x)), Taken::Samples)
    }

    pub fn similarities(self, slice: &'static str, lent: &[f64]) -> Why {
        self.first(slice, lent.iter().copied(), Taken::Similarities)
    }

    fn first(self, slice: &'static str, lent: impl Iterator<Item = f64>, taken: Taken) -> Why {
        self.or(Refusal::WrongValue, || {
            let (at, is) = lent.enumerate().find(|&(_, is)| !taken.takes(is))?;
            Some(Detail::Value { slice, at, is, taken })
        })
    }
}

// the first of a label track's or cue chunk's frames that isn't after the one before it
fn backward(slice: &'static str, part: &'static str, frames: impl Iterator<Item = u32>) -> Option<Detail> {
    let mut last = None;
    for (k, is) in frames.enumerate() {
        match last.replace(is) {
            Some(before) if is <= before => return Some(Detail::Backward { slice, part, at: k + 1, is, before }),
            _ => {}
        }
    }
    None
}

// the byte that each tempo track of so many bytes has in this place; none where it is one of a tempo
fn shape(at: usize, bytes: usize) -> Option<u8> {
    const FRONT: [u8; 18] = *b"MThd\0\0\0\x06\0\0\0\x01\0\x60MTrk";
    const END: [u8; 4] = [96, 255, 47, 0];
    match at {
        0..=17 => Some(FRONT[at]),
        18..=21 => u32::try_from(bytes - 22).ok().map(|length| length.to_be_bytes()[at - 18]),
        _ if at >= bytes - 4 => Some(END[at + 4 - bytes]),
        22 => Some(0),
        _ => [Some(96), Some(255), Some(81), Some(3), None, None, None][(at - 22) % 7],
    }
}

/// A count with a comma at each thousand.
struct Count(u64);

impl fmt::Display for Count {
    fn fmt(&self, f: &mut fmt::Formatter<'_>) -> fmt::Result {
        if self.0 < 1_000 {
            return write!(f, "{}", self.0);
        }
        write!(f, "{},{:03}", Count(self.0 / 1_000), self.0 % 1_000)
    }
}

fn count(number: usize) -> Count {
    Count(number as u64)
}

/// So many things of a name.
struct Many(usize, &'static str);

impl fmt::Display for Many {
    fn fmt(&self, f: &mut fmt::Formatter<'_>) -> fmt::Result {
        write!(f, "{} {}{}", count(self.0), self.1, if self.0 == 1 { "" } else { "s" })
    }
}

impl fmt::Display for Taken {
    fn fmt(&self, f: &mut fmt::Formatter<'_>) -> fmt::Result {
        f.write_str(match self {
            Taken::Magnitudes => "a value is finite and at most 2^126 in size",
            Taken::Strengths => "a magnitude is 0 to 2^126",
            Taken::Samples => "a sample is finite",
            Taken::Values => "a value is finite and at most 2^150 in size",
            Taken::Similarities => "a similarity is -1 to 1",
        })
    }
}

impl fmt::Display for Detail {
    fn fmt(&self, f: &mut fmt::Formatter<'_>) -> fmt::Result {
        match *self {
            Detail::Unknown => Ok(()),
            Detail::Number { name, is, least, most } => {
                write!(f, "{name} {}, {} to {}", Count(is), Count(least), Count(most))
            }
            Detail::TooMany { slice, lent, most } => {
                write!(f, "{slice}: {} lent, at most {}", Many(lent, "slot"), count(most))
            }
            Detail::Empty { slice } => write!(f, "{slice}: no value lent, at least one needed"),
            Detail::Entry { slice, at, is, most } => {
                write!(f, "{slice}[{at}] is {}, at most {}", Count(is.into()), Count(most.into()))
            }
            Detail::Falls { slice, at, is, before } => {
                let (is, before) = (Count(is.into()), Count(before.into()));
                write!(f, "{slice}[{at}] is {is} and the one before it {before}: a list of peaks ascends")
            }
            Detail::TooFew { slice, lent } => write!(f, "{slice}: {} lent, at least two needed", Many(lent, "beat")),
            Detail::Unordered { slice, at, is, before, what } => {
                let (is, before) = (Count(is.into()), Count(before.into()));
                write!(f, "{slice}[{at}] is {is} and the one before it {before}: {what} ascend")
            }
            Detail::Late { slice, at, gap } => {
                let most = Count(limits::MOST_TEMPO.into());
                write!(f, "{slice}[{at}] is {} microseconds after the one before it, at most {most}", Count(gap))
            }
            Detail::Bytes { slice, lent } => {
                write!(f, "{slice}: {} lent, 26 and 7 for each gap needed, one at least", Many(lent, "byte"))
            }
            Detail::Byte { slice, at, is, needed } => write!(f, "{slice}[{at}] is {is}, {needed} needed"),
            Detail::NoTempo { slice, event } => write!(f, "{slice}: tempo {} of it is 0", count(event + 1)),
            Detail::Line { slice, at, is: Some(is), needed, line } => {
                write!(f, "{slice}[{at}] is {is}, {needed} needed: line {}", count(line))
            }
            Detail::Line { slice, needed, line, .. } => {
                write!(f, "{slice} ends here, {needed} needed: line {}", count(line))
            }
            Detail::Points { slice, lent } => {
                write!(f, "{slice}: {} lent, 12 and 24 for each point needed", Many(lent, "byte"))
            }
            Detail::NoTime { slice, line, rate } => {
                let (line, most, rate) = (count(line), Count(limits::MOST_FRAME.into()), Count(rate.into()));
                write!(f, "{slice}: the time of line {line} is that of no frame up to {most} at rate {rate}")
            }
            Detail::NoOffset { slice, point, is } => {
                let (point, is, most) = (count(point), Count(is.into()), Count(limits::MOST_FRAME.into()));
                write!(
                    f,
                    "{slice}: the offset of point {point} is {is}, which is 256 t + 512 for no frame t up to {most}"
                )
            }
            Detail::Backward { slice, part, at, is, before } => {
                let (is, before) = (Count(is.into()), Count(before.into()));
                write!(f, "{slice}: {part} {} is frame {is} and the one before it {before}: frames ascend", count(at))
            }
            Detail::Past { slice, at, is, curve } => {
                write!(f, "{slice}[{at}] is {}, past its curve of {}", Count(is.into()), Many(curve, "slot"))
            }
            Detail::Rows { slice, lent, rows, width } => {
                let (needed, rows, width) = (count(rows.saturating_mul(width)), Many(rows, "row"), count(width));
                write!(f, "{slice}: {} lent, {needed} needed: {rows} of {width}", Many(lent, "value"))
            }
            Detail::Unlike { slice, lent, needed, other } => {
                write!(f, "{slice}: {} lent, {} needed, as many as {other} has", Many(lent, "slot"), count(needed))
            }
            Detail::Stretches { is, needed, samples, length } => {
                let (is, needed, length) = (count(is), count(needed), Count(length));
                write!(f, "count {is}, {needed} needed: {}, {length} a row", Many(samples, "sample"))
            }
            Detail::Broken { slice, lent, width } => {
                write!(f, "{slice}: {} lent, whole rows of {} needed", Many(lent, "value"), count(width))
            }
            Detail::Runs { slice, count: new, start, rows } => {
                let left = count(rows.saturating_sub(start));
                write!(
                    f,
                    "{slice}: {} lent, {left} of {} left from row {} on",
                    Many(new, "row"),
                    count(rows),
                    count(start)
                )
            }
            Detail::Room { slice, lent, needed, whole } => {
                write!(f, "{slice}: {} lent, {} needed", Many(lent, "slot"), count(needed))?;
                f.write_str(if whole {
                    "; Buffers::for_tracks of as many rows, this rate and these options has them"
                } else {
                    ""
                })
            }
            Detail::Value { slice, at, is, taken } => write!(f, "{slice}[{at}] is {is:?}: {taken}"),
            Detail::Alone { name, is, taken } => write!(f, "{name} is {is:?}: {taken}"),
            Detail::Analysed { rows, bins, last } => {
                let [r, b, last_r, last_b] = [rows, bins, last.0, last.1].map(count);
                write!(f, "{r} rows of {b} bins lent, and these buffers analysed {last_r} rows of {last_b} last")
            }
            Detail::NoRows => f.write_str("these buffers hold the flux of no rows: analyse_magnitudes comes first"),
        }
    }
}
