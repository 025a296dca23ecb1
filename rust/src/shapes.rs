//! What a label track and a cue chunk look like: to tell what in one isn't of the form, once a call has refused.
use crate::limits;

/// A frame's time in microseconds: exact, half up, as the calls have it.
pub fn microseconds(frame: u32, rate: u32) -> u64 {
    let rate = u64::from(rate).max(1);
    ((256 * u64::from(frame) + 512) * 2_000_000 + rate) / (2 * rate)
}

/// Bytes of the label track of these frames: two times of some digits, a point and six decimals, and what stands around them.
pub fn label_bytes(frames: impl Iterator<Item = u32>, rate: u32) -> usize {
    let digits = |frame| (microseconds(frame, rate) / 1_000_000).checked_ilog10().unwrap_or(0) as usize + 1;
    frames.map(|frame| 2 * digits(frame) + 21).sum()
}

/// How many lines a label track has.
pub fn lines(text: &[u8]) -> usize {
    text.iter().filter(|&&byte| byte == b'\n').count()
}

/// The first byte of a label track that isn't of the form, with its line and what it should be.
pub struct Misfit {
    pub at: usize,
    pub line: usize,
    pub needed: &'static str,
}

/// Where a label track leaves the form.
pub fn misfit(text: &[u8]) -> Option<Misfit> {
    let (mut at, mut line) = (0, 1);
    while at < text.len() {
        at = match line_of(text, at) {
            Ok((_, past)) => past,
            Err((at, needed)) => return Some(Misfit { at, line, needed }),
        };
        line += 1;
    }
    None
}

// the time of the line that begins here, and where it ends; or the byte that isn't of the form, and what it should be
fn line_of(text: &[u8], begin: usize) -> Result<(u64, usize), (usize, &'static str)> {
    let is = |at: usize, fine: fn(&u8) -> bool| text.get(at).is_some_and(fine);
    let digit = |at: usize| is(at, u8::is_ascii_digit);
    if !digit(begin) {
        return Err((begin, "a digit"));
    }
    // a zero in front stands alone
    let zero = text[begin] == b'0';
    let point = if zero { begin + 1 } else { (begin..).find(|&at| !digit(at)).unwrap_or(begin) };
    if text.get(point) != Some(&b'.') {
        return Err((point, if zero { "a point" } else { "a digit or a point" }));
    }
    let past = point + 7;
    if let Some(at) = (point + 1..past).find(|&at| !digit(at)) {
        return Err((at, "a digit"));
    }
    // what stands behind the first time, part by part
    let start = &text[begin..past];
    let mut end = past;
    let parts: [(&[u8], _); 5] = [
        (b"\t", "a tab"),
        (start, "the start again"),
        (b"\t", "a tab"),
        (b"beat", "the word beat"),
        (b"\n", "a line feed"),
    ];
    for (part, needed) in parts {
        if let Some(k) = (0..part.len()).find(|&k| text.get(end + k) != Some(&part[k])) {
            return Err((end + k, needed));
        }
        end += part.len();
    }
    // a number that is too large for sixty-four bits is no frame's time, like the greatest that is not
    let digits = start.iter().filter(|byte| byte.is_ascii_digit());
    let time = digits.fold(0_u64, |time, byte| time.saturating_mul(10).saturating_add(u64::from(byte - b'0')));
    Ok((time, end))
}

/// The times of a label track that is of the form.
pub fn times(text: &[u8]) -> impl Iterator<Item = u64> + '_ {
    let mut at = 0;
    std::iter::from_fn(move || {
        let (time, past) = if at < text.len() { line_of(text, at).ok()? } else { return None };
        at = past;
        Some(time)
    })
}

/// The one listed frame that has a time at a rate, if any: no two share a microsecond.
pub fn frame_of(time: u64, rate: u32) -> Option<u32> {
    let (mut low, mut high) = (0, limits::MOST_FRAME);
    while low < high {
        let middle = low + (high - low) / 2;
        if microseconds(middle, rate) < time {
            low = middle + 1;
        } else {
            high = middle;
        }
    }
    (microseconds(low, rate) == time).then_some(low)
}

// ---- cue chunks

/// The byte that each chunk of so many bytes has in this place, but for an offset: its is the position's.
pub fn chunk_byte(chunk: &[u8], at: usize) -> Option<u8> {
    let low = |number: usize, k: usize| u32::try_from(number).ok().map(|number| number.to_le_bytes()[k]);
    let (bytes, field) = (chunk.len(), at.saturating_sub(12) % 24);
    match at {
        0..=3 => Some(b"cue "[at]),
        4..=7 => low(bytes - 8, at - 4),
        8..=11 => low((bytes - 12) / 24, at - 8),
        _ => match field {
            0..=3 => low((at - 12) / 24 + 1, field),
            4..=7 => None,
            8..=11 => Some(b"data"[field - 8]),
            12..=19 => Some(0),
            _ => Some(chunk[at - 16]),
        },
    }
}

/// The sample offsets of a chunk, one a point.
pub fn offsets(chunk: &[u8]) -> impl Iterator<Item = u32> + '_ {
    let points = chunk.get(12..).unwrap_or(&[]).chunks_exact(24);
    points.map(|point| u32::from_le_bytes([point[20], point[21], point[22], point[23]]))
}

/// The listed frame of an offset, if any.
pub fn frame_at(offset: u32) -> Option<u32> {
    let beyond = offset.checked_sub(512)?;
    let frame = beyond / limits::HOP;
    (beyond % limits::HOP == 0 && frame <= limits::MOST_FRAME).then_some(frame)
}
