//! Label tracks and cue chunks, by document 02, No. 6, written down from its words alone: the Rust of docs/src has none of them.
//!
//! "start, tab, end, tab, the word beat, line feed, both times equal, seconds with no needless zeros in front and six decimals rounded half up";
//! "id, size, count, then 24 bytes a point, name from 1 upward, position and sample offset both 256t + 512, chunk id data, the other two fields 0".
//! The writers are made of these words. The readers take an input apart as any reader of such files does, line by line and field by field, and
//! a time is a frame's where its text is the frame's own, so that no number is made of digits that may be any number.
use crate::formats::microseconds;
use crate::table::MOST_FRAME;

/// A frame's time as a label has it.
fn seconds(frame: u32, rate: u64) -> String {
    let time = microseconds(frame, rate);
    format!("{}.{:06}", time / 1_000_000, time % 1_000_000)
}

/// The label track of frames.
pub fn labels(frames: &[u32], rate: u64) -> Vec<u8> {
    let line = |&frame: &u32| format!("{0}\t{0}\tbeat\n", seconds(frame, rate));
    frames.iter().map(line).collect::<String>().into_bytes()
}

/// The cue chunk of frames.
pub fn cues(frames: &[u32]) -> Vec<u8> {
    let offsets: Vec<u32> = frames.iter().map(|frame| 256 * frame + 512).collect();
    chunk(&offsets)
}

/// A chunk of any offsets.
pub fn chunk(offsets: &[u32]) -> Vec<u8> {
    let count = offsets.len() as u32;
    let mut body = count.to_le_bytes().to_vec();
    for (name, offset) in (1_u32..).zip(offsets) {
        for field in [name.to_le_bytes(), offset.to_le_bytes(), *b"data", [0; 4], [0; 4], offset.to_le_bytes()] {
            body.extend(field);
        }
    }
    [&b"cue "[..], &(body.len() as u32).to_le_bytes(), &body].concat()
}

/// What is in an input that is of the form: of each label or point the frame that it names, if any.
pub type Named = Vec<Option<u32>>;

/// A label track's, or none for "a line .. not of this form".
pub fn named_in_labels(text: &[u8], rate: u64) -> Option<Named> {
    let Some((b'\n', lines)) = text.split_last() else { return text.is_empty().then(Vec::new) };
    lines.split(|&byte| byte == b'\n').map(|line| label(line).map(|start| frame_at(start, rate))).collect()
}

// the start of a line, as it is written
fn label(line: &[u8]) -> Option<&str> {
    let [start, end, word] = line.split(|&byte| byte == b'\t').collect::<Vec<_>>()[..] else { return None };
    let (whole, decimals) = std::str::from_utf8(start).ok()?.split_once('.')?;
    let digits = |part: &str| !part.is_empty() && part.bytes().all(|byte| byte.is_ascii_digit());
    let plain = digits(whole) && (whole == "0" || !whole.starts_with('0'));
    (plain && digits(decimals) && decimals.len() == 6 && start == end && word == b"beat").then_some(std::str::from_utf8(start).ok()?)
}

// "a time .. that is no listed frame's": the frames about it are asked for theirs
fn frame_at(start: &str, rate: u64) -> Option<u32> {
    // nine digits of seconds at most: the last frame's at a rate of 1
    if start.len() > 9 + 7 {
        return None;
    }
    let time: u64 = start.replace('.', "").parse().unwrap();
    let sample = u128::from(time) * u128::from(rate) / 1_000_000;
    let about = u64::try_from(sample / 256).unwrap();
    (about.saturating_sub(4)..=about + 1)
        .filter_map(|frame| u32::try_from(frame).ok())
        .find(|&frame| frame <= MOST_FRAME && seconds(frame, rate) == start)
}

/// A cue chunk's, or none for a "chunk not of this form".
pub fn named_in_cues(chunk: &[u8]) -> Option<Named> {
    let (mut rest, mut named) = (chunk, vec![]);
    let mut take = || {
        let (field, left) = rest.split_first_chunk::<4>()?;
        rest = left;
        Some(*field)
    };
    let number = u32::from_le_bytes;
    let is = |fine: bool| fine.then_some(());
    is(take()? == *b"cue ")?;
    let (size, count) = (number(take()?), number(take()?));
    is(size as usize == chunk.len() - 8)?;
    for k in 0..count {
        let [name, position, id, start, block, offset] = [take()?, take()?, take()?, take()?, take()?, take()?];
        is(number(name) == k + 1 && position == offset && id == *b"data" && number(start) == 0 && number(block) == 0)?;
        let beyond = i64::from(number(offset)) - 512;
        named.push(u32::try_from(beyond).ok().filter(|beyond| beyond % 256 == 0).map(|beyond| beyond / 256).filter(|&t| t <= MOST_FRAME));
    }
    rest.is_empty().then_some(named)
}
