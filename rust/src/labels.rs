//! Files: the grid as an Audacity label track and as a cue chunk of a RIFF WAVE file, back, and from one to the other.
use crate::why::Why;
use crate::{ffi, limits, rooms, shapes, Refused};

// what a call told that lists: its number, and the count where it answered
fn counted(
    call: &'static str,
    (number, count): (u32, usize),
    explain: impl FnOnce(Why) -> Why,
) -> Result<usize, Refused> {
    Refused::unless_answered(call, number, explain)?;
    Ok(count)
}

/// How many bytes the label track of these frames has at this rate: 2 d + 21 for a frame whose time has d digits of seconds, which is 23
/// below ten seconds and 39 at most ([`rooms::labels`](crate::rooms::labels)).
///
/// Refuses, in this order, [`OutOfBounds`](crate::Refusal::OutOfBounds) (the rate, a frame above 1,048,575) and
/// [`NotAscending`](crate::Refusal::NotAscending).
///
/// ```
/// # use prohunsev::*;
/// assert_eq!(labels_room(&[0, 94, 1_874], 48_000)?, 23 + 23 + 25); // 10.005333 seconds have two digits
/// # Ok::<(), Refused>(())
/// ```
pub fn labels_room(frames: &[u32], rate: u32) -> Result<usize, Refused> {
    let mut count = 0;
    // SAFETY: the pointers and the length are those of a borrowed slice and a local (the reason in lib.rs)
    let number = unsafe { ffi::ph_labels_room(frames.as_ptr(), frames.len(), rate, &mut count) };
    counted("labels_room", (number, count), |why| why.rate(rate).listed("frames", frames))
}

/// The frames as an Audacity label track: for each a line of start, tab, end, tab, the word `beat` and a line feed.
/// `std::fs::write("track.txt", ..)` makes a file of it, which Audacity imports.
///
/// Both times are the frame's, (256 t + 512) / rate seconds, exact, rounded half up to six decimals. No frames are no bytes. This one
/// allocates what it answers; [`write_labels_into`] writes into bytes of yours.
/// Refuses, in this order, [`OutOfBounds`](crate::Refusal::OutOfBounds) (the rate, a frame above 1,048,575) and
/// [`NotAscending`](crate::Refusal::NotAscending).
///
/// ```
/// # use prohunsev::*;
/// let text = write_labels(&[0, 94], 48_000)?;
/// assert_eq!(text, b"0.010667\t0.010667\tbeat\n0.512000\t0.512000\tbeat\n");
/// assert_eq!(read_labels(&text, 48_000)?, [0, 94]);
/// assert_eq!(write_labels(&[94, 94], 48_000).unwrap_err(), Refusal::NotAscending);
/// # Ok::<(), Refused>(())
/// ```
pub fn write_labels(frames: &[u32], rate: u32) -> Result<Vec<u8>, Refused> {
    let mut text = vec![0; rooms::labels(frames.len())];
    let count = write_labels_of("write_labels", frames, rate, &mut text)?;
    text.truncate(count);
    Ok(text)
}

/// [`write_labels`] into bytes that are lent, without allocating. Answers how many bytes the text has; those behind it are unchanged.
///
/// Room: [`labels_room`] bytes of `text`. Refuses as [`write_labels`] does, and last [`TooLittleRoom`](crate::Refusal::TooLittleRoom).
///
/// ```
/// # use prohunsev::*;
/// let mut text = [7; 24];
/// assert_eq!(write_labels_into(&[94], 48_000, &mut text)?, 23);
/// assert_eq!(text[..], *b"0.512000\t0.512000\tbeat\n\x07"); // the byte behind the text is unchanged
/// assert_eq!(write_labels_into(&[94], 48_000, &mut text[..22]).unwrap_err(), Refusal::TooLittleRoom);
/// # Ok::<(), Refused>(())
/// ```
pub fn write_labels_into(frames: &[u32], rate: u32, text: &mut [u8]) -> Result<usize, Refused> {
    write_labels_of("write_labels_into", frames, rate, text)
}

fn write_labels_of(call: &'static str, frames: &[u32], rate: u32, text: &mut [u8]) -> Result<usize, Refused> {
    let mut count = 0;
    // SAFETY: the pointers and lengths are those of borrowed slices and a local (the reason in lib.rs)
    let number =
        unsafe { ffi::ph_write_labels(frames.as_ptr(), frames.len(), rate, text.as_mut_ptr(), text.len(), &mut count) };
    counted(call, (number, count), |why| {
        let needed = shapes::label_bytes(frames.iter().copied(), rate);
        why.rate(rate).listed("frames", frames).room("text", text.len(), needed)
    })
}

/// The frames of a label track that [`write_labels`] wrote at this rate.
///
/// It takes exactly that form: a text that is read is, byte for byte, the text written for these frames. Any bytes may be lent. This one
/// allocates what it answers; [`read_labels_into`] writes into slots of yours.
/// Refuses, in this order and each of the whole text, [`OutOfBounds`](crate::Refusal::OutOfBounds) (the rate),
/// [`NotOfThisForm`](crate::Refusal::NotOfThisForm) (a line of another form, though Audacity may read it),
/// [`NoListedFrame`](crate::Refusal::NoListedFrame) (a time that is no frame's at this rate) and
/// [`NotAscending`](crate::Refusal::NotAscending).
///
/// ```
/// # use prohunsev::*;
/// assert_eq!(read_labels(b"0.512000\t0.512000\tbeat\n", 48_000)?, [94]);
/// let refused = read_labels(b"0.512\t0.512\tbeat\n", 48_000).unwrap_err();
/// assert_eq!(refused, Refusal::NotOfThisForm);
/// assert_eq!(refused.to_string(), "read_labels refused with 9: text[5] is 9, a digit needed: line 1");
/// assert_eq!(read_labels(b"0.512000\t0.512000\tbeat\n", 44_100).unwrap_err(), Refusal::NoListedFrame);
/// # Ok::<(), Refused>(())
/// ```
pub fn read_labels(text: &[u8], rate: u32) -> Result<Vec<u32>, Refused> {
    let mut frames = vec![0; rooms::label_frames(text.len())];
    let count = read_labels_of("read_labels", text, rate, &mut frames)?;
    frames.truncate(count);
    Ok(frames)
}

/// [`read_labels`] into slots that are lent, without allocating. Answers how many frames there are; slots behind them are unchanged.
///
/// Room: one slot of `frames` for each line, [`rooms::label_frames`](crate::rooms::label_frames) at most. Refuses as [`read_labels`] does,
/// and last [`TooLittleRoom`](crate::Refusal::TooLittleRoom).
///
/// ```
/// # use prohunsev::*;
/// let mut frames = [7; 3];
/// assert_eq!(read_labels_into(&write_labels(&[0, 94], 48_000)?, 48_000, &mut frames)?, 2);
/// assert_eq!(frames, [0, 94, 7]);
/// # Ok::<(), Refused>(())
/// ```
pub fn read_labels_into(text: &[u8], rate: u32, frames: &mut [u32]) -> Result<usize, Refused> {
    read_labels_of("read_labels_into", text, rate, frames)
}

fn read_labels_of(call: &'static str, text: &[u8], rate: u32, frames: &mut [u32]) -> Result<usize, Refused> {
    let mut count = 0;
    // SAFETY: the pointers and lengths are those of borrowed slices and a local (the reason in lib.rs)
    let number =
        unsafe { ffi::ph_read_labels(text.as_ptr(), text.len(), rate, frames.as_mut_ptr(), frames.len(), &mut count) };
    counted(call, (number, count), |why| {
        why.rate(rate).labels("text", text, rate).room("frames", frames.len(), shapes::lines(text))
    })
}

/// The frames as a cue chunk of a RIFF WAVE file: id, size, count, and for each frame 24 bytes, whose position and sample offset are the
/// frame's centre, 256 t + 512. It is the chunk alone: the file around it is yours, and its sizes.
///
/// A chunk has no rate. This one allocates what it answers; [`write_cues_into`] writes into bytes of yours.
/// Refuses, in this order, [`OutOfBounds`](crate::Refusal::OutOfBounds) (a frame above 1,048,575) and
/// [`NotAscending`](crate::Refusal::NotAscending).
///
/// ```
/// # use prohunsev::*;
/// let chunk = write_cues(&[0, 94])?;
/// assert_eq!(chunk.len(), 60);
/// assert_eq!(chunk[..12], *b"cue \x34\0\0\0\x02\0\0\0");
/// assert_eq!(chunk[12..36], *b"\x01\0\0\0\0\x02\0\0data\0\0\0\0\0\0\0\0\0\x02\0\0");
/// assert_eq!(read_cues(&chunk)?, [0, 94]);
/// # Ok::<(), Refused>(())
/// ```
pub fn write_cues(frames: &[u32]) -> Result<Vec<u8>, Refused> {
    let mut chunk = vec![0; rooms::cues(frames.len())];
    let count = write_cues_of("write_cues", frames, &mut chunk)?;
    chunk.truncate(count);
    Ok(chunk)
}

/// [`write_cues`] into bytes that are lent, without allocating. Answers how many bytes the chunk has; those behind it are unchanged.
///
/// Room: [`rooms::cues`](crate::rooms::cues) bytes of `chunk`. Refuses as [`write_cues`] does, and last
/// [`TooLittleRoom`](crate::Refusal::TooLittleRoom).
///
/// ```
/// # use prohunsev::*;
/// let mut chunk = [7; 14];
/// assert_eq!(write_cues_into(&[], &mut chunk)?, 12);
/// assert_eq!(chunk, *b"cue \x04\0\0\0\0\0\0\0\x07\x07"); // no points, and the bytes behind the chunk are unchanged
/// # Ok::<(), Refused>(())
/// ```
pub fn write_cues_into(frames: &[u32], chunk: &mut [u8]) -> Result<usize, Refused> {
    write_cues_of("write_cues_into", frames, chunk)
}

fn write_cues_of(call: &'static str, frames: &[u32], chunk: &mut [u8]) -> Result<usize, Refused> {
    let mut count = 0;
    // SAFETY: the pointers and lengths are those of borrowed slices and a local (the reason in lib.rs)
    let number =
        unsafe { ffi::ph_write_cues(frames.as_ptr(), frames.len(), chunk.as_mut_ptr(), chunk.len(), &mut count) };
    counted(call, (number, count), |why| {
        why.listed("frames", frames).room("chunk", chunk.len(), rooms::cues(frames.len()))
    })
}

/// The frames of a cue chunk that [`write_cues`] wrote.
///
/// It takes exactly that form: a chunk that is read is, byte for byte, the chunk written for these frames. Any bytes may be lent. This one
/// allocates what it answers; [`read_cues_into`] writes into slots of yours.
/// Refuses, in this order and each of the whole chunk, [`NotOfThisForm`](crate::Refusal::NotOfThisForm) (a chunk of another form, though a
/// player may read it), [`NoListedFrame`](crate::Refusal::NoListedFrame) (an offset that is no frame's) and
/// [`NotAscending`](crate::Refusal::NotAscending).
///
/// ```
/// # use prohunsev::*;
/// let mut chunk = write_cues(&[0, 94])?;
/// chunk[20] = b'D';
/// let refused = read_cues(&chunk).unwrap_err();
/// assert_eq!(refused, Refusal::NotOfThisForm);
/// assert_eq!(refused.to_string(), "read_cues refused with 9: chunk[20] is 68, 100 needed");
/// # Ok::<(), Refused>(())
/// ```
pub fn read_cues(chunk: &[u8]) -> Result<Vec<u32>, Refused> {
    let mut frames = vec![0; rooms::cue_frames(chunk.len())];
    let count = read_cues_of("read_cues", chunk, &mut frames)?;
    frames.truncate(count);
    Ok(frames)
}

/// [`read_cues`] into slots that are lent, without allocating. Answers how many frames there are; slots behind them are unchanged.
///
/// Room: [`rooms::cue_frames`](crate::rooms::cue_frames) slots of `frames`. Refuses as [`read_cues`] does, and last
/// [`TooLittleRoom`](crate::Refusal::TooLittleRoom).
///
/// ```
/// # use prohunsev::*;
/// let mut frames = [7; 3];
/// assert_eq!(read_cues_into(&write_cues(&[0, 94])?, &mut frames)?, 2);
/// assert_eq!(frames, [0, 94, 7]);
/// # Ok::<(), Refused>(())
/// ```
pub fn read_cues_into(chunk: &[u8], frames: &mut [u32]) -> Result<usize, Refused> {
    read_cues_of("read_cues_into", chunk, frames)
}

fn read_cues_of(call: &'static str, chunk: &[u8], frames: &mut [u32]) -> Result<usize, Refused> {
    let mut count = 0;
    // SAFETY: the pointers and lengths are those of borrowed slices and a local (the reason in lib.rs)
    let number =
        unsafe { ffi::ph_read_cues(chunk.as_ptr(), chunk.len(), frames.as_mut_ptr(), frames.len(), &mut count) };
    counted(call, (number, count), |why| {
        why.cues("chunk", chunk).room("frames", frames.len(), rooms::cue_frames(chunk.len()))
    })
}

/// The cue chunk of a label track's frames: what [`write_cues`] writes for what [`read_labels`] reads, with no frames in between. No labels
/// are a chunk of count 0.
///
/// With [`cues_to_labels`] at the same rate it gives back the same bytes, either way. This one allocates what it answers;
/// [`labels_to_cues_into`] writes into bytes of yours. Refuses as [`read_labels`] does.
///
/// ```
/// # use prohunsev::*;
/// let text = b"0.512000\t0.512000\tbeat\n";
/// let chunk = labels_to_cues(text, 48_000)?;
/// assert_eq!(chunk, write_cues(&[94])?);
/// assert_eq!(cues_to_labels(&chunk, 48_000)?, text);
/// # Ok::<(), Refused>(())
/// ```
pub fn labels_to_cues(text: &[u8], rate: u32) -> Result<Vec<u8>, Refused> {
    let mut chunk = vec![0; rooms::cues(rooms::label_frames(text.len()))];
    let count = labels_to_cues_of("labels_to_cues", text, rate, &mut chunk)?;
    chunk.truncate(count);
    Ok(chunk)
}

/// [`labels_to_cues`] into bytes that are lent, without allocating. Answers how many bytes the chunk has; those behind it are unchanged.
///
/// Room: 12 bytes of `chunk`, and 24 for each line ([`rooms::cues`](crate::rooms::cues)). Refuses as [`read_labels`] does, and last
/// [`TooLittleRoom`](crate::Refusal::TooLittleRoom).
///
/// ```
/// # use prohunsev::*;
/// let mut chunk = [7; 37];
/// assert_eq!(labels_to_cues_into(b"0.512000\t0.512000\tbeat\n", 48_000, &mut chunk)?, 36);
/// assert_eq!(chunk[32..], [0, 96, 0, 0, 7]); // sample 24,576, and the byte behind the chunk is unchanged
/// # Ok::<(), Refused>(())
/// ```
pub fn labels_to_cues_into(text: &[u8], rate: u32, chunk: &mut [u8]) -> Result<usize, Refused> {
    labels_to_cues_of("labels_to_cues_into", text, rate, chunk)
}

fn labels_to_cues_of(call: &'static str, text: &[u8], rate: u32, chunk: &mut [u8]) -> Result<usize, Refused> {
    let mut count = 0;
    // SAFETY: the pointers and lengths are those of borrowed slices and a local (the reason in lib.rs)
    let number =
        unsafe { ffi::ph_labels_to_cues(text.as_ptr(), text.len(), rate, chunk.as_mut_ptr(), chunk.len(), &mut count) };
    counted(call, (number, count), |why| {
        why.rate(rate).labels("text", text, rate).room("chunk", chunk.len(), rooms::cues(shapes::lines(text)))
    })
}

/// The label track of a cue chunk's frames at this rate: what [`write_labels`] writes for what [`read_cues`] reads, with no frames in
/// between. A chunk of count 0 is no labels.
///
/// With [`labels_to_cues`] at the same rate it gives back the same bytes, either way. This one allocates what it answers;
/// [`cues_to_labels_into`] writes into bytes of yours.
/// Refuses, in this order, [`OutOfBounds`](crate::Refusal::OutOfBounds) (the rate), and then as [`read_cues`] does.
///
/// ```
/// # use prohunsev::*;
/// let chunk = write_cues(&[0, 94])?;
/// assert_eq!(cues_to_labels(&chunk, 48_000)?, write_labels(&[0, 94], 48_000)?);
/// assert_eq!(cues_to_labels(&chunk, 0).unwrap_err(), Refusal::OutOfBounds);
/// # Ok::<(), Refused>(())
/// ```
pub fn cues_to_labels(chunk: &[u8], rate: u32) -> Result<Vec<u8>, Refused> {
    let mut text = vec![0; rooms::labels(rooms::cue_frames(chunk.len()))];
    let count = cues_to_labels_of("cues_to_labels", chunk, rate, &mut text)?;
    text.truncate(count);
    Ok(text)
}

/// [`cues_to_labels`] into bytes that are lent, without allocating. Answers how many bytes the text has; those behind it are unchanged.
///
/// Room: 2 d + 21 bytes of `text` for a point whose time has d digits of seconds, [`rooms::labels`](crate::rooms::labels) at most. Refuses as
/// [`cues_to_labels`] does, and last [`TooLittleRoom`](crate::Refusal::TooLittleRoom).
///
/// ```
/// # use prohunsev::*;
/// let mut text = [7; 24];
/// assert_eq!(cues_to_labels_into(&write_cues(&[94])?, 48_000, &mut text)?, 23);
/// assert_eq!(text[..], *b"0.512000\t0.512000\tbeat\n\x07");
/// # Ok::<(), Refused>(())
/// ```
pub fn cues_to_labels_into(chunk: &[u8], rate: u32, text: &mut [u8]) -> Result<usize, Refused> {
    cues_to_labels_of("cues_to_labels_into", chunk, rate, text)
}

fn cues_to_labels_of(call: &'static str, chunk: &[u8], rate: u32, text: &mut [u8]) -> Result<usize, Refused> {
    let mut count = 0;
    // SAFETY: the pointers and lengths are those of borrowed slices and a local (the reason in lib.rs)
    let number =
        unsafe { ffi::ph_cues_to_labels(chunk.as_ptr(), chunk.len(), rate, text.as_mut_ptr(), text.len(), &mut count) };
    counted(call, (number, count), |why| {
        let frames = shapes::offsets(chunk).map(|offset| offset.saturating_sub(512) / limits::HOP);
        why.rate(rate).cues("chunk", chunk).room("text", text.len(), shapes::label_bytes(frames, rate))
    })
}
