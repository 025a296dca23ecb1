//! Files: the grid as a tempo track of a Standard MIDI File, and back.
use crate::{ffi, limits, rooms, Refused};

/// The beats as a Standard MIDI File of tempos, for a sequencer: format 0, one track, 96 ticks a beat, one Set Tempo for each gap between
/// two beats. `std::fs::write("track.mid", ..)` makes a file of it.
///
/// A beat's time is (256 t + 512) / rate seconds, exact, rounded half up to whole microseconds, and a tempo is the difference of two such
/// times, so that roundings never add up. The file begins on the first beat, and ends on the last. This one allocates what it answers;
/// [`write_tempo_track_into`] writes into bytes of yours.
/// Refuses, in this order, [`OutOfBounds`](crate::Refusal::OutOfBounds) (the rate, a beat above 1,048,575),
/// [`WrongGrid`](crate::Refusal::WrongGrid) (fewer than two beats, or beats that don't ascend strictly) and
/// [`GapTooLong`](crate::Refusal::GapTooLong) (a gap above 16,777,215 microseconds).
///
/// ```
/// # use prohunsev::*;
/// // three beats, 93 and 94 frames apart: half a second, each
/// let file = write_tempo_track(&[0, 93, 187], 48_000)?;
/// assert_eq!(file.len(), 40);
/// assert_eq!(file[..14], *b"MThd\0\0\0\x06\0\0\0\x01\0\x60");
/// assert_eq!(read_tempo_track(&file)?, [496_000, 501_333]);
/// assert_eq!(write_tempo_track(&[5], 48_000).unwrap_err(), Refusal::WrongGrid);
/// # Ok::<(), Refused>(())
/// ```
pub fn write_tempo_track(beats: &[u32], rate: u32) -> Result<Vec<u8>, Refused> {
    let mut file = vec![0; rooms::tempo_track(beats.len())];
    let count = write_into("write_tempo_track", beats, rate, &mut file)?;
    file.truncate(count);
    Ok(file)
}

/// [`write_tempo_track`] into bytes that are lent, without allocating. Answers how many bytes the file has; those behind it are unchanged.
///
/// Room: [`rooms::tempo_track`](crate::rooms::tempo_track) bytes of `file`. Refuses as [`write_tempo_track`] does, and last
/// [`TooLittleRoom`](crate::Refusal::TooLittleRoom).
///
/// ```
/// # use prohunsev::*;
/// let mut file = [7; 34];
/// assert_eq!(write_tempo_track_into(&[0, 94], 48_000, &mut file)?, 33);
/// assert_eq!(file[32..], [0, 7]); // the byte behind the file is unchanged
/// assert_eq!(write_tempo_track_into(&[0, 94], 48_000, &mut file[..32]).unwrap_err(), Refusal::TooLittleRoom);
/// # Ok::<(), Refused>(())
/// ```
pub fn write_tempo_track_into(beats: &[u32], rate: u32, file: &mut [u8]) -> Result<usize, Refused> {
    write_into("write_tempo_track_into", beats, rate, file)
}

fn write_into(call: &'static str, beats: &[u32], rate: u32, file: &mut [u8]) -> Result<usize, Refused> {
    let mut count = 0;
    // SAFETY: the pointers and lengths are those of borrowed slices and a local (the reason in lib.rs)
    let number = unsafe {
        ffi::ph_write_tempo_track(beats.as_ptr(), beats.len(), rate, file.as_mut_ptr(), file.len(), &mut count)
    };
    Refused::unless_answered(call, number, |why| {
        let why = why.rate(rate).entries("beats", beats, limits::MOST_FRAME).grid("beats", beats);
        why.gaps("beats", beats, rate).room("file", file.len(), rooms::tempo_track(beats.len()))
    })?;
    Ok(count)
}

/// The gaps of a tempo track that [`write_tempo_track`] wrote, in microseconds: 60,000,000 / gap are beats a minute.
///
/// It takes exactly that shape: a file that is read is, byte for byte, the file written for beats that are these gaps apart, where there are
/// any. This one allocates what it answers; [`read_tempo_track_into`] writes into slots of yours.
/// Refuses [`OtherShape`](crate::Refusal::OtherShape) for any other file, though a sequencer may read it, and for a tempo of 0.
///
/// ```
/// # use prohunsev::*;
/// let mut file = write_tempo_track(&[0, 94, 188, 282], 48_000)?;
/// assert_eq!(read_tempo_track(&file)?, [501_333, 501_333, 501_334]);
/// file[13] = 48; // another division
/// let refused = read_tempo_track(&file).unwrap_err();
/// assert_eq!(refused, Refusal::OtherShape);
/// assert_eq!(refused.to_string(), "read_tempo_track refused with 8: file[13] is 48, 96 needed");
/// # Ok::<(), Refused>(())
/// ```
pub fn read_tempo_track(file: &[u8]) -> Result<Vec<u32>, Refused> {
    let mut gaps = vec![0; rooms::tempo_gaps(file.len())];
    let count = read_into("read_tempo_track", file, &mut gaps)?;
    gaps.truncate(count);
    Ok(gaps)
}

/// [`read_tempo_track`] into slots that are lent, without allocating. Answers how many gaps there are; slots behind them are unchanged.
///
/// Room: [`rooms::tempo_gaps`](crate::rooms::tempo_gaps) slots of `gaps`. Refuses as [`read_tempo_track`] does, and last
/// [`TooLittleRoom`](crate::Refusal::TooLittleRoom).
///
/// ```
/// # use prohunsev::*;
/// let mut gaps = [7; 3];
/// assert_eq!(read_tempo_track_into(&write_tempo_track(&[0, 94, 188], 48_000)?, &mut gaps)?, 2);
/// assert_eq!(gaps, [501_333, 501_333, 7]);
/// # Ok::<(), Refused>(())
/// ```
pub fn read_tempo_track_into(file: &[u8], gaps: &mut [u32]) -> Result<usize, Refused> {
    read_into("read_tempo_track_into", file, gaps)
}

fn read_into(call: &'static str, file: &[u8], gaps: &mut [u32]) -> Result<usize, Refused> {
    let mut count = 0;
    // SAFETY: the pointers and lengths are those of borrowed slices and a local (the reason in lib.rs)
    let number =
        unsafe { ffi::ph_read_tempo_track(file.as_ptr(), file.len(), gaps.as_mut_ptr(), gaps.len(), &mut count) };
    Refused::unless_answered(call, number, |why| {
        why.tempo_track("file", file).room("gaps", gaps.len(), rooms::tempo_gaps(file.len()))
    })?;
    Ok(count)
}
