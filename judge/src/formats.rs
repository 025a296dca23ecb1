//! Tempo tracks, by document 02, No. 3, written down from its words alone: the Rust of docs/src has none of them.
//!
//! "Standard MIDI File: format 0, one track, division 96, one Set Tempo event per beat gap, the first at delta 0 and the others 96 apart, end of
//! track 96 after the last." The writer is made of these words, and the reader walks through a file event by event, as any reader of such
//! files does, so that neither is the other turned round.

/// "a gap above 16,777,215"
pub const MOST_TEMPO: u64 = 16_777_215;

/// "A beat's time is rounded half up to whole microseconds": the whole part, and one more where the rest is half or above.
pub fn microseconds(frame: u32, rate: u64) -> u64 {
    let millionths = (256 * u64::from(frame) + 512) * 1_000_000;
    let (whole, rest) = (millionths / rate, millionths % rate);
    whole + u64::from(2 * rest >= rate)
}

/// "each tempo is the difference of two such times"
pub fn gaps(beats: &[u32], rate: u64) -> Vec<u64> {
    beats.windows(2).map(|pair| microseconds(pair[1], rate) - microseconds(pair[0], rate)).collect()
}

/// "k beats take 26 + 7·(k-1) bytes"
pub fn size(beats: usize) -> usize {
    26 + 7 * (beats - 1)
}

/// The file of these gaps.
pub fn written(gaps: &[u64]) -> Vec<u8> {
    let mut track = Vec::new();
    for (k, gap) in gaps.iter().enumerate() {
        track.extend([if k == 0 { 0 } else { 96 }, 0xff, 0x51, 0x03]);
        track.extend(&gap.to_be_bytes()[5..]);
    }
    track.extend([96, 0xff, 0x2f, 0x00]);
    let head = [&b"MThd"[..], &6_u32.to_be_bytes(), &0_u16.to_be_bytes(), &1_u16.to_be_bytes(), &96_u16.to_be_bytes()].concat();
    [&head[..], b"MTrk", &(track.len() as u32).to_be_bytes(), &track].concat()
}

/// The gaps of a file: "it takes exactly this shape, with one gap at least", and no tempo of 0.
pub fn read(file: &[u8]) -> Option<Vec<u32>> {
    let mut rest = file;
    let mut take = |n: usize| {
        let (taken, left) = rest.split_at_checked(n)?;
        rest = left;
        Some(taken)
    };
    let number = |bytes: &[u8]| bytes.iter().fold(0_u64, |n, &b| n << 8 | u64::from(b));
    let is = |fine: bool| fine.then_some(());
    is(take(4)? == b"MThd" && number(take(4)?) == 6)?;
    is(number(take(2)?) == 0 && number(take(2)?) == 1 && number(take(2)?) == 96)?;
    is(take(4)? == b"MTrk")?;
    let length = number(take(4)?);
    is(length == file.len() as u64 - 22)?;
    let mut gaps = Vec::new();
    loop {
        let (delta, status, kind, size) = (take(1)?[0], take(1)?[0], take(1)?[0], take(1)?[0]);
        is(status == 0xff && delta == if gaps.is_empty() { 0 } else { 96 })?;
        match (kind, size) {
            (0x51, 3) => gaps.push(u32::try_from(number(take(3)?)).ok().filter(|&gap| gap > 0)?),
            // the first delta is 0, so a track of no gap ends here too soon
            (0x2f, 0) => return (delta == 96 && take(1).is_none()).then_some(gaps),
            _ => return None,
        }
    }
}
