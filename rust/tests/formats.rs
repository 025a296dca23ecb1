//! Tempo tracks: bytes made by hand from the standard, roundings, what is read and what is not, and that slots behind an answer stay.
use prohunsev::Refusal::*;
use prohunsev::*;

// format 0, one track, division 96, and the track's length
fn front(length: u8) -> Vec<u8> {
    [b"MThd\0\0\0\x06\0\0\0\x01\0\x60MTrk\0\0\0".as_slice(), &[length]].concat()
}

#[test]
fn bytes_by_hand() {
    let one = [front(11), vec![0, 0xff, 0x51, 3, 0x07, 0xa6, 0x55, 96, 0xff, 0x2f, 0]].concat();
    assert_eq!(write_tempo_track(&[0, 94], 48_000).unwrap(), one);
    // 501,333.3 microseconds each: the third has what the first two have not
    let events = [
        [0, 0xff, 0x51, 3, 0x07, 0xa6, 0x55],
        [96, 0xff, 0x51, 3, 0x07, 0xa6, 0x55],
        [96, 0xff, 0x51, 3, 0x07, 0xa6, 0x56],
    ];
    let three = [front(25), events.concat(), vec![96, 0xff, 0x2f, 0]].concat();
    assert_eq!(write_tempo_track(&[0, 94, 188, 282], 48_000).unwrap(), three);
    assert_eq!(read_tempo_track(&three).unwrap(), [501_333, 501_333, 501_334]);
    // the rate is read, and where the grid begins is not told
    assert_eq!(read_tempo_track(&write_tempo_track(&[7, 101], 44_100).unwrap()).unwrap(), [545_669]);
    assert_eq!(write_tempo_track(&[2, 96], 48_000).unwrap()[26..29], [0x07, 0xa6, 0x56]);
}

#[test]
fn halves_are_rounded_up() {
    // at 32,768 a frame is 7,812.5 microseconds
    let file = write_tempo_track(&[0, 1, 2, 3, 5], 32_768).unwrap();
    assert_eq!(read_tempo_track(&file).unwrap(), [7_813, 7_812, 7_813, 15_625]);
}

#[test]
fn the_longest_gap() {
    // 1,735 frames from frame 1 on, and as many from frame 3 on, where the roundings fall otherwise
    let file = write_tempo_track(&[1, 1_736], 26_474).unwrap();
    assert_eq!(read_tempo_track(&file).unwrap(), [limits::MOST_TEMPO]);
    assert_eq!(write_tempo_track(&[3, 1_738], 26_474).unwrap_err(), GapTooLong);
    let most = limits::MOST_FRAME;
    assert_eq!(read_tempo_track(&write_tempo_track(&[most - 1, most], 192_000).unwrap()).unwrap(), [1_334]);
    assert_eq!(write_tempo_track(&[0, 1], 1).unwrap_err(), GapTooLong);
    assert_eq!(read_tempo_track(&write_tempo_track(&[0, 1], 16).unwrap()).unwrap(), [16_000_000]);
}

#[test]
fn every_frame_there_is() {
    let beats: Vec<u32> = (0..=limits::MOST_FRAME).collect();
    let file = write_tempo_track(&beats, 192_000).unwrap();
    assert_eq!(file.len(), rooms::tempo_track(beats.len()));
    let gaps = read_tempo_track(&file).unwrap();
    assert_eq!((gaps.len(), rooms::tempo_gaps(file.len())), (1_048_575, 1_048_575));
    // the gaps add up to the last beat's rounded time less the first beat's
    assert_eq!(gaps.iter().map(|&gap| u64::from(gap)).sum::<u64>(), 1_398_100_000);
}

#[test]
fn slots_behind_stay() {
    let mut file = [7; 40];
    assert_eq!(write_tempo_track_into(&[0, 94], 48_000, &mut file), Ok(33));
    assert_eq!((&file[..4], &file[29..33], &file[33..]), (&b"MThd"[..], &[96, 0xff, 0x2f, 0][..], &[7; 7][..]));
    let mut gaps = [9; 3];
    assert_eq!(read_tempo_track_into(&file[..33], &mut gaps), Ok(1));
    assert_eq!(gaps, [501_333, 9, 9]);
}

#[test]
fn one_byte_changed() {
    let good = write_tempo_track(&[0, 94, 188], 48_000).unwrap();
    for at in 0..good.len() {
        for bit in 0..8 {
            let mut file = good.clone();
            file[at] ^= 1 << bit;
            let tempo = matches!(at, 26..=28 | 33..=35);
            assert_eq!(read_tempo_track(&file).is_ok(), tempo, "byte {at} is {}", file[at]);
        }
        assert_eq!(read_tempo_track(&good[..at]).unwrap_err(), OtherShape);
    }
    assert_eq!(read_tempo_track(&[&good[..], &[0]].concat()).unwrap_err(), OtherShape);
}

// a refusal with this number and these words
macro_rules! refuses {
    ($number:ident, $words:literal, $call:ident($($word:expr),*)) => {
        let refused = $call($($word),*).unwrap_err();
        assert_eq!(refused.to_string(), format!("{} refused with {}: {}", stringify!($call), $number.number(), $words));
        assert_eq!(refused, $number);
    };
}

#[test]
fn refusals_of_the_writer() {
    assert_eq!([WrongGrid, GapTooLong, OtherShape].map(Refusal::number), [6, 7, 8]);
    refuses!(OutOfBounds, "rate 0, 1 to 192,000", write_tempo_track(&[], 0));
    refuses!(OutOfBounds, "rate 192,001, 1 to 192,000", write_tempo_track(&[0, 1], 192_001));
    refuses!(OutOfBounds, "beats[2] is 1,048,576, at most 1,048,575", write_tempo_track(&[5, 5, 1_048_576], 1));
    refuses!(WrongGrid, "beats: 0 beats lent, at least two needed", write_tempo_track(&[], 48_000));
    refuses!(WrongGrid, "beats: 1 beat lent, at least two needed", write_tempo_track(&[1_048_575], 48_000));
    refuses!(WrongGrid, "beats[2] is 7 and the one before it 7: beats ascend", write_tempo_track(&[0, 7, 7], 1));
    refuses!(WrongGrid, "beats[1] is 6 and the one before it 7: beats ascend", write_tempo_track(&[7, 6], 48_000));
    let words = "beats[2] is 16,777,216 microseconds after the one before it, at most 16,777,215";
    let refused = write_tempo_track(&[1, 3, 1_738], 26_474).unwrap_err();
    assert_eq!(refused.to_string(), format!("write_tempo_track refused with 7: {words}"));
    // room comes last
    let mut file = [7; 32];
    refuses!(OutOfBounds, "rate 0, 1 to 192,000", write_tempo_track_into(&[], 0, &mut file[..3]));
    refuses!(
        WrongGrid,
        "beats: 1 beat lent, at least two needed",
        write_tempo_track_into(&[5], 48_000, &mut file[..3])
    );
    refuses!(
        GapTooLong,
        "beats[1] is 256,000,000 microseconds after the one before it, at most 16,777,215",
        write_tempo_track_into(&[0, 1], 1, &mut file[..3])
    );
    refuses!(TooLittleRoom, "file: 32 slots lent, 33 needed", write_tempo_track_into(&[0, 94], 48_000, &mut file));
    assert_eq!(file, [7; 32]);
}

#[test]
fn refusals_of_the_reader() {
    let good = write_tempo_track(&[0, 94, 188], 48_000).unwrap();
    let with = |at: usize, bytes: &[u8]| [&good[..at], bytes, &good[at + bytes.len()..]].concat();
    refuses!(OtherShape, "file: 0 bytes lent, 26 and 7 for each gap needed, one at least", read_tempo_track(&[]));
    refuses!(
        OtherShape,
        "file: 26 bytes lent, 26 and 7 for each gap needed, one at least",
        read_tempo_track(&good[..26])
    );
    // no gap, in a track of four bytes
    let none = [&good[..21], &[4], &good[36..]].concat();
    refuses!(OtherShape, "file: 26 bytes lent, 26 and 7 for each gap needed, one at least", read_tempo_track(&none));
    refuses!(
        OtherShape,
        "file: 39 bytes lent, 26 and 7 for each gap needed, one at least",
        read_tempo_track(&good[..39])
    );
    refuses!(OtherShape, "file[0] is 82, 77 needed", read_tempo_track(&with(0, b"RIFF")));
    refuses!(OtherShape, "file[9] is 1, 0 needed", read_tempo_track(&with(9, &[1])));
    refuses!(OtherShape, "file[21] is 19, 18 needed", read_tempo_track(&with(21, &[19])));
    refuses!(OtherShape, "file[21] is 18, 11 needed", read_tempo_track(&good[..33]));
    refuses!(OtherShape, "file[22] is 96, 0 needed", read_tempo_track(&with(22, &[96])));
    refuses!(OtherShape, "file[29] is 0, 96 needed", read_tempo_track(&with(29, &[0])));
    refuses!(OtherShape, "file[31] is 88, 81 needed", read_tempo_track(&with(31, &[88])));
    refuses!(OtherShape, "file[39] is 1, 0 needed", read_tempo_track(&with(39, &[1])));
    refuses!(OtherShape, "file: tempo 2 of it is 0", read_tempo_track(&with(33, &[0; 3])));
    // room comes last
    let mut gaps = [9];
    refuses!(OtherShape, "file[0] is 0, 77 needed", read_tempo_track_into(&with(0, &[0]), &mut gaps[..0]));
    refuses!(TooLittleRoom, "gaps: 1 slot lent, 2 needed", read_tempo_track_into(&good, &mut gaps));
    assert_eq!(gaps, [9]);
}
