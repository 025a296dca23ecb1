//! Label tracks and cue chunks: bytes made by hand, roundings, ends of the limits, what is read and what is not, what follows from what when a
//! byte is changed, and that slots behind an answer stay.
use prohunsev::Refusal::*;
use prohunsev::*;

const TWO: &[u8] = b"0.010667\t0.010667\tbeat\n0.512000\t0.512000\tbeat\n";
const TWO_CUES: &[u8] = b"cue \x34\0\0\0\x02\0\0\0\
    \x01\0\0\0\x00\x02\0\0data\0\0\0\0\0\0\0\0\x00\x02\0\0\
    \x02\0\0\0\x00\x60\0\0data\0\0\0\0\0\0\0\0\x00\x60\0\0";

#[test]
fn bytes_by_hand() {
    assert_eq!(write_labels(&[0, 94], 48_000).unwrap(), TWO);
    assert_eq!(read_labels(TWO, 48_000).unwrap(), [0, 94]);
    assert_eq!(write_cues(&[0, 94]).unwrap(), TWO_CUES);
    assert_eq!(read_cues(TWO_CUES).unwrap(), [0, 94]);
    assert_eq!(labels_to_cues(TWO, 48_000).unwrap(), TWO_CUES);
    assert_eq!(cues_to_labels(TWO_CUES, 48_000).unwrap(), TWO);
    assert_eq!(labels_room(&[0, 94], 48_000), Ok(46));
    // the rate is read: the same chunk, and another time
    assert_eq!(cues_to_labels(TWO_CUES, 44_100).unwrap(), b"0.011610\t0.011610\tbeat\n0.557279\t0.557279\tbeat\n");
    // nothing is no labels and a chunk of count 0
    let none = b"cue \x04\0\0\0\0\0\0\0";
    assert_eq!((write_labels(&[], 1).unwrap(), read_labels(b"", 1).unwrap()), (vec![], vec![]));
    assert_eq!((write_cues(&[]).unwrap(), read_cues(none).unwrap()), (none.to_vec(), vec![]));
    assert_eq!(
        (labels_to_cues(b"", 192_000).unwrap(), cues_to_labels(none, 192_000).unwrap()),
        (none.to_vec(), vec![])
    );
    assert_eq!(labels_room(&[], 1), Ok(0));
}

#[test]
fn halves_are_rounded_up() {
    // at 32,768 a frame is 7,812.5 microseconds, and the first centre at 15,625
    let text = write_labels(&[0, 1, 2, 3], 32_768).unwrap();
    let times: Vec<&str> = std::str::from_utf8(&text).unwrap().lines().map(|line| &line[..8]).collect();
    assert_eq!(times, ["0.015625", "0.023438", "0.031250", "0.039063"]);
    assert_eq!(read_labels(&text, 32_768).unwrap(), [0, 1, 2, 3]);
    assert_eq!(read_labels(b"0.023437\t0.023437\tbeat\n", 32_768).unwrap_err(), NoListedFrame);
}

#[test]
fn the_ends_of_the_limits() {
    let most = limits::MOST_FRAME;
    let text = write_labels(&[0, most], 1).unwrap();
    assert_eq!(text, b"512.000000\t512.000000\tbeat\n268435712.000000\t268435712.000000\tbeat\n");
    assert_eq!((labels_room(&[0, most], 1), text.len()), (Ok(27 + 39), 27 + rooms::labels(1)));
    assert_eq!(read_labels(&text, 1).unwrap(), [0, most]);
    assert_eq!(read_labels(b"268435968.000000\t268435968.000000\tbeat\n", 1).unwrap_err(), NoListedFrame);
    let text = write_labels(&[0, most - 1, most], 192_000).unwrap();
    assert_eq!(text, b"0.002667\t0.002667\tbeat\n1398.101333\t1398.101333\tbeat\n1398.102667\t1398.102667\tbeat\n");
    assert_eq!(read_labels(&text, 192_000).unwrap(), [0, most - 1, most]);
    let chunk = write_cues(&[most]).unwrap();
    assert_eq!(chunk[32..], 268_435_712_u32.to_le_bytes());
    assert_eq!(cues_to_labels(&chunk, 1).unwrap(), b"268435712.000000\t268435712.000000\tbeat\n");
    // a name, a size and a count of more than two bytes
    let frames: Vec<u32> = (0..=most).collect();
    let chunk = write_cues(&frames).unwrap();
    assert_eq!((chunk.len(), rooms::cue_frames(chunk.len())), (rooms::cues(frames.len()), frames.len()));
    assert_eq!(chunk[4..12], [4, 0, 0x80, 1, 0, 0, 0x10, 0]);
    let text = cues_to_labels(&chunk, 192_000).unwrap();
    assert_eq!(Ok(text.len()), labels_room(&frames, 192_000));
    assert!(text.len() <= rooms::labels(frames.len()) && rooms::label_frames(text.len()) >= frames.len());
    assert_eq!(read_labels(&text, 192_000).unwrap(), frames);
    assert!(labels_to_cues(&text, 192_000).unwrap() == chunk);
}

#[test]
fn slots_behind_stay() {
    let mut text = [7; 50];
    assert_eq!(write_labels_into(&[0, 94], 48_000, &mut text), Ok(46));
    assert_eq!((&text[..46], &text[46..]), (TWO, &[7; 4][..]));
    text.fill(7);
    assert_eq!(cues_to_labels_into(TWO_CUES, 48_000, &mut text), Ok(46));
    assert_eq!((&text[..46], &text[46..]), (TWO, &[7; 4][..]));
    let mut frames = [9; 3];
    assert_eq!(read_labels_into(TWO, 48_000, &mut frames), Ok(2));
    assert_eq!(frames, [0, 94, 9]);
    frames.fill(9);
    assert_eq!(read_cues_into(TWO_CUES, &mut frames), Ok(2));
    assert_eq!(frames, [0, 94, 9]);
    let mut chunk = [7; 63];
    assert_eq!(write_cues_into(&[0, 94], &mut chunk), Ok(60));
    assert_eq!((&chunk[..60], &chunk[60..]), (TWO_CUES, &[7; 3][..]));
    chunk.fill(7);
    assert_eq!(labels_to_cues_into(TWO, 48_000, &mut chunk), Ok(60));
    assert_eq!((&chunk[..60], &chunk[60..]), (TWO_CUES, &[7; 3][..]));
}

#[test]
fn one_byte_of_a_label_track_changed() {
    // a digit in one of two equal times makes them differ, and all else is of the form: 9 whatever the byte is
    for at in 0..TWO.len() {
        for value in (0..=255).filter(|&value| value != TWO[at]) {
            let mut text = TWO.to_vec();
            text[at] = value;
            assert_eq!(read_labels(&text, 48_000).unwrap_err(), NotOfThisForm, "byte {at} is {value}");
            assert_eq!(labels_to_cues(&text, 48_000).unwrap_err(), NotOfThisForm, "byte {at} is {value}");
        }
        // cut between two lines it is one label, and nothing of it none
        let whole = at == 0 || at == 23;
        assert_eq!(read_labels(&TWO[..at], 48_000).is_ok(), whole);
    }
}

#[test]
fn one_byte_of_a_cue_chunk_changed() {
    for at in 0..TWO_CUES.len() {
        for value in (0..=255).filter(|&value| value != TWO_CUES[at]) {
            let mut chunk = TWO_CUES.to_vec();
            chunk[at] = value;
            assert_eq!(read_cues(&chunk).unwrap_err(), NotOfThisForm, "byte {at} is {value}");
            assert_eq!(cues_to_labels(&chunk, 48_000).unwrap_err(), NotOfThisForm, "byte {at} is {value}");
        }
        assert_eq!(read_cues(&TWO_CUES[..at]).unwrap_err(), NotOfThisForm);
    }
    assert_eq!(read_cues(&[TWO_CUES, &[0]].concat()).unwrap_err(), NotOfThisForm);
    // position and offset both: a frame, or 10
    for at in 0..4 {
        for value in 0..=255 {
            let mut chunk = TWO_CUES.to_vec();
            (chunk[40 + at], chunk[56 + at]) = (value, value);
            let offset = u32::from_le_bytes(chunk[56..].try_into().unwrap());
            match (offset.wrapping_sub(512) / 256, offset % 256) {
                (frame @ 1..=1_048_575, 0) => assert_eq!(read_cues(&chunk).unwrap(), [0, frame]),
                (0, 0) => assert_eq!(read_cues(&chunk).unwrap_err(), NotAscending),
                _ => assert_eq!(read_cues(&chunk).unwrap_err(), NoListedFrame, "offset {offset}"),
            }
        }
    }
}

#[test]
fn the_order_of_the_numbers() {
    // a time that is no frame's, times that fall, and a line of another form: each of them anywhere, and the first of the order is given
    let line = |time: &str| format!("{time}\t{time}\tbeat\n");
    let (none, late, early, other) = (line("7.000000"), line("0.512000"), line("0.010667"), line("07.000000"));
    let number = |lines: &[&String]| read_labels(lines.iter().copied().cloned().collect::<String>().as_bytes(), 48_000);
    assert_eq!(number(&[&late, &early]).unwrap_err(), NotAscending);
    assert_eq!(number(&[&late, &late]).unwrap_err(), NotAscending);
    assert_eq!(number(&[&late, &early, &none]).unwrap_err(), NoListedFrame);
    assert_eq!(number(&[&none, &late, &early, &other]).unwrap_err(), NotOfThisForm);
    let text = [&none[..], &late, &early, &other].concat();
    assert_eq!(read_labels(text.as_bytes(), 0).unwrap_err(), OutOfBounds);
    assert_eq!(labels_to_cues_into(text.as_bytes(), 192_001, &mut []).unwrap_err(), OutOfBounds);
    assert_eq!(labels_to_cues_into(text.as_bytes(), 48_000, &mut []).unwrap_err(), NotOfThisForm);

    let chunk = |offsets: &[u32]| {
        let points = offsets.iter().enumerate().flat_map(|(k, offset)| {
            let [name, at] = [k as u32 + 1, *offset].map(u32::to_le_bytes);
            [&name[..], &at, b"data", &[0; 8], &at].concat()
        });
        let [size, count] = [4 + 24 * offsets.len() as u32, offsets.len() as u32].map(u32::to_le_bytes);
        [b"cue ", &size[..], &count].concat().into_iter().chain(points).collect::<Vec<u8>>()
    };
    assert_eq!(chunk(&[512, 24_576]), TWO_CUES);
    assert_eq!(read_cues(&chunk(&[24_576, 512])).unwrap_err(), NotAscending);
    assert_eq!(read_cues(&chunk(&[512, 512])).unwrap_err(), NotAscending);
    for none in [0, 256, 511, 513, 767, 268_435_968, u32::MAX] {
        assert_eq!(read_cues(&chunk(&[24_576, 512, none])).unwrap_err(), NoListedFrame);
    }
    let mut bad = chunk(&[24_576, 512, 0]);
    bad[12] = 0; // a name
    assert_eq!(read_cues(&bad).unwrap_err(), NotOfThisForm);
    assert_eq!(cues_to_labels_into(&bad, 48_000, &mut []).unwrap_err(), NotOfThisForm);
    assert_eq!(cues_to_labels_into(&bad, 0, &mut []).unwrap_err(), OutOfBounds);
    assert_eq!(cues_to_labels_into(&chunk(&[24_576, 512]), 1, &mut []).unwrap_err(), NotAscending);
}

#[test]
fn seconds_of_any_size() {
    for digits in [9, 10, 19, 20, 39, 40, 1_000, 100_000] {
        let time = "9".repeat(digits) + ".999999";
        let text = format!("{time}\t{time}\tbeat\n");
        assert_eq!(read_labels(text.as_bytes(), 192_000).unwrap_err(), NoListedFrame);
        assert_eq!(labels_to_cues(text.as_bytes(), 1).unwrap_err(), NoListedFrame);
        let other = format!("{text}{time}\t{time}\tbeat");
        assert_eq!(read_labels(other.as_bytes(), 192_000).unwrap_err(), NotOfThisForm);
    }
    // 2^64 and 2^128 microseconds more than a frame's time: a number that wraps would be read as its frame
    for time in ["18446744073710.063616", "340282366920938463463374607432280.211456"] {
        assert_eq!(read_labels(format!("{time}\t{time}\tbeat\n").as_bytes(), 48_000).unwrap_err(), NoListedFrame);
    }
}

// a refusal with this number and these words
macro_rules! refuses {
    ($number:ident, $words:expr, $call:ident($($word:expr),*)) => {
        let refused = $call($($word),*).map(|_| ()).unwrap_err();
        assert_eq!(refused.to_string(), format!("{} refused with {}: {}", stringify!($call), $number.number(), $words));
        assert_eq!(refused, $number);
    };
}

#[test]
fn refusals_of_frames() {
    assert_eq!([NotOfThisForm, NoListedFrame, NotAscending].map(Refusal::number), [9, 10, 11]);
    let (above, falls) =
        ("frames[2] is 1,048,576, at most 1,048,575", "frames[2] is 7 and the one before it 7: frames ascend");
    refuses!(OutOfBounds, "rate 0, 1 to 192,000", labels_room(&[7, 7], 0));
    refuses!(OutOfBounds, above, labels_room(&[5, 5, 1_048_576], 1));
    refuses!(NotAscending, falls, labels_room(&[0, 7, 7, 6], 1));
    refuses!(OutOfBounds, "rate 192,001, 1 to 192,000", write_labels(&[7, 7], 192_001));
    refuses!(OutOfBounds, above, write_labels(&[5, 5, 1_048_576], 1));
    refuses!(NotAscending, falls, write_labels(&[0, 7, 7, 6], 1));
    refuses!(OutOfBounds, above, write_cues(&[5, 5, 1_048_576]));
    refuses!(NotAscending, falls, write_cues(&[0, 7, 7, 6]));
    // room comes last
    let mut out = [7; 70];
    refuses!(OutOfBounds, "rate 0, 1 to 192,000", write_labels_into(&[], 0, &mut out[..0]));
    refuses!(OutOfBounds, above, write_labels_into(&[5, 5, 1_048_576], 1, &mut out[..0]));
    refuses!(NotAscending, falls, write_labels_into(&[0, 7, 7], 1, &mut out[..0]));
    refuses!(TooLittleRoom, "text: 70 slots lent, 71 needed", write_labels_into(&[0, 94, 1_874], 48_000, &mut out));
    refuses!(OutOfBounds, above, write_cues_into(&[5, 5, 1_048_576], &mut out[..0]));
    refuses!(NotAscending, falls, write_cues_into(&[0, 7, 7], &mut out[..0]));
    refuses!(TooLittleRoom, "chunk: 59 slots lent, 60 needed", write_cues_into(&[0, 94], &mut out[..59]));
    refuses!(TooLittleRoom, "chunk: 11 slots lent, 12 needed", write_cues_into(&[], &mut out[..11]));
    assert_eq!(out, [7; 70]);
}

#[test]
fn refusals_of_label_tracks() {
    // one line, and another behind it, of each kind that there is
    let line = "0.512000\t0.512000\tbeat\n";
    let two = |other: &str| [line, other].concat().into_bytes();
    for (other, words) in [
        (" 7.000000\t7.000000\tbeat\n", "text[23] is 32, a digit needed: line 2"),
        ("\n", "text[23] is 10, a digit needed: line 2"),
        ("-1.000000\t-1.000000\tbeat\n", "text[23] is 45, a digit needed: line 2"),
        ("07.000000\t07.000000\tbeat\n", "text[24] is 55, a point needed: line 2"),
        ("7,000000\t7,000000\tbeat\n", "text[24] is 44, a digit or a point needed: line 2"),
        (".000000\t.000000\tbeat\n", "text[23] is 46, a digit needed: line 2"),
        ("7.00000\t7.00000\tbeat\n", "text[30] is 9, a digit needed: line 2"),
        ("7.0000000\t7.0000000\tbeat\n", "text[31] is 48, a tab needed: line 2"),
        ("7.000000\t7.000001\tbeat\n", "text[39] is 49, the start again needed: line 2"),
        ("7.000000\t17.000000\tbeat\n", "text[32] is 49, the start again needed: line 2"),
        ("7.000000\t7.000000 beat\n", "text[40] is 32, a tab needed: line 2"),
        ("7.000000\t7.000000\tBeat\n", "text[41] is 66, the word beat needed: line 2"),
        ("7.000000\t7.000000\tbeats\n", "text[45] is 115, a line feed needed: line 2"),
        ("7.000000\t7.000000\tbeat\r\n", "text[45] is 13, a line feed needed: line 2"),
        ("7.000000\t7.000000\tbeat", "text ends here, a line feed needed: line 2"),
        ("7.000000\t", "text ends here, the start again needed: line 2"),
        ("712", "text ends here, a digit or a point needed: line 2"),
    ] {
        refuses!(NotOfThisForm, words, read_labels(&two(other), 48_000));
        refuses!(NotOfThisForm, words, labels_to_cues(&two(other), 48_000));
    }
    let words = "text: the time of line 2 is that of no frame up to 1,048,575 at rate 44,100";
    let none = two("0.512001\t0.512001\tbeat\n");
    refuses!(NoListedFrame, words.replace("44,100", "48,000"), read_labels(&none, 48_000));
    refuses!(NoListedFrame, words.replace("line 2", "line 1"), labels_to_cues(&none, 44_100));
    let words = "text: line 2 is frame 0 and the one before it 94: frames ascend";
    refuses!(NotAscending, words, read_labels(&two("0.010667\t0.010667\tbeat\n"), 48_000));
    refuses!(NotAscending, words.replace("frame 0", "frame 94"), labels_to_cues(&two(line), 48_000));
    refuses!(OutOfBounds, "rate 0, 1 to 192,000", read_labels(&none, 0));
    refuses!(OutOfBounds, "rate 192,001, 1 to 192,000", labels_to_cues(&none, 192_001));
    // room comes last
    let (mut frames, mut chunk) = ([9], [7; 59]);
    refuses!(NotOfThisForm, "text[0] is 98, a digit needed: line 1", read_labels_into(b"beat", 1, &mut frames[..0]));
    refuses!(TooLittleRoom, "frames: 1 slot lent, 2 needed", read_labels_into(TWO, 48_000, &mut frames));
    refuses!(NotAscending, words, labels_to_cues_into(&two("0.010667\t0.010667\tbeat\n"), 48_000, &mut chunk[..0]));
    refuses!(TooLittleRoom, "chunk: 59 slots lent, 60 needed", labels_to_cues_into(TWO, 48_000, &mut chunk));
    assert_eq!((frames, chunk), ([9], [7; 59]));
}

#[test]
fn refusals_of_cue_chunks() {
    let with = |at: usize, bytes: &[u8]| [&TWO_CUES[..at], bytes, &TWO_CUES[at + bytes.len()..]].concat();
    for size in [0, 1, 11, 13, 35, 59] {
        let said = if size == 1 { "1 byte".to_string() } else { format!("{size} bytes") };
        let words = format!("chunk: {said} lent, 12 and 24 for each point needed");
        refuses!(NotOfThisForm, words, read_cues(&TWO_CUES[..size]));
        refuses!(NotOfThisForm, words, cues_to_labels(&TWO_CUES[..size], 48_000));
    }
    for (at, is, needed) in [
        (0, 67, 99),
        (3, 0, 32),
        (4, 60, 52),
        (7, 1, 0),
        (8, 1, 2),
        (12, 0, 1),
        (15, 1, 0),
        (20, 68, 100),
        (24, 1, 0),
        (31, 9, 0),
        (33, 0, 2),
        (36, 1, 2),
        (57, 97, 96),
        (59, 1, 0),
    ] {
        let words = format!("chunk[{at}] is {is}, {needed} needed");
        refuses!(NotOfThisForm, words, read_cues(&with(at, &[is])));
        refuses!(NotOfThisForm, words, cues_to_labels(&with(at, &[is]), 48_000));
    }
    refuses!(NotOfThisForm, "chunk[4] is 52, 28 needed", read_cues(&TWO_CUES[..36]));
    let mut none = with(40, &[1, 2]);
    none[56..58].copy_from_slice(&[1, 2]);
    let words = "chunk: the offset of point 2 is 513, which is 256 t + 512 for no frame t up to 1,048,575";
    refuses!(NoListedFrame, words, read_cues(&none));
    refuses!(NoListedFrame, words, cues_to_labels(&none, 1));
    refuses!(OutOfBounds, "rate 0, 1 to 192,000", cues_to_labels(&none, 0));
    let mut falls = with(40, &[0, 2]);
    falls[56..58].copy_from_slice(&[0, 2]);
    let words = "chunk: point 2 is frame 0 and the one before it 0: frames ascend";
    refuses!(NotAscending, words, read_cues(&falls));
    refuses!(NotAscending, words, cues_to_labels(&falls, 1));
    // room comes last
    let (mut frames, mut text) = ([9], [7; 45]);
    refuses!(NotAscending, words, read_cues_into(&falls, &mut frames[..0]));
    refuses!(TooLittleRoom, "frames: 1 slot lent, 2 needed", read_cues_into(TWO_CUES, &mut frames));
    refuses!(NotAscending, words, cues_to_labels_into(&falls, 1, &mut text[..0]));
    refuses!(TooLittleRoom, "text: 45 slots lent, 46 needed", cues_to_labels_into(TWO_CUES, 48_000, &mut text));
    assert_eq!((frames, text), ([9], [7; 45]));
}
