"""Label tracks and cue chunks by the words of document 02, No. 6, alone: a second reference, in exact fractions.

Each function answers a number of refusal and what was made: the number is the first of the request's order that applies, 0 for an answer."""
from fractions import Fraction
from math import ceil, floor

from tempo_track import MOST_FRAME, MOST_RATE, time_of


def seconds(frame, rate):
    """"seconds with no needless zeros in front and six decimals rounded half up" """
    time = time_of(frame, rate)
    return b"%d.%06d" % (time // 1_000_000, time % 1_000_000)


def labels_of(frames, rate):
    """"start, tab, end, tab, the word beat, line feed, both times equal" """
    return b"".join(b"\t".join([seconds(frame, rate)] * 2 + [b"beat\n"]) for frame in frames)


def chunk_of(offsets):
    """"id, size, count, then 24 bytes a point, name from 1 upward, position and sample offset both 256t + 512, chunk id data, the other two fields
    0" """
    def number(value):
        return value.to_bytes(4, "little")

    points = [number(name) + number(offset) + b"data" + number(0) + number(0) + number(offset) for name, offset in enumerate(offsets, 1)]
    body = number(len(points)) + b"".join(points)
    return b"cue " + number(len(body)) + body


def cues_of(frames):
    return chunk_of([256 * frame + 512 for frame in frames])


# ---- readers: what an input of the form names, label by label or point by point, or None for one of another form


def starts_in(text):
    """The starts of a label track, as they are written."""
    if not text:
        return []
    if text[-1:] != b"\n":
        return None
    starts = []
    for line in text[:-1].split(b"\n"):
        fields = line.split(b"\t")
        if len(fields) != 3 or fields[0] != fields[1] or fields[2] != b"beat":
            return None
        whole, point, decimals = fields[0].partition(b".")
        if not (whole.isdigit() and point and decimals.isdigit() and len(decimals) == 6) or whole[:1] == b"0" != whole:
            return None
        starts.append(fields[0])
    return starts


def frame_of(start, rate):
    """The frame whose time, rounded half up to microseconds, is this one: the frame t with time - 1/2 <= (256 t + 512) 10^6 / rate < time + 1/2."""
    whole, decimals = start.split(b".")
    if len(whole) > 12:
        return None
    time = int(whole) * 1_000_000 + int(decimals)
    frame = max(0, ceil((Fraction(2 * time - 1, 2) * rate / 1_000_000 - 512) / 256))
    return frame if frame <= MOST_FRAME and time_of(frame, rate) == time else None


def offsets_in(chunk):
    """The sample offsets of a cue chunk."""
    def number(at):
        return int.from_bytes(chunk[at:at + 4], "little")

    if len(chunk) < 12 or chunk[:4] != b"cue " or number(4) != len(chunk) - 8 or len(chunk) != 12 + 24 * number(8):
        return None
    offsets = []
    for k, at in enumerate(range(12, len(chunk), 24)):
        if number(at) != k + 1 or chunk[at + 8:at + 12] != b"data" or number(at + 12) or number(at + 16) or number(at + 4) != number(at + 20):
            return None
        offsets.append(number(at + 20))
    return offsets


def frame_at(offset):
    frame = Fraction(offset - 512, 256)
    return floor(frame) if frame.denominator == 1 and 0 <= frame <= MOST_FRAME else None


# ---- calls: "9 for a line or chunk not of this form, 10 for a time or offset that is no listed frame's, 11 for frames not strictly ascending, in
# that order after 1, then 3 when the output doesn't fit"


def fall(frames):
    return any(after <= before for before, after in zip(frames, frames[1:]))


def of_frames(frames, rate=1):
    """The number of frames that are lent, before room is asked."""
    if not 1 <= rate <= MOST_RATE or any(frame > MOST_FRAME for frame in frames):
        return 1
    return 11 if fall(frames) else 0


def fits(made, room):
    return (3, made[:0]) if room < len(made) else (0, made)


def write_labels(frames, rate, room):
    number = of_frames(frames, rate)
    return (number, b"") if number else fits(labels_of(frames, rate), room)


def labels_room(frames, rate):
    number = of_frames(frames, rate)
    return number, 0 if number else len(labels_of(frames, rate))


def write_cues(frames, room):
    number = of_frames(frames)
    return (number, b"") if number else fits(cues_of(frames), room)


def frames_of(named):
    """The number of what an input names, and the frames."""
    if named is None:
        return 9, []
    if None in named:
        return 10, []
    return (11, []) if fall(named) else (0, named)


def frames_in_labels(text, rate):
    if not 1 <= rate <= MOST_RATE:
        return 1, []
    starts = starts_in(text)
    return frames_of(starts if starts is None else [frame_of(start, rate) for start in starts])


def frames_in_cues(chunk, rate=1):
    if not 1 <= rate <= MOST_RATE:
        return 1, []
    offsets = offsets_in(chunk)
    return frames_of(offsets if offsets is None else [frame_at(offset) for offset in offsets])


def read_labels(text, rate, room):
    number, frames = frames_in_labels(text, rate)
    return (number, []) if number else fits(frames, room)


def read_cues(chunk, room):
    number, frames = frames_in_cues(chunk)
    return (number, []) if number else fits(frames, room)


def labels_to_cues(text, rate, room):
    number, frames = frames_in_labels(text, rate)
    return (number, b"") if number else fits(cues_of(frames), room)


def cues_to_labels(chunk, rate, room):
    number, frames = frames_in_cues(chunk, rate)
    return (number, b"") if number else fits(labels_of(frames, rate), room)
