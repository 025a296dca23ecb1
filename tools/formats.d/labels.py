"""Label tracks and cue chunks of the library, read and written by libsndfile and by a parser of labels written apart: labels.py SEED COUNT FOLDER
(tools/formats runs it)."""
import array
import ctypes
import fractions
import pathlib
import random
import struct
import sys

import prohunsev as ph
import label_track as reference

seed, count, room = int(sys.argv[1]), int(sys.argv[2]), pathlib.Path(sys.argv[3])
r = random.Random(seed)
files = calls = points = read = 0
refused = {9: 0, 10: 0, 11: 0}
wrong = []
most = reference.MOST_FRAME
RATES = [8_000, 11_025, 16_000, 22_050, 32_000, 44_100, 48_000, 88_200, 96_000, 176_400, 192_000]


def differs(what, fine, *told):
    if not fine:
        wrong.append(what)
        if len(wrong) <= 5:
            print(f"formats: {what}:", *told)


def lent(frames):
    return array.array("I", frames)


# ---- libsndfile, by its C interface: sndfile.h


class Info(ctypes.Structure):
    _fields_ = [("frames", ctypes.c_int64), ("samplerate", ctypes.c_int), ("channels", ctypes.c_int), ("format", ctypes.c_int),
                ("sections", ctypes.c_int), ("seekable", ctypes.c_int)]


class Cue(ctypes.Structure):
    _fields_ = [("indx", ctypes.c_int32), ("position", ctypes.c_uint32), ("fcc_chunk", ctypes.c_int32), ("chunk_start", ctypes.c_int32),
                ("block_start", ctypes.c_int32), ("sample_offset", ctypes.c_uint32), ("name", ctypes.c_char * 256)]


GET_CUE_COUNT, GET_CUE, SET_CUE = 0x10CD, 0x10CE, 0x10CF
READ, WRITE, WAV_PCM_16 = 0x10, 0x20, 0x010002
DATA = int.from_bytes(b"data", sys.byteorder)
sndfile = ctypes.CDLL("libsndfile.so.1")
sndfile.sf_open.restype, sndfile.sf_open.argtypes = ctypes.c_void_p, [ctypes.c_char_p, ctypes.c_int, ctypes.POINTER(Info)]
sndfile.sf_command.argtypes = [ctypes.c_void_p, ctypes.c_int, ctypes.c_void_p, ctypes.c_int]
sndfile.sf_close.argtypes, sndfile.sf_write_short.argtypes = [ctypes.c_void_p], [ctypes.c_void_p, ctypes.c_void_p, ctypes.c_int64]
sndfile.sf_strerror.restype, sndfile.sf_strerror.argtypes = ctypes.c_char_p, [ctypes.c_void_p]
sndfile.sf_version_string.restype = ctypes.c_char_p


def cues_struct(many):
    return type("Cues", (ctypes.Structure,), {"_fields_": [("cue_count", ctypes.c_uint32), ("cue_points", Cue * many)]})()


def opened(path, mode, info):
    file = sndfile.sf_open(str(path).encode(), mode, ctypes.byref(info))
    if not file:
        raise OSError(sndfile.sf_strerror(None).decode())
    return file


def by_sndfile(wav):
    """What libsndfile tells of a WAV file: rate, and of each cue point its six fields; None where it tells of no cue chunk."""
    path, info = room / "one.wav", Info()
    path.write_bytes(wav)
    file = opened(path, READ, info)
    many = ctypes.c_uint32(4_294_967_295)
    there = sndfile.sf_command(file, GET_CUE_COUNT, ctypes.byref(many), ctypes.sizeof(many))
    cues = cues_struct(many.value if there else 0)
    fine = there and (many.value == 0 or sndfile.sf_command(file, GET_CUE, ctypes.byref(cues), ctypes.sizeof(cues)))
    sndfile.sf_close(file)
    told = [(cue.indx, cue.position, cue.fcc_chunk, cue.chunk_start, cue.block_start, cue.sample_offset) for cue in cues.cue_points] if fine else None
    return info.samplerate, told


def by_sndfile_written(cues, rate):
    """The cue chunk of the WAV file that libsndfile writes with these points."""
    path, info, made = room / "other.wav", Info(0, rate, 1, WAV_PCM_16, 0, 0), cues_struct(len(cues))
    made.cue_count = len(cues)
    for k, cue in enumerate(cues):
        made.cue_points[k] = Cue(*cue, b"")
    file = opened(path, WRITE, info)
    differs("libsndfile takes cue points", sndfile.sf_command(file, SET_CUE, ctypes.byref(made), ctypes.sizeof(made)), sndfile.sf_strerror(file))
    sndfile.sf_write_short(file, (ctypes.c_int16 * 8)(), 8)
    sndfile.sf_close(file)
    return chunk_in(path.read_bytes())


# ---- a WAV file around a chunk


def riff(name, body):
    return name + struct.pack("<I", len(body)) + body + b"\0" * (len(body) % 2)


def wav_of(chunk, rate, first):
    """A WAV file of a few samples whose cue chunk stands before or behind them."""
    parts = [riff(b"data", struct.pack("<5h", 0, 1, -1, 300, -300)), chunk]
    body = b"WAVE" + riff(b"fmt ", struct.pack("<HHIIHH", 1, 1, rate, 2 * rate, 2, 16)) + b"".join(parts[::-1] if first else parts)
    return riff(b"RIFF", body)


def chunk_in(wav):
    at = 12
    while at + 8 <= len(wav):
        size = int.from_bytes(wav[at + 4:at + 8], "little")
        if wav[at:at + 4] == b"cue ":
            return wav[at:at + 8 + size]
        at += 8 + size + size % 2
    return None


# ---- labels by Audacity's documented form: a line is start, end and label, with tabs between them; times are seconds with a point


def by_audacity(text):
    """Start, end and label of each, the times as exact fractions."""
    labels = []
    for line in text.decode("utf-8").splitlines():
        start, end, name = line.split("\t")
        labels.append((fractions.Fraction(start), fractions.Fraction(end), name))
    return labels


def as_audacity(times):
    """What Audacity exports of point labels at these times: floats, six decimals (FLT_DIG) by its C library."""
    return "".join("%.6f\t%.6f\t%s\n" % (at, at, "beat") for at in times).encode()


# ---- grids: as music has them, as short as they come, and with all that lies between; libsndfile skips a chunk of more than 1,000 points


def grid():
    rate = r.choice(RATES + [1, 7, 32_768, r.randint(1, 192_000), r.randint(1, 192_000)])
    at, period = r.choice([0, 0, 1, r.randrange(2_000), r.randrange(most)]), rate / 256 * 60 / r.uniform(30, 300)
    kind, frames = r.randrange(4), []
    for _ in range(r.choice([0, 1, 2, r.randint(2, 40), r.randint(2, 400)])):
        if at > most:
            break
        frames.append(at)
        at += max(1, round([period + r.uniform(-2, 2), 1, r.randint(1, 300), r.randint(1, 20_000)][kind]))
    return frames, rate


def told_of(frames):
    return [(k, 256 * frame + 512, DATA, 0, 0, 256 * frame + 512) for k, frame in enumerate(frames, 1)]


for number in range(count):
    frames, rate = grid()
    where = f"grid {number} of seed {seed}, {len(frames)} frames at {rate}"
    try:
        chunk, text = ph.write_cues(lent(frames)), ph.write_labels(lent(frames), rate)
        ours, again = list(ph.read_cues(chunk)), list(ph.read_labels(text, rate))
        turned = ph.labels_to_cues(text, rate), ph.cues_to_labels(chunk, rate)
    except ph.Refused as error:
        differs(where, False, error)
        continue
    differs(f"{where}: the chunk", chunk == reference.cues_of(frames), chunk.hex())
    differs(f"{where}: the labels", text == reference.labels_of(frames, rate), text[:99])
    differs(f"{where}: the frames", ours == frames == again, ours[:9], again[:9])
    differs(f"{where}: one of the other", turned == (chunk, text))
    # the chunk in a WAV file, behind the samples and before them
    for first in (False, True):
        told = by_sndfile(wav_of(chunk, rate, first))
        differs(f"{where}: libsndfile", told == (rate, told_of(ours)), told[0], told[1] and told[1][:3])
    # the same points, written by it
    if frames:
        differs(f"{where}: libsndfile's chunk", by_sndfile_written(told_of(frames), rate) == chunk)
    # the labels by a parser written apart: a time is within half a microsecond of its frame's, and below it or at it where it is half
    labels = by_audacity(text)
    exact = [fractions.Fraction(256 * frame + 512, rate) for frame in frames]
    half = fractions.Fraction(1, 2_000_000)
    differs(f"{where}: labels", len(labels) == len(frames) and all(start == end and name == "beat" and -half < start - at <= half
                                                                  for (start, end, name), at in zip(labels, exact)), labels[:3])
    # what Audacity would export of labels there; where a frame's time ends in half a microsecond it may round to even
    other = as_audacity([(256 * frame + 512) / rate for frame in frames])
    halves = any((at * 2_000_000).denominator == 1 and (at * 1_000_000).denominator == 2 for at in exact)
    differs(f"{where}: Audacity's own labels", halves or other == text, other[:99])
    files += 5
    points += len(frames)

# ---- chunks and labels of others


def tried(what, expected, call):
    """A file of another program lent to a reader: read, or refused with the second reference's number."""
    global files, read
    files += 1
    number, frames = expected
    try:
        is_ = 0, list(call())
        read += 1
    except ph.Refused as error:
        is_ = error.number, []
        refused[error.number] = refused.get(error.number, 0) + 1
    differs(what, is_ == (number, frames), is_[0], number)


for number in range(max(100, count // 2)):
    frames, rate = grid()
    frames = (frames or [0])[:30]
    cues, at = told_of(frames), r.randrange(len(frames))
    change = r.randrange(9)
    field, value = {0: (0, r.choice([0, at, at + 2, 7])), 1: (1, r.randrange(2 ** 31)), 2: (2, int.from_bytes(b"slnt", sys.byteorder)),
                    3: (3, r.randrange(1, 99)), 4: (4, r.randrange(1, 99))}.get(change, (None, None))
    if field is not None:
        cues[at] = (*cues[at][:field], value, *cues[at][field + 1:])
    elif change in (5, 6):
        # a place that is no frame's, as an editor's marks have it, or another frame's
        place = r.randrange(2 ** 31) if change == 5 else 256 * r.randrange(most + 1) + 512
        cues[at] = (cues[at][0], place, DATA, 0, 0, place)
    elif change == 7:
        r.shuffle(cues)
        cues = [(k, *cue[1:]) for k, cue in enumerate(cues, 1)]
    chunk = by_sndfile_written(cues, 48_000)
    tried(f"libsndfile's chunk {number} of seed {seed}", reference.read_cues(chunk, len(chunk)), lambda: ph.read_cues(chunk))

for number in range(max(100, count // 2)):
    # label tracks by Audacity's own conventions: six decimals of a float, labels of any name, ranges, and at times a line of frequencies
    frames, _ = grid()
    rate, kind = r.choice(RATES), r.randrange(6)
    times = [(256 * frame + 512) / rate for frame in frames]
    if kind == 1:
        times = [time + r.choice([0, 0, 0, r.uniform(-0.01, 0.01)]) for time in times]
    lines = as_audacity([abs(time) for time in times]).splitlines(keepends=True)
    if kind == 2 and lines:
        lines[r.randrange(len(lines))] = b"%.6f\t%.6f\tbeat\n" % (1, 2)
    elif kind == 3 and lines:
        lines[r.randrange(len(lines))] = b"1.000000\t1.000000\t%s\n" % r.choice([b"", b"bar", b"beat 1", b"1.1"])
    elif kind == 4 and lines:
        lines.insert(r.randrange(len(lines)) + 1, b"\\\t100.000000\t2000.000000\n")
    elif kind == 5:
        lines = [line.replace(b"\n", b"\r\n") for line in lines]
    text, where = b"".join(lines), f"Audacity's labels {number} of seed {seed}"
    expected = reference.read_labels(text, rate, len(text))
    differs(f"{where}, which read", kind or expected == (0, frames), text[:99])
    tried(where, expected, lambda: ph.read_labels(text, rate))

# ---- calls: numbers, and all that is lent afterwards

CALLS = {
    "write_labels": (ph.write_labels_into, reference.write_labels), "write_cues": (ph.write_cues_into, reference.write_cues),
    "read_labels": (ph.read_labels_into, reference.read_labels), "read_cues": (ph.read_cues_into, reference.read_cues),
    "labels_to_cues": (ph.labels_to_cues_into, reference.labels_to_cues), "cues_to_labels": (ph.cues_to_labels_into, reference.cues_to_labels),
}
seen = {name: set() for name in [*CALLS, "labels_room"]}


def held(name, *words):
    """One call, with so many slots as the last word says."""
    global calls
    calls += 1
    call, expected = CALLS[name]
    *given, space = words
    number, made = expected(*given, space)
    seen[name].add(number)
    slots = name in ("read_labels", "read_cues")
    before = lent([r.getrandbits(32) for _ in range(space)]) if slots else bytearray(r.randbytes(space))
    out = before[:]
    taken = [lent(word) if isinstance(word, list) else word for word in given]
    try:
        is_ = 0, call(*taken, out)
    except ph.Refused as error:
        is_ = error.number, 0
    after = lent(made) if slots else bytearray(made)
    differs(f"{name}{tuple(given)!r:.300} in {space}", is_ == (number, len(made)) and out == after + before[len(made):], is_, number)


def roomed(frames, rate):
    global calls
    calls += 1
    number, size = reference.labels_room(frames, rate)
    seen["labels_room"].add(number)
    try:
        is_ = 0, ph.labels_room(lent(frames), rate)
    except ph.Refused as error:
        is_ = error.number, 0
    differs(f"labels_room of {frames[:9]} at {rate}", is_ == (number, size), is_, number)


def about(need):
    return max(0, need + r.choice([0, 0, 0, 1, 5, -1, -need]))


def listed(frames, rate):
    roomed(frames, rate)
    held("write_labels", frames, rate, about(len(reference.labels_of(frames, max(rate, 1)))))
    held("write_cues", frames, about(12 + 24 * len(frames)))


for rate in (0, 1, 2, 7, 32_768, 44_100, 48_000, 191_999, 192_000, 192_001, 2 ** 32 - 1):
    for frames in ([], [0], [most], [most + 1], [0, 0], [1, 0], [0, 1], [0, most], [0, most + 1], [0, 1, 1], [0, 2, 1], [most, 0, most + 1], [0, 2 ** 32 - 1],
                   [5, 6, 7, 2_000], [most - 1, most]):
        for _ in range(4):
            listed(frames, rate)
for _ in range(4 * count):
    frames, rate = grid()
    frames = frames[:12]
    if frames and r.random() < 0.3:
        frames[r.randrange(len(frames))] = r.choice([0, frames[0], frames[-1], most, most + 1, 2 ** 32 - 1])
    listed(frames, r.choice([rate, rate, rate, 0, 1, 192_001]))


def texts(text, rate):
    lines = text.count(b"\n")
    held("read_labels", text, rate, about(lines))
    held("labels_to_cues", text, rate, about(12 + 24 * lines))


def chunks(chunk, rate):
    held("read_cues", chunk, about(max(0, len(chunk) - 12) // 24))
    held("cues_to_labels", chunk, rate, about(len(reference.labels_of(reference.frames_in_cues(chunk)[1], max(rate, 1)))))


# each single byte of a good one as every other, left out, there twice; each beginning; and bytes behind it
good = reference.labels_of([0, 1_874], 48_000)
for at in range(len(good)):
    for value in range(256):
        texts(good[:at] + bytes([value]) + good[at + 1:], 48_000)
    for other in (good[:at], good[:at] + good[at + 1:], good[:at + 1] + good[at:]):
        texts(other, 48_000)
good = reference.cues_of([0, 94])
for at in range(len(good)):
    for value in range(256):
        chunks(good[:at] + bytes([value]) + good[at + 1:], 48_000)
    for other in (good[:at], good[:at] + good[at + 1:], good[:at + 1] + good[at:]):
        chunks(other, 48_000)
for more in (b"\n", b"\r\n", b"\0", b" ", b"beat", bytes(24)):
    texts(reference.labels_of([0, 94], 48_000) + more, 48_000)
    chunks(good + more, 48_000)


def line(time):
    return b"%s\t%s\tbeat\n" % (time, time)


# 9 anywhere before 10 anywhere, before 11, then 3: lines and points of every kind in every order
kinds = [line(b"0.010667"), line(b"0.512000"), line(b"7.000000"), line(b"00.512000"), b"0.512000\t0.512000\tbeat\r\n"]
for many in range(4):
    for k in range(len(kinds) ** many):
        chosen = [k // len(kinds) ** j % len(kinds) for j in range(many)]
        for rate in (48_000, 0):
            texts(b"".join(kinds[one] for one in chosen), rate)
            offsets = [[512, 24_576, 513, 0, 24_576][one] for one in chosen]
            chunk = bytearray(reference.chunk_of(offsets))
            if 4 in chosen:
                chunk[12 + 24 * chosen.index(4)] ^= 1
            chunks(bytes(chunk), rate)
# times of every form about one, in the first place, the second and both; words, and lines that end otherwise
for time in (b"", b".", b"0", b"0.", b"0.51200", b"0.5120000", b"0.512000", b".512000", b"00.512000", b"+0.512000", b"-0.512000", b" 0.512000", b"0.512000 ",
             b"0,512000", b"0.512 00", b"5.12e-1", b"0x0.5120", b"01.000000", b"10.000000", b"0.0.512000", b"nan", b"0.51200\xd9\xa5", b"0.512000\0"):
    for text in (line(time), b"%s\t0.512000\tbeat\n" % time, b"0.512000\t%s\tbeat\n" % time, line(b"0.010667") + line(time)):
        texts(text, 48_000)
for word in (b"", b"Beat", b"beats", b"bea", b"beat ", b" beat", b"beat\t", b"beat\tbeat", b"beat\0", b"1.1"):
    for end in (b"\n", b"\r\n", b"\r", b"\n\n", b""):
        texts(b"0.512000\t0.512000\t" + word + end, 48_000)
# seconds of any number of digits; those of a frame's time where a number of so many bits would wrap round
for time in [b"9" * digits + b".512000" for digits in (9, 10, 19, 20, 39, 1_000, 10_000)] + [
        b"%d.%06d" % divmod(2 ** bits + 512_000, 1_000_000) for bits in (32, 53, 63, 64, 128)]:
    for text in (line(time), line(b"0.010667") + line(time), line(time) + time, line(time) + line(b"0.512000").replace(b".", b",")):
        texts(text, 48_000)
# every microsecond about a frame's time
for rate, frame in ((48_000, 0), (32_768, 1), (44_100, 94), (192_000, most), (1, most), (1, 0), (7, 3), (191_999, 524_288)):
    for near in range(max(0, reference.time_of(frame, rate) - 4), reference.time_of(frame, rate) + 5):
        texts(line(b"%d.%06d" % divmod(near, 1_000_000)), rate)


def damaged(made):
    made = bytearray(made)
    for _ in range(r.choice([0, 0, 1, 2])):
        at = r.randrange(len(made) + 1)
        made[at:at + r.choice([0, 1, 1, 24])] = r.choice([r.randbytes(r.choice([0, 1, 1, 24])), bytes([r.choice(b"0123456789.\t\r\n beat")])])
    return bytes(made)


for _ in range(4 * count):
    frames, rate = grid()
    frames = frames[:12]
    if frames and r.random() < 0.2:
        frames[r.randrange(len(frames))] = r.choice([0, frames[0], frames[-1], most])
    asked = r.choice([rate, rate, rate, rate, 0, 192_001, 44_100])
    texts(damaged(reference.labels_of(frames, rate)), asked)
    chunks(damaged(reference.chunk_of([256 * frame + 512 + r.choice([0] * 60 + [1, 128]) for frame in frames])), asked)

every = {"write_labels": {0, 1, 3, 11}, "write_cues": {0, 1, 3, 11}, "labels_room": {0, 1, 11}, "read_labels": {0, 1, 3, 9, 10, 11},
         "read_cues": {0, 3, 9, 10, 11}, "labels_to_cues": {0, 1, 3, 9, 10, 11}, "cues_to_labels": {0, 1, 3, 9, 10, 11}}
differs("numbers that were given", seen == every, seen)
print(f"formats: {count} grids of {points} frames as cue chunks, read by {sndfile.sf_version_string().decode()}, and as labels; of"
      f" {read + sum(refused.values())} files of others {read} read and " + ", ".join(f"{many} refused with {no}" for no, many in sorted(refused.items())))
print(f"{files} files, {calls} calls, {len(wrong)} differences")
sys.exit(1 if wrong else 0)
