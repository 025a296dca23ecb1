"""Tempo tracks of the library, read and written by midicsv and by mido: midi.py SEED COUNT FOLDER (tools/formats runs it)."""
import array
import io
import pathlib
import random
import subprocess
import sys

import mido

import prohunsev as ph
import tempo_track as reference

seed, count, room = int(sys.argv[1]), int(sys.argv[2]), pathlib.Path(sys.argv[3])
r = random.Random(seed)
files = calls = tempos = read = refused = 0
wrong = []


def differs(what, fine, *told):
    if not fine:
        wrong.append(what)
        if len(wrong) <= 5:
            print(f"formats: {what}:", *told)


def frames(beats):
    return array.array("I", beats)


# ---- the two programs


def by_midicsv(file):
    """What midicsv tells of a file: format, tracks and division, and each event behind them; or None where it tells an error."""
    (room / "one.mid").write_bytes(file)
    done = subprocess.run(["midicsv", str(room / "one.mid")], capture_output=True, text=True)
    if done.returncode or done.stderr:
        return None
    rows = [[word.strip() for word in line.split(",")] for line in done.stdout.splitlines()]
    head = [int(word) for word in rows[0][3:]] if rows and rows[0][2] == "Header" else None
    return head, [(int(row[1]), row[2], *map(int, row[3:])) for row in rows[1:]]


def as_midicsv(gaps):
    """What it must tell of a tempo track with these gaps: times in ticks, from the start of the track."""
    events = [(96 * k, "Tempo", gap) for k, gap in enumerate(gaps)]
    return [0, 1, 96], [(0, "Start_track"), *events, (96 * len(gaps), "End_track"), (0, "End_of_file")]


def by_csvmidi(told):
    """The file that csvmidi writes of such a telling."""
    head, events = told
    lines = [f"0, 0, Header, {', '.join(map(str, head))}"]
    lines += [", ".join(["0" if event[1] == "End_of_file" else "1", *map(str, event)]) for event in events]
    (room / "one.csv").write_text("\n".join(lines) + "\n")
    done = subprocess.run(["csvmidi", str(room / "one.csv")], capture_output=True)
    if done.returncode or not done.stdout.startswith(b"MThd"):
        sys.exit(f"formats: csvmidi wrote no file: {done.stderr.decode(errors='replace').strip()}")
    return done.stdout


def by_mido(file):
    """What mido tells of a file: type, division, and of its tracks each message's kind, delta and tempo."""
    said = mido.MidiFile(file=io.BytesIO(file))
    return said.type, said.ticks_per_beat, [[(m.type, m.time, getattr(m, "tempo", None)) for m in track] for track in said.tracks]


def as_mido(gaps):
    """What it must tell of a tempo track with these gaps: times since the message before."""
    return 0, 96, [[*(("set_tempo", 96 if k else 0, gap) for k, gap in enumerate(gaps)), ("end_of_track", 96, None)]]


def written_by_mido(kind, division, tracks):
    made = mido.MidiFile(type=kind, ticks_per_beat=division)
    made.tracks.extend(mido.MidiTrack(track) for track in tracks)
    file = io.BytesIO()
    made.save(file=file)
    return file.getvalue()


def tempo(gap, time):
    return mido.MetaMessage("set_tempo", tempo=gap, time=time)


def end(time):
    return mido.MetaMessage("end_of_track", time=time)


# ---- grids


def grid():
    """A grid that has a track: a beat that drifts and trembles, steps of any size, or the longest that there are."""
    # at 32,768 and 65,536 times end in halves
    rate = r.choice([8_000, 11_025, 16_000, 22_050, 32_768, 44_100, 48_000, 65_536, 88_200, 96_000, 192_000, r.randint(1_000, 192_000)])
    longest = max(1, rate * 1_024 // 15_625 - 1)
    kind, beats, at = r.randrange(4), [], r.choice([0, 1, r.randrange(2_000), r.randrange(900_000)])
    period = min(longest, rate / 256 * 60 / r.uniform(30, 300))
    for _ in range(r.choice([2, 3, r.randint(2, 40), r.randint(2, 400)])):
        if at > reference.MOST_FRAME:
            break
        beats.append(at)
        step = [period + r.uniform(-2, 2), r.randint(1, min(longest, 300)), r.randint(1, longest), longest][kind]
        at += max(1, min(longest, round(step)))
        period *= 1 + r.uniform(-0.001, 0.001)
    return (beats, rate) if len(beats) > 1 else grid()


for number in range(count):
    beats, rate = grid()
    gaps = reference.gaps_of(beats, rate)
    where = f"grid {number} of seed {seed}, {len(beats)} beats at {rate}"
    try:
        file = ph.write_tempo_track(frames(beats), rate)
        ours = list(ph.read_tempo_track(file))
    except ph.Refused as error:
        differs(where, False, error)
        continue
    differs(f"{where}: the file", file == reference.file_of(gaps), file.hex())
    differs(f"{where}: the gaps", ours == gaps, ours[:9], gaps[:9])
    told = by_midicsv(file)
    differs(f"{where}: midicsv", told == as_midicsv(ours), told and told[0], told and told[1][:9])
    told = by_mido(file)
    differs(f"{where}: mido", told == as_mido(ours), told[:2], told[2][:1])
    seconds = mido.MidiFile(file=io.BytesIO(file)).length
    lasts = (reference.time_of(beats[-1], rate) - reference.time_of(beats[0], rate)) / 1e6
    differs(f"{where}: its length", abs(seconds - lasts) < 1e-6 * max(1, lasts), seconds, lasts)
    # the same tempos, written by them
    differs(f"{where}: csvmidi's file", by_csvmidi(as_midicsv(gaps)) == file)
    by_others = [tempo(gap, 96 if k else 0) for k, gap in enumerate(gaps)] + [end(96)]
    differs(f"{where}: mido's file", written_by_mido(0, 96, [by_others]) == file)
    files += 1
    tempos += len(gaps)

# ---- files of others: mido tells which of its own are of the shape


def shaped(told):
    kind, division, tracks = told
    gaps = [message[2] for track in tracks for message in track[:-1]]
    return bool(gaps) and None not in gaps and 0 not in gaps and told == as_mido(gaps)


def other():
    """A file as programs write them: tempos, and mostly something beside them, or something else about them."""
    gaps = [r.choice([1, 0, 500_000, r.randint(1, 16_777_215)] if r.random() < 0.2 else [r.randint(200_000, 2_000_000)]) for _ in range(r.randrange(6))]
    track = [tempo(gap, 96 if k else 0) for k, gap in enumerate(gaps)] + [end(96)]
    kind, division, tracks = 0, 96, [track]
    if r.random() < 0.75:
        change = r.randrange(8)
        at = r.randrange(len(track))
        if change == 0:
            track[at] = track[at].copy(time=r.choice([0, 95, 97, 127, 128, 192, 480, 96]))
        elif change == 1:
            division = r.choice([24, 48, 95, 97, 120, 480, 960])
        elif change == 2:
            kind = 1
        elif change == 3:
            kind, tracks = 1, [track, [mido.Message("note_on", note=60), mido.Message("note_off", note=60, time=96), end(0)]]
        elif change == 4:
            track.insert(at, mido.MetaMessage("time_signature", numerator=r.choice([3, 4])))
        elif change == 5:
            track.insert(at, mido.MetaMessage("track_name", name="beats"))
        elif change == 6:
            track[at:at] = [mido.Message("note_on", note=60), mido.Message("note_off", note=60)]
        else:
            track.insert(at, tempo(400_000, r.choice([0, 96])))
    return written_by_mido(kind, division, tracks)


def tried(file, fine, where):
    """A file lent to the reader: read, or refused with 8."""
    global files, read, refused
    files += 1
    try:
        gaps = list(ph.read_tempo_track(file))
        differs(f"{where} is read", fine and gaps == reference.read(file, len(file))[1], file.hex())
        read += 1
    except ph.Refused as error:
        differs(f"{where} is refused with {error.number}", not fine and error.number == 8, file.hex())
        refused += 1


for number in range(max(40, count // 2)):
    file = other()
    tried(file, shaped(by_mido(file)), f"mido's file {number} of seed {seed}")
for number, (head, events) in enumerate([
    ([0, 1, 96], [(0, "Start_track"), (0, "Tempo", 500_000), (96, "End_track"), (0, "End_of_file")]),
    ([0, 1, 480], [(0, "Start_track"), (0, "Tempo", 500_000), (96, "End_track"), (0, "End_of_file")]),
    ([1, 1, 96], [(0, "Start_track"), (0, "Tempo", 500_000), (96, "End_track"), (0, "End_of_file")]),
    ([0, 1, 96], [(0, "Start_track"), (0, "Tempo", 0), (96, "End_track"), (0, "End_of_file")]),
    ([0, 1, 96], [(0, "Start_track"), (96, "Tempo", 500_000), (192, "End_track"), (0, "End_of_file")]),
    ([0, 1, 96], [(0, "Start_track"), (0, "Tempo", 500_000), (0, "End_track"), (0, "End_of_file")]),
    ([0, 1, 96], [(0, "Start_track"), (0, "Tempo", 500_000), (96, "Tempo", 400_000), (288, "Tempo", 1), (384, "End_track"), (0, "End_of_file")]),
    ([0, 1, 96], [(0, "Start_track"), (96, "End_track"), (0, "End_of_file")]),
    ([0, 1, 96], [(0, "Start_track"), (0, "Note_on_c", 0, 60, 64), (96, "Note_on_c", 0, 60, 0), (96, "End_track"), (0, "End_of_file")]),
]):
    tried(by_csvmidi((head, events)), number == 0, f"csvmidi's file {number}")

# ---- calls: numbers, and all that is lent afterwards


def written(beats, rate, space):
    global calls
    calls += 1
    number, file = reference.write(beats, rate, space)
    before = r.randbytes(space)
    lent = bytearray(before)
    try:
        is_ = 0, ph.write_tempo_track_into(frames(beats), rate, lent)
    except ph.Refused as error:
        is_ = error.number, 0
    differs(f"beats {beats[:9]} at {rate} in {space} bytes", is_ == (number, len(file)) and bytes(lent) == file + before[len(file):], is_, number)


def taken(file, space):
    global calls
    calls += 1
    number, gaps = reference.read(file, space)
    before = [r.getrandbits(32) for _ in range(space)]
    lent = frames(before)
    try:
        is_ = 0, ph.read_tempo_track_into(file, lent)
    except ph.Refused as error:
        is_ = error.number, 0
    differs(f"the file {file.hex()} in {space} slots", is_ == (number, len(gaps)) and list(lent) == gaps + before[len(gaps):], is_, number)


def about(need):
    return max(0, need + r.choice([0, 0, 0, 1, 5, -1, -need]))


most = reference.MOST_FRAME
for rate in (0, 1, 2, 7, 15_625, 32_768, 44_100, 48_000, 191_999, 192_000, 192_001, 2 ** 32 - 1):
    for beats in ([], [0], [most], [most + 1], [0, 0], [1, 0], [0, 1], [0, most], [0, most + 1], [0, 1, 1], [0, 2, 1], [most, 0, most + 1],
                  [0, 2 ** 32 - 1], [0, 1_023, 2_047], [0, 1_024], [5, 6, 7, 2_000], [most - 1, most]):
        for space in (0, 26 + 7 * max(0, len(beats) - 1) - 1, 26 + 7 * max(0, len(beats) - 1), 60):
            written(beats, rate, space)
# gaps of exactly 16,777,215 and of one more: 1,024 frames at 15,625 are 16,777,216 microseconds
edges = {16_777_214: 0, 16_777_215: 0, 16_777_216: 0}
for rate in range(1, reference.MOST_RATE + 1):
    long = (rate * 1_024 + 12) // 15_625
    if (rate * 1_024 + 12) % 15_625 <= 24:
        for first in (0, 1, 3, 900_000):
            beats = [first, first + long]
            gap = reference.gaps_of(beats, rate)[0]
            if gap in edges:
                edges[gap] += 1
                written(beats, rate, 33)
differs("gaps at the bound", all(edges.values()), edges)
for _ in range(4 * count):
    beats, rate = grid()
    beats = beats[:12]
    for _ in range(r.choice([0, 0, 1])):
        at = r.randrange(len(beats))
        beats[at] = r.choice([0, beats[-1 - at], beats[at] + 1, most, most + 1, 2 ** 32 - 1])
    written(beats, r.choice([rate, rate, rate, 0, 1, 192_001]), about(26 + 7 * (len(beats) - 1)))
good = reference.file_of([500_000, 1, 16_777_215])
for at in range(len(good)):
    for value in range(256):
        taken(good[:at] + bytes([value]) + good[at + 1:], r.choice([0, 2, 3, 4]))
    taken(good[:at], 3)
    taken(good[:at] + good[at + 1:], 3)
for space in range(5):
    taken(good, space)
    taken(good + bytes(7 * space), 9)
for more in range(1, 9):
    taken(good + bytes(more), 9)
    taken(reference.file_of([]) + bytes(more - 1), 9)
for _ in range(4 * count):
    gaps = [r.choice([1, 16_777_215, r.randint(1, 16_777_215)]) for _ in range(r.randrange(8))]
    file = bytearray(reference.file_of(gaps))
    for _ in range(r.choice([0, 0, 1, 2])):
        at = r.randrange(len(file))
        file[at:at + r.choice([0, 1, 1, 7])] = r.randbytes(r.choice([0, 1, 1, 7]))
        file = file or bytearray(1)
    taken(bytes(file), about(len(gaps)))

if not (read and refused and files):
    wrong.append("nothing that they wrote otherwise was both read and refused")
version = ".".join(map(str, mido.version_info[:3])) if hasattr(mido, "version_info") else ""
print(f"formats: {count} grids of {tempos} tempos, read by midicsv and by mido {version}; of"
      f" {read + refused} files that they wrote otherwise {read} read and {refused} refused with 8; gaps at the bound {edges}")
print(f"{files} files, {calls} calls, {len(wrong)} differences")
sys.exit(1 if wrong else 0)
