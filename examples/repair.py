#!/usr/bin/env python3
"""Repairs a track: two minutes of clicks with twenty seconds of noise in them are analysed; the noise is replaced by what was played, and the
new grid comes from the mended curves. It equals that of a full run on the repaired rows, bit for bit.

    python3 examples/repair.py            says what is stored in examples/repair.txt
    python3 examples/repair.py --time     ten minutes of 513 bins: a repair's time beside a full run's

Needs NumPy and the shared library that python/README.md tells of."""
import os
import pathlib
import sys
import time

sys.path.insert(0, str(pathlib.Path(__file__).resolve().parent.parent / "python"))
try:
    import numpy as np
except ImportError:
    sys.exit("repair.py: this Python has no NumPy (Debian: apt-get install python3-numpy, and run it with /usr/bin/python3)")
try:
    import prohunsev as ph
except ImportError as missing:
    sys.exit(f"repair.py: {missing}")

RATE, HOP = 48_000, 256


def rows_in(seconds):
    return seconds * RATE // HOP


def clicks(rows, bins):
    """Clicks every 94 rows, 119.7 beats a minute, each ringing for some rows over a floor, the first of a bar the loudest."""
    magnitudes = np.full((rows, bins), 0.01, np.float32)
    for beat, at in enumerate(range(5, rows, 94)):
        loud = np.float32(3.0 if beat % 4 == 0 else 1.0)
        for row in range(at, min(at + 8, rows)):
            magnitudes[row] += loud
            loud *= np.float32(0.5)
    return magnitudes


def noise(rows, bins, loud):
    """A damaged stretch: each value is a hash of its place."""
    x = np.arange(1, rows * bins + 1, dtype=np.uint32) * np.uint32(2_654_435_761)
    x = (x ^ x >> np.uint32(15)) * np.uint32(2_246_822_519)
    x = (x ^ x >> np.uint32(13)) >> np.uint32(8)
    return (x.astype(np.float32) / np.float32(2 ** 24) * np.float32(loud)).reshape(rows, bins)


def show(what, track, start, past):
    """The answers in numbers, and the first beats from the damage on."""
    tempo = f"{track.tempo.bpm:.2f} bpm, clarity {track.tempo.clarity:.3f}" if track.tempo else "no tempo"
    print(f"{what}: {tempo}, {len(track.onsets)} onsets, {len(track.beats)} beats, {len(track.downbeats)} downbeats")
    there = [beat for beat in track.beats if start <= beat < past]
    print(f"  {len(there)} beats in the twenty seconds, at rows {' '.join(map(str, there[:8]))} ..")


def told(buffers, track):
    """Everything that an analysis tells, floats by their bits."""
    curves = (buffers.flux, buffers.threshold, buffers.clarity, buffers.weight)
    return repr(track[:3]), [list(frames) for frames in track[3:]], [bytes(curve) for curve in curves]


def repair():
    rows, bins, start, count = rows_in(120), 16, rows_in(50), rows_in(20)
    played = clicks(rows, bins)
    magnitudes = played.copy()
    magnitudes[start:start + count] = noise(count, bins, 6.0)

    buffers = ph.Buffers(rows, RATE)
    show("damaged", buffers.analyse_magnitudes(magnitudes, rate=RATE), start, start + count)

    # the rows that replace the noise go into `magnitudes`, and the buffers' flux and threshold are mended around them
    patched = buffers.patch_magnitudes(magnitudes, start=start, new_rows=played[start:start + count])
    flux, threshold = patched
    print(f"rows {start} to {start + count - 1} of {rows} replaced")
    print(f"  mended: flux {flux[0]} to {flux[-1]}, threshold {threshold[0]} to {threshold[-1]}")

    # the grid, from the mended curves
    track = buffers.analyse_patched()
    show("repaired", track, start, start + count)

    full = ph.Buffers(rows, RATE)
    if told(buffers, track) != told(full, full.analyse_magnitudes(magnitudes, rate=RATE)):
        sys.exit("repair.py: a full run on the repaired rows differs")
    print("a full run on the repaired rows: the same answers, lists and curves, bit for bit")


def least(run):
    """The least of seven runs, in milliseconds of the processor, which other programs at work change little."""
    taken = []
    for _ in range(7):
        begun = time.process_time()
        run()
        taken.append(time.process_time() - begun)
    return min(taken) * 1e3


def timed():
    rows, bins, start, count = rows_in(600), 513, rows_in(290), rows_in(20)
    # a floor that isn't flat, as music has
    magnitudes = clicks(rows, bins) + noise(rows, bins, 0.2)
    new = magnitudes[start:start + count].copy()
    buffers = ph.Buffers(rows, RATE)
    full = least(lambda: buffers.analyse_magnitudes(magnitudes, rate=RATE))
    patch = least(lambda: buffers.patch_magnitudes(magnitudes, start=start, new_rows=new))
    grid = least(buffers.analyse_patched)
    flux = np.array(buffers.flux)
    again = least(lambda: buffers.analyse_envelope(flux, RATE))
    print(f"{rows} rows of {bins} bins, {count} of them replaced; the least of seven runs, ms of the processor")
    print(f"a full run {full:.1f}; a patch {patch:.1f} and the new grid {grid:.1f}, together {patch + grid:.1f}")
    print(f"the grid with thresholds computed again (analyse_envelope) {again:.1f}")


def main(words):
    if words in (["-h"], ["--help"]):
        print(__doc__)
    elif words and words != ["--time"]:
        print(__doc__, file=sys.stderr)
        return 2
    elif words:
        timed()
    else:
        repair()
    sys.stdout.flush()
    return 0


if __name__ == "__main__":
    try:
        status = main(sys.argv[1:])
    except OSError as lost:
        # a full disk, or a reader that is gone: nothing more can be written, at the end neither
        os.dup2(os.open(os.devnull, os.O_WRONLY), sys.stdout.fileno())
        print(f"repair.py: the output is lost: {lost}", file=sys.stderr)
        status = 1
    except KeyboardInterrupt:
        status = 130
    sys.exit(status)
