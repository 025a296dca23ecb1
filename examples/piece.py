#!/usr/bin/env python3
"""Renders the piece that test_tag.py tags and docs/tag.svg shows: python3 examples/piece.py FILE.wav [TIMES]

Sixty-four seconds at 44,100 samples a second, 120 beats a minute from 0.5 s on, four beats a bar, the first of each the loudest. Sixteen bars
of soft minor chords with a click on each beat, then sixteen of bright major chords with a click on each half beat. Nothing in it is drawn
by lot: the same recipe gives the same samples. With TIMES the piece is written so many times, one after the other: 57 make an hour. Needs
NumPy."""
import sys
import wave

import numpy as np

RATE, BPM, BARS, FIRST = 44_100, 120.0, 32, 0.5
CHANGE = FIRST + BARS // 2 * 4 * 60 / BPM  # where the second section begins, in seconds
# half a bar's chords each, in semitones from A at 220 Hz
SOFT, BRIGHT = ((0, 3, 7), (-4, 0, 3)), ((3, 7, 10, 15), (5, 9, 12, 17))


def noise(count):
    """Numbers from -1 to 1 that look like noise: a multiplicative hash of the index."""
    return (np.arange(1, count + 1, dtype=np.uint64) * np.uint64(2654435761) % np.uint64(2 ** 32)).astype(np.float64) / 2.0 ** 31 - 1


def click(loud):
    """A beat's click: sixty milliseconds of decaying noise, and a thump."""
    t = np.arange(int(0.06 * RATE)) / RATE
    return loud * (0.6 * noise(len(t)) * np.exp(-t / 0.008) + 0.4 * np.sin(2 * np.pi * 90 * t) * np.exp(-t / 0.02))


def chord(tones, seconds, bright):
    """A chord with a slow beginning, so that the clicks carry the rhythm."""
    t = np.arange(int(seconds * RATE)) / RATE
    swell = np.minimum(1, np.minimum(t, seconds - t) / 0.2)
    sound = np.zeros(len(t))
    for tone in tones:
        hz = 220 * 2 ** (tone / 12)
        for harmonic in range(1, 9 if bright else 3):
            sound += np.sin(2 * np.pi * hz * harmonic * t) / harmonic
    return (0.05 if bright else 0.03) * swell * sound


def piece():
    """The samples, float64 from -1 to 1."""
    beat = 60 / BPM
    samples = np.zeros(int((FIRST + BARS * 4 * beat - 0.5) * RATE))

    def put(at, sound):
        start = int(round(at * RATE))
        end = min(len(samples), start + len(sound))
        samples[start:end] += sound[:end - start]

    for bar in range(BARS):
        bright = bar >= BARS // 2
        for half in range(8):
            if half % 4 == 0:
                put(FIRST + beat * (4 * bar + half / 2), chord((BRIGHT if bright else SOFT)[half // 4], 2 * beat, bright))
            if half % 2 == 0 or bright:
                put(FIRST + beat * (4 * bar + half / 2), click((0.9 if half == 0 else 0.5) if half % 2 == 0 else 0.15))
    return samples


def write(path, samples, times=1):
    """Writes 16-bit mono WAV."""
    data = np.round(np.clip(samples, -1, 1) * 32767).astype("<i2").tobytes()
    with wave.open(path, "wb") as out:
        out.setnchannels(1)
        out.setsampwidth(2)
        out.setframerate(RATE)
        for _ in range(times):
            out.writeframes(data)


if __name__ == "__main__":
    if len(sys.argv) not in (2, 3) or not all(word.isdigit() for word in sys.argv[2:]):
        sys.exit("usage: python3 examples/piece.py FILE.wav [TIMES]")
    write(sys.argv[1], piece(), *map(int, sys.argv[2:]))
