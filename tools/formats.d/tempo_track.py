"""Tempo tracks by the words of document 02, No. 3, and of the Standard MIDI Files specification alone: a second reference, in exact fractions.

Each function answers a number of refusal and what was made: the number is the first of the request's order that applies, 0 for an answer."""
from fractions import Fraction
from math import floor

MOST_RATE, MOST_FRAME, MOST_TEMPO = 192_000, 1_048_575, 16_777_215
DIVISION = 96


def time_of(frame, rate):
    """A beat's time, "rounded half up to whole microseconds": that of the frame's centre, sample 256 t + 512."""
    return floor(Fraction((256 * frame + 512) * 1_000_000, rate) + Fraction(1, 2))


def gaps_of(beats, rate):
    """"each tempo is the difference of two such times" """
    times = [time_of(beat, rate) for beat in beats]
    return [after - before for before, after in zip(times, times[1:])]


def file_of(gaps):
    """"format 0, one track, division 96, one Set Tempo event per beat gap, the first at delta 0 and the others 96 apart, end of track 96 after
    the last" """
    def number(value, size):
        return value.to_bytes(size, "big")

    def chunk(name, body):
        return name + number(len(body), 4) + body

    def meta(delta, kind, body):
        return bytes([delta, 0xFF, kind, len(body)]) + body

    tempos = [meta(DIVISION if k else 0, 0x51, number(gap, 3)) for k, gap in enumerate(gaps)]
    return chunk(b"MThd", number(0, 2) + number(1, 2) + number(DIVISION, 2)) + chunk(b"MTrk", b"".join(tempos) + meta(DIVISION, 0x2F, b""))


def write(beats, rate, room):
    """"Refusals: 6 for fewer than two beats or frames not strictly ascending, 7 for a gap above 16,777,215, .. in that order after 1, then 3 when
    the output doesn't fit." """
    if not 1 <= rate <= MOST_RATE or any(beat > MOST_FRAME for beat in beats):
        return 1, b""
    if len(beats) < 2 or any(after <= before for before, after in zip(beats, beats[1:])):
        return 6, b""
    gaps = gaps_of(beats, rate)
    if any(gap > MOST_TEMPO for gap in gaps):
        return 7, b""
    # "k beats take 26 + 7·(k-1) bytes"
    return (3, b"") if room < 26 + 7 * (len(beats) - 1) else (0, file_of(gaps))


def read(file, room):
    """"it takes exactly this shape, with one gap at least, and gives back the microsecond gaps"; "8 for a file of another shape or a tempo of 0"."""
    gaps = [int.from_bytes(file[at:at + 3], "big") for at in range(26, len(file) - 4, 7)]
    if not gaps or 0 in gaps or file_of(gaps) != bytes(file):
        return 8, []
    return (3, []) if room < len(gaps) else (0, gaps)
