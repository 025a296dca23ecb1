#!/usr/bin/env python3
"""From a song to its grid: onsets, tempo, beats, downbeats, stability and sections of a recording.

    python3 examples/tag.py SONG.wav
    python3 examples/tag.py SONG.wav --json song.json --labels song.txt --midi song.mid --cues song.cues --picture song.svg

Says a few lines on standard output, and writes the files that are asked for: JSON, labels that Audacity imports, a MIDI file of the tempo from beat
to beat, the beats as a cue chunk for a WAV file, a picture. WAV of 8, 16, 24 or 32 bits, or float, is read here; any other file by ffmpeg or sox,
where one is on the path. Needs Python 3.8 or newer, NumPy, and the library, as python/prohunsev.py finds it. docs/USE.md says what the answers
mean, and how far to trust them.

What is proved begins at the magnitudes: flux, threshold, onsets, tempo, stability, beats, downbeats, times, feature rows, similarity, novelty
and boundaries are calls of the library, and so are the MIDI file's and the cue chunk's. Reading the file and the two transforms are NumPy's and are not proved.

The exit is 0 with an answer ("no tempo" is one), 1 where the song can't be read or analysed or a file can't be written, 2 for wrong use,
130 when interrupted. A file that is asked for is written whole or not at all."""
import argparse
import contextlib
import json
import math
import os
import re
import shutil
import struct
import subprocess
import sys
import tempfile
import time
from xml.sax.saxutils import escape

HERE = os.path.dirname(os.path.abspath(__file__))
sys.dont_write_bytecode = True  # a clone stays as it was cloned

try:
    import numpy as np
except ImportError:
    sys.exit("tag: this example needs NumPy, which %s doesn't have. Debian's python3-numpy serves /usr/bin/python3:\n"
             "tag: apt-get install python3-numpy, then /usr/bin/python3 %s SONG.wav" % (sys.executable, sys.argv[0]))

# the module of the clone that this file lies in; a copy of this file elsewhere takes the module that is installed
if os.path.isfile(os.path.join(HERE, "..", "python", "prohunsev.py")):
    sys.path.insert(0, os.path.join(HERE, "..", "python"))
try:
    import prohunsev as ph
except ImportError as error:
    sys.exit("tag: %s" % error)

FRAME, HOP, BINS = 1024, 256, 513                # what a magnitude row is: docs/src/onsets.rs
WIDE_FRAME, WIDE_HOP, WIDE_BINS = 4096, 1024, 2049  # the transform under the feature rows: docs/src/structure.rs
MOST_ROWS, MOST_FEATURE_ROWS, MOST_RATE = 1_048_576, 50_000, 192_000  # the library's limits
MOST_SECTIONS = 12                               # the original's default
BLOCK = 1 << 17                                  # samples read at a time: 512 rows, which stay in a processor's cache
LOUDEST = 2.0 ** 100                             # a float file may hold more; no sum or magnitude of such samples is too large for a call


class Trouble(Exception):
    """What the user can do something about, in words."""


# ---- reading


class Wav:
    """A WAV stream, read front to back: the module wave refuses float and, before Python 3.12, the extensible header of most 24-bit files."""

    def __init__(self, stream, name, piped=False):
        self.stream, self.name, self.code, self.warning = stream, name, None, None
        head = stream.read(12)
        self.is_empty = not head
        self.is_wav = head[:4] == b"RIFF" and head[8:] == b"WAVE"
        if self.is_wav:
            self._find_data(piped)

    def _find_data(self, piped):
        while True:
            head = self.stream.read(8)
            if len(head) < 8:
                raise Trouble("%s: a WAV file without %s" % (self.name, "a format" if self.code is None else "a data chunk"))
            kind, size = head[:4], struct.unpack("<I", head[4:])[0]
            if kind == b"data":
                break
            if kind == b"fmt ":
                head = self.stream.read(min(size, 64))
                self._format(head)
                self._skip(size - len(head) + size % 2)
            else:
                self._skip(size + size % 2)
        if self.code is None:
            raise Trouble("%s: a WAV file whose data stands before its format" % self.name)
        # a program that writes to a pipe can't know the size and leaves a filler: then the data are what comes
        self.bytes = None if piped or size >= 0xFFFFFF00 else size

    def _skip(self, size):
        while size:
            part = self.stream.read(min(size, 1 << 20))
            if not part:
                return
            size -= len(part)

    def _format(self, chunk):
        if len(chunk) < 16:
            raise Trouble("%s: a WAV file whose format is cut short" % self.name)
        self.code, self.channels, self.rate, _, self.align, self.bits = struct.unpack("<HHIIHH", chunk[:16])
        if self.code == 0xFFFE and len(chunk) >= 26:
            self.code = struct.unpack("<H", chunk[24:26])[0]
        if not self.channels or not self.rate:
            raise Trouble("%s: a WAV file of %d channels at %d samples a second" % (self.name, self.channels, self.rate))

    @property
    def is_read_here(self):
        kinds = {1: (8, 16, 24, 32), 3: (32, 64)}
        return self.bits in kinds.get(self.code, ()) and self.align == self.channels * self.bits // 8

    @property
    def samples(self):
        """How many there are by the header, or None where it can't say."""
        return None if self.bytes is None else self.bytes // self.align

    def blocks(self):
        """Mono blocks of float32, as docs/src/audio.rs scales and mixes them, bit for bit."""
        left, done = self.bytes, 0
        while left is None or left:
            want = BLOCK * self.align
            raw = self.stream.read(want if left is None else min(want, left))
            if left is not None:
                left -= len(raw)
            whole = len(raw) // self.align * self.align
            if whole:
                yield self._mono(self._values(raw[:whole], done))
                done += whole // self.align
            if whole != len(raw) or not raw:
                if left or whole != len(raw):
                    told = "" if self.bytes is None else " of %s" % clock(self.bytes / self.align / self.rate, 1)
                    self.warning = "%s is cut short: %s%s is there, and analysed" % (self.name, clock(done / self.rate, 1), told)
                return

    def _values(self, raw, done):
        if self.code == 3:
            values = np.frombuffer(raw, "<f%d" % (self.bits // 8))
            with np.errstate(invalid="ignore"):
                fine = np.abs(values) <= LOUDEST  # no for what isn't a number
            if not fine.all():
                at = int(np.argmin(fine))
                raise Trouble("%s: the sample at %.6f s is %g: samples lie from -1 to 1, and none above %.2g is read"
                              % (self.name, (done + at // self.channels) / self.rate, values[at], LOUDEST))
            return values.astype(np.float32)
        if self.bits == 8:
            return (np.frombuffer(raw, np.uint8).astype(np.float32) - 128) / 128
        if self.bits == 24:
            wide = np.zeros((len(raw) // 3, 4), np.uint8)
            wide[:, 1:] = np.frombuffer(raw, np.uint8).reshape(-1, 3)
            return wide.view("<i4").ravel().astype(np.float32) / np.float32(2 ** 31)
        return np.frombuffer(raw, "<i%d" % (self.bits // 8)).astype(np.float32) / np.float32(2 ** (self.bits - 1))

    def _mono(self, values):
        channels = values.reshape(-1, self.channels)
        mono = channels[:, 0].copy()
        for k in range(1, self.channels):
            mono += channels[:, k]
        return mono / np.float32(self.channels)


def decoder(path):
    """The command that turns any recording into a float WAV on its standard output, or None."""
    path = os.path.abspath(path)  # begins with a slash, so no name is taken for an option
    if shutil.which("ffmpeg"):
        return ["ffmpeg", "-v", "error", "-nostdin", "-i", path, "-map", "0:a:0", "-f", "wav", "-c:a", "pcm_f32le", "-"]
    if shutil.which("sox"):
        return ["sox", "-V1", path, "-t", "wav", "-e", "floating-point", "-b", "32", "-"]
    return None


def told_name(path):
    """The file's name as it can be told anywhere: a byte that isn't UTF-8 and a character that can't be printed are told as others."""
    name = os.fsencode(os.path.basename(path)).decode("utf-8", "replace")
    return "".join(letter if letter.isprintable() else "?" for letter in name)


@contextlib.contextmanager
def recording(path):
    """The song as a Wav whose blocks can be read: the file itself, or what a decoder makes of it."""
    name = told_name(path)
    with open(path, "rb") as stream:
        wav = Wav(stream, name)
        if wav.is_empty:
            raise Trouble("%s is empty: there is no song in it" % name)
        if wav.is_wav and wav.is_read_here:
            yield wav
            return
        what = "WAV of format %d with %d bits" % (wav.code, wav.bits) if wav.is_wav else "not a WAV file"
    command = decoder(path)
    if command is None:
        raise Trouble("%s: %s. Other formats are read through ffmpeg or sox, and neither is on the path" % (name, what))
    with tempfile.TemporaryFile() as said:
        process = subprocess.Popen(command, stdin=subprocess.DEVNULL, stdout=subprocess.PIPE, stderr=said)
        try:
            wav = Wav(process.stdout, name, piped=True)
            readable = wav.is_wav and wav.is_read_here
            if readable:
                yield wav
            process.stdout.close()  # all of it was read; a decoder that would say more isn't waited for
            if process.wait() or not readable:
                said.seek(0)
                # the first says what is wrong, those behind it what follows, or which option would hide it
                first = (said.read().decode("utf-8", "replace").strip().splitlines() or ["no word of why"])[0]
                if "matches no streams" in first:
                    raise Trouble("%s: there is no sound in it, by %s" % (name, command[0]))
                first = re.sub(r"^\[[^]]*@ 0x[0-9a-f]+\] ", "", first)  # which part of ffmpeg says it, and where that lies in memory
                raise Trouble("%s: %s, and %s can't read it: %s" % (name, what, command[0], first))
        finally:
            process.kill()  # where it has ended already this does nothing
            process.stdout.close()
            process.wait()


# ---- the transform


def hann(size):
    """The original's window, docs/src/stft.rs `hann_window`: symmetric (size - 1 below the line), in float32 but for the cosine.

    The original takes libm's cosf. A float64 cosine rounded once gives the same bits at both sizes used here, but for one value, which cosf
    gives a bit too low; test_tag.py holds both windows to the original's."""
    phase = np.float32(2) * np.float32(np.pi) * np.arange(size, dtype=np.float32) / np.float32(size - 1)
    window = np.float32(0.5) - np.float32(0.5) * np.cos(phase.astype(np.float64)).astype(np.float32)
    if size == WIDE_FRAME:
        window[2346] = np.nextafter(window[2346], np.float32(0))
    return window


class Transform:
    """Magnitude rows of a song that comes in blocks: frames of `size` samples, `hop` apart, no padding at either end.

    Sample times window is rounded to float32, as in the original; the transform itself is float64 here and float32 there, so the last bits
    of a magnitude may differ from the original's, and from one NumPy to another."""

    def __init__(self, size, hop):
        self.size, self.hop, self.window = size, hop, hann(size)
        self.left = np.zeros(0, np.float32)

    def push(self, samples):
        """The rows that these samples complete, maybe none."""
        self.left = np.concatenate([self.left, samples])
        count = max(0, (len(self.left) - self.size) // self.hop + 1)
        step = self.left.strides[0]
        frames = np.lib.stride_tricks.as_strided(self.left, (count, self.size), (self.hop * step, step), writeable=False)
        spectrum = np.fft.rfft((frames * self.window).astype(np.float64), axis=1)
        self.left = self.left[count * self.hop:]
        with np.errstate(over="ignore"):
            return np.sqrt(spectrum.real ** 2 + spectrum.imag ** 2).astype(np.float32)


class Flux:
    """The onset strength of rows that come in chunks, bit for bit that of all rows at once.

    Slot t depends on rows t - 1 and t alone (law `flux_local`, crates/flux/proofs/Fluxes.antt), and the first slot of a call is 0, since no
    row stands before it. So each chunk after the first is lent with the row before it, and its first slot is dropped. The magnitudes of an
    hour are 1.3 GB; this keeps a few megabytes of them at a time."""

    def __init__(self):
        self.last, self.parts = np.zeros((0, BINS), np.float32), []

    def push(self, rows):
        if not len(rows):
            return
        lent = np.concatenate([self.last, rows])
        flux = np.empty(len(lent))
        ph.spectral_flux(lent, len(lent), BINS, flux)
        self.parts.append(flux[len(self.last):])
        self.last = rows[-1:].copy()

    def whole(self):
        return np.concatenate(self.parts) if self.parts else np.zeros(0)


class Features:
    """Feature rows, one a second, of a song that comes in blocks, bit for bit those of one call of `feature_rows` for the whole song.

    A row of the transform belongs to the second that its centre lies in, and a sample to its own; each sum is that of one second, in ascending
    order. So a second is lent alone, once it is whole, with its rows of the transform, which are all that lie in the one row of such a call."""

    def __init__(self, rate):
        self.rate, self.samples, self.frames, self.made = rate, 0, 0, []
        self.transform = Transform(WIDE_FRAME, WIDE_HOP)
        # of seconds that are not made yet: the samples, the rows of the transform, and the second of each row
        self.heard, self.rows_left, self.second_of = np.zeros(0, np.float32), np.zeros((0, WIDE_BINS), np.float32), np.zeros(0, np.intp)

    def centred(self, frames):
        """The second in which the centre of each frame lies, by milliseconds, as the call has it."""
        return np.floor((frames * WIDE_HOP + WIDE_FRAME / 2) / self.rate * 1000 / 1000).astype(np.intp)

    def push(self, samples):
        rows = self.transform.push(samples)
        frames = np.arange(self.frames, self.frames + len(rows) + 1, dtype=np.float64)
        seconds = self.centred(frames)
        self.samples, self.frames = self.samples + len(samples), self.frames + len(rows)
        self.heard = np.concatenate([self.heard, samples])
        self.rows_left, self.second_of = np.concatenate([self.rows_left, rows]), np.concatenate([self.second_of, seconds[:-1]])
        # a row that is still to come lies in the second of the next one, or later
        self.make(min(self.samples // self.rate, int(seconds[-1])))

    def make(self, past):
        """The seconds from the first that is not made up to this one."""
        row = start = 0
        while len(self.made) < past:
            last, end = int(np.searchsorted(self.second_of, len(self.made), "right")), min(start + self.rate, len(self.heard))
            values = np.empty(16)
            ph.feature_rows(self.rows_left[row:last], samples=self.heard[start:end], rate=self.rate, length=self.rate, features=values)
            self.made.append(values)
            row, start = last, end
        self.heard, self.rows_left, self.second_of = self.heard[start:], self.rows_left[row:], self.second_of[row:]

    def rows(self):
        self.make(-(-self.samples // self.rate))
        return np.array(self.made).reshape(-1, 16)


# ---- the analysis


def frame_seconds(frames, rate):
    """The centres of listed frames, (256 t + 512) / rate, in seconds."""
    times = np.empty(len(frames))
    ph.frame_times(frames, rate, times)
    return times / 1000


def beats_a_minute(lag, rate):
    return rate / HOP * 60 / lag


class Tag:
    """What is heard in a song: its curves, and the lists of its onsets, beats, downbeats and boundaries."""

    def __init__(self, name, rate, samples, flux, features, opts, warning=None):
        self.name, self.rate, self.samples, self.seconds, self.warning = name, rate, samples, samples / rate, warning
        self.flux, rows = flux, len(flux)
        opts = ph.TempoOpts(*opts)
        self.meter = opts.meter

        # the calls that `analyse_envelope` makes, in its order: one by one they leave the threshold at hand, to draw it
        self.threshold, frames = np.empty(rows), np.empty(rows, np.uint32)
        ph.adaptive_threshold(flux, self.threshold, np.empty(ph.threshold_room(rows)))
        self.onsets = frames[:ph.pick_onsets(flux, self.threshold, rate, frames)].copy()
        lags = ph.lag_range(rate, opts).lags
        curves = np.empty(lags), np.empty(lags), np.empty(lags)
        self.tempo, self.candidates = ph.estimate(flux, len(self.onsets), rate, opts, *curves)
        self.lag = self.candidates[0].lag if self.tempo else 0
        self.stability = ph.stability_of(flux, rate, opts, self.lag, *curves)
        score, back = np.empty(rows), np.empty(rows, np.uint32)
        self.beats = frames[:ph.beat_grid(flux, self.lag, score, back, frames)].copy()
        frames = np.empty(len(self.beats), np.uint32)
        self.downbeats = frames[:ph.downbeats(flux, self.beats, frames, self.meter)].copy()

        seconds = len(features)
        alike, self.novelty = np.empty(ph.similarity_room(seconds)), np.empty(seconds)
        ph.similarity(features, seconds, alike)
        ph.novelty(alike, seconds, self.novelty)
        listed = np.empty(seconds, np.uint32)
        self.sections = ph.boundaries(self.novelty, rate, rate, MOST_SECTIONS, listed, np.empty(seconds))
        self.boundaries = listed[:self.sections.count].copy()
        starts = np.empty(len(self.boundaries))
        ph.boundary_times(self.boundaries, rate, rate, starts)
        self.section_starts = [0.0] + [ms / 1000 for ms in starts.tolist()] if self.sections.sections else []

    @property
    def bpm_of_beats(self):
        """The tempo by the beats' mean gap, or None: finer than a whole lag."""
        if len(self.beats) < 2:
            return None
        return beats_a_minute((int(self.beats[-1]) - int(self.beats[0])) / (len(self.beats) - 1), self.rate)

    def spans(self):
        """Where each section begins and ends, in seconds."""
        return list(zip(self.section_starts, self.section_starts[1:] + [self.seconds]))

    def bars(self):
        """Bar and beat of each beat, counted from 1, or None for beats before the first downbeat."""
        downbeats, beats = frame_seconds(self.downbeats, self.rate), frame_seconds(self.beats, self.rate)
        return [ph.bar_beat_at(at, downbeats, beats) for at in beats.tolist()]

    def as_json(self):
        def listed(frames):
            return {"frames": frames.tolist(), "seconds": frame_seconds(frames, self.rate).tolist()}

        tempo = self.tempo and {"bpm": self.tempo.bpm, "lag": self.lag, "clarity": self.tempo.clarity, "bpm_of_beats": self.bpm_of_beats}
        steady = self.stability
        told = {
            "song": self.name, "rate": self.rate, "samples": self.samples, "seconds": self.seconds, "rows": len(self.flux),
            "tempo": tempo,
            "candidates": [{"lag": c.lag, "bpm": beats_a_minute(c.lag, self.rate), "salience": c.salience} for c in self.candidates],
            "stability": steady and {"fraction": steady.fraction, "agreeing": steady.agreeing, "windows": steady.windows},
            "onsets": listed(self.onsets), "beats": listed(self.beats), "downbeats": listed(self.downbeats),
            "sections": {"count": self.sections.sections, "confidence": self.sections.confidence, "starts": self.section_starts},
        }
        return "{\n%s\n}\n" % ",\n".join(" %s: %s" % (json.dumps(key), json.dumps(value)) for key, value in told.items())

    def as_labels(self, onsets=False):
        """Start, end and name, a label a line: sections, beats by bar and beat ('12.1' is a downbeat), and onsets where they are wanted."""
        labels = [(start, end, "section %d" % k) for k, (start, end) in enumerate(self.spans(), 1)]
        for at, place in zip(frame_seconds(self.beats, self.rate).tolist(), self.bars()):
            labels.append((at, at, "%d.%d" % place if place else "pickup"))
        if onsets:
            labels += [(at, at, "onset") for at in frame_seconds(self.onsets, self.rate).tolist()]
        return "".join("%.6f\t%.6f\t%s\n" % label for label in sorted(labels, key=lambda label: (label[0], -label[1])))

    def as_midi(self):
        """The tempo from beat to beat as a MIDI file, which begins on the first beat."""
        if len(self.beats) < 2:
            raise Trouble("%s: no MIDI file can be written: a tempo track needs two beats at least, and there %s"
                          % (self.name, "is one" if len(self.beats) else "are none"))
        return ph.write_tempo_track(self.beats, self.rate)

    def as_cues(self):
        """The beats as a cue chunk, which a WAV file of this rate may end with."""
        return ph.write_cues(self.beats)

    def as_text(self):
        def line(what, words):
            return "%-10s %s" % (what, words)

        lines = ["%s: %s at %s samples a second, %s rows" % (self.name, clock(self.seconds, 1), grouped(self.rate), grouped(len(self.flux)))]
        if not len(self.flux):
            lines.append(line("no rows", "a row needs %s samples, and there are %s" % (grouped(FRAME), grouped(self.samples))))
        if self.tempo:
            of_beats = "%.2f beats a minute by the beats, " % self.bpm_of_beats if self.bpm_of_beats else ""
            lines.append(line("tempo", "%s%.2f by lag %d, clarity %.2f" % (of_beats, self.tempo.bpm, self.lag, self.tempo.clarity)))
            if len(self.candidates) > 1:
                others = ", ".join("%.2f (lag %d)" % (beats_a_minute(c.lag, self.rate), c.lag) for c in self.candidates[1:])
                lines.append(line("or", others))
        else:
            lines.append(line("tempo", "none"))
        if self.stability:
            lines.append(line("stability", "the same in %d of %d windows" % (self.stability.agreeing, self.stability.windows)))
        for what, frames in ("beats", self.beats), ("downbeats", self.downbeats), ("onsets", self.onsets):
            first = ", the first at %s" % clock(frame_seconds(frames[:1], self.rate)[0], 3) if len(frames) else ""
            lines.append(line(what, grouped(len(frames)) + first))
        at = ", ".join(clock(start) for start in self.section_starts)
        lines.append(line("sections", "%d%s" % (self.sections.sections, ": " + at if at else "")))
        return "\n".join(lines) + "\n"


def tag(path, opts=ph.TempoOpts(), progress=None):
    """Analyses a recording; `progress` is called with the seconds done and the seconds in all, or None."""
    with recording(path) as wav:
        rate, name = wav.rate, wav.name
        if rate > MOST_RATE:
            raise Trouble("%s has %s samples a second, and the library takes at most %s: resample it, for example with"
                          " ffmpeg -i SONG -ar 48000 NEW.wav" % (name, grouped(rate), grouped(MOST_RATE)))
        most = min((MOST_ROWS - 1) * HOP + FRAME + HOP - 1, MOST_FEATURE_ROWS * rate)

        def too_long():
            return Trouble("%s is too long: at most %s rows, or %s seconds, are analysed at a time, %s at %s samples a second. Cut it in parts"
                           % (name, grouped(MOST_ROWS), grouped(MOST_FEATURE_ROWS), clock(most / rate), grouped(rate)))

        if wav.samples is not None and wav.samples > most:
            raise too_long()
        transform, flux, features, done = Transform(FRAME, HOP), Flux(), Features(rate), 0
        for block in wav.blocks():
            done += len(block)
            if done > most:
                raise too_long()
            flux.push(transform.push(block))
            features.push(block)
            if progress:
                progress(done / rate, wav.samples and wav.samples / rate)
    return Tag(name, rate, done, flux.whole(), features.rows(), opts, wav.warning)


# ---- the picture

LEFT, WIDE, PICTURE = 60, 1120, (1200, 600)
STYLE = """text{font:13px sans-serif;fill:#222}.b{fill:#fff}.h{font-size:18px}.s,.a{fill:#555}.g{stroke:#ccc}.a{text-anchor:middle}.e{text-anchor:end}
.f{fill:#7fa8d8}.t{stroke:#c0392b}.o{stroke:#b8720a}.p{stroke:#888}.d{stroke:#1f6f43}.k{stroke:#6a4fb3}.x{fill:#e6eef8}.y{fill:#d3e2d8}
.t,.o,.p,.d,.k,.g{fill:none}
@media(prefers-color-scheme:dark){text{fill:#e8e8e8}.b{fill:#15191e}.s,.a{fill:#a9b1ba}.g{stroke:#363c44}.f{fill:#46709f}.t{stroke:#ff8a75}
.o{stroke:#f0b45a}.p{stroke:#8a929b}.d{stroke:#5fcf90}.k{stroke:#b59cf5}.x{fill:#22303f}.y{fill:#22382c}}"""


def grouped(number):
    return "{:,}".format(number)


def clock(seconds, digits=0):
    """Minutes and seconds, cut and not rounded, so that 59.99 is not 0:60."""
    units = int(seconds * 10 ** digits)
    minutes, rest = divmod(units, 60 * 10 ** digits)
    whole, part = divmod(rest, 10 ** digits)
    return "%d:%02d" % (minutes, whole) + (".%0*d" % (digits, part) if digits else "")


def seconds_of(words):
    """A time as clock writes it, or in seconds."""
    minutes, _, seconds = words.rpartition(":")
    return 60 * int(minutes or 0) + float(seconds)


def part_of(words):
    """A part of a song, START-END."""
    try:
        start, end = (seconds_of(one) for one in words.split("-"))
    except ValueError:
        raise argparse.ArgumentTypeError("%r is no part: write START-END, for example 1:00-1:30" % words) from None
    if not 0 <= start < end < float("inf"):
        raise argparse.ArgumentTypeError("%r is no part: its end must come after its start" % words)
    return start, end


def bound_of(words):
    """A bound of the tempo; None, where nothing is written, is an open one. A NaN is none: the library would take it, for another bound."""
    try:
        bound = float(words) if words.strip() else None
    except ValueError:
        bound = math.nan
    if bound is not None and math.isnan(bound):
        raise argparse.ArgumentTypeError("%r is no number of beats a minute; write '' for no limit" % words)
    return bound


def meter_of(words):
    """Beats of a bar."""
    if not re.fullmatch("0*([1-9]|1[0-6])", words):
        raise argparse.ArgumentTypeError("%r is no number of beats to the bar: 1 to 16" % words)
    return int(words)


def short(number):
    return ("%.1f" % number).rstrip("0").rstrip(".") or "0"


class Picture:
    """One SVG, its time from left to right. The background is opaque and follows the reader's scheme, so it is read on light and on dark."""

    def __init__(self, song, part=None):
        self.song, self.parts = song, []
        self.start, self.end = part or (0.0, max(song.seconds, 1e-9))
        self.length = self.end - self.start
        self.bars = np.arange(1, len(song.downbeats) + 1)
        of_beats = "%.2f beats a minute" % song.bpm_of_beats if song.bpm_of_beats else "no tempo"
        steady = ", the same in %d of %d windows" % (song.stability.agreeing, song.stability.windows) if song.stability else ""
        self.text(LEFT, 28, song.name + (", %s to %s" % (clock(self.start, 1), clock(self.end, 1)) if part else ""), "h")
        self.text(LEFT, 48, "%s%s; %s onsets, %s beats, %s downbeats, %d sections" % (
            of_beats, steady, grouped(len(song.onsets)), grouped(len(song.beats)), grouped(len(song.downbeats)), song.sections.sections), "s")
        self.grid((88, 288), (330, 364), (404, 434), (472, 566))
        self.flux(88, 200)
        self.beats(330, 34)
        self.sections(404, 30)
        self.tempo(472, 94)

    def x(self, seconds):
        return LEFT + WIDE * (np.clip(seconds, self.start, self.end) - self.start) / self.length

    def within(self, frames):
        """Those frames that the picture shows, and where: a list of places and one of truths."""
        seconds = frame_seconds(frames, self.song.rate)
        shown = (seconds >= self.start) & (seconds <= self.end)
        return self.x(seconds[shown]).tolist(), shown

    def text(self, x, y, words, kind=""):
        self.parts.append('<text x="%s" y="%s"%s>%s</text>' % (short(x), short(y), ' class="%s"' % kind if kind else "", escape(words)))

    def path(self, kind, steps, width=1):
        if steps:
            self.parts.append('<path class="%s" stroke-width="%s" d="%s"/>' % (kind, short(width), steps))

    def marks(self, frames, y, height, apart=1.0):
        """A stroke for each frame, but only one where several fall within a distance."""
        steps, last = [], -apart
        for x in self.within(frames)[0]:
            if x - last >= apart:
                steps.append("M%s %sv%s" % (short(x), short(y), short(height)))
                last = x
        return "".join(steps)

    def grid(self, *spans):
        """A line at each step of the clock through every part of the picture, and the time below the last."""
        step = next((s for s in (1, 2, 5, 10, 15, 30, 60, 120, 300, 600, 900, 1800) if self.length / s <= 14), 3600)
        ticks = np.arange(-(-self.start // step), self.end // step + 1) * step
        self.path("g", "".join("M%s %dV%d" % (short(x), top, bottom) for x in self.x(ticks).tolist() for top, bottom in spans))
        for at, x in zip(ticks.tolist(), self.x(ticks).tolist()):
            self.text(x, spans[-1][1] + 20, clock(at), "a")

    def columns(self, curve):
        """The greatest value of each pixel's slots, and the left edges of these columns."""
        first, past = (max(0, min(len(curve), int(at * self.song.rate - FRAME / 2) // HOP + more)) for at, more in ((self.start, 0), (self.end, 1)))
        count = min(past - first, WIDE)
        starts = np.arange(count) * (past - first) // max(1, count)
        edges = (np.append(starts, past - first) + first) * HOP + FRAME / 2
        return np.maximum.reduceat(curve[first:past], starts) if count else np.zeros(0), self.x(edges / self.song.rate)

    def flux(self, top, height):
        song, floor = self.song, top + height
        self.text(LEFT, top - 8, "onset strength (blue), its threshold (red) and the onsets (above); square root, the greatest of each pixel", "s")
        greatest = max([1e-9] + [float(curve.max()) for curve in (song.flux, song.threshold) if len(curve)])
        for kind, curve in ("f", song.flux), ("t", song.threshold):
            values, edges = self.columns(curve)
            if not len(values):
                continue
            tops = floor - height * np.sqrt(np.maximum(values, 0) / greatest)
            steps = "".join("V%sH%s" % (short(y), short(x)) for y, x in zip(tops.tolist(), edges[1:].tolist()))
            start = "M%s %s" % (short(edges[0]), short(floor if kind == "f" else tops[0]))
            if kind == "f":
                self.parts.append('<path class="f" d="%s%sV%sZ"/>' % (start, steps, short(floor)))
            else:
                self.path("t", start + steps)
        self.path("o", self.marks(song.onsets, top, 8), 1.5)
        self.path("g", "M%d %dh%d" % (LEFT, floor, WIDE))

    def beats(self, top, height):
        song = self.song
        apart = WIDE * HOP * song.lag / song.rate / self.length
        words = "beats, and the downbeats (green)"
        if not len(song.beats):
            words = "no beats"
        elif apart < 3:
            words = "downbeats; the beats are too close to draw" if song.meter * apart >= 3 else "downbeats, as far as they are a pixel apart"
        else:
            self.path("p", self.marks(song.beats, top + height // 3, height - height // 3))
        self.text(LEFT, top - 8, words, "s")
        self.path("d", self.marks(song.downbeats, top, height, 1.5), 2 if song.meter * apart >= 6 else 1)
        places, shown = self.within(song.downbeats)
        room = 14 + 9 * len(str(len(song.downbeats)))
        last = -room
        for bar, x in zip(self.bars[shown].tolist(), places):
            if x - last >= room:
                self.text(x, top + height + 14, str(bar), "a")
                last = x

    def sections(self, top, height):
        self.text(LEFT, top - 8, "sections", "s")
        for k, (start, end) in enumerate(self.song.spans()):
            left, right = self.x([start, end]).tolist()
            if right <= left:
                continue
            self.parts.append('<rect class="%s" x="%s" y="%d" width="%s" height="%d"/>' % ("xy"[k % 2], short(left), top, short(right - left), height))
            if right - left >= 72:
                self.text(left + 6, top + height // 2 + 5, "%d: %s" % (k + 1, clock(start)))

    def tempo(self, top, height):
        song = self.song
        times, shown = self.within(song.beats)
        gaps = np.diff(song.beats[shown].astype(np.int64))
        if not len(gaps):
            self.text(LEFT, top - 8, "no tempo", "s")
            return
        each, mean = beats_a_minute(gaps, song.rate), song.bpm_of_beats
        reach = max(0.06 * mean, 1.1 * float(np.percentile(np.abs(each - mean), 98)))
        low, high = mean - reach, mean + reach

        def y(bpm):
            return top + height * (high - np.clip(bpm, low, high)) / (high - low)

        self.text(LEFT, top - 8, "beats a minute from beat to beat, in steps of a frame; mean %.2f" % mean, "s")
        self.path("g", "M%d %sh%d" % (LEFT, short(float(y(mean))), WIDE))
        for bpm in low, mean, high:
            self.text(LEFT - 8, float(y(bpm)) + 4, "%.0f" % bpm, "s e")
        heights = y(each).tolist()
        steps = "M%s %s" % (short(times[0]), short(heights[0]))
        self.path("k", steps + "".join("V%sH%s" % (short(h), short(x)) for h, x in zip(heights, times[1:])), 1.5 if len(gaps) < WIDE else 0.5)

    def __str__(self):
        wide, high = PICTURE
        return ('<svg xmlns="http://www.w3.org/2000/svg" width="%d" height="%d" viewBox="0 0 %d %d">\n<title>%s</title>\n<style>%s</style>\n'
                '<rect class="b" width="%d" height="%d"/>\n%s\n</svg>\n'
                % (wide, high, wide, high, escape("The grid of " + self.song.name), STYLE, wide, high, "\n".join(self.parts)))


# ---- the command


def say(words):
    if sys.stderr is not None:
        print("tag: " + words, file=sys.stderr)


class Progress:
    """A bar on standard error while a long song is read; nothing where that is no terminal, nor in the first half second."""

    def __init__(self, quiet):
        self.on, self.next, self.drawn = not quiet and sys.stderr is not None and sys.stderr.isatty(), time.monotonic() + 0.5, 0

    def __call__(self, done, total):
        if not self.on or time.monotonic() < self.next:
            return
        self.next = time.monotonic() + 0.1
        words = "%s of %s" % (clock(done), clock(total)) if total else clock(done)
        room = min(50, shutil.get_terminal_size().columns - len(words) - 4)
        if total and room >= 10:
            full = min(room, int(room * done / total))
            words = "[%s%s] %s" % ("#" * full, " " * (room - full), words)
        print("\r" + words.ljust(self.drawn), end="", file=sys.stderr, flush=True)
        self.drawn = len(words)

    def clear(self):
        if self.drawn:
            print("\r" + " " * self.drawn + "\r", end="", file=sys.stderr, flush=True)
            self.drawn = 0


def check_place(path, song):
    """Raises where a file can't be written, before the work is done and not after it."""
    if path == "-":
        return
    folder = os.path.dirname(os.path.abspath(path))
    if os.path.isdir(path):
        raise Trouble("%s is a folder: name a file to write" % path)
    if os.path.exists(path) and os.path.exists(song) and os.path.samefile(path, song):
        raise Trouble("%s is the song itself: name another file to write" % path)
    if not os.path.isdir(folder):
        raise Trouble("%s can't be written: there is no folder %s" % (path, folder))
    if not os.access(path if os.path.exists(path) else folder, os.W_OK):
        raise Trouble("%s can't be written: no permission" % path)


def write(path, text):
    """Writes a whole file or nothing, words or bytes: a new one takes the old one's place once it is complete."""
    data = text if isinstance(text, bytes) else text.encode("utf-8")
    if path == "-":
        if sys.stdout is None:
            raise Trouble("standard output is closed: nothing can be said there")
        if data is text:
            sys.stdout.buffer.write(data)
        else:
            sys.stdout.write(text)
        sys.stdout.flush()
        return
    if os.path.exists(path) and not os.path.isfile(path):  # a device or a pipe is written as it is
        with open(path, "wb") as out:
            out.write(data)
        return
    path = os.path.realpath(path)  # a link stays a link
    part = "%s.%d.part" % (path, os.getpid())
    try:
        with open(part, "xb") as out:
            out.write(data)
        os.replace(part, path)
    except BaseException:
        with contextlib.suppress(OSError):
            os.unlink(part)
        raise


def arguments(words):
    parser = argparse.ArgumentParser(prog="tag.py", description="Onsets, tempo, beats, downbeats, stability and sections of a recording.",
                                     epilog="FILE may be - for standard output. docs/USE.md says what the answers mean.")
    parser.add_argument("song", metavar="SONG", help="a WAV file; any other through ffmpeg or sox, where one is on the path")
    parser.add_argument("--json", metavar="FILE", help="write the answers as JSON")
    parser.add_argument("--labels", metavar="FILE", help="write sections and beats as labels that Audacity imports")
    parser.add_argument("--onsets", action="store_true", help="label the onsets too")
    parser.add_argument("--midi", metavar="FILE", help="write the tempo from beat to beat as a MIDI file, which begins on the first beat")
    parser.add_argument("--cues", metavar="FILE", help="write the beats as a RIFF WAVE cue chunk, the chunk alone")
    parser.add_argument("--picture", metavar="FILE.svg", help="draw flux, threshold, onsets, beats, downbeats, sections and tempo, as SVG")
    parser.add_argument("--part", metavar="START-END", type=part_of, help="draw this part alone, for example 1:00-1:30; half a minute is easy to read")
    parser.add_argument("--min-bpm", type=bound_of, default=30.0, metavar="BPM",
                        help="the slowest tempo that is looked for (30), to the nearest lag; '' for no limit")
    parser.add_argument("--max-bpm", type=bound_of, default=300.0, metavar="BPM",
                        help="the fastest tempo that is looked for (300), to the nearest lag; '' or inf for no limit")
    parser.add_argument("--meter", type=meter_of, default=4, metavar="BEATS", help="beats to the bar, 1 to 16 (4); 3 for a waltz")
    parser.add_argument("--quiet", action="store_true", help="no progress bar, and no lines on standard output")
    given = parser.parse_args(words)
    if given.onsets and not given.labels:
        parser.error("--onsets labels the onsets too: it needs --labels FILE")
    if given.part and not given.picture:
        parser.error("--part draws a part alone: it needs --picture FILE.svg")
    # what is there and no file, a device or a pipe, has no ending
    if given.picture and given.picture != "-" and (os.path.isfile(given.picture) or not os.path.exists(given.picture)):
        start, ending = os.path.splitext(given.picture)
        if ending.lower() != ".svg":
            parser.error("--picture %s: the picture is SVG, so name it %s.svg; rsvg-convert or a browser makes other pictures of it"
                         % (given.picture, start))
    places = [os.path.realpath(p) if p != "-" else p for p in (given.json, given.labels, given.midi, given.cues, given.picture) if p]
    if len(set(places)) != len(places):
        parser.error("two outputs have the same name")
    return given


def run(given):
    wanted = [(given.json, Tag.as_json), (given.labels, lambda song: song.as_labels(given.onsets)), (given.midi, Tag.as_midi),
              (given.cues, Tag.as_cues), (given.picture, lambda song: str(Picture(song, given.part)))]
    wanted = [(path, made) for path, made in wanted if path]
    for path, _ in wanted:
        check_place(path, given.song)
    progress = Progress(given.quiet)
    try:
        song = tag(given.song, ph.TempoOpts(given.min_bpm, given.max_bpm, given.meter), progress)
    finally:
        progress.clear()
    if song.warning:
        say(song.warning)
    if given.part and given.part[0] >= song.seconds:
        raise Trouble("%s ends at %s, before the part that is to be drawn" % (song.name, clock(song.seconds, 1)))
    # all is made before any of it is written, and files come before words: where standard output is closed, what was asked for is there
    for path, text in sorted([(path, made(song)) for path, made in wanted], key=lambda one: one[0] == "-"):
        write(path, text)
    if not given.quiet and all(path != "-" for path, _ in wanted):
        write("-", song.as_text())


def main(words=None):
    given = arguments(words)
    for stream in sys.stdout, sys.stderr:
        if stream is not None:
            stream.reconfigure(errors="replace")  # a name that the terminal can't show is no reason to fail
    try:
        run(given)
        return 0
    except Trouble as trouble:
        say(str(trouble))
    except ph.Refused as refused:
        say("%s: %s" % (told_name(given.song), refused))
    except BrokenPipeError:
        say("standard output was closed before all was said")
        os.dup2(os.open(os.devnull, os.O_WRONLY), 1)  # or Python complains once more as it ends
    except OSError as error:
        say("%s: %s" % (error.filename, error.strerror) if error.filename else "can't write: %s" % error.strerror)
        with contextlib.suppress(OSError):
            os.dup2(os.open(os.devnull, os.O_WRONLY), 1)
    except MemoryError:
        say("not enough memory")
    except KeyboardInterrupt:
        say("interrupted, nothing more is written")
        return 130
    return 1


if __name__ == "__main__":
    sys.exit(main())
