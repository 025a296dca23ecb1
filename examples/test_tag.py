#!/usr/bin/env python3
"""Tests of tag.py: python3 -m unittest discover -v -s examples

A piece with a known tempo, beats, bars and two sections is rendered (piece.py), tagged, and held to its truth and to the stored answer:
piece.json, piece.txt and ../docs/tag.svg. Whole numbers and labels are held exactly. Real numbers are held within 1e-9: the proved calls give
the same bits for the same magnitudes, but the last bits of a transform differ from one NumPy to another. To store a new answer, at the root:

    python3 examples/piece.py piece.wav
    python3 examples/tag.py piece.wav --json examples/piece.json --labels examples/piece.txt --picture docs/tag.svg"""
import hashlib
import io
import json
import math
import os
import re
import shutil
import signal
import struct
import subprocess
import sys
import tempfile
import time
import unittest
import wave
import xml.etree.ElementTree

try:
    import numpy as np
except ImportError:
    raise unittest.SkipTest("tag.py needs NumPy, which this Python doesn't have") from None

HERE = os.path.dirname(os.path.abspath(__file__))
sys.path.insert(0, HERE)
sys.dont_write_bytecode = True
try:
    import tag
except SystemExit as error:
    raise ImportError(str(error)) from None
import piece
import prohunsev as ph

TAG = os.path.join(HERE, "tag.py")


def stored(*names):
    with open(os.path.join(HERE, *names), encoding="utf-8") as kept:
        return kept.read()


def riff(code, channels, rate, bits, data, extensible=False, size=None):
    """A WAV file."""
    align = channels * bits // 8
    form = struct.pack("<HHIIHH", 0xFFFE if extensible else code, channels, rate, rate * align & 0xFFFFFFFF, align, bits)
    if extensible:
        form += struct.pack("<HHIH", 22, bits, 0, code) + b"\x00\x00\x00\x00\x10\x00\x80\x00\x00\xaa\x00\x38\x9b\x71"
    # an odd chunk that nobody knows stands before the data
    chunks = b"fmt " + struct.pack("<I", len(form)) + form + b"odd " + struct.pack("<I", 3) + b"abc\x00"
    chunks += b"data" + struct.pack("<I", len(data) if size is None else size) + data
    return b"RIFF" + struct.pack("<I", 4 + len(chunks)) + b"WAVE" + chunks


def blocks(data):
    """The mono samples of a WAV file's bytes."""
    wav = tag.Wav(io.BytesIO(data), "bytes")
    read = list(wav.blocks())
    assert all(part.dtype == np.float32 for part in read)
    return np.concatenate(read) if read else np.zeros(0, np.float32)


def frames_of(text):
    return [json.loads(text)[key]["frames"] for key in ("onsets", "beats", "downbeats")]


class Room(unittest.TestCase):
    """A folder of its own, with a space in its name, and the program run from another."""

    @classmethod
    def setUpClass(cls):
        cls.kept = tempfile.TemporaryDirectory(prefix="a song ")
        cls.folder = cls.kept.name
        cls.song = cls.path("piece.wav")
        cls.samples = piece.piece()
        piece.write(cls.song, cls.samples)

    @classmethod
    def tearDownClass(cls):
        cls.kept.cleanup()

    @classmethod
    def path(cls, name):
        return os.path.join(cls.folder, name)

    def put(self, name, data):
        with open(self.path(name), "wb") as out:
            out.write(data)
        return self.path(name)

    def run_tag(self, *words, status=0, env=None, **more):
        """Standard output and error of a run that ends with this status."""
        more = dict({"stdout": subprocess.PIPE, "stderr": subprocess.PIPE}, **more)
        done = subprocess.run([sys.executable, TAG, *words], cwd=tempfile.gettempdir(), env=dict(os.environ, **env or {}), timeout=300, **more)
        out, err = ((text or b"").decode() for text in (done.stdout, done.stderr))
        self.assertEqual(done.returncode, status, out + err)
        self.assertNotIn("Traceback", err)
        self.assertEqual([name for name in os.listdir(self.folder) if name.endswith(".part")], [])
        return out, err


class Answer(Room):
    """The piece against its truth and the stored answer."""

    @classmethod
    def setUpClass(cls):
        super().setUpClass()
        kinds = (("json", "out.json"), ("labels", "out.labels"), ("midi", "out.mid"), ("cues", "out.cues"), ("picture", "out.svg"))
        outs = [word for kind, name in kinds for word in ("--" + kind, cls.path(name))]
        done = subprocess.run([sys.executable, TAG, cls.song] + outs, cwd=tempfile.gettempdir(), stdout=subprocess.PIPE, check=True)
        cls.text = done.stdout.decode()
        cls.json, cls.labels, cls.picture = (cls.read("out." + kind) for kind in ("json", "labels", "svg"))
        cls.told = json.loads(cls.json)

    @classmethod
    def read(cls, name):
        with open(cls.path(name), encoding="utf-8") as made:
            return made.read()

    def same(self, one, other, where=""):
        self.assertIs(type(one), type(other), where)
        if isinstance(one, dict):
            self.assertEqual(list(one), list(other), where)
            for key in one:
                self.same(one[key], other[key], where + "/" + key)
        elif isinstance(one, list):
            self.assertEqual(len(one), len(other), where)
            for k, (x, y) in enumerate(zip(one, other)):
                self.same(x, y, "%s/%d" % (where, k))
        elif isinstance(one, float):
            self.assertAlmostEqual(one, other, delta=1e-9, msg=where)
        else:
            self.assertEqual(one, other, where)

    def test_truth(self):
        beats = np.array(self.told["beats"]["seconds"])
        truth = piece.FIRST + 60 / piece.BPM * np.arange(len(beats))
        self.assertGreaterEqual(len(beats), 4 * piece.BARS - 1)
        self.assertLess(np.abs(beats - truth).max(), 0.0045)
        downbeats = np.array(self.told["downbeats"]["seconds"])
        self.assertEqual(len(downbeats), piece.BARS)
        self.assertLess(np.abs(downbeats - truth[::4]).max(), 0.0045)
        self.assertAlmostEqual(self.told["tempo"]["bpm_of_beats"], piece.BPM, delta=0.1)
        self.assertEqual(self.told["tempo"]["lag"], round(60 / piece.BPM * piece.RATE / 256))
        self.assertEqual(self.told["stability"], {"fraction": 1.0, "agreeing": 4, "windows": 4})
        self.assertEqual(self.told["sections"]["count"], 2)
        self.assertLess(abs(self.told["sections"]["starts"][1] - piece.CHANGE), 1)
        # an onset for each click that is a beat
        onsets = np.array(self.told["onsets"]["seconds"])
        self.assertLess(max(np.abs(onsets - at).min() for at in truth), 0.02)

    def test_stored_answer(self):
        self.same(self.told, json.loads(stored("piece.json")))

    def test_numbers_of_the_file(self):
        self.assertEqual(self.told["song"], "piece.wav")
        self.assertEqual(self.told["samples"], len(self.samples))
        self.assertEqual(self.told["rows"], (len(self.samples) - 1024) // 256 + 1)
        for key in "onsets", "beats", "downbeats":
            for frame, seconds in zip(self.told[key]["frames"], self.told[key]["seconds"]):
                self.assertAlmostEqual(seconds, (256 * frame + 512) / piece.RATE, delta=1e-9)

    def test_labels(self):
        self.assertEqual(self.labels, stored("piece.txt"))
        lines = [line.split("\t") for line in self.labels.splitlines()]
        self.assertEqual(lines[0], ["0.000000", "32.000000", "section 1"])
        self.assertEqual([float(line[0]) for line in lines], sorted(float(line[0]) for line in lines))
        bars = [float(start) for start, end, name in lines if name.endswith(".1")]
        self.assertEqual(bars, [round(at, 6) for at in self.told["downbeats"]["seconds"]])
        self.assertEqual(len(lines), 2 + len(self.told["beats"]["frames"]))

    def test_labels_of_onsets(self):
        out, _ = self.run_tag(self.song, "--labels", "-", "--onsets")
        labels = out.splitlines()
        self.assertEqual(sum(line.endswith("\tonset") for line in labels), len(self.told["onsets"]["frames"]))
        self.assertEqual([line for line in labels if not line.endswith("\tonset")], self.labels.splitlines())

    def test_midi(self):
        with open(self.path("out.mid"), "rb") as made:
            file = made.read()
        frames, seconds = self.told["beats"]["frames"], self.told["beats"]["seconds"]
        self.assertEqual(file, tag.ph.write_tempo_track(np.array(frames, np.uint32), piece.RATE))
        gaps = tag.ph.read_tempo_track(file)
        # half a second from beat to beat, give or take a frame, and in all what lies between the first and the last
        self.assertEqual(len(gaps), len(frames) - 1)
        self.assertTrue(all(abs(gap - 60_000_000 / piece.BPM) < 12_000 for gap in gaps), list(gaps))
        self.assertAlmostEqual(sum(gaps) / 1_000_000, seconds[-1] - seconds[0], delta=1.1e-6)
        done = subprocess.run([sys.executable, TAG, self.song, "--midi", "-"], cwd=tempfile.gettempdir(), stdout=subprocess.PIPE, check=True)
        self.assertEqual(done.stdout, file)

    def test_cues(self):
        with open(self.path("out.cues"), "rb") as made:
            chunk = made.read()
        frames = self.told["beats"]["frames"]
        self.assertEqual((len(chunk), chunk[:4]), (12 + 24 * len(frames), b"cue "))
        self.assertEqual(tag.ph.read_cues(chunk).tolist(), frames)
        # the times of the labels above that are beats, by another way
        times = [line.split("\t")[0] for line in tag.ph.cues_to_labels(chunk, piece.RATE).decode().splitlines()]
        self.assertEqual(times, ["%.6f" % at for at in self.told["beats"]["seconds"]])
        done = subprocess.run([sys.executable, TAG, self.song, "--cues", "-"], cwd=tempfile.gettempdir(), stdout=subprocess.PIPE, check=True)
        self.assertEqual(done.stdout, chunk)

    def test_words(self):
        self.assertEqual(self.text.splitlines()[0], "piece.wav: 1:04.0 at 44,100 samples a second, 11,022 rows")
        self.assertIn("\ntempo      120.00 beats a minute by the beats, 120.19 by lag 86, clarity 0.", self.text)
        self.assertIn("\nsections   2: 0:00, 0:32\n", self.text)

    def test_page(self):
        """docs/USE.md shows what is said of the piece, and a program that says what stands below it."""
        page = stored("..", "docs", "USE.md")
        shown = re.findall(r"```(\w+)\n(.*?)```", page, re.S)
        self.assertEqual([kind for kind, _ in shown], ["text", "python", "text", "sh"])
        self.assertEqual(self.text, shown[0][1])
        module = os.path.join(HERE, "..", "python")
        done = subprocess.run([sys.executable, "-c", shown[1][1]], cwd=self.folder, env=dict(os.environ, PYTHONPATH=module), stdout=subprocess.PIPE, check=True)
        self.assertEqual(done.stdout.decode(), shown[2][1])

    def test_page_on_bounds(self):
        """A tempo may lie outside the bounds, by the rounding of its lag, and docs/USE.md says by how much."""
        page = " ".join(stored("..", "docs", "USE.md").split())
        slow, fast, long, short, told = re.search(r"At 48,000 the bounds (\d+) and (\d+) are lags (\d+) and (\d+), and clicks every \4 rows are told as"
                                                  r" (\d+\.\d+)\.", page).groups()
        bounds = float(slow), float(fast)
        self.assertEqual(ph.lag_range(48_000, bounds), (int(short), int(long)))
        flux = np.zeros(3000)
        flux[5::int(short)] = 1
        tempo = ph.Buffers(3000, 48_000, bounds).analyse_envelope(flux, 48_000, bounds).tempo
        self.assertGreater(tempo.bpm, bounds[1])
        self.assertEqual("%.2f" % tempo.bpm, told)
        found = re.search(r"at a rate of 100 the bounds 30 and 300 are lags (\d+) and (\d+), ([\d.]+) and ([\d.]+) beats a minute, both outside", page).groups()
        lags = ph.lag_range(100)
        self.assertEqual(tuple(map(int, found[:2])), lags[::-1])
        self.assertEqual(found[2:], tuple("%.2f" % tag.beats_a_minute(lag, 100) for lag in lags[::-1]))
        # up to half a lag, wherever that leaves two
        for rate, low, high in ((48_000, 30, 300), (44_100, 61, 199), (192_000, 5, 300), (8_000, 90, 180)):
            for bound, lag in zip((high, low), ph.lag_range(rate, (low, high))):
                self.assertLessEqual(abs(rate / 256 * 60 / bound - lag), 0.5)
        self.assertNotRegex(page, "No tempo outside the bounds")

    def test_picture(self):
        kept = stored("..", "docs", "tag.svg")
        self.assertLess(len(kept), 60_000)
        self.assertLess(len(self.picture), 60_000)
        number = re.compile(r"-?\d+(?:\.\d+)?")
        # the last digit of a place may differ where the transform's last bits do
        self.assertEqual(number.sub("#", self.picture), number.sub("#", kept))
        apart = [abs(float(a) - float(b)) for a, b in zip(number.findall(self.picture), number.findall(kept))]
        self.assertLessEqual(max(apart), 0.1001)
        root = xml.etree.ElementTree.fromstring(self.picture)
        svg = "{http://www.w3.org/2000/svg}"
        words = [text.text for text in root.iter(svg + "text")]
        for word in "piece.wav", "2: 0:32", "0:30", "1:00", "32":
            self.assertIn(word, words)
        drawn = {path.get("class"): path.get("d") for path in root.iter(svg + "path") if path.get("class") != "g"}
        self.assertEqual(set(drawn), {"f", "t", "o", "p", "d", "k"})
        self.assertEqual(drawn["d"].count("M"), len(self.told["downbeats"]["frames"]))
        self.assertEqual(drawn["p"].count("M"), len(self.told["beats"]["frames"]))
        self.assertEqual(sum(rect.get("class") in "xy" for rect in root.iter(svg + "rect")), 2)
        self.assertEqual(root.find(svg + "rect").get("class"), "b")  # opaque, whatever lies behind it

    def test_picture_of_a_part(self):
        out, _ = self.run_tag(self.song, "--picture", "-", "--part", "0:28-38")
        root = xml.etree.ElementTree.fromstring(out)
        svg = "{http://www.w3.org/2000/svg}"
        drawn = {path.get("class"): path.get("d") for path in root.iter(svg + "path")}
        self.assertEqual(drawn["d"].count("M"), sum(28 <= at <= 38 for at in self.told["downbeats"]["seconds"]))
        places = [float(x) for x in re.findall(r"M([\d.]+) ", drawn["d"])]
        first = next(at for at in self.told["downbeats"]["seconds"] if at >= 28)
        self.assertAlmostEqual(places[0], 60 + 1120 * (first - 28) / 10, delta=0.06)
        self.run_tag(self.song, "--picture", "-", "--part", "70-80", status=1)

    def test_what_analyse_envelope_says(self):
        for opts in (), (ph.TempoOpts(meter=3),), ((60, 300),), ((None, 300, 5),):
            song = tag.tag(self.song, *opts)
            buffers = ph.Buffers(len(song.flux), song.rate, *opts)
            track = buffers.analyse_envelope(song.flux, song.rate, *opts)
            self.assertEqual((song.tempo, song.candidates, song.stability), (track.tempo, track.candidates, track.stability))
            for name in "onsets", "beats", "downbeats":
                self.assertEqual(getattr(song, name).tolist(), list(getattr(track, name)), name)

    def test_meter(self):
        """A waltz, clicks at 120 beats a minute with the accent on every third, from the second on: bars of three begin there."""
        beat, beats = piece.RATE // 2, 78
        samples = np.zeros((beats + 2) * beat)
        for k in range(beats):
            sound = piece.click(0.9 if k % 3 == 1 else 0.5)
            samples[(k + 1) * beat:][:len(sound)] += sound
        waltz = self.path("waltz.wav")
        piece.write(waltz, samples)
        three, four, usual = (json.loads(self.run_tag(waltz, "--json", "-", *words)[0]) for words in (["--meter", "3"], ["--meter", "4"], []))
        found, bars = three["beats"]["frames"], three["downbeats"]["frames"]
        self.assertEqual(bars, found[found.index(bars[0])::3])
        accents = 0.5 + 0.5 * np.arange(1, beats, 3)
        self.assertGreaterEqual(len(bars), len(accents) - 1)
        self.assertTrue(all(np.abs(accents - at).min() < 0.0045 for at in three["downbeats"]["seconds"]), three["downbeats"])
        self.assertFalse(all(np.abs(accents - at).min() < 0.0045 for at in four["downbeats"]["seconds"]), four["downbeats"])
        # four are what nothing is said of, and nothing else is chosen by it
        self.assertEqual(four, usual)
        self.assertEqual({**three, "downbeats": None}, {**four, "downbeats": None})
        labels = [line.split("\t")[2] for line in self.run_tag(waltz, "--meter", "3", "--labels", "-")[0].splitlines()]
        self.assertEqual({name.split(".")[1] for name in labels if re.fullmatch(r"\d+\.\d+", name)}, {"1", "2", "3"})
        for words in "0", "17", "-1", "three", "3.0", "":
            _, err = self.run_tag(self.song, "--meter=" + words, status=2)
            self.assertIn("'%s' is no number of beats to the bar: 1 to 16" % words, err)

    def test_bounds_of_the_search(self):
        out, _ = self.run_tag(self.song, "--max-bpm", "100", "--json", "-")
        self.assertLessEqual(json.loads(out)["tempo"]["bpm"], 100)
        # no limit: a tempo above 300 and one below 30 are looked for, and with it both ways the lags are all that there are
        told = [json.loads(self.run_tag(self.song, "--json", "-", *words)[0]) for words in (
            ["--min-bpm", "310", "--max-bpm", ""], ["--min-bpm", "310", "--max-bpm", "inf"], ["--min-bpm", "", "--max-bpm", "25"])]
        self.assertEqual(told[0], told[1])
        self.assertGreater(told[0]["tempo"]["bpm"], 301)
        self.assertLess(told[2]["tempo"]["bpm"], 26)
        for words in "nan", "fast":
            _, err = self.run_tag(self.song, "--max-bpm", words, status=2)
            self.assertIn("'%s' is no number of beats a minute; write '' for no limit" % words, err)


class Parts(unittest.TestCase):
    """What comes before the proved calls, against its definition."""

    def test_windows(self):
        # of docs/src/stft.rs `hann_window` with libm 0.2.1, as float32 from the lowest byte on
        for size, sum_ in ((1024, "01c1371bfd82dc85d05e0bf204b96eca319177e84d17914e414a38a910fc2f0f"),
                           (4096, "341c6d0c653bd23cc411fb47f5ffd60f33603fd1ff54c8d3f728da6f86602955")):
            self.assertEqual(hashlib.sha256(tag.hann(size).astype("<f4").tobytes()).hexdigest(), sum_)

    def test_rows(self):
        samples = np.random.RandomState(3).standard_normal(3000).astype(np.float32)
        for length in 0, 1, 1023, 1024, 1279, 1280, 3000:
            rows = tag.Transform(1024, 256).push(samples[:length])
            self.assertEqual(rows.shape, (max(0, (length - 1024) // 256 + 1), 513))
            self.assertEqual(rows.dtype, np.float32)
        turns = np.outer(np.arange(513), np.arange(1024)) % 1024 / 1024
        waves = np.exp(-2j * np.pi * turns)
        for t, row in enumerate(rows):
            by_definition = np.abs(waves @ (samples[256 * t:256 * t + 1024] * tag.hann(1024)).astype(np.float64))
            np.testing.assert_allclose(row, by_definition, rtol=1e-6, atol=1e-6)

    def test_rows_in_blocks(self):
        samples = np.random.RandomState(4).standard_normal(20_000).astype(np.float32)
        whole = tag.Transform(1024, 256).push(samples)
        for size in 1, 255, 256, 1024, 7001:
            transform = tag.Transform(1024, 256)
            parts = [transform.push(samples[k:k + size]) for k in range(0, len(samples), size)]
            np.testing.assert_allclose(np.concatenate(parts), whole, rtol=1e-6)

    def test_flux_in_chunks_is_the_whole_flux(self):
        chance = np.random.RandomState(5)
        magnitudes = (chance.standard_normal((700, 513)) * 2.0 ** chance.randint(-60, 60, (700, 513))).astype(np.float32)
        whole = np.empty(700)
        ph.spectral_flux(magnitudes, 700, 513, whole)
        self.assertGreater(np.count_nonzero(whole), 600)
        for _ in range(20):
            cuts = [0] + sorted(chance.randint(0, 701, 12).tolist()) + [700]
            flux = tag.Flux()
            for start, end in zip(cuts, cuts[1:]):
                flux.push(magnitudes[start:end])
            self.assertEqual(flux.whole().tobytes(), whole.tobytes())
        self.assertEqual(len(tag.Flux().whole()), 0)

    def test_features(self):
        rate, chance = 8000, np.random.RandomState(6)
        t = np.arange(27_500) / rate
        samples = (0.3 * np.sin(2 * np.pi * 330 * t) * (t > 1) + 0.05 * chance.standard_normal(len(t)) * (t < 2.5)).astype(np.float32)
        np.testing.assert_allclose(self.in_blocks(samples, rate, len(samples)), self.by_definition(samples, rate), rtol=1e-9, atol=1e-12)

    def in_blocks(self, samples, rate, size):
        features = tag.Features(rate)
        for k in range(0, len(samples), size):
            features.push(samples[k:k + size])
        return features.rows()

    def test_features_in_blocks_are_those_of_the_whole_song(self):
        samples = np.random.RandomState(7).standard_normal(27_500).astype(np.float32)
        rows = tag.Transform(4096, 1024).push(samples)
        for rate in 8000, 1024, 999, 11_025, 27_500, 48_000:
            whole = np.empty((ph.feature_count(len(samples), rate), 16))
            ph.feature_rows(rows, samples=samples, rate=rate, length=rate, features=whole)
            for size in 27_500, 8000, 3001, 1024:
                self.assertEqual(self.in_blocks(samples, rate, size).tobytes(), whole.tobytes(), (rate, size))
        self.assertEqual(tag.Features(8000).rows().shape, (0, 16))

    def by_definition(self, samples, rate):
        """docs/src/structure.rs `feature_vectors`, line by line."""
        count = math.ceil(len(samples) / rate)
        chroma, bands = [[0.0] * 12 for _ in range(count)], [[0.0] * 3 for _ in range(count)]
        for t, row in enumerate(tag.Transform(4096, 1024).push(samples).tolist()):
            idx = min(count - 1, int((t * 1024 + 2048) / rate * 1000 / 1000))
            for k, magnitude in enumerate(row):
                hz = k * rate / 4096
                if 55 <= hz <= 5000:
                    chroma[idx][round(69 + 12 * math.log2(hz / 440)) % 12] += magnitude
                bands[idx][0 if hz < 250 else 1 if hz <= 4000 else 2] += magnitude * magnitude
        rows = []
        for k in range(count):
            part = samples[k * rate:(k + 1) * rate].astype(np.float64)
            most, total = max(chroma[k]) or 1, sum(bands[k]) or 1
            rows.append([c / most for c in chroma[k]] + [b / total for b in bands[k]] + [math.sqrt(np.sum(part * part) / len(part))])
        return np.array(rows)

    def test_clock(self):
        self.assertEqual([tag.clock(59.99), tag.clock(59.99, 1), tag.clock(3600), tag.clock(61.05, 3)], ["0:59", "0:59.9", "60:00", "1:01.050"])
        self.assertEqual([tag.seconds_of("1:30.5"), tag.seconds_of("90.5")], [90.5, 90.5])


class Formats(Room):
    """The same samples in every form that is read."""

    def test_scales(self):
        whole = [-32768, -1, 0, 1, 32767, 12345]
        data = struct.pack("<6h", *whole)
        expected = np.array(whole, np.float32) / 32768
        np.testing.assert_array_equal(blocks(riff(1, 1, 44_100, 16, data)), expected)
        np.testing.assert_array_equal(blocks(riff(1, 1, 44_100, 16, data, extensible=True)), expected)
        deep = b"".join(struct.pack("<i", x << 8)[:3] for x in whole)
        np.testing.assert_array_equal(blocks(riff(1, 1, 44_100, 24, deep)), expected)
        np.testing.assert_array_equal(blocks(riff(1, 1, 44_100, 24, deep, extensible=True)), expected)
        np.testing.assert_array_equal(blocks(riff(1, 1, 44_100, 32, struct.pack("<6i", *(x << 16 for x in whole)))), expected)
        np.testing.assert_array_equal(blocks(riff(3, 1, 44_100, 32, expected.astype("<f4").tobytes())), expected)
        np.testing.assert_array_equal(blocks(riff(3, 1, 44_100, 64, expected.astype("<f8").tobytes())), expected)
        np.testing.assert_array_equal(blocks(riff(1, 1, 44_100, 8, bytes([0, 128, 129, 255]))), np.array([-1, 0, 1 / 128, 127 / 128], np.float32))

    def test_channels_are_mixed(self):
        data = struct.pack("<6h", 100, 300, -200, 0, 32767, 32767)
        np.testing.assert_array_equal(blocks(riff(1, 2, 44_100, 16, data)), np.array([200, -100, 32767], np.float32) / 32768)
        three = np.array([0.1, 0.2, 0.4], np.float32)
        mixed = ((three[0] + three[1]) + three[2]) / np.float32(3)
        np.testing.assert_array_equal(blocks(riff(3, 3, 44_100, 32, three.tobytes())), [mixed])

    def test_one_answer(self):
        with wave.open(self.song) as kept:
            whole = np.frombuffer(kept.readframes(kept.getnframes()), "<i2")
        real = whole.astype(np.float32) / 32768
        answer = tag.tag(self.song).as_json()
        for name, data in (("stereo", riff(1, 2, piece.RATE, 16, np.repeat(whole, 2).tobytes())),
                           ("deep", riff(1, 1, piece.RATE, 32, (whole.astype("<i4") << 16).tobytes())),
                           ("float", riff(3, 1, piece.RATE, 32, real.astype("<f4").tobytes())),
                           ("endless", riff(1, 1, piece.RATE, 16, whole.tobytes(), size=0xFFFFFFFF))):
            self.put("piece.wav2", data)
            self.assertEqual(tag.tag(self.path("piece.wav2")).as_json(), answer.replace("piece.wav", "piece.wav2"), name)
        coarse = self.put("coarse.wav", riff(1, 1, piece.RATE, 8, np.round(real * 127 + 128).astype(np.uint8).tobytes()))
        beats, truth = (np.array(frames_of(text)[1]) for text in (tag.tag(coarse).as_json(), answer))
        self.assertLessEqual(max(np.abs(beats - at).min() for at in truth), 2)
        self.assertLessEqual(len(beats), len(truth) + 1)  # noise at the end may hold one more

    def test_rates(self):
        # a time is by the file's own rate: the same samples at twice the rate are twice as fast
        data = np.round(np.clip(self.samples[:30 * piece.RATE], -1, 1) * 32767).astype("<i2").tobytes()
        slow = tag.tag(self.put("slow.wav", riff(1, 1, 22_050, 16, data)))
        self.assertAlmostEqual(slow.bpm_of_beats, 60, delta=0.2)
        self.assertEqual(slow.seconds, 60)
        _, err = self.run_tag(self.put("high.wav", riff(1, 1, 192_001, 16, data)), status=1)
        self.assertIn("192,001 samples a second, and the library takes at most 192,000", err)
        self.run_tag(self.put("most.wav", riff(1, 1, 192_000, 16, data)))

    def test_decoders(self):
        """A file that isn't WAV goes to ffmpeg, or else to sox; here both are feigned."""
        other = self.put("some song.flac", b"fLaC, so to speak")
        answer = json.loads(tag.tag(self.song).as_json())
        self.assertIn("neither is on the path", self.run_tag(other, status=1, env={"PATH": self.folder})[1])
        for name in "sox", "ffmpeg":
            # takes the WAV instead, where the file is named by its whole path
            script = '#!/bin/sh\ncase "$*" in *"%s"*) exec /bin/cat "%s" ;; esac\nexit 3\n' % (other, self.song)
            os.chmod(self.put(name, script.encode()), 0o755)
            told = json.loads(self.run_tag(other, "--json", "-", env={"PATH": self.folder})[0])
            self.assertEqual(dict(told, song="piece.wav"), answer)
            self.put(name, b"#!/bin/sh\necho '[mov,mp4 @ 0x55d2109d0900] no such codec' >&2; echo try another >&2; exit 1\n")
            self.assertEqual(self.run_tag(other, status=1, env={"PATH": self.folder})[1],
                             "tag: some song.flac: not a WAV file, and %s can't read it: no such codec\n" % name)
            self.put(name, b"#!/bin/sh\nexec /bin/cat '%s'\n" % self.put("four.wav", riff(2, 1, 44_100, 4, bytes(1 << 20))).encode())
            self.assertIn("%s can't read it: no word of why" % name, self.run_tag(other, status=1, env={"PATH": self.folder})[1])
            # dies on the way: half a song is no answer
            self.put(name, b"#!/bin/sh\n/usr/bin/head -c 999999 '%s'; echo disk on fire >&2; exit 1\n" % self.song.encode())
            self.assertIn("disk on fire", self.run_tag(other, "--json", self.path("half"), status=1, env={"PATH": self.folder})[1])
            self.assertFalse(os.path.exists(self.path("half")))

    # what ffmpeg 5 says where -map finds nothing
    SILENT = "Stream map '0:a:0' matches no streams.\nTo ignore this, add a trailing '?' to the map.\n"

    def test_pictures_without_sound(self):
        video = self.put("silent.mp4", b"pictures, so to speak")
        os.chmod(self.put("ffmpeg", b'#!/bin/sh\nprintf %%s "%s" >&2; exit 1\n' % self.SILENT.encode()), 0o755)
        self.assertEqual(self.run_tag(video, status=1, env={"PATH": self.folder})[1], "tag: silent.mp4: there is no sound in it, by ffmpeg\n")
        os.unlink(self.path("ffmpeg"))

    @unittest.skipUnless(shutil.which("ffmpeg"), "ffmpeg is not on the path")
    def test_pictures_without_sound_by_this_ffmpeg(self):
        video = self.path("pictures alone.avi")
        subprocess.run(["ffmpeg", "-v", "error", "-y", "-f", "rawvideo", "-pix_fmt", "gray", "-s", "16x16", "-i", "-", "-c:v", "rawvideo", video],
                       input=bytes(256 * 5), check=True)
        self.assertEqual(self.run_tag(video, status=1)[1], "tag: pictures alone.avi: there is no sound in it, by ffmpeg\n")

    @unittest.skipUnless(tag.decoder("x"), "neither ffmpeg nor sox is on the path")
    def test_decoder_of_this_machine(self):
        with wave.open(self.song) as kept:
            whole = np.frombuffer(kept.readframes(kept.getnframes()), "<i2")
        data = b".snd" + struct.pack(">5I", 24, 2 * len(whole), 3, piece.RATE, 1) + whole.astype(">i2").tobytes()
        told = json.loads(self.run_tag(self.put("-a song.au", data), "--json", "-")[0])
        self.assertEqual(dict(told, song="piece.wav"), json.loads(tag.tag(self.song).as_json()))


class Odd(Room):
    """What isn't a song, and where nothing can be written."""

    def refused(self, song, *words, **more):
        out, err = self.run_tag(song, *words, status=1, **more)
        self.assertEqual(out, "")
        self.assertRegex(err, r"\Atag: .*\n\Z")
        return err

    def nothing(self, name, data, sections, rows):
        """An answer that holds nothing but rows and at most one section, in every form."""
        outs = {kind: self.path("%s.%s" % (name, "svg" if kind == "picture" else kind)) for kind in ("json", "labels", "picture")}
        out, err = self.run_tag(self.put(name, data), *(word for kind in outs for word in ("--" + kind, outs[kind])))
        self.assertEqual(err, "")
        self.assertIn("\ntempo      none\n", out)
        with open(outs["json"]) as made:
            told = json.load(made)
        self.assertEqual((told["tempo"], told["candidates"], told["stability"], told["rows"]), (None, [], None, rows))
        self.assertEqual(told["sections"], {"count": sections, "confidence": 0.0, "starts": [0.0] * sections})
        for key in "onsets", "beats", "downbeats":
            self.assertEqual(told[key], {"frames": [], "seconds": []})
        with open(outs["labels"]) as made:
            self.assertEqual(len(made.read().splitlines()), sections)
        xml.etree.ElementTree.parse(outs["picture"])
        # no grid, no tempo track: it is said, and nothing at all is written
        err = self.refused(self.path(name), "--midi", self.path("no.mid"), "--json", self.path("no.json"))
        self.assertEqual(err, "tag: %s: no MIDI file can be written: a tempo track needs two beats at least, and there are none\n" % name)
        self.assertFalse(os.path.exists(self.path("no.mid")) or os.path.exists(self.path("no.json")))
        # no beats, a chunk of none
        self.run_tag(self.path(name), "--cues", self.path("no.cues"))
        with open(self.path("no.cues"), "rb") as made:
            self.assertEqual(made.read(), b"cue \4\0\0\0\0\0\0\0")
        return out

    def test_short(self):
        self.assertIn("a row needs 1,024 samples, and there are 0", self.nothing("empty.wav", riff(1, 1, 44_100, 16, b""), 0, 0))
        self.nothing("one.wav", riff(1, 1, 44_100, 16, b"\x00\x10"), 1, 0)
        self.assertIn("a row needs 1,024 samples", self.nothing("short.wav", riff(1, 1, 44_100, 16, b"\x00\x10" * 1023), 1, 0))
        self.nothing("frame.wav", riff(1, 1, 44_100, 16, b"\x00\x10" * 1024), 1, 1)

    def test_silence(self):
        self.nothing("silence.wav", riff(1, 2, 44_100, 16, bytes(4 * 44_100 * 20)), 1, (44_100 * 20 - 1024) // 256 + 1)

    def test_no_song(self):
        self.assertIn("missing.wav: No such file", self.refused(self.path("missing.wav")))
        self.assertIn("Is a directory", self.refused(self.folder))
        away = {"PATH": self.folder}
        self.assertIn("not a WAV file", self.refused(self.put("words.wav", b"no song at all"), env=away))
        # with a decoder or without
        for more in ({"env": away}, {}):
            self.assertEqual(self.refused(self.put("nothing.wav", b""), **more), "tag: nothing.wav is empty: there is no song in it\n")
        self.assertIn("WAV of format 2 with 4 bits", self.refused(self.put("adpcm.wav", riff(2, 1, 44_100, 4, b"12")), env=away))
        self.assertIn("without a data chunk", self.refused(self.put("head.wav", riff(1, 1, 44_100, 16, b"")[:-8])))
        self.assertIn("without a format", self.refused(self.put("bare.wav", b"RIFF\x04\x00\x00\x00WAVE")))
        self.assertIn("data stands before its format", self.refused(self.put("turned.wav", b"RIFF\x0c\x00\x00\x00WAVEdata\x00\x00\x00\x00")))
        self.assertIn("format is cut short", self.refused(self.put("cut.wav", b"RIFF\x0c\x00\x00\x00WAVEfmt \x02\x00\x00\x00\x01\x00")))
        self.assertIn("format is cut short", self.refused(self.put("huge.wav", b"RIFF\x0c\x00\x00\x00WAVEfmt \xff\xff\xff\xff\x01\x00")))
        self.assertIn("0 channels", self.refused(self.put("no.wav", riff(1, 0, 44_100, 16, b""))))
        self.assertIn("at 0 samples", self.refused(self.put("still.wav", riff(1, 1, 0, 16, b""))))

    def test_values_that_are_no_samples(self):
        least = "samples lie from -1 to 1, and none above 1.3e+30 is read"
        for bits, value, told in ((32, np.nan, "nan"), (32, np.inf, "inf"), (64, -np.inf, "-inf"), (64, np.nan, "nan"), (64, 1e300, "1e+300"),
                                  (64, -3e38, "-3e+38"), (32, 1e38, "1e+38"), (64, 1.5 * tag.LOUDEST, "1.90148e+30")):
            for channels in 1, 2:
                data = np.zeros((100_000, channels), "<f%d" % (bits // 8))
                data[44_100] = value
                err = self.refused(self.put("loud.wav", riff(3, channels, 44_100, bits, data.tobytes())))
                self.assertEqual(err, "tag: loud.wav: the sample at 1.000000 s is %s: %s\n" % (told, least))
        # the loudest that is read is answered, and nothing is said of it
        chance = np.random.RandomState(8)
        data = (chance.randint(0, 2, (100_000, 2)) * 2.0 - 1) * tag.LOUDEST
        _, err = self.run_tag(self.put("loudest.wav", riff(3, 2, 44_100, 64, data.tobytes())))
        self.assertEqual(err, "")

    def test_a_refusal_names_the_song(self):
        # the program asks before the library would refuse: here its own limit of the rate is lifted
        high = self.put("high.wav", riff(1, 1, 192_001, 16, bytes(20_000)))
        lifted = "import sys, tag; tag.MOST_RATE = 200_000; sys.exit(tag.main())"
        done = subprocess.run([sys.executable, "-B", "-c", lifted, high], cwd=HERE, stdout=subprocess.PIPE, stderr=subprocess.PIPE)
        self.assertEqual((done.returncode, done.stdout), (1, b""))
        self.assertEqual(done.stderr.decode(), "tag: high.wav: feature_rows refused with 1: rate 192,001, 1 to 192,000\n")

    def test_cut_short(self):
        data = struct.pack("<h", 1000) * 44_100
        out, err = self.run_tag(self.put("cut short.wav", riff(1, 1, 44_100, 16, data + b"\x01", size=4 * len(data))))
        self.assertEqual(err, "tag: cut short.wav is cut short: 0:01.0 of 0:04.0 is there, and analysed\n")
        self.assertIn("cut short.wav: 0:01.0 at", out)

    def test_too_long(self):
        # the header alone is enough
        long = riff(1, 1, 8_000, 16, b"", size=2 * (1_048_576 * 256 + 1024))
        self.assertIn("long.wav is too long: at most 1,048,576 rows", self.refused(self.put("long.wav", long)))
        self.assertIn("50,000 seconds", self.refused(self.put("slow.wav", riff(1, 1, 1, 16, bytes(100_002)))))

    def test_places(self):
        os.link(self.song, self.path("song.svg"))
        for kind in "--json", "--labels", "--midi", "--cues", "--picture":
            self.assertIn("is the song itself", self.refused(self.song, kind, self.path("song.svg")))
            self.assertIn("is a folder", self.refused(self.song, kind, self.folder))
            self.assertIn("there is no folder", self.refused(self.song, kind, self.path("no folder/x.svg")))
        os.unlink(self.path("song.svg"))
        self.run_tag(self.song, "--json", self.path("x"), "--labels", self.path("x"), status=2)
        self.run_tag(self.song, "--midi", self.path("x"), "--labels", self.path("x"), status=2)
        self.run_tag(self.song, "--cues", self.path("x"), "--midi", self.path("x"), status=2)
        self.run_tag(self.song, "--onsets", status=2)
        self.run_tag(self.song, "--part", "1-2", status=2)
        self.run_tag(self.song, "--picture", "-", "--part", "2-1", status=2)
        self.run_tag(status=2)
        # a picture is SVG, and its name says so; what is there already stays
        self.put("old.png", b"a picture")
        for name, instead in (("p.png", "p.svg"), ("old.png", "old.svg"), ("p", "p.svg"), ("p.svg.gz", "p.svg.svg"), ("no folder/.svg", "no folder/.svg.svg")):
            out, err = self.run_tag(self.song, "--picture", self.path(name), status=2)
            self.assertIn("--picture %s: the picture is SVG, so name it %s" % (self.path(name), self.path(instead)), err)
            self.assertEqual((out, os.path.exists(self.path("p.png"))), ("", False))
        with open(self.path("old.png"), "rb") as kept:
            self.assertEqual(kept.read(), b"a picture")
        self.run_tag(self.song, "--picture", self.path("P.SVG"), "--labels", os.devnull)
        xml.etree.ElementTree.parse(self.path("P.SVG"))
        self.run_tag(self.song, "--picture", os.devnull)
        # a link is followed, a device is written as it is
        os.symlink(self.path("true.json"), self.path("link.json"))
        self.run_tag(self.song, "--json", self.path("link.json"), "--labels", os.devnull)
        self.assertTrue(os.path.islink(self.path("link.json")))
        self.assertFalse(os.path.isfile(os.devnull))
        with open(self.path("true.json")) as made:
            self.assertEqual(json.load(made)["song"], "piece.wav")

    @unittest.skipIf(not hasattr(os, "geteuid") or os.geteuid() == 0, "root may write anywhere")
    def test_no_permission(self):
        os.mkdir(self.path("closed"), 0o555)
        self.assertIn("no permission", self.refused(self.song, "--json", self.path("closed/x")))

    def test_standard_output(self):
        if os.path.exists("/dev/full"):
            with open("/dev/full", "wb") as full:
                self.assertEqual(self.run_tag(self.song, status=1, stdout=full)[1], "tag: can't write: No space left on device\n")
        reading, writing = os.pipe()
        os.close(reading)
        _, err = self.run_tag(self.song, "--json", self.path("kept.json"), status=1, stdout=writing)
        os.close(writing)
        self.assertEqual(err, "tag: standard output was closed before all was said\n")
        self.assertTrue(os.path.exists(self.path("kept.json")))
        done = subprocess.run(["/bin/sh", "-c", '"$0" "$@" >&-', sys.executable, TAG, self.song], stderr=subprocess.PIPE)
        self.assertEqual((done.returncode, done.stderr), (1, b"tag: standard output is closed: nothing can be said there\n"))

    def test_names(self):
        short = riff(1, 1, 44_100, 16, bytes(5000))
        try:
            song = self.put("\udcff\x07 <&> \u00fc.wav", short)
        except OSError:
            self.skipTest("this file system takes no such name")
        out, _ = self.run_tag(song, "--json", self.path("odd.json"), "--picture", self.path("odd.svg"), env={"PYTHONIOENCODING": "ascii"})
        self.assertTrue(out.startswith("?? <&> ?.wav: "), out)
        with open(self.path("odd.json")) as made:
            self.assertEqual(json.load(made)["song"], "\ufffd? <&> \u00fc.wav")
        title = xml.etree.ElementTree.parse(self.path("odd.svg")).getroot()[0].text
        self.assertEqual(title, "The grid of \ufffd? <&> \u00fc.wav")
        os.unlink(song)

    @unittest.skipUnless(os.path.exists("/dev/stdin"), "no /dev/stdin here")
    def test_streams(self):
        with open(self.song, "rb") as song:
            out, _ = self.run_tag("/dev/stdin", "--json", "/dev/stdout", "--quiet", stdin=song)
        self.assertEqual(dict(json.loads(out), song="piece.wav"), json.loads(tag.tag(self.song).as_json()))

    def test_quiet(self):
        self.assertEqual(self.run_tag(self.song, "--quiet", "--json", self.path("quiet.json")), ("", ""))
        # standard output has the JSON alone
        self.assertEqual(json.loads(self.run_tag(self.song, "--json", "-")[0])["song"], "piece.wav")

    @unittest.skipUnless(hasattr(os, "mkfifo"), "no named pipes here")
    def test_interrupted(self):
        os.mkfifo(self.path("endless.wav"))
        # a job in a shell's background ignores the signal, and so would what it starts
        running = subprocess.Popen([sys.executable, TAG, self.path("endless.wav"), "--json", self.path("never.json")], stderr=subprocess.PIPE,
                                   preexec_fn=lambda: signal.signal(signal.SIGINT, signal.SIG_DFL))
        try:
            with open(self.path("endless.wav"), "wb") as song:
                song.write(riff(1, 1, 44_100, 16, bytes(1_000_000), size=0xFFFFFFFF))
                song.flush()
                time.sleep(1)  # until it waits for more; Python sees a signal that comes just before only when the wait ends
                running.send_signal(signal.SIGINT)
                _, err = running.communicate(timeout=60)
        finally:
            running.kill()
        self.assertEqual((running.returncode, err), (130, b"tag: interrupted, nothing more is written\n"))
        self.assertFalse(os.path.exists(self.path("never.json")))

    def test_progress(self):
        # none where standard error is no terminal; on one, a bar that is wiped away
        kept, sys.stderr = sys.stderr, io.StringIO()
        try:
            bar = tag.Progress(False)
            bar.next = 0
            bar(30, 60)
            self.assertEqual(sys.stderr.getvalue(), "")
            sys.stderr.isatty = lambda: True
            bar = tag.Progress(True)
            bar.next = 0
            bar(30, 60)
            self.assertEqual(sys.stderr.getvalue(), "")
            bar = tag.Progress(False)
            bar(30, 60)
            self.assertEqual(sys.stderr.getvalue(), "")  # the first half second
            bar.next = 0
            bar(30, 60)
            self.assertRegex(sys.stderr.getvalue(), r"\A\r\[#+ +\] 0:30 of 1:00\Z")
            bar.next = 0
            bar(31, None)
            bar.clear()
            self.assertRegex(sys.stderr.getvalue(), r"0:31 *\r *\r\Z")
        finally:
            sys.stderr = kept

    def test_without_what_it_needs(self):
        self.put("numpy.py", b"raise ImportError('none')\n")
        err = self.run_tag(self.song, status=1, env={"PYTHONPATH": self.folder})[1]
        os.unlink(self.path("numpy.py"))
        self.assertIn("tag: this example needs NumPy", err)
        self.assertIn("python3-numpy", err)
        err = self.run_tag(self.song, status=1, env={"PROHUNSEV_LIBRARY": self.path("no library.so")})[1]
        self.assertRegex(err, r"\Atag: .*no library\.so")


if __name__ == "__main__":
    unittest.main()
