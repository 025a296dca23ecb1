"""Tests of feature_rows and sections_of. Values are by hand; the judge (tools/judge) holds the call to the original."""
import contextlib
import io
import math
import pathlib
import sys
import unittest
import unittest.mock
from array import array

import prohunsev as ph

try:
    import numpy
except ImportError:
    numpy = None

WAS = -7.5
BINS = 2_049
FIVE = 20_480  # samples a second at which a bin is 5 Hz
LEAST = -math.ldexp(1.0, -149)


def slab(*rows):
    """Rows of the transform, each with these bins."""
    out = array("f", bytes(4 * BINS * len(rows)))
    for t, row in enumerate(rows):
        for bin_, magnitude in row.items():
            out[BINS * t + bin_] = magnitude
    return out


def row(**values):
    """A feature row with values in these places: c9=1 is pitch class 9, b1=1 the middle band, and rms."""
    places = {**{f"c{k}": k for k in range(12)}, "b0": 12, "b1": 13, "b2": 14, "rms": 15}
    out = [0.0] * 16
    for name, value in values.items():
        out[places[name]] = value
    return out


def heard(*samples):
    return array("f", samples)


def made(magnitudes, samples, rate, length):
    count = ph.feature_count(len(samples), length)
    features = array("d", [WAS]) * (16 * count + 3)
    ph.feature_rows(magnitudes, len(magnitudes) // BINS, samples, rate, length, count, features)
    assert list(features[16 * count:]) == 3 * [WAS]
    return list(features[:16 * count])


class Rows(unittest.TestCase):
    def test_by_hand(self):
        # 440 Hz, an A, in both rows; 130 Hz, a C; 6,000 Hz, which is above all pitches
        energy = 2 * 1.5 * 1.5 + 0.75 * 0.75 + 1
        expected = row(c0=0.25, c9=1.0, b0=0.75 * 0.75 / energy, b1=2 * 1.5 * 1.5 / energy, b2=1 / energy, rms=0.25)
        rows = slab({88: 1.5, 26: 0.75, 1_200: 1.0}, {88: 1.5})
        self.assertEqual(made(rows, heard(*[0.25] * 5_120), FIVE, 5_120), expected)
        # of the samples is the level alone, and the last row has those that are left
        self.assertEqual(made(slab(), heard(1, -2, 2, 4), 1, 9), row(rms=math.sqrt(25 / 4)))
        self.assertEqual(made(slab(), heard(1, 1, 3), 1, 2), row(rms=1.0) + row(rms=3.0))

    def test_edges(self):
        for bin_, class_, band in ((0, None, 0), (10, None, 0), (11, 9, 0), (49, 11, 0), (50, 11, 1), (800, 11, 1), (801, 11, 2), (1_000, 3, 2),
                                   (1_001, None, 2), (2_048, None, 2)):
            classes = {} if class_ is None else {f"c{class_}": 1.0}
            self.assertEqual(made(slab({bin_: 0.1}), heard(*[0.5] * 9), FIVE, 9), row(**classes, **{f"b{band}": 1.0}, rms=0.5), bin_)
        # the rate is read: bin 11 is at 129 Hz, a C
        self.assertEqual(made(slab({11: 0.1}), heard(*[0.5] * 9), 48_000, 9), row(c0=1.0, b0=1.0, rms=0.5))

    def test_places(self):
        tones = {88: 1.0}, {26: 1.0}, {}, {88: 1.0}, {26: 3.0}
        a, c, none = row(c9=1.0, b1=1.0), row(c0=1.0, b0=1.0), row()
        # centres at 2,048, 3,072 and so on; those past the last row belong to it
        both, silence = row(c0=1.0, c9=1 / 3, b0=0.9, b1=0.1), heard(*[0.0] * 6_000)
        self.assertEqual(made(slab(*tones), silence, FIVE, 1_024), none + none + a + c + none + both)
        self.assertEqual(made(slab(*tones[:2]), silence[:3_073], FIVE, 3_072), a + c)
        # one long row has them all, and rows of one sample have them in the last
        all_ = row(c0=1.0, c9=0.5, b0=10 / 12, b1=2 / 12)
        self.assertEqual(made(slab(*tones), silence[:7], FIVE, 2 ** 31), all_)
        self.assertEqual(made(slab(*tones), silence[:3], FIVE, 1), none + none + all_)

    def test_nothing(self):
        self.assertEqual(made(slab({88: 1.0}), heard(), 48_000, 48_000), [])
        self.assertEqual(made(slab(), heard(), 1, 1), [])
        for zero in (0.0, -0.0):
            values = made(array("f", [zero] * (2 * BINS)), heard(*[zero] * 5), 48_000, 5)
            self.assertEqual(bytes(array("d", values)), bytes(8 * 16))

    def test_rows_of_a_shape(self):
        """Two dimensions need no rows told, and the count follows from the samples where it isn't said."""
        def shaped(values, *shape):
            return memoryview(values).cast("B").cast(values.typecode, shape)

        rows, samples, features = slab({88: 1.0}, {26: 1.0}), heard(*[0.5] * 3_073), array("d", [WAS]) * 33
        told = made(rows, samples, FIVE, 3_072)
        ph.feature_rows(shaped(rows, 2, BINS), samples=samples, rate=FIVE, length=3_072, features=features)
        self.assertEqual(list(features), told + [WAS])
        features = array("d", [WAS]) * 32
        ph.feature_rows(shaped(rows, 2, BINS), 2, samples, FIVE, 3_072, features=shaped(features, 2, 16))
        self.assertEqual(list(features), told)
        for shape in ((BINS, 2), (1, 2 * BINS)):
            for words in ({}, {"rows": 2}):
                with self.assertRaisesRegex(ValueError, r"feature_rows: magnitudes must have the shape \((rows|2), 2049\), rows first"):
                    ph.feature_rows(shaped(rows, *shape), samples=samples, rate=FIVE, length=3_072, features=features, **words)
        with self.assertRaisesRegex(ValueError, r"magnitudes has the shape \(4098,\), so say rows"):
            ph.feature_rows(rows, samples=samples, rate=FIVE, length=3_072, features=features)
        for missing in ("samples", "rate", "length", "features"):
            words = {"samples": samples, "rate": FIVE, "length": 3_072, "features": features}
            with self.assertRaisesRegex(TypeError, f"feature_rows: {missing} is missing"):
                ph.feature_rows(rows, 2, **{**words, missing: None})
        self.assertEqual(list(features), told)

    def test_other_kinds(self):
        rows, samples, features = slab({88: 1.0}), heard(1, 2), array("d", [WAS]) * 16
        for error, words, lent in (
            (TypeError, "magnitudes must be a contiguous buffer of float32 values", (array("d", rows), 1, samples, 1, 2, 1, features)),
            (TypeError, "samples must be a contiguous buffer of float32 values", (rows, 1, array("d", samples), 1, 2, 1, features)),
            (TypeError, "features must be a contiguous buffer of float64 values to write into", (rows, 1, samples, 1, 2, 1, bytes(features))),
            (OverflowError, "rate is -1, outside 1 to 192,000", (rows, 1, samples, -1, 2, 1, features)),
            (OverflowError, "length is 18,446,744,073,709,551,616, outside 1 to 2,147,483,648", (rows, 1, samples, 1, 2 ** 64, 1, features)),
            (OverflowError, "count is -1, outside 0 to 50,000", (rows, 1, samples, 1, 2, -1, features)),
            (OverflowError, "rows is -1, outside 0 to 1,048,576", (rows, -1, samples, 1, 2, 1, features)),
            (TypeError, "length must be a whole number, not float", (rows, 1, samples, 1, 2.0, 1, features)),
        ):
            with self.assertRaises(error) as caught:
                ph.feature_rows(*lent)
            self.assertIn(words, str(caught.exception))
        memory = memoryview(bytearray(8 * 16))
        with self.assertRaisesRegex(ValueError, "feature_rows: features overlaps samples"):
            ph.feature_rows(rows, 1, memory.cast("f")[:2], 1, 2, 1, memory.cast("d"))
        self.assertEqual((list(features), bytes(memory)), ([WAS] * 16, bytes(8 * 16)))


class Refusals(unittest.TestCase):
    def refuses(self, number, words, magnitudes, rows, samples, rate, length, count, slots):
        features = array("d", [WAS]) * slots
        before = bytes(magnitudes), bytes(samples)
        with self.assertRaises(ph.Refused) as caught:
            ph.feature_rows(magnitudes, rows, samples, rate, length, count, features)
        self.assertEqual(str(caught.exception), f"feature_rows refused with {number}: {words}")
        self.assertEqual((list(features), bytes(magnitudes), bytes(samples)), ([WAS] * slots, *before))

    def test_bounds(self):
        fine, ten = slab({88: 1.0}, {}), heard(*[0.5] * 10)
        self.refuses(1, "rows 1,048,577, 0 to 1,048,576", fine, 1_048_577, ten, 48_000, 5, 2, 32)
        self.refuses(1, "rate 0, 1 to 192,000", fine, 2, ten, 0, 5, 2, 32)
        self.refuses(1, "rate 192,001, 1 to 192,000", fine, 2, ten, 192_001, 5, 2, 32)
        self.refuses(1, "length 0, 1 to 2,147,483,648", fine, 2, ten, 48_000, 0, 2, 32)
        self.refuses(1, "length 0, 1 to 2,147,483,648", fine, 2, ten, 48_000, 0, None, 160)
        self.refuses(1, "length 2,147,483,649, 1 to 2,147,483,648", fine, 2, ten, 48_000, 2 ** 31 + 1, 1, 32)
        self.refuses(1, "count 3, 2 needed: 10 samples, 5 a row", fine, 2, ten, 48_000, 5, 3, 48)
        self.refuses(1, "count 1, 2 needed: 10 samples, 9 a row", fine, 2, ten, 48_000, 9, 1, 32)
        self.refuses(1, "count 0, 1 needed: 1 sample, 1 a row", fine, 2, heard(1), 48_000, 1, 0, 32)
        self.refuses(1, "count 50,001, 0 to 50,000", fine, 2, array("f", bytes(4 * 50_001)), 48_000, 1, None, 32)

    def test_order(self):
        """1 before 2, 2 before 3, and 3 before 4."""
        ten, nan = heard(*[0.5] * 10), array("f", [math.nan])
        self.refuses(1, "rate 0, 1 to 192,000", nan, 2, ten, 0, 5, 2, 0)
        self.refuses(2, "magnitudes: 1 value lent, 4,098 needed: 2 rows of 2,049", nan, 2, ten, 48_000, 5, 2, 0)
        self.refuses(3, "features: 31 slots lent, 32 needed", nan * (2 * BINS), 2, ten, 48_000, 5, 2, 31)

    def test_values(self):
        for without in (False, True):
            with unittest.mock.patch.dict(sys.modules):
                if without:
                    sys.modules.pop("numpy", None)
                for wrong in (math.nan, math.inf, -math.inf, 2.0 ** 127, -1.0, LEAST):
                    rows = slab({88: 1.0}, {1_951: wrong})
                    words = f"magnitudes[4000] is {wrong}: a magnitude is 0 to 2**126"
                    self.refuses(4, words, rows, 2, heard(1), 48_000, 5, 1, 16)
                    # also where nothing would be written
                    self.refuses(4, words, rows, 2, heard(), 48_000, 5, 0, 16)
                for wrong in (math.nan, math.inf, -math.inf):
                    self.refuses(4, f"samples[1] is {wrong}: a sample is finite", slab({}), 1, heard(1, wrong), 48_000, 5, 1, 16)
        # the greatest of each are taken, and -0 is not below 0
        most, top = 2.0 ** 126, (2 - 2.0 ** -23) * 2.0 ** 127
        expected = row(c9=1.0, b0=1.0, b1=1 / most / most, rms=top)
        self.assertEqual(made(slab({88: 1.0, 7: most, 8: -0.0}), heard(top, -top), FIVE, 2), expected)


class Sections(unittest.TestCase):
    RATE, LENGTH, COUNT = 256, 1_024, 40

    def track(self):
        tones = [{88: 1.0} if t < 13 else {26: 1.0} for t in range(self.COUNT - 3)]
        return slab(*tones), heard(*[0.5] * (self.LENGTH * self.COUNT - 7))

    def test_the_chain(self):
        rows, samples = self.track()
        features, band, novel = (array("d", bytes(8 * k * self.COUNT)) for k in (16, 17, 1))
        ph.feature_rows(rows, self.COUNT - 3, samples, self.RATE, self.LENGTH, self.COUNT, features)
        ph.similarity(features, self.COUNT, band)
        ph.novelty(band, self.COUNT, novel)
        listed, work = array("I", bytes(4 * self.COUNT)), array("d", bytes(8 * self.COUNT))
        for most in (12, 2, 1):
            told = ph.sections_of(rows, self.COUNT - 3, samples, self.RATE, self.LENGTH, most)
            found = ph.boundaries(novel, self.LENGTH, self.RATE, most, listed, work)
            ms = array("d", bytes(8 * found.count))
            ph.boundary_times(listed[:found.count], self.LENGTH, self.RATE, ms)
            self.assertEqual(told, (found.sections, found.confidence, listed[:found.count], ms))

    def test_a_change(self):
        rows, samples = self.track()
        told = ph.sections_of(rows, self.COUNT - 3, samples, FIVE, self.LENGTH, 2)
        self.assertEqual((told.sections, list(told.rows), list(told.ms)), (2, [15], [15 * 1_024 / FIVE * 1000]))
        # one second where no length is said
        self.assertEqual(ph.sections_of(rows, self.COUNT - 3, samples, self.LENGTH), ph.sections_of(rows, self.COUNT - 3, samples, self.LENGTH, self.LENGTH))
        self.assertEqual(ph.sections_of(slab(), 0, heard(), 48_000), (0, 0.0, array("I"), array("d")))

    def test_refusals(self):
        rows, samples = self.track()
        for number, words, lent in (
            (1, "rate 0, 1 to 192,000", (rows, 37, samples, 0, 5)), (1, "length 0, 1 to 2,147,483,648", (rows, 37, samples, 48_000, 0)),
            (1, "count 50,001, 0 to 50,000", (slab(), 0, array("f", bytes(4 * 50_001)), 48_000, 1)),
            (2, "magnitudes: 75,813 values lent, 73,764 needed: 36 rows of 2,049", (rows, 36, samples, 48_000)),
            (4, "samples[0] is inf: a sample is finite", (slab(), 0, heard(math.inf), 48_000)),
        ):
            with self.assertRaises(ph.Refused) as caught:
                ph.sections_of(*lent)
            self.assertEqual(str(caught.exception), f"sections_of refused with {number}: {words}")
        with self.assertRaisesRegex(TypeError, "sections_of: samples is missing"):
            ph.sections_of(rows, 37, rate=48_000)
        with self.assertRaisesRegex(TypeError, "rate must be a whole number, not float"):
            ph.sections_of(rows, 37, samples, 48_000.0)

    @unittest.skipUnless(numpy, "NumPy is not there")
    def test_numpy(self):
        rows, samples = self.track()
        shaped = numpy.array(rows, numpy.float32).reshape(-1, BINS)
        told = ph.sections_of(shaped, samples=numpy.array(samples, numpy.float32), rate=FIVE, length=self.LENGTH)
        self.assertEqual(told, ph.sections_of(rows, self.COUNT - 3, samples, FIVE, self.LENGTH))


class Tracks(unittest.TestCase):
    RATE, LENGTH, ROWS, BINS = 48_000, 5_120, 900, 3

    def lent(self):
        """A track with a hit every 90 rows, and the wide rows of one that changes its pitch in the middle."""
        magnitudes = array("f", bytes(4 * self.ROWS * self.BINS))
        for t in range(5, self.ROWS, 90):
            magnitudes[self.BINS * t] = 1.0
        count = 40
        wide = slab(*({88: 1.0} if t < 100 else {132: 1.0} for t in range(5 * count - 3)))
        return magnitudes, wide, heard(*[0.25] * (count * self.LENGTH))

    def test_is_both(self):
        magnitudes, wide, samples = self.lent()
        rows = len(wide) // BINS
        told = ph.track_of(magnitudes, wide, samples, self.RATE, ph.TempoOpts(meter=3), self.LENGTH, 5, self.ROWS, self.BINS, rows)
        rhythm = ph.Buffers(self.ROWS, self.RATE).analyse_magnitudes(magnitudes, self.ROWS, self.BINS, self.RATE, ph.TempoOpts(meter=3))
        self.assertEqual(told.rhythm, rhythm)
        self.assertGreater(len(rhythm.beats), 8)
        self.assertEqual(told.structure, ph.sections_of(wide, rows, samples, self.RATE, self.LENGTH, 5))
        self.assertEqual(told.structure.sections, 2)

    def test_refusals_have_names(self):
        magnitudes, wide, samples = self.lent()
        rows = len(wide) // BINS
        wide[7] = -1.0
        with self.assertRaisesRegex(ph.Refused, "sections_of refused with 4"):
            ph.track_of(magnitudes, wide, samples, self.RATE, length=self.LENGTH, rows=self.ROWS, bins=self.BINS, wide_rows=rows)
        wide[7], magnitudes[5] = 0.0, math.inf
        with self.assertRaisesRegex(ph.Refused, "analyse_magnitudes refused with 4"):
            ph.track_of(magnitudes, wide, samples, self.RATE, length=self.LENGTH, rows=self.ROWS, bins=self.BINS, wide_rows=rows)
        with self.assertRaisesRegex(ValueError, "track_of: magnitudes"):
            ph.track_of(magnitudes, wide, samples, self.RATE)


class Readmes(unittest.TestCase):
    HERE = pathlib.Path(__file__).resolve().parent

    @unittest.skipUnless((HERE / "README.md").is_file(), "the README is not beside this file")
    def test_a_refusal(self):
        with self.assertRaises(ph.Refused) as caught:
            ph.feature_rows(slab(), 0, array("f", bytes(4 * 96_000)), 48_000, 48_000, 3, array("d", bytes(8 * 48)))
        self.assertIn(f"\n{caught.exception}\n", (self.HERE / "README.md").read_text())

    @unittest.skipUnless(numpy and (HERE.parent / "include/prohunsev.h").is_file(), "NumPy or the clone is not there")
    def test_the_sections_of_the_project(self):
        text = (self.HERE.parent / "README.md").read_text().split("\n## Sections of a track\n")[1]
        said = io.StringIO()
        with contextlib.redirect_stdout(said):
            exec(text.split("```python\n")[1].split("```")[0], {})
        self.assertIn(f"it prints `{said.getvalue().strip()}`", text)


class Room(unittest.TestCase):
    def test_counts(self):
        for samples, length, count in ((0, 1, 0), (1, 1, 1), (10, 5, 2), (11, 5, 3), (1, 2 ** 31, 1)):
            self.assertEqual(ph.feature_count(samples, length), count)
        self.assertEqual(ph.features_room(3), 48)


if __name__ == "__main__":
    unittest.main()
