"""Tests of prohunsev.py, with the standard library alone; those that need NumPy are skipped where it isn't installed."""
import concurrent.futures
import ctypes
import inspect
import math
import os
import pathlib
import pickle
import random
import re
import shlex
import struct
import subprocess
import sys
import tempfile
import threading
import typing
import unittest
import unittest.mock
import warnings
from array import array

import prohunsev as ph

try:
    import numpy
except ImportError:
    numpy = None

RATE = 48_000
OPTS = ph.TempoOpts()
# what slots hold before a call
WAS, WAS_FRAME = -7.5, 77
TOO_LARGE = 2.0 ** 151


def reals(*values):
    return array("d", values)


def singles(*values):
    return array("f", values)


def frames(*values):
    return array("I", values)


def room(slots):
    return array("d", [WAS]) * slots


def frame_room(slots):
    return array("I", [WAS_FRAME]) * slots


def pulses(n, period=94):
    return array("d", [(t % 7) * 0.01 + (2.0 if t % period == 5 else 0.0) for t in range(n)])


def turn(n=4_000):
    """A pulse every 94 frames, from frame 2,600 on every 73."""
    envelope, t = array("d", [0.0]) * n, 5
    while t < n:
        envelope[t] = 1.0
        t += 94 if t < 2_600 else 73
    return envelope


def waltz(n):
    """A pulse every 80 frames, each third of them louder, from the second on."""
    return array("d", ((1.5 if t // 80 % 3 == 1 else 1.0) if t % 80 == 5 else 0.0 for t in range(n)))


class Marked(unittest.TestCase):
    """Document 01's marked numbers."""

    def test_m1_the_upper_middle(self):
        self.assertEqual(ph.median_of(reals(1, 2, 3, 4), room(4)), 3.0)

    def suppressed(self, peaks, heights):
        curve = array("d", [0.0]) * (peaks[-1] + 1)
        for p, h in zip(peaks, heights):
            curve[p] = h
        out = frame_room(len(peaks))
        return list(out[:ph.suppress_close_peaks(peaks, curve, 6, out)])

    def test_m2_to_m4_close_peaks(self):
        self.assertEqual(self.suppressed(frames(10, 16), [5, 5]), [10])
        self.assertEqual(self.suppressed(frames(10, 17), [5, 5]), [10, 17])
        self.assertEqual(self.suppressed(frames(10, 16, 22), [5, 6, 7]), [22])

    def test_m5_to_m8_lags(self):
        self.assertEqual(ph.lag_range(RATE), (38, 375))
        self.assertEqual(ph.lag_range(RATE).lags, 338)
        self.assertEqual(ph.lag_range(RATE, ph.TempoOpts(200, 100)), (56, 113))
        self.assertEqual(ph.lag_range(RATE, ph.TempoOpts(0, 0)), (5_625, 11_250))
        self.assertEqual(ph.lag_range(1), (1, 2))

    def test_m11_and_m12_grids(self):
        envelope, score, back, beats = reals(0, 4, 0, 4, 0, 4), room(6), frame_room(6), frame_room(6)
        count = ph.beat_grid(envelope, 2, score, back, beats)
        self.assertEqual(list(beats), [1, 3, 5] + 3 * [WAS_FRAME])
        self.assertEqual((back[1], back[3]), (ph.NO_LINK, 1))
        downs = frame_room(3)
        self.assertEqual((ph.downbeats(envelope, beats[:count], downs), downs[0]), (1, 1))
        self.assertEqual(ph.beat_grid(reals(4, 4, 4, 4), 2, score, back, beats), 0)


class Answers(unittest.TestCase):
    """Each parameter and each output at least once with a value that tells it from its neighbours: a call that hands one on in another's
    place gives another answer. Values "by the original" are what the Rust of docs/src answers; the others can be had by hand."""

    # what is said of `turn`, by the original: rate and bounds; the lags; candidates as lag, salience, which is its clarity, and weight;
    # windows of four that agree; of beats and of downbeats how many, the first three and the last
    HEARD = (
        (48_000, (30, 300), (38, 375), ((94, 0.6053914404141673, 0.6053887964940086), (188, 0.5979661177347704, 0.4438107911577112),
                                        (73, 0.38291976654311355, 0.3684428394942035)), 3,
         (43, [5, 99, 193], 3_951), (11, [5, 381, 757], 3_756)),
        (48_000, (30, 100), (113, 375), ((188, 0.5979661177347704, 0.4438107911577112), (146, 0.36812752505098095, 0.32622749504847576),
                                         (282, 0.5904374946358724, 0.27978724444305986)), 3,
         (21, [5, 193, 381], 3_732), (6, [5, 757, 1_509], 3_732)),
        (48_000, (140, 300), (38, 80), ((73, 0.38291976654311355, 0.3684428394942035),), 2,
         (56, [5, 75, 145], 3_951), (14, [75, 358, 639], 3_805)),
        (24_000, (30, 300), (19, 188), ((94, 0.6053914404141673, 0.4493218698546586), (73, 0.38291976654311355, 0.3393360934545913),
                                        (188, 0.5979661177347704, 0.18228127280439488)), 3,
         (43, [5, 99, 193], 3_951), (11, [5, 381, 757], 3_756)),
    )

    def test_tracks(self):
        """Call by call, and all in one from the envelope and from magnitudes."""
        envelope, n = turn(), 4_000
        pulses = [t for t in range(n) if envelope[t]]
        # two bins that rise to a quarter and to three: their flux is the envelope
        magnitudes = array("f", (x * share for x in envelope for share in (0.25, 0.75)))
        for rate, opts, ends, candidates, agreeing, beats_of, downbeats_of in self.HEARD:
            flux, threshold, onsets = room(n), room(n), frame_room(n)
            ph.spectral_flux(magnitudes, n, 2, flux)
            self.assertEqual(flux, envelope)
            ph.adaptive_threshold(flux, threshold, room(21))
            self.assertEqual(list(threshold), [0.000001] * n)
            count = ph.pick_onsets(flux, threshold, rate, onsets)
            self.assertEqual((count, list(onsets[:count])), (47, pulses))

            lags = ph.lag_range(rate, opts)
            self.assertEqual(lags, ends)
            unchanged = room(lags.lags + 1)
            clarity, weight, work = (unchanged[:] for _ in range(3))
            for few in (0, 1):
                self.assertEqual(ph.estimate(envelope, few, rate, opts, clarity, weight, work), (None, ()))
                self.assertEqual((clarity, weight, work), (unchanged,) * 3)
            found = ph.estimate(envelope, 2, rate, opts, clarity, weight, work)
            lag, salience, _ = candidates[0]
            self.assertEqual(found.tempo, (rate / 256 * 60 / lag, salience))
            self.assertEqual(tuple((*c, weight[c.lag - lags.min_lag]) for c in found.candidates), candidates)
            self.assertEqual([clarity[c.lag - lags.min_lag] for c in found.candidates], [c.salience for c in found.candidates])
            self.assertEqual((clarity[-1], weight[-1], work), (WAS, WAS, unchanged))

            steady = ph.stability_of(envelope, rate, opts, lag, clarity, weight, work)
            self.assertEqual(steady, (agreeing / 4, agreeing, 4))
            beats, bars = frame_room(n), frame_room(n)
            laid = ph.beat_grid(envelope, lag, room(n), frame_room(n), beats)
            begun = ph.downbeats(envelope, beats[:laid], bars)
            for count, listed, expected in ((laid, beats, beats_of), (begun, bars, downbeats_of)):
                self.assertEqual((count, list(listed[:3]), listed[count - 1], listed[count]), (*expected, WAS_FRAME))

            buffers = ph.Buffers(n, rate, opts)
            for track in (buffers.analyse_envelope(envelope, rate, opts), buffers.analyse_magnitudes(magnitudes, n, 2, rate, opts)):
                self.assertEqual(Tracks.told(track), (*found, steady, pulses, list(beats[:laid]), list(bars[:begun])))

    def test_windows(self):
        # slots of `turn`, rate and lag; agreeing and windows by the original
        for n, rate, lag, expected in ((4_000, 48_000, 94, (3, 4)), (4_000, 48_000, 73, (1, 4)), (4_000, 48_000, 0, None),
                                       (1_300, 48_000, 94, (3, 3)), (700, 44_100, 94, (2, 2)), (700, 48_000, 94, None)):
            steady = ph.stability_of(turn(n), rate, OPTS, lag, room(338), room(338), room(338))
            self.assertEqual(steady, expected and (expected[0] / expected[1], *expected), (n, rate, lag))
            # a whole track has lag 94; the last has a tempo and no stability
            track = ph.Buffers(n, rate).analyse_envelope(turn(n), rate)
            self.assertEqual(track.candidates[0].lag, 94)
            self.assertTrue(track.tempo and (track.stability == steady or lag != 94))

    def test_medians(self):
        values = reals(1, 2, 3, 9, 2)
        self.assertEqual((ph.median_of(values, room(5)), ph.median_of(values[2:], room(3))), (2.0, 3.0))
        self.assertEqual((ph.mad_of(values, 2.0, room(5)), ph.mad_of(values, 5.0, room(5))), (1.0, 3.0))

    def test_peaks(self):
        flux = array("d", [0.0]) * 30
        flux[10], flux[13], flux[20] = 5, 6, 4
        # 30 ms are 1.9, 5.6 and 11.3 frames
        for limit, rate, expected in ((1, 16_000, [10, 13, 20]), (1, 48_000, [13, 20]), (1, 96_000, [13]), (4.5, 48_000, [13])):
            out = frame_room(30)
            count = ph.pick_onsets(flux, array("d", [limit]) * 30, rate, out)
            self.assertEqual((list(out[:count]), out[count]), (expected, WAS_FRAME), (limit, rate))
        for gap, expected in ((0, [10, 13, 20]), (2, [10, 13, 20]), (3, [13, 20]), (6, [13, 20]), (7, [13])):
            out = frame_room(4)
            count = ph.suppress_close_peaks(frames(10, 13, 20), flux, gap, out)
            self.assertEqual((list(out[:count]), out[count]), (expected, WAS_FRAME), gap)
        for rate, expected in ((1_000, [1280.0, 512.0, WAS]), (500, [2560.0, 1024.0, WAS])):
            ms = room(3)
            ph.frame_times(frames(3, 0), rate, ms)
            self.assertEqual(list(ms), expected)

    def test_grids(self):
        no = ph.NO_LINK
        # period, scores and links by the original, beats
        for period, scores, links, expected in ((1, [0, 2, 2, 4, 4, 6], [no, no, 1, 2, 3, 4], [1, 2, 3, 4, 5]),
                                                (2, [0, 2, 0, 4, 0, 6], [no, no, no, 1, no, 3], [1, 3, 5]),
                                                (3, [0, 2, 0, 2, 2, 2], [no, no, no, no, 1, no], [1])):
            score, back, beats = room(7), frame_room(7), frame_room(7)
            count = ph.beat_grid(reals(0, 4, 0, 4, 0, 4), period, score, back, beats)
            self.assertEqual((list(score), list(back)), (scores + [WAS], links + [WAS_FRAME]), period)
            self.assertEqual((list(beats[:count]), beats[count]), (expected, WAS_FRAME), period)
        bars, beats = reals(0.5, 2.5), reals(0.5, 1.0, 1.5, 2.0, 2.5, 3.0)
        for time, expected in ((0.4, None), (math.nan, None), (1.6, (1, 3)), (2.5, (2, 1)), (9, (2, 2))):
            self.assertEqual(ph.bar_beat_at(time, bars, beats), expected)
        self.assertEqual(ph.bar_beat_at(math.inf, bars, reals()), (2, 1))

    def test_likeness(self):
        # two rows whose cosine is 3/5; room behind them
        features, band = array("d", [0.0]) * 32, room(35)
        features[0], features[16], features[17] = 2, 3, 4
        ph.similarity(features, 2, band)
        self.assertEqual(list(band), [1, 0.6] + 15 * [0] + [1] + 16 * [0] + [WAS])
        # nine rows of one kind, nine of another; by the original
        features, band, novel = array("d", [0.0]) * (18 * 16), room(18 * 17), room(19)
        for row in range(18):
            features[16 * row + row // 9] = 1.0
        ph.similarity(features, 18, band)
        ph.novelty(band, 18, novel)
        self.assertEqual((novel[0], novel[9], novel[17], novel[18]), (27.163394960670146, 46.06142697369474, 11.203658657106502, WAS))

    def test_sections(self):
        novel = array("d", [0.0]) * 40
        novel[12], novel[25], novel[28], novel[31] = 2, 3, 1.5, 2.5
        # length, rate and most sections; rows and confidence by the original: 4 s are 4, 8 or 2 rows
        for length, rate, most, expected, confidence in (
            (48_000, 48_000, 8, [12, 25, 31], 0.8333333333333334),
            (24_000, 48_000, 8, [12, 25], 0.8333333333333334),
            (48_000, 24_000, 8, [12, 25, 28, 31], 0.75),
            (48_000, 48_000, 3, [25, 31], 0.9166666666666666),
            (48_000, 48_000, 2, [25], 1.0),
            (48_000, 48_000, 1, [], 0.0),
        ):
            out, count = frame_room(40), len(expected)
            found = ph.boundaries(novel, length, rate, most, out, room(40))
            self.assertEqual(found, (count + 1, count, confidence), (length, rate, most))
            self.assertEqual((list(out[:count]), out[count]), (expected, WAS_FRAME))
        for length, rate, expected in ((24_000, 48_000, [12_500, 6_000, WAS]), (48_000, 96_000, [12_500, 6_000, WAS]),
                                       (24_000, 8_000, [75_000, 36_000, WAS])):
            ms = room(3)
            ph.boundary_times(frames(25, 12), length, rate, ms)
            self.assertEqual(list(ms), expected)

    def test_room(self):
        for rows, rate, opts, expected in ((67_500, RATE, (30, 300), (67_500, 338, 338)), (67_500, RATE, (30, 200), (67_500, 320, 320)),
                                           (67_500, RATE, (60, 300), (67_500, 151, 151)), (30, 1, (30, 300), (30, 2, 21)),
                                           (10, 1, (30, 300), (10, 2, 10))):
            buffers = ph.Buffers(rows, rate, opts)
            self.assertEqual((ph.room_of(rows, rate, opts), buffers.room), (expected, expected))
            self.assertEqual(buffers.room.bytes, 40 * expected[0] + 32 * expected[1] + 8 * expected[2])
            buffers.analyse_envelope(array("d", [1.0]) * rows, rate, opts)

    # bounds that are open or not finite, finite ones that mean the same, and the lags of both at 48,000 by the original
    MOST, INF, NAN = 1.7976931348623157e308, math.inf, math.nan
    OPEN = (
        ((INF, INF), (MOST, MOST), (1, 2)),
        ((30, INF), (30, MOST), (1, 375)),
        ((INF, 30), (30, MOST), (1, 375)),
        ((-INF, INF), (1, MOST), (1, 11_250)),
        ((-INF, -INF), (1, 2), (5_625, 11_250)),
        ((NAN, 300), (300, 301), (37, 38)),
        ((30, NAN), (1, 30), (375, 11_250)),
        ((NAN, NAN), (1, 2), (5_625, 11_250)),
        # None: no lower limit, no upper one, whatever the other is
        ((None, 300), (1, 300), (38, 11_250)),
        ((30, None), (30, MOST), (1, 375)),
        ((None, None), (1, MOST), (1, 11_250)),
        ((None, -INF), (1, 2), (5_625, 11_250)),
        ((INF, None), (MOST, MOST), (1, 2)),
        ((None, NAN), (1, 2), (5_625, 11_250)),
        (ph.TempoOpts(min_bpm=None), (1, 300), (38, 11_250)),
        (ph.TempoOpts(max_bpm=None), (30, MOST), (1, 375)),
        (ph.TempoOpts(None, None), (1, MOST), (1, 11_250)),
    )

    def test_open_bounds(self):
        envelope, rate, tempos = turn(), 12_000, 0
        rows = array("f", envelope)

        def told(opts):
            """Every call that takes bounds, each told from the others."""
            lags = ph.lag_range(rate, opts)
            self.assertEqual(ph.room_of(len(rows), rate, opts), (len(rows), lags.lags, max(lags.lags, 21)))
            curves = [room(lags.lags) for _ in range(5)]
            found = ph.estimate(envelope, 47, rate, opts, curves[0], curves[1], curves[2])
            lag = found.candidates[0].lag if found.candidates else 0
            steady = ph.stability_of(envelope, rate, opts, lag, curves[2], curves[3], curves[4])
            said = [found, steady, list(curves[0]), list(curves[1])]
            buffers = ph.Buffers(len(rows), rate, opts)
            self.assertEqual(buffers.room.lags, lags.lags)

            def kept(track):
                self.assertEqual((buffers.lags, track[:3]), (lags, (*found, steady)))
                said.append([list(view) for view in track[3:]] + [list(buffers.clarity), list(buffers.weight)])

            kept(buffers.analyse_envelope(envelope, rate, opts))
            kept(buffers.analyse_magnitudes(rows, len(rows), 1, rate, opts))
            buffers.patch_magnitudes(rows, len(rows), 1, 0, rows[:1])
            kept(buffers.analyse_patched())
            return said

        for opts, same, lags in self.OPEN:
            with self.subTest(opts=opts):
                self.assertEqual(ph.lag_range(RATE, opts), lags)
                self.assertEqual(ph.lag_range(RATE, same), lags)
                said = told(opts)
                self.assertEqual(said, told(same))
                tempos += said[0].tempo is not None
        self.assertGreaterEqual(tempos, 10, "too few of them have a tempo to compare")

    def test_the_options_meter(self):
        self.assertEqual((OPTS.meter, ph.TempoOpts(50, 60).meter, ph.TempoOpts(meter=3)), (4, 4, (30, 300, 3)))
        self.assertEqual(inspect.signature(ph.downbeats).parameters["meter"].default, 4)
        self.assertEqual((ph._DEFAULT_METER, ph._MOST_METER), (4, 16))

    @staticmethod
    def bars_of(envelope, beats, meter):
        """By its rule: of the beats that many apart those whose values sum up to the most, the earliest of equal ones."""
        def total(phase):
            at = 0.0
            for t in beats[phase::meter]:
                at += envelope[t] if t < len(envelope) else 0.0
            return at
        return list(beats[max(range(meter), key=lambda phase: (total(phase), -phase))::meter])

    def test_meters(self):
        n = 4_000
        # uneven levels, with ties for the greatest sum at 8, 9, 13 and 14, the accents of a waltz, and all the same
        for envelope in (array("d", (1 + 0.25 * (t * t % 7) if t % 80 == 5 else 0 for t in range(n))), waltz(n), turn()):
            rows = array("f", envelope)

            def told(opts):
                """What isn't chosen by the meter."""
                lags = ph.lag_range(RATE, opts)
                curves = [room(lags.lags) for _ in range(5)]
                found = ph.estimate(envelope, 40, RATE, opts, *curves[:3])
                steady = ph.stability_of(envelope, RATE, opts, found.candidates[0].lag, *curves[2:])
                return lags, ph.room_of(n, RATE, opts), found, steady, [list(curve) for curve in curves[:2]]

            usual, beats = told(OPTS), frame_room(n)
            beats = beats[:ph.beat_grid(envelope, usual[2].candidates[0].lag, room(n), frame_room(n), beats)]
            counts = []
            for meter in range(1, 17):
                opts, bars = ph.TempoOpts(meter=meter), frame_room(len(beats) + 1)
                self.assertEqual(told(opts), usual, meter)
                begun = ph.downbeats(envelope, beats, bars, meter)
                self.assertEqual((list(bars[:begun]), bars[begun]), (self.bars_of(envelope, beats, meter), WAS_FRAME), meter)
                self.assertEqual(ph.downbeats(envelope, beats, frame_room(len(beats)), meter=meter), begun)
                buffers = ph.Buffers(n, RATE)
                was = Tracks.told(buffers.analyse_envelope(envelope, RATE))
                # by the record, by all three, and by the record of the last analysis
                for track in (lambda: buffers.analyse_envelope(envelope, RATE, opts), lambda: buffers.analyse_magnitudes(rows, n, 1, RATE, opts),
                              lambda: buffers.analyse_envelope(envelope, RATE, (30, 300, meter)),
                              lambda: buffers.analyse_magnitudes(rows, n, 1, RATE, opts=[30, 300, meter]), buffers.analyse_patched):
                    self.assertEqual(Tracks.told(track()), (*was[:5], list(bars[:begun])), meter)
                    self.assertEqual(buffers.lags, usual[0])
                if meter == 4:
                    self.assertEqual(list(bars[:begun]), was[5])
                    self.assertEqual(ph.downbeats(envelope, beats, frame_room(len(beats))), begun)
                counts.append(begun)
            # a meter that another stood for would be seen
            self.assertEqual(counts[:8], sorted(set(counts[:8]), reverse=True))

    def test_a_waltz(self):
        """Three beats apart, on the accent."""
        envelope, opts = waltz(4_000), ph.TempoOpts(meter=3)
        track = ph.Buffers(4_000, RATE, opts).analyse_envelope(envelope, RATE, opts)
        accents = [t for t in range(4_000) if envelope[t] == 1.5]
        self.assertEqual((track.candidates[0].lag, len(track.beats), list(track.downbeats)), (80, 50, accents))
        self.assertEqual({b - a for a, b in zip(accents, accents[1:])}, {240})
        track = ph.Buffers(4_000, RATE).analyse_envelope(envelope, RATE)
        self.assertFalse(set(track.downbeats) <= set(accents))


def value(named):
    """What is said of a value that is too large, or isn't finite."""
    return named + ": a value is finite and at most 2**150 in size"


def magnitude(named):
    return named + ": a value is finite and at most 2**126 in size"


class Refusals(unittest.TestCase):
    """Each call refuses with each of its numbers, the lowest that applies, says of what, and changes nothing."""

    def refuses(self, number, detail, call, *words):
        before = [bytes(w) if isinstance(w, array) else None for w in words]
        # with NumPy, if there is one, and as if there were none
        for modules in ({}, {"numpy": None}):
            with unittest.mock.patch.dict(sys.modules, modules), self.assertRaises(ph.Refused) as caught:
                call(*words)
            refused, name = caught.exception, call.__name__
            self.assertEqual((refused.number, refused.call, refused.detail), (number, name, detail))
            self.assertIn(number, ph.Refused.WHY)
            self.assertEqual(str(refused), f"{name} refused with {number}: {detail}")
            self.assertEqual(before, [bytes(w) if isinstance(w, array) else None for w in words])

    # meters outside their bounds, among them one that is 4 in fewer bits
    NO_METERS = ((0, "meter 0, 1 to 16"), (17, "meter 17, 1 to 16"), (2 ** 32 + 4, "meter 4,294,967,300, 1 to 16"),
                 (2 ** 64 - 1, "meter 18,446,744,073,709,551,615, 1 to 16"))
    MANY = array("d", [0.0]) * 1_048_577
    MOST = "1,048,577 slots lent, at most 1,048,576"

    def test_medians(self):
        self.refuses(1, "values: no value lent, at least one needed", ph.median_of, reals(), room(2))
        self.refuses(3, "work: 1 slot lent, 2 needed", ph.median_of, reals(1, math.nan), room(1))
        self.refuses(4, value("values[1] is nan"), ph.median_of, reals(1, math.nan), room(2))
        self.refuses(1, "values: no value lent, at least one needed", ph.mad_of, reals(), 1.0, room(2))
        self.refuses(3, "work: 0 slots lent, 2 needed", ph.mad_of, reals(1, 2), math.inf, room(0))
        self.refuses(4, value("median is inf"), ph.mad_of, reals(1, 2), math.inf, room(2))
        self.refuses(4, value("values[0] is -inf"), ph.mad_of, reals(-math.inf, 2), 1.0, room(2))

    def test_onsets(self):
        self.refuses(1, "bins 0, 1 to 4,096", ph.spectral_flux, singles(), 0, 0, room(1))
        self.refuses(1, "rows 18,446,744,073,709,551,615, 0 to 1,048,576", ph.spectral_flux, singles(), 2 ** 64 - 1, 1, room(1))
        self.refuses(2, "magnitudes: 1 value lent, 2 needed: 2 rows of 1", ph.spectral_flux, singles(1), 2, 1, room(2))
        self.refuses(3, "flux: 1 slot lent, 2 needed", ph.spectral_flux, singles(1, 1), 2, 1, room(1))
        self.refuses(4, magnitude("magnitudes[1] is inf"), ph.spectral_flux, singles(1, math.inf, math.nan), 3, 1, room(3))
        self.refuses(4, magnitude(f"magnitudes[0] is {-2.0 ** 127}"), ph.spectral_flux, singles(-2.0 ** 127), 1, 1, room(1))

        self.refuses(1, "flux: " + self.MOST, ph.adaptive_threshold, self.MANY, room(2), room(1))
        self.refuses(3, "threshold: 1 slot lent, 2 needed", ph.adaptive_threshold, reals(1, 1), room(1), room(2))
        self.refuses(3, "work: 1 slot lent, 2 needed", ph.adaptive_threshold, reals(1, 1), room(2), room(1))
        self.refuses(3, "work: 20 slots lent, 21 needed", ph.adaptive_threshold, pulses(30), room(30), room(20))
        self.refuses(4, value(f"flux[0] is {TOO_LARGE}"), ph.adaptive_threshold, reals(TOO_LARGE), room(1), room(1))

        self.refuses(1, "flux: " + self.MOST, ph.pick_onsets, self.MANY, reals(1), RATE, frame_room(1))
        self.refuses(1, "rate 0, 1 to 192,000", ph.pick_onsets, reals(1), reals(1), 0, frame_room(1))
        self.refuses(2, "threshold: 0 slots lent, 1 needed, as many as flux has", ph.pick_onsets, reals(1), reals(), RATE, frame_room(1))
        self.refuses(3, "frames: 0 slots lent, 1 needed", ph.pick_onsets, reals(1), reals(1), RATE, frame_room(0))
        self.refuses(4, value("flux[0] is nan"), ph.pick_onsets, reals(math.nan), reals(math.inf), RATE, frame_room(1))
        self.refuses(4, value("threshold[1] is inf"), ph.pick_onsets, reals(1, 2), reals(0, math.inf), RATE, frame_room(2))

        self.refuses(1, "curve: " + self.MOST, ph.suppress_close_peaks, frames(3), self.MANY, 1, frame_room(2))
        self.refuses(1, "peaks[1] is 3 and the one before it 3: a list of peaks ascends", ph.suppress_close_peaks, frames(3, 3),
                     reals(0, 0, 0, 0), 1, frame_room(2))
        self.refuses(1, "peaks[1] is 4, past its curve of 4 slots", ph.suppress_close_peaks, frames(3, 4), reals(0, 0, 0, 0), 1,
                     frame_room(2))
        self.refuses(3, "frames: 1 slot lent, 2 needed", ph.suppress_close_peaks, frames(2, 3), reals(0, 0, 0, 0), 1, frame_room(1))
        self.refuses(4, value("curve[3] is nan"), ph.suppress_close_peaks, frames(2), reals(0, 0, 0, math.nan), 1, frame_room(1))

        self.refuses(1, "rate 192,001, 1 to 192,000", ph.frame_times, frames(1), 192_001, room(1))
        self.refuses(1, "frames[1] is 1,048,576, at most 1,048,575", ph.frame_times, frames(0, 1_048_576), RATE, room(2))
        self.refuses(3, "ms: 1 slot lent, 2 needed", ph.frame_times, frames(1, 2), RATE, room(1))

    def test_tempo(self):
        a, b, c, short = room(338), room(338), room(338), room(337)
        self.refuses(1, "rate 192,001, 1 to 192,000", ph.lag_range, 192_001)
        # an open bound is no refusal (test_open_bounds), and hides none
        self.refuses(1, "rate 0, 1 to 192,000", ph.lag_range, 0, ph.TempoOpts(math.nan, 300))
        self.refuses(1, "rate 0, 1 to 192,000", ph.lag_range, 0, (None, -math.inf))

        self.refuses(1, "envelope: " + self.MOST, ph.estimate, self.MANY, 0, RATE, OPTS, a, b, c)
        self.refuses(1, "rate 0, 1 to 192,000", ph.estimate, reals(), 0, 0, OPTS, a, b, c)
        self.refuses(3, "clarity: 337 slots lent, 338 needed", ph.estimate, reals(), 0, RATE, OPTS, short, b, c)
        self.refuses(3, "weight: 337 slots lent, 338 needed", ph.estimate, reals(), 0, RATE, OPTS, a, short, c)
        self.refuses(3, "work: 337 slots lent, 338 needed", ph.estimate, reals(), 0, RATE, OPTS, a, b, short)
        self.refuses(3, "clarity: 338 slots lent, 2,213 needed", ph.estimate, reals(), 0, RATE, (5, 300), a, b, c)
        self.refuses(3, "clarity: 338 slots lent, 375 needed", ph.estimate, reals(), 0, RATE, (30, math.inf), a, b, c)
        self.refuses(3, "clarity: 338 slots lent, 375 needed", ph.estimate, reals(), 0, RATE, (30, None), a, b, c)
        self.refuses(4, value("envelope[0] is nan"), ph.estimate, reals(math.nan), 0, RATE, OPTS, a, b, c)

        self.refuses(1, "envelope: " + self.MOST, ph.stability_of, self.MANY, RATE, OPTS, 9, a, b, c)
        self.refuses(1, "rate 0, 1 to 192,000", ph.stability_of, reals(1), 0, OPTS, 9, a, b, c)
        self.refuses(1, "whole_lag 45,001, 0 to 45,000", ph.stability_of, reals(1), RATE, OPTS, 45_001, a, b, c)
        self.refuses(3, "clarity: 337 slots lent, 338 needed", ph.stability_of, reals(1), RATE, OPTS, 9, short, b, c)
        self.refuses(3, "clarity: 338 slots lent, 375 needed", ph.stability_of, reals(1), RATE, (math.inf, 30), 9, a, b, c)
        self.refuses(3, "clarity: 338 slots lent, 11,213 needed", ph.stability_of, reals(1), RATE, (None, 300), 9, a, b, c)
        self.refuses(3, "weight: 337 slots lent, 338 needed", ph.stability_of, reals(1), RATE, OPTS, 9, a, short, c)
        self.refuses(3, "work: 337 slots lent, 338 needed", ph.stability_of, reals(1), RATE, OPTS, 9, a, b, short)
        self.refuses(4, value("envelope[1] is inf"), ph.stability_of, reals(1, math.inf), RATE, OPTS, 9, a, b, c)

        # a meter that is none, though these answer the same for all: before room and values
        for meter, words in self.NO_METERS:
            for opts in (ph.TempoOpts(meter=meter), (None, math.nan, meter)):
                self.refuses(1, words, ph.lag_range, RATE, opts)
                self.refuses(1, words, ph.estimate, reals(1), 2, RATE, opts, a, b, c)
                self.refuses(1, words, ph.estimate, reals(math.nan), 2, RATE, opts, short, b, c)
                self.refuses(1, words, ph.stability_of, reals(1), RATE, opts, 9, a, b, c)
                self.refuses(1, words, ph.stability_of, reals(1), RATE, opts, 45_001, a, b, c)

    def test_beats(self):
        self.refuses(1, "envelope: " + self.MOST, ph.beat_grid, self.MANY, 1, room(2), frame_room(2), frame_room(2))
        self.refuses(1, "period 45,001, 0 to 45,000", ph.beat_grid, reals(1, 2), 45_001, room(2), frame_room(2), frame_room(2))
        self.refuses(3, "score: 1 slot lent, 2 needed", ph.beat_grid, reals(1, 2), 1, room(1), frame_room(2), frame_room(2))
        self.refuses(3, "back: 1 slot lent, 2 needed", ph.beat_grid, reals(1, 2), 1, room(2), frame_room(1), frame_room(2))
        self.refuses(3, "beats: 1 slot lent, 2 needed", ph.beat_grid, reals(1, 2), 1, room(2), frame_room(2), frame_room(1))
        self.refuses(4, value("envelope[1] is nan"), ph.beat_grid, reals(1, math.nan), 1, room(2), frame_room(2), frame_room(2))
        self.refuses(1, "envelope: " + self.MOST, ph.downbeats, self.MANY, frames(1), frame_room(1))
        self.refuses(1, "beats[0] is 1,048,576, at most 1,048,575", ph.downbeats, reals(1, 2), frames(1_048_576), frame_room(1))
        self.refuses(3, "frames: 1 slot lent, 2 needed", ph.downbeats, reals(1, 2), frames(0, 1), frame_room(1))
        self.refuses(4, value("envelope[0] is nan"), ph.downbeats, reals(math.nan, 2), frames(0), frame_room(1))
        for meter, words in self.NO_METERS:
            self.refuses(1, words, ph.downbeats, reals(1, 2), frames(0, 1), frame_room(2), meter)
            self.refuses(1, words, ph.downbeats, reals(math.nan, 2), frames(0, 1), frame_room(1), meter)

    def test_files(self):
        write, into, byte_room = ph.write_tempo_track, ph.write_tempo_track_into, lambda size: array("B", [7]) * size
        self.refuses(1, "rate 0, 1 to 192,000", write, frames(), 0)
        self.refuses(1, "rate 192,001, 1 to 192,000", write, frames(0, 94), 192_001)
        self.refuses(1, "beats[2] is 1,048,576, at most 1,048,575", write, frames(5, 5, 1_048_576), 1)
        self.refuses(6, "beats: 0 beats lent, at least two needed", write, frames(), RATE)
        self.refuses(6, "beats: 1 beat lent, at least two needed", write, frames(1_048_575), RATE)
        self.refuses(6, "beats[2] is 7 and the one before it 7: beats ascend", write, frames(0, 7, 7), 1)
        self.refuses(6, "beats[1] is 6 and the one before it 7: beats ascend", write, frames(7, 6), RATE)
        late = "beats[%d] is %s microseconds after the one before it, at most 16,777,215"
        self.refuses(7, late % (2, "16,777,216"), write, frames(1, 3, 1_738), 26_474)
        # room comes last
        self.refuses(1, "rate 0, 1 to 192,000", into, frames(), 0, byte_room(3))
        self.refuses(6, "beats: 1 beat lent, at least two needed", into, frames(5), RATE, byte_room(3))
        self.refuses(7, late % (1, "256,000,000"), into, frames(0, 1), 1, byte_room(3))
        self.refuses(3, "file: 32 slots lent, 33 needed", into, frames(0, 94), RATE, byte_room(32))
        good = write(frames(0, 94, 188), RATE)
        read, into, lengths = ph.read_tempo_track, ph.read_tempo_track_into, "file: %s lent, 26 and 7 for each gap needed, one at least"

        def changed(at, value, size=40):
            return array("B", good[:at] + bytes(value) + good[at + len(value):size])

        for size in (0, 1, 26, 32, 34, 39, 41):
            self.refuses(8, lengths % (f"{size} byte" + ("" if size == 1 else "s")), read, array("B", (good + b"0")[:size]))
        for at, value, needed in ((0, 82, 77), (9, 1, 0), (11, 2, 1), (13, 95, 96), (21, 19, 18), (22, 96, 0), (24, 88, 81), (29, 0, 96), (30, 96, 255),
                                  (32, 4, 3), (36, 0, 96), (38, 46, 47), (39, 1, 0)):
            self.refuses(8, f"file[{at}] is {value}, {needed} needed", read, changed(at, [value]))
        self.refuses(8, "file[21] is 18, 11 needed", read, changed(0, b"", 33))
        self.refuses(8, "file: tempo 2 of it is 0", read, changed(33, [0, 0, 0]))
        long = bytearray(ph.write_tempo_track(array("I", range(300_001)), 192_000))
        long[-7:-4] = bytes(3)
        self.refuses(8, "file: tempo 300,000 of it is 0", read, bytes(long))  # told in time proportional to the file
        # no gap, in a track of four bytes
        self.refuses(8, lengths % "26 bytes", read, array("B", good[:21] + b"\4" + good[36:]))
        self.refuses(8, "file[0] is 0, 77 needed", into, changed(0, [0]), frame_room(0))
        self.refuses(3, "gaps: 1 slot lent, 2 needed", into, changed(0, b""), frame_room(1))

    def test_lists_of_frames(self):
        above, falls = "frames[2] is 1,048,576, at most 1,048,575", "frames[2] is 7 and the one before it 7: frames ascend"
        byte_room = lambda size: array("B", [7]) * size
        for call in (ph.labels_room, ph.write_labels):
            self.refuses(1, "rate 0, 1 to 192,000", call, frames(7, 7), 0)
            self.refuses(1, "rate 192,001, 1 to 192,000", call, frames(), 192_001)
            self.refuses(1, above, call, frames(5, 5, 1_048_576), 1)
            self.refuses(11, falls, call, frames(0, 7, 7, 6), 1)
        self.refuses(1, above, ph.write_cues, frames(5, 5, 1_048_576))
        self.refuses(11, falls, ph.write_cues, frames(0, 7, 7, 6))
        # room comes last
        self.refuses(1, "rate 0, 1 to 192,000", ph.write_labels_into, frames(), 0, byte_room(0))
        self.refuses(1, above, ph.write_labels_into, frames(5, 5, 1_048_576), 1, byte_room(0))
        self.refuses(11, falls, ph.write_labels_into, frames(0, 7, 7), 1, byte_room(0))
        self.refuses(3, "text: 70 slots lent, 71 needed", ph.write_labels_into, frames(0, 94, 1_874), RATE, byte_room(70))
        self.refuses(1, above, ph.write_cues_into, frames(5, 5, 1_048_576), byte_room(0))
        self.refuses(11, falls, ph.write_cues_into, frames(0, 7, 7), byte_room(0))
        self.refuses(3, "chunk: 59 slots lent, 60 needed", ph.write_cues_into, frames(0, 94), byte_room(59))
        self.refuses(3, "chunk: 11 slots lent, 12 needed", ph.write_cues_into, frames(), byte_room(11))

    def test_label_tracks(self):
        line, both = b"0.512000\t0.512000\tbeat\n", (ph.read_labels, ph.labels_to_cues)
        for other, words in ((b" 7.000000\t7.000000\tbeat\n", "text[23] is 32, a digit"), (b"\n", "text[23] is 10, a digit"),
                             (b"-1.000000\t-1.000000\tbeat\n", "text[23] is 45, a digit"), (b"07.000000\t07.000000\tbeat\n", "text[24] is 55, a point"),
                             (b"7,000000\t7,000000\tbeat\n", "text[24] is 44, a digit or a point"), (b".000000\t.000000\tbeat\n", "text[23] is 46, a digit"),
                             (b"7.00000\t7.00000\tbeat\n", "text[30] is 9, a digit"), (b"7.0000000\t7.0000000\tbeat\n", "text[31] is 48, a tab"),
                             (b"7.000000\t7.000001\tbeat\n", "text[39] is 49, the start again"),
                             (b"7.000000\t17.000000\tbeat\n", "text[32] is 49, the start again"), (b"7.000000\t7.000000 beat\n", "text[40] is 32, a tab"),
                             (b"7.000000\t7.000000\tBeat\n", "text[41] is 66, the word beat"), (b"7.000000\t7.000000\tbeats\n", "text[45] is 115, a line feed"),
                             (b"7.000000\t7.000000\tbeat\r\n", "text[45] is 13, a line feed"), (b"7.000000\t7.000000\tbeat", "text ends here, a line feed"),
                             (b"7.000000\t", "text ends here, the start again"), (b"712", "text ends here, a digit or a point")):
            for call in both:
                self.refuses(9, words + " needed: line 2", call, array("B", line + other), RATE)
        none, falls = array("B", line + b"0.512001\t0.512001\tbeat\n"), array("B", line + b"0.010667\t0.010667\tbeat\n")
        no_time = "text: the time of line %d is that of no frame up to 1,048,575 at rate %s"
        no_rise = "text: line 2 is frame %d and the one before it 94: frames ascend"
        for call in both:
            self.refuses(1, "rate 0, 1 to 192,000", call, none, 0)
            self.refuses(10, no_time % (2, "48,000"), call, none, RATE)
            self.refuses(10, no_time % (1, "44,100"), call, none, 44_100)
            self.refuses(11, no_rise % 0, call, falls, RATE)
            self.refuses(11, no_rise % 94, call, array("B", 2 * line), RATE)
            # each of the whole text before the next: 9, 10, 11
            self.refuses(10, no_time % (3, "48,000"), call, falls + array("B", b"7.000000\t7.000000\tbeat\n"), RATE)
            self.refuses(9, "text[70] is 48, a point needed: line 4", call, none + array("B", line + b"00.512000"), RATE)
            # seconds of any number of digits are of the form, and no frame's
            # the last one's would be a frame's, were it to wrap round at 64 bits
            for time in (b"9" * 20, b"9" * 1_000, b"9" * 9_000, b"18446744073710"):
                self.refuses(10, no_time % (1, "48,000"), call, array("B", time + b".063616\t" + time + b".063616\tbeat\n"), RATE)
        # room comes last
        two = array("B", b"0.010667\t0.010667\tbeat\n" + line)
        self.refuses(11, no_rise % 0, ph.read_labels_into, falls, RATE, frame_room(0))
        self.refuses(3, "frames: 1 slot lent, 2 needed", ph.read_labels_into, two, RATE, frame_room(1))
        self.refuses(11, no_rise % 0, ph.labels_to_cues_into, falls, RATE, array("B"))
        self.refuses(3, "chunk: 59 slots lent, 60 needed", ph.labels_to_cues_into, two, RATE, array("B", bytes(59)))

    def test_cue_chunks(self):
        good = ph.write_cues(frames(0, 94))

        def both(number, words, chunk, rate=RATE):
            self.refuses(number, words, ph.read_cues, array("B", chunk))
            self.refuses(number, words, ph.cues_to_labels, array("B", chunk), rate)

        def changed(*changes):
            chunk = bytearray(good)
            for at, value in changes:
                chunk[at:at + len(value)] = value
            return chunk

        for size in (0, 1, 11, 13, 35, 59):
            both(9, f"chunk: {size} byte{'' if size == 1 else 's'} lent, 12 and 24 for each point needed", good[:size])
        both(9, "chunk: 61 bytes lent, 12 and 24 for each point needed", good + b"0")
        for at, value, needed in ((0, 67, 99), (3, 0, 32), (4, 60, 52), (7, 1, 0), (8, 1, 2), (12, 0, 1), (15, 1, 0), (20, 68, 100), (24, 1, 0), (31, 9, 0),
                                  (33, 0, 2), (36, 1, 2), (57, 97, 96), (59, 1, 0)):
            both(9, f"chunk[{at}] is {value}, {needed} needed", changed((at, [value])))
        both(9, "chunk[4] is 52, 28 needed", good[:36])
        # a position is told where the offset, which is to be the same, differs from it
        both(9, "chunk[57] is 96, 97 needed", changed((41, [97])))
        none, falls = changed((40, b"\1\2"), (56, b"\1\2")), changed((40, b"\0\2"), (56, b"\0\2"))
        no_frame = "chunk: the offset of point 2 is %s, which is 256 t + 512 for no frame t up to 1,048,575"
        both(10, no_frame % "513", none)
        for offset in (0, 256, 511, 268_435_968, 2 ** 32 - 1):
            both(10, no_frame % f"{offset:,}", changed((40, offset.to_bytes(4, "little")), (56, offset.to_bytes(4, "little"))))
        both(11, "chunk: point 2 is frame 0 and the one before it 0: frames ascend", falls)
        self.refuses(1, "rate 0, 1 to 192,000", ph.cues_to_labels, array("B", none), 0)
        # room comes last
        self.refuses(9, "chunk[12] is 0, 1 needed", ph.read_cues_into, array("B", changed((12, [0]))), frame_room(0))
        self.refuses(3, "frames: 1 slot lent, 2 needed", ph.read_cues_into, array("B", good), frame_room(1))
        self.refuses(10, no_frame % "513", ph.cues_to_labels_into, array("B", none), RATE, array("B"))
        self.refuses(3, "text: 45 slots lent, 46 needed", ph.cues_to_labels_into, array("B", good), RATE, array("B", bytes(45)))

    def test_sections(self):
        self.refuses(1, "rows 50,001, 0 to 50,000", ph.similarity, room(31), 50_001, room(34))
        self.refuses(2, "features: 31 values lent, 32 needed: 2 rows of 16", ph.similarity, room(31), 2, room(34))
        self.refuses(3, "similarity: 33 slots lent, 34 needed", ph.similarity, room(32), 2, room(33))
        self.refuses(4, value("features[16] is inf"), ph.similarity, room(16) + array("d", [math.inf]) * 16, 2, room(34))
        self.refuses(1, "rows 50,001, 0 to 50,000", ph.novelty, room(17), 50_001, room(1))
        self.refuses(2, "similarity: 17 values lent, 34 needed: 2 rows of 17", ph.novelty, room(17), 2, room(2))
        self.refuses(3, "novelty: 0 slots lent, 1 needed", ph.novelty, room(17), 1, room(0))
        self.refuses(4, "similarity[0] is -7.5: a similarity is -1 to 1", ph.novelty, room(17), 1, room(1))
        self.refuses(1, "novelty: 50,001 slots lent, at most 50,000", ph.boundaries, room(50_001), 1, RATE, 1, frame_room(1), room(1))
        self.refuses(1, "length 0, 1 to 2,147,483,648", ph.boundaries, room(1), 0, RATE, 1, frame_room(1), room(1))
        self.refuses(1, "rate 0, 1 to 192,000", ph.boundaries, room(1), 1, 0, 1, frame_room(1), room(1))
        self.refuses(3, "rows: 0 slots lent, 1 needed", ph.boundaries, room(1), 1, RATE, 1, frame_room(0), room(1))
        self.refuses(3, "work: 0 slots lent, 1 needed", ph.boundaries, room(1), 1, RATE, 1, frame_room(1), room(0))
        self.refuses(4, value("novelty[0] is nan"), ph.boundaries, reals(math.nan), 1, RATE, 1, frame_room(1), room(1))
        self.refuses(1, "length 2,147,483,649, 1 to 2,147,483,648", ph.boundary_times, frames(1), 2 ** 31 + 1, RATE, room(1))
        self.refuses(1, "rate 0, 1 to 192,000", ph.boundary_times, frames(1), 1, 0, room(1))
        self.refuses(1, "rows[1] is 50,000, at most 49,999", ph.boundary_times, frames(1, 50_000), 1, RATE, room(2))
        self.refuses(3, "ms: 0 slots lent, 1 needed", ph.boundary_times, frames(1), 1, RATE, room(0))

    def test_patches(self):
        rows, nan = singles(1, 2), math.nan

        def curves():
            return room(2), room(2), room(2)

        self.refuses(1, "rows 1,048,577, 0 to 1,048,576", ph.patch_magnitudes, rows, 1_048_577, 1, 3, singles(), *curves())
        self.refuses(1, "bins 4,097, 1 to 4,096", ph.patch_magnitudes, rows, 2, 4_097, 0, singles(), *curves())
        self.refuses(1, "start 3, 0 to 2", ph.patch_magnitudes, rows, 2, 1, 3, singles(), *curves())
        self.refuses(2, "magnitudes: 2 values lent, 3 needed: 3 rows of 1", ph.patch_magnitudes, rows, 3, 1, 2, singles(5), *curves())
        self.refuses(2, "new_rows: 1 row lent, 0 of 2 left from row 2 on", ph.patch_magnitudes, rows, 2, 1, 2, singles(5), *curves())
        self.refuses(2, "new_rows: 1 value lent, whole rows of 2 needed", ph.patch_magnitudes, rows, 1, 2, 0, singles(5), *curves())
        self.refuses(3, "flux: 1 slot lent, 2 needed", ph.patch_magnitudes, rows, 2, 1, 0, singles(5), room(1), room(2), room(2))
        self.refuses(3, "threshold: 1 slot lent, 2 needed", ph.patch_magnitudes, rows, 2, 1, 0, singles(5), room(2), room(1), room(2))
        self.refuses(3, "work: 1 slot lent, 2 needed", ph.patch_magnitudes, rows, 2, 1, 0, singles(5), room(2), room(2), room(1))
        self.refuses(4, magnitude("magnitudes[1] is nan"), ph.patch_magnitudes, singles(1, nan), 2, 1, 0, singles(nan), *curves())
        self.refuses(4, magnitude("new_rows[0] is nan"), ph.patch_magnitudes, rows, 2, 1, 0, singles(nan), *curves())
        # slots past the rows may hold anything
        self.refuses(4, value("flux[1] is nan"), ph.patch_magnitudes, rows, 2, 1, 0, singles(5), reals(0, nan), reals(nan, 0), room(2))
        self.refuses(4, value("threshold[0] is nan"), ph.patch_magnitudes, rows, 2, 1, 0, singles(5), reals(0, 0, nan), reals(nan, 0), room(2))

        zeros = array("d", [0.0])
        self.refuses(1, "rows 50,001, 0 to 50,000", ph.patch_features, room(16), 50_001, 0, room(16), zeros * 17, room(1))
        self.refuses(1, "start 2, 0 to 1", ph.patch_features, room(16), 1, 2, room(16), zeros * 17, room(1))
        self.refuses(2, "features: 16 values lent, 0 needed: 0 rows of 16", ph.patch_features, room(16), 0, 0, room(16), zeros * 17, room(1))
        self.refuses(2, "new_rows: 15 values lent, whole rows of 16 needed", ph.patch_features, room(16), 1, 0, room(15), zeros * 17, room(1))
        self.refuses(2, "new_rows: 2 rows lent, 1 of 1 left from row 0 on", ph.patch_features, room(16), 1, 0, room(32), zeros * 17, room(1))
        self.refuses(3, "similarity: 16 slots lent, 17 needed", ph.patch_features, room(16), 1, 0, room(16), zeros * 16, room(1))
        self.refuses(3, "novelty: 0 slots lent, 1 needed", ph.patch_features, room(16), 1, 0, room(16), zeros * 17, room(0))
        self.refuses(4, value("features[2] is nan"), ph.patch_features, room(2) + reals(nan) + room(13), 1, 0, room(16), zeros * 17, room(1))
        self.refuses(4, value("new_rows[15] is inf"), ph.patch_features, room(16), 1, 0, room(15) + reals(math.inf), zeros * 17, room(1))
        self.refuses(4, "similarity[0] is -7.5: a similarity is -1 to 1", ph.patch_features, room(16), 1, 0, room(16), room(17), room(1))
        self.refuses(4, value("novelty[0] is nan"), ph.patch_features, room(16), 1, 0, room(16), zeros * 17 + reals(9), reals(nan))

    def test_whole_tracks(self):
        self.refuses(1, "rows 1,048,577, 0 to 1,048,576", ph.room_of, 1_048_577, RATE)
        self.refuses(1, "rate 0, 1 to 192,000", ph.room_of, 1, 0)
        self.refuses(1, "rate 0, 1 to 192,000", ph.room_of, 1, 0, (math.inf, 300))
        self.refuses(1, "rows 1,048,577, 0 to 1,048,576", ph.Buffers, 1_048_577, RATE)
        self.refuses(1, "rate 0, 1 to 192,000", ph.Buffers, 5, 0)
        self.refuses(1, "rate 0, 1 to 192,000", ph.Buffers, 5, 0, (30, math.nan))
        for meter, words in self.NO_METERS:
            opts = ph.TempoOpts(meter=meter)
            self.refuses(1, words, ph.room_of, 1, RATE, opts)
            self.refuses(1, words, ph.Buffers, 5, RATE, (30, 300, meter))
            self.refuses(1, words, ph.Buffers(10, RATE).analyse_envelope, reals(1, math.nan), RATE, opts)
            self.refuses(1, words, ph.Buffers(10, RATE).analyse_envelope, room(11), RATE, opts)
            self.refuses(1, words, ph.Buffers(10, RATE).analyse_magnitudes, singles(1), 2, 1, RATE, opts)
        buffers, ones = ph.Buffers(10, RATE), singles(1)
        call = buffers.analyse_envelope
        self.refuses(1, "envelope: " + self.MOST, call, self.MANY, RATE)
        self.refuses(1, "rate 0, 1 to 192,000", call, room(11), 0)
        self.refuses(3, "threshold: 10 slots lent, 11 needed; Buffers(11, 48000, (30.0, 300.0)) has them", call, room(11), RATE)
        self.refuses(3, "clarity: 338 slots lent, 2,213 needed; Buffers(9, 48000, (5.0, 300.0)) has them", call, room(9), RATE, (5, 300))
        # what it says one can paste
        for opts, lags, told in (((30, math.nan), "10,876", "(30.0, float('nan'))"), ((-math.inf, 300), "11,213", "(None, 300.0)"),
                                 ((None, None), "11,250", "(None, None)"), ((math.inf, -math.inf), "11,250", "(float('inf'), float('-inf'))"),
                                 ((None, 300, 3), "11,213", "(None, 300.0, 3)"), ((None, 300, 4), "11,213", "(None, 300.0)")):
            said = f"Buffers(9, 48000, {told})"
            self.refuses(3, f"clarity: 338 slots lent, {lags} needed; {said} has them", call, room(9), RATE, opts)
            self.assertEqual(f"{eval('ph.' + said).room.lags:,}", lags)
        self.refuses(4, value("envelope[1] is -inf"), call, reals(1, -math.inf), RATE)
        call = buffers.analyse_magnitudes
        self.refuses(1, "rows 1,048,577, 0 to 1,048,576", call, singles(), 1_048_577, 1, RATE)
        self.refuses(1, "bins 0, 1 to 4,096", call, singles(), 1, 0, RATE)
        self.refuses(1, "rate 0, 1 to 192,000", call, ones, 1, 1, 0)
        self.refuses(2, "magnitudes: 3 values lent, 4 needed: 2 rows of 2", call, ones * 3, 2, 2, RATE)
        self.refuses(3, "flux: 10 slots lent, 11 needed; Buffers(11, 48000, (30.0, 300.0)) has them", call, ones * 11, 11, 1, RATE)
        self.refuses(3, "clarity: 338 slots lent, 2,213 needed; Buffers(2, 48000, (5.0, 300.0)) has them", call, ones * 4, 2, 2, RATE, (5, 300))
        self.refuses(3, "clarity: 338 slots lent, 375 needed; Buffers(2, 48000, (30.0, None)) has them", call, ones * 4, 2, 2, RATE, (30, None))
        self.refuses(4, magnitude("magnitudes[2] is nan"), call, singles(1, 1, math.nan, math.nan), 2, 2, RATE)
        # the room that is named is enough
        ph.Buffers(11, 48000, (30.0, 300.0)).analyse_magnitudes(ones * 11, 11, 1, RATE)

    def test_the_first_bad_value_of_many(self):
        magnitudes = array("f", [2.0 ** 100]) * 300_000
        for at in (0, 65_535, 65_536, 131_071, 299_999):
            for bad in (math.nan, -math.inf, 2.0 ** 127):
                magnitudes[at] = bad
                self.refuses(4, magnitude(f"magnitudes[{at}] is {bad}"), ph.spectral_flux, magnitudes, 300_000, 1, room(300_000))
            magnitudes[at] = 1.0

    def test_no_explanation(self):
        """Where nothing is found, or looking fails, the refusal is told in its general words."""
        for looks in ({}, {"lag_range": ()}, {"lag_range": ((1, lambda n: ""),)}, {"lag_range": ((1, lambda n: n.nothing),)}):
            with unittest.mock.patch.object(ph, "_TAKES", looks), self.assertRaises(ph.Refused) as caught:
                ph.lag_range(0)
            self.assertEqual((caught.exception.number, caught.exception.detail), (1, ""))
            self.assertEqual(str(caught.exception), "lag_range refused with 1: " + ph.Refused.WHY[1])

    def test_every_call_explains(self):
        # those that refuse nothing: a place in the bars, and the library's version
        self.assertEqual(set(ph._TAKES), {name for name, _ in Declarations().declared()} - {"bar_beat_at", "version"})

    README = pathlib.Path(__file__).resolve().parent / "README.md"

    @unittest.skipUnless(README.is_file(), "the README is not beside this file")
    def test_as_the_readme_says(self):
        text = self.README.read_text()
        for call, *words in ((ph.adaptive_threshold, pulses(4_096), room(4_095), room(21)), (ph.Buffers(1, 1).analyse_envelope, reals(1), 0),
                             (ph.downbeats, reals(1), frames(0), frame_room(1), 17),
                             (ph.write_tempo_track, frames(94, 94), RATE), (ph.read_tempo_track, b"RIFF" + bytes(29)),
                             (ph.read_labels, b"0.5\t0.5\tbeat\n", RATE), (ph.read_cues, ph.write_cues(frames(0)).replace(b"\0\2", b"\1\2")),
                             (ph.write_labels, frames(94, 94), RATE),
                             (ph.spectral_flux, singles(*range(7)), 4, 2, room(4)),
                             (ph.pick_onsets, room(17) + reals(math.nan), room(18), RATE, frame_room(18))):
            with self.assertRaises(ph.Refused) as caught:
                call(*words)
            self.assertIn(f"\n{caught.exception}\n", text)

    def test_kept_in_a_pickle(self):
        again = pickle.loads(pickle.dumps(ph.Refused("lag_range", 1, "rate 0, 1 to 192,000")))
        self.assertEqual((again.call, again.number, str(again)), ("lag_range", 1, "lag_range refused with 1: rate 0, 1 to 192,000"))
        self.assertEqual(ph.Refused("x", 2).detail, "")


class Declarations(unittest.TestCase):
    """What each call hands over has the types that the header declares, in its order, and what it lends to be read is not written: of the
    types ctypes is told the same, by a table that tools/header writes; of what is written it knows nothing."""

    HEADER = pathlib.Path(__file__).resolve().parent.parent / "include/prohunsev.h"
    TYPES = {"double": ctypes.c_double, "float": ctypes.c_float, "size_t": ctypes.c_size_t, "uint32_t": ctypes.c_uint32,
             "uint64_t": ctypes.c_uint64, "uint8_t": ctypes.c_uint8}
    LENT = {"float64": ctypes.c_double, "float32": ctypes.c_float, "uint32": ctypes.c_uint32, "uint8": ctypes.c_uint8}

    def declared(self):
        text = re.sub(r"/\*.*?\*/", "", self.HEADER.read_text(), flags=re.S)
        for name, parameters in re.findall(r"uint32_t ph_(\w+)\(([^)]*)\);", text):
            words = []
            for parameter in parameters.split(",") if parameters != "void" else []:
                const, kind, pointer, many = re.fullmatch(r"(const )?(\w+) (\*)?\w+(?:\[(\d+)\])?", " ".join(parameter.split())).groups()
                words.append((bool(pointer or many) and ("read" if const else "written"), self.TYPES[kind], int(many or 1)))
            yield name, words

    def handed(self, part):
        if isinstance(part, ph._Slice):
            return [("written" if part.written else "read", self.LENT[part.kind], 1), (False, ctypes.c_size_t, 1)]
        if isinstance(part, ctypes.Array):
            return [("written", part._type_, part._length_)]
        if hasattr(part, "_obj"):
            return [("written", type(part._obj), 1)]
        return [(False, type(part), 1)]

    @unittest.skipUnless(HEADER.is_file(), "the header is not beside this folder")
    def test_types(self):
        d, f, i = reals(1), singles(1), frames(1)
        words = {
            "median_of": (d, d), "mad_of": (d, 1.0, d), "spectral_flux": (f, 1, 1, d), "adaptive_threshold": (d, d, d),
            "pick_onsets": (d, d, 1, i), "suppress_close_peaks": (i, d, 1, i), "frame_times": (i, 1, d), "lag_range": (1, OPTS),
            "estimate": (d, 1, 1, OPTS, d, d, d), "stability_of": (d, 1, OPTS, 1, d, d, d), "beat_grid": (d, 1, d, i, i),
            "downbeats": (d, i, i, 4), "bar_beat_at": (1.0, d, d), "feature_rows": (f, 1, f, 1, 1, 1, d), "similarity": (d, 1, d),
            "novelty": (d, 1, d),
            "boundaries": (d, 1, 1, 1, i, d), "boundary_times": (i, 1, 1, d), "patch_magnitudes": (f, 1, 1, 1, f, d, d, d),
            "patch_features": (d, 1, 1, d, d, d), "room_of": (1, 1, OPTS), "analyse_envelope": (d, 1, OPTS),
            "analyse_magnitudes": (f, 1, 1, 1, OPTS), "write_tempo_track": (i, 1), "read_tempo_track": (b"",), "labels_room": (i, 1),
            "write_labels": (i, 1), "read_labels": (b"", 1), "write_cues": (i,), "read_cues": (b"",), "labels_to_cues": (b"", 1), "cues_to_labels": (b"", 1),
        }
        # calls that are lent what others make, of the same functions
        into = {"write_tempo_track_into": (i, 1, bytearray(1)), "read_tempo_track_into": (b"", i), "write_labels_into": (i, 1, bytearray(1)),
                "read_labels_into": (b"", 1, i), "write_cues_into": (i, bytearray(1)), "read_cues_into": (b"", i),
                "labels_to_cues_into": (b"", 1, bytearray(1)), "cues_to_labels_into": (b"", 1, bytearray(1))}
        declared, buffers = dict(self.declared()), ph.Buffers(1, 1)
        # what the module asks the library as it loads, with types of its own
        version = ph._library.ph_version
        self.assertEqual((declared.pop("version"), version.argtypes, version.restype), ([], [], ctypes.c_uint32))
        self.assertEqual(words.keys(), declared.keys())
        for call, given in {**words, **into}.items():
            seen = []
            with unittest.mock.patch.object(ph, "_call", lambda name, *parts, of=None: seen.append((name, of or name, parts))):
                getattr(buffers if call.startswith("analyse_") else ph, call)(*given)
            (name, of, parts), = seen
            self.assertEqual((name, of), (call, call[:-len("_into")] if call in into else call))
            self.assertEqual([word for part in parts for word in self.handed(part)], declared[of], call)
            told = [kind * many if many > 1 else ctypes.POINTER(kind) if lent else kind for lent, kind, many in declared[of]]
            self.assertEqual(getattr(ph._library, "ph_" + of).argtypes, told, call)

    def test_a_word_of_another_type_is_no_call(self):
        d, median = reals(1), ctypes.c_double()
        for other in (ph._Slice("values", singles(1), ph._FLOAT32, False), ph._Slice("values", frames(1), ph._UINT32, False), ctypes.c_double(1.0)):
            with self.assertRaises((ctypes.ArgumentError, TypeError)):
                ph._call("median_of", other, ph._reals_out("work", d), ctypes.byref(median))


class Lending(unittest.TestCase):
    """What may be lent, and what a wrong loan says. Nothing is copied."""

    def test_read_only_inputs(self):
        values = memoryview(bytes(reals(3, 1, 2))).cast("d")
        self.assertTrue(values.readonly)
        self.assertEqual(ph.median_of(values, room(3)), 2.0)

    def test_outputs_are_written_in_place(self):
        slab = array("d", [WAS]) * 8
        ph.frame_times(frames(0, 1, 2), 1_000, memoryview(slab)[2:5])
        self.assertEqual(list(slab), [WAS, WAS, 512.0, 768.0, 1024.0, WAS, WAS, WAS])

    def wrong(self, error, word, call, *words):
        before = [bytes(w) for w in words if isinstance(w, array)]
        with self.assertRaises(error) as caught:
            call(*words)
        self.assertIn(word, str(caught.exception))
        self.assertEqual(before, [bytes(w) for w in words if isinstance(w, array)])

    def test_wrong_buffers(self):
        self.wrong(TypeError, "values must be a contiguous buffer of float64", ph.median_of, [1.0, 2.0], room(2))
        self.wrong(TypeError, "format 'f'", ph.median_of, singles(1, 2), room(2))
        self.wrong(TypeError, "format 'B'", ph.median_of, bytes(16), room(2))
        self.wrong(TypeError, "format 'q'", ph.median_of, array("q", [1, 2]), room(2))
        self.wrong(TypeError, "format 'i'", ph.frame_times, array("i", [1]), RATE, room(1))
        self.wrong(TypeError, "work must be", ph.median_of, reals(1), memoryview(bytes(8)).cast("d"))
        self.wrong(TypeError, "contiguous", ph.median_of, memoryview(reals(1, 2, 3, 4))[::2], room(2))
        self.wrong(TypeError, "contiguous", ph.median_of, reals(1, 2), memoryview(room(4))[::2])
        self.wrong(TypeError, "", ph.median_of, None, room(2))

    def test_misaligned(self):
        slab = bytearray(8 * 3 + 1)
        self.wrong(TypeError, "aligned", ph.median_of, reals(1), memoryview(slab)[1:9].cast("d"))

    def test_overlap(self):
        slab = memoryview(room(10))
        self.wrong(ValueError, "work overlaps values", ph.median_of, slab[:4], slab[3:7])
        self.wrong(ValueError, "threshold overlaps", ph.adaptive_threshold, reals(1, 2), slab[:4], slab[:2])
        # inputs may be one buffer, and neighbours don't overlap
        flux = reals(0, 0, 5, 0)
        self.assertEqual(ph.pick_onsets(flux, flux, RATE, frame_room(4)), 0)
        slab[:3] = reals(3, 1, 2)
        self.assertEqual(ph.median_of(slab[:3], slab[3:6]), 2.0)

    def test_shapes(self):
        def shaped(values, shape):
            return memoryview(values).cast("B").cast(values.typecode, shape)

        buffers, rows, features, band = ph.Buffers(6, RATE), singles(*range(12)), room(32), array("d", [0.5]) * 34
        for want, lent, call in (
            ("(6, 2)", rows, lambda m: ph.spectral_flux(m, 6, 2, room(6))),
            ("(6, 2)", rows, lambda m: buffers.analyse_magnitudes(m, 6, 2, RATE)),
            ("(6, 2)", rows, lambda m: ph.patch_magnitudes(m, 6, 2, 5, singles(3, 4), reals(*range(6)), reals(*range(6)), room(6))),
            ("(rows, 2)", rows, lambda m: ph.patch_magnitudes(rows[:], 6, 2, 0, m, reals(*range(6)), reals(*range(6)), room(6))),
            ("(2, 16)", features, lambda m: ph.similarity(m, 2, room(34))),
            ("(2, 16)", features, lambda m: ph.patch_features(m, 2, 1, room(16), band[:], reals(1, 2))),
            ("(rows, 16)", features, lambda m: ph.patch_features(features[:], 2, 0, m, band[:], reals(1, 2))),
            ("(2, 17)", band, lambda m: ph.novelty(m, 2, room(2))),
            ("(rows, 17)", band, lambda m: ph.similarity(features, 2, m)),
            ("(rows, 17)", band, lambda m: ph.patch_features(features[:], 2, 1, room(16), m, reals(1, 2))),
        ):
            n, width = len(lent), int(want.split()[1][:-1])
            told = call(lent[:])
            self.assertEqual(call(shaped(lent[:], (n // width, width))), told, want)
            for shape in ((width, n // width), (1, n), (n, 1), (n // 2 // width, 2 * width), (n // width, width, 1), (1, n // width, width)):
                view = shaped(lent[:], shape)
                with self.assertRaises(ValueError) as caught:
                    call(view)
                said = str(caught.exception)
                self.assertIn(f"must have the shape {want}, rows first", said)
                self.assertIn(f", or one dimension, not the shape {shape}", said)
                self.assertEqual(".T) has it)" in said, shape == (width, n // width), said)
                self.assertEqual(bytes(view), bytes(lent))
                view.release()  # one that is still lent cannot be
        for shape in ((), (1, 1), (1, 1, 1)):
            self.wrong(ValueError, f"values must have one dimension, not the shape {shape}", ph.median_of, shaped(reals(1), shape), room(1))
            self.wrong(ValueError, f"work must have one dimension, not the shape {shape}", ph.median_of, reals(1), shaped(room(1), shape))

    def test_rows_of_a_shape(self):
        """Two dimensions need no rows and bins told; other forms say what to do."""
        def shaped(values, *shape):
            return memoryview(values).cast("B").cast(values.typecode, shape)

        rows, buffers, flux, again = singles(*range(12)), ph.Buffers(6, RATE), room(6), room(6)
        ph.spectral_flux(rows, 6, 2, again)
        ph.spectral_flux(shaped(rows, 6, 2), flux=flux)
        self.assertEqual(flux, again)
        self.assertEqual(Tracks.told(buffers.analyse_magnitudes(shaped(rows, 6, 2), rate=RATE)),
                         Tracks.told(buffers.analyse_magnitudes(rows, 6, 2, RATE)))
        self.assertEqual((buffers._last.rows, buffers._last.bins), (6, 2))
        told = ph.patch_magnitudes(shaped(rows[:], 6, 2), start=5, new_rows=singles(3, 4), flux=flux, threshold=reals(*range(6)), work=room(6))
        self.assertEqual(told, ph.patch_magnitudes(rows[:], 6, 2, 5, singles(3, 4), again, reals(*range(6)), room(6)))
        features, band, other, curve = room(32), room(34), room(34), room(2)
        ph.similarity(shaped(features, 2, 16), similarity=band)
        ph.similarity(features, 2, other)
        self.assertEqual(band, other)
        ph.novelty(shaped(band, 2, 17), novelty=curve)
        ph.patch_features(shaped(features, 2, 16), start=0, new_rows=room(16), similarity=band, novelty=curve)

        both = "rows and bins go together: say both, or lend an array of two dimensions, say neither, and name what follows (rate=48000)"
        self.wrong(TypeError, "analyse_magnitudes: " + both, buffers.analyse_magnitudes, shaped(rows, 6, 2), RATE)
        self.wrong(TypeError, "spectral_flux: " + both, lambda m: ph.spectral_flux(m, bins=2, flux=flux), rows)
        one = "magnitudes has the shape (12,), so say rows and bins, or lend an array of two dimensions, rows first"
        self.wrong(ValueError, "spectral_flux: " + one, lambda m: ph.spectral_flux(m, flux=flux), rows)
        self.wrong(ValueError, "analyse_magnitudes: " + one, lambda m: buffers.analyse_magnitudes(m, rate=RATE), rows)
        self.wrong(ValueError, "features has the shape (32,), so say rows,", lambda m: ph.similarity(m, similarity=band), features)
        self.wrong(ValueError, "similarity must have the shape (rows, 17), rows first, or one dimension, not the shape (34, 1)",
                   lambda m: ph.novelty(shaped(m, 34, 1), novelty=curve), band)
        for width, lent, call in ((16, room(160), lambda m: ph.similarity(m, similarity=room(170))),
                                  (17, room(170), lambda m: ph.novelty(m, novelty=room(10))),
                                  (16, room(160), lambda m: ph.patch_features(m, start=0, new_rows=room(16), similarity=room(170), novelty=room(10)))):
            name = "features" if width == 16 else "similarity"
            self.wrong(ValueError, f"{name} must have the shape (rows, {width}), rows first (numpy.ascontiguousarray({name}.T) has it), or one"
                       f" dimension, not the shape ({width}, 10)", call, shaped(lent, width, 10))
        self.wrong(TypeError, "magnitudes must be a contiguous buffer, not list", lambda m: ph.spectral_flux(m, flux=flux), [[1.0]])
        for call, words in (("spectral_flux", {}), ("similarity", {}), ("novelty", {}), ("patch_features", {"start": 0, "new_rows": band}),
                            ("patch_magnitudes", {"start": 0, "new_rows": rows, "flux": flux, "threshold": flux})):
            missing = {"spectral_flux": "flux", "patch_magnitudes": "work", "patch_features": "similarity"}.get(call, call)
            self.wrong(TypeError, f"{call}: {missing} is missing", lambda: getattr(ph, call)(shaped(rows, 6, 2), **words))
        self.wrong(TypeError, "analyse_magnitudes: rate is missing", buffers.analyse_magnitudes, rows, 6, 2)
        # 0 is a number that was given
        self.assertEqual(ph.stability_of(reals(1), RATE, whole_lag=0, clarity=room(338), weight=room(338), work=room(338)), None)

    def test_default_options(self):
        envelope = turn()
        for opts in ({}, {"opts": (140, 300)}):
            curves = [{name: room(338) for name in ("clarity", "weight", "work")} for _ in range(2)]
            bounds = opts.get("opts", OPTS)
            found = ph.estimate(envelope, 47, RATE, **opts, **curves[0])
            self.assertEqual(found, ph.estimate(envelope, 47, RATE, bounds, *curves[1].values()))
            self.assertEqual((found.candidates[0].lag, curves[0]), (73 if opts else 94, curves[1]))
            steady = ph.stability_of(envelope, RATE, whole_lag=94, **opts, **curves[0])
            self.assertEqual(steady, ph.stability_of(envelope, RATE, bounds, 94, *curves[1].values()))
        self.wrong(TypeError, "estimate: clarity is missing", ph.estimate, envelope, 47, RATE)
        self.wrong(TypeError, "stability_of: whole_lag is missing", ph.stability_of, envelope, RATE)
        self.wrong(TypeError, "stability_of: work is missing", ph.stability_of, envelope, RATE, OPTS, 94, room(338), room(338))

    def test_bins_by_frames(self):
        """An array whose first dimension is a transform's bins is answered as it is lent, and told."""
        def shaped(rows, bins):
            return memoryview(bytes(4 * rows * bins)).cast("f", (rows, bins))

        for rows, bins, warned in ((513, 2_000, True), (257, 300, True), (513, 400, True), (2_049, 1, True), (1_025, 4_096, True), (513, 1_025, False),
                                   (1_025, 513, False), (2_000, 513, False), (512, 600, False), (4, 513, False)):
            for call in (lambda m: ph.spectral_flux(m, flux=room(rows)), lambda m: ph.spectral_flux(m, rows, bins, room(rows)),
                         lambda m: ph.Buffers(rows, RATE).analyse_magnitudes(m, rate=RATE)):
                with warnings.catch_warnings(record=True) as caught:
                    warnings.simplefilter("always")
                    call(shaped(rows, bins))
                self.assertEqual(len(caught), warned, (rows, bins))
                for one in caught:
                    self.assertIn(f"{rows} rows of {bins} bins: if this array is bins by frames, as librosa's are, lend"
                                  " numpy.ascontiguousarray(magnitudes.T)", str(one.message))
                    self.assertEqual(one.filename, __file__)
        # as the README says it
        if Refusals.README.is_file():
            text = " ".join(Refusals.README.read_text().split())
            numbers = re.search(r"whose first dimension is a transform's bins \(([\d, ]+)\) and whose second isn't", text).group(1)
            self.assertEqual(tuple(int(number.replace(",", "")) for number in numbers.split(", ")), ph._BINS_OF_TRANSFORMS)
        # more frames than bins may be
        for call in (lambda m: ph.spectral_flux(m, flux=room(513)), lambda m: ph.Buffers(513, RATE).analyse_magnitudes(m, rate=RATE)):
            with self.assertRaises(ph.Refused) as caught:
                call(shaped(513, 4_097))
            self.assertEqual((caught.exception.number, caught.exception.detail),
                             (1, "bins 4,097, 1 to 4,096; if this array is bins by frames, lend numpy.ascontiguousarray(magnitudes.T)"))
        self.wrong(ValueError, "not the shape (4, 9), which is bins by frames", lambda m: ph.spectral_flux(m, 9, 4, room(9)), shaped(4, 9))
        with self.assertRaises(ValueError) as caught:
            ph.similarity(memoryview(bytes(8 * 32)).cast("d", (16, 2)), 2, room(34))
        self.assertNotIn("bins", str(caught.exception))

    def test_numbers(self):
        # what the call takes, not what its C type holds
        self.wrong(OverflowError, "rate is -1, outside 1 to 192,000", ph.lag_range, -1)
        self.wrong(OverflowError, "rate is -1, outside 1 to 192,000", ph.Buffers, 5, -1)
        self.wrong(OverflowError, "rate is 4,295,015,296, outside 1 to 192,000", ph.lag_range, 2 ** 32 + RATE)
        self.wrong(OverflowError, "rows is 18,446,744,073,709,551,617, outside 0 to 1,048,576", ph.spectral_flux, singles(1), 2 ** 64 + 1, 1, room(1))
        self.wrong(OverflowError, "rows is -1, outside 0 to 1,048,576", ph.Buffers, -1, RATE)
        self.wrong(OverflowError, "bins is -1, outside 1 to 4,096", ph.spectral_flux, singles(1), 1, -1, room(1))
        self.wrong(OverflowError, "rows is -1, outside 0 to 50,000", ph.similarity, room(16), -1, room(17))
        self.wrong(OverflowError, "period is -1, outside 0 to 45,000", ph.beat_grid, reals(1), -1, room(1), frame_room(1), frame_room(1))
        self.wrong(OverflowError, "length is -1, outside 1 to 2,147,483,648", ph.boundary_times, frames(1), -1, RATE, room(1))
        self.wrong(OverflowError, "gap is -1, outside 0 to 18,446,744,073,709,551,615", ph.suppress_close_peaks, frames(1), reals(1, 2), -1, frame_room(1))
        for call, *words in ((ph.lag_range, RATE), (ph.room_of, 5, RATE), (ph.Buffers, 5, RATE), (ph.Buffers(5, RATE).analyse_envelope, reals(1), RATE)):
            self.wrong(OverflowError, "meter is -1, outside 1 to 16", call, *words, ph.TempoOpts(meter=-1))
            self.wrong(OverflowError, "meter is 18,446,744,073,709,551,620, outside 1 to 16", call, *words, (30, 300, 2 ** 64 + 4))
            for meter, kind in ((4.0, "float"), ("4", "str"), (True, "bool"), (False, "bool"), (None, "NoneType")):
                self.wrong(TypeError, f"meter must be a whole number, not {kind}", call, *words, (30, 300, meter))
        self.wrong(OverflowError, "meter is -1, outside 1 to 16", ph.downbeats, reals(1), frames(0), frame_room(1), -1)
        self.wrong(TypeError, "meter must be a whole number, not float", ph.downbeats, reals(1), frames(0), frame_room(1), 3.0)
        self.wrong(TypeError, "meter must be a whole number, not bool", ph.downbeats, reals(1), frames(0), frame_room(1), True)
        self.wrong(TypeError, "meter must be a whole number, not TempoOpts", ph.downbeats, reals(1), frames(0), frame_room(1), OPTS)
        self.wrong(TypeError, "rate must be a whole number, not float", ph.lag_range, 48_000.0)
        self.wrong(TypeError, "time must be a real number, not str", ph.bar_beat_at, "now", reals(), reals())
        self.wrong(TypeError, "median must be a real number, not NoneType", ph.mad_of, reals(1), None, room(1))
        self.wrong(OverflowError, "median is too large", ph.mad_of, reals(1), 10 ** 400, room(1))

    def test_bounds(self):
        self.assertEqual(ph.lag_range(RATE, (100, 200)), (56, 113))
        self.assertEqual(ph.room_of(30, RATE, [200, 100]).lags, 58)
        self.assertEqual(ph.lag_range(RATE, iter((100, 200, 3))), (56, 113))
        said = "opts must be a TempoOpts, or a pair of bounds with or without a meter, not "
        self.wrong(TypeError, said + "120", ph.lag_range, RATE, 120)
        self.wrong(TypeError, said + "(1, 2, 3, 4)", ph.room_of, 30, RATE, (1, 2, 3, 4))
        self.wrong(TypeError, said + "(1,)", ph.room_of, 30, RATE, (1,))
        self.wrong(TypeError, "max_bpm must be a real number, not str", ph.lag_range, RATE, (100, "200"))

    def test_empty_slices(self):
        ph.spectral_flux(singles(), 0, 1, reals())
        self.assertEqual(ph.pick_onsets(reals(), reals(), RATE, frames()), 0)
        self.assertEqual(ph.boundaries(reals(), 1, RATE, 3, frames(), reals()), (0, 0, 0.0))

    def test_buffers_are_handed_back(self):
        values, work, short = reals(1, 2), room(2), room(1)
        ph.median_of(values, work)
        self.assertRaises(ph.Refused, ph.median_of, values, short)
        self.assertRaises(TypeError, ph.median_of, values, frames(1, 2))
        self.assertRaises(ValueError, ph.median_of, values, values)
        for lent in (values, work, short):
            lent.append(1.0)  # an array that is still lent cannot grow

    def test_library_by_its_bare_name(self):
        library = pathlib.Path(ph._library._name)
        tried = subprocess.run([sys.executable, "-B", "-c", "import prohunsev"], cwd=library.parent, capture_output=True, text=True,
                               env={**os.environ, "PYTHONPATH": os.path.dirname(ph.__file__), "PROHUNSEV_LIBRARY": library.name})
        self.assertEqual((tried.returncode, tried.stderr), (0, ""))

    def test_library_is_named_when_missing(self):
        here = os.path.dirname(ph.__file__)
        tried = subprocess.run([sys.executable, "-B", "-c", "import prohunsev"], cwd=here, capture_output=True, text=True,
                               env={**os.environ, "PROHUNSEV_LIBRARY": "/nowhere/lib.so"})
        self.assertEqual(tried.returncode, 1)
        self.assertIn("ImportError: PROHUNSEV_LIBRARY names /nowhere/lib.so, which is no file: run tools/library", tried.stderr)


class Files(unittest.TestCase):
    """Tempo tracks: bytes made by hand from the standard, roundings, what may be lent, and slots behind an answer."""

    def test_bytes_by_hand(self):
        front = b"MThd\0\0\0\6\0\0\0\1\0\x60MTrk\0\0\0"
        one = front + b"\x0b\0\xff\x51\3\x07\xa6\x55\x60\xff\x2f\0"
        self.assertEqual(ph.write_tempo_track(frames(0, 94), RATE), one)
        # 501,333.3 microseconds each: the third has what the first two have not
        three = front + b"\x19\0\xff\x51\3\x07\xa6\x55\x60\xff\x51\3\x07\xa6\x55\x60\xff\x51\3\x07\xa6\x56\x60\xff\x2f\0"
        file = ph.write_tempo_track(frames(0, 94, 188, 282), RATE)
        self.assertIs(type(file), bytes)
        self.assertEqual(file, three)
        gaps = ph.read_tempo_track(file)
        self.assertEqual((gaps.typecode, list(gaps)), ("I", [501_333, 501_333, 501_334]))
        # the rate is read, and where the grid begins is not told
        self.assertEqual(list(ph.read_tempo_track(ph.write_tempo_track(frames(7, 101), 44_100))), [545_669])
        # at 32,768 a frame is 7,812.5 microseconds: halves are rounded up
        self.assertEqual(list(ph.read_tempo_track(ph.write_tempo_track(frames(0, 1, 2, 3, 5), 32_768))), [7_813, 7_812, 7_813, 15_625])
        # 1,735 frames from frame 1 on; from frame 3 on as many are one microsecond more, and refused
        self.assertEqual(list(ph.read_tempo_track(ph.write_tempo_track(frames(1, 1_736), 26_474))), [16_777_215])

    def test_slots_behind_stay(self):
        file, gaps = bytearray(b"\7" * 40), frame_room(3)
        self.assertEqual(ph.write_tempo_track_into(frames(0, 94), RATE, file), 33)
        self.assertEqual((file[:33], file[33:]), (ph.write_tempo_track(frames(0, 94), RATE), b"\7" * 7))
        self.assertEqual(ph.read_tempo_track_into(memoryview(file)[:33], gaps), 1)
        self.assertEqual(list(gaps), [501_333, WAS_FRAME, WAS_FRAME])
        self.assertEqual([ph.tempo_track_room(beats) for beats in (0, 1, 2, 3)], [26, 26, 33, 40])
        self.assertEqual([ph.tempo_gaps_room(size) for size in (0, 25, 26, 32, 33, 40)], [0, 0, 0, 0, 1, 2])

    def test_what_may_be_lent(self):
        file = ph.write_tempo_track(frames(0, 94), RATE)
        for lent in (file, bytearray(file), memoryview(file), array("B", file)):
            self.assertEqual(list(ph.read_tempo_track(lent)), [501_333])
        wrong = Lending().wrong
        wrong(TypeError, "write_tempo_track: beats must be a contiguous buffer of uint32 values, not list", ph.write_tempo_track, [0, 94], RATE)
        wrong(TypeError, "format 'i'", ph.write_tempo_track, array("i", [0, 94]), RATE)
        wrong(TypeError, "contiguous", ph.write_tempo_track, memoryview(frames(0, 1, 94))[::2], RATE)
        wrong(TypeError, "rate must be a whole number, not float", ph.write_tempo_track, frames(0, 94), 48e3)
        wrong(OverflowError, "rate is -1, outside 1 to 192,000", ph.write_tempo_track, frames(0, 94), -1)
        wrong(TypeError, "read_tempo_track: file must be a contiguous buffer of uint8 values, not str", ph.read_tempo_track, "MThd")
        wrong(TypeError, "format 'I'", ph.read_tempo_track, frames(0, 94))
        wrong(TypeError, "file must be a contiguous buffer of uint8 values to write into", ph.write_tempo_track_into, frames(0, 94), RATE, bytes(40))
        wrong(TypeError, "gaps must be a contiguous buffer of uint32 values to write into", ph.read_tempo_track_into, file, reals(1))
        both = memoryview(bytearray(file + bytes(7)))
        wrong(ValueError, "gaps overlaps file", ph.read_tempo_track_into, both[:33], both[32:36].cast("I"))
        # an analysis' beats, lent as they are
        buffers = ph.Buffers(4_000, RATE)
        beats = buffers.analyse_envelope(turn(), RATE).beats
        gaps = ph.read_tempo_track(ph.write_tempo_track(beats, RATE))
        self.assertEqual(len(gaps), len(beats) - 1)
        ms = room(len(beats))
        ph.frame_times(beats, RATE, ms)
        self.assertAlmostEqual(sum(gaps) / 1_000, ms[-1] - ms[0], places=2)

    def test_random_grids(self):
        r = random.Random(3)
        for _ in range(200):
            rate, beats = r.choice([8_000, 44_100, RATE, 192_000]), sorted(r.sample(range(400), r.randint(2, 30)))
            # half up in whole numbers
            times = [(2_000_000 * (256 * beat + 512) + rate) // (2 * rate) for beat in beats]
            gaps = ph.read_tempo_track(ph.write_tempo_track(frames(*beats), rate))
            self.assertEqual(list(gaps), [after - before for before, after in zip(times, times[1:])])


class Labels(unittest.TestCase):
    """Label tracks and cue chunks: bytes made by hand, roundings, ends of the limits, what may be lent, and slots behind an answer."""

    TEXT = b"0.010667\t0.010667\tbeat\n0.512000\t0.512000\tbeat\n"
    CHUNK = (b"cue \x34\0\0\0\2\0\0\0" b"\1\0\0\0\0\2\0\0data\0\0\0\0\0\0\0\0\0\2\0\0" b"\2\0\0\0\0\x60\0\0data\0\0\0\0\0\0\0\0\0\x60\0\0")

    def test_bytes_by_hand(self):
        text, chunk = ph.write_labels(frames(0, 94), RATE), ph.write_cues(frames(0, 94))
        self.assertEqual((text, chunk), (self.TEXT, self.CHUNK))
        self.assertEqual((ph.labels_to_cues(text, RATE), ph.cues_to_labels(chunk, RATE)), (self.CHUNK, self.TEXT))
        self.assertEqual({type(made) for made in (text, chunk, ph.labels_to_cues(text, RATE), ph.cues_to_labels(chunk, RATE))}, {bytes})
        for read in (ph.read_labels(text, RATE), ph.read_cues(chunk)):
            self.assertEqual((read.typecode, list(read)), ("I", [0, 94]))
        self.assertEqual(ph.labels_room(frames(0, 94), RATE), 46)
        # the rate is read: the same chunk, and another time
        self.assertEqual(ph.cues_to_labels(chunk, 44_100), b"0.011610\t0.011610\tbeat\n0.557279\t0.557279\tbeat\n")
        self.assertEqual(ph.write_labels(frames(0), 44_100), b"0.011610\t0.011610\tbeat\n")
        # at 32,768 a frame is 7,812.5 microseconds: halves are rounded up
        self.assertEqual([line[:8] for line in ph.write_labels(frames(0, 1, 2, 3), 32_768).splitlines()],
                         [b"0.015625", b"0.023438", b"0.031250", b"0.039063"])
        # nothing is no labels and a chunk of count 0
        none = b"cue \4\0\0\0\0\0\0\0"
        self.assertEqual((ph.write_labels(frames(), 1), ph.write_cues(frames())), (b"", none))
        self.assertEqual((ph.labels_to_cues(b"", 1), ph.cues_to_labels(none, 192_000)), (none, b""))
        self.assertEqual((list(ph.read_labels(b"", 1)), list(ph.read_cues(none)), ph.labels_room(frames(), 1)), ([], [], 0))

    def test_the_ends_of_the_limits(self):
        most = 1_048_575
        text = ph.write_labels(frames(0, most), 1)
        self.assertEqual(text, b"512.000000\t512.000000\tbeat\n268435712.000000\t268435712.000000\tbeat\n")
        self.assertEqual((ph.labels_room(frames(0, most), 1), list(ph.read_labels(text, 1))), (27 + 39, [0, most]))
        self.assertEqual(ph.write_labels(frames(most), 192_000), b"1398.102667\t1398.102667\tbeat\n")
        self.assertEqual(ph.write_cues(frames(most))[32:], (256 * most + 512).to_bytes(4, "little"))
        self.assertEqual([ph.label_frames_room(size) for size in (0, 22, 23, 46)], [0, 0, 1, 2])
        self.assertEqual([ph.cues_room(count) for count in (0, 1, 2)], [12, 36, 60])
        self.assertEqual([ph.cue_frames_room(size) for size in (0, 11, 12, 35, 36, 60)], [0, 0, 0, 0, 1, 2])

    def test_slots_behind_stay(self):
        text, chunk, held = bytearray(b"\7" * 50), bytearray(b"\7" * 63), frame_room(3)
        self.assertEqual(ph.write_labels_into(frames(0, 94), RATE, text), 46)
        self.assertEqual(text, self.TEXT + b"\7" * 4)
        self.assertEqual(ph.write_cues_into(frames(0, 94), chunk), 60)
        self.assertEqual(chunk, self.CHUNK + b"\7" * 3)
        self.assertEqual(ph.read_labels_into(memoryview(text)[:46], RATE, held), 2)
        self.assertEqual(list(held), [0, 94, WAS_FRAME])
        held = frame_room(3)
        self.assertEqual(ph.read_cues_into(memoryview(chunk)[:60], held), 2)
        self.assertEqual(list(held), [0, 94, WAS_FRAME])
        text, chunk = bytearray(b"\7" * 50), bytearray(b"\7" * 63)
        self.assertEqual((ph.labels_to_cues_into(self.TEXT, RATE, chunk), ph.cues_to_labels_into(self.CHUNK, RATE, text)), (60, 46))
        self.assertEqual((text, chunk), (self.TEXT + b"\7" * 4, self.CHUNK + b"\7" * 3))

    def test_one_byte_changed(self):
        # a digit in one of two equal times makes them differ, and so do a position and its offset: 9, whatever the byte is
        for good, calls in ((self.TEXT, (lambda text: ph.read_labels(text, RATE), lambda text: ph.labels_to_cues(text, RATE))),
                            (self.CHUNK, (ph.read_cues, lambda chunk: ph.cues_to_labels(chunk, RATE)))):
            for at in range(len(good)):
                for value in {0, 9, 10, 13, 32, 45, 46, 48, 57, 65, 255, good[at] ^ 1, good[at] + 1 & 255} - {good[at]}:
                    for call in calls:
                        with self.assertRaises(ph.Refused) as caught:
                            call(good[:at] + bytes([value]) + good[at + 1:])
                        self.assertEqual(caught.exception.number, 9, (at, value))

    def test_what_may_be_lent(self):
        for lent in (bytes, bytearray, memoryview, lambda made: array("B", made)):
            self.assertEqual(list(ph.read_labels(lent(self.TEXT), RATE)), [0, 94])
            self.assertEqual(list(ph.read_cues(lent(self.CHUNK))), [0, 94])
            self.assertEqual((ph.labels_to_cues(lent(self.TEXT), RATE), ph.cues_to_labels(lent(self.CHUNK), RATE)), (self.CHUNK, self.TEXT))
        wrong = Lending().wrong
        wrong(TypeError, "write_labels: frames must be a contiguous buffer of uint32 values, not list", ph.write_labels, [0, 94], RATE)
        wrong(TypeError, "format 'i'", ph.write_cues, array("i", [0, 94]))
        wrong(TypeError, "contiguous", ph.labels_room, memoryview(frames(0, 1, 94))[::2], RATE)
        wrong(TypeError, "rate must be a whole number, not float", ph.labels_to_cues, b"", 48e3)
        wrong(OverflowError, "rate is -1, outside 1 to 192,000", ph.cues_to_labels, self.CHUNK, -1)
        wrong(TypeError, "read_labels: text must be a contiguous buffer of uint8 values, not str", ph.read_labels, self.TEXT.decode(), RATE)
        wrong(TypeError, "chunk must be a contiguous buffer of uint8 values to write into", ph.write_cues_into, frames(0), bytes(40))
        wrong(TypeError, "frames must be a contiguous buffer of uint32 values to write into", ph.read_cues_into, self.CHUNK, reals(1))
        both = memoryview(bytearray(self.TEXT + bytes(60)))
        wrong(ValueError, "chunk overlaps text", ph.labels_to_cues_into, both[:46], RATE, both[45:])

    def test_random_grids(self):
        r = random.Random(6)
        for _ in range(200):
            rate, listed = r.choice([1, 7, 8_000, 44_100, RATE, 192_000]), sorted(r.sample(range(r.choice([40, 4_000, 1_048_576])), r.randint(0, 30)))
            times = [(2_000_000 * (256 * frame + 512) + rate) // (2 * rate) for frame in listed]
            text = "".join("%d.%06d\t%d.%06d\tbeat\n" % (2 * divmod(time, 1_000_000)) for time in times).encode()
            chunk = struct.pack("<4sII", b"cue ", 4 + 24 * len(listed), len(listed)) + b"".join(
                struct.pack("<II4sIII", k, 256 * frame + 512, b"data", 0, 0, 256 * frame + 512) for k, frame in enumerate(listed, 1))
            self.assertEqual((ph.write_labels(frames(*listed), rate), ph.write_cues(frames(*listed))), (text, chunk))
            self.assertEqual((list(ph.read_labels(text, rate)), list(ph.read_cues(chunk)), ph.labels_room(frames(*listed), rate)),
                             (listed, listed, len(text)))
            self.assertEqual((ph.labels_to_cues(text, rate), ph.cues_to_labels(chunk, rate)), (chunk, text))


class Patches(unittest.TestCase):
    """Patching equals starting over, bit for bit."""

    def test_runs_of_magnitude_patches(self):
        r = random.Random(1)
        for rows, bins in ((1, 1), (12, 3), (60, 2)):
            magnitudes = array("f", (r.uniform(-1, 1) for _ in range(rows * bins)))

            def fresh():
                flux, threshold = room(rows), room(rows)
                ph.spectral_flux(magnitudes, rows, bins, flux)
                ph.adaptive_threshold(flux, threshold, room(rows))
                return flux, threshold

            flux, threshold = fresh()
            for _ in range(20):
                start = r.randint(0, rows)
                new = array("f", (r.uniform(-1, 1) for _ in range(bins * r.randint(0, rows - start))))
                patched = ph.patch_magnitudes(magnitudes, rows, bins, start, new, flux, threshold, room(21))
                past = start + len(new) // bins
                self.assertEqual(patched.flux, range(start, min(rows, past + 1)) if new else range(0))
                self.assertEqual(patched.threshold, range(max(0, start - 10), min(rows, past + 11)) if new else range(0))
                self.assertEqual((bytes(flux), bytes(threshold)), tuple(map(bytes, fresh())))

    def test_runs_of_feature_patches(self):
        r = random.Random(2)
        for rows in (1, 17, 40):
            features = array("d", (r.uniform(-1, 1) for _ in range(rows * 16)))

            def fresh():
                band, curve = room(17 * rows), room(rows)
                ph.similarity(features, rows, band)
                ph.novelty(band, rows, curve)
                return band, curve

            band, curve = fresh()
            for _ in range(10):
                start = r.randint(0, rows)
                new = array("d", (r.uniform(-1, 1) for _ in range(16 * r.randint(0, rows - start))))
                patched = ph.patch_features(features, rows, start, new, band, curve)
                past = start + len(new) // 16
                # from the first pair with a replaced row, 16 rows before it, to the last
                first = 17 * max(0, start - 16) + min(16, start)
                self.assertEqual(patched.similarity, range(first, 17 * past) if new else range(0))
                self.assertEqual(patched.novelty, range(max(0, start - 7), min(rows, past + 8)) if new else range(0))
                self.assertEqual((bytes(band), bytes(curve)), tuple(map(bytes, fresh())))


class Tracks(unittest.TestCase):
    """Whole tracks through one set of buffers."""

    @staticmethod
    def told(track):
        return track[:3] + tuple(list(view) for view in track[3:])

    def test_buffers_used_again(self):
        buffers = ph.Buffers(3_000, RATE)
        self.assertEqual(buffers.room.bytes, 40 * 3_000 + 32 * 338 + 8 * 338)
        for n in (3_000, 700, 0, 2_999, 700):
            envelope = pulses(n)
            rows = array("f", envelope)
            for analyse in (lambda b: b.analyse_envelope(envelope, RATE), lambda b: b.analyse_magnitudes(rows, n, 1, RATE)):
                self.assertEqual(self.told(analyse(buffers)), self.told(analyse(ph.Buffers(n, RATE))))
        self.assertEqual(buffers.analyse_envelope(pulses(2_000), RATE).candidates[0].lag, 94)
        with self.assertRaises(ph.Refused) as caught:
            buffers.analyse_envelope(pulses(3_001), RATE)
        self.assertEqual(caught.exception.number, 3)

    def test_a_refused_track(self):
        buffers, other = ph.Buffers(1_000, RATE), ph.TempoOpts(5, 300)
        track = buffers.analyse_envelope(pulses(1_000), RATE)
        was = self.told(track)
        self.assertTrue(was[4])
        nothing = array("f", [0.0])
        # one call, judged before it begins: the lowest number, and no view that was handed out changes
        for number, analyse, words in (
            (1, buffers.analyse_envelope, (pulses(1_001), 0)),
            (1, buffers.analyse_magnitudes, (nothing * 1_001, 1_001, 1, 0)),
            (1, buffers.analyse_magnitudes, (singles(math.nan), 1, 1, 0)),
            (2, buffers.analyse_magnitudes, (singles(math.nan), 2, 1, RATE)),
            (3, buffers.analyse_magnitudes, (singles(math.nan) * 1_001, 1_001, 1, RATE)),
            (3, buffers.analyse_envelope, (pulses(1_000), RATE, other)),
            (4, buffers.analyse_magnitudes, (singles(0, math.nan), 2, 1, RATE)),
            (4, buffers.analyse_envelope, (reals(9, TOO_LARGE), RATE)),
        ):
            with self.assertRaises(ph.Refused) as caught:
                analyse(*words)
            self.assertEqual((caught.exception.number, caught.exception.call), (number, analyse.__name__))
            self.assertEqual(self.told(track), was)
        self.assertRaises(TypeError, buffers.analyse_envelope, singles(1), RATE)
        self.assertEqual(self.told(track), was)

    def test_the_largest_values_are_answered(self):
        # its thresholds come out above 2**150, and are no lent values
        most = 2.0 ** 150
        track = ph.Buffers(3, RATE).analyse_envelope(reals(most, -most, 0), RATE)
        self.assertEqual((track.tempo, len(track.beats)), (None, 0))

    def test_no_room(self):
        for words in ((1_048_577, RATE), (1, 0), (1, 0, ph.TempoOpts(math.inf, None))):
            with self.assertRaises(ph.Refused) as caught:
                ph.room_of(*words)
            self.assertEqual(caught.exception.number, 1)

    def test_threads(self):
        envelope = pulses(3_000)
        alone = self.told(ph.Buffers(3_000, RATE).analyse_envelope(envelope, RATE))
        self.assertIsNotNone(alone[0])
        with concurrent.futures.ThreadPoolExecutor(8) as pool:
            for told in pool.map(lambda _: self.told(ph.Buffers(3_000, RATE).analyse_envelope(envelope, RATE)), range(16)):
                self.assertEqual(told, alone)

    def test_threads_share_no_output(self):
        # the first call is held inside the library until the others have been tried
        envelope, score, back, beats = pulses(200), room(200), frame_room(200), frame_room(200)
        begun, done, inner = threading.Event(), threading.Event(), ph._library.ph_beat_grid

        class Held:
            def __call__(self, *words):
                begun.set()
                done.wait(30)
                return inner(*words)

        alone = ph.beat_grid(envelope, 94, room(200), frame_room(200), frame_room(200))
        with concurrent.futures.ThreadPoolExecutor(1) as pool:
            with unittest.mock.patch.object(ph._library, "ph_beat_grid", Held()):
                first = pool.submit(ph.beat_grid, envelope, 94, score, back, beats)
                self.assertTrue(begun.wait(30))
            try:
                for name, call, words in (
                    ("back overlaps back", ph.beat_grid, (envelope, 94, room(200), back, frame_room(200))),
                    ("work overlaps envelope", ph.median_of, (reals(1, 2), memoryview(envelope)[10:12])),
                    ("frames overlaps beats", ph.frame_times, (memoryview(beats)[:2], RATE, room(2))),
                ):
                    with self.assertRaisesRegex(ValueError, name + " of a call in another thread"):
                        call(*words)
                # what both only read, and neighbours, are allowed
                self.assertEqual(ph.beat_grid(envelope, 94, room(200), frame_room(200), frame_room(200)), alone)
            finally:
                done.set()
            self.assertEqual(first.result(), alone)
        self.assertEqual(ph.beat_grid(envelope, 94, score, back, beats), alone)
        self.assertEqual(ph._flying, {})

    def test_threads_in_one_buffers(self):
        buffers, envelope = ph.Buffers(3_000, RATE), pulses(3_000)
        alone = self.told(buffers.analyse_envelope(envelope, RATE))[:3]

        def tried(_):
            try:
                return buffers.analyse_envelope(envelope, RATE)[:3]
            except ValueError as error:
                return str(error)

        with concurrent.futures.ThreadPoolExecutor(3) as pool:
            for told in pool.map(tried, range(60)):
                if told != alone:
                    self.assertRegex(str(told), "analyse_envelope: .* of a call in another thread")

    @unittest.skipUnless(hasattr(os, "fork"), "no fork here")
    def test_a_fork_forgets_calls(self):
        values = reals(1, 2, 3)
        with unittest.mock.patch.dict(ph._flying, {0: [(ph._reals_out("work", values), ph._reals_out("work", values).take("x"))]}):
            self.assertRaises(ValueError, ph.median_of, values, room(3))
            child = os.fork()
            if child == 0:
                os._exit(0 if ph._flying == {} and ph.median_of(values, room(3)) == 2.0 else 1)
            self.assertEqual(os.waitpid(child, 0)[1], 0)


class Repairs(unittest.TestCase):
    """A track that is patched in its buffers has the curves, the tempo and the grid of a full run on the edited rows, bit for bit."""

    @staticmethod
    def rows_of(count, bins, beat, r):
        """Rows of hits over noise, about `beat` rows apart; beat 0 is silence."""
        magnitudes = array("f")
        for t in range(count):
            hit = 1.0 + r.random() if beat and t % beat == 5 else 0.0
            magnitudes.extend(hit + 0.05 * r.random() if beat else 0.25 for _ in range(bins))
        return magnitudes

    @staticmethod
    def told(buffers, track):
        """Everything that is told of a track, floats by their bits."""
        curves = (buffers.flux, buffers.threshold, buffers.clarity, buffers.weight)
        return repr(track[:3]), [list(view) for view in track[3:]], [bytes(curve) for curve in curves], buffers.lags

    def test_patched_tracks(self):
        r, seen = random.Random(7), [0, 0]
        for rows, bins, rate, opts, beat in (
            (0, 1, RATE, OPTS, 94), (1, 3, RATE, OPTS, 94), (30, 2, 1, OPTS, 3), (376, 1, RATE, OPTS, 94), (377, 1, RATE, OPTS, 94),
            (700, 2, 44_100, OPTS, 94), (1_300, 1, RATE, (30, 100), 73), (1_000, 1, 24_000, (300, 60), 60), (1_500, 1, RATE, (140, 300), 73),
            (1_000, 1, RATE, OPTS, 0), (1_300, 1, RATE, ph.TempoOpts(meter=3), 94), (1_300, 2, RATE, (40, 300, 7), 94),
        ):
            magnitudes, buffers, full = self.rows_of(rows, bins, beat, r), ph.Buffers(1_550, RATE), ph.Buffers(1_550, RATE)
            # another track's curves before
            buffers.analyse_envelope(turn(1_550), RATE)
            buffers.analyse_magnitudes(magnitudes, rows, bins, rate, opts)
            for turn_ in range(6):
                start = r.randint(0, rows) if turn_ else 0
                new = self.rows_of(r.randint(0, rows - start) if turn_ else rows, bins, r.choice((beat, 0, 47, 110)), r)
                if new and turn_ == 3:
                    held, was = buffers._last, bytes(magnitudes)
                    wrong = new[:]
                    wrong[-1] = math.nan
                    self.assertRaises(ph.Refused, buffers.patch_magnitudes, magnitudes, rows, bins, start, wrong)
                    self.assertEqual((buffers._last, bytes(magnitudes)), (held, was))
                patched = buffers.patch_magnitudes(magnitudes, rows, bins, start, new)
                self.assertEqual(patched.flux, range(start, min(rows, start + len(new) // bins + 1)) if new else range(0))
                if new:
                    self.assertEqual((len(buffers.clarity), len(buffers.weight)), (0, 0))
                track, expected = buffers.analyse_patched(), full.analyse_magnitudes(magnitudes, rows, bins, rate, opts)
                seen[expected.tempo is None] += 1
                self.assertEqual(self.told(buffers, track), self.told(full, expected))
                self.assertEqual((len(full.flux), len(full.threshold)), (rows, rows))
                self.assertEqual(len(full.clarity), ph.lag_range(rate, opts).lags if expected.tempo else 0)
                # by the flux as an envelope, from the same values
                envelope, lists = array("d", bytes(full.flux)), Tracks.told(expected)
                self.assertEqual(Tracks.told(full.analyse_envelope(envelope, rate, opts)), lists)
                self.assertEqual((len(full.flux), bytes(full.threshold)), (0, bytes(buffers.threshold)))
        self.assertTrue(seen[0] > 10 and seen[1] > 10, seen)

    def test_swells_without_onsets(self):
        """A flux that repeats and has no onset: no tempo, by the count of onsets alone."""
        n, level, magnitudes = 1_500, 0.0, array("f")
        for t in range(n):
            level += 1.0 + math.sin(2 * math.pi * t / 94)
            magnitudes.append(level)
        buffers, full = ph.Buffers(n, RATE), ph.Buffers(n, RATE)
        buffers.analyse_magnitudes(magnitudes, n, 1, RATE)
        buffers.patch_magnitudes(magnitudes, n, 1, 700, magnitudes[700:710])
        track, expected = buffers.analyse_patched(), full.analyse_magnitudes(magnitudes, n, 1, RATE)
        self.assertEqual(self.told(buffers, track), self.told(full, expected))
        self.assertTrue(len(track.onsets) < 2 and track.tempo is None and len(track.beats) == 0, track)
        self.assertIsNotNone(ph.estimate(buffers.flux, 2, RATE, clarity=room(338), weight=room(338), work=room(338)).tempo)

    def test_curves(self):
        """Each is the one of its name, and read-only."""
        n, opts = 2_000, (40, 250)
        magnitudes, flux, threshold = self.rows_of(n, 2, 94, random.Random(3)), room(n), room(n)
        ph.spectral_flux(magnitudes, n, 2, flux)
        ph.adaptive_threshold(flux, threshold, room(21))
        lags = ph.lag_range(RATE, opts)
        clarity, weight = room(lags.lags), room(lags.lags)
        found = ph.estimate(flux, 20, RATE, opts, clarity, weight, room(lags.lags))
        buffers = ph.Buffers(n + 5, RATE)
        self.assertEqual([len(buffers.flux), len(buffers.threshold), len(buffers.clarity), len(buffers.weight), buffers.lags], [0] * 4 + [None])
        track = buffers.analyse_magnitudes(magnitudes, n, 2, RATE, opts)
        for view, expected in ((buffers.flux, flux), (buffers.threshold, threshold), (buffers.clarity, clarity), (buffers.weight, weight)):
            self.assertEqual((bytes(view), view.format, view.readonly), (bytes(expected), "d", True))
        self.assertEqual((buffers.lags, track.tempo), (lags, found.tempo))
        self.assertNotEqual(clarity, weight)
        self.assertEqual(buffers.clarity[found.candidates[0].lag - lags.min_lag], found.tempo.clarity)
        # a track without a tempo shows no other's lag curves, and a refused call changes nothing of this
        self.assertIsNone(buffers.analyse_magnitudes(magnitudes[:400], 200, 2, RATE, opts).tempo)
        self.assertRaises(ph.Refused, buffers.analyse_magnitudes, magnitudes, n, 2, 0)
        self.assertRaises(TypeError, buffers.analyse_magnitudes, threshold, n, 2, RATE)
        self.assertEqual([len(buffers.flux), len(buffers.threshold), len(buffers.clarity), len(buffers.weight)], [200, 200, 0, 0])
        # they may be lent
        self.assertEqual(ph.pick_onsets(buffers.flux, buffers.threshold, RATE, frame_room(200)), 3)
        with self.assertRaisesRegex(TypeError, "work must be a contiguous buffer of float64 values to write into"):
            ph.median_of(reals(1), buffers.flux)

    def test_only_what_was_analysed(self):
        buffers, rows, none = ph.Buffers(10, RATE), array("f", [1.0]) * 12, "these buffers hold the flux of no rows: analyse_magnitudes comes first"
        for call, words in ((buffers.patch_magnitudes, (rows, 6, 2, 0, singles(2, 2))), (buffers.analyse_patched, ())):
            with self.assertRaises(ValueError) as caught:
                call(*words)
            self.assertEqual(str(caught.exception), f"{call.__name__}: {none}")
        buffers.analyse_magnitudes(rows, 6, 2, RATE)
        for r, b in ((5, 2), (6, 1), (4, 3), (12, 1), (7, 2), (0, 2), (1, 12)):
            with self.assertRaises(ValueError) as caught:
                buffers.patch_magnitudes(rows, r, b, 0, singles())
            told = f"{r} row{'' if r == 1 else 's'} of {b} bin{'' if b == 1 else 's'}"
            self.assertEqual(str(caught.exception), f"patch_magnitudes: {told} lent, and these buffers analysed 6 rows of 2 last")
        for number, start, new in ((1, 7, singles()), (2, 0, singles(1)), (2, 6, singles(1, 1)), (4, 0, singles(1, math.nan))):
            with self.assertRaises(ph.Refused) as caught:
                buffers.patch_magnitudes(rows, 6, 2, start, new)
            self.assertEqual((caught.exception.number, list(rows)), (number, [1.0] * 12))
        self.assertRaises(TypeError, buffers.patch_magnitudes, rows, 6, 2, 0, reals(1, 1))
        self.assertRaises(TypeError, buffers.patch_magnitudes, bytes(48), 6, 2, 0, singles(1, 1))
        self.assertRaisesRegex(TypeError, "patch_magnitudes: new_rows is missing", buffers.patch_magnitudes, rows, 6, 2, 0)
        self.assertEqual(buffers.patch_magnitudes(rows, 6, 2, 6, singles()), (range(0), range(0)))
        patched = buffers.patch_magnitudes(memoryview(rows).cast("B").cast("f", (6, 2)), start=5, new_rows=singles(3, 3))
        self.assertEqual((patched, list(buffers.flux), list(rows[-3:])), ((range(5, 6), range(0, 6)), [0, 0, 0, 0, 0, 4], [1, 3, 3]))
        track = buffers.analyse_envelope(reals(1, 2), RATE)
        self.assertRaisesRegex(ValueError, none, buffers.analyse_patched)
        self.assertRaisesRegex(ValueError, none, buffers.patch_magnitudes, rows, 6, 2, 0, singles())
        self.assertEqual((len(buffers.threshold), track.tempo), (2, None))

    def test_one_thread_at_a_time(self):
        # a call is held inside the library while others are tried
        buffers, rows = ph.Buffers(3_000, RATE), array("f", pulses(3_000))
        alone = Tracks.told(buffers.analyse_magnitudes(rows, 3_000, 1, RATE))
        begun, done, inner = threading.Event(), threading.Event(), ph._library.ph_stability_of

        class Held:
            def __call__(self, *words):
                begun.set()
                done.wait(30)
                return inner(*words)

        with concurrent.futures.ThreadPoolExecutor(1) as pool:
            with unittest.mock.patch.object(ph._library, "ph_stability_of", Held()):
                first = pool.submit(buffers.analyse_patched)
                self.assertTrue(begun.wait(30))
            try:
                for call, words in ((buffers.analyse_patched, ()), (buffers.analyse_envelope, (reals(1), RATE)),
                                    (buffers.patch_magnitudes, (rows, 3_000, 1, 0, singles()))):
                    with self.assertRaisesRegex(ValueError, f"{call.__name__}: these Buffers hold the slices of a call in another thread"):
                        call(*words)
            finally:
                done.set()
            self.assertEqual(Tracks.told(first.result()), alone)
        self.assertEqual(Tracks.told(buffers.analyse_patched()), alone)

    @unittest.skipUnless(hasattr(os, "fork"), "no fork here")
    def test_a_fork_forgets_calls(self):
        buffers, envelope = ph.Buffers(600, RATE), pulses(600)
        lag = buffers.analyse_envelope(envelope, RATE).candidates[0].lag
        with unittest.mock.patch.object(buffers, "_at_work", os.getpid()):  # as by another thread
            self.assertRaises(ValueError, buffers.analyse_envelope, envelope, RATE)
            child = os.fork()
            if child == 0:
                os._exit(0 if buffers.analyse_envelope(envelope, RATE).candidates[0].lag == lag else 1)
            self.assertEqual(os.waitpid(child, 0)[1], 0)

    def test_interrupted(self):
        """A call that is broken off leaves buffers that hold no track, and work."""
        buffers, rows = ph.Buffers(600, RATE), array("f", pulses(600))
        alone = Tracks.told(buffers.analyse_magnitudes(rows, 600, 1, RATE))
        for call, words in ((buffers.analyse_patched, ()), (buffers.analyse_magnitudes, (rows, 600, 1, RATE)),
                            (buffers.patch_magnitudes, (rows, 600, 1, 0, singles(1)))):
            buffers.analyse_magnitudes(rows, 600, 1, RATE)
            with unittest.mock.patch.object(ph, "_call", side_effect=KeyboardInterrupt), self.assertRaises(KeyboardInterrupt):
                call(*words)
            self.assertEqual((len(buffers.flux), len(buffers.threshold), buffers.lags), (0, 0, None))
            self.assertRaises(ValueError, buffers.analyse_patched)
            self.assertEqual(Tracks.told(buffers.analyse_magnitudes(rows, 600, 1, RATE)), alone)

    def test_printed(self):
        buffers = ph.Buffers(100_000, RATE)
        made = "<Buffers for 100,000 rows and 338 lags, 4,013,520 bytes; analysed last: "
        self.assertEqual(repr(buffers), made + "nothing>")
        envelope = array("d", (float(t % 80 == 5) for t in range(2_000)))
        said = repr(buffers.analyse_envelope(envelope, RATE))
        self.assertIn("Analysis(tempo=Tempo(bpm=140.625, clarity=1.0), candidates=(Candidate(lag=80, salience=", said)
        self.assertTrue(said.endswith("stability=Stability(fraction=1.0, agreeing=4, windows=4), onsets=25 [5, 85, 165, 245, ..],"
                                      " beats=25 [5, 85, 165, 245, ..], downbeats=7 [5, 325, 645, 965, ..])"), said)
        self.assertEqual(repr(buffers), made + "2,000 rows, an envelope>")
        said = str(buffers.analyse_magnitudes(singles(0, 1, 0), 3, 1, RATE))
        self.assertEqual(said, "Analysis(tempo=None, candidates=(), stability=None, onsets=1 [1], beats=0 [], downbeats=0 [])")
        self.assertEqual(repr(buffers), made + "3 rows of 1 bin>")

    def test_hints(self):
        """Each public function, and each public method of Buffers, says the type of every parameter and of its answer."""
        self.assertRegex(ph.__version__, r"^\d+\.\d+\.\d+$")
        public = [getattr(ph, name) for name in ph.__all__ if inspect.isfunction(getattr(ph, name))]
        self.assertGreaterEqual(len(public), 22)
        methods = [m for name, m in vars(ph.Buffers).items() if inspect.isfunction(m) and (name[0] != "_" or name == "__init__")]
        self.assertEqual(len(methods), 5)
        for function in public + methods + [ph.Refused.__init__]:
            hints = typing.get_type_hints(function)
            self.assertEqual(set(hints), set(inspect.signature(function).parameters) - {"self"} | {"return"}, function)
        for name, got in vars(ph.Buffers).items():
            if isinstance(got, property):
                self.assertIn("return", typing.get_type_hints(got.fget), name)


@unittest.skipUnless(numpy, "NumPy is not installed")
class Arrays(unittest.TestCase):
    """NumPy arrays, lent as they are."""

    def test_tags_a_track(self):
        rows, bins = 2_000, 4
        magnitudes = numpy.zeros((rows, bins), numpy.float32)
        magnitudes[5::94] = 1.0
        flux, threshold = numpy.empty(rows), numpy.empty(rows)
        ph.spectral_flux(magnitudes, rows, bins, flux)
        self.assertEqual(flux[5], 4.0)
        ph.adaptive_threshold(flux, threshold, numpy.empty(21))
        onsets = numpy.empty(rows, numpy.uint32)
        count = ph.pick_onsets(flux, threshold, RATE, onsets)
        numpy.testing.assert_array_equal(onsets[:count], numpy.arange(5, rows - 1, 94))
        track = ph.Buffers(rows, RATE).analyse_magnitudes(magnitudes, rows, bins, RATE)
        self.assertEqual(track.candidates[0].lag, 94)
        numpy.testing.assert_array_equal(numpy.asarray(track.onsets), onsets[:count])

    def test_wrong_arrays(self):
        ok = numpy.ones(4)
        for values in (numpy.ones(4, numpy.float32), numpy.ones(4, numpy.int64), numpy.ones(4, ">f8"), numpy.ones(8)[::2],
                       numpy.ones((2, 2)).T, numpy.ones(4, complex)):
            with self.assertRaises(TypeError, msg=repr(values)):
                ph.median_of(values, numpy.empty(4))
        ok.flags.writeable = False
        self.assertEqual(ph.median_of(ok, numpy.empty(4)), 1.0)
        with self.assertRaises(TypeError):
            ph.median_of(numpy.ones(4), ok)
        with self.assertRaises(TypeError):
            ph.median_of(numpy.ones(4), numpy.empty(8)[::2])
        with self.assertRaises(TypeError):
            ph.frame_times(numpy.ones(1, numpy.int32), RATE, numpy.empty(1))
        with self.assertRaises(ValueError):
            both = numpy.ones(3)
            ph.median_of(both, both[1:])

    def test_bins_by_frames(self):
        # as librosa lays them out
        turned = numpy.zeros((4, 2_000), numpy.float32)
        turned[:, 5::94] = 1.0
        flux = numpy.empty(2_000)
        with self.assertRaisesRegex(ValueError, r"\(2000, 4\), rows first \(numpy\.ascontiguousarray\(magnitudes\.T\) has it\)"):
            ph.spectral_flux(turned, 2_000, 4, flux)
        self.assertRaises(TypeError, ph.spectral_flux, turned.T, 2_000, 4, flux)
        self.assertRaises(ValueError, ph.spectral_flux, numpy.zeros((1_999, 4), numpy.float32), 2_000, 4, flux)
        ph.spectral_flux(numpy.ascontiguousarray(turned.T), 2_000, 4, flux)
        numpy.testing.assert_array_equal(flux, turned.sum(axis=0))
        # no rows, and two channels
        ph.spectral_flux(numpy.empty((0, 4), numpy.float32), 0, 4, flux)
        self.assertRaises(ValueError, ph.median_of, numpy.ones((2, 3)), numpy.empty(6))
        self.assertRaises(ValueError, ph.median_of, numpy.float64(1), numpy.empty(1))

    def test_what_to_lend_instead(self):
        flux = numpy.empty(6)
        for wrong, hint in (
            (numpy.ones((6, 2)), r"format 'd' with 8 bytes each: lend magnitudes\.astype\('float32'\)"),
            (numpy.ones((2, 6), numpy.float32).T, r"not C-contiguous: if this array is bins by frames, as librosa's are, lend magnitudes\.T;"
             r" if it is rows by bins, numpy\.ascontiguousarray\(magnitudes\)$"),
            (numpy.ones((6, 4), numpy.float32)[:, ::2], r"not C-contiguous: if this array is bins by frames, as librosa's are, lend"
             r" numpy\.ascontiguousarray\(magnitudes\.T\); if it is rows by bins, numpy\.ascontiguousarray\(magnitudes\)$"),
        ):
            for call in (lambda m: ph.spectral_flux(m, 6, 2, flux), lambda m: ph.spectral_flux(m, flux=flux),
                         lambda m: ph.Buffers(6, RATE).analyse_magnitudes(m, rate=RATE)):
                with self.assertRaisesRegex(TypeError, hint):
                    call(wrong)
            # an output is not to be copied
            with self.assertRaises(TypeError) as caught:
                ph.median_of(numpy.ones(2), wrong.astype(numpy.float32))
            self.assertNotIn("lend", str(caught.exception))

    def test_fortran_order(self):
        """What librosa makes: bins by frames, in Fortran order. Whatever is told of it, what to lend is rows first, and taken."""
        def calls(rows, bins):
            flux, buffers = numpy.empty(8_000), ph.Buffers(8_000, RATE)
            return (lambda m: ph.spectral_flux(m, rows, bins, flux), lambda m: buffers.analyse_magnitudes(m, rows, bins, rate=RATE))

        only = "not C-contiguous: lend magnitudes.T, which is rows first"
        both = ("not C-contiguous: if this array is bins by frames, as librosa's are, lend magnitudes.T; if it is rows by bins,"
                " numpy.ascontiguousarray(magnitudes)")
        copy = "not C-contiguous: lend numpy.ascontiguousarray(magnitudes)"
        for shape, told, words in (((513, 8_000), (8_000, 513), only), ((513, 8_000), (None, None), only), ((513, 8_000), (513, 8_000), only),
                                   ((513, 3_000), (3_000, 513), only), ((513, 3_000), (None, None), both), ((513, 3_000), (513, 3_000), both),
                                   ((8_000, 513), (8_000, 513), copy), ((8_000, 513), (None, None), copy), ((513, 400), (400, 513), only)):
            magnitudes = numpy.zeros(shape, numpy.float32, order="F")
            for call in calls(*told):
                # one word, and no warning that says another
                with warnings.catch_warnings(), self.assertRaises(TypeError) as caught:
                    warnings.simplefilter("error")
                    call(magnitudes)
                self.assertTrue(str(caught.exception).endswith(words), (shape, told, str(caught.exception)))
            right = numpy.ascontiguousarray(magnitudes) if words == copy else magnitudes.T
            for call in calls(*right.shape) + calls(None, None):
                call(right)
        # turned it is no copy, so that what is written may be told too
        rows, curve = numpy.zeros((4, 9), numpy.float32, order="F"), numpy.zeros(9)
        for told, words in (((9, 4), "lend magnitudes.T, which is rows first"),
                            ((None, None), "if this array is bins by frames, as librosa's are, lend magnitudes.T")):
            with self.assertRaises(TypeError) as caught:
                ph.patch_magnitudes(rows, *told, start=0, new_rows=numpy.ones((1, 4), numpy.float32), flux=curve, threshold=curve.copy(), work=room(9))
            self.assertTrue(str(caught.exception).endswith(words), str(caught.exception))
        ph.patch_magnitudes(rows.T, start=0, new_rows=numpy.ones((1, 4), numpy.float32), flux=curve, threshold=curve.copy(), work=room(9))
        self.assertEqual(rows[:, 0].tolist(), [1.0] * 4)
        for features, words in ((numpy.zeros((16, 10), order="F"), "lend features.T, which is rows first"),
                                (numpy.zeros((10, 16), order="F"), "lend numpy.ascontiguousarray(features)")):
            for told in (10, None):
                with self.assertRaises(TypeError) as caught:
                    ph.similarity(features, told, numpy.empty(170))
                self.assertTrue(str(caught.exception).endswith(words), str(caught.exception))

    def test_rows_of_a_shape(self):
        magnitudes = numpy.zeros((2_000, 4), numpy.float32)
        magnitudes[5::94] = 1.0
        buffers = ph.Buffers(2_000, RATE)
        told = Tracks.told(buffers.analyse_magnitudes(magnitudes, 2_000, 4, RATE, (60, 300)))
        self.assertEqual(Tracks.told(buffers.analyse_magnitudes(magnitudes, rate=RATE, opts=(60, 300))), told)
        numpy.testing.assert_array_equal(numpy.asarray(buffers.flux), magnitudes.sum(axis=1))

    EXAMPLES = pathlib.Path(__file__).resolve().parent.parent / "examples"

    @unittest.skipUnless((EXAMPLES / "repair.py").is_file(), "the examples are not beside this folder")
    def test_example_of_a_repair(self):
        stored = (self.EXAMPLES / "repair.txt").read_text()
        self.assertIn("the same answers, lists and curves, bit for bit", stored)
        with tempfile.TemporaryDirectory() as elsewhere:
            ran = subprocess.run([sys.executable, "-B", str(self.EXAMPLES / "repair.py")], cwd=elsewhere, capture_output=True, text=True)
        self.assertEqual((ran.returncode, ran.stderr, ran.stdout), (0, "", stored))
        # Rust's says the same
        self.assertEqual((self.EXAMPLES.parent / "rust/examples/repair.txt").read_text(), stored)
        wrong = subprocess.run([sys.executable, "-B", str(self.EXAMPLES / "repair.py"), "now"], capture_output=True, text=True)
        self.assertEqual((wrong.returncode, wrong.stdout, "examples/repair.py --time" in wrong.stderr), (2, "", True))

    def test_masked_arrays(self):
        masked = numpy.ma.masked_greater(numpy.arange(3.0), 1.0)
        for words in ((masked, numpy.empty(3)), (numpy.ones(3), masked)):
            with self.assertRaisesRegex(TypeError, "not a masked array, whose mask would be ignored"):
                ph.median_of(*words)
        self.assertEqual(ph.median_of(masked.filled(0.0), numpy.empty(3)), 0.0)

    def test_readme(self):
        here = pathlib.Path(__file__).resolve().parent
        said = self.said((here / "README.md").read_text(), "PYTHONPATH=. python3 FILE", here)
        self.assertEqual(said, "Tempo(bpm=119.68085106382979, clarity=1.0) 240 [5, 381, 757]")

    ROOT = pathlib.Path(__file__).resolve().parent.parent / "README.md"

    @unittest.skipUnless(ROOT.is_file(), "the project's README is not above this folder")
    def test_readme_of_the_project(self):
        text = self.ROOT.read_text()
        said = self.said(text, re.search(r"`(PYTHONPATH=[^`]* FILE)` at the root of this clone", text).group(1), self.ROOT.parent)
        self.assertTrue(said.startswith("Tempo(bpm=119.68"), said)
        self.assertTrue(f"`{said}`" in text, "README.md says something else than " + said)

    @unittest.skipUnless(ROOT.is_file(), "the project's README is not above this folder")
    def test_readme_of_a_file(self):
        """The lines that make a MIDI file, after those of the example before them."""
        text = self.ROOT.read_text()
        here = pathlib.Path(__file__).resolve().parent
        with tempfile.TemporaryDirectory() as made:
            said = self.said(text, f"PYTHONPATH={shlex.quote(str(here))} python3 FILE", made, 2).splitlines()
            self.assertEqual(len(said), 2)
            self.assertTrue(f"it prints `{said[1]}`" in text, "README.md says something else than " + said[1])
            file = (pathlib.Path(made) / "track.mid").read_bytes()
        self.assertEqual(said[1], f"{len(file)} {list(ph.read_tempo_track(file)[:3])}")
        # four lines, and what they need
        example = text.split("```python\n")[2].split("```")[0].splitlines()
        self.assertEqual((len(example), example[0]), (5, "import pathlib"))

    @unittest.skipUnless(ROOT.is_file(), "the project's README is not above this folder")
    def test_readme_of_labels(self):
        """The lines from labels to cue points and those back, after the examples before them."""
        text = self.ROOT.read_text()
        here = pathlib.Path(__file__).resolve().parent
        with tempfile.TemporaryDirectory() as made:
            said = self.said(text, f"PYTHONPATH={shlex.quote(str(here))} python3 FILE", made, 4).splitlines()
            self.assertEqual(len(said), 4)
            for line in said[2:]:
                self.assertTrue(f"prints `{line}`" in text, "README.md says something else than " + line)
            labels, chunk = ((pathlib.Path(made) / name).read_bytes() for name in ("track.txt", "track.cues"))
        read = ph.read_labels(labels, RATE)
        self.assertEqual((chunk, ph.cues_to_labels(chunk, RATE)), (ph.write_cues(read), labels))
        self.assertEqual(said[2:], [f"{len(chunk)} {list(read[:3])}", f"True {labels[:22].split()}"])
        # four lines each
        self.assertEqual([len(example.split("```")[0].splitlines()) for example in text.split("```python\n")[3:5]], [4, 4])

    def said(self, text, command, folder, examples=1):
        """What the first Python examples of a text print, run by this command, with the Python that runs this."""
        with tempfile.TemporaryDirectory() as made:
            file = pathlib.Path(made) / "example.py"
            file.write_text("".join(part.split("```")[0] for part in text.split("```python\n")[1:1 + examples]))
            self.assertEqual((command.count("python3 "), command.count("FILE")), (1, 1))
            command = command.replace("python3 ", shlex.quote(sys.executable) + " ").replace("FILE", shlex.quote(str(file)))
            ran = subprocess.run(command, shell=True, cwd=folder, capture_output=True, text=True)
        self.assertEqual((ran.returncode, ran.stderr), (0, ""), command)
        return ran.stdout.strip()

    def test_numbers_of_numpy(self):
        self.assertEqual(ph.lag_range(numpy.uint32(RATE)), (38, 375))
        self.assertEqual(ph.mad_of(numpy.arange(5.0), numpy.float64(2.0), numpy.empty(5)), 1.0)


if __name__ == "__main__":
    unittest.main()
