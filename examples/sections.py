#!/usr/bin/env python3
"""From magnitudes and samples to sections: the rows of the feature transform go to feature_rows, its rows to similarity, novelty and boundaries,
all calls of the library.

    python3 examples/sections.py              the piece of piece.py; says what is stored in examples/sections.txt
    python3 examples/sections.py SONG.npy     of mono float32 samples at 44,100 a second, as numpy.save writes them

The transform is tag.py's, in NumPy, and not proved. Needs NumPy and the library, as python/prohunsev.py finds it."""
import sys

import piece
import tag  # says what to do where NumPy or the library is missing

np, ph = tag.np, tag.ph


def magnitudes_of(samples):
    """The rows of the feature transform: 4,096 samples every 1,024, 2,049 bins each."""
    return tag.Transform(tag.WIDE_FRAME, tag.WIDE_HOP).push(samples)


def shares(row):
    """The parts of the energy below 250 Hz, to 4,000 Hz and above, of a feature row."""
    return " ".join("%.3f" % part for part in row[12:15])


def main(words):
    if len(words) > 1:
        sys.exit("sections.py: %s" % __doc__)
    samples = np.load(words[0]) if words else piece.piece().astype(np.float32)
    rate = piece.RATE
    magnitudes = magnitudes_of(samples)

    # all at once
    found = ph.sections_of(magnitudes, samples=samples, rate=rate)

    # and call by call, in room of one's own, which a worker keeps from track to track
    count = ph.feature_count(len(samples), rate)
    features, alike, novelty = np.empty((count, 16)), np.empty((count, 17)), np.empty(count)
    rows, work = np.empty(count, np.uint32), np.empty(count)
    ph.feature_rows(magnitudes, samples=samples, rate=rate, length=rate, features=features)
    ph.similarity(features, similarity=alike)
    ph.novelty(alike, novelty=novelty)
    sections = ph.boundaries(novelty, rate, rate, 12, rows, work)
    assert (sections.sections, rows[:sections.count].tolist()) == (found.sections, found.rows.tolist())

    print("%d rows of the transform, %d feature rows" % (len(magnitudes), count))
    print("%d section%s, confidence %.3f" % (found.sections, "" if found.sections == 1 else "s", found.confidence))
    for row, ms in zip(found.rows, found.ms):
        print("a boundary at %.1f s: the bands are %s before and %s after it" % (ms / 1000, shares(features[row - 1]), shares(features[row])))


if __name__ == "__main__":
    main(sys.argv[1:])
