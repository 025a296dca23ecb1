"""Tests of sections.py: what it says of the piece is stored in sections.txt, and the boundary is where the piece changes."""
import contextlib
import io
import pathlib
import tempfile
import unittest

try:
    import numpy as np
except ImportError:
    raise unittest.SkipTest("sections.py needs NumPy") from None

import piece
import sections

HERE = pathlib.Path(__file__).resolve().parent


def said(*words):
    out = io.StringIO()
    with contextlib.redirect_stdout(out):
        sections.main(list(words))
    return out.getvalue()


class Sections(unittest.TestCase):
    def test_the_piece(self):
        self.assertEqual(said(), (HERE / "sections.txt").read_text())
        samples = piece.piece().astype(np.float32)
        found = sections.ph.sections_of(sections.magnitudes_of(samples), samples=samples, rate=piece.RATE)
        self.assertEqual(found.rows.tolist(), [int(piece.CHANGE)])

    def test_a_file(self):
        with tempfile.TemporaryDirectory() as folder:
            path = pathlib.Path(folder, "song.npy")
            np.save(path, np.zeros(20 * piece.RATE, np.float32))
            self.assertEqual(said(str(path)), "858 rows of the transform, 20 feature rows\n1 section, confidence 0.000\n")


if __name__ == "__main__":
    unittest.main()
