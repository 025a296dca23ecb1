#!/usr/bin/env python3
"""Makes the arrays of this folder, with the standard library alone. Run it here: python3 make.py

paper.npy  four rows of one bin, 0, 0, 5, 0: the example of document 01
click.npy  800 rows of two bins: a click every 94 frames (119.7 beats a minute), every fourth twice as loud, over a faint floor
the long   4,000 rows of twelve bins: such clicks that decay faster in higher bins, over noise. With a header of 129 bytes a read of 65,536 bytes ends
           within a value. It is made in ../crates/report_long/stdin

What the program says of NAME.npy is in NAME.txt, of the last in ../crates/report_long/stdout."""
import struct


def save(name, rows, more=0):
    """Writes rows of equal length as a .npy 1.0 file, as numpy.save does, with so many spaces more."""
    header = "{'descr': '<f4', 'fortran_order': False, 'shape': (%d, %d), }" % (len(rows), len(rows[0]))
    spaces = -(10 + len(header) + 1) % 64 + more
    text = header.encode() + b" " * spaces + b"\n"
    with open(name, "wb") as f:
        f.write(b"\x93NUMPY\x01\x00" + struct.pack("<H", len(text)) + text)
        for row in rows:
            f.write(struct.pack("<%df" % len(row), *row))


def click(t):
    since = (t - 20) % 94
    if t < 20 or since > 5:
        return [0.01, 0.0]
    loud = 2.0 if (t - 20) // 94 % 4 == 0 else 1.0
    return [loud * 0.5**since + 0.01, loud * 0.25**since]


def noisy(t):
    row = []
    for bin in range(12):
        noise = (t * 7919 + bin * 104729) * 2654435761 % 2**32 / 2**32
        since = (t - 20) % 94
        loud = 0.0 if t < 20 or since > 30 else (2.0 if (t - 20) // 94 % 4 == 0 else 1.0) * 0.9 ** (since * (bin + 1))
        row.append(loud + 0.05 * noise)
    return row


save("paper.npy", [[0.0], [0.0], [5.0], [0.0]])
save("click.npy", [click(t) for t in range(800)])
save("../crates/report_long/stdin", [noisy(t) for t in range(4000)], 1)
