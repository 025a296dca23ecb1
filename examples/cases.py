#!/usr/bin/env python3
"""Runs ./report on inputs at each boundary of document 01 and compares with what the paper says: what it writes, its status, and what it says in words.
Run anywhere: python3 examples/cases.py

Needs the standard library alone. The last line is 'N cases, 0 wrong'."""
import atexit
import contextlib
import fcntl
import os
import platform
import pty
import re
import shutil
import signal
import struct
import subprocess
import sys
import tempfile
import termios
import time

HERE = os.path.dirname(os.path.abspath(__file__))
REPORT = os.path.join(HERE, "..", "report")
PROGRAM = os.path.join(HERE, "..", "crates", "report_paper", "out", "report_paper")
LONG = os.path.join(HERE, "..", "crates", "report_long")
NOTHING = "onsets none\nlag none\ncandidates none\nbeats none\ndownbeats none\nstability none\n"
PAPER = NOTHING.replace("onsets none", "onsets 2")


def text_of(n, b):
    return b"{'descr': '<f4', 'fortran_order': False, 'shape': (%s, %s), }" % (str(n).encode(), str(b).encode())


def header(n, b, spaces=3, magic=b"\x93NUMPY\x01\x00", end=b"\n", text=None):
    body = (text_of(n, b) if text is None else text) + b" " * spaces + end
    return magic + struct.pack("<H", len(body)) + body


def floats(*xs):
    return struct.pack("<%df" % len(xs), *xs)


def words(*xs):
    return struct.pack("<%dI" % len(xs), *xs)


def refused(number):
    return "refused %d\n" % number


def kept(path, mode="rb"):
    with open(path, mode) as f:
        return f.read()


paper = header(4, 1) + floats(0, 0, 5, 0)
cases = [("the paper's example", paper, PAPER)]

# 5: the header is malformed, whatever follows; an input that ends within it is malformed too
for cut in range(len(header(4, 1))):
    cases.append(("cut after %d bytes" % cut, paper[:cut], refused(5)))
for name, bytes_ in [
    ("version 2.0", header(4, 1, magic=b"\x93NUMPY\x02\x00")),
    ("version 1.1", header(4, 1, magic=b"\x93NUMPY\x01\x01")),
    ("another magic", header(4, 1, magic=b"\x93NUMPX\x01\x00")),
    ("f8", header(4, 1, text=text_of(4, 1).replace(b"<f4", b"<f8"))),
    ("big-endian", header(4, 1, text=text_of(4, 1).replace(b"<f4", b">f4"))),
    ("Fortran order", header(4, 1, text=text_of(4, 1).replace(b"False", b"True"))),
    ("one dimension", header(4, 1, text=text_of(4, 1).replace(b"(4, 1)", b"(4,)"))),
    ("a needless zero in N", header("04", 1)),
    ("a needless zero in B", header(4, "01")),
    ("no N", header("", 1)),
    ("a sign", header("+4", 1)),
    ("a tab for a space", header(4, 1, end=b"\t\n")),
    ("no line feed", header(4, 1, end=b"")),
    ("a carriage return", header(4, 1, end=b"\r\n")),
    ("a byte behind the line feed", header(4, 1, end=b"\n ")),
    ("a header length of 0", b"\x93NUMPY\x01\x00\x00\x00"),
    ("a header length of 65,535 that ends early", b"\x93NUMPY\x01\x00\xff\xff" + text_of(4, 1) + b"\n"),
]:
    cases.append((name, bytes_ + floats(0, 0, 5, 0), refused(5)))

# any number of spaces
for spaces in (0, 1, 1000, 65535 - len(text_of(4, 1)) - 1):
    cases.append(("%d spaces" % spaces, header(4, 1, spaces) + floats(0, 0, 5, 0), PAPER))

# 1: shapes out of bounds, whatever the data are
for n, b in [(4, 0), (0, 0), (4, 4097), (0, 4097), (8001, 1), (8001, 0), (10**30, 1), (1, 10**30), (2**32, 1), (2**64, 1), (4, 2**64 + 1), (2**32 + 4, 1)]:
    cases.append(("shape (%d, %d)" % (n, b), header(n, b), refused(1)))
    cases.append(("shape (%d, %d), data" % (n, b), header(n, b) + words(0x7FC00000) + b"x", refused(1)))

# 2: too little or too much data, although a value is wrong too
nan = words(0x7FC00000)
for name, bytes_ in [
    ("no data", header(4, 1)),
    ("one byte short", paper[:-1]),
    ("one byte long", paper + b"\0"),
    ("one row short", paper[:-4]),
    ("one row long", paper + floats(1)),
    ("a byte behind no rows", header(0, 1) + b"\0"),
    ("a NaN and a byte short", header(2, 1) + nan + b"\0\0\0"),
    ("a NaN and a byte long", header(2, 1) + nan + floats(0) + b"\0"),
    ("100,000 bytes too many", paper + b"\0" * 100000),
]:
    cases.append((name, bytes_, refused(2)))

# 4: a value that isn't finite or is too large, in each row of three
for pattern in (0x7F800000, 0xFF800000, 0x7FC00000, 0x7F800001, 0xFFFFFFFF, 0x7E800001, 0xFE800001, 0x7F7FFFFF):
    for at in range(3):
        rows = [0, 0, 0]
        rows[at] = pattern
        cases.append(("%08x in row %d" % (pattern, at), header(3, 1) + words(*rows), refused(4)))

# 0: shapes and values at the bounds
for n, b in [(0, 1), (0, 4096), (1, 1), (2, 1), (1, 4096), (3, 4096), (8000, 1)]:
    cases.append(("zeros of shape (%d, %d)" % (n, b), header(n, b) + b"\0" * (n * b * 4), NOTHING))
cases.append(("2^126 and -2^126", header(4, 1) + words(0xFE800000, 0xFE800000, 0x7E800000, 0xFE800000), PAPER))
cases.append(("the least above zero", header(4, 1) + words(0, 0, 1, 0x80000000), NOTHING))
for at in (1, 4095):
    row = [0.0] * 4096
    row[at] = float("inf")
    cases.append(("infinity in bin %d" % at, header(1, 4096) + floats(*row), refused(4)))
for name, bytes_ in [("8,001 rows, all there", header(8001, 1) + bytes(8001 * 4)), ("4,097 bins, all there", header(2, 4097) + bytes(2 * 4097 * 4))]:
    cases.append((name, bytes_, refused(1)))
for name, text in [("no space after the comma", b"(4,1)"), ("a space more", b"( 4, 1)"), ("a space before the comma", b"(4 , 1)")]:
    cases.append((name, header(4, 1, text=text_of(4, 1).replace(b"(4, 1)", text)) + floats(0, 0, 5, 0), refused(5)))
cases.append(("ten thousand digits", header("1" * 10000, 1), refused(1)))
# as many reads as the largest array takes, and one whose reads end within a value
cases.append(("8,000 rows of 4,096 bins", header(8000, 4096) + bytes(8000 * 4096 * 4), NOTHING))
cases.append(("8,000 rows of 4,096 bins, a byte short", header(8000, 4096) + bytes(8000 * 4096 * 4 - 1), refused(2)))
click = ("clicks", kept(os.path.join(HERE, "click.npy")), kept(os.path.join(HERE, "click.txt"), "r"))
long = ("the long array", kept(os.path.join(LONG, "stdin")), kept(os.path.join(LONG, "stdout"), "r"))
cases += [click, long]
cases.append(("4,096 bins", header(4, 4096) + b"\0" * (2 * 16384) + floats(*[5.0] * 4096) + b"\0" * 16384, PAPER))



count = 0
wrong = 0


def check(name, fine, got=None):
    global count, wrong
    count += 1
    if not fine:
        wrong += 1
        print("WRONG:", name, "" if got is None else repr(got))


def status_of(expected):
    return 1 if expected.startswith("refused") else 0


def run(bytes_, pieces=None):
    child = subprocess.Popen([REPORT], stdin=subprocess.PIPE, stdout=subprocess.PIPE, stderr=subprocess.PIPE)
    try:
        step = pieces or max(len(bytes_), 1)
        for at in range(0, len(bytes_), step):
            child.stdin.write(bytes_[at : at + step])
            child.stdin.flush()
            if pieces:
                time.sleep(0.002)
    except BrokenPipeError:
        pass  # nothing is read past the byte that decides a refusal
    with contextlib.suppress(BrokenPipeError):
        child.stdin.close()
    out, said = child.stdout.read().decode(), child.stderr.read().decode()
    return out, child.wait(), said


def run_file(path, **more):
    ended = subprocess.run([REPORT, path], stdin=subprocess.DEVNULL, stdout=subprocess.PIPE, stderr=subprocess.PIPE, timeout=120, **more)
    return ended.stdout.decode(), ended.returncode, ended.stderr.decode()


room = tempfile.mkdtemp(prefix="report cases ")
atexit.register(shutil.rmtree, room, True)
held = os.path.join(room, "an array.npy")


def keep(bytes_):
    with open(held, "wb") as f:
        f.write(bytes_)


# ---- what is written, and the status: from a pipe, and of a file
for name, bytes_, expected in cases:
    keep(bytes_)
    for way, (out, status, said) in [("pipe", run(bytes_)), ("file", run_file(held))]:
        fine = out == expected and status == status_of(expected) and (said == "") == (status == 0)
        check("%s, %s" % (name, way), fine, (out[:80], status, said))
# short reads: the same bytes in pieces
for pieces in (1, 3, 7, 64):
    for name, bytes_, expected in [cases[0], ("a byte long", paper + b"\0", refused(2))]:
        check("%s in pieces of %d" % (name, pieces), run(bytes_, pieces)[:2] == (expected, status_of(expected)))
for pieces, (name, bytes_, expected) in [(61, click), (977, long), (65535, long)]:
    check("%s in pieces of %d" % (name, pieces), run(bytes_, pieces)[:2] == (expected, status_of(expected)))

# ---- a refusal is told at the byte that decides it, although the input goes on


def while_open(command, bytes_, seconds=10):
    """What a command says of an input that is not closed, and how it ends: it is killed where that takes longer."""
    child = subprocess.Popen(command, stdin=subprocess.PIPE, stdout=subprocess.PIPE, stderr=subprocess.DEVNULL)
    with contextlib.suppress(BrokenPipeError):
        child.stdin.write(bytes_)
        child.stdin.flush()
    try:
        child.wait(seconds)
    except subprocess.TimeoutExpired:
        child.kill()
    out = child.stdout.read().decode()
    with contextlib.suppress(BrokenPipeError):
        child.stdin.close()
    return out, child.wait()


decided = [(header(8001, 1), refused(1)), (header("04", 1), refused(5)), (b"x" * 10, refused(5))]
for start, expected in decided:
    check("the input goes on behind %r" % start[:10], while_open([REPORT], start) == (expected, 1))
    check("two million bytes behind %r" % start[:10], while_open([REPORT], start + bytes(1 << 21)) == (expected, 1))
check("two million bytes too many", run(paper + bytes(1 << 21))[:2] == (refused(2), 1))
if platform.machine() == "x86_64":
    # the program itself, which has no status; number 2 is decided by the first byte too many
    for start, expected in decided + [(paper + b"\0", refused(2))]:
        check("the program, which is not told the end of %r" % start[:10], while_open([PROGRAM], start) == (expected, 0))
    check("the program waits while its rows come", while_open([PROGRAM], paper, 1)[0] == "")
with open(held, "wb") as f:
    f.truncate(1 << 30)
began = time.monotonic()
check("a gigabyte of zeros", run_file(held)[:2] == (refused(5), 1) and time.monotonic() - began < 10)
check("zeros without end", run_file("/dev/zero")[:2] == (refused(5), 1))

# ---- the words


def said_of(bytes_):
    """What is said of a file, without its name, and of a pipe."""
    keep(bytes_)
    said, piped = run_file(held)[2], run(bytes_)[2]
    return said.replace("report: %s: " % held, "").rstrip("\n"), piped.replace("report: ", "", 1).rstrip("\n")


text = text_of(4, 1)
FINITE = "refused 4: a value that isn't finite or is larger than 2^126"
for name, bytes_, words_, piped in [
    ("8,001 rows", header(8001, 1), "refused 1: 8,001 rows, at most 8,000: save rows[:8000], or parts of the array", None),
    ("no bins", header(4, 0), "refused 1: no bins, at least 1", None),
    (
        "bins by frames",
        header(513, 9000),
        "refused 1: 9,000 bins, at most 4,096 (where these are bins by frames: save numpy.ascontiguousarray(rows.T))",
        None,
    ),
    ("short", header(100, 2) + bytes(412), "refused 2: 412 bytes of data, 800 expected (100 rows of 2 bins)", None),
    ("long", header(4, 1) + bytes(17), "refused 2: 17 bytes of data, 16 expected (4 rows of 1 bin)", None),
    ("nan", header(3, 2) + words(0, 0, 0, 0x7FC00000, 0, 0), FINITE + " (row 1, bin 1, counted from 0: nan)", ""),
    ("-inf", header(1, 9) + words(0, 0, 0, 0, 0, 0, 0, 0, 0xFF800000), FINITE + " (row 0, bin 8, counted from 0: -inf)", ""),
    ("above 2^126", header(3, 1) + words(0x7E800000, 0xFE800001, 0), FINITE + " (row 1, bin 0, counted from 0: -8.507e+37)", ""),
    ("the largest", header(1, 1) + words(0x7F7FFFFF), FINITE + " (row 0, bin 0, counted from 0: 3.403e+38)", ""),
    ("float64", header(4, 1, text=text.replace(b"<f4", b"<f8")), "refused 5: float64: save with .astype('<f4')", None),
    ("big-endian", header(4, 1, text=text.replace(b"<f4", b">f4")), "refused 5: big-endian float32: save with .astype('<f4')", None),
    ("int16", header(4, 1, text=text.replace(b"<f4", b"<i2")), "refused 5: int16: save with .astype('<f4')", None),
    (
        "complex",
        header(4, 1, text=text.replace(b"<f4", b"<c8")),
        "refused 5: complex64: save numpy.ascontiguousarray(numpy.abs(rows), '<f4')",
        None,
    ),
    ("Fortran order", header(4, 1, text=text.replace(b"False", b"True")), "refused 5: Fortran order: save numpy.ascontiguousarray(rows)", None),
    (
        "both",
        header(4, 1, text=text.replace(b"False", b"True").replace(b"<f4", b"<f8")),
        "refused 5: float64 in Fortran order: save numpy.ascontiguousarray(rows, '<f4')",
        None,
    ),
    ("one dimension", header(4, 1, text=text.replace(b"(4, 1)", b"(4,)")), "refused 5: a one-dimensional array, (4,): rows of bins are read", None),
    (
        "three dimensions",
        header(4, 1, text=text.replace(b"(4, 1)", b"(4, 1, 2)")),
        "refused 5: an array of 3 dimensions, (4, 1, 2): rows of bins are read",
        None,
    ),
    (
        "version 2.0",
        header(4, 1, magic=b"\x93NUMPY\x02\x00"),
        "refused 5: a version 2.0 header, and 1.0 is read: save the array again with numpy.save",
        None,
    ),
    ("no .npy file", b"RIFF\x24\0\0\0WAVE", 'refused 5: no .npy file: it begins with "RIFF$\\x00\\x00\\x00"', None),
    ("an archive", b"PK\x03\x04" + bytes(20), "refused 5: no .npy file but a zip archive, as an .npz file is: save one array with numpy.save", None),
    ("empty", b"", "refused 5: the input is empty", None),
    ("four bytes", b"\x93NUM", "refused 5: it ends within its header, after 4 bytes", None),
    ("half a text", header(4, 1)[:30], "refused 5: it ends within its header: 20 of %d bytes" % (len(header(4, 1)) - 10), None),
    (
        "another layout",
        header("04", 1),
        "refused 5: the header isn't written as numpy.save writes it: " + text_of("04", 1).decode(),
        None,
    ),
]:
    of_file, of_pipe = said_of(bytes_)
    check("the words of %s" % name, of_file == words_, of_file)
    # of a pipe the place of a value isn't known
    check("the words of %s, pipe" % name, of_pipe == (words_ if piped is None else FINITE + " (of a file, ./report FILE.npy also says which)"), of_pipe)
of_pipe = run(paper + bytes(1 << 21))[2]
check("the words of two million bytes too many", of_pipe == "report: refused 2: more data than the 16 bytes expected (4 rows of 1 bin)\n", of_pipe)
keep(paper + bytes(1))
with open(held, "rb") as f:
    ended = subprocess.run([REPORT], stdin=f, stdout=subprocess.PIPE, stderr=subprocess.PIPE)
check("the words of a file as input", ended.stderr == b"report: refused 2: 17 bytes of data, 16 expected (4 rows of 1 bin)\n", ended.stderr)
keep(b"before" + paper)
with open(held, "rb", buffering=0) as f:
    f.read(6)
    ended = subprocess.run([REPORT], stdin=f, stdout=subprocess.PIPE, stderr=subprocess.PIPE)
check("a file that is read from its middle", (ended.stdout.decode(), ended.returncode) == (PAPER, 0), ended)

# ---- output that is lost, and wrong use
keep(paper)
closed = os.pipe()
os.close(closed[0])
with open("/dev/full", "wb") as full:
    for name, out, words_ in [
        ("a full disk", full, b"report: the answer was not written whole: No space left on device\n"),
        ("a closed pipe", closed[1], b"report: the answer was not written whole: the pipe was closed\n"),
    ]:
        ended = subprocess.run([REPORT, held], stdout=out, stderr=subprocess.PIPE)
        check(name, (ended.returncode, ended.stderr) == (1, words_), ended)
        if platform.machine() == "x86_64" and out is full:
            with open(held, "rb") as f:
                ended = subprocess.run([PROGRAM], stdin=f, stdout=out, stderr=subprocess.PIPE)
            check("the program, " + name, ended.stderr == b"report: the answer was not written whole\n", ended)
os.close(closed[1])
ended = subprocess.run(["sh", "-c", 'exec "$0" "$1" >&-', REPORT, held], stderr=subprocess.PIPE)
check("no output", (ended.returncode, ended.stderr) == (1, b"report: standard output is closed: there is nowhere to write the answer\n"), ended)
ended = subprocess.run(["sh", "-c", 'exec "$0" <&-', REPORT], stdout=subprocess.PIPE, stderr=subprocess.PIPE)
check("no input", (ended.returncode, ended.stdout, ended.stderr) == (1, b"refused 5\n", b"report: refused 5: the input is empty\n"), ended)
for name, words_ in [
    (room, "report: %s is a folder; give the .npy file in it\n" % room),
    (held + "x", "report: there is no file %sx\n" % held),
    ("", "report: the file's name is empty\n"),
    ("-x", "report: no option -x; ./report --help says what there is\n"),
]:
    check("wrong use: %r" % name, run_file(name) == ("", 2, words_))

# ---- the first run, with an rt that only speaks
place = os.path.join(room, "a clone")
CRATE = os.path.join(os.path.realpath(place), "crates", "report_paper")
OUT = os.path.join(CRATE, "out")
LOG = os.path.join(OUT, "report.log")
os.makedirs(CRATE)
with open(os.path.join(CRATE, "stdin"), "wb") as f:
    f.write(paper)
with open(os.path.join(CRATE, "stdout"), "w") as f:
    f.write(PAPER)
os.mkdir(os.path.join(room, "bin"))
shutil.copy(REPORT, place)
with open(os.path.join(place, "crates.txt"), "w") as f:
    f.write("# level 0\nnumbers:\nfloats: numbers\nlags: numbers floats\nreport_paper: lags numbers io\nother: numbers\n")
feigned = os.path.join(room, "bin", "rt")


def proved(crate, now):
    words = "fn %s::any: proved\nlibrary below: modules loaded=5 checked=0\ncrate %s: modules loaded=7 checked=%d\nlogic=proved functions=1 sum=0\n"
    return words % (crate, crate, now)


SAYS = proved("numbers", 0) + "a note: x proved (y)\n" + proved("floats", 7) + proved("lags", 12)
BUILT = SAYS + proved("report_paper", 3) + "rt: running out/report_paper; to give it other input, run that file yourself\n"
BUILDS = 'mkdir -p out && cp "$BUILT" out/ && cat stdout'


def feign(says, then):
    with open(feigned, "w") as f:
        f.write("#!/bin/sh\n[ \"$*\" = run ] || exit 2\ncat >&2 <<'SAYS'\n%sSAYS\n%s\n" % (says, then))
    os.chmod(feigned, 0o755)
    shutil.rmtree(OUT, ignore_errors=True)


def first_run(**more):
    feigned_path = dict(os.environ, PATH=os.path.join(room, "bin") + os.pathsep + os.environ["PATH"], BUILT=os.path.abspath(PROGRAM))
    return subprocess.Popen([os.path.join(place, "report"), held], stdout=subprocess.PIPE, cwd="/", env=feigned_path, **more)


def at_once(said):
    # how long a crate took is measured
    return re.sub(r"proved, \d+ s\b", "proved, 0 s", said)


FIRST = "report: proving and building report_paper first: 4 crates, which take long once\n"
PROVED = ["1 of 4: numbers proved before", "2 of 4: floats proved, 0 s", "3 of 4: lags proved, 0 s", "4 of 4: report_paper proved, 0 s"]
LINES = ["report: " + line for line in PROVED]
feign(BUILT, BUILDS)
child = first_run(stderr=subprocess.PIPE)
out, said = (x.decode() for x in child.communicate())
check("progress", out == PAPER and child.returncode == 0 and at_once(said).startswith(FIRST + "\n".join(LINES) + "\nreport: proved and built, "), said)
check("what rt says is kept", kept(LOG, "r") == BUILT)
child = first_run(stderr=subprocess.PIPE)
check("the second run is silent", child.communicate() == (PAPER.encode(), b"") and child.returncode == 0)

# a terminal of thirty-eight columns: one line, whose parts are cut to it, with the time so far between them
master, slave = pty.openpty()
fcntl.ioctl(slave, termios.TIOCSWINSZ, struct.pack("HHHH", 24, 38, 0, 0))
feign(BUILT, BUILDS)
child = first_run(stderr=slave)
out = child.communicate()[0].decode()
os.close(slave)
seen = b""
with contextlib.suppress(OSError):
    while True:
        seen += os.read(master, 4096)
os.close(master)
moved = [at_once(line) for line in seen.decode().replace("\r\n", "\n").split("\n")[1].split("\r")]
cut = [line[:37].ljust(37) for line in LINES]
check("progress on a terminal", out == PAPER and [x for x in dict.fromkeys(moved) if x in cut] == cut and {len(x) for x in moved[1:]} == {37}, moved)

feign(proved("numbers", 9) + proved("floats", 0).replace("logic=proved functions=1 sum=0", "logic=not-proved"), "exit 1")
child = first_run(stderr=subprocess.PIPE)
out, said = (x.decode() for x in child.communicate())
refusal = "report: 1 of 4: numbers proved, 0 s\nreport: floats is not proved\n"
refusal += "report: the program could not be built (rt ended with status 1); %s says why\n" % LOG
check("a crate that isn't proved", (out, child.returncode, at_once(said)) == ("", 2, FIRST + refusal), said)


def alive(pid):
    try:
        return kept("/proc/%d/stat" % pid, "r").rsplit(")", 1)[1].split()[0] != "Z"
    except FileNotFoundError:
        return False


# rt's own crates run in the background, where a Ctrl-C doesn't reach them
for number, expected in [(signal.SIGINT, 130), (signal.SIGTERM, 143)]:
    feign(SAYS, "sleep 60 & echo $! >out/sleeper\nwait")
    child = first_run(stderr=subprocess.PIPE, start_new_session=True)
    sleeper = os.path.join(OUT, "sleeper")
    until = time.monotonic() + 20
    while time.monotonic() < until and not (os.path.exists(sleeper) and kept(sleeper, "r").strip()):
        time.sleep(0.05)
    pid = int(kept(sleeper, "r"))
    os.killpg(child.pid, number)
    said = child.communicate()[1].decode()
    until = time.monotonic() + 5
    while time.monotonic() < until and alive(pid):
        time.sleep(0.05)
    fine = child.returncode == expected and not alive(pid) and said.endswith("report: stopped; the next run goes on with the crates that are left\n")
    check("stopped by signal %d" % number, fine, (child.returncode, alive(pid), said))

feign(BUILT, "exit 0")
child = first_run(stderr=subprocess.PIPE)
said = child.communicate()[1].decode()
check("nothing was built", said.endswith("report: the program was not built; %s says why\n" % LOG) and child.returncode == 2, said)
feign(BUILT, 'mkdir -p out && cp "$BUILT" out/ && echo other')
child = first_run(stderr=subprocess.PIPE)
said = child.communicate()[1].decode()
check("another answer", said.endswith("report: the program was built, and doesn't write what crates/report_paper/stdout has\n") and child.returncode == 2, said)
feign(BUILT, "exit 0")
with open(OUT, "w"):
    pass
child = first_run(stderr=subprocess.PIPE)
said = child.communicate()[1].decode()
check("nowhere to build", "cannot be written: copy the folder to a place where you may write" in said and child.returncode == 2, said)

print("%d cases, %d wrong" % (count, wrong))
sys.exit(1 if wrong else 0)
