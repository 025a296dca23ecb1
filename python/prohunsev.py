"""The rhythm of a track, proved: onset strength, tempo, beat grid, bars and sections, from magnitude rows or feature rows.

Every call is a thin door to a function that is proved to meet its contract for every input. All memory is lent: a slice is any buffer
of the right kind (an array.array, a memoryview, a NumPy array, ..), contiguous, and large enough to write into; nothing is copied.

    float64 values   array('d'), numpy.float64     envelopes, curves, features, times, work
    float32 values   array('f'), numpy.float32     magnitudes, samples
    uint32 frames    array('I'), numpy.uint32      lists of frames and rows, back links, gaps
    uint8 bytes      bytes, bytearray, numpy.uint8 files

A slice has one dimension. Rows may have two, and then the shape must be what the call is told: (rows, bins) magnitudes, (rows, 2049) of the
feature transform, (rows, 16) features, (rows, 17) similarities; new rows of a patch, and features and a similarity that are written, may be any
number of rows. A call that isn't told rows and bins takes them from the shape: analyse_magnitudes(magnitudes, rate=48000),
spectral_flux(magnitudes, flux=flux).

A call answers, or raises Refused with the number of the refusal and what it was refused for ("threshold: 4,095 slots lent, 4,096
needed"), and then nothing that was lent has changed. A buffer of another kind, one that isn't contiguous, a masked array, or an output that
can't be written raises TypeError; another shape, and an output that overlaps another slice, raises ValueError; a whole number that its C
type cannot hold raises OverflowError; and none of these writes anything. A call that lists answers how many entries it listed: they stand
first in the slice, and the slots behind them are unchanged. The calls of files, sections_of and track_of make what they answer; those with
_into behind their names don't.

Calls hold no lock while they compute: threads run at the same time, each with outputs of its own, and may read the same inputs. A call
that shares a slice with one of another thread that is still at work, where either writes it, raises ValueError. Only calls of this module
are seen: that nothing else, such as NumPy in another thread, changes a lent buffer meanwhile is the caller's to see to.
"""
import array
import contextlib
import ctypes
import itertools
import math
import operator
import os
import pathlib
import re
import site
import sys
import threading
import warnings
from typing import Any, Iterator, NamedTuple, Optional, Sequence, Tuple

__version__ = "0.2.0"

__all__ = [
    "Analysis", "BarBeat", "Buffers", "Candidate", "LagRange", "NO_LINK", "Patched", "PatchedFeatures", "Refused", "Room", "Sections",
    "Stability", "Structure", "Tempo", "TempoEstimate", "TempoOpts", "Track", "adaptive_threshold", "bar_beat_at", "beat_grid", "boundaries", "boundary_times",
    "cue_frames_room", "cues_room", "cues_to_labels", "cues_to_labels_into", "downbeats", "estimate", "feature_count", "feature_rows",
    "features_room", "frame_times", "label_frames_room",
    "labels_room", "labels_to_cues", "labels_to_cues_into", "lag_range", "mad_of", "median_of", "novelty", "patch_features", "patch_magnitudes",
    "pick_onsets", "read_cues", "read_cues_into", "read_labels", "read_labels_into", "read_tempo_track", "read_tempo_track_into", "room_of",
    "sections_of", "similarity", "similarity_room", "spectral_flux", "stability_of", "suppress_close_peaks", "tempo_gaps_room", "tempo_track_room",
    "threshold_room", "track_of", "write_cues", "write_cues_into", "write_labels", "write_labels_into", "write_tempo_track",
    "write_tempo_track_into",
]

# what beat_grid writes in `back` for a frame with no beat before it
NO_LINK = 4_294_967_295

# the most that calls take, widths of rows and the threshold's window: tools/header holds them, and the one above, to the source
_MOST_RATE = 192_000
_MOST_ROWS = 1_048_576
_MOST_BINS = 4_096
_MOST_FRAME = 1_048_575
_MOST_PERIOD = 45_000
_MOST_METER = 16
_MOST_TEMPO = 16_777_215
_MOST_FEATURE_ROWS = 50_000
_MOST_LISTED_ROW = 49_999
_MOST_FEATURE_LENGTH = 2_147_483_648
_MOST_MAGNITUDE = 85070591730234615865843651857942052864.0
_MOST_VALUE = 1427247692705959881058285969449495136382746624.0
_FEATURE_BINS = 2_049
_FEATURE_WIDTH = 16
_SIMILARITY_WIDTH = 17
_MEDIAN_WINDOW = 21
_DEFAULT_METER = 4

# bytes of a label whose seconds have nine digits, as the last frame's have at a rate of 1
_LONGEST_LABEL = 39

# anything with the buffer protocol, which has no type of its own before Python 3.12
Lent = Any


class Refused(Exception):
    """A call refused. `number` says why; of 1 to 4 it is the lowest that applies, and the calls of files have an order of their own, which
    they say. `call` is the call's name; `detail` names what was lent and what is taken, and is empty where nothing more is known than the number."""

    WHY = {
        1: "a number is out of bounds: sample rate 1 to 192,000, at most 1,048,576 rows or slots of 1 to 4,096 bins, period at most"
           " 45,000, meter 1 to 16, at most 50,000 feature rows of 1 to 2**31 samples, frames at most 1,048,575; or a patch starts past"
           " its rows, a median's list is empty, a peak list doesn't ascend or points past its curve, or a count of feature rows isn't that of"
           " the samples",
        2: "an input's length isn't rows times width, or a patch isn't whole rows or runs past the end",
        3: "an output or work slice has fewer slots than its formula, which the call's help says under Room, and docs/ROOM.md",
        4: "a value isn't finite or is too large: magnitudes up to 2**126, envelopes, curves, medians and features up to 2**150,"
           " similarities -1 to 1; or a magnitude of feature_rows is below 0",
        6: "a tempo track needs two beats at least, which ascend strictly",
        7: "from one beat to the next are more than 16,777,215 microseconds, the longest tempo of a track",
        8: "the file isn't of the shape that write_tempo_track writes: format 0, one track of Set Tempo events, division 96; or it has a"
           " tempo of 0",
        9: "a line isn't START TAB END TAB beat LF with two equal times of six decimals and no needless zero, or the chunk isn't a cue chunk"
           " as write_cues writes it",
        10: "a time at this rate, or an offset, is that of no frame from 0 to 1,048,575",
        11: "frames don't ascend strictly",
    }

    def __init__(self, call: str, number: int, detail: str = "") -> None:
        super().__init__(call, number, detail)
        self.call, self.number, self.detail = call, number, detail

    def __str__(self) -> str:
        return f"{self.call} refused with {self.number}: {self.detail or self.WHY.get(self.number, 'no such number')}"


class TempoOpts(NamedTuple):
    """The bounds of the tempo search in beats a minute, in either order, and the beats of a bar: TempoOpts(meter=3) is a waltz's. Where a call
    takes one, it takes a pair of bounds too, with the usual meter, or all three.

    None is an open bound: min_bpm=None goes down to 1, the least there is, as -math.inf and anything up to 1 do, max_bpm=None has no upper
    limit, as math.inf. No bound is refused. A NaN is not an open bound: it swaps the pair, as a lower bound above the upper one does, and then
    stands for 1 as the lower one, and for one beat a minute above the lower as the upper one; (math.nan, 300) means 300 to 301.

    The meter is 1 to 16. Every call that takes the options refuses another with number 1; the downbeats alone are chosen by it."""
    min_bpm: Optional[float] = 30.0
    max_bpm: Optional[float] = 300.0
    meter: int = _DEFAULT_METER


# a TempoOpts, or any pair of bounds, of which None is an open one, with or without the meter behind them
Bounds = Sequence[Optional[float]]


class LagRange(NamedTuple):
    """The lags, in frames, that the bounds of a search stand for; `lags` of them, both ends counted."""
    min_lag: int
    max_lag: int

    @property
    def lags(self) -> int:
        return self.max_lag - self.min_lag + 1


class Tempo(NamedTuple):
    """A tempo in beats a minute, and how clearly the envelope repeats at it, 0 to 1."""
    bpm: float
    clarity: float


class Candidate(NamedTuple):
    """A tempo that the envelope may be heard at: frames from beat to beat, and its clarity, 0 to 1."""
    lag: int
    salience: float


class TempoEstimate(NamedTuple):
    """The tempo, or None, and at most three candidates, the winner first."""
    tempo: Optional[Tempo]
    candidates: Tuple[Candidate, ...]


class Stability(NamedTuple):
    """How many of the track's windows keep its tempo; `fraction` is agreeing / windows."""
    fraction: float
    agreeing: int
    windows: int


class BarBeat(NamedTuple):
    """A place in the music, both counted from 1."""
    bar: int
    beat: int


class Sections(NamedTuple):
    """How many sections, how many boundaries are listed, and how far they stand out, 0 to 1."""
    sections: int
    count: int
    confidence: float


class Structure(NamedTuple):
    """What sections_of answers: how many sections, how far their boundaries stand out, 0 to 1, and of each boundary the feature row, as uint32
    values, and the time in milliseconds, as float64 values."""
    sections: int
    confidence: float
    rows: array.array
    ms: array.array


class Track(NamedTuple):
    """What track_of answers: the rhythm of a track and its sections."""
    rhythm: "Analysis"
    structure: Structure


class Patched(NamedTuple):
    """The slots that were repaired, as ranges; both are empty for an empty patch."""
    flux: range
    threshold: range


class PatchedFeatures(NamedTuple):
    """The slots that were repaired, as ranges; both are empty for an empty patch."""
    similarity: range
    novelty: range


# ---- the library


# the version of the library that this module is written for: major * 1,000,000 + minor * 1,000 + patch
_VERSION = 2_000
_REMEDY = "run tools/library in a clone of this module's source, which compiles it, or name another shared library in PROHUNSEV_LIBRARY"


def _load():
    """The shared library: PROHUNSEV_LIBRARY, or the first that is found beside this file, in its clone's lib/ (tools/library), where
    tools/callers leaves it, under this Python's prefix, under the user's, or where the loader looks. Another version is an ImportError."""
    here, given = pathlib.Path(__file__).resolve().parent, os.environ.get("PROHUNSEV_LIBRARY")
    major, minor = _VERSION // 1_000_000, _VERSION // 1_000 % 1_000
    # as tools/library names it: while the major is 0 another minor may have other parameters
    soname = f"libprohunsev.so.{major}" if major else f"libprohunsev.so.0.{minor}"
    if given:
        places = [pathlib.Path(given)]
    else:
        places = [here / "libprohunsev.so", here.parent / "lib/libprohunsev.so", here.parent / "target/native/libprohunsev.so",
                  pathlib.Path(sys.prefix, "lib", soname), pathlib.Path(site.getuserbase(), "lib", soname)]
    place = next((place for place in places if place.is_file()), None)
    if given and not place:
        raise ImportError(f"PROHUNSEV_LIBRARY names {given}, which is no file: {_REMEDY}")
    try:
        # a bare name of a file that was found would be looked for elsewhere
        library = ctypes.CDLL(str(place.resolve()) if place else soname)
    except OSError as error:
        if place:
            raise ImportError(f"{place} cannot be loaded: {error}; {_REMEDY}") from None
        raise ImportError(f"the proved functions are not compiled yet, or not where this module looks: {_REMEDY}. Looked for:"
                          f" {', '.join(map(str, places))}, and {soname} where the loader looks") from None
    try:
        version = library.ph_version
    except AttributeError:
        raise ImportError(f"{place or soname} has no ph_version, so it was made of older source than this module: {_REMEDY}") from None
    version.restype, version.argtypes = ctypes.c_uint32, []
    if version() != _VERSION:
        texts = [f"{v // 1_000_000}.{v // 1_000 % 1_000}.{v % 1_000}" for v in (version(), _VERSION)]
        raise ImportError(f"{place or soname} is version {texts[0]}, and this module is written for {texts[1]}: {_REMEDY}")
    return library


_library = _load()

# what each exported function takes, in the words of crates/capi/src
# ---- written by tools/header --write
_EXPORTED = {
    "ph_version": "",
    "ph_median_of": "values: &[f64], work: &mut [f64], median: &mut f64",
    "ph_mad_of": "values: &[f64], median: f64, work: &mut [f64], mad: &mut f64",
    "ph_spectral_flux": "magnitudes: &[f32], rows: usize, bins: usize, flux: &mut [f64]",
    "ph_adaptive_threshold": "flux: &[f64], threshold: &mut [f64], work: &mut [f64]",
    "ph_pick_onsets": "flux: &[f64], threshold: &[f64], rate: u32, frames: &mut [u32], count: &mut usize",
    "ph_suppress_close_peaks": "peaks: &[u32], curve: &[f64], gap: usize, frames: &mut [u32], count: &mut usize",
    "ph_frame_times": "frames: &[u32], rate: u32, ms: &mut [f64]",
    "ph_lag_range": "rate: u32, min_bpm: f64, max_bpm: f64, meter: usize, min_lag: &mut usize, max_lag: &mut usize",
    "ph_estimate": (
        "envelope: &[f64], onsets: usize, rate: u32, min_bpm: f64, max_bpm: f64, meter: usize, clarity_curve: &mut [f64], "
        "weight_curve: &mut [f64], work: &mut [f64], found: &mut u32, bpm: &mut f64, clarity: &mut f64, lags: &mut [usize; 3], "
        "saliences: &mut [f64; 3], count: &mut usize"),
    "ph_stability_of": (
        "envelope: &[f64], rate: u32, min_bpm: f64, max_bpm: f64, meter: usize, whole_lag: usize, clarity_curve: &mut [f64], "
        "weight_curve: &mut [f64], work: &mut [f64], found: &mut u32, fraction: &mut f64, agreeing: &mut usize, windows: &mut usize"),
    "ph_beat_grid": "envelope: &[f64], period: usize, score: &mut [f64], back: &mut [u32], beats: &mut [u32], count: &mut usize",
    "ph_downbeats": "envelope: &[f64], beats: &[u32], meter: usize, frames: &mut [u32], count: &mut usize",
    "ph_bar_beat_at": "time: f64, downbeats: &[f64], beats: &[f64], found: &mut u32, bar: &mut usize, beat: &mut usize",
    "ph_feature_rows": "magnitudes: &[f32], rows: usize, samples: &[f32], rate: u32, length: u64, count: usize, features: &mut [f64]",
    "ph_similarity": "features: &[f64], rows: usize, similarity: &mut [f64]",
    "ph_novelty": "similarity: &[f64], rows: usize, novelty: &mut [f64]",
    "ph_boundaries": (
        "novelty: &[f64], length: u64, rate: u32, max_sections: usize, rows: &mut [u32], work: &mut [f64], sections: &mut usize, "
        "count: &mut usize, confidence: &mut f64"),
    "ph_boundary_times": "rows: &[u32], length: u64, rate: u32, ms: &mut [f64]",
    "ph_patch_magnitudes": (
        "magnitudes: &mut [f32], rows: usize, bins: usize, start: usize, new_rows: &[f32], flux: &mut [f64], threshold: &mut [f64], "
        "work: &mut [f64], flux_first: &mut usize, flux_past: &mut usize, threshold_first: &mut usize, threshold_past: &mut usize"),
    "ph_patch_features": (
        "features: &mut [f64], rows: usize, start: usize, new_rows: &[f64], similarity: &mut [f64], novelty: &mut [f64], "
        "similarity_first: &mut usize, similarity_past: &mut usize, novelty_first: &mut usize, novelty_past: &mut usize"),
    "ph_room_of": (
        "rows: usize, rate: u32, min_bpm: f64, max_bpm: f64, meter: usize, row_slots: &mut usize, lag_slots: &mut usize, "
        "work_slots: &mut usize"),
    "ph_analyse_envelope": (
        "envelope: &[f64], rate: u32, min_bpm: f64, max_bpm: f64, meter: usize, threshold: &mut [f64], onsets: &mut [u32], "
        "clarity_curve: &mut [f64], weight_curve: &mut [f64], window_clarity: &mut [f64], window_weight: &mut [f64], "
        "score: &mut [f64], back: &mut [u32], beats: &mut [u32], downbeats: &mut [u32], work: &mut [f64], onset_count: &mut usize, "
        "found: &mut u32, bpm: &mut f64, clarity: &mut f64, lags: &mut [usize; 3], saliences: &mut [f64; 3], count: &mut usize, "
        "steady: &mut u32, fraction: &mut f64, agreeing: &mut usize, windows: &mut usize, beat_count: &mut usize, "
        "downbeat_count: &mut usize"),
    "ph_analyse_magnitudes": (
        "magnitudes: &[f32], rows: usize, bins: usize, rate: u32, min_bpm: f64, max_bpm: f64, meter: usize, flux: &mut [f64], "
        "threshold: &mut [f64], onsets: &mut [u32], clarity_curve: &mut [f64], weight_curve: &mut [f64], window_clarity: &mut [f64], "
        "window_weight: &mut [f64], score: &mut [f64], back: &mut [u32], beats: &mut [u32], downbeats: &mut [u32], work: &mut [f64], "
        "onset_count: &mut usize, found: &mut u32, bpm: &mut f64, clarity: &mut f64, lags: &mut [usize; 3], saliences: &mut [f64; 3], "
        "count: &mut usize, steady: &mut u32, fraction: &mut f64, agreeing: &mut usize, windows: &mut usize, beat_count: &mut usize, "
        "downbeat_count: &mut usize"),
    "ph_write_tempo_track": "beats: &[u32], rate: u32, file: &mut [u8], count: &mut usize",
    "ph_read_tempo_track": "file: &[u8], gaps: &mut [u32], count: &mut usize",
    "ph_labels_room": "frames: &[u32], rate: u32, count: &mut usize",
    "ph_write_labels": "frames: &[u32], rate: u32, text: &mut [u8], count: &mut usize",
    "ph_read_labels": "text: &[u8], rate: u32, frames: &mut [u32], count: &mut usize",
    "ph_write_cues": "frames: &[u32], chunk: &mut [u8], count: &mut usize",
    "ph_read_cues": "chunk: &[u8], frames: &mut [u32], count: &mut usize",
    "ph_labels_to_cues": "text: &[u8], rate: u32, chunk: &mut [u8], count: &mut usize",
    "ph_cues_to_labels": "chunk: &[u8], rate: u32, text: &mut [u8], count: &mut usize",
}
# ---- up to here

_TYPES = {"u8": ctypes.c_uint8, "f32": ctypes.c_float, "f64": ctypes.c_double, "u32": ctypes.c_uint32, "u64": ctypes.c_uint64, "usize": ctypes.c_size_t}


def _argument(kind):
    """The C types of one parameter: a slice is a pointer and a length, a lent number a pointer, and so many of them are an array."""
    lent, slice_, slot, many = re.fullmatch(r"(&(?:mut )?)?(\[)?(\w+)(?:; (\d+))?\]?", kind).groups()
    if many:
        return [_TYPES[slot] * int(many)]
    return ([ctypes.POINTER(_TYPES[slot])] if lent else [_TYPES[slot]]) + ([ctypes.c_size_t] if slice_ else [])


def _declare():
    """Tells ctypes what each function takes, so that a word of another type is an error and not a call."""
    for name, words in _EXPORTED.items():
        try:
            function = getattr(_library, name)
        except AttributeError:
            raise ImportError(f"{_library._name} has no {name}: {_REMEDY}") from None
        kinds = re.findall(r"\w+: ([^,]+)", words)
        function.restype, function.argtypes = ctypes.c_uint32, [word for kind in kinds for word in _argument(kind)]


_declare()


# ---- lending: a buffer's address and length, taken as the C interface of CPython gives them


class _View(ctypes.Structure):
    # Py_buffer, as CPython declares it
    _fields_ = [
        ("buf", ctypes.c_void_p), ("obj", ctypes.c_void_p), ("len", ctypes.c_ssize_t), ("itemsize", ctypes.c_ssize_t),
        ("readonly", ctypes.c_int), ("ndim", ctypes.c_int), ("format", ctypes.c_char_p), ("shape", ctypes.POINTER(ctypes.c_ssize_t)),
        ("strides", ctypes.c_void_p), ("suboffsets", ctypes.c_void_p), ("internal", ctypes.c_void_p),
    ]


_get_buffer = ctypes.pythonapi.PyObject_GetBuffer
_get_buffer.argtypes = [ctypes.py_object, ctypes.POINTER(_View), ctypes.c_int]
_get_buffer.restype = ctypes.c_int
_release = ctypes.pythonapi.PyBuffer_Release
_release.argtypes = [ctypes.POINTER(_View)]
_release.restype = None

_WRITABLE, _FORMAT, _C_CONTIGUOUS = 0x1, 0x4, 0x38
_NATIVE_ORDER = "@=<" if sys.byteorder == "little" else "@=>!"
# where an empty slice points: an address of its own, aligned and not null
_nowhere = ctypes.c_double()


class _Slice:
    """An argument that is lent as a slice: its name for messages, the buffer, the kind of its values, whether it is written, and for rows
    how many there are and how wide, None for any."""

    __slots__ = ("name", "lent", "kind", "codes", "size", "written", "table", "shape", "slots")

    def __init__(self, name, lent, kind, written, *table):
        self.name, self.lent, self.written, self.table = name, lent, written, table
        self.kind, self.codes, self.size = kind
        self.shape, self.slots = (), 0  # once it is taken

    def take(self, call):
        """A view of the buffer, which holds it in place until it is released, or a TypeError or ValueError."""
        want = f"{call}: {self.name} must be a contiguous buffer of {self.kind} values{' to write into' if self.written else ''}"
        view = _View()
        # () where numpy.ma isn't loaded: no class
        if isinstance(self.lent, getattr(sys.modules.get("numpy.ma"), "MaskedArray", ())):
            raise TypeError(f"{want}, not a masked array, whose mask would be ignored: lend what its filled() gives")
        try:
            _get_buffer(self.lent, view, _C_CONTIGUOUS | _FORMAT | (_WRITABLE if self.written else 0))
        except (TypeError, ValueError, BufferError) as error:
            instead = self.instead() if "contiguous" in str(error) else ""
            raise TypeError(f"{want}, not {type(self.lent).__name__}: {error}{instead}") from None
        code = (view.format or b"B").decode("ascii", "replace")
        plain = code[1:] if code[:1] in _NATIVE_ORDER else code
        if view.itemsize != self.size or plain not in self.codes:
            _release(view)
            instead = f": lend {self.name}.astype('{self.kind}')" if hasattr(self.lent, "astype") and not self.written else ""
            raise TypeError(f"{want}, not one of format {code!r} with {view.itemsize} bytes each{instead}")
        if view.len and view.buf % self.size:
            _release(view)
            raise TypeError(f"{want}, aligned to {self.size} bytes")
        shape = tuple(view.shape[:view.ndim])
        if len(shape) != 1 and not self.fits(shape):
            _release(view)
            which = ", which is bins by frames" if self.kind == "float32" and self.fits(shape[::-1]) else ""
            raise ValueError(f"{call}: {self.name} must have {self.told(shape)}, not the shape {shape}{which}")
        self.shape, self.slots = shape, view.len // self.size
        return view

    def instead(self):
        """What to lend of an array that isn't in C order; empty where only a copy would be, and this is written. One in Fortran order is in C
        order once it is turned, and that is no copy."""
        flags, shape = getattr(self.lent, "flags", None), tuple(getattr(self.lent, "shape", ()))
        fortran = getattr(flags, "f_contiguous", False)
        if flags is None or self.written and not fortran:
            return ""
        turned, copy = f"{self.name}.T" if fortran else f"numpy.ascontiguousarray({self.name}.T)", f"numpy.ascontiguousarray({self.name})"
        by_rows, by_bins = self.fits(shape), self.fits(shape[::-1])
        if self.name == "magnitudes" and by_rows:
            # lent with its own shape, told or not, it may be either; but more than 4,096 are no bins
            by_rows, by_bins = shape[1] <= _MOST_BINS, shape[0] <= _MOST_BINS
            if by_rows and by_bins:
                other = "" if self.written else f"; if it is rows by bins, {copy}"
                return f": if this array is bins by frames, as librosa's are, lend {turned}{other}"
        if by_bins and not by_rows:
            return f": lend {turned}, which is rows first"
        return "" if self.written else f": lend {copy}"

    def fits(self, shape):
        """Whether this is the shape of the rows."""
        return len(shape) == len(self.table) == 2 and all(told in (None, is_) for told, is_ in zip(self.table, shape))

    def told(self, shape):
        """What to lend instead."""
        if not self.table:
            return "one dimension"
        rows, width = self.table
        turned = f" (numpy.ascontiguousarray({self.name}.T) has it)" if self.fits(shape[::-1]) else ""
        return f"the shape ({'rows' if rows is None else rows}, {'bins' if width is None else width}), rows first{turned}, or one dimension"


_FLOAT64, _FLOAT32, _UINT32, _UINT8 = ("float64", ("d",), 8), ("float32", ("f",), 4), ("uint32", ("I", "L"), 4), ("uint8", ("B",), 1)
_SLOTS = {"float64": ctypes.c_double, "float32": ctypes.c_float, "uint32": ctypes.c_uint32, "uint8": ctypes.c_uint8}


def _reals(name, lent):
    return _Slice(name, lent, _FLOAT64, False)


def _reals_out(name, lent):
    return _Slice(name, lent, _FLOAT64, True)


def _frames(name, lent):
    return _Slice(name, lent, _UINT32, False)


def _frames_out(name, lent):
    return _Slice(name, lent, _UINT32, True)


def _bytes(name, lent):
    return _Slice(name, lent, _UINT8, False)


def _bytes_out(name, lent):
    return _Slice(name, lent, _UINT8, True)


def _count(lent, size):
    """How many values of so many bytes a buffer has; 0 of what is none, which the call then tells."""
    try:
        return memoryview(lent).nbytes // size
    except (TypeError, ValueError, BufferError):
        return 0


def _given(call, **words):
    """A TypeError that names a word of the call that is missing; those behind rows and bins have names, and so may be left out."""
    for name, word in words.items():
        if word is None:
            raise TypeError(f"{call}: {name} is missing")


def _shape(call, name, lent, wanted):
    """The shape of rows that are lent without their number: two dimensions, or an error that says what to do."""
    try:
        shape = memoryview(lent).shape
    except (TypeError, ValueError, BufferError) as error:
        raise TypeError(f"{call}: {name} must be a contiguous buffer, not {type(lent).__name__}: {error}") from None
    if len(shape) != 2:
        raise ValueError(f"{call}: {name} has the shape {shape}, so say {wanted}, or lend an array of two dimensions, rows first")
    return shape


def _in_c_order(lent):
    """Whether this is a buffer in C order; any other is refused once it is taken."""
    try:
        return memoryview(lent).c_contiguous
    except (TypeError, ValueError, BufferError):
        return False


# bins of the usual transforms: half their length, and one
_BINS_OF_TRANSFORMS = (257, 513, 1_025, 2_049)


def _magnitudes(call, magnitudes, rows, bins, written=False):
    """The three parts that magnitudes are; rows and bins as given, or those of the shape."""
    if (rows is None) != (bins is None):
        raise TypeError(f"{call}: rows and bins go together: say both, or lend an array of two dimensions, say neither, and name what"
                        " follows (rate=48000)")
    told = rows is not None
    if not told:
        rows, bins = _shape(call, "magnitudes", magnitudes, "rows and bins")
    rows, bins = _size("rows", rows, (0, _MOST_ROWS)), _size("bins", bins)
    unlike = rows.value in _BINS_OF_TRANSFORMS and bins.value not in _BINS_OF_TRANSFORMS and 1 <= bins.value <= _MOST_BINS
    if unlike and not written and _in_c_order(magnitudes):
        # answered as it is lent: a short track may have as many rows
        warnings.warn(f"{call}: {rows.value} rows of {bins.value} bins: if this array is bins by frames, as librosa's are, lend"
                      " numpy.ascontiguousarray(magnitudes.T)", stacklevel=3)
    table = (rows.value, bins.value) if told else (None, None)
    return _Slice("magnitudes", magnitudes, _FLOAT32, written, *table), rows, bins


def _features(call, name, lent, rows, width, written=False):
    """The two parts that features, or their similarity, are; rows as given, or those of the shape."""
    told = rows is not None
    rows = _size("rows", rows if told else _shape(call, name, lent, "rows")[0], (0, _MOST_FEATURE_ROWS))
    return _Slice(name, lent, _FLOAT64, written, rows.value if told else None, width), rows


def _feature_magnitudes(call, magnitudes, rows):
    """The two parts that rows of the feature transform are; rows as given, or those of the shape."""
    told = rows is not None
    rows = _size("rows", rows if told else _shape(call, "magnitudes", magnitudes, "rows")[0], (0, _MOST_ROWS))
    return _Slice("magnitudes", magnitudes, _FLOAT32, False, rows.value if told else None, _FEATURE_BINS), rows


# the least and the greatest that calls take, of numbers that mean the same in every call
_TAKEN = {"rate": (1, _MOST_RATE), "bins": (1, _MOST_BINS), "period": (0, _MOST_PERIOD), "whole_lag": (0, _MOST_PERIOD),
          "meter": (1, _MOST_METER), "length": (1, _MOST_FEATURE_LENGTH)}


def _whole(name, number, kind, taken=None):
    """A whole number in its C type; ctypes alone would cut one that doesn't fit."""
    try:
        number, most = operator.index(number), 2 ** (8 * ctypes.sizeof(kind)) - 1
    except TypeError:
        raise TypeError(f"{name} must be a whole number, not {type(number).__name__}") from None
    if not 0 <= number <= most:
        least, most = taken or _TAKEN.get(name, (0, most))
        raise OverflowError(f"{name} is {number:,}, outside {least:,} to {most:,}")
    return _named(name, kind(number))


def _named(name, number):
    """The same number, with its name: what a refusal tells."""
    number.name = name
    return number


def _real(name, number):
    try:
        return _named(name, ctypes.c_double(number))
    except TypeError:
        raise TypeError(f"{name} must be a real number, not {type(number).__name__}") from None
    except OverflowError:
        raise OverflowError(f"{name} is too large for a float64") from None


def _options(opts):
    """The options of a tempo search in the record's order: a TempoOpts, or a pair of bounds, of which None is an open one, with or without the
    meter."""
    try:
        first, second, *meter = opts
        meter, = meter or (_DEFAULT_METER,)
    except (TypeError, ValueError):
        raise TypeError(f"opts must be a TempoOpts, or a pair of bounds with or without a meter, not {opts!r}") from None
    low, high = -math.inf if first is None else first, math.inf if second is None else second
    return _real("min_bpm", low), _real("max_bpm", high), _meter(meter)


def _written(n):
    """The options of a refused call, as one may write them."""
    def one(bound, open_):
        return "None" if bound == open_ else str(bound) if math.isfinite(bound) else f"float('{bound}')"
    meter = "" if n.meter == _DEFAULT_METER else f", {n.meter}"
    return f"({one(n.min_bpm, -math.inf)}, {one(n.max_bpm, math.inf)}{meter})"


def _size(name, number, taken=None):
    return _whole(name, number, ctypes.c_size_t, taken)


def _small(name, number):
    return _whole(name, number, ctypes.c_uint32)


def _meter(meter):
    """Beats of a bar; True, which Python takes for 1, would be a slip for some other word."""
    if isinstance(meter, bool):
        raise TypeError("meter must be a whole number, not bool")
    return _size("meter", meter)


# what calls have been lent that are still at work, each by the id of its list; ctypes lets other threads run meanwhile
_flying, _gate = {}, threading.RLock()


def _forked():
    """In a forked child only the thread that forked lives on: no call is at work."""
    global _gate
    _gate = threading.RLock()
    _flying.clear()


if hasattr(os, "register_at_fork"):
    os.register_at_fork(after_in_child=_forked)


def _apart(call, lent, others=None):
    """Raises a ValueError where a slice that is written overlaps another, of this call or of `others`, what another call was lent: the
    proofs hold of slices that don't, and that nobody else writes."""
    for slice_, view in lent:
        for other, seen in lent if others is None else others:
            if (slice_.written or others and other.written) and slice_ is not other and view.len and seen.len:
                if view.buf < seen.buf + seen.len and seen.buf < view.buf + view.len:
                    raise ValueError(f"{call}: {slice_.name} overlaps {other.name}{' of a call in another thread' if others else ''}")


def _call(call, *parts, of=None):
    """Calls the exported function of this name, or of the one that is told: slices as pointer and length, other parts as they are."""
    lent, words, of = [], [], of or call
    try:
        for part in parts:
            if isinstance(part, _Slice):
                view = part.take(call)
                lent.append((part, view))
                words.append(ctypes.byref(_SLOTS[part.kind].from_address(view.buf if view.len else ctypes.addressof(_nowhere))))
                words.append(view.len // part.size)
            else:
                words.append(part)
        _apart(call, lent)
        function = getattr(_library, "ph_" + of)
        with _gate:
            for others in list(_flying.values()):
                _apart(call, lent, others)
            _flying[id(lent)] = lent
        number = function(*words)
        detail = _why(of, number, parts, lent) if number else ""
    finally:
        with _gate:
            _flying.pop(id(lent), None)
        for _, view in lent:
            _release(view)
    if number:
        raise Refused(call, number, detail)


# ---- why a call refused: looked for in what it was lent, once it has. The number is the proved call's; these only explain it.


class _Numbers:
    """What a refused call was lent: its numbers, and of its slices the slots, by name."""

    def __init__(self, parts, lent):
        for part in parts:
            if hasattr(part, "name") and not isinstance(part, _Slice):
                setattr(self, part.name, part.value)
        self.parts = {part.name: (part, view) for part, view in lent}
        for name, (part, _) in self.parts.items():
            setattr(self, name, part.slots)

    @property
    def lags(self):
        return lag_range(self.rate, (self.min_bpm, self.max_bpm)).lags

    def of(self, name, slots=None):
        """The first so many values of a slice, as they lie."""
        part, view = self.parts[name]
        slots = part.slots if slots is None else min(slots, part.slots)
        return (_SLOTS[part.kind] * slots).from_address(view.buf) if slots else ()


def _many(count, thing):
    return f"{count:,} {thing}{'' if count == 1 else 's'}"


def _why(call, number, parts, lent):
    """What of all that was lent the number stands for: the first of the call's own list that fits; empty where none does."""
    try:
        numbers = _Numbers(parts, lent)
        return next(filter(None, (look(numbers) for of, look in _TAKES.get(call, ()) if of == number)), "")
    except Exception:  # an explanation that fails must not hide the refusal
        return ""


def _number(name, least, most):
    def look(n):
        top, number = (getattr(n, most) if isinstance(most, str) else most), getattr(n, name)
        if least <= number <= top:
            return ""
        told = f"{name} {number:,}, {least:,} to {top:,}"
        # an array of two dimensions whose second is the frames
        two = name == "bins" and "magnitudes" in n.parts and len(n.parts["magnitudes"][0].shape) == 2
        turned = two and 1 <= n.rows <= _MOST_BINS < n.bins
        return told + ("; if this array is bins by frames, lend numpy.ascontiguousarray(magnitudes.T)" if turned else "")
    return 1, look


def _at_most(name, most):
    return 1, lambda n: f"{name}: {_many(getattr(n, name), 'slot')} lent, at most {most:,}" if getattr(n, name) > most else ""


def _some(name):
    return 1, lambda n: "" if getattr(n, name) else f"{name}: no value lent, at least one needed"


def _entries(name, most):
    def look(n):
        at, entry = next(((at, entry) for at, entry in enumerate(n.of(name)) if entry > most), (0, 0))
        return f"{name}[{at}] is {entry:,}, at most {most:,}" if entry else ""
    return 1, look


def _stretches(n):
    needed = feature_count(n.samples, n.length)
    return "" if n.count == needed else f"count {n.count:,}, {needed:,} needed: {_many(n.samples, 'sample')}, {n.length:,} a row"


def _peaks(name, curve):
    def look(n):
        before, past = -1, getattr(n, curve)
        for at, peak in enumerate(n.of(name)):
            if peak >= past:
                return f"{name}[{at}] is {peak:,}, past its curve of {_many(past, 'slot')}"
            if peak <= before:
                return f"{name}[{at}] is {peak:,} and the one before it {before:,}: a list of peaks ascends"
            before = peak
        return ""
    return 1, look


def _table(name, width):
    def look(n):
        wide = getattr(n, width) if isinstance(width, str) else width
        lent, needed = getattr(n, name), n.rows * wide
        return "" if lent == needed else f"{name}: {_many(lent, 'value')} lent, {needed:,} needed: {_many(n.rows, 'row')} of {wide:,}"
    return 2, look


def _new_rows(width):
    def look(n):
        wide = getattr(n, width) if isinstance(width, str) else width
        if n.new_rows % wide:
            return f"new_rows: {_many(n.new_rows, 'value')} lent, whole rows of {wide:,} needed"
        count, left = n.new_rows // wide, n.rows - n.start
        return "" if count <= left else f"new_rows: {_many(count, 'row')} lent, {left:,} of {n.rows:,} left from row {n.start:,} on"
    return 2, look


def _as_long(name, other):
    def look(n):
        lent, needed = getattr(n, name), getattr(n, other)
        return "" if lent == needed else f"{name}: {_many(lent, 'slot')} lent, {needed:,} needed, as many as {other} has"
    return 2, look


def _room(name, needed, whole=None):
    """Room by a formula of the numbers; `whole` is what to make where the slice is one of Buffers."""
    def look(n):
        lent, slots = getattr(n, name), needed(n)
        return "" if lent >= slots else f"{name}: {_many(lent, 'slot')} lent, {slots:,} needed{whole(n) if whole else ''}"
    return 3, look


def _first_outside(values, most, least=-math.inf):
    """The first place of a value that isn't finite, has a size above most or is below least, or None. A piece whose sizes sum up to no more than
    it holds none too large, which is soon seen; with NumPy, where it is loaded already, sooner."""
    numpy, step = sys.modules.get("numpy"), 65_536
    for begin in range(0, len(values), step):
        if numpy:
            # the ctypes array itself is the buffer
            count, kind = min(step, len(values) - begin), numpy.dtype(values._type_)
            piece = numpy.frombuffer(values, kind, count, begin * kind.itemsize)
            fine = (numpy.abs(piece) <= most) & (piece >= least)
            if not fine.all():
                return begin + int(fine.argmin())
        else:
            piece = values[begin:begin + step]
            if not sum(map(abs, piece)) <= most or min(piece) < least:
                for at, value in enumerate(piece):
                    if not (abs(value) <= most and value >= least):
                        return begin + at
    return None


_MAGNITUDE = _MOST_MAGNITUDE, "a value is finite and at most 2**126 in size"
_VALUE = _MOST_VALUE, "a value is finite and at most 2**150 in size"
_SIMILARITY = 1.0, "a similarity is -1 to 1"
_STRENGTH = _MOST_MAGNITUDE, "a magnitude is 0 to 2**126", 0.0
_SAMPLE = 3.4028234663852886e38, "a sample is finite"


def _values(name, taken=_VALUE, slots=None):
    def look(n):
        values = n.of(name, slots and slots(n))
        at = _first_outside(values, taken[0], *taken[2:])
        return "" if at is None else f"{name}[{at}] is {values[at]}: {taken[1]}"
    return 4, look


def _value(name):
    return 4, lambda n: "" if abs(getattr(n, name)) <= _VALUE[0] else f"{name} is {getattr(n, name)}: {_VALUE[1]}"


def _microseconds(frame, rate):
    # half up, as the calls have it
    return ((256 * frame + 512) * 2_000_000 + rate) // (2 * rate)


def _grid(name):
    def look(n):
        beats = n.of(name)
        if len(beats) < 2:
            return f"{name}: {_many(len(beats), 'beat')} lent, at least two needed"
        at = next((at for at in range(1, len(beats)) if beats[at] <= beats[at - 1]), 0)
        return f"{name}[{at}] is {beats[at]:,} and the one before it {beats[at - 1]:,}: beats ascend" if at else ""
    return 6, look


def _gaps(name):
    def look(n):
        times = [_microseconds(beat, n.rate) for beat in n.of(name)]
        at = next((at for at in range(1, len(times)) if times[at] - times[at - 1] > _MOST_TEMPO), 0)
        gap = times[at] - times[at - 1] if at else 0
        return f"{name}[{at}] is {gap:,} microseconds after the one before it, at most {_MOST_TEMPO:,}" if at else ""
    return 7, look


def _tempo_track(name):
    def look(n):
        file = bytes(n.of(name))
        count = tempo_gaps_room(len(file))
        if not count or len(file) != 26 + 7 * count:
            return f"{name}: {_many(len(file), 'byte')} lent, 26 and 7 for each gap needed, one at least"
        # None is any byte: of a tempo, or of a length that four bytes don't hold
        length = (len(file) - 22).to_bytes(4, "big") if len(file) - 22 < 2 ** 32 else [None] * 4
        head = [*b"MThd\0\0\0\6\0\0\0\1\0\x60MTrk", *length]
        event = [96, 255, 81, 3, None, None, None]
        shape = itertools.chain(head, [0], event[1:], itertools.chain.from_iterable(itertools.repeat(event, count - 1)), [96, 255, 47, 0])
        at, needed = next(((at, needed) for at, (is_, needed) in enumerate(zip(file, shape)) if needed not in (None, is_)), (None, None))
        if at is not None:
            return f"{name}[{at}] is {file[at]}, {needed} needed"
        event = next((k for k in range(count) if not any(file[26 + 7 * k:29 + 7 * k])), None)
        return "" if event is None else f"{name}: tempo {event + 1:,} of it is 0"
    return 8, look


def _ascending(name):
    def look(n):
        frames = n.of(name)
        at = next((at for at in range(1, len(frames)) if frames[at] <= frames[at - 1]), 0)
        return f"{name}[{at}] is {frames[at]:,} and the one before it {frames[at - 1]:,}: frames ascend" if at else ""
    return 11, look


_LABEL = re.compile(rb"((?:0|[1-9][0-9]*)\.[0-9]{6})\t\1\tbeat\n")
_DIGITS = re.compile(rb"[0-9]*")


def _misfit(text, at):
    """Of a line that begins here and isn't of the form: the first byte that is not, and what it should be."""
    digits = _DIGITS.match(text, at).group()
    if not digits:
        return at, "a digit"
    zero = digits[:1] == b"0"
    point = at + (1 if zero else len(digits))
    if text[point:point + 1] != b".":
        return point, "a point" if zero else "a digit or a point"
    decimals = len(_DIGITS.match(text, point + 1).group())
    if decimals < 6:
        return point + 1 + decimals, "a digit"
    past = point + 7
    for part, needed in ((b"\t", "a tab"), (text[at:past], "the start again"), (b"\t", "a tab"), (b"beat", "the word beat"), (b"\n", "a line feed")):
        for byte in part:
            if text[past:past + 1] != bytes([byte]):
                return past, needed
            past += 1
    return past, ""


def _frame_of(time, rate):
    """The one listed frame that has a time at a rate, or None. A time of more digits than the last frame's has none."""
    if len(time) > 20:
        return None
    time = int(time.replace(b".", b""))
    frame = max(0, -((1_024_000_000 + rate - 2 * rate * time) // 512_000_000))
    return frame if frame <= _MOST_FRAME and _microseconds(frame, rate) == time else None


def _label_bytes(frames, rate):
    return sum(21 + 2 * len(str(_microseconds(frame, rate) // 1_000_000)) for frame in frames)


def _labels(name):
    """A label track at a rate: its form, its times, and the order of its frames."""
    def form(n):
        text, at, line = bytes(n.of(name)), 0, 1
        while at < len(text):
            found = _LABEL.match(text, at)
            if not found:
                at, needed = _misfit(text, at)
                place = f"[{at}] is {text[at]}" if at < len(text) else " ends here"
                return f"{name}{place}, {needed} needed: line {line:,}"
            at, line = found.end(), line + 1
        return ""

    def frames(n):
        return [_frame_of(time, n.rate) for time in _LABEL.findall(bytes(n.of(name)))]

    def times(n):
        line = next((line for line, frame in enumerate(frames(n), 1) if frame is None), 0)
        return f"{name}: the time of line {line:,} is that of no frame up to {_MOST_FRAME:,} at rate {n.rate:,}" if line else ""
    return (9, form), (10, times), (11, lambda n: _backward(name, "line", frames(n)))


def _backward(name, part, frames):
    at = next((at for at in range(1, len(frames)) if frames[at] <= frames[at - 1]), 0)
    return f"{name}: {part} {at + 1:,} is frame {frames[at]:,} and the one before it {frames[at - 1]:,}: frames ascend" if at else ""


def _offsets(chunk):
    return [int.from_bytes(chunk[at:at + 4], "little") for at in range(32, len(chunk), 24)]


def _cues(name):
    """A cue chunk: its form, its offsets, and the order of its frames."""
    def form(n):
        chunk = bytes(n.of(name))
        count = cue_frames_room(len(chunk))
        if len(chunk) != cues_room(count):
            return f"{name}: {_many(len(chunk), 'byte')} lent, 12 and 24 for each point needed"

        def point(k):
            at = chunk[16 + 24 * k:20 + 24 * k]
            return (k + 1).to_bytes(4, "little") + at + b"data" + bytes(8) + at
        # a size that four bytes don't hold is never found
        if len(chunk) - 8 < 2 ** 32:
            shape = b"".join([b"cue ", (len(chunk) - 8).to_bytes(4, "little"), count.to_bytes(4, "little"), *map(point, range(count))])
            at = next((at for at, (is_, needed) in enumerate(zip(chunk, shape)) if is_ != needed), None)
            return "" if at is None else f"{name}[{at}] is {chunk[at]}, {shape[at]} needed"
        return ""

    def offsets(n):
        at, is_ = next(((at, is_) for at, is_ in enumerate(_offsets(bytes(n.of(name))), 1)
                        if is_ % 256 or not 512 <= is_ <= 256 * _MOST_FRAME + 512), (0, 0))
        return f"{name}: the offset of point {at:,} is {is_:,}, which is 256 t + 512 for no frame t up to {_MOST_FRAME:,}" if at else ""
    return (9, form), (10, offsets), (11, lambda n: _backward(name, "point", [offset // 256 - 2 for offset in _offsets(bytes(n.of(name)))]))


_RATE, _METER = _number("rate", *_TAKEN["rate"]), _number("meter", *_TAKEN["meter"])
_ROWS = (_number("rows", 0, _MOST_ROWS), _number("bins", *_TAKEN["bins"]), _table("magnitudes", "bins"))
_FEATURE_ROWS, _LENGTH = _number("rows", 0, _MOST_FEATURE_ROWS), _number("length", *_TAKEN["length"])
_FRAMES = _entries("frames", _MOST_FRAME), _ascending("frames")
_LAG_CURVES = tuple(_room(name, lambda n: n.lags) for name in ("clarity", "weight", "work"))


def _frames_of(name):
    return _at_most(name, _MOST_ROWS)


def _track(rows, input_, first):
    """The room of a whole track; `rows` is the name of its length."""
    def made(n):
        return f"; Buffers({getattr(n, rows)}, {n.rate}, {_written(n)}) has them"

    def of_rows(n):
        return getattr(n, rows)

    by_row = tuple(_room(name, of_rows, made) for name in first + ("threshold", "onsets", "score", "back", "beats", "downbeats"))
    by_lag = tuple(_room(name, lambda n: n.lags, made) for name in ("clarity", "weight", "window_clarity", "window_weight"))
    return (*input_, _RATE, _METER, *by_row, *by_lag, _room("work", lambda n: max(n.lags, threshold_room(of_rows(n))), made))


# what each call takes, in the order of its parameters, in the words of include/prohunsev.h; bar_beat_at refuses nothing
_TAKES = {
    "median_of": (_some("values"), _room("work", lambda n: n.values), _values("values")),
    "mad_of": (_some("values"), _room("work", lambda n: n.values), _values("values"), _value("median")),
    "spectral_flux": (*_ROWS, _room("flux", lambda n: n.rows), _values("magnitudes", _MAGNITUDE)),
    "adaptive_threshold": (_frames_of("flux"), _room("threshold", lambda n: n.flux), _room("work", lambda n: threshold_room(n.flux)),
                           _values("flux")),
    "pick_onsets": (_frames_of("flux"), _RATE, _as_long("threshold", "flux"), _room("frames", lambda n: n.flux), _values("flux"),
                    _values("threshold")),
    "suppress_close_peaks": (_frames_of("curve"), _peaks("peaks", "curve"), _room("frames", lambda n: n.peaks), _values("curve")),
    "frame_times": (_RATE, _entries("frames", _MOST_FRAME), _room("ms", lambda n: n.frames)),
    "lag_range": (_RATE, _METER),
    "estimate": (_frames_of("envelope"), _RATE, _METER, *_LAG_CURVES, _values("envelope")),
    "stability_of": (_frames_of("envelope"), _RATE, _METER, _number("whole_lag", *_TAKEN["whole_lag"]), *_LAG_CURVES, _values("envelope")),
    "beat_grid": (_frames_of("envelope"), _number("period", *_TAKEN["period"]),
                  *(_room(name, lambda n: n.envelope) for name in ("score", "back", "beats")), _values("envelope")),
    "downbeats": (_frames_of("envelope"), _entries("beats", _MOST_FRAME), _METER, _room("frames", lambda n: n.beats), _values("envelope")),
    "feature_rows": (_number("rows", 0, _MOST_ROWS), _RATE, _LENGTH, _number("count", 0, _MOST_FEATURE_ROWS), (1, _stretches),
                     _table("magnitudes", _FEATURE_BINS), _room("features", lambda n: features_room(n.count)), _values("magnitudes", _STRENGTH),
                     _values("samples", _SAMPLE)),
    "similarity": (_FEATURE_ROWS, _table("features", _FEATURE_WIDTH), _room("similarity", lambda n: similarity_room(n.rows)), _values("features")),
    "novelty": (_FEATURE_ROWS, _table("similarity", _SIMILARITY_WIDTH), _room("novelty", lambda n: n.rows), _values("similarity", _SIMILARITY)),
    "boundaries": (_at_most("novelty", _MOST_FEATURE_ROWS), _LENGTH, _RATE, _room("rows", lambda n: n.novelty), _room("work", lambda n: n.novelty),
                   _values("novelty")),
    "boundary_times": (_LENGTH, _RATE, _entries("rows", _MOST_LISTED_ROW), _room("ms", lambda n: n.rows)),
    "patch_magnitudes": (*_ROWS, _number("start", 0, "rows"), _new_rows("bins"), _room("flux", lambda n: n.rows),
                         _room("threshold", lambda n: n.rows), _room("work", lambda n: threshold_room(n.rows)), _values("magnitudes", _MAGNITUDE),
                         _values("new_rows", _MAGNITUDE), _values("flux", slots=lambda n: n.rows),
                         _values("threshold", slots=lambda n: n.rows)),
    "patch_features": (_FEATURE_ROWS, _table("features", _FEATURE_WIDTH), _number("start", 0, "rows"), _new_rows(_FEATURE_WIDTH),
                       _room("similarity", lambda n: similarity_room(n.rows)), _room("novelty", lambda n: n.rows), _values("features"),
                       _values("new_rows"), _values("similarity", _SIMILARITY, lambda n: similarity_room(n.rows)),
                       _values("novelty", slots=lambda n: n.rows)),
    "room_of": (_number("rows", 0, _MOST_ROWS), _RATE, _METER),
    "analyse_envelope": (*_track("envelope", (_frames_of("envelope"),), ()), _values("envelope")),
    "analyse_magnitudes": (*_track("rows", _ROWS, ("flux",)), _values("magnitudes", _MAGNITUDE)),
    "write_tempo_track": (_RATE, _entries("beats", _MOST_FRAME), _grid("beats"), _gaps("beats"), _room("file", lambda n: tempo_track_room(n.beats))),
    "read_tempo_track": (_tempo_track("file"), _room("gaps", lambda n: tempo_gaps_room(n.file))),
    "labels_room": (_RATE, *_FRAMES),
    "write_labels": (_RATE, *_FRAMES, _room("text", lambda n: _label_bytes(n.of("frames"), n.rate))),
    "read_labels": (_RATE, *_labels("text"), _room("frames", lambda n: bytes(n.of("text")).count(b"\n"))),
    "write_cues": (*_FRAMES, _room("chunk", lambda n: cues_room(n.frames))),
    "read_cues": (*_cues("chunk"), _room("frames", lambda n: cue_frames_room(n.chunk))),
    "labels_to_cues": (_RATE, *_labels("text"), _room("chunk", lambda n: cues_room(bytes(n.of("text")).count(b"\n")))),
    "cues_to_labels": (_RATE, *_cues("chunk"),
                       _room("text", lambda n: _label_bytes([offset // 256 - 2 for offset in _offsets(bytes(n.of("chunk")))], n.rate))),
}


def _listed(call, *parts, of=None):
    count = ctypes.c_size_t()
    _call(call, *parts, ctypes.byref(count), of=of)
    return count.value


# ---- medians


def median_of(values: Lent, work: Lent) -> float:
    """The median by IEEE total order, the upper middle of an even length. Room: work as long as values; it then holds anything."""
    median = ctypes.c_double()
    _call("median_of", _reals("values", values), _reals_out("work", work), ctypes.byref(median))
    return median.value


def mad_of(values: Lent, median: float, work: Lent) -> float:
    """The median of the values' distances from a given median. Room: work as long as values; it then holds anything."""
    mad = ctypes.c_double()
    _call("mad_of", _reals("values", values), _real("median", median), _reals_out("work", work), ctypes.byref(mad))
    return mad.value


# ---- onsets


def spectral_flux(magnitudes: Lent, rows: Optional[int] = None, bins: Optional[int] = None, flux: Lent = None) -> None:
    """Onset strength: flux[t] is how much float32 row t rises over row t - 1, summed over the bins. Room: rows slots of flux."""
    _given("spectral_flux", flux=flux)
    _call("spectral_flux", *_magnitudes("spectral_flux", magnitudes, rows, bins), _reals_out("flux", flux))


def threshold_room(slots: int) -> int:
    """Slots of work for the threshold of so many slots, also while patching."""
    return min(_MEDIAN_WINDOW, slots)


def adaptive_threshold(flux: Lent, threshold: Lent, work: Lent) -> None:
    """What a flux must exceed to be an onset. Room: threshold as long as flux, threshold_room(len(flux)) slots of work."""
    _call("adaptive_threshold", _reals("flux", flux), _reals_out("threshold", threshold), _reals_out("work", work))


def pick_onsets(flux: Lent, threshold: Lent, rate: int, frames: Lent) -> int:
    """Lists the frames of the onsets, ascending, and answers how many. The threshold is as long as flux. Room: frames as long as flux."""
    return _listed("pick_onsets", _reals("flux", flux), _reals("threshold", threshold), _small("rate", rate),
                   _frames_out("frames", frames))


def suppress_close_peaks(peaks: Lent, curve: Lent, gap: int, frames: Lent) -> int:
    """Lists the best peak of each group within gap of its best, and answers how many. Room: frames as long as peaks."""
    return _listed("suppress_close_peaks", _frames("peaks", peaks), _reals("curve", curve), _size("gap", gap),
                   _frames_out("frames", frames))


def frame_times(frames: Lent, rate: int, ms: Lent) -> None:
    """Writes the time of each frame's centre in milliseconds. Room: ms as long as frames."""
    _call("frame_times", _frames("frames", frames), _small("rate", rate), _reals_out("ms", ms))


# ---- tempo


def lag_range(rate: int, opts: Bounds = TempoOpts()) -> LagRange:
    """The lags that the bounds stand for; its `lags` is the room of each lag curve. Here, as in every call, a bound of None is open (TempoOpts),
    and a meter outside 1 to 16 is refused."""
    least, most = ctypes.c_size_t(), ctypes.c_size_t()
    _call("lag_range", _small("rate", rate), *_options(opts), ctypes.byref(least), ctypes.byref(most))
    return LagRange(least.value, most.value)


def estimate(envelope: Lent, onsets: int, rate: int, opts: Bounds = TempoOpts(), clarity: Lent = None, weight: Lent = None,
             work: Lent = None) -> TempoEstimate:
    """The tempo of an envelope with so many onsets, and its candidates.

    Room: lag_range(rate, opts).lags slots of each of the last three. Unless the envelope is too short or flat or has fewer than two
    onsets, clarity and weight then hold each lag's."""
    _given("estimate", clarity=clarity, weight=weight, work=work)
    found, bpm, clear, count = ctypes.c_uint32(), ctypes.c_double(), ctypes.c_double(), ctypes.c_size_t()
    lags, saliences = (ctypes.c_size_t * 3)(), (ctypes.c_double * 3)()
    _call("estimate", _reals("envelope", envelope), _size("onsets", onsets), _small("rate", rate), *_options(opts),
          _reals_out("clarity", clarity), _reals_out("weight", weight), _reals_out("work", work),
          ctypes.byref(found), ctypes.byref(bpm), ctypes.byref(clear), lags, saliences, ctypes.byref(count))
    tempo = Tempo(bpm.value, clear.value) if found.value else None
    return TempoEstimate(tempo, tuple(Candidate(lags[k], saliences[k]) for k in range(count.value)))


def stability_of(envelope: Lent, rate: int, opts: Bounds = TempoOpts(), whole_lag: Optional[int] = None, clarity: Lent = None,
                 weight: Lent = None, work: Lent = None) -> Optional[Stability]:
    """How steady the tempo of this lag is, or None. Room: lag_range(rate, opts).lags slots of each of the last three.

    All three then hold anything."""
    _given("stability_of", whole_lag=whole_lag, clarity=clarity, weight=weight, work=work)
    found, fraction, agreeing, windows = ctypes.c_uint32(), ctypes.c_double(), ctypes.c_size_t(), ctypes.c_size_t()
    _call("stability_of", _reals("envelope", envelope), _small("rate", rate), *_options(opts),
          _size("whole_lag", whole_lag), _reals_out("clarity", clarity), _reals_out("weight", weight), _reals_out("work", work),
          ctypes.byref(found), ctypes.byref(fraction), ctypes.byref(agreeing), ctypes.byref(windows))
    return Stability(fraction.value, agreeing.value, windows.value) if found.value else None


# ---- beats and bars


def beat_grid(envelope: Lent, period: int, score: Lent, back: Lent, beats: Lent) -> int:
    """Lists the beats, about period frames apart, and answers how many. Room: each of the last three as long as envelope."""
    return _listed("beat_grid", _reals("envelope", envelope), _size("period", period), _reals_out("score", score),
                   _frames_out("back", back), _frames_out("beats", beats))


def downbeats(envelope: Lent, beats: Lent, frames: Lent, meter: int = _DEFAULT_METER) -> int:
    """Lists the first beat of each bar of meter beats, from the loudest phase on, and answers how many: with 4 every fourth beat, with 3 a
    waltz's. Of TempoOpts it needs the meter alone. Of fewer beats than the meter, all negative, none is listed. Room: frames as long as
    beats."""
    return _listed("downbeats", _reals("envelope", envelope), _frames("beats", beats), _meter(meter), _frames_out("frames", frames))


def bar_beat_at(time: float, downbeats: Lent, beats: Lent) -> Optional[BarBeat]:
    """The bar and beat that a time lies in, or None before the first bar; all times in one unit. Refuses nothing."""
    found, bar, beat = ctypes.c_uint32(), ctypes.c_size_t(), ctypes.c_size_t()
    _call("bar_beat_at", _real("time", time), _reals("downbeats", downbeats), _reals("beats", beats), ctypes.byref(found),
          ctypes.byref(bar), ctypes.byref(beat))
    return BarBeat(bar.value, beat.value) if found.value else None


# ---- sections


def feature_count(samples: int, length: int) -> int:
    """How many feature rows so many samples have, of length samples each, the last perhaps shorter. A length of 0, which no call takes, is a
    ZeroDivisionError."""
    return -(-samples // length)


def features_room(rows: int) -> int:
    """Slots of features for so many feature rows."""
    return _FEATURE_WIDTH * rows


def feature_rows(magnitudes: Lent, rows: Optional[int] = None, samples: Lent = None, rate: Optional[int] = None, length: Optional[int] = None,
                 count: Optional[int] = None, features: Lent = None) -> None:
    """Sixteen values for each stretch of length samples: twelve pitch classes, C first, over the greatest of them, the parts of the energy below
    250 Hz, to 4,000 Hz and above, and the root mean square of the samples.

    The magnitudes are float32 rows of 2,049 bins, of a transform of 4,096 samples every 1,024, and the samples float32, of any size. A row belongs
    to the stretch that its centre's time falls in (exactly on a border, by rounding, perhaps to the one before), and past the last one to that.
    count is feature_count(len(samples), length), also where it isn't said. Room: features_room(count). Without samples nothing is written.
    Refused with 4 is also a magnitude below 0, which -0 isn't."""
    call = "feature_rows"
    _given(call, samples=samples, rate=rate, length=length, features=features)
    lent, long = _Slice("samples", samples, _FLOAT32, False), _whole("length", length, ctypes.c_uint64)
    if count is None:
        # of a length of 0, which is refused, any count will do
        count = feature_count(_count(samples, 4), max(long.value, 1))
    _call(call, *_feature_magnitudes(call, magnitudes, rows), lent, _small("rate", rate), long, _size("count", count, (0, _MOST_FEATURE_ROWS)),
          _Slice("features", features, _FLOAT64, True, None, _FEATURE_WIDTH))


def sections_of(magnitudes: Lent, rows: Optional[int] = None, samples: Lent = None, rate: Optional[int] = None, length: Optional[int] = None,
                max_sections: int = 12) -> Structure:
    """The sections of a track, from the rows of the feature transform and the samples that it was made of: feature_rows, similarity, novelty,
    boundaries and boundary_times, one after the other, in room that is made for them. A feature row is length samples long, one second of them
    where nothing is said. Refused as feature_rows refuses; what it writes, the others never refuse."""
    call = "sections_of"
    _given(call, samples=samples, rate=rate)
    hertz, length = _small("rate", rate), rate if length is None else length
    long = _whole("length", length, ctypes.c_uint64)
    count = feature_count(_count(samples, 4), max(long.value, 1))
    slots = min(count, _MOST_FEATURE_ROWS)

    def made(code, size, many):
        return array.array(code, bytes(size * many))
    features = made("d", 8, features_room(slots))
    _call(call, *_feature_magnitudes(call, magnitudes, rows), _Slice("samples", samples, _FLOAT32, False), hertz, long, _size("count", count),
          _reals_out("features", features), of="feature_rows")
    band, novel, listed = made("d", 8, similarity_room(slots)), made("d", 8, slots), made("I", 4, slots)
    similarity(features, count, band)
    novelty(band, count, novel)
    found = boundaries(novel, length, rate, max_sections, listed, made("d", 8, slots))
    listed = listed[:found.count]
    ms = made("d", 8, found.count)
    boundary_times(listed, length, rate, ms)
    return Structure(found.sections, found.confidence, listed, ms)


def similarity_room(rows: int) -> int:
    """Slots of similarity for so many feature rows."""
    return _SIMILARITY_WIDTH * rows


def similarity(features: Lent, rows: Optional[int] = None, similarity: Lent = None) -> None:
    """Slot 17 i + d: how alike rows i and i + d of 16 features are, -1 to 1. Room: similarity_room(rows)."""
    _given("similarity", similarity=similarity)
    _call("similarity", *_features("similarity", "features", features, rows, _FEATURE_WIDTH),
          _Slice("similarity", similarity, _FLOAT64, True, None, _SIMILARITY_WIDTH))


def novelty(similarity: Lent, rows: Optional[int] = None, novelty: Lent = None) -> None:
    """How new each row is. The similarity has exactly similarity_room(rows) slots. Room: rows slots of novelty."""
    _given("novelty", novelty=novelty)
    _call("novelty", *_features("novelty", "similarity", similarity, rows, _SIMILARITY_WIDTH), _reals_out("novelty", novelty))


def boundaries(novelty: Lent, length: int, rate: int, max_sections: int, rows: Lent, work: Lent) -> Sections:
    """Lists the rows at which sections begin; a row is length samples long. Room: rows and work as long as novelty."""
    sections, count, confidence = ctypes.c_size_t(), ctypes.c_size_t(), ctypes.c_double()
    _call("boundaries", _reals("novelty", novelty), _whole("length", length, ctypes.c_uint64), _small("rate", rate),
          _size("max_sections", max_sections), _frames_out("rows", rows), _reals_out("work", work), ctypes.byref(sections),
          ctypes.byref(count), ctypes.byref(confidence))
    return Sections(sections.value, count.value, confidence.value)


def boundary_times(rows: Lent, length: int, rate: int, ms: Lent) -> None:
    """Writes the time at which each row begins in milliseconds. Room: ms as long as rows."""
    _call("boundary_times", _frames("rows", rows), _whole("length", length, ctypes.c_uint64), _small("rate", rate), _reals_out("ms", ms))


# ---- repairs


def _patch(call, *parts):
    ends = [ctypes.c_size_t() for _ in range(4)]
    _call(call, *parts, *map(ctypes.byref, ends))
    first, past, second_first, second_past = (end.value for end in ends)
    return range(first, past), range(second_first, second_past)


def patch_magnitudes(magnitudes: Lent, rows: Optional[int] = None, bins: Optional[int] = None, start: Optional[int] = None,
                     new_rows: Lent = None, flux: Lent = None, threshold: Lent = None, work: Lent = None) -> Patched:
    """Replaces rows from start on and repairs flux and threshold, as a fresh analysis of the edited rows gives them.

    Room: rows slots of flux and of threshold, threshold_room(rows) slots of work, which then hold anything."""
    call = "patch_magnitudes"
    _given(call, start=start, new_rows=new_rows, flux=flux, threshold=threshold, work=work)
    lent, rows, bins = _magnitudes(call, magnitudes, rows, bins, True)
    return Patched(*_patch(call, lent, rows, bins, _size("start", start), _Slice("new_rows", new_rows, _FLOAT32, False, None, bins.value),
                           _reals_out("flux", flux), _reals_out("threshold", threshold), _reals_out("work", work)))


def patch_features(features: Lent, rows: Optional[int] = None, start: Optional[int] = None, new_rows: Lent = None,
                   similarity: Lent = None, novelty: Lent = None) -> PatchedFeatures:
    """Replaces feature rows from start on and repairs similarity and novelty, as a fresh analysis of the edited rows gives them.

    Room: similarity_room(rows) slots of similarity and rows slots of novelty."""
    call = "patch_features"
    _given(call, start=start, new_rows=new_rows, similarity=similarity, novelty=novelty)
    return PatchedFeatures(*_patch(call, *_features(call, "features", features, rows, _FEATURE_WIDTH, True), _size("start", start),
                                   _Slice("new_rows", new_rows, _FLOAT64, False, None, _FEATURE_WIDTH),
                                   _Slice("similarity", similarity, _FLOAT64, True, None, _SIMILARITY_WIDTH), _reals_out("novelty", novelty)))


# ---- files


def tempo_track_room(beats: int) -> int:
    """Bytes of the tempo track of so many beats: 26, and 7 for each gap."""
    return 26 + 7 * (max(beats, 1) - 1)


def tempo_gaps_room(size: int) -> int:
    """Slots of gaps for a tempo track of so many bytes: one for each gap."""
    return max(size - 26, 0) // 7


def write_tempo_track(beats: Lent, rate: int) -> bytes:
    """The beats as a Standard MIDI File of tempos, for a sequencer: format 0, one track, 96 ticks a beat, one Set Tempo for each gap between two
    beats. pathlib.Path("track.mid").write_bytes(..) makes a file of it.

    A beat's time is (256 t + 512) / rate seconds, exact, rounded half up to whole microseconds, and a tempo is the difference of two such
    times, so that roundings never add up. The file begins on the first beat and ends on the last. Refused, in this order, with 1 for the rate or
    a beat above 1,048,575, with 6 for fewer than two beats or beats that don't ascend strictly, with 7 for a gap above 16,777,215
    microseconds."""
    file = bytearray(tempo_track_room(_count(beats, 4)))
    count = _listed("write_tempo_track", _frames("beats", beats), _small("rate", rate), _bytes_out("file", file))
    return bytes(file[:count])


def write_tempo_track_into(beats: Lent, rate: int, file: Lent) -> int:
    """write_tempo_track into bytes that are lent. Answers how many bytes the file has; those behind it stay. Refused with 3, last of all, where
    they are fewer. Room: tempo_track_room(len(beats)) bytes of file."""
    return _listed("write_tempo_track_into", _frames("beats", beats), _small("rate", rate), _bytes_out("file", file), of="write_tempo_track")


def read_tempo_track(file: Lent) -> array.array:
    """The gaps of a tempo track that write_tempo_track wrote, in microseconds, as uint32 values: 60,000,000 / gap are beats a minute.

    It takes exactly that shape: a file that is read is, byte for byte, the file written for beats that are these gaps apart, where there are
    any. Refused with 8 is any other file, though a sequencer may read it, and a tempo of 0."""
    gaps = array.array("I", bytes(4 * tempo_gaps_room(_count(file, 1))))
    count = _listed("read_tempo_track", _bytes("file", file), _frames_out("gaps", gaps))
    return gaps[:count]


def read_tempo_track_into(file: Lent, gaps: Lent) -> int:
    """read_tempo_track into slots that are lent. Answers how many gaps there are; slots behind them stay. Refused with 3, last of all, where
    they are fewer. Room: tempo_gaps_room(len(file)) slots of gaps."""
    return _listed("read_tempo_track_into", _bytes("file", file), _frames_out("gaps", gaps), of="read_tempo_track")


def labels_room(frames: Lent, rate: int) -> int:
    """Bytes of the label track of these frames at this rate: 2 d + 21 for a frame whose time has d digits of seconds, which is 23 below ten
    seconds and 39 at most. Refused, in this order, with 1 for the rate or a frame above 1,048,575, with 11 for frames that don't ascend strictly."""
    return _listed("labels_room", _frames("frames", frames), _small("rate", rate))


def label_frames_room(size: int) -> int:
    """Slots of frames for a label track of so many bytes, at most: a line has 23 bytes or more."""
    return max(size, 0) // 23


def cues_room(frames: int) -> int:
    """Bytes of the cue chunk of so many frames: 12, and 24 for each."""
    return 12 + 24 * max(frames, 0)


def cue_frames_room(size: int) -> int:
    """Slots of frames for a cue chunk of so many bytes: one for each point."""
    return max(size - 12, 0) // 24


def write_labels(frames: Lent, rate: int) -> bytes:
    """The frames as an Audacity label track: for each a line of start, tab, end, tab, the word beat and a line feed.
    pathlib.Path("track.txt").write_bytes(..) makes a file of it, which Audacity imports.

    Both times are the frame's, (256 t + 512) / rate seconds, exact, rounded half up to six decimals, with no needless zero in front. No frames are
    no bytes. Refused, in this order, with 1 for the rate or a frame above 1,048,575, with 11 for frames that don't ascend strictly."""
    text = bytearray(_LONGEST_LABEL * _count(frames, 4))
    count = _listed("write_labels", _frames("frames", frames), _small("rate", rate), _bytes_out("text", text))
    return bytes(text[:count])


def write_labels_into(frames: Lent, rate: int, text: Lent) -> int:
    """write_labels into bytes that are lent. Answers how many bytes the text has; those behind it stay. Refused with 3, last of all, where they
    are fewer. Room: labels_room(frames, rate) bytes of text."""
    return _listed("write_labels_into", _frames("frames", frames), _small("rate", rate), _bytes_out("text", text), of="write_labels")


def read_labels(text: Lent, rate: int) -> array.array:
    """The frames of a label track that write_labels wrote at this rate, as uint32 values.

    It takes exactly that form: a text that is read is, byte for byte, the text written for these frames; any bytes may be lent. Refused, in this
    order and each of the whole text, with 1 for the rate, with 9 for a line of another form, though Audacity may read it, with 10 for a time that is
    no listed frame's at this rate, with 11 for frames that don't ascend strictly."""
    frames = array.array("I", bytes(4 * label_frames_room(_count(text, 1))))
    count = _listed("read_labels", _bytes("text", text), _small("rate", rate), _frames_out("frames", frames))
    return frames[:count]


def read_labels_into(text: Lent, rate: int, frames: Lent) -> int:
    """read_labels into slots that are lent. Answers how many frames there are; slots behind them stay. Refused with 3, last of all, where they
    are fewer. Room: one slot of frames for each line, label_frames_room(len(text)) at most."""
    return _listed("read_labels_into", _bytes("text", text), _small("rate", rate), _frames_out("frames", frames), of="read_labels")


def write_cues(frames: Lent) -> bytes:
    """The frames as a cue chunk of a RIFF WAVE file: id, size, count, and for each frame 24 bytes, whose position and sample offset are the
    frame's centre, 256 t + 512. It is the chunk alone: the file around it is yours, and its sizes. A chunk has no rate.

    Refused, in this order, with 1 for a frame above 1,048,575, with 11 for frames that don't ascend strictly."""
    chunk = bytearray(cues_room(_count(frames, 4)))
    count = _listed("write_cues", _frames("frames", frames), _bytes_out("chunk", chunk))
    return bytes(chunk[:count])


def write_cues_into(frames: Lent, chunk: Lent) -> int:
    """write_cues into bytes that are lent. Answers how many bytes the chunk has; those behind it stay. Refused with 3, last of all, where they
    are fewer. Room: cues_room(len(frames)) bytes of chunk."""
    return _listed("write_cues_into", _frames("frames", frames), _bytes_out("chunk", chunk), of="write_cues")


def read_cues(chunk: Lent) -> array.array:
    """The frames of a cue chunk that write_cues wrote, as uint32 values.

    It takes exactly that form: a chunk that is read is, byte for byte, the chunk written for these frames; any bytes may be lent. Refused, in this
    order and each of the whole chunk, with 9 for one of another form, though a player may read it, with 10 for an offset that is no listed frame's,
    with 11 for frames that don't ascend strictly."""
    frames = array.array("I", bytes(4 * cue_frames_room(_count(chunk, 1))))
    count = _listed("read_cues", _bytes("chunk", chunk), _frames_out("frames", frames))
    return frames[:count]


def read_cues_into(chunk: Lent, frames: Lent) -> int:
    """read_cues into slots that are lent. Answers how many frames there are; slots behind them stay. Refused with 3, last of all, where they
    are fewer. Room: cue_frames_room(len(chunk)) slots of frames."""
    return _listed("read_cues_into", _bytes("chunk", chunk), _frames_out("frames", frames), of="read_cues")


def labels_to_cues(text: Lent, rate: int) -> bytes:
    """The cue chunk of a label track's frames: what write_cues writes for what read_labels reads, with no frames in between. No labels are a
    chunk of count 0. With cues_to_labels at the same rate it gives back the same bytes, either way. Refused as read_labels is."""
    chunk = bytearray(cues_room(label_frames_room(_count(text, 1))))
    count = _listed("labels_to_cues", _bytes("text", text), _small("rate", rate), _bytes_out("chunk", chunk))
    return bytes(chunk[:count])


def labels_to_cues_into(text: Lent, rate: int, chunk: Lent) -> int:
    """labels_to_cues into bytes that are lent. Answers how many bytes the chunk has; those behind it stay. Refused with 3, last of all, where they
    are fewer. Room: 12 bytes of chunk, and 24 for each line."""
    return _listed("labels_to_cues_into", _bytes("text", text), _small("rate", rate), _bytes_out("chunk", chunk), of="labels_to_cues")


def cues_to_labels(chunk: Lent, rate: int) -> bytes:
    """The label track of a cue chunk's frames at this rate: what write_labels writes for what read_cues reads, with no frames in between. A chunk
    of count 0 is no labels. With labels_to_cues at the same rate it gives back the same bytes, either way. Refused, in this order, with 1 for the
    rate, and then as read_cues is."""
    text = bytearray(_LONGEST_LABEL * cue_frames_room(_count(chunk, 1)))
    count = _listed("cues_to_labels", _bytes("chunk", chunk), _small("rate", rate), _bytes_out("text", text))
    return bytes(text[:count])


def cues_to_labels_into(chunk: Lent, rate: int, text: Lent) -> int:
    """cues_to_labels into bytes that are lent. Answers how many bytes the text has; those behind it stay. Refused with 3, last of all, where they
    are fewer. Room: 2 d + 21 bytes of text for a point whose time has d digits of seconds, 39 at most."""
    return _listed("cues_to_labels_into", _bytes("chunk", chunk), _small("rate", rate), _bytes_out("text", text), of="cues_to_labels")


# ---- a whole track


class Room(NamedTuple):
    """The room of one analysis: slots a row, slots of each of four lag curves, and slots of the shared work slice."""
    rows: int
    lags: int
    sorting: int

    @property
    def bytes(self) -> int:
        return 40 * self.rows + 32 * self.lags + 8 * self.sorting


def room_of(rows: int, rate: int, opts: Bounds = TempoOpts()) -> Room:
    """The room for a track of at most so many rows. A bound of None is open (TempoOpts), and an open lower bound has the most lags; the meter
    makes no difference."""
    slots = [ctypes.c_size_t() for _ in range(3)]
    _call("room_of", _size("rows", rows, (0, _MOST_ROWS)), _small("rate", rate), *_options(opts),
          *map(ctypes.byref, slots))
    return Room(*(slot.value for slot in slots))


def _few(frames):
    """A list by its length and its first four frames."""
    first = ", ".join(map(str, frames[:4]))
    return f"{len(frames)} [{first}{', ..' if len(frames) > 4 else ''}]"


class Analysis(NamedTuple):
    """The rhythm of a track. The three lists are views of uint32 frames in the Buffers that were used, until those are used again. Printed,
    a list is its length and first frames."""
    tempo: Optional[Tempo]
    candidates: Tuple[Candidate, ...]
    stability: Optional[Stability]
    onsets: memoryview
    beats: memoryview
    downbeats: memoryview

    def __repr__(self) -> str:
        return (f"Analysis(tempo={self.tempo}, candidates={self.candidates}, stability={self.stability}, onsets={_few(self.onsets)},"
                f" beats={_few(self.beats)}, downbeats={_few(self.downbeats)})")


class _Last(NamedTuple):
    """The track that was answered last, whose curves the buffers hold; bins are None for an envelope, which stays the caller's, and lags are
    how many slots of the lag curves are this track's: none without a tempo, and from a patch on until the mended curves are analysed."""
    rows: int
    bins: Optional[int]
    rate: int
    opts: Tuple[float, float, int]
    lags: int


class Buffers:
    """The room of one analysis, made once and used for track after track. A call that refuses changes no view handed out before.

    After analyse_magnitudes they hold the track's curves: flux, threshold, clarity and weight are read-only views of them, until the buffers
    are used again. patch_magnitudes mends flux and threshold where rows are replaced, and analyse_patched makes the new grid of them.

    A bound of None is open, here and in the analyses (TempoOpts): a track may be analysed with other bounds than the buffers were made for, as
    long as they have no more lags, and with any meter.

    One thread at a time: a call while another thread's is at work in the same Buffers raises ValueError. Once that one is done, a call
    writes over what its views show, so let each thread have Buffers of its own, or copy the views first. Nothing else may write the
    magnitudes or the envelope while a call reads them."""

    def __init__(self, rows: int, rate: int, opts: Bounds = TempoOpts()) -> None:
        try:
            self.room = room_of(rows, rate, opts)
        except Refused as refused:
            # told of what the caller made
            raise Refused("Buffers", refused.number, refused.detail) from None
        rows = self.room.rows

        def reals(slots):
            return memoryview(array.array("d", bytes(8 * slots)))

        def frames(slots):
            return memoryview(array.array("I", bytes(4 * slots)))

        self._flux, self._threshold, self._score = (reals(rows) for _ in range(3))
        self._onsets, self._back, self._beats, self._downbeats = (frames(rows) for _ in range(4))
        self._clarity, self._weight, self._window_clarity, self._window_weight = (reals(self.room.lags) for _ in range(4))
        self._work = reals(self.room.sorting)
        self._last: Optional[_Last] = None
        self._at_work: Optional[int] = None

    def __repr__(self) -> str:
        last = self._last
        told = "nothing" if last is None else _many(last.rows, "row") + (f" of {_many(last.bins, 'bin')}" if last.bins else ", an envelope")
        return f"<Buffers for {self.room.rows:,} rows and {self.room.lags:,} lags, {self.room.bytes:,} bytes; analysed last: {told}>"

    def analyse_magnitudes(self, magnitudes: Lent, rows: Optional[int] = None, bins: Optional[int] = None, rate: Optional[int] = None,
                           opts: Bounds = TempoOpts()) -> Analysis:
        """Analyses a track from its magnitudes, rows rows of bins float32 values; an array of two dimensions needs neither told:
        analyse_magnitudes(magnitudes, rate=48000)."""
        call = "analyse_magnitudes"
        parts = _magnitudes(call, magnitudes, rows, bins)
        _given(call, rate=rate)
        return self._analyse(call, parts, parts[2].value, rate, opts, (_reals_out("flux", self._flux),))

    def analyse_envelope(self, envelope: Lent, rate: int, opts: Bounds = TempoOpts()) -> Analysis:
        """Analyses a track from its envelope of float64 values, one slot a frame."""
        return self._analyse("analyse_envelope", (_reals("envelope", envelope),), None, rate, opts, ())

    def _analyse(self, call, lent, bins, rate, opts, flux):
        onsets, count, agreeing, windows, beats, downbeats = (ctypes.c_size_t() for _ in range(6))
        found, steady = ctypes.c_uint32(), ctypes.c_uint32()
        bpm, clarity, fraction = (ctypes.c_double() for _ in range(3))
        lags, saliences = (ctypes.c_size_t * 3)(), (ctypes.c_double * 3)()
        rate, options = _small("rate", rate), _options(opts)
        with self._alone(call) as held:
            _call(call, *lent, rate, *options, *flux,
                  _reals_out("threshold", self._threshold), _frames_out("onsets", self._onsets), _reals_out("clarity", self._clarity),
                  _reals_out("weight", self._weight), _reals_out("window_clarity", self._window_clarity),
                  _reals_out("window_weight", self._window_weight), _reals_out("score", self._score), _frames_out("back", self._back),
                  _frames_out("beats", self._beats), _frames_out("downbeats", self._downbeats), _reals_out("work", self._work),
                  ctypes.byref(onsets), ctypes.byref(found), ctypes.byref(bpm), ctypes.byref(clarity), lags, saliences,
                  ctypes.byref(count), ctypes.byref(steady), ctypes.byref(fraction), ctypes.byref(agreeing), ctypes.byref(windows),
                  ctypes.byref(beats), ctypes.byref(downbeats))
            rows = lent[0].slots if bins is None else lent[1].value
            held[0] = _Last(rows, bins, rate.value, tuple(word.value for word in options), 0)
            return self._answer(held, Tempo(bpm.value, clarity.value) if found.value else None,
                                tuple(Candidate(lags[k], saliences[k]) for k in range(count.value)),
                                Stability(fraction.value, agreeing.value, windows.value) if steady.value else None,
                                onsets.value, beats.value, downbeats.value)

    def _answer(self, held, tempo, candidates, stability, onsets, beats, downbeats):
        # without a tempo the lag curves may be another track's
        held[0] = held[0]._replace(lags=lag_range(held[0].rate, held[0].opts).lags if tempo else 0)
        return Analysis(tempo, candidates, stability, self._onsets[:onsets], self._beats[:beats], self._downbeats[:downbeats])

    def patch_magnitudes(self, magnitudes: Lent, rows: Optional[int] = None, bins: Optional[int] = None, start: Optional[int] = None,
                         new_rows: Lent = None) -> Patched:
        """Replaces rows of the magnitudes that were analysed last, from start on, and mends the buffers' flux and threshold: they are then,
        bit for bit, those of a full run on the edited rows. The lists and lag curves are not: analyse_patched makes them anew.

        The magnitudes are those that were lent to analyse_magnitudes, or as patches of these buffers left them: other values of the same shape
        are not noticed, and the curves are then of no track. Raises ValueError where the last analysis was of other rows or bins, of an
        envelope, or none, and else refuses as the module's patch_magnitudes does."""
        call = "patch_magnitudes"
        _given(call, start=start, new_rows=new_rows)
        _, rows, bins = _magnitudes(call, magnitudes, rows, bins, True)
        with self._alone(call) as held:
            last = self._analysed(call, held)
            if (rows.value, bins.value) != (last.rows, last.bins):
                raise ValueError(f"{call}: {_many(rows.value, 'row')} of {_many(bins.value, 'bin')} lent, and these buffers analysed"
                                 f" {_many(last.rows, 'row')} of {last.bins:,} last")
            patched = patch_magnitudes(magnitudes, last.rows, last.bins, start, new_rows, self._flux[:last.rows],
                                       self._threshold[:last.rows], self._work)
            if patched.flux:
                held[0] = last._replace(lags=0)
            return patched

    def analyse_patched(self) -> Analysis:
        """Analyses the mended curves: onsets, tempo, stability, beats and downbeats at the rate and with the options of the last analysis,
        as analyse_magnitudes gives them for the edited rows, bit for bit. Neither flux nor threshold is computed again.

        These are the calls that one analysis is defined by, made in turn: pick_onsets, estimate, stability_of, beat_grid, downbeats. Raises
        ValueError where no magnitudes have been analysed, or an envelope since."""
        call = "analyse_patched"
        with self._alone(call) as held:
            last = self._analysed(call, held)
            held[0] = last._replace(lags=0)
            flux, opts = self._flux[:last.rows], last.opts
            onsets = pick_onsets(flux, self._threshold[:last.rows], last.rate, self._onsets)
            found = estimate(flux, onsets, last.rate, opts, self._clarity, self._weight, self._work)
            # no tempo is lag 0, which has no stability and no beats
            lag = found.candidates[0].lag if found.candidates else 0
            steady = stability_of(flux, last.rate, opts, lag, self._window_clarity, self._window_weight, self._work)
            laid = beat_grid(flux, lag, self._score, self._back, self._beats)
            begun = downbeats(flux, self._beats[:laid], self._downbeats, opts[2])
            return self._answer(held, found.tempo, found.candidates, steady, onsets, laid, begun)

    @staticmethod
    def _analysed(call, held):
        if held[0] is None or held[0].bins is None:
            raise ValueError(f"{call}: these buffers hold the flux of no rows: analyse_magnitudes comes first")
        return held[0]

    @contextlib.contextmanager
    def _alone(self, call: str) -> Iterator[list]:
        """One call at a time, with a place for the track that the buffers hold when it ends: until it says otherwise the one from before, and
        none where it is interrupted."""
        entered = False
        try:
            with _gate:
                # the mark of a thread that a fork left behind is another process's
                if self._at_work == os.getpid():
                    raise ValueError(f"{call}: these Buffers hold the slices of a call in another thread")
                entered = True
                self._at_work = os.getpid()
            held, self._last = [self._last], None
            try:
                yield held
            except Exception:
                self._last = held[0]
                raise
            self._last = held[0]
        finally:
            if entered:
                self._at_work = None

    @property
    def flux(self) -> memoryview:
        """The flux of the magnitudes that were analysed last, a slot a row, as patches mended it. Empty after an envelope, which is one."""
        last = self._last
        return self._flux[:last.rows if last and last.bins is not None else 0].toreadonly()

    @property
    def threshold(self) -> memoryview:
        """The threshold of what was analysed last, a slot a row or slot of the envelope, as patches mended it."""
        last = self._last
        return self._threshold[:last.rows if last else 0].toreadonly()

    @property
    def lags(self) -> Optional[LagRange]:
        """The lags of the last analysis: slot k of clarity and weight is that of min_lag + k."""
        last = self._last
        return lag_range(last.rate, last.opts) if last else None

    @property
    def clarity(self) -> memoryview:
        """How clearly the track repeats at each lag. Empty where the last analysis found no tempo, and after a patch until
        analyse_patched."""
        last = self._last
        return self._clarity[:last.lags if last else 0].toreadonly()

    @property
    def weight(self) -> memoryview:
        """The weight of each lag, by which the tempo was chosen. Empty where clarity is."""
        last = self._last
        return self._weight[:last.lags if last else 0].toreadonly()


def track_of(magnitudes: Lent, wide: Lent, samples: Lent, rate: int, opts: Bounds = TempoOpts(), length: Optional[int] = None,
             max_sections: int = 12, rows: Optional[int] = None, bins: Optional[int] = None, wide_rows: Optional[int] = None) -> Track:
    """The rhythm and the sections of a track, from the rows of both transforms, the one with a row every 256 samples and the wide one of 4,096
    samples every 1,024, and the samples that both were made of: analyse_magnitudes in Buffers of its own, then sections_of. Slabs of two
    dimensions need no rows and bins told. Refused as those calls refuse, under their names."""
    _, many, _ = _magnitudes("track_of", magnitudes, rows, bins)
    structure = sections_of(wide, wide_rows, samples, rate, length, max_sections)
    return Track(Buffers(many.value, rate, opts).analyse_magnitudes(magnitudes, rows, bins, rate, opts), structure)
