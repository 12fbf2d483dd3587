"""The library's records and proved calls, each declared once, as include/puigneht.h and include/puigneht/album.h do.

A list is a pointer and its number of items in C (`_LIST`): `Lent` makes both of a buffer. Everything else that is
pointed to is a record of this module.
"""

from __future__ import annotations

import ctypes
import os
import pathlib
from ctypes import c_double, c_int32, c_int64, c_size_t, c_uint8, c_uint64, c_void_p
from typing import Any

VERSION = "0.3.0"
MOST_TAPS = 117
MOST_CHANNELS = 6
NOT_UNDERSTOOD = 255
READ_FAILED = 254


class Call:
    """Which call refused."""

    (NONE, GAIN, OPEN, CHANGE, CONVERT_RUN, CONVERT_FRAME, CONVERT, CONVERT_DESK, WAV_CONVERT, LEVEL_SHEET, TURNS, DSF_READ,
     DSF_FRAME, DSF_WINDOW_FRAME, DSF_WRITE, WAV_READ, WAV_WRITE, ALBUM_OPEN, ALBUM_PIECE, ALBUM_FRAMES, ALBUM_HEADER) = range(21)


Pair = c_uint64 * 2
Triple = c_uint64 * 3
Decibels = c_double * 1
Taps = c_int32 * MOST_TAPS


class Gain(ctypes.Structure):
    _fields_ = [("decibels", c_double), ("factor", c_double)]
    decibels: float
    factor: float


class Numbers(ctypes.Structure):
    _fields_ = [(name, c_uint64) for name in ("rate", "cutoff", "channels", "own", "taps", "samples_per_frame", "reach", "frame_bytes")]
    rate: int
    cutoff: int
    channels: int
    own: int
    taps: int
    samples_per_frame: int
    reach: int
    frame_bytes: int


class Converter(ctypes.Structure):
    _fields_ = [("numbers", Numbers), ("gain", Gain), ("taps", Taps), ("unused", c_int32)]
    numbers: Numbers
    gain: Gain
    taps: Any


class Stats(ctypes.Structure):
    """The 24 numbers that the calls know."""

    _fields_ = [("clipped", c_uint64 * MOST_CHANNELS), ("lowest", c_int64 * MOST_CHANNELS), ("highest", c_int64 * MOST_CHANNELS),
                ("empty", c_uint64 * MOST_CHANNELS)]
    clipped: Any
    lowest: Any
    highest: Any
    empty: Any


class Dsf(ctypes.Structure):
    _fields_ = [(name, c_uint64) for name in ("channel_type", "channels", "bits_per_sample", "samples", "frames")]
    channel_type: int
    channels: int
    bits_per_sample: int
    samples: int
    frames: int


class Stretch(ctypes.Structure):
    _fields_ = [("begin", c_uint64), ("end", c_uint64)]
    begin: int
    end: int


class Wav(ctypes.Structure):
    _fields_ = [(name, c_uint64) for name in ("rate", "channels", "begin", "length")]
    rate: int
    channels: int
    begin: int
    length: int


class Over(ctypes.Structure):
    _fields_ = [("overs", c_uint64), ("end", c_uint64), ("length", c_uint64)]
    overs: int
    end: int
    length: int


class Field(ctypes.Structure):
    _fields_ = [("place", c_uint64), ("found", c_uint64), ("asked", c_uint64)]
    place: int
    found: int
    asked: int


class Refusal(ctypes.Structure):
    _fields_ = [("data", Pair), ("decibels", Decibels), ("field", Field), ("rate", c_uint64), ("cutoff", c_uint64), ("channels", c_uint64),
                ("length", c_uint64), ("call", c_uint8), ("number", c_uint8), ("track", c_uint8)]
    data: Any
    decibels: Any
    field: Field
    rate: int
    cutoff: int
    channels: int
    length: int
    call: int
    number: int
    track: int


class AlbumNumbers(ctypes.Structure):
    _fields_ = [(name, c_uint64) for name in ("channels", "channel_type", "bytes", "frames", "data_bytes", "frame_bytes", "filled", "pieces")]
    channels: int
    channel_type: int
    bytes: int
    frames: int
    data_bytes: int
    frame_bytes: int
    filled: int
    pieces: int


class Plan(ctypes.Structure):
    _fields_ = [(name, c_uint64) for name in ("first", "count", "place", "bytes", "scratch", "window")]
    first: int
    count: int
    place: int
    bytes: int
    scratch: int
    window: int


_P = ctypes.POINTER
_LIST: tuple[Any, ...] = (c_void_p, c_size_t)
_TOLD: tuple[Any, ...] = (_P(Pair), _P(Decibels))
_SETTINGS: tuple[Any, ...] = (_P(Numbers), _P(Gain), _P(Taps))
_RUN: tuple[Any, ...] = (c_uint8, *_LIST, *_LIST, *_LIST)
_BYTES = (*_SETTINGS, *_RUN, *_LIST, *_LIST, _P(Stats), *_TOLD)
_ALBUM = (*_SETTINGS, *_LIST, *_LIST)

# The arguments of each call; behind a star the answer is not a number.
DECLARED: dict[str, tuple[Any, ...]] = {
    "gain_call": (c_double, _P(Gain), _P(Decibels)),
    "open_call": (*_SETTINGS, *_TOLD),
    "change_call": (*_SETTINGS, c_uint64, c_uint64, _P(Gain), *_TOLD),
    "convert_run_call": (*_SETTINGS, *_RUN, *_LIST, _P(Stats), *_TOLD),
    "convert_call": _BYTES,
    "convert_desk_call": _BYTES,
    "wav_convert_call": _BYTES,
    "pack_s24le_call": (*_LIST, *_LIST),
    "join_stats_call": (_P(Stats), _P(Stats)),
    "level_sheet_call": (c_uint8, _P(Stats), *_LIST, _P(Pair)),
    "overs_call": (*_LIST, c_size_t, c_size_t, _P(Over)),
    "turns_call": (*_LIST, *_LIST, c_uint64, *_LIST, *_LIST),
    "dsf_read_call": (*_LIST, _P(Dsf), _P(Pair)),
    "dsf_read_header_call": (*_LIST, c_uint64, _P(Dsf), _P(Pair)),
    "dsf_why_call": (*_LIST, c_uint64, _P(Field)),
    "dsf_window_call": (c_uint64, c_uint64, c_uint64, _P(Stretch)),
    "dsf_window_frame_call": (*_LIST, c_uint64, c_uint64, *_LIST, c_uint64, *_LIST, _P(Pair)),
    "dsf_frame_call": (*_LIST, c_uint64, *_LIST, _P(Pair)),
    "dsf_write_call": (c_uint8, *_LIST, *_LIST, _P(Pair)),
    "dsf_length_call": (c_uint8, c_size_t, _P(c_uint64), _P(Pair)),
    "dsf_give_up_call": (*_LIST, _P(c_uint64)),
    "dsf_give_up_header_call": (*_LIST, c_uint64, _P(c_uint64)),
    "wav_read_call": (*_LIST, _P(Wav)),
    "wav_write_call": (c_uint64, c_uint8, *_LIST, *_LIST, _P(Pair)),
    "wav_header_call": (c_uint64, c_uint8, c_uint64, c_void_p),
    "album_open_call": (*_ALBUM, _P(AlbumNumbers), *_LIST, _P(c_uint64), *_TOLD),
    "album_part_call": (c_uint64, c_uint64, c_uint64, _P(Stretch)),
    "album_piece_call": (*_ALBUM, c_uint64, _P(Plan), *_LIST),
    "album_writes_call": (*_LIST, c_uint64, c_uint64, *_LIST),
    "album_frames_call": (*_ALBUM, c_uint64, c_uint64, *_LIST, *_LIST, *_TOLD),
    "album_step_call": (*_ALBUM, c_uint64, c_uint64, *_LIST, *_LIST, *_LIST, _P(Stats), *_TOLD),
    "wave_header_call": (c_uint64, c_uint64, c_uint64, c_uint64, c_uint64, c_void_p, _P(Pair)),
}
_NOTHING = {"pack_s24le_call", "dsf_window_call", "album_part_call", "album_writes_call"}


def _library() -> ctypes.CDLL:
    """PUIGNEHT_LIBRARY, or what a wheel has beside this file, or what is installed."""
    named = os.environ.get("PUIGNEHT_LIBRARY")
    beside = pathlib.Path(__file__).with_name("libpuigneht.so")
    return ctypes.CDLL(named or (str(beside) if beside.exists() else "libpuigneht.so." + VERSION.rpartition(".")[0]))


class _Calls:
    """The calls of a library. Python's lock is not held while one works."""

    def __init__(self, library: ctypes.CDLL) -> None:
        version = library.puigneht_version
        version.restype, version.argtypes = ctypes.c_char_p, []
        found = version().decode("ascii")
        if found.rpartition(".")[0] != VERSION.rpartition(".")[0]:
            raise ImportError(f"libpuigneht.so is version {found}, and this package is for {VERSION}")
        self.version: str = found
        self.describe: Any = library.puigneht_describe
        self.describe.restype, self.describe.argtypes = c_void_p, [_P(Refusal), c_void_p, c_size_t]
        for name, arguments in DECLARED.items():
            call = getattr(library, "puigneht_" + name)
            call.restype, call.argtypes = None if name in _NOTHING else c_uint8, list(arguments)
            setattr(self, name, call)

    def __getattr__(self, name: str) -> Any:
        raise AttributeError(name)


calls = _Calls(_library())


# ---- buffers


class _View(ctypes.Structure):
    """Python's Py_buffer."""

    _fields_ = [("buf", c_void_p), ("obj", c_void_p), ("len", ctypes.c_ssize_t), ("itemsize", ctypes.c_ssize_t), ("readonly", ctypes.c_int),
                ("ndim", ctypes.c_int), ("format", ctypes.c_char_p), ("shape", c_void_p), ("strides", c_void_p), ("suboffsets", c_void_p),
                ("internal", c_void_p)]


_get = ctypes.pythonapi.PyObject_GetBuffer
_get.argtypes, _get.restype = [ctypes.py_object, _P(_View), ctypes.c_int], ctypes.c_int
_release = ctypes.pythonapi.PyBuffer_Release
_release.argtypes, _release.restype = [_P(_View)], None
_CHECKED = ctypes.pythonapi.PyObject_CheckBuffer
_CHECKED.argtypes, _CHECKED.restype = [ctypes.py_object], ctypes.c_int
_WRITABLE, _FORMAT, _CONTIGUOUS = 1, 4, 8
_KINDS = {"u8": (1, frozenset("Bc")), "i32": (4, frozenset("il")), "u64": (8, frozenset("QL"))}


class Lent:
    """The buffers of one call: each is looked at before the call and held until it is over; nothing is copied."""

    def __init__(self) -> None:
        self._held: list[_View] = []
        self._read: list[tuple[int, int]] = []
        self._written: list[tuple[int, int]] = []

    def __enter__(self) -> Lent:
        return self

    def __exit__(self, *_: object) -> None:
        for view in self._held:
            _release(ctypes.byref(view))
        self._held.clear()

    def _take(self, what: str, value: object, kind: str, flags: int) -> tuple[int, int, int]:
        """Address, bytes and items."""
        if not _CHECKED(value):
            raise TypeError(f"{what}: a buffer is needed, not {type(value).__name__}")
        view = _View()
        try:
            _get(value, ctypes.byref(view), flags | _FORMAT | _CONTIGUOUS)
        except (BufferError, ValueError, TypeError) as e:
            raise BufferError(f"{what}: {e}") from None
        self._held.append(view)
        width, letters = _KINDS[kind]
        letter = (view.format or b"B").decode("ascii", "replace")
        if view.itemsize != width or letter.lstrip("@=<") not in letters:
            raise TypeError(f"{what}: items of kind {kind} are needed, not of format {letter!r}")
        return view.buf or 0, view.len, view.len // width

    def read(self, what: str, value: object, kind: str = "u8") -> tuple[int, int]:
        at, length, items = self._take(what, value, kind, 0)
        self._apart(what, at, length, self._written)
        self._read.append((at, at + length))
        return at, items

    def write(self, what: str, value: object, kind: str = "u8") -> tuple[int, int]:
        at, length, items = self._take(what, value, kind, _WRITABLE)
        self._apart(what, at, length, self._written + self._read)
        self._written.append((at, at + length))
        return at, items

    @staticmethod
    def _apart(what: str, at: int, length: int, others: list[tuple[int, int]]) -> None:
        if any(begin < at + length and at < end for begin, end in others if begin < end and length):
            raise ValueError(f"{what}: a buffer that is written overlaps another")
