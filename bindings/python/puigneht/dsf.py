"""DSF files in memory: what they hold, their frames, and files of frames. (Whole albums: puigneht.Album.)"""

from __future__ import annotations

import ctypes
from dataclasses import dataclass
from typing import NamedTuple

from . import _calls
from ._calls import Call, Lent, calls
from ._kinds import Buffer
from ._refusal import begin, check, whole

HEADER = 92
CHANNEL_BYTES = 4704


@dataclass(frozen=True)
class Dsf:
    """What a file holds. `bits_per_sample` 1: lowest bit first, 8: highest; `samples` are one-bit samples of a channel.
    """

    channel_type: int
    channels: int
    bits_per_sample: int
    samples: int
    frames: int


class Upload(NamedTuple):
    """`accepted`, `unfinished` or `give up`; of the last the length of the shortest beginning that cannot be continued.
    """

    state: str
    place: int | None


def _told(r: _calls.Refusal, head: tuple[int, int], number: int) -> None:
    """Raises what a file was refused for."""
    if 9 <= number <= 11:
        calls.dsf_why_call(*head, r.length, ctypes.byref(r.field))
    check(r, number)


def _dsf(record: _calls.Dsf) -> Dsf:
    return Dsf(record.channel_type, record.channels, record.bits_per_sample, record.samples, record.frames)


def read_header(head: Buffer, length: int) -> Dsf:
    """What a file holds, from its first 92 bytes (or more) and its length. Refused 9, 10, 11."""
    record, r = _calls.Dsf(), begin(Call.DSF_READ, whole("length", length))
    with Lent() as lent:
        lead = lent.read("head", head)
        _told(r, lead, calls.dsf_read_header_call(*lead, length, ctypes.byref(record), ctypes.byref(r.data)))
    return _dsf(record)


def read(file: Buffer) -> Dsf:
    """What a whole file holds. Refused 9, 10, 11."""
    record = _calls.Dsf()
    with Lent() as lent:
        held = lent.read("file", file)
        r = begin(Call.DSF_READ, held[1])
        _told(r, held, calls.dsf_read_call(*held, ctypes.byref(record), ctypes.byref(r.data)))
    return _dsf(record)


def frame(file: Buffer, number: int, out: Buffer | None = None) -> Buffer:
    """Frame `number` (from 0) of a whole file, in the layout of the conversions, into `out` if it is given.

    A short last frame is filled up with 0x69. Refused 9, 10, 11; then 5; then 7.
    """
    made: Buffer = bytearray(CHANNEL_BYTES * read(file).channels) if out is None else out
    with Lent() as lent:
        held = lent.read("file", file)
        r = begin(Call.DSF_FRAME, held[1])
        _told(r, held, calls.dsf_frame_call(*held, whole("number", number), *lent.write("out", made), ctypes.byref(r.data)))
    return made


def window(dsf: Dsf, number: int) -> range:
    """The bytes to read for a frame, counted from byte 92 of the file on; none where there is no such frame."""
    s = _calls.Stretch()
    calls.dsf_window_call(whole("channels", dsf.channels), whole("samples", dsf.samples), whole("number", number), ctypes.byref(s))
    return range(s.begin, s.end)


def window_frame(head: Buffer, length: int, number: int, part: Buffer, start: int, out: Buffer | None = None) -> Buffer:
    """A frame out of a part of the file's data: `part` stands from byte `start` of the data on (which begin at byte
    92).

    Refused 9, 10, 11; then 5; then 11 where the part does not hold the frame; then 7.
    """
    made: Buffer = bytearray(CHANNEL_BYTES * read_header(head, length).channels) if out is None else out
    r = begin(Call.DSF_WINDOW_FRAME, whole("length", length))
    with Lent() as lent:
        lead = lent.read("head", head)
        _told(r, lead, calls.dsf_window_frame_call(*lead, length, whole("number", number), *lent.read("part", part), whole("start", start),
                                                   *lent.write("out", made), ctypes.byref(r.data)))
    return made


def write(channels: int, frames: Buffer) -> bytearray:
    """The DSF file of whole frames in the layout of the conversions. Refused 1, 4, 5."""
    held, size = min(whole("channels", channels), 255), ctypes.c_uint64()
    with Lent() as lent:
        lead = lent.read("frames", frames)
        r = begin(Call.DSF_WRITE, lead[1], channels=channels)
        check(r, calls.dsf_length_call(held, lead[1], ctypes.byref(size), ctypes.byref(r.data)))
        out = bytearray(size.value)
        check(r, calls.dsf_write_call(held, *lead, *lent.write("out", out), ctypes.byref(r.data)))
    return out


def give_up(file: Buffer) -> Upload:
    """How early an upload can be given up, from what has arrived of it."""
    place = ctypes.c_uint64()
    with Lent() as lent:
        answer = calls.dsf_give_up_call(*lent.read("file", file), ctypes.byref(place))
    return _upload(answer, place.value)


def give_up_header(head: Buffer, length: int) -> Upload:
    """The same from the file's first 92 bytes (all, where it has fewer) and the length that has arrived."""
    place = ctypes.c_uint64()
    with Lent() as lent:
        answer = calls.dsf_give_up_header_call(*lent.read("head", head), whole("length", length), ctypes.byref(place))
    return _upload(answer, place.value)


def _upload(answer: int, place: int) -> Upload:
    return Upload(("accepted", "unfinished", "give up")[answer], place if answer == 2 else None)


__all__ = ["CHANNEL_BYTES", "HEADER", "Dsf", "Upload", "frame", "give_up", "give_up_header", "read", "read_header", "window",
           "window_frame", "write"]
