"""WAV files in memory: the plain header of 44 bytes, 24 bits, one or two channels; and packed samples."""

from __future__ import annotations

import array
import ctypes
from dataclasses import dataclass

from . import _calls
from ._calls import Call, Lent, calls
from ._kinds import Buffer, Samples, as_rows, flat
from ._refusal import begin, check, whole

HEADER = 44
MOST_DATA = 4294967259
_SIGN = bytes(128) + b"\xff" * 128


@dataclass(frozen=True)
class Wav:
    """What a file holds: `length` sample bytes from byte `begin` on."""

    rate: int
    channels: int
    begin: int
    length: int


def read(file: Buffer) -> Wav:
    """Reads a whole file. Refused 12."""
    record = _calls.Wav()
    with Lent() as lent:
        held = lent.read("file", file)
        check(begin(Call.WAV_READ, held[1]), calls.wav_read_call(*held, ctypes.byref(record)))
    return Wav(record.rate, record.channels, record.begin, record.length)


def write(rate: int, channels: int, samples: Buffer) -> bytearray:
    """The file of packed samples. Refused 12 if `read` would not take it."""
    whole("rate", rate), whole("channels", channels)
    with Lent() as lent:
        held = lent.read("samples", samples)
        out = bytearray(HEADER + held[1])
        r = begin(Call.WAV_WRITE, held[1], rate, 0, channels)
        check(r, calls.wav_write_call(rate, min(channels, 255), *held, *lent.write("out", out), ctypes.byref(r.data)))
    return out


def header(rate: int, channels: int, length: int) -> bytes:
    """The header alone, for a stream of so many sample bytes. Refused 12."""
    out = (ctypes.c_uint8 * HEADER)()
    r = begin(Call.WAV_WRITE, whole("length", length), whole("rate", rate), 0, whole("channels", channels))
    check(r, calls.wav_header_call(rate, min(channels, 255), length, ctypes.byref(out)))
    return bytes(out)


def pack(samples: Buffer) -> bytearray:
    """32-bit samples as three bytes each, their low 24 bits, least first."""
    with Lent() as lent:
        held = lent.read("samples", samples, "i32")
        out = bytearray(3 * held[1])
        calls.pack_s24le_call(*held, *lent.write("out", out))
    return out


def unpack(data: Buffer, channels: int = 1) -> Samples:
    """Packed samples as 32-bit ones, as many as there are whole turns of the channels."""
    held = flat("data", data)
    if whole("channels", channels) == 0:
        raise ValueError("0 channels: there may be 1 to 6")
    count = len(held) // (3 * channels) * channels
    made = array.array("i", bytes(4)) * count
    view = memoryview(made).cast("B") if count else memoryview(bytearray())
    for k in range(3):
        view[k::4] = held[k:3 * count:3]
    view[3::4] = bytes(held[2:3 * count:3]).translate(_SIGN)
    return as_rows(made, channels)
