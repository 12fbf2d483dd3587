"""What a call that was not accepted tells."""

from __future__ import annotations

import ctypes
import operator
from typing import NamedTuple, SupportsIndex

from ._calls import Call, Refusal, calls


class Field(NamedTuple):
    """The first wrong field of a DSF file, and what is asked there: include/puigneht.h, puigneht_field."""

    place: int
    found: int
    asked: int


class Refused(ValueError):
    """A call that was refused: `number` and what belongs to it as include/puigneht.h lists them, and the `sentence`.

    `data` are its two numbers, `decibels` those of 3, `field` the field of 9, 10 and 11 (else None), `track` the track
    of an album, from 0. 254: a track cannot be read; 255: not understood.
    """

    def __init__(self, number: int, data: tuple[int, int] = (0, 0), decibels: float = 0.0, field: Field | None = None, track: int = 0,
                 sentence: str = "") -> None:
        super().__init__(number, data, decibels, field, track, sentence)
        self.number, self.data, self.decibels, self.field, self.track, self.sentence = number, data, decibels, field, track, sentence

    def __str__(self) -> str:
        return self.sentence


def begin(call: int, length: int, rate: int = 0, cutoff: int = 0, channels: int = 0) -> Refusal:
    """A refusal before its call, which notes what the call is made with; `length` as puigneht_refusal has it."""
    r = Refusal()
    r.call, r.length, r.rate, r.cutoff, r.channels = call, length, rate, cutoff, channels
    return r


def sentence(r: Refusal) -> str:
    text = ctypes.create_string_buffer(256)
    calls.describe(ctypes.byref(r), text, len(text))
    return text.value.decode("ascii", "replace")


def check(r: Refusal, number: int) -> None:
    """Raises what the call answered, if it was not accepted."""
    if number == 0:
        return
    r.number = number
    field = Field(r.field.place, r.field.found, r.field.asked) if 9 <= number <= 11 else None
    raise Refused(number, (r.data[0], r.data[1]), r.decibels[0], field, r.track, sentence(r))


def whole(what: str, value: SupportsIndex, bits: int = 64) -> int:
    """A whole number from 0 on that has so many bits, for ctypes would cut it."""
    n = operator.index(value)
    if not 0 <= n < 1 << bits:
        raise OverflowError(f"{what}: {n} is not 0 to {(1 << bits) - 1}")
    return n


__all__ = ["Call", "Field", "Refused", "begin", "check", "sentence", "whole"]
