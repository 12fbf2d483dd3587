"""What conversions tell of the levels."""

from __future__ import annotations

import ctypes
import math
import threading
from typing import Any

from . import _calls
from ._calls import Call, Lent, calls
from ._refusal import begin, check, whole

_CHANNELS = _calls.MOST_CHANNELS
_LINE = 43


class Stats:
    """Of each of six channels the clipped samples, and the lowest and highest before the clamp; those of no samples at
    first.
    """

    __slots__ = ("_record", "_lock")

    def __init__(self) -> None:
        self._record = _calls.Stats(empty=(1,) * _CHANNELS)
        self._lock = threading.Lock()

    @classmethod
    def _of(cls, record: bytes | _calls.Stats) -> Stats:
        made = cls()
        ctypes.memmove(ctypes.byref(made._record), bytes(record), ctypes.sizeof(_calls.Stats))
        return made

    def __reduce__(self) -> tuple[Any, ...]:
        return Stats._of, (bytes(self._record),)

    @property
    def clipped(self) -> tuple[int, ...]:
        return tuple(self._record.clipped)

    @property
    def lowest(self) -> tuple[int, ...]:
        """Before the clamp, so it may be below -8388608; 0 where there are no samples."""
        return tuple(self._record.lowest)

    @property
    def highest(self) -> tuple[int, ...]:
        return tuple(self._record.highest)

    @property
    def empty(self) -> tuple[bool, ...]:
        """Whether a channel has no samples."""
        return tuple(bool(mark) for mark in self._record.empty)

    def copy(self) -> Stats:
        return Stats._of(self._record)

    def join(self, more: Stats) -> Stats:
        """Makes them those of both stretches. In whatever order, the pieces of a run joined have the run's own."""
        other = more._record
        with self._lock:
            joined = _calls.Stats.from_buffer_copy(self._record)
            if calls.join_stats_call(ctypes.byref(joined), ctypes.byref(other)):
                raise ValueError("statistics that no conversion made")
            self._record = joined  # at once, for threads that read it
        return self

    @property
    def turn_down(self) -> float:
        """Decibels, in tenths, by which a conversion is to be turned down so that no sample is clipped; 0 where none
        is.
        """
        high, low = max(self.highest), -min(self.lowest)
        over = max((high + 0.5) / 8388607 if high > 8388607 else 1.0, (low + 0.5) / 8388608 if low > 8388608 else 1.0)
        return math.ceil(200 * math.log10(over)) / 10

    def sheet(self, channels: int) -> str:
        """The level sheet for the sleeve: a line for each channel and one for all."""
        return sheet(self, channels)

    def __eq__(self, other: object) -> bool:
        return isinstance(other, Stats) and bytes(self._record) == bytes(other._record)

    def __repr__(self) -> str:
        held = [f"{clips} clipped, {low} to {high}" for clips, low, high, no in zip(self.clipped, self.lowest, self.highest, self.empty) if not no]
        return f"<Stats: {'; '.join(held) or 'of no samples'}>"


def sheet(stats: Stats, channels: int) -> str:
    """The level sheet of so many channels (1 to 6)."""
    held = min(whole("channels", channels), 255)
    out = bytearray(_LINE * (held + 1))
    r = begin(Call.LEVEL_SHEET, len(out), channels=channels)
    with Lent() as lent:
        check(r, calls.level_sheet_call(held, ctypes.byref(stats._record), *lent.write("sheet", out), ctypes.byref(r.data)))
    return out.decode("ascii")
