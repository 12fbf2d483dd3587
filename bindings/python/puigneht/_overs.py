"""Overs by the studio rule."""

from __future__ import annotations

import ctypes

from . import _calls
from ._calls import Lent, calls
from ._kinds import Buffer
from ._refusal import whole


class Overs:
    """Counts the overs of each channel, stretch after stretch: it carries what is in progress where a stretch ends.

    A run of three or more samples at one end of full scale is one over, counted at its third sample; where the samples
    are cut makes no difference. What is in progress at a place depends on the three samples of each channel before it
    alone.
    """

    __slots__ = ("_channels", "_of")

    def __init__(self, channels: int) -> None:
        if not 1 <= whole("channels", channels) <= _calls.MOST_CHANNELS:
            raise ValueError(f"{channels} channels: there may be 1 to 6")
        self._channels = int(channels)
        self._of = [_calls.Over() for _ in range(self._channels)]

    def count(self, samples: Buffer) -> tuple[int, ...]:
        """Adds those of the next samples, 32 bits each and the channels in turn, and gives these alone."""
        counted = [_calls.Over(0, over.end, over.length) for over in self._of]
        with Lent() as lent:
            at, items = lent.read("samples", samples, "i32")
            if items % self._channels:
                raise ValueError(f"samples: {items} are no whole turns of {self._channels} channels")
            for c, over in enumerate(counted):
                if calls.overs_call(at, items, self._channels, c, ctypes.byref(over)):
                    raise ValueError("samples: not understood")
        found = tuple(over.overs for over in counted)
        for over, before in zip(counted, self._of):
            over.overs += before.overs
        self._of = counted
        return found

    @property
    def channels(self) -> int:
        return self._channels

    @property
    def counts(self) -> tuple[int, ...]:
        """The overs of each channel so far."""
        return tuple(over.overs for over in self._of)

    @property
    def total(self) -> int:
        return sum(self.counts)

    @property
    def progress(self) -> tuple[tuple[int, int], ...]:
        """What is in progress in each channel: 0 no end, 1 the high, 2 the low one; and how many samples stand there,
        at most 3.
        """
        return tuple((over.end, over.length) for over in self._of)

    def from_here(self) -> Overs:
        """What is in progress, without the overs so far: where the next stretch may be counted by itself."""
        made = Overs(self._channels)
        made._of = [_calls.Over(0, over.end, over.length) for over in self._of]
        return made

    def __repr__(self) -> str:
        return f"<Overs: {self.counts}>"
