"""Turns on one board."""

from __future__ import annotations

import array
from typing import NamedTuple, Sequence

from ._calls import Call, Lent, calls
from ._refusal import begin, check, whole

_MOST = 8


class Turn(NamedTuple):
    """The turn in which an album finishes, counted from 1, and how late that is."""

    finish: int
    late: int


def turns(albums: Sequence[tuple[int, int]], turn: int) -> list[Turn]:
    """Gives a board out to albums, each its frames and the turn after which it is due, in turns of `turn` frames.

    Each turn goes to the unfinished album that is due first, on a tie to the earlier one. Refused 19.
    """
    r = begin(Call.TURNS, len(albums))
    held = list(albums) if len(albums) <= _MOST else []  # none are refused as too many are
    frames = array.array("Q", [whole("frames", a[0]) for a in held])
    dues = array.array("Q", [whole("due", a[1]) for a in held])
    finishes, late = array.array("Q", bytes(8 * len(held))), array.array("i", bytes(4 * len(held)))
    with Lent() as lent:
        check(r, calls.turns_call(*lent.read("frames", frames, "u64"), *lent.read("dues", dues, "u64"), whole("turn", turn),
                                  *lent.write("finishes", finishes, "u64"), *lent.write("late", late, "i32")))
    return [Turn(*both) for both in zip(finishes, late)]
