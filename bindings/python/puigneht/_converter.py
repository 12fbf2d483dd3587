"""Conversions of frames that are in memory."""

from __future__ import annotations

import ctypes
from dataclasses import dataclass
from typing import Any, Iterator, Sequence

from . import _calls
from ._calls import Call, Lent, calls
from ._kinds import Buffer, Samples, flat, new_samples
from ._refusal import begin, check, whole
from ._stats import Stats

CUTOFFS = ("standard", "low", "wide")
RATES = (88200, 176400, 352800)
_WAV_HEADER = 44


def cutoff_of(name: str) -> int:
    if name not in CUTOFFS:
        raise ValueError(f"cutoff {name!r}: there are {', '.join(CUTOFFS)}")
    return CUTOFFS.index(name)


def settled(rate: int, cutoff: str, channels: int, taps: Sequence[int] | None) -> _calls.Converter:
    """Numbers and taps of some settings, without a gain."""
    c = _calls.Converter()
    c.numbers.rate, c.numbers.cutoff, c.numbers.channels = whole("rate", rate, 32), cutoff_of(cutoff), whole("channels", channels, 32)
    if taps is not None:
        c.numbers.own, c.numbers.taps = 1, len(taps)
        for k, tap in enumerate(taps):
            n = whole("a tap", int(tap) + (1 << 31), 32) - (1 << 31)
            if k < _calls.MOST_TAPS:
                c.taps[k] = n
    return c


@dataclass(frozen=True)
class Run:
    """Whole frames and the frames next to them, None where there is none. `Converter.cut` makes it: so no caller
    chooses the neighbours.
    """

    before: Buffer | None
    frames: Buffer
    after: Buffer | None


class Converter:
    """Converts frames: 4,704 bytes of each channel (1 to 6), the channels' bytes in turn, the earliest bit highest.

    `taps` is a low-pass of your own for `standard`, from the centre outwards. Refused 3 for the decibels; then 1, 2,
    17, 18. Threads may share it.
    """

    __slots__ = ("_record",)

    def __init__(self, rate: int = 88200, cutoff: str = "standard", channels: int = 2, decibels: float = 0.0,
                 taps: Sequence[int] | None = None) -> None:
        c = settled(rate, cutoff, channels, taps)
        r = begin(Call.OPEN, c.numbers.taps, c.numbers.rate, c.numbers.cutoff, c.numbers.channels)
        check(r, calls.gain_call(float(decibels), ctypes.byref(c.gain), ctypes.byref(r.decibels)))
        check(r, calls.open_call(ctypes.byref(c.numbers), ctypes.byref(c.gain), ctypes.byref(c.taps), ctypes.byref(r.data), ctypes.byref(r.decibels)))
        self._record = c

    @classmethod
    def open(cls, rate: int = 88200, cutoff: str = "standard", channels: int = 2, decibels: float = 0.0,
             taps: Sequence[int] | None = None) -> Converter:
        return cls(rate, cutoff, channels, decibels, taps)

    @classmethod
    def _of(cls, record: _calls.Converter) -> Converter:
        made = cls.__new__(cls)
        made._record = record
        return made

    def change(self, rate: int | None = None, cutoff: str | None = None, decibels: float | None = None) -> None:
        """Turns it to another rate, cutoff and gain, each as it is where None; channels and filter stay.

        Refused 3 for the decibels; then 2. Refused, it is as it was. Conversions that other threads are at are not
        changed.
        """
        changed = _calls.Converter.from_buffer_copy(self._record)
        to, of = (changed.numbers.rate if rate is None else whole("rate", rate, 32)), (changed.numbers.cutoff if cutoff is None else cutoff_of(cutoff))
        wanted, r = _calls.Gain(), begin(Call.CHANGE, changed.numbers.taps, to, of, changed.numbers.channels)
        check(r, calls.gain_call(changed.gain.decibels if decibels is None else float(decibels), ctypes.byref(wanted), ctypes.byref(r.decibels)))
        check(r, calls.change_call(ctypes.byref(changed.numbers), ctypes.byref(changed.gain), ctypes.byref(changed.taps), to, of,
                                   ctypes.byref(wanted), ctypes.byref(r.data), ctypes.byref(r.decibels)))
        self._record = changed

    @property
    def rate(self) -> int:
        return self._record.numbers.rate

    @property
    def cutoff(self) -> str:
        return CUTOFFS[self._record.numbers.cutoff]

    @property
    def channels(self) -> int:
        return self._record.numbers.channels

    @property
    def decibels(self) -> float:
        return self._record.gain.decibels

    @property
    def factor(self) -> float:
        """What the decibels stand for."""
        return self._record.gain.factor

    @property
    def taps(self) -> tuple[int, ...] | None:
        """The low-pass of your own; None for the built-in one."""
        numbers = self._record.numbers
        return tuple(self._record.taps[:numbers.taps]) if numbers.own else None

    @property
    def samples_per_frame(self) -> int:
        """Of a channel."""
        return self._record.numbers.samples_per_frame

    @property
    def reach(self) -> int:
        """Bytes of each channel before and after a run that its samples may depend on."""
        return self._record.numbers.reach

    @property
    def frame_bytes(self) -> int:
        """Of all channels."""
        return self._record.numbers.frame_bytes

    # ---- runs

    def cut(self, frames: Buffer, first: int, count: int) -> Run:
        """`count` frames from frame `first` on, out of frames that follow each other, with the frames next to them;
        nothing is copied.

        `frames` is the whole stretch, and not the piece alone. Bytes past the last whole frame go into every run, which
        is then refused 4.
        """
        view, size = flat("frames", frames), self.frame_bytes
        held, rest = divmod(len(view), size)
        begins = min(whole("first", first), held)
        ends = begins + min(whole("count", count), held - begins)
        return Run(view[(begins - 1) * size:begins * size] if begins else None, view[begins * size:ends * size + rest],
                   view[ends * size:(ends + 1) * size] if ends < held else None)

    def runs(self, frames: Buffer, count: int = 128) -> Iterator[Run]:
        """All of them as runs of `count` frames."""
        held = flat("frames", frames).nbytes // self.frame_bytes
        return (self.cut(frames, first, count) for first in range(0, held, whole("count", count)))

    def _lend(self, lent: Lent, c: _calls.Converter, run: Run) -> tuple[list[Any], int]:
        """Converter and run as a conversion takes them, but for the counts; bytes of the frames."""
        before = lent.read("before", run.before) if run.before is not None else (0, 0)
        frames = lent.read("frames", run.frames)
        after = lent.read("after", run.after) if run.after is not None else (0, 0)
        presence = (run.before is not None) + 2 * (run.after is not None)
        return [ctypes.byref(c.numbers), ctypes.byref(c.gain), ctypes.byref(c.taps), presence, *before, *frames, *after], frames[1]

    def convert_run(self, frames: Run | Buffer, out: Samples = None) -> tuple[Samples, Stats]:
        """32-bit samples of a run (or of frames without neighbours), the channels in turn, into `out` if it is given.

        Refused as every conversion: for the lengths of frames 4 and 5, of neighbours 13 and 14, of `out` 6.
        """
        c, run, stats = self._record, _run(frames), Stats()
        with Lent() as lent:
            settings, length = self._lend(lent, c, run)
            r = begin(Call.CONVERT_RUN, length, c.numbers.rate, c.numbers.cutoff, c.numbers.channels)
            made = new_samples(length // c.numbers.frame_bytes * c.numbers.samples_per_frame, c.numbers.channels) if out is None else out
            check(r, calls.convert_run_call(*settings, *lent.write("out", made, "i32"), ctypes.byref(stats._record), ctypes.byref(r.data),
                                            ctypes.byref(r.decibels)))
        return made, stats

    def _pack(self, call: Any, number: int, header: int, frames: Run | Buffer, out: Buffer | None, counts: Buffer | None) -> tuple[Buffer, Stats]:
        c, run, stats = self._record, _run(frames), Stats()
        with Lent() as lent:
            settings, length = self._lend(lent, c, run)
            r = begin(number, length, c.numbers.rate, c.numbers.cutoff, c.numbers.channels)
            samples = length // c.numbers.frame_bytes * c.numbers.samples_per_frame * c.numbers.channels
            made: Buffer = bytearray(header + 3 * samples) if out is None else out
            settings[3] += 4 * (counts is not None)
            to = lent.write("out", made)
            counted = lent.write("counts", counts, "u64") if counts is not None else (0, 0)
            check(r, call(*settings, *to, *counted, ctypes.byref(stats._record), ctypes.byref(r.data), ctypes.byref(r.decibels)))
        return made, stats

    def convert(self, frames: Run | Buffer, out: Buffer | None = None, counts: Buffer | None = None) -> tuple[Buffer, Stats]:
        """Samples of three bytes, least first; in `counts` (of 64 bits), if it is given, the clipped samples of each
        frame. Refused 7, 8.
        """
        return self._pack(calls.convert_call, Call.CONVERT, 0, frames, out, counts)

    def desk(self, frames: Run | Buffer, out: Buffer | None = None, counts: Buffer | None = None) -> tuple[Buffer, Stats]:
        """`convert` for the listening desk: at most 8 frames. Refused 16 in the place of 5."""
        return self._pack(calls.convert_desk_call, Call.CONVERT_DESK, 0, frames, out, counts)

    def convert_wav(self, frames: Run | Buffer, out: Buffer | None = None, counts: Buffer | None = None) -> tuple[Buffer, Stats]:
        """`convert` with the header of a WAV file in front. Refused 12 after all else."""
        return self._pack(calls.wav_convert_call, Call.WAV_CONVERT, _WAV_HEADER, frames, out, counts)

    def __repr__(self) -> str:
        return f"<Converter: {self.rate}, {self.cutoff}, {self.channels} channels, {self.decibels} dB>"


def _run(frames: Run | Buffer) -> Run:
    return frames if isinstance(frames, Run) else Run(None, frames, None)
