"""DSF albums as WAV files and as samples."""

from __future__ import annotations

import array
import concurrent.futures
import contextlib
import ctypes
import os
import threading
from dataclasses import dataclass
from typing import Any, Callable, Iterable, Iterator, Sequence, cast

from . import _calls
from ._calls import Call, Lent, calls
from ._converter import Converter, Run, settled
from ._kinds import Buffer, Path, Samples, flat, new_samples
from ._made import Made, name_all
from ._refusal import begin, check, whole
from ._sources import Source, Track, open_all
from ._stats import Stats
from .wav import unpack

FORMATS = ("auto", "wav", "rf64")
_HEAD, _MOST_HEAD, _MOST_TRACKS, _PIECE, _CHANNEL = 92, 104, 99, 128, 4704
Progress = Callable[[int, int], object]


@dataclass(frozen=True)
class Wave:
    """The WAV file of a track, or of all (None): `head` in front, `data` bytes of samples, `pad` zero bytes behind
    them.
    """

    track: int | None
    data: int
    pad: int
    length: int
    head: bytes


@dataclass(frozen=True)
class Piece:
    """A piece of an album: its frames, its packed samples and where they stand in the album's, and what it tells.

    Of a piece that is planned alone there are no bytes, and the statistics are those of no samples.
    """

    number: int
    first: int
    count: int
    place: int
    length: int
    channels: int
    bytes: memoryview
    stats: Stats

    def samples(self) -> Samples:
        """They as 32-bit samples."""
        return unpack(self.bytes, self.channels)


class Album:
    """A DSF file, or an album of 1 to 99 tracks, one file each, converted as one run: so no border is heard.

    A track is a path, or a file in memory that is lent. Refused, by the first track of which it is so: 9, 10, 11 for
    its file, 9 too for another channel type than the first's; of the first then 2, 3, 17, 18 for the settings; of any 5
    where all up to it are longer than two hours. Threads may share it.
    """

    def __init__(self, tracks: Track | Sequence[Track], rate: int = 88200, cutoff: str = "standard", decibels: float = 0.0,
                 taps: Sequence[int] | None = None) -> None:
        c = settled(rate, cutoff, 0, taps)
        c.gain.decibels = float(decibels)  # without a factor: refused in its turn
        calls.gain_call(c.gain.decibels, ctypes.byref(c.gain), ctypes.byref(_calls.Decibels()))
        held: Sequence[Track] = list(tracks) if isinstance(tracks, (list, tuple)) else [cast(Track, tracks)]
        r = begin(Call.ALBUM_OPEN, len(held), c.numbers.rate, c.numbers.cutoff)
        if len(held) > _MOST_TRACKS:
            check(r, _calls.NOT_UNDERSTOOD)
        self._sources = open_all(held)
        try:
            self._open(c, r)
        except BaseException:
            self.close()
            raise

    def _open(self, c: _calls.Converter, r: _calls.Refusal) -> None:
        n = len(self._sources)
        self._record, self._numbers = c, _calls.AlbumNumbers()
        self._heads, self._marks = bytearray(_HEAD * n), array.array("Q", bytes(8 * (n + 1)))
        self._lengths = array.array("Q", [source.length for source in self._sources])
        for k, source in enumerate(self._sources):
            at = _HEAD * k
            if not source.read(0, memoryview(self._heads)[at:at + min(_HEAD, source.length)]):
                self._track_told(r, k, _calls.READ_FAILED)
        track = ctypes.c_uint64()
        with Lent() as lent:
            number = calls.album_open_call(*self._of_album(lent), ctypes.byref(self._numbers), *lent.write("marks", self._marks, "u64"),
                                           ctypes.byref(track), ctypes.byref(r.data), ctypes.byref(r.decibels))
        if number not in (0, _calls.NOT_UNDERSTOOD):
            self._track_told(r, track.value, number)
        check(r, number)
        c.numbers.channels = r.channels = self._numbers.channels
        check(r, calls.open_call(ctypes.byref(c.numbers), ctypes.byref(c.gain), ctypes.byref(c.taps), ctypes.byref(r.data),
                                 ctypes.byref(r.decibels)))

    def _of_album(self, lent: Lent) -> list[Any]:
        """Settings and files as the calls take them."""
        c = self._record
        return [ctypes.byref(c.numbers), ctypes.byref(c.gain), ctypes.byref(c.taps), *lent.read("heads", self._heads),
                *lent.read("lengths", self._lengths, "u64")]

    def _track_told(self, r: _calls.Refusal, track: int, number: int) -> None:
        """Raises that a track was refused or could not be read, and why a file was."""
        head = self._heads[_HEAD * track:_HEAD * (track + 1)]
        r.track, r.length = track, self._lengths[track]
        if 9 <= number <= 11:
            r.data[0] = r.data[1] = 0  # the field tells it
            with Lent() as lent:
                is_other = not calls.dsf_why_call(*lent.read("head", head), r.length, ctypes.byref(r.field))
            if is_other:  # a DSF file, and another than the first
                r.field.place = 48
                r.field.found, r.field.asked = (int.from_bytes(it[48:56], "little") for it in (head, self._heads))
        check(r, number)

    def _begin(self, call: int, length: int = 0) -> _calls.Refusal:
        numbers = self._record.numbers
        return begin(call, length, numbers.rate, numbers.cutoff, numbers.channels)

    # ---- what it is

    def close(self) -> None:
        """Closes its files."""
        for source in self._sources:
            source.close()

    def __enter__(self) -> Album:
        return self

    def __exit__(self, *_: object) -> None:
        self.close()

    @property
    def converter(self) -> Converter:
        """An open converter of its channels, for `run`."""
        return Converter._of(_calls.Converter.from_buffer_copy(self._record))

    @property
    def rate(self) -> int:
        return self._record.numbers.rate

    @property
    def channels(self) -> int:
        return self._numbers.channels

    @property
    def channel_type(self) -> int:
        """Sony's, 1 to 7."""
        return self._numbers.channel_type

    @property
    def frames(self) -> int:
        return self._numbers.frames

    @property
    def tracks(self) -> int:
        return len(self._sources)

    @property
    def data_bytes(self) -> int:
        """Of its packed samples, whole frames."""
        return self._numbers.data_bytes

    @property
    def filled(self) -> int:
        """Bytes of each channel that are filled up with 0x69 in the last frame."""
        return self._numbers.filled

    def track(self, number: int) -> range:
        """The samples of a track (from 0), as rows of `samples`; behind the last track's stand those of the fill."""
        if not 0 <= number < self.tracks:
            raise IndexError(f"the album has no track {number}: they are counted from 0")
        size = 3 * self.channels
        return range(self._marks[number] // size, self._marks[number + 1] // size)

    def header(self, track: int | None = None, format: str = "auto") -> Wave:
        """The WAV file of a track (from 0), or of all: `auto` has the plain header where it can, else the one that
        names loudspeakers, else RF64. Refused 5 where there is no such track, 12 where the plain one is asked and does
        not do.
        """
        if format not in FORMATS:
            raise ValueError(f"format {format!r}: there are {', '.join(FORMATS)}")
        r = self._begin(Call.ALBUM_HEADER)
        if track is not None and whole("track", track) >= self.tracks:
            r.data[0] = track
            check(r, 5)
        data = self.data_bytes if track is None else self._marks[track + 1] - self._marks[track]
        r.track, r.length = track or 0, data
        head, told = (ctypes.c_uint8 * _MOST_HEAD)(), _calls.Pair()
        number = calls.wave_header_call(FORMATS.index(format), self.rate, self.channels, self.channel_type, data, ctypes.byref(head),
                                        ctypes.byref(told))
        r.data[0], r.data[1] = self.channels, data
        check(r, number)
        return Wave(track, data, told[1], told[0] + data + told[1], bytes(head[:told[0]]))

    # ---- its pieces

    def __len__(self) -> int:
        """The number of its pieces."""
        return self._numbers.pieces

    def part(self, parts: int, part: int) -> range:
        """The pieces of part `part` (from 0) of `parts` (1 to 64); none where there is no such part."""
        pieces = _calls.Stretch()
        calls.album_part_call(self.frames, whole("parts", parts), whole("part", part), ctypes.byref(pieces))
        return range(pieces.begin, pieces.end)

    @property
    def memory(self) -> int:
        """Bytes of memory that serve every piece."""
        count, held = min(self.frames, _PIECE), min(self.frames, _PIECE + 2)
        return self.channels * (2 * held * _CHANNEL + self.tracks * 2 * 4095) + count * self._numbers.frame_bytes

    def _plan(self, r: _calls.Refusal, number: int) -> tuple[_calls.Plan, "array.array[int]"]:
        """A piece's numbers, and of each track the byte of its data at which to read, and how many."""
        plan, reads = _calls.Plan(), array.array("Q", bytes(16 * self.tracks))
        with Lent() as lent:
            check(r, calls.album_piece_call(*self._of_album(lent), whole("number", number), ctypes.byref(plan), *lent.write("reads", reads, "u64")))
        if plan.count == 0:
            r.data[0] = number
            check(r, 5)
        return plan, reads

    def _read(self, r: _calls.Refusal, plan: _calls.Plan, reads: "array.array[int]", memory: memoryview, more: int) -> None:
        """Reads what a piece needs to the beginning of the memory."""
        needed = plan.window + plan.scratch + more
        if len(memory) < needed:
            r.data[0], r.data[1] = len(memory), needed
            check(r, 7)
        at = 0
        for k, source in enumerate(self._sources):
            place, count = reads[2 * k], reads[2 * k + 1]
            if count and not source.read(_HEAD + place, memory[at:at + count]):
                self._track_told(r, k, _calls.READ_FAILED)
            at += count

    def _room(self, memory: Buffer | None, call: int) -> tuple[memoryview, _calls.Refusal]:
        view = flat("memory", bytearray(self.memory) if memory is None else memory)
        if view.readonly and view.nbytes:
            raise BufferError("memory: it can only be read")
        return view, self._begin(call, len(view))

    def planned(self, number: int) -> Piece:
        """A piece (from 0) as it is planned; nothing is read. Refused 5 where there is no such piece."""
        plan, _ = self._plan(self._begin(Call.ALBUM_PIECE), number)
        return Piece(number, plan.first, plan.count, plan.place, plan.bytes, self.channels, memoryview(b""), Stats())

    def piece(self, number: int, memory: Buffer | None = None) -> Piece:
        """A piece, converted; its bytes stand in `memory` where that is given. Refused 5, then 7 where that is too
        small; 254.
        """
        view, r = self._room(memory, Call.ALBUM_PIECE)
        plan, reads = self._plan(r, number)
        self._read(r, plan, reads, view, plan.bytes)
        begins, ends = plan.window + plan.scratch, plan.window + plan.scratch + plan.bytes
        stats = Stats()
        with Lent() as lent:
            check(r, calls.album_step_call(*self._of_album(lent), plan.first, plan.count, *lent.read("windows", view[:plan.window]),
                                           *lent.write("scratch", view[plan.window:begins]), *lent.write("out", view[begins:ends]),
                                           ctypes.byref(stats._record), ctypes.byref(r.data), ctypes.byref(r.decibels)))
        return Piece(number, plan.first, plan.count, plan.place, plan.bytes, self.channels, view[begins:ends], stats)

    def __iter__(self) -> Iterator[Piece]:
        return (self.piece(number) for number in range(len(self)))

    def write(self, wave: Wave, piece: Piece) -> tuple[memoryview, range]:
        """What of a piece goes to a file that `header` told, and on which bytes of it that stands, its header counted;
        none where it has nothing of the piece. Of a piece that is planned alone there are no bytes.
        """
        marks = array.array("Q", (0, wave.data) if wave.track is None else self._marks[wave.track:wave.track + 2])
        told = array.array("Q", bytes(24))
        with Lent() as lent:
            calls.album_writes_call(*lent.read("marks", marks, "u64"), piece.place, piece.length, *lent.write("told", told, "u64"))
        begins, ends, at = told[0], told[1], len(wave.head) + told[2]
        return piece.bytes[begins:ends], range(at, at + ends - begins)

    def run(self, number: int, memory: Buffer | None = None) -> Run:
        """The frames of a piece with their neighbours, not converted, as a run of `converter`; the album's last is
        filled up with 0x69.
        """
        view, r = self._room(memory, Call.ALBUM_FRAMES)
        plan, reads = self._plan(r, number)
        self._read(r, plan, reads, view, 0)
        frames = view[plan.window:plan.window + plan.scratch]
        with Lent() as lent:
            check(r, calls.album_frames_call(*self._of_album(lent), plan.first, plan.count, *lent.read("windows", view[:plan.window]),
                                             *lent.write("scratch", frames), ctypes.byref(r.data), ctypes.byref(r.decibels)))
        return self.converter.cut(frames, 1 if plan.first else 0, plan.count)

    # ---- all of it

    def _each(self, work: Callable[[int, bytearray], object], threads: int | None, progress: Progress | None) -> None:
        """Does the pieces by some threads, each with memory of its own; none is begun any more where one fails."""
        own = threading.local()

        def one(number: int) -> None:
            if not hasattr(own, "memory"):
                own.memory = bytearray(self.memory)
            work(number, own.memory)

        with concurrent.futures.ThreadPoolExecutor(threads or len(os.sched_getaffinity(0))) as pool:
            waiting = [pool.submit(one, number) for number in range(len(self))]
            try:
                for done, it in enumerate(concurrent.futures.as_completed(waiting), 1):
                    it.result()
                    if progress is not None:
                        progress(done, len(waiting))
            except BaseException:
                for it in waiting:
                    it.cancel()
                raise

    def samples(self, threads: int | None = None, progress: Progress | None = None) -> tuple[Samples, Stats]:
        """All of its samples, and what they tell. With numpy an array of int32, a row a sample and a column a channel.

        `threads`: as many as there are processors where None. `progress` is called with the pieces done and all.
        """
        rows = self.data_bytes // (3 * self.channels)
        made, stats, converter = new_samples(rows, self.channels), Stats(), self.converter
        whole_view = memoryview(made).cast("B").cast("i") if rows else memoryview(b"")

        def work(number: int, memory: bytearray) -> None:
            place = self.planned(number)
            _, told = converter.convert_run(self.run(number, memory), out=whole_view[place.place // 3:(place.place + place.length) // 3])
            stats.join(told)

        self._each(work, threads, progress)
        return made, stats

    def _write(self, names: Iterable[Path], waves: Sequence[Wave], replace: bool, threads: int | None, progress: Progress | None) -> Stats:
        paths = list(names)
        if len(paths) != len(waves):
            raise ValueError(f"{len(paths)} names for {len(waves)} files")
        if len({os.path.realpath(path) for path in paths}) < len(paths):
            raise ValueError("two files are to have one name")
        for path in paths:
            if any(source.is_at(path) for source in self._sources):
                raise ValueError(f"{os.fspath(path)} is a track of the album")
        stats = Stats()
        with contextlib.ExitStack() as stack:
            files: list[Made] = []
            for path in paths:
                files.append(Made(path, replace))
                stack.callback(files[-1].drop)

            def work(number: int, memory: bytearray) -> None:
                piece = self.piece(number, memory)
                for file, wave in zip(files, waves):
                    data, places = self.write(wave, piece)
                    file.write(data, places.start)
                stats.join(piece.stats)

            for file, wave in zip(files, waves):
                file.write(wave.head, 0)
                file.write(bytes(wave.pad), wave.length - wave.pad)
            self._each(work, threads, progress)
            name_all(files)
        return stats

    def write_wav(self, path: Path, format: str = "auto", replace: bool = False, threads: int | None = None,
                  progress: Progress | None = None) -> Stats:
        """One WAV file of all, whole or not at all, and what its samples tell. `threads` and `progress` as of
        `samples`.
        """
        return self._write([path], [self.header(None, format)], replace, threads, progress)

    def write_tracks(self, paths: Iterable[Path], format: str = "auto", replace: bool = False, threads: int | None = None,
                     progress: Progress | None = None) -> Stats:
        """A WAV file a track, each whole or not at all, and what the album's samples tell."""
        return self._write(paths, [self.header(track, format) for track in range(self.tracks)], replace, threads, progress)
