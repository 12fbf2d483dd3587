"""Tracks: DSF files that are read at places, by threads at once."""

from __future__ import annotations

import os
import weakref
from typing import Sequence, Union

from ._kinds import Buffer, Path, flat

Track = Union[Path, Buffer]


class Source:
    """A file by its path, or one in memory."""

    def __init__(self, track: Track) -> None:
        self._file = -1
        if isinstance(track, (str, os.PathLike)):
            file = os.open(track, os.O_RDONLY | os.O_CLOEXEC)
            self._closed = weakref.finalize(self, os.close, file)
            try:
                self.length = os.lseek(file, 0, os.SEEK_END)
            except OSError as e:
                self._closed()
                raise OSError(e.errno, e.strerror, os.fspath(track)) from None
            self._file = file
        else:
            self._view = flat("a track", track)
            self._closed = weakref.finalize(self, self._view.release)
            self.length = len(self._view)

    def read(self, place: int, to: memoryview) -> bool:
        """Reads as many bytes as there is room for; whether there were as many."""
        if not self._closed.alive:
            raise ValueError("the album is closed")
        if self._file < 0:
            part = self._view[place:place + len(to)]
            if len(part) == len(to):
                to[:] = part
            return len(part) == len(to)
        while to:
            n = os.preadv(self._file, [to], place)
            if n == 0:
                return False
            to, place = to[n:], place + n
        return True

    def is_at(self, path: Path) -> bool:
        """Whether it is the file that has this name."""
        return self._file >= 0 and os.path.exists(path) and os.path.samestat(os.fstat(self._file), os.stat(path))

    def close(self) -> None:
        self._closed()


def open_all(tracks: Sequence[Track]) -> list[Source]:
    held: list[Source] = []
    try:
        for track in tracks:
            held.append(Source(track))
    except BaseException:
        for source in held:
            source.close()
        raise
    return held
