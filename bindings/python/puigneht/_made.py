"""Files that appear whole or not at all: each is made beside its place under another name."""

from __future__ import annotations

import errno
import os
import secrets
from typing import Sequence

from ._kinds import Path


def _is_dsf(path: str) -> bool:
    if not os.path.isfile(path):
        return False
    with open(path, "rb") as file:
        return file.read(4) == b"DSD "


class Made:
    """A file that is being made. One that is there is replaced where that is asked for, and a DSF file never."""

    def __init__(self, path: Path, replace: bool) -> None:
        self.path, self.replace = os.fspath(path), replace
        if not replace and os.path.lexists(self.path):
            raise FileExistsError(errno.EEXIST, os.strerror(errno.EEXIST), self.path)
        if _is_dsf(self.path):
            raise ValueError(f"{self.path} is a DSF file, and none is replaced")
        self.beside = os.path.join(os.path.dirname(self.path), f".puigneht-{secrets.token_hex(8)}.part")
        try:
            self._file = os.open(self.beside, os.O_RDWR | os.O_CREAT | os.O_EXCL | os.O_CLOEXEC, 0o666)
        except OSError as e:
            raise self._of(e) from None

    def _of(self, e: OSError) -> OSError:
        """With the name that was asked for."""
        return OSError(e.errno, e.strerror, self.path)

    def write(self, data: bytes | memoryview, place: int) -> None:
        view = memoryview(data)
        while view:
            n = os.pwrite(self._file, view, place)
            view, place = view[n:], place + n

    def sync(self) -> None:
        os.fsync(self._file)

    def name(self) -> None:
        """Gives it its name."""
        if self.replace:
            os.replace(self.beside, self.path)
            return
        try:
            os.link(self.beside, self.path)
        except OSError as e:
            if e.errno not in (errno.EPERM, errno.EOPNOTSUPP, errno.ENOSYS, errno.EMLINK):
                raise self._of(e) from None
            if os.path.lexists(self.path):  # a file system without links
                raise FileExistsError(errno.EEXIST, os.strerror(errno.EEXIST), self.path) from None
            os.rename(self.beside, self.path)

    def drop(self) -> None:
        """What is left of it under the other name."""
        os.close(self._file)
        try:
            os.unlink(self.beside)
        except FileNotFoundError:
            pass


def name_all(files: Sequence[Made]) -> None:
    """All of them get their names, or none that is new."""
    for file in files:
        file.sync()
    named: list[Made] = []
    try:
        for file in files:
            file.name()
            named.append(file)
    except BaseException:
        for file in named:
            if not file.replace:
                os.unlink(file.path)
        raise
