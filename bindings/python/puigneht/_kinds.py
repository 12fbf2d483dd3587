"""Buffers as types, and samples as numpy's where numpy is."""

from __future__ import annotations

import array
import functools
import importlib
import mmap
import os
from typing import Any, Protocol, Union, cast


class _Array(Protocol):
    """A numpy array, say."""

    @property
    def nbytes(self) -> int: ...

    def tobytes(self) -> bytes: ...


Buffer = Union[bytes, bytearray, memoryview, "array.array[Any]", mmap.mmap, _Array]
Path = Union[str, "os.PathLike[str]"]
Samples = Any
"""A numpy array of int32, a row a sample and a column a channel, where numpy is; else an array.array("i"), the channels
in turn."""

@functools.lru_cache(maxsize=None)
def _numpy() -> Any:
    """Looked for where samples are made, since not every program needs it."""
    try:
        return importlib.import_module("numpy")
    except ImportError:
        return None


def new_samples(rows: int, channels: int) -> Samples:
    numpy = _numpy()
    if numpy is None:
        return array.array("i", bytes(4)) * (rows * channels)
    return numpy.zeros((rows, channels), numpy.int32)


def as_rows(samples: "array.array[int]", channels: int) -> Samples:
    numpy = _numpy()
    return samples if numpy is None else numpy.frombuffer(samples, numpy.int32).reshape(-1, channels)


def flat(what: str, value: Buffer) -> memoryview:
    """The bytes of a buffer of bytes, not copied."""
    try:
        view = memoryview(cast(Any, value))
    except TypeError:
        raise TypeError(f"{what}: a buffer is needed, not {type(value).__name__}") from None
    if view.itemsize != 1 or view.format not in ("B", "c"):
        raise TypeError(f"{what}: bytes are needed, not items of format {view.format!r}")
    if not view.c_contiguous:
        raise BufferError(f"{what}: the bytes do not stand next to each other")
    return view.cast("B") if view.nbytes else memoryview(b"")
