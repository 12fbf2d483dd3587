"""One-bit audio (DSD64) to 24-bit PCM, over the proved calls of libpuigneht.so.

    import puigneht
    album = puigneht.Album("album.dsf", rate=352800)
    samples, stats = album.samples()

Whole albums: `Album`, over one file or its tracks. Frames that are in memory, 1 to 6 channels: `Converter`. What is
refused raises `Refused`, with its number, its data and a sentence. Buffers are lent without a copy, and looked at
before the call: what is no buffer or has other items raises TypeError, what can only be read or is not contiguous
BufferError, what overlaps ValueError. Python's lock is not held while the library works, so threads convert at once.
"""

from . import dsf, wav
from ._album import Album, Piece, Wave
from ._calls import VERSION as __version__
from ._calls import calls as _calls_of_library
from ._converter import CUTOFFS, RATES, Converter, Run
from ._overs import Overs
from ._refusal import Field, Refused
from ._stats import Stats, sheet
from ._turns import Turn, turns

library_version: str = _calls_of_library.version
FRAME_BYTES = dsf.CHANNEL_BYTES
"""Of each channel in a frame, 1/75 of a second."""

__all__ = ["CUTOFFS", "FRAME_BYTES", "RATES", "Album", "Converter", "Field", "Overs", "Piece", "Refused", "Run", "Stats", "Turn", "Wave",
           "__version__", "dsf", "library_version", "sheet", "turns", "wav"]
