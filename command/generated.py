"""Albums of 300 frames and more, made from a seed, and where their answers are stored: command/stored/albums, which
compare/long_albums.py writes with the original. A line of numbers for each (`Case`), and the lines of its sheet; the
SHA-256 of the DSF file tells that this generator still makes the same.
"""
import hashlib
import os
import random
from typing import NamedTuple

import files

FRAME = 4704
STORED = os.path.join(os.path.dirname(os.path.abspath(__file__)), "stored", "albums")


class Case(NamedTuple):
    rate: int
    cutoff: int
    db: int
    channels: int
    bits: int
    samples: int
    seed: int

    def options(self):
        return ["-r", str(self.rate), "-c", ["standard", "low", "wide"][self.cutoff], "-g", str(self.db)]


def cases():
    """Each route in mono and in stereo, each bit order with both. The last frame has one byte, all but one, some or
    all; pieces of 128 frames come out even, or a byte is left over."""
    source = random.Random(24)
    routes = [(rate, cutoff) for rate in (88200, 176400, 352800) for cutoff in (0, 1, 2) if rate > 88200 or cutoff < 2]
    for k, (rate, cutoff) in enumerate(routes * 2):
        frames, some = source.randrange(300, 400), source.randrange(FRAME)
        count = [frames * FRAME + 1, 384 * FRAME, frames * FRAME - 1, 384 * FRAME + 1, frames * FRAME + some][k % 5]
        yield Case(rate, cutoff, source.choice([-6, 0, 3, 9]), 1 + (k // 8 + k) % 2, 8 if k % 3 else 1, 8 * count, 100 + k)


def sounds(case):
    """Bytes of each channel, the earliest bit highest: stretches of noise, of bytes that repeat, and of loud square
    waves."""
    source, count = random.Random(case.seed), case.samples // 8

    def stretch():
        length, kind = source.randrange(500, 9000), source.randrange(4)
        if kind == 0:
            return bytes([source.randrange(256)]) * length
        if kind == 1:
            return (b"\xff" * source.randrange(40, 400) + bytes([source.choice((0, 0x10, 0x69))]) * 150) * (length // 300 + 1)
        return source.randbytes(length)

    def channel():
        made = bytearray()
        while len(made) < count:
            made += stretch()
        return bytes(made[:count])

    return [channel() for _ in range(case.channels)]


def dsf(case):
    return files.laid_out(sounds(case), case.bits, case.samples)


def digest(data):
    return hashlib.sha256(data).hexdigest()


def stored():
    """The cases with the digests of their files and their sheets."""
    with open(STORED) as file:
        texts = file.read().split("\n\n")
    for text in texts:
        line, *sheet = text.rstrip("\n").split("\n")
        *numbers, file, wav = line.split()
        yield Case(*map(int, numbers)), file, wav, "".join(row + "\n" for row in sheet)
