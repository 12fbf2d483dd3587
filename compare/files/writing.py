"""Writes cases of crates/test_files: data/written and data/lengths, as reading.py does.

The file of some frames is made by layout.write from the frames' samples: request 9 of document 02 asks for it lowest
bit first, padded with zero bytes, with no metadata and the channel types 1, 2, 3, 4, 6, 7."""

import itertools
import sys

from layout import FRAME, digest, noise, write
from reading import HIGH, JUNK, stored

TYPES = {1: 1, 2: 2, 3: 3, 4: 4, 5: 6, 6: 7}  # by channels
MOST = 540000


def samples_of(channels, frames):
    """The channels' samples out of frames in our layout: bytes in turn, the earliest sample in the highest bit."""
    return ["".join(format(b, "08b") for b in frames[c::channels]) for c in range(channels)]


def written(channels, frames):
    return write(TYPES[channels], 1, samples_of(channels, frames))


def length_verdict(channels, size):
    """1, 4 or 5 with its data; or 0 and the file's length."""
    if channels not in TYPES:
        return (1, channels, 0), 0
    frames, rest = divmod(size, FRAME * channels)
    if rest:
        return (4, size, 0), 0
    if frames > MOST:
        return (5, frames, 0), 0
    blocks = -(-frames * FRAME // 4096)
    return (0, 0, 0), 92 + blocks * 4096 * channels


def written_case(channels, size, seed, room):
    answer, length = length_verdict(channels, size)
    if answer[0] == 0 and room != length:
        answer = (7, room, length)
    out = bytes([JUNK]) * room
    if answer[0] == 0:
        out = written(channels, noise(seed, size))
        assert len(out) == room
    return channels, size, seed, room, *answer, digest(out)


def written_cases():
    seeds = itertools.count(5001)
    for channels, frames in itertools.product(TYPES, (0, 1, 2, 8)):
        size = FRAME * channels * frames
        length = length_verdict(channels, size)[1]
        for room in (length, length - 1, length + 1, 0, 92):
            yield channels, size, next(seeds), room
    for channels in TYPES:
        for size in (1, FRAME * channels - 1, FRAME * channels + 1, FRAME * channels * 2 - channels):
            yield channels, size, next(seeds), 92
    for channels, size in itertools.product((0, 7, 8, 255), (0, 1, FRAME)):
        yield channels, size, next(seeds), 92


def lengths():
    for channels in (0, 1, 2, 3, 4, 5, 6, 7, 255):
        frame = FRAME * max(channels, 1)
        for frames in (0, 1, 2, 3, 7, 8, 4096, 75 * 3600, MOST - 1, MOST, MOST + 1, HIGH // frame):
            yield channels, frames * frame
        for size in (1, frame - 1, frame + 1, MOST * frame + 1, HIGH):
            yield channels, size


def length_case(channels, size):
    answer, length = length_verdict(channels, size)
    return channels, size, *answer, length


def main(to):
    cases = [written_case(*one) for one in written_cases()]
    stored(to, "written", cases, sum(case[4] == 0 for case in cases))
    found = [length_case(*one) for one in lengths()]
    stored(to, "lengths", found, sum(case[2] == 0 for case in found))


if __name__ == "__main__":
    main(sys.argv[1])
