"""Albums to try the command with, laid out from Sony's DSF document, and what Python's `wave` reads in a WAV file.

files.py write PATH CHANNELS BITS SAMPLES FILL [METADATA]
                                    BITS 1: lowest bit first, 8: highest; FILL: a byte, or `random`
files.py long PATH FRAMES SILENT    stereo, a sparse file of zero bytes whose last SILENT frames are silent
files.py look PATH RATE CHANNELS FRAMES
                                    all fields, and the file's length
files.py value PATH FROM TO VALUE   all channels of sample FROM to TO (not with it) are VALUE
files.py begins PATH OTHER SAMPLES  the first SAMPLES samples of all channels are the same
"""
import os
import random
import sys
import wave

BLOCK = 4096
MIRROR = bytes(int(f"{b:08b}"[::-1], 2) for b in range(256))
TYPES = {1: 1, 2: 2, 3: 3, 4: 4, 5: 6, 6: 7}


def head(channels, bits, samples, data, metadata, kind=None):
    length = 92 + data + metadata
    n4 = lambda v: v.to_bytes(4, "little")
    n8 = lambda v: v.to_bytes(8, "little")
    return (b"DSD " + n8(28) + n8(length) + n8(92 + data if metadata else 0)
            + b"fmt " + n8(52) + n4(1) + n4(0) + n4(kind or TYPES[channels]) + n4(channels) + n4(2822400) + n4(bits) + n8(samples) + n4(BLOCK)
            + n4(0) + b"data" + n8(12 + data))


def groups_of(samples):
    return -(-samples // (8 * BLOCK))


def header(channels, bits, samples, metadata=0, kind=None):
    """Of a file whose data are just what its samples need."""
    return head(channels, bits, samples, groups_of(samples) * channels * BLOCK, metadata, kind)


def stated(file):
    return int.from_bytes(file[12:20], "little")


def laid_out(sounds, bits, samples, metadata=0, kind=None):
    """A file of the channels' bytes, which are the same for both bit orders: the earliest bit highest, mirrored where
    the lowest is the earliest. It ends where its metadata begin."""
    sounds = [s.translate(MIRROR) if bits == 1 else s for s in sounds]
    blocks = [s[g * BLOCK:(g + 1) * BLOCK].ljust(BLOCK, b"\0") for g in range(groups_of(samples)) for s in sounds]
    return header(len(sounds), bits, samples, metadata, kind) + b"".join(blocks)


def write(path, channels, bits, samples, fill, metadata=0):
    count = samples // 8
    source = random.Random(1)
    sounds = [source.randbytes(count) if fill == "random" else bytes([int(fill, 0)]) * count for _ in range(channels)]
    with open(path, "wb") as out:
        out.write(laid_out(sounds, bits, samples, metadata))
        out.truncate(out.tell() + metadata)


def long(path, frames, silent):
    samples = frames * 37632
    count, idle = samples // 8, (frames - silent) * 4704
    with open(path, "wb") as out:
        out.write(head(2, 8, samples, groups_of(samples) * 2 * BLOCK, 0))
        for g in range(idle // BLOCK, groups_of(samples)):
            block = bytes(0x69 if idle <= p < count else 0 for p in range(g * BLOCK, (g + 1) * BLOCK))
            out.seek(92 + g * 2 * BLOCK)
            out.write(block * 2)


def look(path, rate, channels, frames):
    samples = frames * rate // 75
    with wave.open(path, "rb") as file:
        found = (file.getframerate(), file.getnchannels(), file.getsampwidth(), file.getnframes(), file.getcomptype())
    assert found == (rate, channels, 3, samples, "NONE"), found
    assert os.path.getsize(path) == 44 + samples * channels * 3, os.path.getsize(path)


def samples_of(path, start, end):
    with wave.open(path, "rb") as file:
        file.setpos(start)
        return file.readframes(end - start)


def value(path, start, end, number):
    with wave.open(path, "rb") as file:
        expected = (number & 0xFFFFFF).to_bytes(3, "little") * ((end - start) * file.getnchannels())
    assert samples_of(path, start, end) == expected, samples_of(path, start, end)[:24]


def begins(path, other, count):
    assert samples_of(path, 0, count) == samples_of(other, 0, count)


TAKEN = {"write": write, "long": long, "look": look, "value": value, "begins": begins}
WORDS = {"random"}


def main():
    name, path, *rest = sys.argv[1:]
    numbers = [w if w in WORDS or not w.lstrip("-").isdigit() else int(w) for w in rest]
    if name == "write":
        numbers[3] = rest[3]
    TAKEN[name](path, *numbers)


if __name__ == "__main__":
    main()
