#!/usr/bin/env python3
"""Tries the headers of WAV files: beside Python's `struct`, and by what other programs find in files that begin with
them.

Usage: compare/headers.py [LIBRARY], in the repository's folder; LIBRARY has `puigneht_wave_header_call`
(target/staticlib/libpuigneht_album.a, which `make` builds). It takes cc, ffmpeg, sox, sndfile-programs and mediainfo.
Large files are sparse: gigabytes that take no room. It says how many of each it tried, and stops at the first that
differs.
"""
import ctypes
import itertools
import json
import os
import random
import re
import struct
import subprocess
import sys
import tempfile
import uuid

RATES = [88200, 176400, 352800]
# a channel type's loudspeakers: their mask, and what ffprobe calls them
TYPES = {1: (0x4, "mono"), 2: (0x3, "stereo"), 3: (0x7, "3.0"), 4: (0x33, "quad"), 5: (0xF, "3.1"), 6: (0x37, "5.0"), 7: (0x3F, "5.1")}
PCM = uuid.UUID("00000001-0000-0010-8000-00aa00389b71").bytes_le

# what libsndfile remarks: on every odd data size, padded or not; on whole numbers told by a sub-format without a `fact`
# chunk, which other formats need; and on plain files that the eight bytes before what their size counts take past 32
# bits
REMARKS = [
    "*** 'data' chunk should be an even number of bytes in length.\n",
    "**** All non-PCM format files should have a 'fact' chunk.\n",
    "Warning : filelength > 0xffffffff. This is bad!!!!\n",
]


def run(*words):
    """What a program prints. It may complain of nothing; that a plain header names no loudspeakers ffmpeg says."""
    done = subprocess.run(words, check=True, stdout=subprocess.PIPE, stderr=subprocess.PIPE, timeout=60)
    complaints = [line for line in done.stderr.splitlines() if b"Guessed Channel Layout" not in line]
    assert not complaints, (words, complaints)
    return done.stdout


def loaded(library, folder):
    shared = f"{folder}/headers.so"
    run("cc", "-shared", "-o", shared, "-Wl,-u,puigneht_wave_header_call", library)
    return ctypes.CDLL(shared).puigneht_wave_header_call


def called(call, asked, rate, channels, channel_type, n):
    """The answer, and what was written: the list was filled with 7, and so were the two numbers."""
    out, told = (ctypes.c_uint8 * 104)(*[7] * 104), (ctypes.c_uint64 * 2)(7, 7)
    numbers = [ctypes.c_uint64(x) for x in (asked, rate, channels, channel_type, n)]
    return call(*numbers, out, told) & 255, bytes(out), tuple(told)


# ---- beside `struct`


def speakers(channel_type):
    return TYPES[channel_type][0] if channel_type in TYPES else 0


def laid_out(asked, rate, channels, channel_type, n):
    """The header that such a file begins with, or none."""
    mask = speakers(channel_type)
    named, block, padded = channels > 2, 3 * channels, n + n % 2
    if channels < 1 or channels != mask.bit_count() or n % block or (asked == 1 and named):
        return None
    fmt = struct.pack("<HHIIHH", 0xFFFE if named else 1, channels, rate, rate * block, block, 24)
    if named:
        fmt += struct.pack("<HHI", 22, 24, mask) + PCM
    fmt = struct.pack("<4sI", b"fmt ", len(fmt)) + fmt
    size = 4 + len(fmt) + 8 + padded
    if asked != 2 and size < 2**32:
        return struct.pack("<4sI4s", b"RIFF", size, b"WAVE") + fmt + struct.pack("<4sI", b"data", n)
    if asked == 1 or size + 36 >= 2**64:
        return None
    ds64 = struct.pack("<4sIQQQI", b"ds64", 28, size + 36, n, n // block, 0)
    return struct.pack("<4sI4s", b"RF64", 2**32 - 1, b"WAVE") + ds64 + fmt + struct.pack("<4sI", b"data", 2**32 - 1)


def expected(asked, rate, channels, channel_type, n):
    if asked > 2 or rate not in RATES:
        return 255, bytes([7] * 104), (7, 7)
    head = laid_out(asked, rate, channels, channel_type, n)
    if head is None:
        return 12, bytes([7] * 104), (7, 7)
    return 0, head.ljust(104, b"\x07"), (len(head), n % 2)


def cases():
    source = random.Random(44)
    for asked, rate, channels, channel_type in itertools.product(range(3), RATES, range(8), range(9)):
        block = 3 * max(channels, 1)
        near = (2**32 - source.randrange(40, 72)) // block * block
        yield from ((asked, rate, channels, channel_type, n) for n in (0, block, near, near + block, block * source.randrange(2**33), block + 1))
        if channels == speakers(channel_type).bit_count():
            last = [2**32 - k for k in range(30, 110)] + [2**64 - k for k in range(1, 130)] + [source.randrange(2**64) for _ in range(30)]
            yield from ((asked, rate, channels, channel_type, n // block * block) for n in last)
    for asked, rate in ((3, 88200), (2**64 - 1, 88200), (256, 176400), (0, 0), (1, 44100), (2, 2**32 + 88200)):
        yield asked, rate, 2, 2, 600
    yield 0, 88200, 2**32 + 2, 2, 600
    yield 0, 88200, 2, 2**32 + 2, 600


# ---- by other programs


def wave(call, path, asked, rate, channel_type, data, count=None):
    """A file of these bytes, or a sparse one of `count` bytes that ends with them; its channels."""
    channels = speakers(channel_type).bit_count()
    n = len(data) if count is None else count
    answer, head, (length, pad) = called(call, asked, rate, channels, channel_type, n)
    assert answer == 0, (asked, rate, channel_type, n)
    with open(path, "wb") as out:
        out.write(head[:length])
        out.seek(length + n - len(data))
        out.write(data + bytes(pad))
    return channels


def probed(path):
    told = json.loads(run("ffprobe", "-v", "warning", "-of", "json", "-show_streams", path))["streams"][0]
    return int(told["sample_rate"]), told["channels"], told["duration_ts"], told.get("channel_layout", "")


def sndfile(path):
    text = run("sndfile-info", path).decode()
    for remark in REMARKS:
        text = text.replace(remark, "")
    found = lambda word: re.search(rf"^ *{word} *: *(\w+)", text, re.M)
    assert not re.search(r"error|warning|\*\*\*", text, re.I), text
    mask = found("Channel Mask")
    return int(found("Sample Rate")[1]), int(found("Channels")[1]), int(found("Frames")[1]), int(mask[1], 16) if mask else 0


def looked_at(path, rate, channels, channel_type, frames):
    mask, layout = TYPES[channel_type]
    told = probed(path)
    assert told[:3] == (rate, channels, frames) and (channels < 3 or told[3] == layout), (path, told)
    assert sndfile(path) == (rate, channels, frames, mask if channels > 2 else 0), (path, sndfile(path))


def small(call, folder):
    source, path, raw = random.Random(1), f"{folder}/small.wav", f"{folder}/small.raw"
    count = 0
    for asked, rate, channel_type, frames in itertools.product((0, 2), RATES, TYPES, (600, 601)):
        channels = speakers(channel_type).bit_count()
        data = source.randbytes(3 * channels * frames)
        wave(call, path, asked, rate, channel_type, data)
        looked_at(path, rate, channels, channel_type, frames)
        assert run("ffmpeg", "-v", "warning", "-i", path, "-f", "s24le", "-c:a", "pcm_s24le", "-") == data, path
        assert run("sox", path, "-t", "raw", "-e", "signed", "-b", "24", "-L", "-") == data, path
        run("sndfile-convert", "-pcm24", path, raw)
        assert open(raw, "rb").read() == data, path
        count += 1
    return count


def large(call, folder):
    path = f"{folder}/large.wav"
    files = [(352800, 2, 352800 * 74 * 60), (88200, 7, 88200 * 60 * 60 + 1), (352800, 1, 352800 * 70 * 60 + 1)]
    files += [(176400, 2, (2**32 - 37) // 6), (176400, 2, (2**32 - 37) // 6 + 1), (176400, 6, (2**32 - 61) // 15)]
    for rate, channel_type, frames in files:
        channels = speakers(channel_type).bit_count()
        last = random.Random(2).randbytes(3 * channels * rate)
        wave(call, path, 0, rate, channel_type, last, 3 * channels * frames)
        looked_at(path, rate, channels, channel_type, frames)
        told = json.loads(run("mediainfo", "--Output=JSON", path))["media"]["track"][1]
        assert int(told["SamplingCount"]) == frames and int(told["Channels"]) == channels, told
        end = run("ffmpeg", "-v", "warning", "-ss", str(frames // rate - 1), "-i", path, "-f", "s24le", "-c:a", "pcm_s24le", "-")
        assert end[-len(last):] == last, path
        os.remove(path)
    return len(files)


def main():
    with tempfile.TemporaryDirectory() as folder:
        call = loaded((sys.argv[1:] or ["target/staticlib/libpuigneht_album.a"])[0], folder)
        tried = list(cases())
        for case in tried:
            assert called(call, *case) == expected(*case), case
        print(f"headers: {len(tried)}")
        print(f"small files: {small(call, folder)}")
        print(f"large files: {large(call, folder)}")


if __name__ == "__main__":
    main()
