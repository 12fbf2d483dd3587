"""The library beside ffmpeg and beside the script: see compare/dsf.

Usage: beside.py CALLS WORK [SEED [FILES [HEADERS]]]"""

import random
import struct
import subprocess
import sys

from layout import BLOCK, CHANNELS, FIELDS, FRAME, IDLE, PLACES, frame, header, needed, opened, read, unpacked, write
from writing import TYPES, written

HIGH = 2**64 - 1
ANSWER = struct.Struct("<B5Q")


def call(calls, words, given):
    return subprocess.run([calls, *words], input=given, stdout=subprocess.PIPE, check=True).stdout


def ffmpeg(work, file):
    """Channels, bits per sample and payload of each channel as ffmpeg's demuxer gives them."""
    path = work + "/beside.dsf"
    with open(path, "wb") as out:
        out.write(file)
    shown = subprocess.run(["ffprobe", "-v", "error", "-show_entries", "stream=codec_name,channels,sample_rate", "-of", "csv=p=0", path],
                           stdout=subprocess.PIPE, text=True, check=True).stdout
    codec, rate, channels = shown.strip().split(",")
    assert rate == "352800"  # bytes of a channel a second
    data = subprocess.run(["ffmpeg", "-v", "error", "-i", path, "-map", "0:a", "-c", "copy", "-f", "data", "-"], stdout=subprocess.PIPE,
                          check=True).stdout
    channels = int(channels)
    payload = [bytearray() for _ in range(channels)]
    for at in range(0, len(data), BLOCK * channels):  # a packet has a block of each channel; the last one is short
        packet = data[at:at + BLOCK * channels]
        size = len(packet) // channels
        for c in range(channels):
            payload[c] += packet[c * size:(c + 1) * size]
    return channels, {"dsd_lsbf_planar": 1, "dsd_msbf_planar": 8}[codec], payload


def as_frames(bits, payload):
    """The payload in our layout."""
    size = len(payload[0])
    short = -size % FRAME
    turned = [bytes(int(unpacked(bits, b), 2) for b in channel) + bytes([IDLE]) * short for channel in payload]
    return bytes(b for together in zip(*turned) for b in together)


def random_file(rng):
    kind = rng.choice(list(CHANNELS))
    bits = rng.choice((1, 8))
    size = rng.choice((1, BLOCK - 1, BLOCK, BLOCK + 1, FRAME, FRAME + 1, 2 * BLOCK, rng.randrange(1, 40000)))
    samples = [format(rng.getrandbits(8 * size), "0%db" % (8 * size)) for _ in range(CHANNELS[kind])]
    behind = rng.randbytes(rng.choice((0, 0, 1, 300)))
    padding = iter(rng.randbytes(6 * BLOCK))
    need = 92 + needed(CHANNELS[kind], 8 * size)
    return write(kind, bits, samples, padding, behind, pointer=need if behind else 0)


def reads(calls, work, rng, n):
    """Random files of the script: our reader, and the script's, beside ffmpeg."""
    equal = 0
    for _ in range(n):
        file = random_file(rng)
        channels, bits, payload = ffmpeg(work, file)
        got = call(calls, ["read"], file)
        verdict, _, our_channels, our_bits, count, frames = ANSWER.unpack(got[:41])
        theirs = as_frames(bits, payload)
        script = b"".join(frame(read(file), f) for f in range(opened(file, len(file))[1][4]))
        equal += (verdict, our_channels, our_bits, count) == (0, channels, bits, 8 * len(payload[0])) and got[41:] == theirs == script
        assert frames * FRAME * channels == len(got) - 41
    return n, equal


def writes(calls, work, rng):
    """Files that our writer wrote, of 1 to 6 channels, beside ffmpeg and beside the script's."""
    asked = [(channels, frames) for channels in TYPES for frames in (1, 2, 3, 7, 8)]
    equal = 0
    for channels, frames in asked:
        given = rng.randbytes(FRAME * channels * frames)
        got = call(calls, ["write", str(channels)], given)
        their_channels, bits, payload = ffmpeg(work, got[1:])
        same = got[0] == 0 and got[1:] == written(channels, given)
        equal += same and (their_channels, bits, len(payload[0])) == (channels, 1, FRAME * frames) and as_frames(bits, payload) == given
    return len(asked), equal


VALUES = (0, 1, 2, 4, 5, 6, 7, 8, 12, 28, 52, 92, 4096, 4104, 2822400, 5644800, 2**31, 2**32 - 1)


def damaged(rng):
    """A header and a length: right at first, then up to three fields, bytes, or the length, changed."""
    kind = rng.choice((1, 2, 3, 4, 5, 6, 7))
    count = rng.choice((0, 8, 32768, 32776, 8 * rng.randrange(10**6), 8 * rng.getrandbits(61)))
    behind = rng.choice((0, 0, 1, 55))
    head = bytearray(header(kind, rng.choice((1, 8)), count, behind, pointer=rng.getrandbits(64)))
    length = int.from_bytes(head[12:20], "little")
    for _ in range(rng.randrange(4)):
        what = rng.randrange(5)
        if what == 0:
            head[rng.randrange(92)] ^= 1 << rng.randrange(8)
        elif what == 1:
            at, size = PLACES[rng.choice(FIELDS)]
            head[at:at + size] = (rng.choice(VALUES) % 256**size).to_bytes(size, "little")
        elif what == 2:
            length = max(0, min(HIGH, length + rng.choice((-1, 1, -4096, 4096))))
        elif what == 3:
            length = max(0, min(HIGH, length + rng.randrange(-10, 5000)))
            head[12:20] = length.to_bytes(8, "little")
        else:
            kind = rng.choice((1, 2, 3, 4, 5, 6, 7))
            head[48:56] = struct.pack("<II", kind, CHANNELS[kind])
    return bytes(head), length


def heads(calls, rng, n):
    """Damaged headers: verdict and numbers beside the script's own reading."""
    equal, accepted = 0, 0
    for first in range(0, n, 50000):
        some = [damaged(rng) for _ in range(min(50000, n - first))]
        got = call(calls, ["headers"], b"".join(head + struct.pack("<Q", length) for head, length in some))
        assert len(got) == ANSWER.size * len(some)
        for (head, length), (verdict, *numbers) in zip(some, ANSWER.iter_unpack(got)):
            refused, ours = opened(head, length)
            equal += (verdict, tuple(numbers)) == (refused, ours)
            accepted += verdict == 0
    return n, equal, accepted


def main(calls, work, seed=1, files=40, headers=10**6):
    rng = random.Random(int(seed))
    read_files, read_equal = reads(calls, work, rng, int(files))
    wrote, wrote_equal = writes(calls, work, rng)
    all_heads, heads_equal, accepted = heads(calls, rng, int(headers))
    print("files beside ffmpeg %d equal %d, written files beside ffmpeg %d equal %d, damaged headers %d equal %d (accepted %d)"
          % (read_files, read_equal, wrote, wrote_equal, all_heads, heads_equal, accepted))
    return 0 if (read_equal, wrote_equal, heads_equal) == (read_files, wrote, all_heads) else 1


if __name__ == "__main__":
    sys.exit(main(*sys.argv[1:]))
