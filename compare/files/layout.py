"""Sony's DSF files, written from lists of samples, read back and judged as request 1 of document 02 says.

Made from the layout and the requests alone; nothing here is taken from the Rattle code. A channel is a string of 0s and
1s, its samples in order of time."""

import struct

BLOCK = 4096  # bytes of a channel in a block
FRAME = 4704  # bytes of a channel in a frame
IDLE = 0x69
CHANNELS = {1: 1, 2: 2, 3: 3, 4: 4, 5: 4, 6: 5, 7: 6}  # by channel type
HEADER = struct.Struct("<4sQQQ4sQIIIIIIQII4sQ")
FIELDS = (
    "dsd", "dsd_size", "total", "pointer", "fmt", "fmt_size", "version", "format", "type", "channels", "frequency", "bits", "count",
    "block", "reserved", "data", "data_size",
)
# Where each field starts, and its bytes.
PLACES = {
    "dsd": (0, 4), "dsd_size": (4, 8), "total": (12, 8), "pointer": (20, 8), "fmt": (28, 4), "fmt_size": (32, 8), "version": (40, 4),
    "format": (44, 4), "type": (48, 4), "channels": (52, 4), "frequency": (56, 4), "bits": (60, 4), "count": (64, 8), "block": (72, 4),
    "reserved": (76, 4), "data": (80, 4), "data_size": (84, 8),
}
FIXED = {
    "dsd": b"DSD ", "dsd_size": 28, "fmt": b"fmt ", "fmt_size": 52, "version": 1, "format": 0, "block": BLOCK, "reserved": 0, "data": b"data",
}


def noise(seed, n):
    """n bytes that the test programs make again from the seed."""
    out = bytearray(n)
    x = seed
    for i in range(n):
        x = (x * 1664525 + 1013904223) & 0xFFFFFFFF
        out[i] = x >> 24
    return bytes(out)


def digest(data):
    h = 0
    for b in data:
        h = (h * 1664525 + b + 1) % 4294967291
    return h


def needed(channels, count):
    """Bytes of the whole blocks that so many samples of each channel need."""
    bits = 8 * BLOCK
    return (count + bits - 1) // bits * BLOCK * channels


def header(kind, bits, count, behind=0, /, **changes):
    """A header that is right for so many bytes behind the data, but for the changes."""
    channels = CHANNELS.get(kind, 2)
    need = needed(channels, count)
    fields = dict(FIXED, total=92 + need + behind, pointer=0, type=kind, channels=channels, frequency=2822400, bits=bits, count=count,
                  data_size=12 + need)
    fields.update(changes)
    return HEADER.pack(*(fields[name] for name in FIELDS))


def packed(bits, samples):
    """Samples as bytes: the earliest in the lowest bit where bits per sample are 1, in the highest where they are 8."""
    step = -1 if bits == 1 else 1
    return bytes(int(samples[i:i + 8][::step], 2) for i in range(0, len(samples), 8))


def unpacked(bits, byte):
    text = format(byte, "08b")
    return text[::-1] if bits == 1 else text


def write(kind, bits, samples, padding=None, behind=b"", **changes):
    """The file of a list of channels. Padding is taken from an iterator of bytes, else it is zero."""
    count = len(samples[0])
    blocks = []
    for first in range(0, count, 8 * BLOCK):
        for channel in samples:
            block = packed(bits, channel[first:first + 8 * BLOCK])
            while len(block) < BLOCK:
                block += bytes([next(padding)]) if padding else bytes(BLOCK - len(block))
            blocks.append(block)
    return header(kind, bits, count, len(behind), **changes) + b"".join(blocks) + behind


def fields_of(head):
    return dict(zip(FIELDS, HEADER.unpack(head[:92])))


def verdict(head, length):
    """9, 10, 11, or 0 for a file with these first bytes and of that length."""
    if length < 92 or len(head) < 92:
        return 9
    h = fields_of(head)
    if any(h[name] != value for name, value in FIXED.items()):
        return 9
    if h["bits"] not in (1, 8) or CHANNELS.get(h["type"]) != h["channels"]:
        return 9
    if h["frequency"] != 2822400 or h["count"] % 8:
        return 10
    need = needed(h["channels"], h["count"])
    if h["total"] != length or h["data_size"] != 12 + need or 80 + h["data_size"] > length:
        return 11
    return 0


def frames_of(count):
    return (count // 8 + FRAME - 1) // FRAME


def opened(head, length):
    """The verdict, and channel type, channels, bits per sample, samples, frames; all 0 for a refused file."""
    refused = verdict(head, length)
    if refused:
        return refused, (0, 0, 0, 0, 0)
    h = fields_of(head)
    return 0, (h["type"], h["channels"], h["bits"], h["count"], frames_of(h["count"]))


def eight_samples(h, data, start, c, q):
    """Samples 8q to 8q + 7 of channel c, out of the data's bytes from `start` on."""
    block, byte = divmod(q, BLOCK)
    return unpacked(h["bits"], data[(block * h["channels"] + c) * BLOCK + byte - start])


def read(file):
    """The samples of an accepted file."""
    h = fields_of(file)
    data = file[92:]
    return ["".join(eight_samples(h, data, 0, c, q) for q in range(h["count"] // 8)) for c in range(h["channels"])]


def frame(samples, f):
    """Frame f of the channels: their bytes in turn, the earliest sample in the highest bit, idle bytes past the last
    sample."""
    out = bytearray()
    for p in range(8 * FRAME * f, 8 * FRAME * (f + 1), 8):
        for channel in samples:
            piece = channel[p:p + 8]
            out.append(int(piece, 2) if piece else IDLE)
    return bytes(out)


def frame_verdict(head, length, f, size, window=None):
    """The refusal of frame f into `size` bytes, as number and data; the window is its start and its bytes, or the whole
    file."""
    refused, (_, channels, _, count, frames) = opened(head, length)
    if refused:
        return refused, 0, 0
    if f >= frames:
        return 5, f, 0
    if window:
        start, end = window_of(channels, count, f)
        if window[0] > start or window[0] + window[1] < end:
            return 11, 0, 0
    if size != FRAME * channels:
        return 7, size, FRAME * channels
    return 0, 0, 0


def window_of(channels, count, f):
    """The groups of blocks that frame f touches, as a stretch of the data."""
    first = FRAME * f // BLOCK
    last = min(FRAME * (f + 1), count // 8)
    return first * BLOCK * channels, (last + BLOCK - 1) // BLOCK * BLOCK * channels


def window_frame(head, window, start, f):
    """Frame f out of the data's bytes from `start` on."""
    h = fields_of(head)
    out = bytearray()
    for q in range(FRAME * f, FRAME * (f + 1)):
        for c in range(h["channels"]):
            out.append(int(eight_samples(h, window, start, c, q), 2) if 8 * q < h["count"] else IDLE)
    return bytes(out)
