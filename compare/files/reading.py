"""Writes cases of crates/test_files: data/files, data/frames, data/headers, data/windows.

A case is a line of hexadecimal numbers. A header's 92 bytes are twelve of them, of eight bytes, lowest first. The
bytes of a file behind its header, and those of a window, are `noise` of a seed, which the program makes again; every
accepted file is also written anew from the samples read."""

import itertools
import struct
import sys

from layout import (BLOCK, CHANNELS, FIELDS, FRAME, PLACES, digest, fields_of, frame, frame_verdict, frames_of, header, needed, noise, opened,
                    read, window_frame, window_of, write)

JUNK = 0x5A
HIGH = 2**64 - 1
BYTES = (0, 1, 4095, 4096, 4097, 4703, 4704, 4705, 8191, 8192, 8193, 9407, 9408, 9409, 20000)


def words(head):
    return struct.unpack("<12Q", head[:92].ljust(96, b"\0"))


def stored(to, name, cases, accepted):
    """The cases, and how many of them there are; the program is to find as many right."""
    with open("%s/data/%s" % (to, name), "w", encoding="ascii") as out:
        out.writelines(" ".join("%x" % n for n in case) + "\n" for case in cases)
    print(name, len(cases), "accepted", accepted)


def padding_of(file, h):
    """The bytes of a file's blocks that hold no sample."""
    live = h["count"] // 8 % BLOCK
    if live:
        for c in range(h["channels"]):
            end = 92 + needed(h["channels"], h["count"]) - (h["channels"] - 1 - c) * BLOCK
            yield from file[end - BLOCK + live:end]


def check_written_anew(file, samples):
    h = fields_of(file)
    end = 92 + needed(h["channels"], h["count"])
    again = write(h["type"], h["bits"], samples, padding_of(file, h), file[end:], pointer=h["pointer"])
    assert again == file


def asked(head, length):
    """Frames asked of a file, with the sizes of the buffer."""
    channels = CHANNELS.get(fields_of(head.ljust(92, b"\0"))["type"], 2)
    frames = opened(head, length)[1][4]
    right = FRAME * channels
    yield from ((f, right) for f in range(frames))
    yield from ((frames, right), (frames, right - 1), (HIGH, 0))
    if frames:
        yield from ((frames - 1, right - 1), (frames - 1, right + 1), (0, 0))


def file_case(k, head, length, seed):
    file = (head + noise(seed, max(0, length - 92)))[:length]
    refused, numbers_of = opened(file, length)
    samples = None if refused else read(file)
    if samples:
        check_written_anew(file, samples)
    asks = []
    for f, size in asked(head, length):
        answer = frame_verdict(file, length, f, size)
        out = frame(samples, f) if answer[0] == 0 else bytes([JUNK]) * size
        asks.append((k, f, size, *answer, digest(out)))
    return (*words(head), length, seed, refused, *numbers_of), asks


def right_files():
    seeds = itertools.count(1)
    for kind, bits in itertools.product(CHANNELS, (1, 8)):
        for k, size in enumerate(BYTES):
            behind = (0, 1, 4096, 137)[k % 4] if k % 2 == kind % 2 else 0
            pointer = (0, 92 + 7 * k, HIGH)[k % 3]
            head = header(kind, bits, 8 * size, behind, pointer=pointer)
            yield head, fields_of(head)["total"], next(seeds)


# A wrong value of each field, by the number of its refusal.
WRONG_9 = {
    "dsd": b"DSD\0", "dsd_size": 29, "fmt": b"FMT ", "fmt_size": 40, "version": 2, "format": 1, "type": 8, "channels": 3, "bits": 2,
    "block": 4095, "reserved": 1, "data": b"DATA",
}
WRONG_10 = {"frequency": 5644800, "count": 4097}
WRONG_11 = {"total": 8283, "data_size": 8203}


def wrong_files():
    """Each refusal with more wrong further down; a file that the head's fields are right for has 8,284 bytes."""
    later = dict(WRONG_10, **WRONG_11)
    for name in sorted(WRONG_9, key=FIELDS.index):
        one = {name: WRONG_9[name]}
        yield header(2, 1, 4096, **one), 8284, 7
        yield header(2, 1, 4096, **one, **later), 8284, 7
    yield header(2, 1, 4096, **WRONG_9, **later), 8284, 7
    for name in WRONG_10:
        one = {name: WRONG_10[name]}
        yield header(2, 1, 4096, **one), 8284, 7
        yield header(2, 1, 4096, **one, **WRONG_11), 8284, 7
    for name in WRONG_11:
        yield header(2, 1, 4096, **{name: WRONG_11[name]}), 8284, 7
    for length in (0, 1, 27, 28, 91, 92, 93, 4188, 8283, 8285):
        yield header(2, 1, 4096), length, 7
        yield header(2, 1, 4096, total=length), length, 7
    for size in (0, 12, 4108, 8203, 8205, 16396, HIGH):
        yield header(2, 1, 4096, data_size=size), 8284, 7
        yield header(2, 1, 4096, data_size=size, total=20000), 20000, 7
    for count in (0, 8, 32768, 32776, 65536, HIGH - 7):
        yield header(2, 1, 4096, count=count), 8284, 7
    for total in (0, 92, 8283, 8285, HIGH):
        yield header(2, 1, 4096, total=total), 8284, 7


def files(to):
    cases, asks = zip(*(file_case(k, *one) for k, one in enumerate(itertools.chain(right_files(), wrong_files()))))
    stored(to, "files", cases, sum(case[14] == 0 for case in cases))
    frames = sum(asks, [])
    stored(to, "frames", frames, sum(case[3] == 0 for case in frames))


def header_case(head, given, length):
    """`given` bytes of a head are lent; past its 92 bytes stand other ones."""
    refused, numbers_of = opened(head[:given], length) if given < 92 else opened(head, length)
    return *words(head), given, length, refused, *numbers_of


def changed(head, at, value):
    return head[:at] + bytes([value]) + head[at + 1:]


def big_headers():
    """Files that no memory holds, right to the byte and one off."""
    for kind, channels in CHANNELS.items():
        for count in (2**40 + 8, 2**63, HIGH - 7):
            need = needed(channels, count)
            bits = (1, 8)[kind % 2]
            for off in (0, 1, -1, 1000):
                yield header(kind, bits, count, total=92 + need + off), 92 + need + off
            yield header(kind, bits, count), 93 + need
            yield header(kind, bits, count, data_size=(12 + need) ^ 2**60), 92 + need


def pairs():
    """Every channel type with every number of channels, and every bit order with the right ones."""
    for kind, channels in itertools.product(range(9), range(8)):
        total = 92 + needed(channels, 8)
        yield header(2, (1, 8)[channels % 2], 8, type=kind, channels=channels, total=total, data_size=total - 80), total
    for kind, bits in itertools.product(CHANNELS, (0, 1, 2, 7, 8, 9, 257, 2**31 + 8)):
        head = header(kind, bits, 8)
        yield head, fields_of(head)["total"]


def headers(to):
    good = header(3, 8, 8 * 4705, 55, pointer=123456789)
    total = fields_of(good)["total"]
    out = [header_case(good, given, length) for given in (0, 1, 91, 92, 93, 156) for length in (0, 91, 92, total - 1, total, total + 1, HIGH)]
    for at in range(92):
        out += [header_case(changed(good, at, good[at] ^ flip), 92, total) for flip in (1, 128)]
    out += [header_case(head, 92, length) for head, length in itertools.chain(pairs(), big_headers())]
    stored(to, "headers", out, sum(case[14] == 0 for case in out))


def window_case(head, given, length, f, start, seed, size, room):
    """The call of a window of `size` bytes, and the window that the file's numbers ask for."""
    answer = frame_verdict(head[:given], length, f, room, (start, size))
    out = window_frame(head, noise(seed, size), start, f) if answer[0] == 0 else bytes([JUNK]) * room
    h = fields_of(head)
    exact = window_of(h["channels"], h["count"], f) if h["channels"] <= 6 and f < frames_of(h["count"]) else (0, 0)
    return *words(head), given, length, f, start, seed, size, room, *answer, digest(out), *exact


def windows_of(head, f, seed):
    h = fields_of(head)
    length, channels, room = h["total"], h["channels"], FRAME * h["channels"]
    start, end = window_of(channels, h["count"], f)
    group = BLOCK * channels
    size = end - start
    yield head, 92, length, f, start, seed, size, room
    yield head, 92, length, f, start, seed, size - 1, room
    yield head, 92, length, f, start + group, seed, size, room
    yield head, 92, length, f, start + 1, seed, size, room
    yield head, 92, length, f, start, seed, size + 5, room
    yield head, 92, length, f, start, seed, size, room - 1
    yield head, 92, length, f, start + 1, seed, size, room - 1
    yield head, 91, length, f, start, seed, size, room
    yield head, 92, length + 1, f, start, seed, size, room
    if start:
        yield head, 92, length, f, start - 1, seed, size + 1, room
        yield head, 92, length, f, start - group, seed, size + group, room
    yield head, 92, length, frames_of(h["count"]), start + 1, seed, 0, room - 1
    yield head, 92, length, f, HIGH, seed, size, room
    for name, value in (("channels", 7), ("channels", 2**32 - 1), ("channels", 0), ("frequency", 1)) if f == 0 else ():
        at = PLACES[name][0]
        yield head[:at] + value.to_bytes(4, "little") + head[at + 4:], 92, length, f, start, seed, size, room


def windows(to):
    seeds = itertools.count(1001)
    out = []
    for k, (kind, bits) in enumerate(itertools.product(CHANNELS, (1, 8))):
        for count, f in ((8 * 9409, (0, 1, 2)[k % 3]), (HIGH - 7, (2**61 // FRAME, 2**48, 2**61 // FRAME - 1)[k % 3])):
            out += [window_case(*one) for one in windows_of(header(kind, bits, count, 10 * k), f, next(seeds))]
    stored(to, "windows", out, sum(case[19] == 0 for case in out))


def main(to):
    files(to)
    headers(to)
    windows(to)


if __name__ == "__main__":
    main(sys.argv[1])
