#!/usr/bin/env python3
"""Writes command/stored/frames and frames.sheet: a line RATE CUTOFF CHANNELS DB with raw frames, which
command/stored.py lays out as an album, and its sheet by document 01's formulas.

Usage: compare/level_sheet.py TABLES
TABLES is the original's tables.rs. Everything is worked out here from the bytes with Python's whole numbers, tap by
tap; the gain is in floats, in the order of `db_to_linear`. Figures of document 01 are checked first. Run in the
repository's folder.
"""
import random
import re
import sys

FRAME = 4704
LN_10 = 2.30258509299404568401799145468436421


def tables(path):
    text = open(path).read()
    return {
        name: [int(n) for n in re.findall(r"-?\d+", re.sub(r"//.*|_", "", body))]
        for name, body in re.findall(r"const (\w+): \[i32; \d+\] = \[(.*?)\];", text, re.S)
    }


def nearest(v, q):
    """v / 2^q to the nearest whole number, ties to even."""
    low, rest = divmod(v, 1 << q)
    half = 1 << (q - 1)
    return low + int(rest > half or (rest == half and low % 2 == 1))


def factor(db):
    r = abs(db) * (LN_10 / 20.0) / 32.0
    term = total = 1.0
    for k in range(1, 26):
        term = term * r / float(k)
        total += term
    for _ in range(5):
        total *= total
    return 1.0 / total if db < 0.0 else total


class Channel:
    """One channel's y by position, each value worked out once."""

    def __init__(self, taps, low, before, frames, after):
        self.taps, self.low = taps, low
        self.bytes = before + frames + after
        self.start = -len(before)
        self.seen = {"u": {}, "v": {}, "w": {}}

    def x(self, s):
        at = s // 8 - self.start
        byte = self.bytes[at] if 0 <= at < len(self.bytes) else 0x69
        return 1 if byte >> (7 - s % 8) & 1 else -1

    def once(self, stage, i, value):
        seen = self.seen[stage]
        if i not in seen:
            seen[i] = value()
        return seen[i]

    def total(self, table, value, centre):
        taps = self.taps[table]
        return taps[0] * value(centre) + sum(taps[t] * (value(centre - t) + value(centre + t)) for t in range(1, len(taps)) if taps[t])

    def u(self, m):
        return self.once("u", m, lambda: self.total("S1", self.x, 8 * m))

    def v(self, i):
        return self.once("v", i, lambda: nearest(self.total("HB", self.u, 2 * i), 24))

    def w(self, i):
        return self.once("w", i, lambda: nearest(self.total(self.low, self.v, i), 24))


def unclamped(taps, rate, low, db, before, frames, after):
    """The numbers before the clamp of a channel, standard or low, at 88,200 or 176,400."""
    channel = Channel(taps, low, before, frames, after)
    step = 176400 // rate
    g = factor(float(db))
    for n in range(len(frames) * 2 // (4 * step)):
        yield round(float(channel.w(step * n)) * g * 0.125)


def clip(z):
    return z < -8388608 or z > 8388607


def figures(taps):
    """Figures of document 01 for Standard at 88,200, one frame."""
    for db, byte, want, clips in ((0, 0xFF, 8388608, 1176), (0, 0x00, -8388608, 0), (-20, 0xFF, 838861, 0), (-120, 0xFF, 8, 0)):
        one = [byte] * FRAME
        numbers = list(unclamped(taps, 88200, "F40", db, one, one, one))
        assert len(numbers) == 1176 and set(numbers) == {want}, (db, byte, set(numbers))
        assert sum(map(clip, numbers)) == clips
    idle = [0x69] * FRAME
    assert set(unclamped(taps, 88200, "F40", 0, [], idle, [])) == {0}


def sheet(rows):
    lines = ["%4d%14d%12d%12d\n" % (c, sum(map(clip, z)), min(z), max(z)) for c, z in enumerate(rows)]
    return "".join(lines) + "    %14d%24s\n" % (sum(sum(map(clip, z)) for z in rows), "")


def main():
    taps = tables(sys.argv[1])
    figures(taps)
    rng = random.Random(14)
    # Three frames of two channels: loud and quiet stretches on the left, idle with a burst over the second border on
    # the right.
    left = []
    for _ in range(3 * FRAME // 56):
        byte = rng.choice([0x00, 0xFF, 0x69, 0x96, 0x5A, 0xEE, 0x11])
        left += [byte if rng.random() < 0.9 else rng.randrange(256) for _ in range(56)]
    right = [0x69] * (3 * FRAME)
    for k in range(2 * FRAME - 100, 2 * FRAME + 140):
        right[k] = 0xFF
    rows = [list(unclamped(taps, 88200, "F40", 3, [], channel, [])) for channel in (left, right)]
    with open("command/stored/frames", "wb") as file:
        file.write(b"88200 standard 2 3\n" + bytes(b for pair in zip(left, right) for b in pair))
    with open("command/stored/frames.sheet", "w", newline="") as file:
        file.write(sheet(rows))
    print(sheet(rows), end="")


if __name__ == "__main__":
    main()
