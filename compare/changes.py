#!/usr/bin/env python3
"""Settings changed while a converter is open, for crates/test_conversions/data: lists of changes, and records made by
hand.

Usage: compare/changes.py [FOLDER]

The answers are worked out here from documents 01 and 02, and not by the library. A number has 16 hexadecimal digits; a
route is three times the cutoff and the rate, both from 0; floats are given by their bits. It says how often each answer
occurs.

A row of `changes` has 86 numbers. Opening: route, channels, decibels, factor, whether a filter is given, its number of
taps, its centre and its second tap (the others are 0); refusal and its two data; samples of a channel in a frame,
reach, bytes of a frame. Then six changes, each twelve numbers: route, decibels, factor; refusal and its two data; of
the record that is held then, route, decibels, factor, and the three numbers.

A row of `records` has 27: a record's route, channels, decibels, factor, number of taps, centre, second tap and three
numbers; a change of it, as above; the bytes of a run and the items of its output, as lent to the conversions; their
refusal and its data.
"""
import os
import random
import struct
import sys

from level_sheet import FRAME, factor

RATES = [88200, 176400, 352800]
STANDARD, LOW, WIDE = 0, 1, 2
ONE = 1 << 24
MOST = 40_000_000
CHANGES = 6


def bits(x):
    return struct.unpack("<Q", struct.pack("<d", x))[0]


def allowed(db):
    return -120.0 <= db <= 24.0


def made(db):
    """The gain record of some decibels, its floats as bits."""
    return bits(db), bits(factor(db))


# ---- a record: route, channels, gain, number of taps, centre, second tap, three numbers


def true_numbers(route, channels, count):
    """By the stages: the first filter reaches 4 bytes back (wide 6), the half band 15, the last one M values."""
    rate, cutoff = route % 3, route // 3
    if cutoff == WIDE:
        reach = [0, 6 + 116, 6 + 60][rate]
    else:
        m = 80 if cutoff == LOW else max(min(count, 117), 1) - 1
        reach = 4 + 15 + 2 * m + (16 if rate == 2 else 0)
    return [RATES[rate] // 75, reach, FRAME * channels]


def by_gain(gain):
    db, linear = (struct.unpack("<d", struct.pack("<Q", n))[0] for n in gain)
    if allowed(db) and bits(linear) == bits(factor(db)):
        return []
    return [(3, gain[0], 0)]


def by_route(route):
    return [(2, RATES[route % 3], route // 3)] if route == 3 * WIDE else []


def by_filter(count, centre, second):
    if not 1 <= count <= 117:
        return [(17, 0, 0)]
    rest = second if count > 1 else 0
    if centre + 2 * rest != ONE or abs(centre) + 2 * abs(rest) > MOST:
        return [(18, 0, 0)]
    return []


def by_settings(route, channels, gain, taps):
    """The refusals of settings in their order."""
    first = [] if 1 <= channels <= 6 else [(1, channels, 0)]
    return first + by_route(route) + by_gain(gain) + by_filter(*taps)


# ---- what is tried

UNITY = made(0.0)
NAN = 0x7FF8000000000000
WRONG_GAINS = [
    (bits(25.0), bits(factor(25.0))),
    (bits(-121.0), bits(factor(-121.0))),
    (bits(6.0), bits(factor(5.0))),
    (bits(6.0), bits(factor(6.0)) + 1),
    (bits(0.0), bits(-1.0)),
    (NAN, bits(1.0)),
    (bits(0.0), NAN),
    (bits(24.000000000000004), bits(factor(24.0))),
]
RIGHT_GAINS = [made(db) for db in (0.0, -0.0, 6.0, -6.0, 24.0, -120.0, 3.25, -0.1)]
RIGHT_ROUTES = [0, 1, 2, 3, 4, 5, 7, 8]


def right_taps(r):
    """Number, centre and second tap of an accepted filter."""
    count = r.choice([1, 2, 3, 60, 61, 62, 116, 117, r.randint(2, 117)])
    second = 0 if count == 1 else r.choice([0, 1, 1_000_000, 4_000_000, ONE // 4])
    return count, ONE - 2 * second, second


def opening(r, i):
    """Route, channels, gain, and whether a filter is given with its numbers; one in ten is refused."""
    route, channels, gain = RIGHT_ROUTES[i % 8], 1 + r.choice([0, 0, 1, 1, 2, 5]), RIGHT_GAINS[i % 8]
    own = i // 2 % 2
    taps = right_taps(r) if own else (0, 0, 0)
    if i % 10 == 9:
        fault = i // 10 % 5
        if fault == 0:
            channels = r.choice([0, 7, 255])
        elif fault == 1:
            route = 3 * WIDE
        elif fault == 2:
            gain = r.choice(WRONG_GAINS)
        elif fault == 3:
            own, taps = 1, (r.choice([0, 118, 1 << 40]), ONE, 0)
        else:
            own, taps = 1, (2, ONE, 1)
    return route, channels, gain, own, taps


def changes(r, i):
    route, channels, gain, own, taps = opening(r, i)
    held = taps if own else (61, ONE, 0)  # of the built-in filter the number alone is looked at
    refused = by_settings(route, channels, gain, held)
    row = [route, channels, *gain, own, *taps, *(refused + [(0, 0, 0)])[0], *true_numbers(route, channels, held[0])]
    for k in range(CHANGES):
        wanted, new = r.choice(RIGHT_ROUTES), r.choice(RIGHT_GAINS)
        kind = r.randrange(10) if k else i % 10
        if kind in (0, 1, 4):
            wanted = 3 * WIDE
        if kind in (2, 3, 4):
            new = r.choice(WRONG_GAINS)
        told = (refused + by_route(wanted) + by_gain(new) + [(0, 0, 0)])[0]
        if told[0] == 0:
            route, gain = wanted, new
        row += [wanted, *new, *told, route, *gain, *true_numbers(route, channels, held[0])]
    return row


def wrong_numbers(r, route, channels, count, kind):
    """Numbers that are not those of the settings, by kind; kind 12 leaves them right."""
    numbers = true_numbers(route, channels, count)
    if kind < 6:
        numbers[kind // 2] += [1, -1][kind % 2]
    elif kind == 6:  # the reach of another cutoff
        others = {true_numbers(route % 3 + 3 * c, channels, count)[1] for c in (STANDARD, LOW, WIDE)}
        numbers[1] = r.choice(sorted(others - {numbers[1]}))
    elif kind == 7:  # all three of another rate
        numbers = true_numbers((route + 1) % 3 + route // 3 * 3, channels, count)
    elif kind == 8:  # the reach of another number of taps, by M itself too
        numbers[1] += r.choice([2, -2, 120])
    elif kind == 9:
        numbers[2] = FRAME * (channels + 1)
    elif kind == 10:
        numbers = [0, 0, 0]
    elif kind == 11:
        numbers = [n + (1 << 63) for n in numbers]
    return [n % (1 << 64) for n in numbers]


def record(r, i):
    kind, fault = i % 13, max(0, i // 13 % 12 - 6)
    route, channels, gain, taps = RIGHT_ROUTES[i % 8], 1 + i % 2, RIGHT_GAINS[i % 8], right_taps(r)
    # faults of the settings, each with all that come after it in the order
    if fault == 1:
        channels = r.choice([0, 7, 255])
    if fault == 2 or (fault == 1 and i % 3 == 0):
        route = 3 * WIDE
    if fault == 3 or (fault in (1, 2) and i % 3 == 1):
        gain = r.choice(WRONG_GAINS)
    if fault == 4 or (fault in (1, 2, 3) and i % 3 == 2):
        taps = (r.choice([0, 118, 1 << 40, (1 << 64) - 1]), ONE, 0)
    if fault == 5:
        taps = r.choice([(2, ONE, 1), (2, ONE - 4, 1), (1, ONE - 1, 0), (117, ONE // 2, 3)])
    numbers = wrong_numbers(r, route, channels, taps[0], kind)
    wanted, new = r.choice(RIGHT_ROUTES), r.choice(RIGHT_GAINS)
    if i % 4 == 1:
        wanted = 3 * WIDE
    if i % 4 in (2, 3) and i % 5 < 3:
        new = r.choice(WRONG_GAINS)
    stored = [] if numbers == true_numbers(route, channels, taps[0]) else [(15, 0, 0)]
    held = by_settings(route, channels, gain, taps) + stored
    told = (held + by_route(wanted) + by_gain(new) + [(0, 0, 0)])[0]
    after = [route, *gain, *numbers] if told[0] else [wanted, *new, *true_numbers(wanted, channels, taps[0])]
    # a run of one frame with room for it, or one byte
    if i // 2 % 2 or not 1 <= channels <= 2:
        length, items, then = 1, 1, (4, 1, 0)
    else:
        length, items, then = FRAME * channels, RATES[route % 3] // 75 * channels, (0, 0, 0)
    return [route, channels, *gain, *taps, *numbers, wanted, *new, *told, *after, length, items, *(held + [then])[0]]


def write(folder, name, rows, width):
    with open(os.path.join(folder, name), "w") as f:
        for row in rows:
            assert len(row) == width and all(0 <= n < 1 << 64 for n in row), row
            f.write(" ".join(f"{n:016x}" for n in row) + "\n")


def counted(numbers):
    return ", ".join(f"{n}: {numbers.count(n)}" for n in sorted(set(numbers)))


def main():
    folder = sys.argv[1] if len(sys.argv) > 1 else "crates/test_conversions/data"
    r = random.Random(7)
    lists = [changes(r, i) for i in range(150)]
    records = [record(r, i) for i in range(312)]
    write(folder, "changes", lists, 14 + 12 * CHANGES)
    write(folder, "records", records, 27)
    print("openings", counted([row[8] for row in lists]))
    print("changes", counted([row[14 + 12 * k + 3] for row in lists for k in range(CHANGES)]))
    print("changes of records", counted([row[13] for row in records]))
    print("conversions of records", counted([row[24] for row in records]))


if __name__ == "__main__":
    main()
