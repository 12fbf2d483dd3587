#!/usr/bin/env python3
"""Labels' own filters for crates/test_conversions/data/filters: settings, bytes and taps, and what a conversion is to
answer.

The answers are worked out here from document 01's formulas and the original's tap tables, sample by sample over whole
numbers, and not by the library. Usage: compare/filters.py SRC [FILE [ROWS]]; SRC is the original's repository. It says
how many rows it wrote, how many of them convert, and how many filters stand at the limits of refusal 18.

A row is 80 numbers of 16 hexadecimal digits: route (three times the cutoff and the rate, both from 0), channels,
decibels as bits, bytes of the run, neighbours (1 before, 2 after), pattern and seed of the bytes; refusal and its two
data (0 where the call is accepted), the reach, two digests of the samples, the clips of two channels; the number of
taps, and 117 taps by twos: t, or 2^31 - 1 - t where t is negative. Taps past their number are drawn by chance: no
answer depends on them.
Last come the lowest and the highest number before the clamp of two channels, as 64 bits, and their marks (1 and 2).
"""
import random
import re
import struct
import sys

FRAME = 4704
IDLE = 0x69
PER_FRAME = [1176, 2352, 4704]
ONE, MOST = 1 << 24, 40_000_000
LOW, HIGH = -(1 << 31), (1 << 31) - 1


def tables(source):
    text = open(f"{source}/crates/scarletbook-pcm/src/tables.rs").read()
    found = re.findall(r"const (\w+): \[i32; (\d+)\] = \[(.*?)\];", text, re.S)
    made = {name: [int(n) for n in body.replace("\n", " ").split(",") if n.strip()] for name, _, body in found}
    assert all(len(made[name]) == int(n) for name, n, _ in found)
    return made


def rounded(v, q):
    """R(v, q): nearest, ties to even."""
    floor, rest = v >> q, v & ((1 << q) - 1)
    half = 1 << (q - 1)
    return floor + (rest > half or (rest == half and floor & 1))


def bytes_by(pattern, seed, channels):
    """As compare/answers/src/pattern.rs has it."""
    x, made = seed, []
    for k in range(FRAME * channels):
        if pattern == 3 and k % (4 * channels) == 0:
            x = seed
        x = (x * 1_664_525 + 1_013_904_223) % (1 << 32)
        high = x >> 24
        if pattern == 1:
            made.append(seed % 256)
        elif pattern == 2 and high >= 16:
            made.append(0xFF if k // 300 % 2 == 0 else 0)
        else:
            made.append(high)
    return made


class Channel:
    """The stages of one channel; every value is worked out once."""

    def __init__(self, t, bytes_at):
        self.t, self.bytes_at, self.kept = t, bytes_at, {}

    def once(self, name, i, make):
        key = (name, i)
        if key not in self.kept:
            self.kept[key] = make()
        return self.kept[key]

    def u(self, taps, m):
        """Sum over |t| < length of tap(t) x(8m + t), byte by byte: x is +1 for a bit that is 1, else -1."""
        n = len(self.t[taps])

        def make():
            total = 0
            for byte in range(m - n // 8, m + n // 8):
                b = self.bytes_at(byte)
                total += self.by_byte(taps, byte - m)[b]
            return total

        return self.once(taps, m, make)

    def by_byte(self, taps, j):
        def make():
            h = self.t[taps]
            tap = [h[abs(8 * j + p)] if abs(8 * j + p) < len(h) else 0 for p in range(8)]
            return [sum(tap[p] if b >> (7 - p) & 1 else -tap[p] for p in range(8)) for b in range(256)]

        return self.once("bytes of " + taps, j, make)

    def fir(self, h, s, c):
        return h[0] * s(c) + sum(h[k] * (s(c - k) + s(c + k)) for k in range(1, len(h)))

    def v(self, i):
        return self.once("v", i, lambda: rounded(self.fir(self.t["HB"], lambda k: self.u("S1", k), 2 * i), 24))

    def w(self, f, i):
        return self.once("w", i, lambda: rounded(self.fir(f, self.v, i), 24))

    def y(self, rate, cutoff, f, n):
        if cutoff == 2:
            wide = lambda k: self.u("S1_WIDE", k)
            if rate == 1:
                return rounded(self.fir(self.t["F80"], wide, 2 * n), 24)
            return rounded(self.fir(self.t["F40"], wide, n), 24)
        f = f if cutoff == 0 else self.t["F30"]
        if rate == 0:
            return self.w(f, 2 * n)
        if rate == 1:
            return self.w(f, n)
        if n % 2 == 0:
            return self.w(f, n // 2)
        k, hb = n // 2, self.t["HB"]
        return rounded(sum(hb[2 * j + 1] * (self.w(f, k - j) + self.w(f, k + 1 + j)) for j in range(8)), 23)


def reach(rate, cutoff, count):
    if cutoff == 0:
        return 2 * (count - 1) + (35 if rate == 2 else 19)
    return [[], [179, 179, 195], [0, 122, 66]][cutoff][rate]


def converted(t, case):
    """The samples of one frame, items in turn, and of each channel the clips and the numbers before the clamp; 0 dB, so
    the factor is 1."""
    rate, cutoff, channels = case["route"] % 3, case["route"] // 3, case["channels"]
    made = [bytes_by(case["pattern"], case["seed"] + past, channels) for past in (1, 0, 2)]
    there = [case["neighbours"] % 2, 1, case["neighbours"] // 2]
    items, clips, far = [0] * (PER_FRAME[rate] * channels), [0, 0], [[], []]
    for c in range(channels):

        def bytes_at(p):
            place = p // FRAME + 1
            if 0 <= place < 3 and there[place]:
                return made[place][p % FRAME * channels + c]
            return IDLE

        channel = Channel(t, bytes_at)
        for n in range(PER_FRAME[rate]):
            z = round(channel.y(rate, cutoff, case["taps"], n) * 1.0 * 0.125)
            held = max(-8_388_608, min(8_388_607, z))
            clips[c] += held != z
            far[c].append(z)
            items[n * channels + c] = held
    return items, clips, far


def digests(items):
    a = b = 1
    for x in items:
        a, b = (a * 1_000_003 + x) % 1_000_000_007, (b * 131_071 + x) % 998_244_353
    return [a, b]


# ---- filters


def whole(h):
    return h[0] + 2 * sum(h[1:])


def size(h):
    return abs(h[0]) + 2 * sum(map(abs, h[1:]))


def right(h):
    return whole(h) == ONE and size(h) <= MOST and all(LOW <= x <= HIGH for x in h)


def chance(r, n):
    """Taps of any sign; the centre brings the sum to 2^24."""
    room = r.choice([200_000, 2_000_000, 11_000_000])
    rest = [r.randint(-room, room) // n for _ in range(n - 1)]
    return [ONE - 2 * sum(rest)] + rest


def falling(r, n):
    """A gentle low-pass: all taps of one sign, falling."""
    rest = sorted((r.randint(0, ONE // (4 * n)) for _ in range(n - 1)), reverse=True)
    return [ONE - 2 * sum(rest)] + rest


def at_limit(r, n):
    """Absolute sum exactly 40,000,000: the negative taps sum to as much as the limit leaves."""
    below = (MOST - ONE) // 4  # twice this is taken away by pairs, and given back
    parts = max(1, (n - 1) // 2)
    minus = [below // parts] * parts
    minus[0] += below - sum(minus)
    rest = [-x for x in minus]
    left = n - 1 - parts
    plus = [r.randint(0, ONE // (4 * n)) for _ in range(left)]
    rest += plus
    r.shuffle(rest)
    h = [ONE - 2 * sum(rest)] + rest
    return h if size(h) == MOST else None


def below_centre(r, n):
    """A negative centre; the pairs bring the sum to 2^24."""
    centre = -2 * r.randint(1, 2_000_000)
    rest = [(ONE - centre) // 2 // (n - 1)] * (n - 1)
    rest[0] += (ONE - centre) // 2 - sum(rest)
    return [centre] + rest


def own(r, i):
    n = [1, 2, 3, 4, 5, 31, 60, 61, 62, 116, 117][i % 29] if i % 29 < 11 else r.randint(1, 117)
    while True:
        kind = r.randrange(5)
        if n == 1:
            h = [ONE]
        elif kind == 0:
            h = at_limit(r, n)
        elif kind == 1:
            h = falling(r, n)
        elif kind == 2:
            h = below_centre(r, n)
        else:
            h = chance(r, n)
        if h and kind == 4 and n > 4:
            h = h[: n - 3] + [0, 0, 0]
            h[0] = ONE - 2 * sum(h[1:])
        if h and right(h):
            return h


def wrong(r, i):
    """Filters that 17 or 18 turn down, with the number of the refusal, by kind."""
    h = own(r, r.randrange(1000))
    kind = i % 10
    if kind == 0:
        return [], 0, 17
    if kind == 1:
        return h, r.choice([118, 119, 1 << 20, 1 << 40, (1 << 64) - 1]), 17
    if kind == 2:
        return [h[0] + r.choice([-2, -1, 1, 2])] + h[1:], len(h), 18
    if kind == 3:  # the absolute sum one step past the limit, the sum right
        h = None
        while not h:
            h = at_limit(r, 9)
        return [h[0] + 2, h[1] - 1 if h[1] < 0 else h[1]] + h[2:], len(h), 18
    if kind == 4:
        return [HIGH] * 117, 117, 18
    if kind == 5:
        return [LOW] * 117, 117, 18
    if kind == 6:  # the sum is right, the sizes are far from it
        return [ONE, HIGH, -HIGH], 3, 18
    if kind == 7:  # right only if the rest is counted once
        return [ONE - 5_000_000, 5_000_000], 2, 18
    if kind == 8:  # the sum is right only without the last tap
        return h + [1] if len(h) < 117 else h[:116] + [h[116] + 1], min(117, len(h) + 1), 18
    return [ONE // 2, ONE // 4, 1], 3, 18


# ---- rows


def case(r, i):
    if i % 5 == 4:
        h, count, number = wrong(r, i // 5)
        first = second = 0
        if not h and count == 0:
            number = 17
    else:
        h = own(r, i)
        count, number, first, second = len(h), 0, 0, 0
    made = {
        "route": i % 3 if number or i % 11 < 9 else [3, 4, 5, 7, 8][i % 5],
        "channels": 1 + (i // 3) % 2,
        "db": 0.0,
        "bytes": 0,
        "neighbours": i // 2 % 4,
        "pattern": [0, 2, 3, 0, 1][i // 7 % 5],
        "seed": 5000 + 31 * i,
        "count": count,
        "taps": h,
        "number": number,
        "first": first,
        "second": second,
    }
    if made["pattern"] == 1:
        made["seed"] = [0x69, 0xFF, 0x00, 0x55][i % 4]
    made["bytes"] = FRAME * made["channels"]
    if number:
        before(made, i // 5)
    elif i % 13 == 12:  # an accepted filter: the run's length is looked at next
        made["bytes"] += 1
        made.update(number=4, first=made["bytes"], second=0)
    return made


def before(made, k):
    """Refusals that stand before 17 and 18, and lengths that stand after them."""
    if k % 7 == 1:
        made.update(channels=0, number=1, first=0)
        made["bytes"] = FRAME
    elif k % 7 == 2:
        made.update(route=6, number=2, first=88200, second=2)
    elif k % 7 == 3:
        made.update(db=25.0, number=3, first=struct.unpack("<Q", struct.pack("<d", 25.0))[0])
    elif k % 7 == 4:
        made["bytes"] += 1
    elif k % 7 == 5:
        made["route"] = [3, 8, 4, 7][k % 4]


def row(t, r, made):
    taps = (made["taps"] + [r.randint(LOW, HIGH) for _ in range(118)])[:118]
    taps[117] = 0
    if made["number"]:
        answer, far = [0, 1, 1, 0, 0], [[], []]
    else:
        items, clips, far = converted(t, made)
        answer = [reach(made["route"] % 3, made["route"] // 3, made["count"])]
        answer += digests([x + (1 << 31) for x in items]) + clips
    decibels = struct.unpack("<Q", struct.pack("<d", made["db"]))[0]
    head = [made["route"], made["channels"], decibels, made["bytes"], made["neighbours"], made["pattern"], made["seed"]]
    codes = [x if x >= 0 else HIGH - x for x in taps]
    pairs = [codes[k] << 32 | codes[k + 1] for k in range(0, 118, 2)]
    ends = [end(z, default=0) & (1 << 64) - 1 for z in far for end in (min, max)]
    marks = (not far[0]) + 2 * (not far[1])
    return head + [made["number"], made["first"], made["second"]] + answer + [made["count"]] + pairs + ends + [marks]


def main():
    source = sys.argv[1]
    out = sys.argv[2] if len(sys.argv) > 2 else "crates/test_conversions/data/filters"
    rows = int(sys.argv[3]) if len(sys.argv) > 3 else 240
    t, r = tables(source), random.Random(10)
    made = [case(r, i) for i in range(rows)]
    with open(out, "w") as f:
        for m in made:
            numbers = row(t, r, m)
            assert len(numbers) == 80, len(numbers)
            f.write(" ".join(f"{n:016x}" for n in numbers) + "\n")
    good = [m for m in made if not m["number"]]
    edge = [m for m in good if size(m["taps"]) == MOST]
    print(f"{rows} rows, {len(good)} convert, {len(edge)} filters of absolute sum 40,000,000")


if __name__ == "__main__":
    main()
