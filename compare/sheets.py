#!/usr/bin/env python3
"""Level sheets for crates/test_tracks/data: statistics, and the sheet or the refusal that they have by document 02.

The sheets are laid out here by Python's own formatting, and the joined statistics by Python's own numbers. A line of
`statistics` has 31 numbers: channels, length of the output, six clip counts, six lowest, six highest, six marks, then
the refusal's number and data (0 for none), and where its sheet stands in `sheets`, with its length, which is 0 if it is
refused. A line of `joins` has 72: the statistics of two stretches, and those of both. Run in the repository's folder;
it says how many it wrote.
"""
import random

FOLDER = "crates/test_tracks/data"
WIDTHS = (4, 14, 12)
TOP = 2**64 - 1


def none():
    return {"clipped": [0] * 6, "lowest": [0] * 6, "highest": [0] * 6, "empty": [1] * 6}


def sheet(channels, s):
    """The text, or None where a number is too wide."""
    lines, fits = [], True
    for c in range(channels):
        levels = ["-", "-"] if s["empty"][c] else [str(s["lowest"][c]), str(s["highest"][c])]
        clips = str(s["clipped"][c])
        fits = fits and len(clips) <= WIDTHS[1] and all(len(t) <= WIDTHS[2] for t in levels)
        lines.append("%4d%14s%12s%12s\n" % (c, clips, levels[0], levels[1]))
    total = str(sum(s["clipped"][:channels]))
    fits = fits and len(total) <= WIDTHS[1]
    lines.append("    %14s%24s\n" % (total, ""))
    return "".join(lines) if fits else None


def answer(channels, length, s):
    if not 1 <= channels <= 6:
        return (1, channels, 0), None
    if length != 43 * (channels + 1):
        return (7, length, 43 * (channels + 1)), None
    text = sheet(channels, s)
    return ((20, 0, 0), None) if text is None else ((0, 0, 0), text)


def joined(a, b):
    out = none()
    for c in range(6):
        out["clipped"][c] = min(a["clipped"][c] + b["clipped"][c], TOP)
        there = [s for s in (a, b) if not s["empty"][c]]
        if there:
            out["empty"][c] = 0
            out["lowest"][c] = min(s["lowest"][c] for s in there)
            out["highest"][c] = max(s["highest"][c] for s in there)
    return out


def row(numbers):
    return " ".join("%016x" % (n % 2**64) for n in numbers) + "\n"


def flat(s):
    return s["clipped"] + s["lowest"] + s["highest"] + s["empty"]


def some(rng):
    """Statistics with numbers of every length, most of which fit."""
    s = none()
    for c in range(6):
        s["empty"][c] = int(rng.random() < 0.2)
        s["clipped"][c] = rng.randrange(10 ** rng.randrange(1, 14))
        s["lowest"][c] = -rng.randrange(10 ** rng.randrange(1, 12))
        s["highest"][c] = rng.randrange(10 ** rng.randrange(1, 13))
        if rng.random() < 0.2:
            s["lowest"][c], s["highest"][c] = 0, 0
    return s


def at_limits():
    """One number of one channel at its column's limit, and one past it; and the sum."""
    for c in (0, 5):
        for key, numbers in (
            ("clipped", (10**14 - 1, 10**14, 2**63, TOP)),
            ("lowest", (-(10**11) + 1, -(10**11), 10**12 - 1, 10**12, -(2**63), 2**63 - 1)),
            ("highest", (-(10**11) + 1, -(10**11), 10**12 - 1, 10**12, -(2**63), 2**63 - 1)),
        ):
            for n in numbers:
                for empty in (0, 1):
                    s = none()
                    s["empty"] = [0] * 6
                    s[key][c] = n
                    s["empty"][c] = empty
                    yield s
    for parts in ((10**14 - 2, 1), (10**14 - 1, 1), (5 * 10**13,) * 2, (16 * 10**12,) * 6, (17 * 10**12,) * 6, (TOP,) * 6, (TOP, 1), (2**62,) * 4):
        s = none()
        s["clipped"] = (list(parts) + [0] * 6)[:6]
        yield s


def write(name, text):
    with open(f"{FOLDER}/{name}", "w", newline="") as file:
        file.write(text)


def main():
    rng = random.Random(14)
    cases, texts = [], []

    def case(channels, length, s):
        told, text = answer(channels, length, s)
        text = text or ""
        cases.append(row([channels, length] + flat(s) + list(told) + [sum(map(len, texts)), len(text)]))
        texts.append(text)

    for channels in range(1, 7):
        case(channels, 43 * (channels + 1), none())
    for s in at_limits():
        for channels in (1, 6):
            case(channels, 43 * (channels + 1), s)
    for _ in range(60):
        channels = rng.randrange(1, 7)
        case(channels, 43 * (channels + 1), some(rng))
    for channels, length in ((0, 43), (0, 0), (7, 344), (255, 43), (1, 85), (1, 87), (6, 0), (6, 300), (6, 302), (2, 86)):
        case(channels, length, some(rng))
        wide = none()
        wide["clipped"] = [TOP] * 6
        case(channels, length, wide)
    write("statistics", "".join(cases))
    write("sheets", "".join(texts))

    joins = []
    for k in range(30):
        a, b = some(rng), some(rng)
        if k % 3 == 0:
            a["clipped"] = [TOP - rng.randrange(3) for _ in range(6)]
            b["clipped"] = [rng.randrange(3) for _ in range(6)]
        if k % 5 == 0:
            a["lowest"] = [-(2**63)] * 6
            b["highest"] = [2**63 - 1] * 6
        joins.append(row(flat(a) + flat(b) + flat(joined(a, b))))
    write("joins", "".join(joins))
    print(f"statistics {len(cases)} sheets {len(texts)} bytes {sum(map(len, texts))} joins {len(joins)}")


if __name__ == "__main__":
    main()
