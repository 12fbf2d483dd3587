#!/usr/bin/env python3
"""Boards for crates/test_reports/data: a line with the turn length and a line FRAMES DUE for each album, a byte '=',
and what is to be printed.
The texts of `others` are no boards: command/stored.py makes words of them, which the command refuses as usage.

The answers are worked out here, turn by turn, and not by the library. Of the small boards every order of the turns is
tried, and none has a smaller greatest lateness. Run in the repository's folder; it says how many files it wrote and how
many orders it tried.
"""
import itertools
import os
import random
import sys

FOLDER = "crates/test_reports/data"


def simulate(albums, turn):
    """Finishing turns, each turn going to the unfinished album that is due first, on a tie to the lower number."""
    left = [frames for frames, _ in albums]
    finish = [0] * len(albums)
    now = 0
    while any(left):
        now += 1
        first = min((due, a) for a, (_, due) in enumerate(albums) if left[a])[1]
        left[first] -= min(turn, left[first])
        if left[first] == 0:
            finish[first] = now
    return finish


def latest(albums, finish):
    return max(f - due for f, (_, due) in zip(finish, albums))


def orders(albums, turn):
    """Every order that gives each album its turns, by the finishing turns."""
    turns = []
    for a, (frames, _) in enumerate(albums):
        turns += [a] * -(-frames // turn)
    for order in set(itertools.permutations(turns)):
        finish = [0] * len(albums)
        for now, a in enumerate(order, 1):
            finish[a] = now
        yield finish


def in_range(albums, turn):
    return (
        1 <= len(albums) <= 8
        and 1 <= turn <= 540000
        and all(1 <= frames <= 540000 and 0 <= due <= 1000000 for frames, due in albums)
    )


def lines(albums, turn):
    return "".join([f"{turn}\n"] + [f"{frames} {due}\n" for frames, due in albums])


def answer(albums, turn):
    if not in_range(albums, turn):
        return "refused 19\n"
    finish = simulate(albums, turn)
    rows = [f"album {a} finish {f} late {f - albums[a][1]}\n" for a, f in enumerate(finish)]
    return "".join(rows + [f"latest {latest(albums, finish)}\n"])


def small(rng):
    """At most 8 turns in all, so that every order can be tried."""
    while True:
        albums = [(rng.randint(1, 9), rng.randint(0, 6)) for _ in range(rng.randint(1, 4))]
        turn = rng.randint(1, 4)
        if sum(-(-frames // turn) for frames, _ in albums) <= 8:
            return albums, turn


def boards():
    rng = random.Random(11)
    # ties, all due at once, an album alone, eight albums, last turns that are not full
    yield [(5, 2), (3, 1), (4, 2)], 2
    yield [(4, 3), (4, 3), (4, 3)], 2
    yield [(7, 0), (7, 0), (7, 0), (7, 0)], 3
    yield [(3, 10)], 2
    yield [(1, 0)], 1
    yield [(10, k) for k in range(8)], 3
    yield [(10, 7 - k) for k in range(8)], 3
    yield [(1 + k, 5) for k in range(8)], 2
    yield [(8 - k, 5 - k % 2) for k in range(8)], 3
    yield [(5, 1), (6, 1), (7, 1)], 4
    # each limit, and one past it
    for frames in 0, 1, 540000, 540001:
        yield [(frames, 9)], 540000
    for due in 0, 1, 999999, 1000000, 1000001:
        yield [(2, due)], 1
    for turn in 0, 1, 2, 539999, 540000, 540001:
        yield [(540000, 3), (2, 3)], turn
    for n in 0, 1, 7, 8, 9, 20:
        yield [(3, n - k) for k in range(n)], 2
    yield [(540000, 1000000)] * 7 + [(540000, 0)], 1
    # numbers too large for a type, in each place
    for great in 2**32, 2**32 + 1, 2**64 - 1, 2**64, 2**64 + 1, 10**40:
        yield [(great, 1)], 1
        yield [(1, great)], 1
        yield [(1, 1)], great
        yield [(1, 1), (2, 2), (great, great)], 3
    for _ in range(40):
        n = rng.randint(1, 8)
        yield [(rng.randint(1, 40), rng.randint(0, 30)) for _ in range(n)], rng.randint(1, 12)


def others():
    """Input that is no board's lines."""
    good = lines([(5, 2), (3, 1)], 2)
    yield from ["", "\n", "2", "2\n\n", "x\n", "2\n5\n", "2\n5 \n", "2\n 5\n", "2\n5 2", good[:-1], good + "\n", good + "x"]
    yield from ["02\n5 2\n", "2\n05 2\n", "2\n5 02\n", "00\n", "-1\n5 2\n", "+2\n5 2\n", "2\n5 -2\n", " 2\n5 2\n", "2 \n5 2\n"]
    yield from ["2\n5  2\n", "2\n5\t2\n", "2\n5 2 \n", "2\n5 2\n\n", "2\r\n5 2\r\n", "2\n5,2\n", "2\n5 2 1\n", "2 5 2\n", "2\n5 2\n3\n"]
    yield from ["2\n1x 2\n", "2\n5 /\n", "2\n: 5\n", "9" * 30, "2\n" + "9" * 30 + "\n", "2\n5 2\n" + "9" * 40 + "x 1\n"]
    # nine albums of which the last line is none
    yield lines([(1, 1)] * 9, 1) + "1\n"
    yield "refused 19\n"


def main():
    cases = [(lines(*board), answer(*board)) for board in boards()]
    cases += [(text, "refused settings\n") for text in others()]
    tried = 0
    rng = random.Random(12)
    for _ in range(60):
        albums, turn = small(rng)
        best = latest(albums, simulate(albums, turn))
        for finish in orders(albums, turn):
            tried += 1
            if latest(albums, finish) < best:
                sys.exit(f"a better order for {albums}, {turn}")
        cases.append((lines(albums, turn), answer(albums, turn)))
    for name in os.listdir(FOLDER):
        if name.startswith("board"):
            os.remove(os.path.join(FOLDER, name))
    for k, (text, printed) in enumerate(cases, 1):
        assert "=" not in text and len(text) <= 1024
        with open(os.path.join(FOLDER, f"board{k:03}"), "w", newline="") as file:
            file.write(text + "=" + printed)
    print(f"boards {len(cases)} orders {tried}")


main()
