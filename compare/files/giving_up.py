"""Writes cases of crates/test_files: data/heads and data/uploads, as reading.py does.

Request 12 of document 02 is answered by looking for a file: `continued` makes, for each channel type and bit order, the
accepted file with the fewest samples and the least length that begins with the bytes at hand, and has layout.verdict
judge it. A beginning is hopeless where there is none. Fewest and least are enough: more samples need more blocks, so
they only raise the length that must be stated."""

import itertools
import sys

from layout import CHANNELS, fields_of, header, needed, verdict
from reading import HIGH, stored, words

ACCEPTED, UNFINISHED, GIVE_UP = 0, 1, 2


def least(known, low):
    """The least number of eight bytes, lowest first, that starts with the known bytes and is not below `low`."""
    n = int.from_bytes(known, "little")
    if len(known) < 8 and n < low:
        step = 256 ** len(known)
        n += (low - n + step - 1) // step * step
    return n


def continued(head, length):
    """The header of an accepted file that begins with these bytes, `length` of them, of which the first 92 are in
    `head`; or None."""
    known = head[:min(length, 92)]
    count = least(known[64:72], 0)
    for kind, bits in itertools.product(CHANNELS, (1, 8)):
        total = least(known[12:20], max(length, 92 + needed(CHANNELS[kind], count)))
        if total > HIGH:
            continue
        file = header(kind, bits, count, total=total, pointer=least(known[20:28], 0))
        if file.startswith(known) and length <= total and verdict(file, total) == 0:
            return file
    return None


def answer(head, length):
    if verdict(head, length) == 0:
        return ACCEPTED, 0
    if continued(head, length):
        return UNFINISHED, 0
    hopeful, hopeless = 0, length  # what begins with a hopeless beginning is hopeless
    while hopeless - hopeful > 1:
        middle = (hopeful + hopeless) // 2
        if continued(head, middle):
            hopeful = middle
        else:
            hopeless = middle
    return GIVE_UP, hopeless


HEADS = (
    header(2, 1, 8 * 4096, 55, pointer=8284),
    header(7, 8, 8 * 4097),
    header(1, 1, 0),
    header(5, 8, 8 * 4704, 1, pointer=HIGH),
    header(6, 1, 2**20, total=HIGH),
    header(3, 1, 8, total=92 + needed(3, 8) + 2**40),
    header(7, 8, HIGH - 7),
    header(4, 1, 8 * 9408, total=2**32),
)


def total_of(head):
    return fields_of(head)["total"]


def bytes_in_turn():
    """Every byte of two headers changed: the whole file, and the beginnings that end right before and right after it.
    """
    for k, at in itertools.product((0, 1), range(92)):
        for flip in (1, 128):
            value = bytes([HEADS[k][at] ^ flip])
            for length in (total_of(HEADS[k]), at + 1, at, 92):
                yield k, at, value, length


def truncated():
    for k, head in enumerate(HEADS):
        total = total_of(head)
        need = 92 + needed(fields_of(head)["channels"], fields_of(head)["count"])
        around = [n + off for n in (4188, 8284, need, total) for off in (-1, 0, 1)]
        for length in itertools.chain(range(95), (n for n in around if 0 <= n <= HIGH), (HIGH,)):
            yield k, 0, b"", length


def stated():
    for k in (0, 1, 5):
        need = 92 + needed(fields_of(HEADS[k])["channels"], fields_of(HEADS[k])["count"])
        for total in (0, 1, 19, 20, 64, 72, 91, 92, 93, 4187, 4188, need - 1, need, need + 1, 2**32, 2**63, HIGH):
            around = [n + off for n in (13, 20, 65, 72, 92) for off in (-1, 0, 1)]
            near = [n for n in (total - 1, total, total + 1, 5000, HIGH) if 0 <= n <= HIGH]
            for length in around[::2] + near:
                yield k, 12, total.to_bytes(8, "little"), length


def counts():
    """Each byte of the sample count, under stated lengths that allow little, much and everything."""
    for k, place, value in itertools.product((0, 5, 4), range(8), (1, 8, 16, 128, 248, 255)):
        for length in sorted({64 + place, 65 + place, 66 + place, 92, total_of(HEADS[k])}):
            yield k, 64 + place, bytes([value]), length


def pairs():
    for kind, channels in itertools.product(range(9), range(8)):
        value = kind.to_bytes(4, "little") + channels.to_bytes(4, "little")
        for length in (48, 49, 52, 53, 56, 92, total_of(HEADS[0])):
            yield 0, 48, value, length


def sizes():
    for k in (0, 4):
        right = fields_of(HEADS[k])["data_size"]
        for size in (0, 12, right - 1, right + 1, right ^ 2**16, right + 2**32, right + 2**63, HIGH):
            for length in (84, 85, 86, 87, 89, 91, 92, total_of(HEADS[k])):
                yield k, 84, size.to_bytes(8, "little"), length


def case(k, at, value, length):
    head = HEADS[k][:at] + value + HEADS[k][at + len(value):]
    kind, n = answer(head, length)
    return k, at, len(value), int.from_bytes(value, "little"), length, kind, n


def main(to):
    stored(to, "heads", [words(head) for head in HEADS], len(HEADS))
    found = {}
    for one in itertools.chain(bytes_in_turn(), truncated(), stated(), counts(), pairs(), sizes()):
        found.setdefault(one, case(*one))
    stored(to, "uploads", list(found.values()), sum(case[5] == ACCEPTED for case in found.values()))


if __name__ == "__main__":
    main(sys.argv[1])
