"""What the tests share: stored answers, which come from outside this code, and files laid out by command/files.py."""
import faulthandler
import os
import pathlib
import random
import struct
import sys
import tempfile
import unittest

HERE = pathlib.Path(__file__).resolve().parent
ROOT = pathlib.Path(os.environ.get("PUIGNEHT_ROOT") or HERE.parents[2])
sys.path.insert(0, str(ROOT / "command"))
import files  # noqa: E402
import generated  # noqa: E402,F401

COMMAND = os.environ.get("PUIGNEHT_COMMAND") or str(ROOT / "target" / "puigneht")
RATES, CUTOFFS = (88200, 176400, 352800), ("standard", "low", "wide")
FRAME = 4704
try:
    import numpy
except ImportError:
    numpy = None


def held(*path):
    """Stored answers: those of a crate's tests, or one name alone of the folder `stored` here."""
    return (ROOT.joinpath("crates", *path) if len(path) > 1 else HERE / "stored" / path[0]).read_bytes()


def rows(*path):
    """Stored cases: a line of hexadecimal numbers each."""
    return [[int(n, 16) for n in line.split()] for line in held(*path).splitlines()]


def number(bits):
    return struct.unpack("<d", struct.pack("<Q", bits))[0]


def signed(n):
    return n - (1 << 64) if n >> 63 else n


def chance(seed, count):
    """The bytes that a seed stands for."""
    x, made = seed, bytearray()
    for _ in range(count):
        x = (x * 1664525 + 1013904223) & 0xFFFFFFFF
        made.append(x >> 24)
    return bytes(made)


def patterned(pattern, seed, channels, count):
    """As compare/answers has it."""
    x, made = seed % 2**32, bytearray()
    for k in range(count):
        if pattern == 3 and channels and k % (4 * channels) == 0:
            x = seed % 2**32
        x = (x * 1664525 + 1013904223) & 0xFFFFFFFF
        high = x >> 24
        if pattern == 1:
            high = seed % 256
        elif pattern == 2 and high >= 16:
            high = 0 if k // 300 % 2 else 255
        made.append(high)
    return bytes(made)


def digests(samples):
    """Two digests of samples, made positive, as compare/answers has them."""
    a, b = 1, 1
    for x in samples:
        n = (x + 0x80000000) % 2**32
        a, b = (a * 1000003 + n) % 1000000007, (b * 131071 + n) % 998244353
    return [a, b]


def digest(data):
    h = 0
    for b in data:
        h = (h * 1664525 + b + 1) % 4294967291
    return h


def packed(samples):
    return b"".join((x & 0xFFFFFF).to_bytes(3, "little") for x in samples)


def flat(samples):
    """Samples as a list of numbers, whatever holds them."""
    return samples.ravel().tolist() if hasattr(samples, "ravel") else samples.tolist()


def sound(seed, count, loud=False):
    """Bytes of a channel: stretches of noise, of bytes that repeat, and of loud square waves."""
    source, made = random.Random(seed), bytearray()
    while len(made) < count:
        k = source.randrange(1, 3000)
        made += source.choice([b"\xff" * k, b"\0" * k] if loud and source.randrange(2) else [b"\x69" * k, source.randbytes(k), source.randbytes(k)])
    return bytes(made[:count])


def dsf(channels, count, seed=1, bits=1, metadata=0, loud=False):
    """A file of so many bytes of each channel."""
    return files.laid_out([sound(seed + 10 * c, count, loud) for c in range(channels)], bits, 8 * count, metadata) + bytes(metadata)


class Case(unittest.TestCase):
    def run(self, result=None):
        """A test that takes two minutes ends all of them: what never ends is wrong, too."""
        faulthandler.dump_traceback_later(120, exit=True)
        try:
            return super().run(result)
        finally:
            faulthandler.cancel_dump_traceback_later()

    def folder(self):
        """A folder that is gone after the test."""
        made = tempfile.TemporaryDirectory()
        self.addCleanup(made.cleanup)
        return pathlib.Path(made.name)

    def refused(self, number, data=None):
        """`with`: what is done is refused so."""
        return _Refused(self, number, data)


class _Refused:
    def __init__(self, case, number, data):
        self.case, self.number, self.data = case, number, data

    def __enter__(self):
        return self

    def __exit__(self, kind, error, trace):
        import puigneht
        if kind is None or not issubclass(kind, puigneht.Refused):
            if kind is None:
                self.case.fail(f"not refused {self.number}")
            return False
        self.case.assertEqual(error.number, self.number, str(error))
        if self.data is not None:
            self.case.assertEqual(error.data, self.data)
        self.error = error
        return True
