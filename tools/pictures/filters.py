"""The routes' filters and their frequency responses, worked out from the tap tables of the definition.

A symmetric filter with taps h at the rate r has the response (h(0) + 2 sum of h(k) cos(2 pi k f / r)) / 2^q. Before the
last rate a route's response is the product of its filters', each at its own rate; a frequency above half the output's
rate comes out at the frequency that it folds to. At 352,800 Standard and Low work at 176,400 and put a value between
two, by the half band again: a frequency h comes out at h and, as its image, at 176,400 - h. Rounding is left out: a
stage rounds to 2^-26 of full scale."""
import functools
import itertools
import math
import re

from svg import Failed, clean

BITS = 2822400
GRID = 50  # Hz between the frequencies that are tried
RATES = (88200, 176400, 352800)
SCALE = {"S1": 26, "S1_WIDE": 26}  # 24 for every other
# of each cutoff where the pass band ends; of each cutoff and rate where the stop band begins
PASS = {"standard": 40000, "low": 30000, "wide": 80000}
STOP = {"standard": (48000, 48000, 48000), "low": (36000, 36000, 36000), "wide": (None, 88200, 96000)}


def tables(text):
    """The tables of crates/reference/specs/Taps.antt: `pos n` is n, and `negsuc n` is -(n + 1)."""
    found = {name: [int(n) if kind == "pos" else -int(n) - 1 for kind, n in re.findall(r"(pos|negsuc) ([0-9]+)", body)]
             for name, body in re.findall(r"^([A-Z0-9_]+) =\n((?:    .*\n)+)", text, re.M)}
    sizes = {name: len(taps) for name, taps in found.items()}
    if sizes != {"S1": 32, "S1_WIDE": 48, "HB": 16, "F40": 61, "F30": 81, "F80": 117}:
        raise Failed(3, f"the tap tables are not those of the six filters: {sizes}")
    return found


def own_taps(text, name):
    """A label's own low-pass: whole numbers from the centre, one a line, as the converter takes them (refusals 17, 18).
    """
    lines = text.split("\n")
    if lines[-1] == "":
        lines.pop()
    wrong = next((it for it in lines if not re.fullmatch("-?[0-9]{1,10}", it)), None)
    if wrong is not None:
        raise Failed(3, f"{name}: {clean(wrong)[:40]!r} is no whole number")
    taps = [int(it) for it in lines]
    if not 1 <= len(taps) <= 117:
        raise Failed(3, f"{name}: refused 17: {len(taps)} taps: there may be 1 to 117, from the centre")
    whole, size = taps[0] + 2 * sum(taps[1:]), abs(taps[0]) + 2 * sum(map(abs, taps[1:]))
    if whole != 16777216 or size > 40000000:
        raise Failed(3, f"{name}: refused 18: the centre and twice the others are {whole:,}, and {size:,} without signs: "
                        "they have to be 16,777,216, and 40,000,000 at most")
    return taps


class Filter:
    def __init__(self, taps, rate, q):
        self.taps, self.rate, self.q = taps, rate, q

    def at(self, f):
        """The response at a frequency, by Clenshaw's sum."""
        double, one, two = 2 * math.cos(2 * math.pi * f / self.rate), 0.0, 0.0
        for tap in reversed(self.taps[1:]):
            one, two = 2 * tap + double * one - two, one
        return (self.taps[0] + double / 2 * one - two) / 2**self.q

    @functools.cached_property
    def period(self):
        """The response at each frequency of the grid up to the rate, from where on it repeats."""
        half = [self.at(k * GRID) for k in range(self.rate // 2 // GRID + 1)]
        return half + half[-2:0:-1]

    def on(self, k):
        """The response at the k-th frequency of the grid."""
        return self.period[k % len(self.period)]


class Route:
    """A rate and a cutoff: the filters down to the rate at which the last one works, and what puts values between."""

    def __init__(self, cutoff, rate, filters, between=None, passes=None):
        self.cutoff, self.rate, self.filters, self.between = cutoff, rate, filters, between
        self.inner = rate // 2 if between else rate
        self.passes, self.stops = passes or PASS[cutoff], STOP[cutoff][RATES.index(rate)]

    def name(self):
        return f"{self.cutoff} {self.rate:,}"

    def down(self, f):
        return math.prod(it.at(f) for it in self.filters)

    def gain(self, f):
        """Of a frequency that comes out at itself."""
        return self.down(f) * (self.between.at(f) if self.between else 1)

    def on(self, k):
        """`gain` at the k-th frequency of the grid."""
        return self.downs[k] * (self.between.on(k) if self.between else 1)

    @property
    def downs(self):
        return downs(tuple(self.filters))

    @functools.cached_property
    def folded(self):
        """For each frequency of the output the largest gain of any other frequency that comes out there. Half the rate
        is its own image."""
        inner, last, out = self.inner // GRID, BITS // 2 // GRID, []
        for g in range(self.rate // 2 // GRID + 1):
            most = max((abs(self.downs[f]) for m in range(0, last + inner, inner) for f in {m - g, m + g} if 0 <= f <= last and (f != g or 2 * g == inner)),
                       default=0)
            out.append(most * (abs(self.between.on(g)) if self.between else 1))
        return out

    def stopped(self):
        """The largest gain of any frequency of the stop band, wherever it comes out, and of images."""
        most = max(map(abs, self.downs[self.stops // GRID:]))
        images = self.folded[self.stops // GRID:] if self.between else [0]
        return max(most, *images)

    def ripple(self):
        inside = [decibels(self.on(k)) for k in range(self.passes // GRID + 1)]
        return min(inside), max(inside)

    def falls_to(self, db):
        """The first frequency at which the response is so many decibels down."""
        low, high = 0, 0
        while decibels(self.gain(high)) > db:
            low, high = high, high + 200
        while high - low > 0.1:
            middle = (low + high) / 2
            low, high = (middle, high) if decibels(self.gain(middle)) > db else (low, middle)
        return low

    def folds_to(self, f):
        """The largest gain of what folds back to a frequency of the output up to f."""
        return max(self.folded[:f // GRID + 1])

    def clear_to(self):
        """The frequency of the output up to which all that folds back is as small as the stop band."""
        limit = self.stopped() * 1.0001
        return next((k - 1 for k, it in enumerate(self.folded) if it > limit), len(self.folded) - 1) * GRID

    def bits(self):
        """How many bits before and after its own one a sample depends on."""
        return sum((len(it.taps) - 1) * BITS // it.rate for it in [*self.filters, *([self.between] if self.between else [])])


@functools.cache
def downs(filters):
    """The response of some filters in turn at each frequency of the grid, up to half the rate of the bits."""
    every = zip(range(BITS // 2 // GRID + 1), *(itertools.cycle(it.period) for it in filters))
    return [math.prod(it[1:]) for it in every]


def decibels(gain):
    return 20 * math.log10(max(1e-12, abs(gain)))


def routes(taps, own=None):
    """The eight routes; or the three of Standard by a label's own taps, whose pass band is taken as the ear's."""
    def one(name, rate):
        return Filter(taps[name], rate, SCALE.get(name, 24))
    first, wide, half = one("S1", BITS), one("S1_WIDE", BITS), one("HB", 352800)
    low_passes = {"standard": Filter(own or taps["F40"], 176400, 24), "low": one("F30", 176400)}
    out = []
    for cutoff, last in list(low_passes.items())[:1 if own else 2]:
        out += [Route(cutoff, rate, [first, half, last], half if rate == 352800 else None, 20000 if own else None) for rate in RATES]
    return out if own else [*out, Route("wide", 176400, [wide, one("F80", 352800)]), Route("wide", 352800, [wide, one("F40", 352800)])]


def khz(f, digits=2):
    return f"{f / 1000:.{digits}f}"


def alike(found):
    """Routes in groups whose pass bands are the same: (name, routes)."""
    groups = []
    for it in found:
        if groups and groups[-1][0].cutoff == it.cutoff and not it.between and not groups[-1][0].between and it.cutoff != "wide":
            groups[-1].append(it)
        else:
            groups.append([it])
    return [(f"{of[0].cutoff} {', '.join(f'{it.rate:,}' for it in of)}", of[0]) for of in groups]


def pass_table(named):
    rows = ["| Route | Pass band to | Ripple in it, dB | \u22120.1 dB at | \u22123 dB at | \u22126 dB at | Stop band from | Largest in it, dB |",
            "|---|---|---|---|---|---|---|---|"]
    for name, it in named:
        least, most = it.ripple()
        rows.append(f"| {name} | {it.passes / 1000:g} kHz | {least:+.4f} to {most:+.4f} | {khz(it.falls_to(-0.1))} kHz | {khz(it.falls_to(-3))} kHz | "
                    f"{khz(it.falls_to(-6))} kHz | {it.stops / 1000:g} kHz | {decibels(it.stopped()):.1f} |".replace("-", "\u2212"))
    return "\n".join(rows) + "\n"


def fold_table(named):
    rows = ["| Route | To 20 kHz, dB | Into the pass band, dB | Clear to | At most, dB | Delay | Hears, each side |", "|---|---|---|---|---|---|---|"]
    for name, it in named:
        clear, half = it.clear_to(), it.rate // 2
        rows.append(f"| {name} | {decibels(it.folds_to(20000)):.1f} | {decibels(it.folds_to(it.passes)):.1f} | "
                    f"{khz(clear, 1)} kHz{' (all)' if clear == half else ''} | {decibels(max(it.folded)):.1f} | 0 | "
                    f"{1000 * it.bits() / BITS:.2f} ms |".replace("-", "\u2212"))
    return "\n".join(rows) + "\n"
