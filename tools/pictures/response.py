"""The picture of the routes' frequency responses, and of a label's own taps beside F40."""
import math

from filters import GRID, RATES, decibels, khz
from svg import Picture, minus

LEFT, RIGHT, GAP = 56, 12, 44
FLOOR = -160
FOLDS = "the most that folds back to a frequency of the output"
GREY = "Grey is above half the output's rate: what would stand there folds back."


class Panel:
    """A plot with its axes: frequencies in kHz, gains in dB."""

    def __init__(self, p, place, size, reach, levels):
        self.p, (self.x0, self.y0), (self.w, self.h) = p, place, size
        (self.low, self.high), (self.bottom, self.top) = reach, levels

    def x(self, f):
        return self.x0 + self.w * (f - self.low) / (self.high - self.low)

    def y(self, db):
        return self.y0 + self.h * (self.top - db) / (self.top - self.bottom)

    def axes(self, each_khz, each_db, digits=0, words=True, named=True):
        p = self.p
        for k in range(math.ceil((self.bottom - 1e-9) / each_db), math.floor((self.top + 1e-9) / each_db) + 1):
            y = self.y(k * each_db)
            p.line(self.x0, y, self.x0 + self.w, y, "zero" if k == 0 else "grid")
            p.text(self.x0 - 6, y + 4, minus(f"{k * each_db:.{digits}f}"), 11, "soft", "end")
        for k in range(math.ceil(self.low / each_khz / 1000), int(self.high / each_khz / 1000) + 1):
            x = self.x(k * each_khz * 1000)
            p.line(x, self.y0, x, self.y0 + self.h)
            p.text(x, self.y0 + self.h + 15, f"{k * each_khz:g}", 11, "soft", "middle")
        if words:
            p.text(self.x0 + self.w / 2, self.y0 + self.h + 31, "frequency, kHz", 11, "soft", "middle")
        if named:
            p.text(self.x0 - 45, self.y0 + self.h / 2, "gain, dB", 11, "soft", "middle", -90)

    def curve(self, points, kind, more=""):
        """Points (frequency, decibels); what is outside of the plot is left out."""
        runs, run = [], []
        for (f, db), after in zip(points, [*points[1:], None]):
            inside = self.bottom <= db <= self.top
            if inside or run and run[-1] is not None or after and self.bottom <= after[1] <= self.top:
                run.append((self.x(f), self.y(min(self.top, max(self.bottom, db)))) )
            if not inside and len(run) > 1:
                runs.append(run)
                run = []
        runs.append(run)
        for it in runs:
            if len(it) > 1:
                self.p.curve(thinned(it), kind, more)

    def frame(self):
        x, y = self.x0, self.y0
        self.p.path("line edge", f"M{x:.1f} {y:.1f}h{self.w:.1f}v{self.h:.1f}h{-self.w:.1f}Z")


def thinned(points):
    """Of points that are nearer than a unit the first, the lowest, the highest and the last."""
    out, k = [], 0
    while k < len(points):
        end = k
        while end + 1 < len(points) and points[end + 1][0] - points[k][0] < 1:
            end += 1
        some = points[k:end + 1]
        keep = {k, end, k + min(range(len(some)), key=lambda n: some[n][1]), k + max(range(len(some)), key=lambda n: some[n][1])}
        out += [points[n] for n in sorted(keep)]
        k = end + 1
    return out


def response(route, low, high, step=GRID):
    return [(f, decibels(route.on(f // GRID))) for f in range(low, high + 1, step)]


def legend(p, x, y, items, right):
    """Lines of colours and words; the place below."""
    first = x
    for kind, words, more in items:
        wide = 24 + 6.2 * len(words) + 16
        if x > first and x + wide > right + 16:
            x, y = first, y + 17
        p.line(x, y - 4, x + 18, y - 4, "curve " + kind, more)
        p.text(x + 24, y, words, 11, "soft")
        x += wide
    return y + 17


def bands(p, y, curves):
    """Pass bands and the edges below them, side by side where there is room."""
    beside = p.width >= 640
    wide = (p.width - LEFT - RIGHT - (LEFT + 10 if beside else 0)) / (2 if beside else 1)
    ripple = max(0.006, *(max(map(abs, it.ripple())) * 1.15 for it, *_ in curves))
    step = next(it for it in (0.002, 0.005, 0.01, 0.02, 0.05, 0.1, 0.2, 0.5, 1, 2, 5, 10, 20, 50) if ripple / it <= 4)
    top = y + 20
    p.text(LEFT, y + 8, "Pass band", 13, "ink strong")
    edge = max(it.passes for it, *_ in curves)
    high = -(-edge * 9 // 8 // 5000) * 5000
    one = Panel(p, (LEFT, top), (wide, 170), (0, high), (-ripple, ripple))
    p.box(one.x0, one.y0, one.w, one.h, "plot")
    one.axes(10 if high > 40000 else 5, step, len(f"{step:g}".partition(".")[2]))
    for it, kind, _, more in curves:
        one.curve([(f, db) for f, db in response(it, 0, high, 50)], kind, more)
    one.frame()
    x = LEFT + wide + LEFT + 10 if beside else LEFT
    y = y if beside else top + 170 + 46
    p.text(x, y + 8, "Its edge", 13, "ink strong")
    low = int(min(it.falls_to(-0.1) for it, *_ in curves) // 1000 - 4) * 1000
    end = int(max(it.falls_to(-12) for it, *_ in curves) // 1000 + 6) * 1000
    two = Panel(p, (x, y + 20), (wide, 170), (max(0, low), end), (-12, 1))
    p.box(two.x0, two.y0, two.w, two.h, "plot")
    two.axes(10 if end - low > 40000 else 5, 3)
    for it, kind, _, more in curves:
        two.curve(response(it, max(0, low), end, 50), kind, more)
    two.frame()
    return legend(p, LEFT, y + 20 + 170 + 50, [(kind, words, more) for _, kind, words, more in curves], p.width - RIGHT) + 8


def route_panel(p, place, size, route, kind, others=()):
    """The whole response, and what folds back: grey is above half the output's rate, where nothing comes out."""
    panel = Panel(p, place, size, (0, 200000), (FLOOR, 5))
    half = route.rate // 2
    p.box(panel.x0, panel.y0, panel.w, panel.h, "plot")
    if half < 200000:
        p.box(panel.x(half), panel.y0, panel.x(200000) - panel.x(half), panel.h, "folds")
    panel.axes(50, 40, words=False, named=place[0] == LEFT)
    most = [(k * GRID, decibels(it)) for k, it in enumerate(route.folded)]
    panel.curve(most, "c3")
    for it, other, more in [(route, kind, ""), *others]:
        panel.curve(response(it, 0, 200000), other, more)
    panel.frame()


def no_panel(p, place, size):
    p.box(*place, *size, "plot")
    for k, words in enumerate(["wide is for 176,400", "and 352,800:", "refused (2) at 88,200"]):
        p.text(place[0] + size[0] / 2, place[1] + size[1] / 2 - 14 + 18 * k, words, 12, "soft", "middle")


def told(route):
    """A route's figures in a line or two."""
    return [f"\u22123 dB at {khz(route.falls_to(-3), 1)} kHz; {minus(f'{decibels(route.stopped()):.1f}')} dB from {route.stops / 1000:g} kHz",
            f"folds back: {minus(f'{decibels(route.folds_to(route.passes)):.1f}')} dB to {route.passes / 1000:g} kHz"]


def grid_of(p, y, rows):
    """Rows of panels: (cutoff, [(route, class, others) or None for each rate])."""
    columns = 3 if p.width >= 640 else 1
    wide, high = (p.width - LEFT - RIGHT - (columns - 1) * GAP) / columns, 130
    for cutoff, of in rows:
        for k, it in enumerate(of):
            x = LEFT + (k % columns) * (wide + GAP)
            if columns == 1 and it is None:
                continue
            p.text(x, y + 10, f"{cutoff}, {RATES[k]:,} Hz", 12, "ink strong")
            if it is None:
                no_panel(p, (x, y + 18), (wide, high))
            else:
                route_panel(p, (x, y + 18), (wide, high), *it)
                for n, words in enumerate(told(it[0])):
                    p.text(x, y + 18 + high + 31 + 14 * n, words, 10, "soft")
            if columns == 1:
                y += 18 + high + 72
        y += 18 + high + 64 if columns > 1 else 0
    p.text(p.width / 2, y, "horizontal: frequency, kHz", 11, "soft", "middle")
    return y + 16


def draw(routes, width=800):
    """The eight routes."""
    p = Picture(width)
    y = p.paragraph(LEFT, 26, "Frequency responses of the eight routes", 16, "ink strong")
    y = p.paragraph(LEFT, y, "One-bit input (DSD64) to 24-bit PCM, worked out from the tap tables.", 11, "soft") + 8
    at = {(it.cutoff, it.rate): it for it in routes}
    curves = [(at["standard", 176400], "c0", "standard", ""), (at["low", 176400], "c1", "low", ""),
              (at["wide", 176400], "c2", "wide 176,400", ""), (at["wide", 352800], "c2", "wide 352,800", " dashed")]
    y = bands(p, y, curves)
    y = p.paragraph(LEFT, y + 8, "Each route", 13, "ink strong")
    y = legend(p, LEFT, y, [("c0", "response", ""), ("c3", FOLDS, "")], width - RIGHT)
    y = p.paragraph(LEFT, y, GREY, 11, "soft") + 4
    rows = [(cutoff, [(at[cutoff, rate], kind) if (cutoff, rate) in at else None for rate in RATES])
            for cutoff, kind in (("standard", "c0"), ("low", "c1"), ("wide", "c2"))]
    p.height = grid_of(p, y, rows)
    return p.drawn("Frequency responses of the eight routes")


def draw_own(own, standard, name, width=800):
    """The three routes of Standard by a label's own taps, beside F40's."""
    p, beside = Picture(width), standard[:3]
    y = p.paragraph(LEFT, 26, f"Standard by {name} beside F40", 16, "ink strong")
    y = p.paragraph(LEFT, y, f"{len(own[0].filters[-1].taps)} taps from the centre, at 176,400 Hz; F40 has {len(beside[0].filters[-1].taps)}.", 11, "soft") + 8
    y = bands(p, y, [(own[1], "c2", name, ""), (beside[1], "c0", "F40", " dashed")])
    y = p.paragraph(LEFT, y + 8, "Each route", 13, "ink strong")
    y = legend(p, LEFT, y, [("c2", name, ""), ("c3", "the most that folds back with it", ""), ("c0", "F40", " dashed")], width - RIGHT)
    y = p.paragraph(LEFT, y, GREY, 11, "soft") + 4
    p.height = grid_of(p, y, [("standard", [(it, "c2", [(other, "c0", " dashed")]) for it, other in zip(own, beside)])])
    return p.drawn(f"Frequency responses of Standard by {name} beside F40")
