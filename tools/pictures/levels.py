"""The picture of an album's levels: for each channel the peaks over time, and where it clips and has overs."""
import math

from reports import FRAME, FULL, SECOND
from svg import Picture, clean, clock, minus, number

FLOOR = -60
PLOT, CLIPS, OVERS = 150, 20, 12   # heights of a channel's plot, and of the strips of clips and of overs below it
STRIP = CLIPS + OVERS
LEFT, RIGHT = 46, 12


def level(sample):
    """dBFS of a sample's size."""
    return 20 * math.log10(sample / FULL) if sample > 0 else -math.inf


def told_level(sample):
    """dBFS in words; near full scale with two digits, so that it does not seem to be there."""
    db = level(sample)
    return signed(told(db, 2 if 0 < abs(db) < 0.1 else 1))


def told(db, digits=1):
    """Decibels in words."""
    return "\u2212\u221e" if db == -math.inf else minus(f"{db + 0.0:.{digits}f}")


def signed(words):
    """A level in words, with a sign where it is over full scale."""
    return words if words[0] in "0\u2212" else "+" + words


class Columns:
    """An album cut into as many stretches as a picture is wide: of each channel clips, overs, largest and middle peak.
    """

    def __init__(self, album, most):
        n = min(most, album.frames)
        self.cuts = [album.frames * k // n for k in range(n + 1)]
        self.of = [[self.column(album, c, a, b) for a, b in zip(self.cuts, self.cuts[1:])] for c in range(len(album.channels))]

    @staticmethod
    def column(album, c, a, b):
        row, peaks = album.channels[c], sorted(album.peaks[c][a:b])
        return sum(row.clips[a:b]), sum(row.overs[a:b]), level(peaks[-1]), level(peaks[(b - a) // 2])


def ticks(seconds, most):
    """The step between the times that are written, in seconds."""
    steps = (0.02, 0.05, 0.1, 0.2, 0.5, 1, 2, 5, 10, 20, 30, 60, 120, 300, 600, 900, 1200, 1800)
    return next((it for it in steps if seconds / it <= most), 3600)


def verdict(album):
    """What to do, in a sentence."""
    by = album.over_by()
    if not album.clips:
        return "Nothing clips" + ("." if by == -math.inf else f": {told(math.floor(-by * 10) / 10)} dB are left to full scale.")
    first = min(next((k for k, n in enumerate(row.clips) if n), album.frames) for row in album.channels)
    words = f"It clips, first at {clock(first / SECOND, 2)}."
    if by is None:
        return f"{words} How far over is not in a report: DSF files, or the sheet, tell it."
    return f"{words} Turn down by {told(tenths(by))} dB and nothing clips{new_gain(album, by)}."


def tenths(by):
    return math.ceil(by * 10 - 1e-6) / 10


def new_gain(album, by):
    if album.settings.gain is None:
        return ""
    gain = float(album.settings.gain) - tenths(by)
    whole = math.floor(float(album.settings.gain) - by + 1e-9)
    return f" (-g {gain:.1f}, or -g {whole} in whole decibels)" if abs(gain - whole) > 0.05 else f" (-g {whole})"


def count(n, what):
    return f"{n:,} {what}" if n == 1 else f"{n:,} {what}s"


def title(album):
    return ": ".join(it for it in (album.title, album.settings.words()) if it)


def summary(album):
    return (f"{span(album.seconds())}, {count(album.frames, 'frame')}; {count(album.clips, 'clipped sample')}, {count(album.overs, 'over')}")


def span(seconds):
    """A length in words."""
    if seconds < 1:
        return f"{seconds:.3f} s"
    tenths_of = int(seconds * 10 + 1e-6)
    h, m, s = tenths_of // 36000, tenths_of // 600 % 60, tenths_of % 600 / 10
    return " ".join([f"{h} h"] * (h > 0) + [f"{m} min"] * (h + m > 0) + [f"{s:g} s"])


class Drawing:
    def __init__(self, album, width):
        self.album, self.p = album, Picture(width)
        self.wide = width - LEFT - RIGHT
        self.columns = Columns(album, self.wide)
        loudest = max(level(max(peaks)) for peaks in album.peaks)
        self.top = max(0, math.ceil((loudest + 0.3) / 3) * 3 if loudest > 0 else 0)
        self.seconds = album.seconds()

    def x(self, frame):
        return LEFT + self.wide * frame / self.album.frames

    def y(self, top, db):
        return top + PLOT * (self.top - max(FLOOR, db)) / (self.top - FLOOR)

    def heading(self):
        y = 24
        y = self.p.paragraph(LEFT, y, title(self.album), 16, "ink strong")
        y = self.p.paragraph(LEFT, y, summary(self.album), 11, "soft")
        return self.p.paragraph(LEFT, y, verdict(self.album), 12, "cliptext strong" if self.album.clips else "ink strong") - 4

    def grid(self, top):
        p = self.p
        p.box(LEFT, top, self.wide, PLOT + STRIP, "plot")
        for db in range(FLOOR, self.top + 1, 12 if self.top > 12 else 6):
            p.line(LEFT, self.y(top, db), LEFT + self.wide, self.y(top, db), "zero" if db == 0 else "grid")
            if db % 12 == 0 or 0 < db == self.top:
                p.text(LEFT - 6, self.y(top, db) + 4, minus(f"{db:+d}" if db else "0"), 11, "soft", "end")
        step = ticks(self.seconds, self.wide / 76)
        for k in range(int(self.seconds / step + 1e-9) + 1):
            x = self.x(k * step * SECOND)
            p.line(x, top, x, top + PLOT + STRIP, "grid")

    def times(self, y):
        step = ticks(self.seconds, self.wide / 76)
        digits = 0 if step >= 1 else 1 if step >= 0.1 else 2
        for k in range(int(self.seconds / step + 1e-9) + 1):
            x = self.x(k * step * SECOND)
            last = x > LEFT + self.wide - 16
            self.p.text(x, y + 15, clock(k * step, digits), 11, "soft", "end" if last else "middle")
        unit = "hours:minutes:seconds" if self.seconds >= 3600 else "minutes:seconds"
        self.p.text(LEFT + self.wide / 2, y + 33, f"time, {unit}", 11, "soft", "middle")

    def area(self, top, places, kind, base):
        """Steps from column to column, down to the line of `base` decibels."""
        cuts, steps = self.columns.cuts, [f"M{number(self.x(self.columns.cuts[0]))} {number(self.y(top, base))}"]
        for (a, b), db in zip(zip(cuts, cuts[1:]), places):
            steps.append(f"V{number(self.y(top, max(base, db)))}H{number(self.x(b))}")
        self.p.path(kind, "".join(steps) + f"V{number(self.y(top, base))}Z")

    def marks(self, top, columns):
        """Below the plot a bar for each column that clips, and a mark for each that has overs."""
        most = max(1, max(it[0] for of in self.columns.of for it in of))
        base = top + PLOT + CLIPS
        for (a, b), (clips, overs, peak, _) in zip(zip(self.columns.cuts, self.columns.cuts[1:]), columns):
            x, wide = self.x(a), max(2, self.x(b) - self.x(a))
            when = f"{clock(a / SECOND, 2)} to {clock(b / SECOND, 2)}"
            if clips:
                tall = (CLIPS - 3) * (0.3 + 0.7 * math.log1p(clips) / math.log1p(most))
                far = f", up to {told(peak, 2)} dB over" if peak > 0.004 else ""
                self.p.box(x, base - tall, wide, tall, "clip", f"{when}: {count(clips, 'clipped sample')}{far}")
            if overs:
                self.p.box(x, base + 3, wide, OVERS - 5, "over", f"{when}: {count(overs, 'over')}")

    def borders(self, top, bottom, first):
        """Where a track begins, and its number at the top."""
        for k, (_, a, b) in enumerate(self.album.tracks if len(self.album.tracks) > 1 else []):
            x, end = self.x(a / FRAME), self.x(b / FRAME)
            if k:
                self.p.line(x, top, x, bottom, "border", " dashed")
            if first and end - x > 8 * len(str(k + 1)) + 3:
                self.p.text((x + end) / 2, top - 4, str(k + 1), 10, "bordered", "middle")

    def words(self, y, c):
        """A channel's name and figures, in two lines where they have no room in one; the line's place."""
        p, row, peaks = self.p, self.album.channels[c], self.album.peaks[c]
        peak, clips, overs, right = max(peaks), sum(row.clips), sum(row.overs), LEFT + self.wide
        least = "at least " if self.album.beyond[c] is None else ""
        at = f" at {clock(peaks.index(peak) / SECOND, 1)}" if peak else ""
        p.text(LEFT, y, self.album.names[c], 13, "ink strong")
        if self.wide < 500:
            y += 17
        place = f'x="{LEFT}"' if self.wide < 500 else f'x="{number(right)}" text-anchor="end"'
        p.add(f'<text class="soft" {place} y="{number(y)}" font-size="11">peak {least}{told_level(peak)} dBFS{at}; '
              f'<tspan class="{"cliptext" if clips else "soft"}">{count(clips, "clip")}</tspan>, '
              f'<tspan class="{"over" if overs else "soft"}">{count(overs, "over")}</tspan></text>')
        return y

    def channel(self, y, c):
        """A channel's words, plot and strips; the place below."""
        many = len(self.album.tracks) > 1 and c == 0
        top = self.words(y + 14, c) + (20 if many else 8)
        columns = self.columns.of[c]
        self.grid(top)
        self.area(top, [it[2] for it in columns], "peak", FLOOR)
        self.area(top, [it[3] for it in columns], "typical", FLOOR)
        if any(it[2] > 0 for it in columns):
            self.area(top, [it[2] for it in columns], "beyond", 0)
        self.p.line(LEFT, self.y(top, 0), LEFT + self.wide, self.y(top, 0), "zero")
        self.p.line(LEFT, top + PLOT, LEFT + self.wide, top + PLOT, "edge")
        self.borders(top, top + PLOT + STRIP, many)
        self.marks(top, columns)
        self.p.line(LEFT, top + PLOT + CLIPS, LEFT + self.wide, top + PLOT + CLIPS, "edge")
        self.p.text(LEFT - 6, top + PLOT + CLIPS - 5, "clips", 11, "cliptext", "end")
        self.p.text(LEFT - 6, top + PLOT + STRIP - 1, "overs", 11, "over", "end")
        self.p.text(12, top + PLOT / 2, "peak, dBFS", 11, "soft", "middle", -90)
        return top + PLOT + STRIP + 12

    def legend(self, y):
        """What the colours are."""
        p, x = self.p, LEFT
        parts = [("peak", "largest peak"), ("typical", "half of the frames reach it")]
        if self.top:
            parts.append(("beyond", "beyond full scale"))
        if self.album.overs:
            parts.append(("over", "overs: three or more samples in a row at full scale"))
        for kind, words in parts:
            wide = 18 + 6.3 * len(words) + 14
            if x > LEFT and x + wide > LEFT + self.wide + 14:
                x, y = LEFT, y + 18
            p.box(x, y - 9, 11, 10, f"legend {kind}")
            p.text(x + 16, y, words, 11, "soft")
            x += wide
        return y + 10


def draw(album, width=800, within=False):
    """The picture as SVG; within a page without heading."""
    d = Drawing(album, width)
    y = 4 if within else d.heading()
    for c in range(len(album.channels)):
        y = d.channel(y, c)
    y -= 10
    d.times(y)
    d.p.height = d.legend(y + 54)
    return d.p.drawn(f"Levels of {clean(title(album))}. {summary(album)}. {verdict(album)}", within)
