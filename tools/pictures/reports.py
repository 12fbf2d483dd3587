"""Level reports read: a stored one, or that of DSF files, as `puigneht levels` prints it."""
import array
import decimal
import math
import operator
import os
import re
import subprocess

from svg import Failed, clean

FULL = 8388608  # full scale
SECOND = 75     # frames
FRAME = 4704    # bytes of a channel in a frame
NUMBER = rb"(?:0|[1-9][0-9]{0,8})"
SIGNED = rb"(?:0|-?[1-9][0-9]{0,8})"
LINE = (rb"frame " + NUMBER + rb" channel " + NUMBER + rb" clipped " + NUMBER + rb" low " + SIGNED + rb" high " + SIGNED
        + rb" over " + NUMBER + rb"\n")
LINES = re.compile(rb"(?:" + LINE + rb")*")
LAST = re.compile(rb"frames (0|[1-9][0-9]{0,8}) clipped (0|[1-9][0-9]{0,9})\n")
WORDS, CLIPS, LOW, HIGH, OVERS = 12, 5, 7, 9, 11  # of a line, and which of them
# Sony's channel types
SPEAKERS = {1: ["mono"], 2: ["left", "right"], 3: ["left", "right", "centre"],
            4: ["left", "right", "back left", "back right"], 5: ["left", "right", "centre", "low frequencies"],
            6: ["left", "right", "centre", "back left", "back right"],
            7: ["left", "right", "centre", "low frequencies", "back left", "back right"]}


class Channel:
    """Of each frame clips, lowest and highest sample, and overs."""

    def __init__(self):
        self.clips, self.low, self.high, self.overs = (array.array("i") for _ in range(4))

    def peaks(self):
        """The largest sample of each frame, without its sign."""
        return [-low if -low > high else high for low, high in zip(self.low, self.high)]


class Report:
    """A report that is being read, some lines at a time."""

    def __init__(self, name):
        self.name, self.channels, self.done = name, [], 0

    def wrong(self, words):
        raise Failed(3, f"{self.name}: {words}")

    def take(self, lines):
        """Lines of frames, each whole."""
        if not LINES.fullmatch(lines):
            self.tell_wrong(lines)
        words = lines.split()
        places = list(zip(map(int, words[1::WORDS]), map(int, words[3::WORDS])))
        if not self.channels:
            self.channels = [Channel() for frame, _ in places[:6] if frame == 0]
        n = max(1, len(self.channels))
        for k, it in enumerate(places, self.done):
            if it != divmod(k, n):
                self.wrong(f"frame {it[0]} channel {it[1]} stands where another frame or channel should")
        for c, row in enumerate(self.channels):
            first = (c - self.done) % n * WORDS
            for kind, at in ((row.clips, CLIPS), (row.low, LOW), (row.high, HIGH), (row.overs, OVERS)):
                kind.extend(map(int, words[first + at::WORDS * n]))
        self.done += len(places)

    def tell_wrong(self, lines):
        for text in lines.splitlines(True):
            if LAST.fullmatch(text):
                self.wrong(f"the report goes on after {shown(text)}")
            if not LINES.fullmatch(text):
                self.wrong(f"{shown(text)} is no line of a level report")

    def end(self, last):
        """The last line says what stands before it."""
        told = LAST.fullmatch(last)
        if not told:
            how = f"it ends with {shown(last)}" if last else "it is empty"
            self.wrong(f"the report is not whole: {how}, and not with 'frames N clipped M'")
        frames, clips = map(int, told.groups())
        rows = self.channels
        if any(len(row.clips) != frames for row in rows) or sum(sum(row.clips) for row in rows) != clips:
            self.wrong("the lines are not those that the last one counts")
        if not frames or not rows:
            self.wrong("the report has no frame")
        for row in rows:
            if min(row.low) < -FULL or max(row.high) >= FULL or any(map(operator.gt, row.low, row.high)) \
                    or max(row.clips) > FRAME or max(row.overs) > FRAME:
                self.wrong("a level, clips or overs of it cannot be")
        return rows


def read(file, name):
    """The channels of a report. One that is not whole, or whose lines are not in order, is turned down."""
    report, held = Report(name), b""
    while data := file.read(1 << 20):
        held += data
        if b"\n" not in held[-200:]:
            report.tell_wrong(held[-200:] + b"\n")
        end = held.rfind(b"\n", 0, held.rfind(b"\n") if b"\n" in held else 0) + 1  # the last line waits
        report.take(held[:end])
        held = held[end:]
    return report.end(held)


def shown(text):
    return repr(text.rstrip(b"\n")[:80].decode("ascii", "replace"))


class Track:
    """What stands in a DSF file's head: channel type, and bytes of each channel."""

    def __init__(self, path):
        try:
            with open(path, "rb") as file:
                head = file.read(92)
        except OSError as wrong:
            raise Failed(1, f"cannot read {clean(path)}: {wrong.strerror}") from None
        self.path = path
        self.is_dsf = head[:4] == b"DSD "
        if self.is_dsf and len(head) < 92:
            raise Failed(3, f"{clean(path)}: a DSF file of less than 92 bytes")
        self.type = int.from_bytes(head[48:52], "little")
        self.bytes = int.from_bytes(head[64:72], "little") // 8


class Settings:
    """What a conversion was told: rate and cutoff as text, decibels as a decimal number; None where it is not known."""

    def __init__(self, rate, cutoff, gain):
        self.rate, self.cutoff, self.gain = rate, cutoff, gain

    def at(self, gain):
        return Settings(self.rate, self.cutoff, gain)

    def words(self):
        told = [f"{int(self.rate):,} Hz" if self.rate else "", self.cutoff or "", decibels(self.gain)]
        return ", ".join(it for it in told if it)


def decibels(gain):
    """A gain in words, nothing where it is not known."""
    return "" if gain is None else "0 dB" if not gain else f"{gain:+f} dB".replace("-", "\u2212")


def run(command, settings, paths, *more):
    """The channels of DSF files, which are an album's tracks."""
    words = [command, "levels", "-r", settings.rate, "-c", settings.cutoff, "-g", f"{settings.gain:f}", *more, "--", *paths]
    try:
        with subprocess.Popen(words, stdout=subprocess.PIPE) as ran:
            try:
                channels, wrong = read(ran.stdout, "puigneht levels"), None
            except Failed as told:
                channels, wrong = None, told
            ran.stdout.read()
    except OSError as failed:
        raise Failed(1, f"cannot start {clean(command)}: {failed.strerror}") from None
    if ran.returncode:
        raise Failed(ran.returncode if ran.returncode > 0 else 1, f"{clean(command)} levels ended with status {ran.returncode}")
    if wrong:
        raise wrong
    return channels


class Album:
    """Channels, their names, tracks as (name, first byte, byte behind), and what is known of numbers before the clamp.
    """

    def __init__(self, title, settings, channels, names, tracks=()):
        self.title, self.settings, self.channels, self.names, self.tracks = title, settings, channels, names, list(tracks)
        self.peaks = [row.peaks() for row in channels]
        self.beyond = [None] * len(channels)  # the most that a number before the clamp may be, without its sign
        self.extremes = [self.held(row) for row in channels]  # lowest and highest before the clamp, each (number, exact)
        self.frames = len(channels[0].clips)
        self.clips, self.overs = (sum(sum(getattr(row, kind)) for row in channels) for kind in ("clips", "overs"))
        for c, row in enumerate(channels):
            if not any(row.clips):
                self.beyond[c] = max(self.peaks[c])

    @staticmethod
    def held(row):
        """Lowest and highest before the clamp where samples tell them: nothing clips, or not at that end."""
        low, high, clips = min(row.low), max(row.high), any(row.clips)
        return (None if clips and low == -FULL else (low, True)), (None if clips and high == FULL - 1 else (high, True))

    def take_lower(self, lower, by):
        """Frames that clip, from a report of `by` decibels less in which nothing clips."""
        factor = 10 ** (float(by) / 20)
        for c, row in enumerate(self.channels):
            under = lower[c].peaks()
            for k, clips in enumerate(row.clips):
                if clips:
                    self.peaks[c][k] = max(self.peaks[c][k], under[k] * factor)
            if any(row.clips):
                self.beyond[c] = (max(under) + 0.5) * factor
                digits = -math.ceil(math.log10(factor))  # of these a number out of the other report says nothing
                far = tuple((int(round(it * factor, digits)), False) for it in (min(lower[c].low), max(lower[c].high)))
                self.extremes[c] = tuple(exact or about for exact, about in zip(self.extremes[c], far))

    def take_sheet(self, sheet):
        """The largest numbers before the clamp out of the level sheet."""
        if len(sheet) != len(self.channels) or [it[0] for it in sheet] != [sum(row.clips) for row in self.channels]:
            raise Failed(3, "the sheet is not this album's: its channels or clips are others")
        for c, (_, low, high) in enumerate(sheet):
            if not any(self.channels[c].clips) and (low, high) != (min(self.channels[c].low), max(self.channels[c].high)):
                raise Failed(3, f"the sheet is not this album's: channel {c + 1} has other levels")
            self.beyond[c] = max(-low, high)
            self.extremes[c] = (low, True), (high, True)

    def spans(self):
        """Of each track its first frame and the one behind: a frame is the track's in which it begins."""
        return [(-(-a // FRAME), min(self.frames, -(-b // FRAME))) for _, a, b in self.tracks]

    def seconds(self):
        return self.tracks[-1][2] / (FRAME * SECOND) if self.tracks else self.frames / SECOND

    def over_by(self):
        """How far the largest number is over full scale in decibels, at most; below 0 what is left; None: not known."""
        if any(it is None for it in self.beyond):
            return None
        most = max(self.beyond)
        return 20 * math.log10((most + 0.5) / (FULL - 0.51)) if most else -math.inf


def of_report(file, name, title, settings):
    channels = read(file, name)
    names = {1: ["mono"], 2: ["left", "right"]}.get(len(channels), [f"channel {c + 1}" for c in range(len(channels))])
    return Album(title, settings, channels, names)


def of_tracks(command, settings, tracks, title, once=False):
    """The album of some DSF files. Where it clips, a second report of less decibels tells how far, unless `once`."""
    paths, place, placed = [it.path for it in tracks], 0, []
    channels = run(command, settings, paths)
    for it in tracks:
        placed.append((os.path.basename(it.path), place, place + it.bytes))
        place += it.bytes
    if len(channels[0].clips) != -(-place // FRAME):
        raise Failed(3, f"the report has {len(channels[0].clips):,} frames, and the files have {-(-place // FRAME):,}")
    names = SPEAKERS.get(tracks[0].type, [])
    if len(names) != len(channels):
        raise Failed(3, f"the report has {len(channels)} channels, and the first file has {len(names)}")
    album = Album(title, settings, channels, names, placed)
    if album.clips and not once:
        # no route makes of bits what is eight times full scale
        gain = max(decimal.Decimal(-120), min(settings.gain, decimal.Decimal(0)) - 18)
        lower = run(command, settings.at(gain), paths, "-q")
        if any(any(row.clips) for row in lower) or len(lower) != len(channels) or len(lower[0].clips) != album.frames:
            raise Failed(3, "the report of less decibels is not of the same album, or clips")
        album.take_lower(lower, settings.gain - gain)
    return album


def read_sheet(path):
    """(clips, lowest, highest) of each channel, out of a level sheet as `puigneht -s` writes it."""
    try:
        with open(path, encoding="ascii", errors="replace") as file:
            words = [line.split() for line in file]
    except OSError as wrong:
        raise Failed(1, f"cannot read {clean(path)}: {wrong.strerror}") from None
    *rows, last = words or [[]]
    try:
        sheet = [(int(clips), *((0, 0) if low == high == "-" else (int(low), int(high)))) for n, clips, low, high in rows]
        if [int(row[0]) for row in rows] != list(range(len(rows))) or not rows or [int(it) for it in last] != [sum(it[0] for it in sheet)]:
            raise ValueError
    except ValueError:
        raise Failed(3, f"{clean(path)} is no level sheet") from None
    return sheet
