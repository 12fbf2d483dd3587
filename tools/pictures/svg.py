"""Shapes of SVG as text, in classes whose colours follow the reader's light or dark screen; and words for times."""
import html
import math
import os
import re
import sys
import tempfile

FONT = "DejaVu Sans, Verdana, Helvetica, Arial, sans-serif"
# class: what it colours, on a light and on a dark screen
COLOURS = {
    "paper": ("fill", "#ffffff", "#15181c"),
    "plot": ("fill", "#f7f8fa", "#1c2025"),
    "ink": ("fill", "#1b1f23", "#e8eaed"),
    "soft": ("fill", "#56606a", "#a3acb5"),
    "grid": ("stroke", "#dfe3e7", "#30363d"),
    "zero": ("stroke", "#6b7580", "#8b949e"),
    "edge": ("stroke", "#9aa3ad", "#59626b"),
    "border": ("stroke", "#8a5fbf", "#b08ae0"),
    "bordered": ("fill", "#6f42b0", "#c3a4ee"),
    "peak": ("fill", "#a8cdee", "#2c5780"),
    "typical": ("fill", "#2673b8", "#5ba3e0"),
    "beyond": ("fill", "#d9480f", "#ff922b"),
    "clip": ("fill", "#d9480f", "#ff922b"),
    "cliptext": ("fill", "#b33c0c", "#ffa94d"),
    "over": ("fill", "#b00020", "#ff6b6b"),
    "folds": ("fill", "#e9ecef", "#282d34"),
    "c0": ("stroke", "#1f6fb4", "#5ba3e0"),
    "c1": ("stroke", "#2b8a3e", "#69c77c"),
    "c2": ("stroke", "#c2410c", "#ff9d5c"),
    "c3": ("stroke", "#862e9c", "#d78ae8"),
}


def style():
    """The rules of every picture, for a picture alone or for a page that holds some."""
    def rules(n):
        return "".join(f".picture .{name}{{{colour[0]}:{colour[n]}}}" for name, colour in COLOURS.items())
    return (f".picture text{{font-family:{FONT}}}.picture .strong{{font-weight:bold}}"
            f".picture .line{{fill:none;stroke-width:1}}.picture .curve{{fill:none;stroke-width:1.6;stroke-linejoin:round}}"
            f".picture .dashed{{stroke-dasharray:4 3}}"
            f"{rules(1)}@media (prefers-color-scheme:dark){{{rules(2)}}}")


def clean(words):
    """A text that a page can hold: what is no letter, or no character at all, is shown as a replacement sign."""
    known = words.encode("utf-8", "surrogateescape").decode("utf-8", "replace")
    return re.sub("[\x00-\x1f\x7f-\x9f\u200b-\u200f\u2028-\u202e\u2060-\u206f\ufeff\ufffe\uffff]", "\ufffd", known)


def escaped(words):
    return html.escape(clean(words))


def number(x):
    return f"{x:.1f}".removesuffix(".0")


def minus(words):
    return words.replace("-", "\u2212")


class Picture:
    """A picture of a width; its height is what has been drawn."""

    def __init__(self, width):
        self.width, self.height, self.parts = width, 0, []

    def add(self, text):
        self.parts.append(text)

    def line(self, x1, y1, x2, y2, kind="grid", more=""):
        self.add(f'<path class="line {kind}{more}" d="M{number(x1)} {number(y1)}L{number(x2)} {number(y2)}"/>')

    def box(self, x, y, w, h, kind, title=""):
        told = f"<title>{escaped(title)}</title></rect>" if title else ""
        self.add(f'<rect class="{kind}" x="{number(x)}" y="{number(y)}" width="{number(w)}" height="{number(h)}"'
                 + (f">{told}" if told else "/>"))

    def path(self, kind, steps, title=""):
        told = f"><title>{escaped(title)}</title></path>" if title else "/>"
        self.add(f'<path class="{kind}" d="{steps}"{told}')

    def curve(self, points, kind, more=""):
        steps = "L".join(f"{x:.1f} {y:.1f}" for x, y in points)
        self.add(f'<path class="curve {kind}{more}" d="M{steps}"/>')

    def text(self, x, y, words, size=12, kind="ink", anchor="start", turn=0):
        t = f' transform="rotate({turn} {number(x)} {number(y)})"' if turn else ""
        a = f' text-anchor="{anchor}"' if anchor != "start" else ""
        self.add(f'<text class="{kind}" x="{number(x)}" y="{number(y)}" font-size="{size}"{a}{t}>{escaped(words)}</text>')

    def paragraph(self, x, y, words, size, kind, most=3):
        """Lines of a text that fit the width; the place of the next line."""
        for line in lines(words, (self.width - 2 * x) / (size * (0.66 if "strong" in kind else 0.58)), most):
            self.text(x, y, line, size, kind)
            y += round(size * 1.45)
        return y

    def drawn(self, told, within=False):
        """The picture as text: a file of its own, or a part of a page (`within`)."""
        size = f'viewBox="0 0 {self.width} {math.ceil(self.height)}" width="{self.width}" height="{math.ceil(self.height)}"'
        paper = f'<rect class="paper" width="{self.width}" height="{math.ceil(self.height)}"/>'
        head = (f'<svg class="picture" xmlns="http://www.w3.org/2000/svg" {size} role="img" aria-label="{escaped(told)}">\n'
                + ("" if within else f"<title>{escaped(told)}</title>\n<style>svg{{max-width:100%;height:auto;background:{COLOURS['paper'][1]}}}"
                   f"@media (prefers-color-scheme:dark){{svg{{background:{COLOURS['paper'][2]}}}}}{style()}</style>\n")
                + ("" if within else paper + "\n"))
        return head + "\n".join(self.parts) + "\n</svg>\n"


def lines(words, letters, most):
    """A text cut at blanks into lines of so many letters; a word that is longer is cut."""
    out, line = [], ""
    for word in words.split(" "):
        while len(word) > letters:
            room = int(letters) - len(line) - (1 if line else 0)
            if room < 8:
                out.append(line)
                line, room = "", int(letters)
            line, word = (line + " " if line else "") + word[:room], word[room:]
            out.append(line)
            line = ""
        if line and len(line) + 1 + len(word) > letters:
            out.append(line)
            line = word
        else:
            line = f"{line} {word}" if line else word
    out = [it for it in [*out, line] if it]
    return out if len(out) <= most else [*out[:most - 1], out[most - 1][:max(1, int(letters) - 1)] + "\u2026"]


def clock(seconds, digits=0):
    """h:mm:ss, or m:ss below an hour; with digits behind the point, which are cut off and not rounded."""
    whole = int(seconds * 10**digits + 1e-6)
    s, part = divmod(whole, 10**digits)
    h, m, s = s // 3600, s // 60 % 60, s % 60
    told = f"{h}:{m:02d}:{s:02d}" if h else f"{m}:{s:02d}"
    return f"{told}.{part:0{digits}d}" if digits else told


def length(seconds):
    return clock(seconds, 3)


class Failed(Exception):
    """What a tool says, and its exit status."""

    def __init__(self, status, words):
        super().__init__(words)
        self.status, self.words = status, words


def put(path, text, replace):
    """Writes a file that is whole under its name or not there; `-` is standard output."""
    data = text.encode("utf-8")
    try:
        if path == "-":
            sys.stdout.buffer.write(data)
            sys.stdout.buffer.flush()
            return
        if os.path.lexists(path) and not replace:
            raise Failed(4, f"{clean(path)} is there already; -f replaces it")
        if os.path.lexists(path) and (not os.path.isfile(path) or is_dsf(path)):
            raise Failed(3, f"{clean(path)} is a DSF file or no regular file, and is never replaced")
        place = os.path.dirname(os.path.realpath(path))
        file, made = tempfile.mkstemp(prefix=".puigneht-", dir=place)
        try:
            with os.fdopen(file, "wb") as out:
                mask = os.umask(0)
                os.umask(mask)
                os.fchmod(out.fileno(), 0o666 & ~mask)
                out.write(data)
                out.flush()
                os.fsync(out.fileno())
            if replace:
                os.replace(made, os.path.realpath(path))
            else:
                os.link(made, path)
                os.unlink(made)
        except BaseException:
            if os.path.exists(made):
                os.unlink(made)
            raise
    except FileExistsError:
        raise Failed(4, f"{clean(path)} came meanwhile; -f replaces it") from None
    except OSError as wrong:
        raise Failed(1, f"cannot write {clean(path)}: {wrong.strerror}") from None


def is_dsf(path):
    with open(path, "rb") as file:
        return file.read(4) == b"DSD "
