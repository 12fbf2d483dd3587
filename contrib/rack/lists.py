"""Lists of albums: what is to be converted, due first.

A list has an album a line, a DSF file or a folder of tracks, and behind it, each after a tab, if they are wanted:

    due=2026-12-24          its date, to the end of the day, or due=2026-12-24T14:00
    with=-r 176400 -c wide  its settings, in place of those of all albums
    as=NAME                 its name below the folder of WAV files, in place of its own

In names a newline is written \\n, a tab \\t, a backslash \\\\. Lines that are empty or begin with # are passed over.
A folder in a list's place: each DSF file in it is an album, and so is each folder below it that holds DSF files.
"""
import argparse
import datetime
import os
import re
import shlex


class Wrong(Exception):
    """What a person must put right first; nothing was begun."""


# ---- names

def plain(name):
    """A name in one line, as lists have it; bytes that are no text and other control characters as \\x.."""
    name = name.replace("\\", "\\\\").replace("\n", "\\n").replace("\t", "\\t")
    return re.sub("[\x00-\x1f\x7f-\x9f\udc80-\udcff\u2028\u2029]", lambda c: "\\x%02x" % (ord(c[0]) & 0xFF), name)


def unescaped(text):
    """The name that `plain` writes so."""
    def one(found):
        sign = found[1]
        if sign in "nt\\":
            return {"n": "\n", "t": "\t", "\\": "\\"}[sign]
        if sign[0] == "x":
            return os.fsdecode(bytes([int(sign[1:], 16)]))
        raise Wrong("\\%s is none of \\n, \\t, \\\\ and \\x.." % sign)
    return re.sub(r"\\(x[0-9a-f]{2}|.?)", one, text, flags=re.DOTALL)


def natural(name):
    """Numbers in a name count as numbers: 2 comes before 10."""
    parts = re.split("([0-9]+)", name)
    return [int(part) if k % 2 else part.casefold() for k, part in enumerate(parts)], name


def is_dsf(name):
    return name[-4:].lower() == ".dsf" and name[0] != "."


def tracks_of(folder):
    """The DSF files in a folder, in the order of the numbers in their names."""
    return [os.path.join(folder, name) for name in sorted(filter(is_dsf, os.listdir(folder)), key=natural)]


# ---- settings

class Settings(argparse.ArgumentParser):
    """The options that decide a WAV file's bytes."""

    def __init__(self, **more):
        super().__init__(add_help=False, allow_abbrev=False, **more)
        self.add_argument("-r", "--rate", metavar="RATE")
        self.add_argument("-c", "--cutoff", metavar="CUTOFF")
        self.add_argument("-g", "--gain", metavar="DB")
        self.add_argument("--taps", metavar="FILE")
        self.add_argument("--format", metavar="FORMAT")

    def error(self, message):
        raise Wrong(message)


def words_of(asked):
    """As the command takes them; a file's name from the root on, since a task begins elsewhere."""
    words = []
    for name in ("rate", "cutoff", "gain", "taps", "format"):
        value = getattr(asked, name)
        if value is not None:
            words += ["--" + name, os.path.abspath(value) if name == "taps" else value]
    return words


# ---- albums

def due_of(text):
    try:
        when = datetime.datetime.fromisoformat(text)
    except ValueError:
        raise Wrong("%r is no date, as 2026-12-24 or 2026-12-24T14:00" % text) from None
    if re.fullmatch("[0-9]{4}-[0-9]{2}-[0-9]{2}", text):
        when += datetime.timedelta(days=1)
    return when.timestamp()


def named(path, name):
    """Where an album's WAV files go below their folder: a file's name, or a folder's for tracks."""
    name = os.path.normpath(name)
    if os.path.isabs(name) or name.split(os.sep)[0] in ("..", "."):
        raise Wrong("%s is no name below the folder of WAV files" % plain(name))
    return name if os.path.isdir(path) else name + ".wav"


def album_of(path, name=None, due=None, settings=()):
    if name is None:
        name = os.path.basename(os.path.abspath(path))
        if not os.path.isdir(path) and is_dsf(name):
            name = name[:-4]
    return {"path": os.path.abspath(path), "told": path, "name": named(path, name), "due": due, "with": list(settings)}


def album_in(line, settings):
    path, *fields = line.split("\t")
    keys = {"name": None, "due": None, "settings": settings}
    for field in fields:
        key, _, value = field.partition("=")
        if key == "due":
            keys["due"] = due_of(value)
        elif key == "with":
            keys["settings"] = words_of(Settings().parse_args(shlex.split(unescaped(value))))
        elif key == "as" and value:
            keys["name"] = unescaped(value)
        else:
            raise Wrong("%r is none of due=DATE, with=SETTINGS and as=NAME" % field)
    return album_of(unescaped(path), **keys)


def albums_in_list(path, settings):
    with open(path, encoding="utf-8", errors="surrogateescape", newline="\n") as file:
        if file.read(4) == "DSD ":
            raise Wrong("%s is a DSF file, and no list of albums" % plain(path))
        file.seek(0)
        lines = file.read().split("\n")
    for number, line in enumerate(lines, 1):
        line = line.removesuffix("\r")
        if not line or line[0] == "#":
            continue
        try:
            yield album_in(line, settings)
        except (ValueError, Wrong) as error:
            raise Wrong("%s, line %d: %s" % (plain(path), number, error)) from None


def albums_of_names(path, settings):
    """Names that end in a zero byte each, as `find -print0` gives them."""
    with open(path, "rb") as file:
        for name in file.read().split(b"\0"):
            if name:
                yield album_of(os.fsdecode(name), settings=settings)


def failing(error):
    raise error


def albums_in_folder(top, settings):
    for folder, folders, files in os.walk(top, onerror=failing, followlinks=True):
        folders[:] = sorted((name for name in folders if name[0] != "."), key=natural)
        tracks = sorted(filter(is_dsf, files), key=natural)
        if folder == top:
            for name in tracks:
                yield album_of(os.path.join(top, name), settings=settings)
        elif tracks:
            yield album_of(folder, name=os.path.relpath(folder, top), settings=settings)


def check_names(albums):
    """No two albums have one place, and none stands in the folder of another's tracks."""
    places = {}
    for album in albums:
        other = places.setdefault(album["name"].casefold(), album)
        if other is not album:
            raise Wrong("%s and %s would both be %s: give one another name with as=NAME"
                        % (plain(other["told"]), plain(album["told"]), plain(album["name"])))
    for album in albums:
        above = os.path.dirname(album["name"])
        if album["name"].endswith(".wav") and above.casefold() in places:
            raise Wrong("%s would stand among the tracks of %s"
                        % (plain(album["told"]), plain(places[above.casefold()]["told"])))


def read(path, settings, zero_bytes=False):
    """The albums of a list or folder, due first; on a tie, and without dates, as they are listed."""
    if os.path.isdir(path):
        albums = list(albums_in_folder(path, settings))
    else:
        albums = list((albums_of_names if zero_bytes else albums_in_list)(path, settings))
    if not albums:
        raise Wrong("%s has no album" % plain(path))
    check_names(albums)
    return sorted(albums, key=lambda album: (album["due"] is None, album["due"] or 0))
