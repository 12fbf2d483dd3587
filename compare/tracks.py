#!/usr/bin/env python3
"""Albums of tracks for crates/test_tracks/data: DSF files cut out of one album, and what they are to give.

Usage: compare/tracks.py SRC, in the repository's folder; SRC is the original's repository, which is built by
compare/beside.sh. The samples are those of the original's `convert`, one call for the whole album before it is cut, and
the statistics as compare/long_albums.py has them; files are laid out from Sony's document by command/files.py, headers
of WAV files by compare/headers.py's `struct`; the rest is worked out here. Nothing of it is the library's.

Lines of hexadecimal numbers. `albums`: rate, cutoff, decibels and factor (their bits), format; the first line of its
tracks, and how many tracks there are; the first line of its steps, and how many there are; the answer of opening, and
the track; channels, channel type, bytes of each channel, frames, bytes of data, bytes of a frame, bytes filled up,
pieces; where the samples stand, and how many bytes (0: the album is not converted); six clips, lowest, highest, marks.
`tracks`: where the file's stored bytes stand, how many there are, the file's length; where its samples begin; where the
header of its WAV file stands, and its length (0: there can be none). Behind an album's tracks a line for all in one
file: where their samples end, and the header. `steps`: first frame, frames, where its bytes stand, bytes, bytes of the
frames that are gathered, bytes that are read, and the first line of its parts. The last step is the last piece of the
plan, those before it are single frames. `parts`, one for each track: what is read of it, from where and how many bytes;
and what the step has of its samples, from, to, and where they stand among them.
"""
import random
import subprocess
import sys
import tempfile

sys.path[:0] = ["compare", "command"]
import albums
import files
import headers
import long_albums
import sheets

FOLDER = "crates/test_tracks/data"
FRAME, BLOCK, PIECE = 4704, 4096, 128
RATES = [88200, 176400, 352800]
AUTO, WAV, RF64 = range(3)


class Store:
    """Bytes end to end, each stretch once."""

    def __init__(self):
        self.bytes, self.places = b"", {}

    def placed(self, part):
        if part not in self.places:
            self.places[part] = len(self.bytes)
            self.bytes += part
        return [self.places[part], len(part)]


# ---- numbers


def data_start(rate, channels, byte):
    """Where the samples begin of what begins at a byte: a sample stands on 4, 2 or 1 bytes, and on its first."""
    return -(-byte // (4 >> RATES.index(rate))) * 3 * channels


def read(channels, begins, length, low, high):
    """What is read of a track for bytes low to high of each channel: the groups of blocks around its own."""
    start, end = max(low - begins, 0), min(length, high - begins)
    if end <= start:
        return [0, 0]
    return [start // BLOCK * BLOCK * channels, (-(-end // BLOCK) - start // BLOCK) * BLOCK * channels]


def written(place, count, low, high):
    """What of so many bytes from a place on a file has that has the bytes low to high."""
    start, end = max(low, place), min(high, place + count)
    return [start - place, end - place, start - low] if start < end else [0, 0, 0]


def frame_size(rate, channels):
    return 3 * channels * FRAME // (4 >> RATES.index(rate))


class Album:
    """An album's numbers: of each track the bytes of a channel."""

    def __init__(self, rate, channels, counts):
        self.rate, self.channels, self.counts = rate, channels, counts
        self.begins = [sum(counts[:k]) for k in range(len(counts) + 1)]
        self.marks = [data_start(rate, channels, begin) for begin in self.begins]
        self.frames = -(-self.begins[-1] // FRAME)
        self.size = frame_size(rate, channels)
        self.pieces = -(-self.frames // PIECE)

    def numbers(self):
        return albums.numbers_of(RATES.index(self.rate), self.channels, self.begins[-1])

    def last_piece(self):
        first = PIECE * (self.pieces - 1)
        return first, self.frames - first

    def step(self, first, count):
        """The step's numbers, and its parts."""
        low, high = max(first - 1, 0), min(first + count + 1, self.frames)
        place, size = first * self.size, count * self.size
        tracks = list(zip(self.begins, self.counts))
        reads = [read(self.channels, begin, own, low * FRAME, high * FRAME) for begin, own in tracks]
        parts = [[*got, *written(place, size, *self.marks[k:k + 2])] for k, got in enumerate(reads)]
        return [first, count, place, size, (high - low) * FRAME * self.channels, sum(bytes for _, bytes in reads)], parts


def steps_of(album, converted):
    if not album.frames:
        return []
    return [album.step(k, 1) for k in range(album.frames if converted else 0)] + [album.step(*album.last_piece())]


def asked_for(way):
    rate, cutoff, db, asked = way
    return [rate, cutoff, albums.double(float(db)), albums.double(albums.factor(db)), asked]


# ---- albums that are converted


def cut(sounds, ends, bits, metadata):
    """The files of an album that is cut at these bytes of each channel."""
    edges = [0, *ends, len(sounds[0])]
    for k, (begin, end) in enumerate(zip(edges, edges[1:])):
        file = files.laid_out([s[begin:end] for s in sounds], bits[k % len(bits)], 8 * (end - begin), metadata)
        yield file, len(file) + metadata, end - begin


def music(channels, count):
    source = random.Random(channels)
    return [albums.music(source, count, ["chance", "loud", "runs"][c % 3]) for c in range(channels)]


def converted():
    """Of each album the ways that it is cut and converted: at frame borders, inside frames, inside blocks, and at
    single bytes."""
    one, two, six = music(1, FRAME + 1001), music(2, FRAME + 7), music(6, FRAME + 500)
    tiny = [0, 1, 2, 3, 8, FRAME - 1, FRAME, FRAME + 1]
    yield music(1, 4 * FRAME + 1001), [FRAME - 1, 2 * FRAME + 4, 2 * FRAME + 5, 3 * FRAME], [1, 8], 0, [(88200, 0, 2, AUTO)]
    yield one, [FRAME], [1, 8], 0, [(88200, 0, 0, AUTO), (176400, 1, 6, AUTO)]
    yield one, [1000, 4095, 4097], [8], 3, [(88200, 1, -3, WAV), (352800, 0, 0, AUTO)]
    yield one, tiny, [8, 8, 1], 0, [(88200, 0, 0, AUTO), (176400, 0, 1, AUTO), (176400, 2, 0, RF64), (352800, 1, 0, AUTO), (352800, 2, 24, AUTO)]
    yield two, [FRAME], [8], 0, [(88200, 0, 0, AUTO), (352800, 2, 0, AUTO)]
    yield two, [33, 4096], [1, 8], 100, [(88200, 0, 0, AUTO), (176400, 2, -120, AUTO)]
    yield two, tiny, [1], 0, [(176400, 0, 3, RF64), (88200, 1, 0, AUTO)]
    yield six, [300, FRAME - 2], [8, 1], 0, [(88200, 0, 0, AUTO), (88200, 1, 0, RF64)]
    yield six, [], [1], 0, [(88200, 0, 0, AUTO)]


def answers(source, wanted):
    """The original's samples and statistics of each album, by what is wanted of it."""
    with tempfile.TemporaryDirectory() as folder:
        text = ""
        for k, (sounds, (rate, cutoff, db, _)) in enumerate(wanted):
            count = -(-len(sounds[0]) // FRAME) * FRAME
            filled = [s.ljust(count, b"\x69") for s in sounds]
            open(f"{folder}/{k}.in", "wb").write(bytes(b for group in zip(*filled) for b in group))
            text += f"{rate} {cutoff} {len(sounds)} {db} {folder}/{k}.in {folder}/{k}.out\n"
        original = long_albums.opened(source, f"{folder}/original")
        told = subprocess.run(["compare/beside.sh", "long_albums", original], input=text, stdout=subprocess.PIPE, text=True, check=True)
        for k, line in enumerate(told.stdout.splitlines()):
            yield open(f"{folder}/{k}.out", "rb").read(), list(map(int, line.split()))


def stats(channels, told):
    s = sheets.none()
    for c in range(channels):
        s["clipped"][c], s["lowest"][c], s["highest"][c] = told[3 * c:3 * c + 3]
        s["empty"][c] = 0
    return [n % 2**64 for name in ("clipped", "lowest", "highest", "empty") for n in s[name]]


# ---- albums of which only the heads are there


def heads(channels, lengths):
    for count in lengths:
        head = files.header(channels, 8, 8 * count)
        yield head, files.stated(head), count


def long():
    """Albums past 4 GB, of tracks that may be: in RF64 and in formats that are asked for. And one of no samples."""
    yield (352800, 0, 0, AUTO), 2, [FRAME * 75 * 60 * 30 + 1, FRAME * 75 * 60 * 40 - 3, FRAME * 75 * 60 * 4 + 77]
    yield (352800, 2, 0, WAV), 2, [FRAME * 75 * 60 * 33, 1, FRAME * 75 * 60 * 35]
    yield (88200, 0, 0, AUTO), 6, [FRAME * 75 * 60 * 50, FRAME * 540000 - FRAME * 75 * 60 * 50]
    yield (352800, 1, 0, AUTO), 1, [FRAME * 75 * 60 * 68 + 5, 9]
    yield (352800, 1, 0, RF64), 5, [11, FRAME * 75 * 60 * 20 + 3]
    yield (88200, 0, 0, AUTO), 1, [0, 0]
    yield (176400, 1, 0, AUTO), 3, [FRAME * 75 * 60 * 40 + 1, 8]


def refused():
    """What is wanted, the files' first bytes and lengths, the answer and the track."""
    way = (88200, 0, 0, AUTO)
    two, one = list(heads(2, [FRAME, 3, 10 * FRAME])), list(heads(1, [FRAME]))
    head, length, count = two[1]
    yield (88200, 2, 0, AUTO), two, 2, 0
    yield (176400, 1, 25, AUTO), two, 3, 0
    yield way, [two[0], one[0], two[2]], 9, 1
    yield way, [*two, (b"RIFF" + head[4:], length, count)], 9, 3
    yield way, [two[0], (head, length - 1, count), (b"RIFF" + head[4:], length, count)], 11, 1
    yield way, [two[0], (head[:56] + (5644800).to_bytes(4, "little") + head[60:], length, count)], 10, 1
    yield way, [*two, *heads(2, [FRAME * 540000 - 11 * FRAME - 3]), *heads(2, [1])], 5, 4
    yield way, list(heads(2, [FRAME * 540000 + 1])), 5, 0


# ---- all


def write(name, rows):
    with open(f"{FOLDER}/{name}", "w", encoding="ascii") as out:
        out.writelines(" ".join(f"{n:x}" for n in row) + "\n" for row in rows)
    print(f"{name}: {len(rows)}")


class Rows:
    def __init__(self):
        self.store, self.albums, self.tracks, self.steps, self.parts = Store(), [], [], [], []

    def header(self, way, channels, count):
        head = headers.laid_out(way[3], way[0], channels, files.TYPES[channels], count)
        return self.store.placed(head or b"")

    def refused(self, way, tracks, answer, track):
        self.albums.append([*asked_for(way), len(self.tracks), len(tracks), len(self.steps), 0, answer, track, *[0] * 10, *stats(0, ())])
        self.tracks += [[*self.store.placed(kept), length, 0, 0, 0] for kept, length, _ in tracks] + [[0] * 6]

    def taken(self, way, channels, tracks, data=b"", told=()):
        """Of each track the stored bytes, the file's length and the bytes of a channel; the samples, if it is
        converted."""
        album = Album(way[0], channels, [own for _, _, own in tracks])
        steps = steps_of(album, data)
        lines = [len(self.tracks), len(tracks), len(self.steps), len(steps)]
        self.albums.append([*asked_for(way), *lines, 0, 0, *album.numbers(), *self.store.placed(data), *stats(channels if data else 0, told)])
        for k, (kept, length, _) in enumerate(tracks):
            begin, end = album.marks[k:k + 2]
            self.tracks.append([*self.store.placed(kept), length, begin, *self.header(way, channels, end - begin)])
        self.tracks.append([0, 0, 0, album.marks[-1], *self.header(way, channels, album.frames * album.size)])
        for numbers, parts in steps:
            self.steps.append([*numbers, len(self.parts)])
            self.parts += parts

    def write(self):
        for name in ("albums", "tracks", "steps", "parts"):
            write(name, getattr(self, name))
        with open(f"{FOLDER}/bytes", "wb") as out:
            out.write(self.store.bytes)
        print(f"bytes: {len(self.store.bytes)}")


def main():
    rows = Rows()
    cases = [(sounds, list(cut(sounds, *how)), way) for sounds, *how, ways in converted() for way in ways]
    for (sounds, tracks, way), (data, told) in zip(cases, answers(sys.argv[1], [(case[0], case[2]) for case in cases]), strict=True):
        rows.taken(way, len(sounds), tracks, data, told)
    for way, channels, lengths in long():
        rows.taken(way, channels, list(heads(channels, lengths)))
    for case in refused():
        rows.refused(*case)
    rows.write()


main()
