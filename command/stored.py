#!/usr/bin/env python3
"""The command beside stored answers, which come from outside our code: those that compare/ wrote for the tests of the
crates, and command/stored.

Usage: command/stored.py [PROGRAM]        (target/puigneht if it is not given)
"""
import os
import struct
import subprocess
import sys
import tempfile

sys.dont_write_bytecode = True
sys.path.append(os.path.join(os.path.dirname(os.path.abspath(__file__)), "..", "compare"))
import files
import filters
import generated

HERE = os.path.dirname(os.path.abspath(__file__))
DATA = os.path.join(HERE, "..", "crates")
PROGRAM = os.path.abspath(sys.argv[1]) if len(sys.argv) > 1 else os.path.abspath(os.path.join(HERE, "..", "target", "puigneht"))
FRAME, HEAD = 4704, 92
DONE, USAGE, REFUSED, UNFINISHED = 0, 2, 3, 5


def held(*path):
    with open(os.path.join(*path), "rb") as file:
        return file.read()


def rows(*path):
    """Stored cases: a line of hexadecimal numbers each."""
    return [[int(n, 16) for n in line.split()] for line in held(DATA, *path).splitlines()]


def stored(name):
    return held(HERE, "stored", name)


class Command:
    def __init__(self, program):
        self.program = program

    def runs(self, words, given=b""):
        done = subprocess.run([self.program, *words], input=given, capture_output=True)
        return done.returncode, done.stdout, done.stderr

    def expect(self, words, status, printed, said=None, given=b""):
        """The status, all of standard output, and how standard error begins (None: nothing there)."""
        found = self.runs(words, given)
        right = found[:2] == (status, printed)
        right = right and (found[2].startswith(said) if said is not None else found[2] == b"")
        if not right:
            sys.exit(f"stored: {words}: to be {(status, printed, said)}, and is {found}")


# ---- turns


def words_of(text):
    """A board's lines as words; None where their last line has no end, which words cannot lack."""
    if text and not text.endswith(b"\n"):
        return None
    return [os.fsdecode(line.replace(b" ", b":", 1)) for line in text.split(b"\n")[:-1]]


def boards(command):
    folder = os.path.join(DATA, "test_reports", "data")
    tried = 0
    for name in sorted(name for name in os.listdir(folder) if name.startswith("board")):
        text, answer = held(folder, name).split(b"=", 1)
        words = words_of(text)
        if words is None:
            continue
        tried += 1
        if answer == b"refused settings\n":
            command.expect(["turns", *words], USAGE, b"", b"puigneht: ")
        elif answer == b"refused 19\n":
            command.expect(["turns", *words], REFUSED, answer, b"puigneht: refused 19: ")
        else:
            command.expect(["turns", *words], DONE, answer)
    command.expect(["turns", *words_of(stored("board"))], DONE, stored("board.answer"))
    return tried + 1


# ---- uploads


def uploads(command):
    heads = [struct.pack("<12Q", *row)[:HEAD] for row in rows("test_files", "data", "heads")]
    tried = 0
    for which, place, count, value, length, kind, n in rows("test_files", "data", "uploads"):
        if length > 65536:
            continue
        file = bytearray(heads[which].ljust(65536, b"\x69"))
        file[place:place + count] = value.to_bytes(count, "little")
        status, printed = [(DONE, b"accepted\n"), (UNFINISHED, b"unfinished\n"), (REFUSED, b"give up at %d\n" % n)][kind]
        command.expect(["check"], status, printed, given=bytes(file[:length]))
        tried += 1
    command.expect(["check"], REFUSED, stored("upload.answer"), given=stored("upload"))
    command.expect(["check", os.path.join(HERE, "stored", "upload")], REFUSED, stored("upload.answer"))
    return tried + 2


# ---- albums


def cases():
    """Rate, cutoff, decibels, the file's bytes, its length, refusal with its numbers, WAV file, sheet, sentence."""
    data = held(DATA, "test_tracks", "data", "single_bytes")
    for row in rows("test_tracks", "data", "singles"):
        rate, cutoff, db, _, length, *refusal = row[:8]
        decibels, = struct.unpack("<d", struct.pack("<Q", db))
        file, *parts = (data[at:at + n] for at, n in zip(row[16::2], row[17::2]))
        yield rate, cutoff, int(decibels), file, length, tuple(refusal), *parts


def put_file(path, data, length):
    with open(path, "wb") as file:
        file.write(data[:length])
        file.truncate(length)


def converts(command, options, wav, sheet):
    """The album may end inside a frame, which is said."""
    command.expect([*options, "-s", "-", "-f", "a.dsf", "a.wav"], DONE, sheet, said=b"")
    if held("a.wav") != wav:
        sys.exit(f"stored: {options}: another WAV file")


def begins(number, first, second, text):
    """How the sentence begins: as the stored one, but for 11, which also says what is too long."""
    if number != 11 or first > second:
        return text
    more = f"refused 11: the file says {first:,} bytes and has {second:,}, which are {second - first:,} more: something was added, or tags were taken away"
    return more.encode() if first < second else b"refused 11: the "


def albums(command):
    tried = 0
    for rate, cutoff, db, data, length, (number, first, second), wav, sheet, text in cases():
        put_file("a.dsf", data, length)
        options = ["-r", str(rate), "-c", ["standard", "low", "wide"][cutoff], f"--gain={db}", "--format=wav"]
        tried += 1
        if number == 0:
            converts(command, options, wav, sheet)
        elif number == 3:    # the arguments have no such gain
            command.expect([*options, "a.dsf", "b.wav"], USAGE, b"", b"puigneht: '%d': gains are" % db)
        else:
            command.expect([*options, "a.dsf", "b.wav"], REFUSED, b"", b"puigneht: " + begins(number, first, second, text))
        if os.path.exists("b.wav"):
            sys.exit("stored: a refused album has an output")
    return tried


def long_albums(command):
    """Each by one process, and by more: 2 to 64, or as many as there are processors."""
    more = [["-j", "2"], ["-j", "3"], ["-j", "64"], [], ["-j", "7"]]
    tried = 0
    for k, (case, file, wav, sheet) in enumerate(generated.stored()):
        data = generated.dsf(case)
        if generated.digest(data) != file:
            sys.exit(f"stored: {case}: the generator makes another album")
        put_file("a.dsf", data, len(data))
        filled = -(case.samples // 8) % FRAME
        said = b"puigneht: the album ends inside a frame: %d bytes" % filled if filled else None
        for jobs in ["-j", "1"], more[k % len(more)]:
            command.expect([*case.options(), *jobs, "-s", "-", "-f", "a.dsf", "a.wav"], DONE, sheet.encode(), said)
            if generated.digest(held("a.wav")) != wav:
                sys.exit(f"stored: {case} {jobs}: another WAV file")
            tried += 1
    return tried


# ---- labels' own filters


def put_taps(taps):
    with open("taps", "w") as file:
        file.writelines(f"{tap}\n" for tap in taps)


def label_album(pattern, seed, neighbours, channels):
    """The frame of a row, and the frames next to it, which are the same bytes from another seed. Gives how many are
    before it."""
    made = [filters.bytes_by(pattern, seed + past, channels) for past in (1, 0, 2)]
    held = [made[k] for k in range(3) if (neighbours % 2, 1, neighbours // 2)[k]]
    sounds = [bytes(b for frame in held for b in frame[c::channels]) for c in range(channels)]
    put_file("a.dsf", files.laid_out(sounds, 1, 8 * len(sounds[0])), None)
    return neighbours % 2


def label_filters(command):
    """Rows of compare/filters.py: routes of Standard, one frame; and what 17 and 18 refuse."""
    tried = 0
    for route, channels, _, length, neighbours, pattern, seed, refusal, *rest in rows("test_conversions", "data", "filters"):
        count = rest[7]
        if route > 2 or channels not in (1, 2) or length != FRAME * channels or refusal not in (0, 17, 18) or count > 1 << 10:
            continue
        pairs = [(n >> 32, n & 0xFFFFFFFF) for n in rest[8:67]]
        taps = [half if half < 1 << 31 else (1 << 31) - 1 - half for pair in pairs for half in pair][:count]
        put_taps(taps + [1] * (count - len(taps)))
        words = ["-r", str((88200, 176400, 352800)[route]), "--taps", "taps", "-f", "a.dsf", "a.wav"]
        before = label_album(pattern, seed, neighbours, channels)
        tried += 1
        if refusal:
            command.expect(words, REFUSED, b"", b"puigneht: refused %d: " % refusal)
            continue
        command.expect(words, DONE, b"")
        size = 3 * filters.PER_FRAME[route] * channels
        data = held("a.wav")[44 + before * size:][:size]
        items = [int.from_bytes(data[at:at + 3], "little", signed=True) for at in range(0, size, 3)]
        if filters.digests([x + (1 << 31) for x in items]) != rest[3:5]:
            sys.exit(f"stored: the filter of row {tried}: other samples")
    return tried


# ---- raw frames as an album: the line RATE CUTOFF CHANNELS DB, and the channels' bytes in turn


def frames(command):
    line, data = stored("frames").split(b"\n", 1)
    rate, cutoff, channels, db = line.decode().split()
    count = int(channels)
    sounds = [data[c::count] for c in range(count)]
    for bits in 1, 8:
        with open("a.dsf", "wb") as file:
            file.write(files.laid_out(sounds, bits, 8 * len(sounds[0])))
        command.expect(["convert", "-f", "-s", "-", "-r", rate, "-c", cutoff, "-g", db, "a.dsf", "a.wav"], DONE, stored("frames.sheet"))


def in_a_folder(tests):
    """The tests work in a folder of their own."""
    with tempfile.TemporaryDirectory() as room:
        os.chdir(room)
        tests()


def main():
    command = Command(PROGRAM)
    command.expect(["gains"], DONE, stored("gains"))
    frames(command)
    print(f"{boards(command)} boards, {uploads(command)} uploads, {albums(command)} albums, {long_albums(command)} times a longer album, "
          f"{label_filters(command)} filters of labels", end="")
    print(", the gains and the sheet of raw frames: as stored")


if __name__ == "__main__":
    in_a_folder(main)
