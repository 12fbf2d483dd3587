#!/usr/bin/env python3
"""Albums that come as tracks, beside the uncut ones: the stored answers of stored.py, cut into DSF files in many ways.

Usage: command/tracks.py [PROGRAM]        (target/puigneht if it is not given)

The samples of an album's tracks are those of its stored WAV file; a track has those that stand on its bytes. The
headers are laid out here, from Microsoft's and the EBU's documents.
"""
import os
import random
import struct
import sys

sys.dont_write_bytecode = True
import files
import generated
import stored
from stored import DONE, FRAME, Command, held

STEP = {88200: 4, 176400: 2, 352800: 1}    # bytes of a channel that a sample stands on
MASKS = {1: 4, 2: 3, 3: 7, 4: 0x33, 5: 0xF, 6: 0x37, 7: 0x3F}
INTEGERS = bytes.fromhex("0100000000001000800000aa00389b71")    # the code of whole numbers, by name


def first_sample(rate, place):
    return -(-place // STEP[rate])


def header(rate, channels, kind, data):
    """Plain for one and two channels, else with the loudspeakers' mask."""
    pad, size = data % 2, 3 * channels
    form = struct.pack("<HHIIHH", 1 if channels < 3 else 0xFFFE, channels, rate, rate * size, size, 24)
    if channels > 2:
        form += struct.pack("<HHI", 22, 24, MASKS[kind]) + INTEGERS
    rest = b"WAVEfmt " + struct.pack("<I", len(form)) + form + b"data" + struct.pack("<I", data)
    return b"RIFF" + struct.pack("<I", len(rest) + data + pad) + rest


def rf64(rate, channels, kind, data):
    plain = header(rate, channels, kind, data)
    size, samples = len(plain) - 8 + 36 + data + data % 2, data // (3 * channels)
    long = b"ds64" + struct.pack("<IQQQI", 28, size, data, samples, 0)
    return b"RF64" + b"\xff" * 4 + b"WAVE" + long + plain[12:-4] + b"\xff" * 4


def wave_file(rate, channels, kind, data):
    return header(rate, channels, kind, len(data)) + data + bytes(len(data) % 2)


def sounds_of(file):
    """The channels' bytes of a DSF file, the earliest bit highest."""
    channels, = struct.unpack("<I", file[52:56])
    bits, samples = struct.unpack("<IQ", file[60:72])
    made = [b"".join(file[at:at + files.BLOCK] for at in range(92 + c * files.BLOCK, len(file), channels * files.BLOCK)) for c in range(channels)]
    made = [sound[:samples // 8] for sound in made]
    return [sound.translate(files.MIRROR) for sound in made] if bits == 1 else made


def cut(sounds, places, source, kind=None):
    """The tracks' files: bit orders by chance, some with metadata behind the data."""
    for begin, end in zip([0, *places], [*places, len(sounds[0])]):
        metadata = source.choice((0, 0, 37, 5000))
        parts = [sound[begin:end] for sound in sounds]
        yield files.laid_out(parts, source.choice((1, 8)), 8 * (end - begin), metadata, kind) + bytes(metadata)


def ways(count, source):
    """Places at which an album is cut: at frames, inside frames and blocks, at a byte, into tracks of 8 samples and of
    none, into two and into ninety-nine."""
    inside = lambda many: sorted(source.randrange(count + 1) for _ in range(many))
    yield [p for p in range(FRAME, count, FRAME)][:98]
    yield [p + 1 for p in range(files.BLOCK, count - 1, files.BLOCK)][:98]
    yield inside(1)
    yield inside(11)
    begin = source.randrange(count // 2 + 1)
    yield list(range(begin, min(count, begin + 98)))
    yield sorted([1, count - 1, count // 2, count // 2, count // 2 + 1]) if count > 1 else []
    yield inside(98)


def put(name, data):
    with open(name, "wb") as file:
        file.write(data)


def same(found, expected, what):
    if found != expected:
        k = next((k for k, (a, b) in enumerate(zip(found, expected)) if a != b), min(len(found), len(expected)))
        sys.exit(f"tracks: {what}: differs at byte {k} of {len(expected)}, and has {len(found)}")


class Album:
    """An album cut into tracks, and what is asked of it."""

    def __init__(self, command, options, rate, sounds, kind=None):
        self.command, self.options, self.rate, self.sounds = command, options, rate, sounds
        self.kind = kind or files.TYPES[len(sounds)]

    def all(self, names, places, jobs, sheet):
        """One WAV file of all; its data."""
        self.command.expect([*self.options, *jobs, "-q", "-f", "-s", "-", "-a", "all.wav", *names], DONE, sheet)
        return held("all.wav")

    def check_tracks(self, names, places, jobs, data):
        self.command.expect([*self.options, *jobs, "-q", "-f", "-o", "out", *names], DONE, b"")
        ends = [0, *places, len(self.sounds[0])]
        size = 3 * len(self.sounds)
        for k, name in enumerate(names):
            begin, end = (size * first_sample(self.rate, p) for p in ends[k:k + 2])
            expected = wave_file(self.rate, len(self.sounds), self.kind, data[begin:end])
            same(held("out", name[:-4] + ".wav"), expected, f"{self.options} {jobs}, cut at {places}, track {k + 1}")

    def check_pipe(self, names, jobs, expected):
        status, printed, said = self.command.runs([*self.options, *jobs, "-q", "-a", "-", *names])
        if status or said:
            sys.exit(f"tracks: {self.options} {jobs} in a pipe: {status} {said}")
        same(printed, expected, f"{self.options} {jobs} in a pipe")

    def check_verify(self, names):
        plain = [w for pair in zip(self.options[::2], self.options[1::2]) if pair[0] != "-r" for w in pair]
        self.command.expect(["verify", "-q", *plain, "-o", "out", *names], DONE, b"same\n")
        self.command.expect(["verify", "-q", *self.options, "-a", "all.wav", *names], DONE, b"same\n")


def cut_and_check(album, whole, sheet, source, all_ways):
    """`whole` takes the WAV file of all and says what is wrong with it."""
    tried = 0
    for places in all_ways:
        names = [f"{k + 1:02}.dsf" for k in range(len(places) + 1)]
        for name, data in zip(names, cut(album.sounds, places, source, album.kind)):
            put(name, data)
        jobs = ["-j", str(source.choice((1, 2, 3, 64)))]
        made = album.all(names, places, jobs, sheet)
        whole(made)
        head = len(header(album.rate, len(album.sounds), album.kind, 0))
        album.check_tracks(names, places, jobs, made[head:])
        album.check_pipe(names, ["-j", str(source.choice((1, 2, 5)))], made)
        album.check_verify(names)
        tried += len(names)
    return tried


# ---- albums


def short_albums(command, source):
    tried = 0
    for rate, cutoff, db, file, _, (number, *_), wav, sheet, _ in stored.cases():
        if number == 0:
            sounds = sounds_of(file)
            options = ["-r", str(rate), "-c", ["standard", "low", "wide"][cutoff], "-g", str(db)]
            album = Album(command, options, rate, sounds)
            tried += cut_and_check(album, lambda made: same(made, wav, "a short album"), sheet, source, ways(len(sounds[0]), source))
    return tried


def long_albums(command, source):
    """Each stored album cut in one of the ways, all of them in turns."""
    tried = 0
    for k, (case, _, digest, sheet) in enumerate(generated.stored()):
        sounds = generated.sounds(case)
        album = Album(command, case.options(), case.rate, sounds)

        def whole(made):
            if generated.digest(made) != digest:
                sys.exit(f"tracks: {case}: the tracks' album is another")

        all_ways = list(ways(len(sounds[0]), source))
        tried += cut_and_check(album, whole, sheet.encode(), source, [all_ways[k % len(all_ways)]])
    return tried


def channel_of(data, c, channels):
    made = bytearray(len(data) // channels)
    for k in range(3):
        made[k::3] = data[3 * c + k::3 * channels]
    return bytes(made)


def turns_of(first, second):
    made = bytearray(2 * len(first))
    for k in range(3):
        made[k::6], made[3 + k::6] = first[k::3], second[k::3]
    return bytes(made)


def more_channels(command, source):
    """Each channel type of three to six channels: the channels of a stored stereo album in some order. Each pair of
    them is that album's samples."""
    tried = 0
    stereo = [it for it in generated.stored() if it[0].channels == 2]
    for kind, channels in {3: 3, 4: 4, 5: 4, 6: 5, 7: 6}.items():
        case, _, digest, _ = stereo[kind % len(stereo)]
        two, order = generated.sounds(case), [0, 1] + [source.randrange(2) for _ in range(channels - 2)]
        source.shuffle(order)
        sounds = [two[c] for c in order]
        rate, count = case.rate, -(-len(two[0]) // FRAME) * case.rate // 75

        def whole(made):
            head = header(rate, channels, kind, count * 3 * channels)
            same(made[:len(head)], head, f"the header of channel type {kind}")
            parts = [channel_of(made[len(head):], c, channels) for c in range(channels)]
            for c in range(channels):
                same(parts[c], parts[order.index(order[c])], f"channel {c} of type {kind}")
            if generated.digest(wave_file(rate, 2, 2, turns_of(parts[order.index(0)], parts[order.index(1)]))) != digest:
                sys.exit(f"tracks: channel type {kind}: other samples than the stored ones")

        album = Album(command, case.options(), rate, sounds, kind)
        with open("sheet.dsf", "wb") as file:
            file.write(files.laid_out(sounds, 1, 8 * len(two[0]), kind=kind))
        _, sheet, _ = command.runs([*case.options(), "-s", "-", "-f", "sheet.dsf", "all.wav"])
        whole(held("all.wav"))
        tried += cut_and_check(album, whole, sheet, source, [list(ways(len(two[0]), source))[3]])
    return tried


def long_headers(command, source):
    """RF64 where it is asked for: one file, a pipe and tracks of odd lengths."""
    tried = 0
    for channels, rate, count in ((1, 88200, FRAME), (2, 352800, 5000), (6, 88200, 4709)):
        sounds = [source.randbytes(count) for _ in range(channels)]
        put("a.dsf", files.laid_out(sounds, 1, 8 * count))
        command.expect(["-q", "-r", str(rate), "-f", "a.dsf", "plain.wav"], DONE, b"")
        head = len(header(rate, channels, files.TYPES[channels], 0))
        data = held("plain.wav")[head:]
        expected = rf64(rate, channels, files.TYPES[channels], len(data)) + data
        command.expect(["-q", "-r", str(rate), "--format", "rf64", "-f", "a.dsf", "long.wav"], DONE, b"")
        same(held("long.wav"), expected, "an RF64 file")
        command.expect(["-q", "-r", str(rate), "--format=rf64", "a.dsf", "-"], DONE, expected)
        command.expect(["verify", "-q", "--format=rf64", "a.dsf", "long.wav"], DONE, b"same\n")
        for k, file in enumerate(cut(sounds, [1, 1000], source)):
            put(f"{k}.dsf", file)
        command.expect(["-q", "-r", str(rate), "--format", "rf64", "-f", "-o", "out", "0.dsf", "1.dsf", "2.dsf"], DONE, b"")
        size, ends = 3 * channels, [0, 1, 1000, count]
        for k in range(3):
            begin, end = (size * first_sample(rate, p) for p in ends[k:k + 2])
            part = data[begin:end]
            same(held("out", f"{k}.wav"), rf64(rate, channels, files.TYPES[channels], len(part)) + part + bytes(len(part) % 2), f"RF64, track {k}")
        tried += 3
    return tried


def main():
    command = Command(stored.PROGRAM)
    os.mkdir("out")
    source = random.Random(43)
    print(f"tracks beside uncut albums, 0 samples differ: {short_albums(command, source)} of short albums, "
          f"{long_albums(command, source)} of longer ones, {more_channels(command, source)} of 3 to 6 channels; "
          f"{long_headers(command, source)} files with the RF64 header")


if __name__ == "__main__":
    stored.in_a_folder(main)
