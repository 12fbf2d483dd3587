#!/usr/bin/env python3
"""Albums of one file for crates/test_tracks/data: DSF files, and the WAV files, sheets and sentences that they are to
give.

Usage: compare/albums.py SRC, in the repository's folder; SRC is the original's repository (its tap tables are read). It
says how many of each it wrote. The files are laid out from Sony's document by command/files.py's `head`; the samples
are worked out from document 01's formulas over whole numbers by compare/filters.py's `Channel`, tap by tap, the factor
by Python's floats; the WAV file is written by Python's `wave`, the sheet by compare/sheets.py's formatting, sentences
by Python's. Nothing of it is the library's.

A case is a line of hexadecimal numbers. `singles`: rate, cutoff, decibels and factor (their bits), the file's length;
the answer (12 is the header's, where a plain WAV file is asked for), two numbers of its sentence; what an album that
opens has: channels, channel type, bytes of each channel, frames, bytes of data, bytes of a frame, bytes filled up,
pieces; then where the stored bytes of the file, the WAV file, the sheet and the sentence stand in `single_bytes`, each
with its length. `shares`:
frames, jobs, part, its first piece and the one after its last.
"""
import io
import random
import struct
import sys
import wave

sys.path.insert(0, "compare")
sys.path.insert(0, "command")
import files
import filters
import sheets

FOLDER = "crates/test_tracks/data"
FRAME, BLOCK, PIECE = 4704, 4096, 128
RATES = [88200, 176400, 352800]


def factor(db):
    """The gain's factor, as document 01 has it: e^(|dB| ln 10 / 20) by 25 terms at a 32nd of the exponent, squared five
    times."""
    r = abs(float(db)) * (float.fromhex("0x1.26bb1bbb55516p+1") / 20.0) / 32.0
    term = total = 1.0
    for k in range(1, 26):
        term = term * r / k
        total += term
    for _ in range(5):
        total *= total
    return 1.0 / total if db < 0 else total


def converted(t, sounds, rate, cutoff, db):
    """The samples of a whole album, items in turn, and its statistics; a channel's last frame is filled up with 0x69.
    """
    frames = -(-len(sounds[0]) // FRAME)
    count = frames * filters.PER_FRAME[rate]
    items, stats = [0] * (count * len(sounds)), sheets.none()
    for c, sound in enumerate(sounds):
        channel = filters.Channel(t, lambda p: sound[p] if 0 <= p < len(sound) else filters.IDLE)
        far = [round(channel.y(rate, cutoff, t["F40"], n) * factor(db) * 0.125) for n in range(count)]
        held = [max(-8_388_608, min(8_388_607, z)) for z in far]
        items[c::len(sounds)] = held
        if far:
            stats["empty"][c], stats["lowest"][c], stats["highest"][c] = 0, min(far), max(far)
        stats["clipped"][c] = sum(a != b for a, b in zip(far, held))
    return items, stats


def wav_file(rate, channels, items):
    out = io.BytesIO()
    with wave.open(out, "wb") as w:
        w.setnchannels(channels)
        w.setsampwidth(3)
        w.setframerate(RATES[rate])
        w.writeframes(b"".join((x & 0xFFFFFF).to_bytes(3, "little") for x in items))
    return out.getvalue()


def numbers_of(rate, channels, count):
    """What an album of so many bytes of each channel has."""
    frames = -(-count // FRAME)
    size = 3 * filters.PER_FRAME[rate] * channels
    return channels, files.TYPES[channels], count, frames, frames * size, size, frames * FRAME - count, -(-frames // PIECE)


def double(x):
    return struct.unpack("<Q", struct.pack("<d", x))[0]


def case(rate, cutoff, db, file, length, answer=0, said=(0, 0), numbers=(0,) * 8, wav=b"", sheet="", sentence=""):
    """The numbers of a line without the places, and what is stored; of a file that the case before stored, nothing
    anew."""
    asked = [RATES[rate], cutoff, double(float(db)), double(factor(db))]
    return [*asked, length, answer, *said, *numbers], (file, wav, sheet.encode(), sentence.encode())


# ---- albums that are accepted


def music(source, count, kind):
    """Bytes of a channel: by chance; loud, so that samples are clipped; or runs of both."""
    if kind == "loud":
        return bytes(0xFF if k // 300 % 2 == 0 else source.choice((0, 0x10, 0x69)) for k in range(count))
    if kind == "runs":
        return b"".join(bytes([source.randrange(256)]) * 24 for _ in range(count // 24 + 1))[:count]
    return source.randbytes(count)


def album(t, channels, bits, count, kinds, ways, metadata=0):
    """The cases of one file, converted in several ways; the file is stored with the first."""
    source = random.Random(count * 8 + channels)
    sounds = [music(source, count, kinds[c]) for c in range(channels)]
    samples = 8 * count
    file = files.laid_out(sounds, bits, samples, metadata) + bytes(metadata)
    for k, (rate, cutoff, db) in enumerate(ways):
        items, stats = converted(t, sounds, rate, cutoff, db)
        numbers = numbers_of(rate, channels, count)
        wav = wav_file(rate, channels, items)
        assert len(wav) == 44 + numbers[4]
        yield case(rate, cutoff, db, None if k else file, len(file), numbers=numbers, wav=wav, sheet=sheets.sheet(channels, stats))


def albums(t):
    yield from album(t, 1, 1, 2 * FRAME + 1000, ["chance"], [(0, 0, 0), (0, 1, 6)])
    yield from album(t, 2, 8, 2 * FRAME + 1, ["loud", "chance"], [(0, 0, 3)], metadata=37)
    yield from album(t, 2, 1, 3 * FRAME, ["runs", "loud"], [(1, 2, -3)])
    yield from album(t, 1, 8, FRAME, ["chance"], [(2, 0, 24), (2, 2, -120)])
    yield from album(t, 2, 8, 0, ["chance"] * 2, [(0, 0, 0)])


# ---- albums that are refused


def refused(rate, cutoff, db, head, length, answer, said, sentence):
    return case(rate, cutoff, db, head, length, answer, said, sentence=sentence)


def too_much(rate, channels, count, said, sentence):
    """An album that opens and that a plain WAV file cannot hold."""
    head = files.header(channels, 8, 8 * count)
    numbers = numbers_of(rate, channels, count)
    return case(rate, 0, 0, head, files.stated(head), 12, said, numbers, sentence=sentence)


def says(stated, has):
    return f"refused 11: the file says {stated:,} bytes and has {has:,}: an incomplete upload?"


def refusals():
    stereo = lambda samples: files.header(2, 1, samples)
    whole = stereo(8 * 3 * FRAME)
    long = files.stated(whole)
    for n in (long - 1, long + 1, long - 2 * BLOCK, 92, 93, 10**10):
        yield refused(0, 0, 0, whole, n, 11, (long, n), says(long, n))
    nine = "refused 9: not a DSF file as Sony's document lays it out"
    for head, n in ((whole[:91], 91), (b"", 0), (b"RIFF" + whole[4:], long), (whole[:72] + b"\x01" + whole[73:], long), (whole, 91)):
        yield refused(0, 0, 0, head, n, 9, (0, 0), nine)
    damaged = whole[:84] + (13 + long - 92).to_bytes(8, "little")
    yield refused(0, 0, 0, damaged, long, 11, (long, long), "refused 11: the data chunk is not what the file's samples need: a damaged file?")
    for hz in (5644800, 44100, 0):
        head = whole[:56] + hz.to_bytes(4, "little") + whole[60:]
        yield refused(0, 0, 0, head, long, 10, (hz, 8 * 3 * FRAME), f"refused 10: {hz:,} one-bit samples a second: only 2,822,400 (DSD64) are converted")
    odd = stereo(1001)
    yield refused(0, 0, 0, odd, files.stated(odd), 10, (2822400, 1001), "refused 10: 1,001 samples of a channel, which are no whole bytes")
    yield refused(0, 2, 0, whole, long, 2, (0, 0), "refused 2: wide is for 176400 and 352800")
    for db in (25, 2000):
        yield refused(0, 0, db, whole, long, 3, (0, 0), "refused 3: the gain is not -120 to 24 decibels")
    for channels in (3, 4, 5, 6):
        said = (channels, 3 * 3 * 1176 * channels)
        yield too_much(0, channels, 3 * FRAME, said, f"refused 12: {channels} channels: the WAV file takes one or two")
    for frames, rate in ((540001, 0), (600000, 2), (1234567, 0)):
        head = stereo(8 * FRAME * frames)
        yield refused(rate, 0, 0, head, files.stated(head), 5, (frames, 0), f"refused 5: {frames:,} frames: at most 540,000 (two hours) are converted")
    for frames in (152175, 200000):
        data = frames * 3 * 4704 * 2
        yield too_much(2, 2, FRAME * frames, (2, data), f"refused 12: {data:,} bytes of samples: a WAV file holds at most 4,294,967,258")


# ---- parts of jobs


def parts():
    for frames in (0, 1, 128, 129, 1000, 77777, 540000, 540001):
        for jobs in (1, 2, 3, 7, 64, 65):
            all_pieces = -(-frames // PIECE)
            cut = [all_pieces * j // jobs for j in range(jobs + 1)]
            for j in sorted({0, 1, jobs - 1, jobs}):
                there = frames <= 540000 and jobs <= 64 and j < jobs
                yield [frames, jobs, j] + (cut[j:j + 2] if there else [0, 0])


def placed(cases):
    """The lines of some cases, and all that is stored."""
    rows, stored, file = [], b"", (0, 0)
    for numbers, parts in cases:
        places = []
        for part in parts:
            if part is not None:
                file = file if places else (len(stored), len(part))
                places.append((len(stored), len(part)))
                stored += part
            else:
                places.append(file)
        rows.append(numbers + [n for place in places for n in place])
    return rows, stored


def write(name, rows):
    rows = list(rows)
    with open(f"{FOLDER}/{name}", "w", encoding="ascii") as out:
        out.writelines(" ".join(f"{n:x}" for n in row) + "\n" for row in rows)
    print(f"{name}: {len(rows)}")


if __name__ == "__main__":
    tables = filters.tables(sys.argv[1])
    rows, stored = placed([*albums(tables), *refusals()])
    write("singles", rows)
    with open(f"{FOLDER}/single_bytes", "wb") as out:
        out.write(stored)
    write("shares", parts())
