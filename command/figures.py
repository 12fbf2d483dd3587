#!/usr/bin/env python3
"""Levels, info, frames and dsf beside answers from outside: the original's reports (crates/test_reports), samples of
the original (command/stored/albums), files laid out by files.py, sums worked out here; and with calls of the system
failing.

Usage: command/figures.py [PROGRAM]        (target/puigneht if it is not given)

It needs a C compiler, and takes some 100 MB of disk.
"""
import json
import os
import random
import re
import struct
import subprocess
import sys

sys.dont_write_bytecode = True
import files
import generated
import stored
from stored import DATA, DONE, FRAME, REFUSED, USAGE, Command, held, put_file

SYSTEM, THERE = 1, 4
SETTINGS = re.compile(rb"(88200|176400|352800) (standard|low|wide) ([12]) (-?[0-9]+)")
LINE = re.compile(rb"frame (\d+) channel (\d) clipped (\d+) low (-?\d+) high (-?\d+) over (\d+)")
tried = 0
FAILING = None


def check(right, *what):
    global tried
    tried += 1
    if not right:
        sys.exit("figures: " + " ".join(map(str, what)))


def printed(command, words, status=DONE, given=b""):
    """What it prints; nothing is said."""
    found = command.runs(words, given)
    check(found[0] == status and not found[2], words, "gives", found[0], found[2])
    return found[1]


def noise(channels, count, seed):
    source = random.Random(seed)
    return [source.randbytes(count) for _ in range(channels)]


def interleaved(sounds):
    """Raw frames: the channels' bytes in turn, the last frame filled up."""
    length = -(-len(sounds[0]) // FRAME) * FRAME
    return bytes(b for row in zip(*(sound.ljust(length, b"\x69") for sound in sounds)) for b in row)


def put(path, sounds, bits=8, metadata=b"", kind=None):
    with open(path, "wb") as file:
        file.write(files.laid_out(sounds, bits, 8 * len(sounds[0]), len(metadata), kind) + metadata)


# ---- levels


def reports(command):
    """The original's reports of whole frames."""
    text = held(DATA, "test_reports", "stdout")
    for number, report in re.findall(rb"^input (\d+)\n((?:(?!input).*\n)*)", text, re.M):
        line, _, data = held(DATA, "test_reports", "data", "%02d" % int(number)).partition(b"\n")
        settings = SETTINGS.fullmatch(line)
        if not settings or report.startswith(b"refused") or len(data) % (FRAME * int(settings[3])):
            continue
        rate, cutoff, channels, db = (word.decode() for word in settings.groups())
        sounds = [data[c::int(channels)] for c in range(int(channels))]
        for bits in 1, 8:
            put("a.dsf", sounds, bits)
            found = printed(command, ["levels", "-r", rate, "-c", cutoff, "-g", db, "a.dsf"])
            check(found == report, "the report of input", int(number), "is", found)
        printed(command, ["frames", "-o", "a.frames", "a.dsf"])
        check(held("a.frames") == data, "the frames of input", int(number))
        os.remove("a.frames")


def overs(samples):
    """The places of the third samples of runs at one end of full scale."""
    run, last, places = 0, None, []
    for k, s in enumerate(samples):
        run = run + 1 if s == last else 1
        last = s
        if run == 3 and s in (8388607, -8388608):
            places.append(k)
    return places


def lines_of(case, wav):
    """Low, high and overs of each frame and channel, out of the samples of a WAV file."""
    data = wav[44:]
    items = [low | high << 16 for low, high in struct.iter_unpack("<Hb", data)]
    per = case.rate // 75
    found = {}
    for c in range(case.channels):
        samples = items[c::case.channels]
        thirds = [place // per for place in overs(samples)]
        for f in range(len(samples) // per):
            part = samples[f * per:f * per + per]
            found[f, c] = (min(part), max(part), thirds.count(f))
    return found


def long_albums(command):
    """Beside WAV files that have the digest of the original's, and their sheets, by as many processes as may be."""
    for k, (case, file, digest, sheet) in enumerate(generated.stored()):
        if k % 4:
            continue
        data = generated.dsf(case)
        put_file("a.dsf", data, len(data))
        command.runs([*case.options(), "-q", "-f", "a.dsf", "a.wav"])
        wav = held("a.wav")
        check(generated.digest(wav) == digest, case, "another WAV file")
        text = printed(command, ["levels", *case.options(), "-j", "1", "a.dsf"])
        found = {(int(f), int(c)): (int(low), int(high), int(over)) for f, c, _, low, high, over in LINE.findall(text)}
        check(found == lines_of(case, wav), case, "levels")
        rows = [row.split() for row in sheet.splitlines()]
        for row in rows[:-1]:
            check(sum(int(n) for _, c, n, *_ in LINE.findall(text) if int(c) == int(row[0])) == int(row[1]), case, "clips")
        check(text.endswith(b"frames %d clipped %s\n" % (-(-case.samples // 8 // FRAME), rows[-1][0].encode())), case, "the last line")
        for jobs in "2", "3", "64":
            check(printed(command, ["levels", *case.options(), "-j", jobs, "a.dsf"]) == text, case, "by", jobs, "processes")
        tracks(command, case, text)


def tracks(command, case, text):
    """The album cut into tracks inside its first and its last piece."""
    sounds = generated.sounds(case)
    places = [0, 1, 5000, 128 * FRAME, len(sounds[0]) - 7, len(sounds[0])]
    names = []
    for k, (begin, end) in enumerate(zip(places, places[1:])):
        names.append(f"{k + 1}.dsf")
        put(names[-1], [sound[begin:end] for sound in sounds], 1 if k % 2 else 8, bytes(k))
    check(printed(command, ["levels", "-q", *case.options(), *names]) == text, case, "levels of tracks")
    check(printed(command, ["frames", "-q", "-o", "-", *names]) == interleaved(sounds), case, "frames of tracks")
    for name in names:
        os.remove(name)


def over_borders(command):
    """One over in all, at the start: the samples of 0x00 stand at the low end from there on, over two borders of
    pieces."""
    put("a.dsf", [bytes(300 * FRAME)])
    for jobs in "1", "3":
        found = LINE.findall(printed(command, ["levels", "-j", jobs, "a.dsf"]))
        check(sum(int(over) for *_, over in found) == 1 and found[128][5] == found[256][5] == b"0", "overs over borders by", jobs)


def channels(command):
    """Three to six channels have the lines that each has by itself."""
    for count in 3, 4, 5, 6:
        sounds = noise(count, 130 * FRAME - 11, count)
        put("a.dsf", sounds)
        found = printed(command, ["levels", "-g", "6", "a.dsf"])
        for c in range(count):
            put("b.dsf", sounds[c:c + 1])
            alone = printed(command, ["levels", "-g", "6", "b.dsf"]).replace(b" channel 0 ", b" channel %d " % c)
            mine = [line for line in found.splitlines() if b" channel %d " % c in line]
            check(mine == alone.splitlines()[:-1], "channel", c, "of", count)


def summed(text, name, size):
    sums = {}
    for frame, c, *numbers in LINE.findall(text):
        clipped, low, high, over = map(int, numbers)
        old = sums.get((int(frame) // size, int(c)), (0, low, high, 0))
        sums[int(frame) // size, int(c)] = (old[0] + clipped, min(old[1], low), max(old[2], high), old[3] + over)
    lines = ["%s %d channel %d clipped %d low %d high %d over %d\n" % (name, *key, *sums[key]) for key in sorted(sums)]
    return "".join(lines).encode() + text.splitlines(True)[-1]


def by_stretches(command):
    source = random.Random(5)
    loud = [b"".join(bytes([source.choice((0, 255, 105))]) * source.randrange(9000) for _ in range(900)) for _ in range(2)]
    length = min(map(len, loud))
    put("a.dsf", [sound[:length] for sound in loud])
    for count in 2, 1:
        text = printed(command, ["levels", "-g", "2", "a.dsf"])
        for name, size in ("second", 75), ("minute", 4500), ("frame", 1):
            right = summed(text, name, size)
            for jobs in "1", "3":
                check(printed(command, ["levels", "-g", "2", "--by", name, "-j", jobs, "a.dsf"]) == right, "by", name, "of", count)
        put("a.dsf", [b"\xff" * (230 * FRAME)])    # samples of its second second lie above 0
    put("a.dsf", [b"\x69" * (4499 * FRAME) + b"\xff" * FRAME + b"\x69" * (5 * FRAME)])
    check(printed(command, ["levels", "--by", "minute", "a.dsf"]) == summed(printed(command, ["levels", "a.dsf"]), "minute", 4500), "by the minute")


# ---- frames and dsf


def dsf_files(command):
    for count in range(1, 7):
        for frames in 0, 1, 127, 128, 129, 300:
            sounds = noise(count, frames * FRAME, frames)
            put_file("a.frames", interleaved(sounds), None)
            right = files.laid_out(sounds, 1, 8 * frames * FRAME)
            printed(command, ["dsf", str(count), "a.frames", "new.dsf"])
            check(held("new.dsf") == right, "the file of", frames, "frames of", count)
            os.remove("new.dsf")
            with open("a.frames", "rb") as file:
                piped = subprocess.run([command.program, "dsf", str(count), "-", "new.dsf"], stdin=file, capture_output=True)
            check(piped.returncode == 0 and held("new.dsf") == right, "the file of a pipe", frames, count)
            if frames:
                check(printed(command, ["frames", "-o", "-", "new.dsf"]) == held("a.frames"), "the frames back", frames, count)
            os.remove("new.dsf")


def few_bytes(command):
    """A pipe that comes in small parts."""
    data = interleaved(noise(2, 130 * FRAME, 1))
    run = subprocess.Popen([command.program, "dsf", "2", "-", "new.dsf"], stdin=subprocess.PIPE)
    source = random.Random(2)
    while data:
        part = source.randrange(1, 70000)
        run.stdin.write(data[:part])
        run.stdin.flush()
        data = data[part:]
    run.stdin.close()
    check(run.wait() == 0 and held("new.dsf") == files.laid_out(noise(2, 130 * FRAME, 1), 1, 8 * 130 * FRAME), "a pipe in parts")
    os.remove("new.dsf")


# ---- info

SPEAKERS = {1: "centre", 2: "front left, front right", 3: "front left, front right, centre",
            4: "front left, front right, back left, back right", 5: "front left, front right, centre, low frequency",
            6: "front left, front right, centre, back left, back right",
            7: "front left, front right, centre, low frequency, back left, back right"}
COUNTS = {1: 1, 2: 2, 3: 3, 4: 4, 5: 4, 6: 5, 7: 6}


def waves_of(count, frames):
    for rate in 88200, 176400, 352800:
        data = frames * rate // 75 * 3 * count
        large = (44 if count < 3 else 68) - 8 + data > 0xFFFFFFFF
        head = {(False, False): 44, (True, False): 68, (False, True): 80, (True, True): 104}[count > 2, large]
        name = ("rf64" if large else "wav") + ("-extensible" if count > 2 else "")
        yield {"rate": rate, "refused": 0, "bytes": head + data, "format": name}


def told(command, path):
    found, = (json.loads(line) for line in printed(command, ["info", "--json", path]).splitlines())
    return found, printed(command, ["info", path]).decode()


def infos(command):
    for kind, count in COUNTS.items():
        for length, bits, metadata in (1, 1, b"ID3" + bytes(40)), (FRAME * 3, 8, b""), (4097 * 3, 1, b"TAG" + bytes(7)), (0, 8, b"ID"):
            sounds = noise(count, length, 1)
            put("a.dsf", sounds, bits, metadata, kind)
            frames = -(-length // FRAME)
            data = -(-length // 4096) * 4096 * count
            found, text = told(command, "a.dsf")
            right = {"file": "a.dsf", "bytes": 92 + data + len(metadata), "refused": 0, "channels": count, "channel_type": kind,
                     "loudspeakers": SPEAKERS[kind].split(", "), "samples": 8 * length, "milliseconds": round(8000 * length / 2822400),
                     "first_bit": "lowest" if bits == 1 else "highest", "frames": frames, "filled": frames * FRAME - length,
                     "data": data, "behind": len(metadata), "id3": metadata[:3] == b"ID3", "waves": list(waves_of(count, frames))}
            check(found == right, "info of type", kind, "is", found, "and not", right)
            for part in (f"{count} (type {kind}): {SPEAKERS[kind]}\n", f" {8 * length:,} of each channel", f" {data:,} bytes from byte 92 on\n",
                         "lowest bit first" if bits == 1 else "highest bit first", f"frames     {frames:,}",
                         *(f" {w['bytes']:,} bytes, {w['format']}\n" for w in right["waves"])):
                check(part in text, "info tells", repr(text), "without", repr(part))
            begins = "begin as" if metadata[:3] == b"ID3" else "do not begin as"
            behind = f"{len(metadata)} bytes, which {begins} an ID3 tag" if metadata else "nothing"
            check(f"  behind it  {behind}\n" in text, "what is behind", text)


def long_infos(command):
    """Past 4 GB, at the edge of two hours, and past it: sparse files."""
    for frames, ms in (540000, 7200000), (540001, 7200013), (3600 * 75 + 1, 3600013):
        with open("long.dsf", "wb") as file:
            head = files.header(2, 1, frames * 37632)
            file.write(head)
            file.truncate(files.stated(head))
        found, text = told(command, "long.dsf")
        check(found["milliseconds"] == ms and "%d:%02d:%02d.%03d" % (ms // 3600000, ms // 60000 % 60, ms // 1000 % 60, ms % 1000) in text, "a long file", text)
        if frames <= 540000:
            check(found["waves"] == list(waves_of(2, frames)), "a long file", found)
        else:
            check([w["refused"] for w in found["waves"]] == [5] * 3 and "540,001 frames" in text, "a file over two hours", text)
    os.remove("long.dsf")


def names(command):
    """Names that JSON has to escape, and that no terminal shows."""
    for name in (b'a "b" \\ c.dsf', b"tab\tnew\nline.dsf", "gr\u00fc\u00df \U0001f3b5.dsf".encode(), b"no utf-8 \xff\xc3.dsf", b"\x7f.dsf"):
        put(name, noise(1, 100, 1))
        found = command.runs(["info", "--json", os.fsdecode(name)])
        check(os.fsencode(json.loads(found[1])["file"]) == name and found[1].count(b"\n") == 1, "the name", name)
        text = command.runs(["info", os.fsdecode(name)])[1]
        check(not re.search(rb"[\x00-\x09\x0b-\x1f\x7f\xff]", text) and text.count(b"\n") == 11, "the name", name, "is told", text)
        os.remove(name)


def refused_infos(command):
    put("good.dsf", noise(1, 100, 1))
    data = held("good.dsf")
    put_file("short.dsf", data[:-1], None)
    put_file("empty.dsf", b"", None)
    status, text, said = command.runs(["info", "--json", "short.dsf", "good.dsf", "empty.dsf"])
    first, second, third = map(json.loads, text.splitlines())
    check(status == REFUSED and not said, "refused files give", status, said)
    check((first["refused"], first["field"]) == (11, {"place": 12, "found": len(data), "asked": len(data) - 1}), first)
    check(first["sentence"].startswith(f"refused 11: the file says {len(data):,} bytes and has"), first)
    check((second["refused"], third["refused"], third["field"]["place"]) == (0, 9, 92), second, third)
    for k, value in (48, 9), (56, 1), (60, 2), (0, 0x12345678):
        put_file("bad.dsf", data[:k] + value.to_bytes(4, "little") + data[k + 4:], None)
        status, text, _ = command.runs(["info", "--json", "bad.dsf"])
        found = json.loads(text)
        check((status, found["field"]["place"]) == (REFUSED, k) and found["field"]["found"] & 0xFFFFFFFF == value, found)
        status, text, _ = command.runs(["info", "bad.dsf"])
        check(status == REFUSED and text.startswith(b"bad.dsf\n  refused ") and text.count(b"\n") == 2, text)


# ---- faults: what is said, the status, nothing printed, and no file but those that were there


def fault(command, words, status, said, given=b"", failing=None):
    before = {name: os.stat(name).st_mtime_ns for name in os.listdir(".")}
    env = os.environ | ({"LD_PRELOAD": FAILING, "FAILING": failing[0], "FAILING_ERROR": str(failing[1])} if failing else {})
    run = subprocess.run([command.program, *words], input=given, capture_output=True, env=env)
    right = run.returncode == status and run.stderr.splitlines()[:1] == [b"puigneht: " + said.encode()]
    check(right, words, failing, "gives", run.returncode, run.stderr, "and not", status, said)
    check(failing or not run.stdout, words, "prints", run.stdout)
    check({name: os.stat(name).st_mtime_ns for name in os.listdir(".")} == before, words, "leaves files", os.listdir("."))


def faults(command):
    put("good.dsf", noise(2, 300 * FRAME, 1))
    put("mono.dsf", noise(1, 300 * FRAME, 1))
    put_file("short.dsf", held("good.dsf")[:-1], None)
    put_file("a.frames", interleaved(noise(2, FRAME, 1)), None)
    put_file("odd.frames", bytes(9407), None)
    with open("many.frames", "wb") as file:
        file.truncate(540001 * FRAME)
    size, missing = os.path.getsize("good.dsf"), "No such file or directory"
    incomplete = f"refused 11: the file says {size:,} bytes and has {size - 1:,}: an incomplete upload?"
    for words, status, said in (
            (["levels"], USAGE, "IN.dsf is missing"),
            (["levels", ""], USAGE, "'' is not understood at its place"),
            (["levels", "none.dsf"], SYSTEM, f"cannot open none.dsf: {missing}"),
            (["levels", "short.dsf"], REFUSED, f"{incomplete} (short.dsf)"),
            (["levels", "-c", "wide", "good.dsf"], REFUSED, "refused 2: wide is for 176400 and 352800 (good.dsf)"),
            (["levels", "-q", "good.dsf", "short.dsf"], REFUSED, f"{incomplete} (track 2, short.dsf)"),
            (["levels", "--by", "hour", "good.dsf"], USAGE, "'hour': lines are by frame, second, minute"),
            (["levels", "--by"], USAGE, "a value is missing behind --by: lines are by frame, second, minute"),
            (["levels", "-o", "out", "good.dsf"], USAGE, "levels takes no --folder"),
            (["levels", "-q", *["good.dsf"] * 100], USAGE, "'good.dsf' is track 100: an album has at most 99"),
            (["info"], USAGE, "IN.dsf is missing"),
            (["info", "none.dsf"], SYSTEM, f"cannot open none.dsf: {missing}"),
            (["info", ""], USAGE, "'' is not understood at its place"),
            (["frames", "good.dsf"], USAGE, "-o FRAMES is missing: a file, or - for standard output"),
            (["frames", "-o", "new"], USAGE, "IN.dsf is missing"),
            (["frames", "-o", "new", "short.dsf"], REFUSED, f"{incomplete} (short.dsf)"),
            (["frames", "-o", "good.dsf", "good.dsf"], THERE, "good.dsf is there already, and stays as it is"),
            (["frames", "-o", "none/new", "good.dsf"], SYSTEM, f"cannot make a file beside none/new: {missing}"),
            (["dsf", "2", "a.frames"], USAGE, "OUT.dsf is missing"),
            (["dsf", "0", "a.frames", "new.dsf"], USAGE, "'0': CHANNELS are 1 to 6"),
            (["dsf", "7", "a.frames", "new.dsf"], USAGE, "'7': CHANNELS are 1 to 6"),
            (["dsf", "x", "a.frames", "new.dsf"], USAGE, "'x': CHANNELS are 1 to 6"),
            (["dsf", "2", "a.frames", ""], USAGE, "'' is not understood at its place"),
            (["dsf", "2", "odd.frames", "new.dsf"], REFUSED,
             "refused 4: 9,407 bytes are not whole frames: a frame of 2 channels has 9,408 bytes (odd.frames)"),
            (["dsf", "1", "many.frames", "new.dsf"], REFUSED, "refused 5: 540,001 frames: at most 540,000 (two hours) are written (many.frames)"),
            (["dsf", "2", "none.frames", "new.dsf"], SYSTEM, f"cannot open none.frames: {missing}"),
            (["dsf", "2", "a.frames", "good.dsf"], THERE, "good.dsf is there already, and stays as it is")):
        fault(command, words, status, said)
    fault(command, ["dsf", "2", "-", "new.dsf"], REFUSED,
          "refused 4: 9,407 bytes are not whole frames: a frame of 2 channels has 9,408 bytes (standard input)", bytes(9407))
    with open("many.frames", "rb") as file:
        run = subprocess.run([command.program, "dsf", "1", "-", "new.dsf"], stdin=file, capture_output=True)
    check(run.returncode == REFUSED and b"refused 5: 540,001 frames" in run.stderr and not os.path.exists("new.dsf"), "too many in a pipe", run)
    full, io = "No space left on device", "Input/output error"
    for words, failing, said in (
            (["levels", "-j", "1", "mono.dsf"], ("fail:pread:1", 5), f"cannot read mono.dsf: {io}"),
            (["levels", "-j", "1", "mono.dsf"], ("fail:pread:3", 5), f"cannot read mono.dsf: {io}"),
            (["levels", "-j", "2", "mono.dsf"], ("fail:fork:2", 11), "cannot start a process: Resource temporarily unavailable"),
            (["levels", "-j", "1", "mono.dsf"], ("ends:write:1", 0), "a process ended before its last piece"),
            (["levels", "-j", "1", "mono.dsf"], ("torn:write:1", 0), "a process ended inside a message"),
            (["levels", "-j", "1", "mono.dsf"], ("torn:write:2", 0), "a process ended inside a piece"),
            (["levels", "-j", "1", "mono.dsf"], ("wrong:write:1", 0), "a message that is none"),
            (["info", "mono.dsf"], ("fail:write:1", 28), f"cannot write standard output: {full}"),
            (["info", "--json", "mono.dsf"], ("fail:write:1", 28), f"cannot write standard output: {full}"),
            (["info", "mono.dsf"], ("fail:pread:1", 5), f"cannot read mono.dsf: {io}"),
            (["frames", "-o", "new", "good.dsf"], ("fail:write:1", 28), f"cannot write new: {full}"),
            (["frames", "-o", "new", "good.dsf"], ("fail:write:3", 28), f"cannot write new: {full}"),
            (["frames", "-o", "new", "good.dsf"], ("fail:pread:3", 5), f"cannot read good.dsf: {io}"),
            (["frames", "-o", "new", "good.dsf"], ("fail:fsync:1", 5), f"cannot write new: {io}"),
            (["frames", "-o", "new", "good.dsf"], ("fail:renameat2:1", 5), f"cannot name the output new: {io}"),
            (["frames", "-o", "new", "good.dsf"], ("once:fsync:2", 5), f"cannot write the folder of new: {io}"),
            (["frames", "-o", "-", "good.dsf"], ("fail:write:2", 28), f"cannot write standard output: {full}"),
            (["dsf", "2", "a.frames", "new.dsf"], ("fail:write:1", 28), f"cannot write new.dsf: {full}"),
            (["dsf", "2", "a.frames", "new.dsf"], ("fail:write:2", 28), f"cannot write new.dsf: {full}"),
            (["dsf", "2", "a.frames", "new.dsf"], ("fail:pwrite:1", 28), f"cannot write new.dsf: {full}"),
            (["dsf", "2", "a.frames", "new.dsf"], ("fail:read:1", 5), f"cannot read a.frames: {io}"),
            (["dsf", "2", "a.frames", "new.dsf"], ("fail:fsync:1", 5), f"cannot write new.dsf: {io}")):
        fault(command, words, SYSTEM, said, failing=failing)


def cut_short(command):
    """Reads and writes that give a part of what is asked."""
    env = os.environ | {"LD_PRELOAD": FAILING, "FAILING": "short", "FAILING_ERROR": "0"}
    for words in ["levels", "-j", "2", "mono.dsf"], ["levels", "--by", "second", "mono.dsf"], ["frames", "-o", "-", "mono.dsf"], ["info", "mono.dsf"]:
        run = subprocess.run([command.program, *words], capture_output=True, env=env)
        check(run.returncode == 0 and run.stdout == printed(command, words), words, "with short reads and writes")
    run = subprocess.run([command.program, "dsf", "2", "a.frames", "new.dsf"], capture_output=True, env=env)
    check(run.returncode == 0 and held("new.dsf") == files.laid_out(noise(2, FRAME, 1), 1, 8 * FRAME), "dsf with short reads and writes")
    os.remove("new.dsf")


def held_back(command, words, call, meanwhile):
    """What `words` give where `meanwhile` is done while the call waits."""
    for end in "at", "go":
        os.mkfifo(f"hold.{end}")
    env = os.environ | {"LD_PRELOAD": FAILING, "FAILING": f"hold:{call}", "FAILING_ERROR": "0", "FAILING_HOLD": os.path.abspath("hold")}
    go = os.open("hold.go", os.O_RDWR)
    at = os.open("hold.at", os.O_RDWR)
    run = subprocess.Popen([command.program, *words], stdout=subprocess.PIPE, stderr=subprocess.PIPE, env=env)
    os.read(at, 1)
    meanwhile(run)
    os.write(go, b"g\n")
    out, said = run.communicate(timeout=60)
    for end in at, go:
        os.close(end)
    os.remove("hold.at")
    os.remove("hold.go")
    return run.returncode, out, said


def changed(command):
    """An album that is changed while it is read: the report and the frames stay without their end, and no file is left.
    """
    text = b"mono.dsf was changed while it was converted: an upload that goes on?\n"
    for words in ["levels", "-j", "1", "mono.dsf"], ["levels", "-j", "1", "--by", "minute", "mono.dsf"], ["frames", "-o", "-", "mono.dsf"], ["frames", "-o", "new", "mono.dsf"]:
        whole = printed(command, words)
        before = set(os.listdir(".")) - {"new"}
        if "new" in words:
            os.remove("new")
        status, out, said = held_back(command, words, "pread:2", lambda run: os.utime("mono.dsf"))
        check(status == SYSTEM and said == b"puigneht: " + text, words, "gives", status, said)
        check(whole.startswith(out) and (out != whole or not whole) and b"frames " not in out[:7], words, "is", len(out), "of", len(whole))
        check(set(os.listdir(".")) == before, words, "leaves", os.listdir("."))


def changed_frames(command):
    """Frames that are changed while they are read become no DSF file."""
    status, out, said = held_back(command, ["dsf", "2", "a.frames", "new.dsf"], "read:1", lambda run: os.utime("a.frames"))
    check(status == SYSTEM and said == b"puigneht: a.frames was changed while it was converted: an upload that goes on?\n", status, said)
    check(not out and not os.path.exists("new.dsf"), "a file of changed frames")


def interrupted(command):
    """A signal takes back what was made."""
    before = set(os.listdir("."))
    for words, call in (["frames", "-o", "new", "mono.dsf"], "pread:2"), (["dsf", "2", "a.frames", "new.dsf"], "read:1"):
        status, *_ = held_back(command, words, call, lambda run: run.send_signal(15))
        check(status == -15 and set(os.listdir(".")) == before, words, "interrupted gives", status, os.listdir("."))
    status, *_ = held_back(command, ["dsf", "2", "a.frames", "new.dsf"], "read:1", lambda run: put_file("new.dsf", b"another", None))
    check(status == THERE and held("new.dsf") == b"another", "what came meanwhile", status)
    os.remove("new.dsf")


def compiled():
    """failing.c as a library."""
    words = ["cc", "-O2", "-shared", "-fPIC", os.path.join(stored.HERE, "failing.c"), "-o", "../failing.so", "-ldl"]
    subprocess.run(words, check=True)
    return os.path.abspath("../failing.so")


def main():
    global FAILING
    command = Command(stored.PROGRAM)
    os.mkdir("files")
    os.chdir("files")
    FAILING = compiled()
    counts = []
    for part in (reports, over_borders, channels, by_stretches, long_albums, dsf_files, few_bytes, infos, long_infos, names, refused_infos, faults,
                 cut_short, changed, changed_frames, interrupted):
        before = tried
        part(command)
        counts.append(f"{tried - before} {part.__name__.replace('_', ' ')}")
    print(f"figures: {tried} as from outside: {', '.join(counts)}")


if __name__ == "__main__":
    stored.in_a_folder(main)
