#!/usr/bin/env python3
"""Writes command/stored/albums: of each album of command/generated.py the SHA-256 of the DSF file and of the WAV
file, and the level sheet.

Usage: compare/long_albums.py SRC, in the repository's folder; SRC is the original's repository, which is built by
compare/beside.sh. The samples are those of the original's `convert`, one call for a whole album; clips are its
statistics. The lowest and highest sample before the clamp are of its own direct implementation (src/reference.rs,
made for its tests), in a copy in which that is public and does not clamp; clamped, it must agree. The WAV file is
Python's `wave`'s, the sheet laid out by compare/sheets.py.
"""
import os
import re
import shutil
import subprocess
import sys
import tempfile

sys.path[:0] = ["compare", "command"]
import albums
import generated
import sheets


def change(path, *pairs):
    text = open(path).read()
    for old, new in pairs:
        assert len(re.findall(old, text)) == 1, (path, old)
        text = re.sub(old, new, text)
    open(path, "w").write(text)


def opened(source, folder):
    """A copy of the original whose direct implementation is public, without the clamp."""
    crate = "crates/scarletbook-pcm/src"
    shutil.copytree(f"{source}/{crate}", f"{folder}/{crate}")
    subprocess.run(["chmod", "-R", "u+w", folder], check=True)
    change(f"{folder}/{crate}/lib.rs", (r"(#\[cfg\(test\)\]\s*)?mod reference;", "pub mod reference;"))
    change(f"{folder}/{crate}/reference.rs", (r"pub\(crate\) fn", "pub fn"), (r"r\.clamp\([^()]*\)", "r"))
    return folder


def frames(case):
    """Raw frames: the channels' bytes in turn, the last frame filled up with 0x69."""
    count = -(-case.samples // 8 // generated.FRAME) * generated.FRAME
    filled = [s.ljust(count, b"\x69") for s in generated.sounds(case)]
    return bytes(b for group in zip(*filled) for b in group)


def wav_file(case, data):
    size = 3
    items = [int.from_bytes(data[at:at + size], "little", signed=True) for at in range(0, len(data), size)]
    return albums.wav_file(albums.RATES.index(case.rate), case.channels, items)


def sheet(case, told):
    stats = sheets.none()
    for c in range(case.channels):
        stats["clipped"][c], stats["lowest"][c], stats["highest"][c] = told[3 * c:3 * c + 3]
        stats["empty"][c] = 0
    return sheets.sheet(case.channels, stats)


def main():
    cases = list(generated.cases())
    with tempfile.TemporaryDirectory() as folder:
        lines = []
        for k, case in enumerate(cases):
            with open(f"{folder}/{k}.in", "wb") as out:
                out.write(frames(case))
            lines.append(f"{case.rate} {case.cutoff} {case.channels} {case.db} {folder}/{k}.in {folder}/{k}.out\n")
        source = opened(sys.argv[1], f"{folder}/original")
        told = subprocess.run(["compare/beside.sh", "long_albums", source], input="".join(lines), stdout=subprocess.PIPE, text=True, check=True)
        texts = []
        for k, (case, line) in enumerate(zip(cases, told.stdout.splitlines(), strict=True)):
            wav = wav_file(case, open(f"{folder}/{k}.out", "rb").read())
            digests = generated.digest(generated.dsf(case)), generated.digest(wav)
            texts.append(" ".join(map(str, (*case, *digests))) + "\n" + sheet(case, list(map(int, line.split()))))
    with open(generated.STORED, "w") as out:
        out.write("\n".join(texts))
    print(f"{len(texts)} albums, {os.path.getsize(generated.STORED)} bytes")


if __name__ == "__main__":
    main()
