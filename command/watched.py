#!/usr/bin/env python3
"""The command on a terminal: what it shows there, beside what is to be seen.

Usage: command/watched.py [PROGRAM]        (target/puigneht if it is not given)
"""
import fcntl
import os
import pty
import struct
import subprocess
import sys
import termios

sys.dont_write_bytecode = True
import files
import stored


def runs(words, columns, output=False):
    """Standard error (and output, if that is asked for) is a terminal of so many columns. Gives the status and what it
    showed."""
    main, side = pty.openpty()
    fcntl.ioctl(side, termios.TIOCSWINSZ, struct.pack("HHHH", 24, columns, 0, 0))
    process = os.fork()
    if process == 0:
        os.dup2(side, 2)
        if output:
            os.dup2(side, 1)
        os.close(main)
        os.execv(words[0], words)
    os.close(side)
    shown = b""
    while True:
        try:
            more = os.read(main, 65536)
        except OSError:
            break
        if not more:
            break
        shown += more
    os.close(main)
    return os.waitstatus_to_exitcode(os.waitpid(process, 0)[1]), shown.replace(b"\r\n", b"\n").decode(errors="replace")


def screen(shown):
    """The lines that stay, as a terminal leaves them."""
    lines = []
    for line in shown.split("\n"):
        cells = []
        for part in line.split("\r"):
            cells[:len(part)] = part
        lines.append("".join(cells).rstrip())
    return "\n".join(lines).rstrip("\n")


def expect(right, what, shown):
    if not right:
        sys.exit(f"watched: {what}: {shown!r}")


def check_progress(program, name, seen, columns):
    """`seen`: how the name begins on the screen."""
    status, shown = runs([program, "-f", "-j", "1", name, "out.wav"], columns)
    parts = [part for part in shown.split("\r") if part.strip()]
    expect(status == 0 and parts, "no progress", shown)
    expect(all(part.startswith(seen) for part in parts), f"the album's name, to be {seen!r}", shown)
    expect(all(len(part) < columns for part in parts), f"wider than {columns} columns", shown)
    expect(columns < 60 or all("times real time" in part and " %, " in part and " left" in part for part in parts), "what is told", shown)
    expect(screen(shown) == "" and "\n" not in shown, "the line is not cleared", shown)


def check_album(program):
    """Tracks are shown by their folder's name, or by the WAV file's of all."""
    os.mkdir("An album")
    os.symlink("album.dsf", "second.dsf")
    for words, name in ((["-o", "./An album/"], "An album"), (["-o", "."], "album.dsf"), (["-a", "An album/all.wav"], "all.wav")):
        status, shown = runs([program, "-f", "-j", "1", *words, "album.dsf", "second.dsf"], 80)
        expect(status == 0 and f"\r{name}: " in shown, f"tracks, to be named {name}", shown)
        expect(screen(shown) == "puigneht: track 1: album.dsf\npuigneht: track 2: second.dsf", "tracks: the order alone stays", screen(shown))


def check_sentences(program):
    for words, sentence in ((["none.dsf", "out.wav"], "puigneht: cannot open none.dsf: No such file or directory"),
                            (["-f", "-c", "wide", "album.dsf", "out.wav"], "puigneht: refused 2: wide is for 176400 and 352800 (album.dsf)")):
        status, shown = runs([program, *words], 80)
        expect(status in (1, 3) and shown == sentence + "\n", "a refusal alone", shown)
    # it fails while progress is shown
    os.environ.update(FAILING="fail:pwrite:20", FAILING_ERROR="28")
    status, shown = runs([program, "-f", "-j", "1", "album.dsf", "out.wav"], 80)
    del os.environ["FAILING"]
    expect(status == 1 and "times real time" in shown, "a failure after progress", shown)
    expect(screen(shown) == "puigneht: cannot write out.wav: No space left on device", "a failure clears the line", screen(shown))


def check_quiet(program):
    status, shown = runs([program, "-f", "-q", "album.dsf", "out.wav"], 80)
    expect(status == 0 and shown == "", "-q: nothing", shown)
    status, shown = runs([program, "-f", "-v", "-r", "176400", "-c", "wide", "-g", "-0.5", "-j", "3", "album.dsf", "out.wav"], 80)
    lines = screen(shown).split("\n")
    expect(status == 0 and len(lines) == 3, "-v: three lines", shown)
    expect(lines[0] == "puigneht: album.dsf: 1 track, 0:50.0 minutes, 2 channels at 2,822.4 kHz, 1 bit", "-v: the album", lines[0])
    expect(lines[1] == "puigneht: to 176.4 kHz, 24 bits; wide, flat to 80 kHz, nothing from 88.2 kHz on; gain -0.5 dB; up to 3 processes", "-v: the settings", lines[1])
    expect(lines[2].startswith("puigneht: done in ") and lines[2].endswith(" times real time"), "-v: how fast", lines[2])


def check_names(program):
    """Control characters, also of eight bits and such as turn the direction, are shown as question marks."""
    for name, seen in ((b"a\x1b[2Jb.dsf", "a?[2Jb.dsf"), (b"a\nb.dsf", "a?b.dsf"), (b"a\xc2\x9bb.dsf", "a??b.dsf"), (b"a\xffb.dsf", "a?b.dsf"),
                       ("a\u202eb.dsf".encode(), "a???b.dsf"), ("Motörhead 音.dsf".encode(), "Motörhead 音.dsf")):
        status, shown = runs([program.encode(), name, b"out.wav"], 80)
        expect(status == 1 and shown == f"puigneht: cannot open {seen}: No such file or directory\n", "a name", shown)


def main():
    program, failing = stored.PROGRAM, os.path.abspath("failing.so")
    subprocess.run(["cc", "-O2", "-shared", "-fPIC", f"{stored.HERE}/failing.c", "-o", failing, "-ldl"], check=True)
    # by the clock of the machine a fast one would be done before it shows anything
    os.environ.update(LD_PRELOAD=failing, FAILING_LATER="50")
    files.long("album.dsf", 3750, 75)
    long = "x" * 100 + ".dsf"
    os.symlink("album.dsf", long)
    os.symlink("album.dsf", "a\x1bc.dsf")
    for columns in (80, 132):
        check_progress(program, "album.dsf", "album.dsf: ", columns)
        check_progress(program, "a\x1bc.dsf", "a?c.dsf: ", columns)
        check_progress(program, long, "xxxx", columns)
    for columns in (50, 30, 10):
        check_progress(program, "./album.dsf", "a" if columns > 40 else "", columns)
    check_album(program)
    check_sentences(program)
    check_quiet(program)
    check_names(program)
    status, shown = runs([program, "album.dsf", "-"], 80, output=True)
    expect(status == 3 and shown == "puigneht: - is a terminal, and no WAV file is written to one: name a file, or a pipe\n", "a terminal as OUT", shown)
    print("on a terminal: progress with the album's name in its width, cleared; sentences without a line before; names without control characters")


if __name__ == "__main__":
    stored.in_a_folder(main)
