"""One DSF file, or an album that comes as tracks, to WAV files: python3 -m puigneht. The command `puigneht` has more.
"""

from __future__ import annotations

import argparse
import contextlib
import os
import sys
from typing import Sequence

from . import Album, Refused, Stats, __version__, library_version
from ._album import FORMATS
from ._converter import CUTOFFS, RATES
from ._made import Made, name_all

DONE, SYSTEM, USAGE, REFUSED, IS_THERE = 0, 1, 2, 3, 4


def _parser() -> argparse.ArgumentParser:
    p = argparse.ArgumentParser(
        prog="python3 -m puigneht",
        usage="python3 -m puigneht [OPTIONS] IN.dsf OUT.wav\n"
        "       python3 -m puigneht [OPTIONS] -o FOLDER TRACK1.dsf TRACK2.dsf ..\n"
        "       python3 -m puigneht [OPTIONS] -a ALBUM.wav TRACK1.dsf TRACK2.dsf ..",
        description="Converts DSF files (DSD64, 1 to 6 channels) into WAV files of 24 bits.",
        epilog="Exit status: 0 done; 1 the system failed; 2 usage; 3 refused; 4 an output is there already.")
    p.add_argument("words", nargs="+", metavar="FILE", help="IN.dsf OUT.wav; or the tracks of an album, in their order")
    p.add_argument("-o", "--folder", help="a WAV file a track, converted as one run, into a folder that is there")
    p.add_argument("-a", "--album", metavar="WAV", help="one WAV file of all tracks")
    p.add_argument("-r", "--rate", type=int, default=88200, choices=RATES, help="default 88200")
    p.add_argument("-c", "--cutoff", default="standard", choices=CUTOFFS, help="default standard")
    p.add_argument("-g", "--gain", type=float, default=0.0, metavar="DB", help="decibels, -120 to 24; default 0")
    p.add_argument("--format", default="auto", choices=FORMATS, help="the header; default auto")
    p.add_argument("-s", "--sheet", help="writes the level sheet to a file; - is standard output")
    p.add_argument("-j", "--jobs", type=int, help="threads that share the work; default: as many as there are processors")
    p.add_argument("-f", "--force", action="store_true", help="replaces outputs that are there")
    p.add_argument("-p", "--progress", action="store_true", help="says how far it is")
    p.add_argument("-V", "--version", action="version", version=f"puigneht {__version__}, library {library_version}")
    return p


def _wav_name(track: str) -> str:
    name = os.path.basename(track)
    return (name[:-4] if name.lower().endswith(".dsf") else name) + ".wav"


def _said(done: int, of: int) -> None:
    print(f"\r{100 * done // of} %", end="\n" if done == of else "", file=sys.stderr, flush=True)


def _names(asked: argparse.Namespace) -> list[str]:
    if asked.folder is None:
        return [asked.album]
    return [os.path.join(asked.folder, _wav_name(track)) for track in asked.words]


def _converted(asked: argparse.Namespace, album: Album) -> Stats:
    progress, names = _said if asked.progress else None, _names(asked)
    if asked.folder is not None:
        return album.write_tracks(names, asked.format, asked.force, asked.jobs, progress)
    return album.write_wav(names[0], asked.format, asked.force, asked.jobs, progress)


def _sheet_file(asked: argparse.Namespace) -> Made | None:
    """Begun before the conversion, so that what it would be refused for is said before."""
    if asked.sheet is None or asked.sheet == "-":
        return None
    if os.path.realpath(asked.sheet) in map(os.path.realpath, _names(asked)):
        raise ValueError("two files are to have one name")
    return Made(asked.sheet, asked.force)


def _write_all(asked: argparse.Namespace, album: Album) -> None:
    with contextlib.ExitStack() as stack:
        sheet = _sheet_file(asked)
        if sheet is not None:
            stack.callback(sheet.drop)
        stats = _converted(asked, album)
        if asked.sheet == "-":
            print(stats.sheet(album.channels), end="")
        if sheet is not None:
            sheet.write(stats.sheet(album.channels).encode("ascii"), 0)
            name_all([sheet])


def _understood(words: Sequence[str] | None) -> argparse.Namespace:
    p = _parser()
    asked = p.parse_args(words)
    if asked.folder is not None and asked.album is not None:
        p.error("-o and -a do not go together")
    if asked.jobs is not None and not 1 <= asked.jobs <= 64:
        p.error("jobs are 1 to 64")
    if not -120 <= asked.gain <= 24:
        p.error("gains are -120 to 24 decibels")
    if asked.folder is None and asked.album is None:
        if len(asked.words) != 2:
            p.error("IN.dsf and OUT.wav are needed; or -o or -a, and tracks")
        asked.album = asked.words.pop()
    return asked


def main(words: Sequence[str] | None = None) -> int:
    asked = _understood(words)
    try:
        with Album(asked.words, asked.rate, asked.cutoff, asked.gain) as album:
            _write_all(asked, album)
    except Refused as e:
        print(f"puigneht: {e} ({asked.words[e.track]})", file=sys.stderr)
        return REFUSED if e.number != 254 else SYSTEM
    except FileExistsError as e:
        print(f"puigneht: {e.filename} is there already: -f replaces it", file=sys.stderr)
        return IS_THERE
    except ValueError as e:
        print(f"puigneht: {e}", file=sys.stderr)
        return USAGE
    except OSError as e:
        print(f"puigneht: {e}", file=sys.stderr)
        return SYSTEM
    return DONE


if __name__ == "__main__":
    sys.exit(main())
