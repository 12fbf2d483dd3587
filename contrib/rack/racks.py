"""What racks have in common: their arguments, and what is looked at before anything begins."""
import argparse
import fcntl
import os
import re
import shutil
import subprocess
import sys

import lists
import states
import summaries

TASK = os.path.join(os.path.dirname(os.path.realpath(__file__)), "task")
TRIES = 3

MORE = """Albums are converted due first, each on one processor, and tried three times where the system fails. Run
again, a rack makes what is missing. Exit status: 0 all done, 1 some failed, 2 usage, 3 some refused (listed, for a person).
contrib/README.md says what a list is."""


def parser_of(description):
    parser = lists.Settings(description=description, epilog=MORE, formatter_class=argparse.RawDescriptionHelpFormatter)
    parser.add_argument("-h", "--help", action="help")
    parser.add_argument("-o", "--folder", metavar="FOLDER", required=True, help="where the WAV files go; made if it is not there")
    parser.add_argument("-p", "--program", default="puigneht", help="the command on the machines")
    parser.add_argument("--null", action="store_true", help="LIST has names that end in zero bytes (find -print0)")
    parser.add_argument("list", metavar="LIST", help="a list of albums, or a folder of them")
    return parser


def program_of(name):
    found = shutil.which(name)
    if not found:
        raise lists.Wrong("there is no %s: --program names the command" % lists.plain(name))
    return os.path.abspath(found) if os.sep in name else name


def check_settings(program, albums):
    """The command itself says what it takes, before thousands of tasks do."""
    for words in {tuple(album["with"]) for album in albums}:
        tried = subprocess.run([program, *words, "--", os.devnull, os.path.join(os.devnull, "none")],
                               stdin=subprocess.DEVNULL, capture_output=True, check=False)
        if tried.returncode == 2:
            raise lists.Wrong(os.fsdecode(tried.stderr).splitlines()[0])


class Lock:
    """One rack a folder of WAV files at a time on this machine; it ends with the process."""

    def __init__(self, out):
        os.makedirs(os.path.join(out, ".rack"), exist_ok=True)
        self.file = open(os.path.join(out, ".rack", "lock"), "w", encoding="utf-8")
        try:
            fcntl.flock(self.file, fcntl.LOCK_EX | fcntl.LOCK_NB)
        except BlockingIOError:
            raise lists.Wrong("another rack is at work in %s" % lists.plain(out)) from None


def begin(asked):
    """The state of a run. What stops it here has begun nothing."""
    albums = lists.read(asked.list, lists.words_of(asked), asked.null)
    program = program_of(asked.program)
    check_settings(program, albums)
    out = os.path.abspath(asked.folder)
    asked.lock = Lock(out)
    return states.State.made(out, program, albums)


def ended(run):
    summary = summaries.Summary(run)
    sys.stdout.write(summary.text())
    sys.stdout.flush()
    return summary.status()


def note(text):
    print("rack: " + text, file=sys.stderr, flush=True)


def run_main(main):
    """Exit statuses of what goes wrong outside the albums."""
    sys.stdout.reconfigure(errors="backslashreplace")
    try:
        sys.exit(main())
    except lists.Wrong as error:
        note(str(error))
        sys.exit(2)
    except OSError as error:
        note("%s%s" % (error.strerror or error, ": " + lists.plain(os.fsdecode(error.filename)) if error.filename else ""))
        sys.exit(1)


def ranges(numbers):
    """Ascending numbers as 0-5,7."""
    text = []
    for n in numbers:
        if text and text[-1][1] == n - 1:
            text[-1][1] = n
        else:
            text.append([n, n])
    return ",".join("%d" % a if a == b else "%d-%d" % (a, b) for a, b in text)


def number_in(text, name):
    found = re.search(r"^%s\s*=\s*([0-9]+)" % name, text, re.MULTILINE)
    return int(found[1]) if found else None
