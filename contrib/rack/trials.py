"""What the trials of both racks share: albums, mishaps, and what must hold at the end."""
import json
import os
import re
import shutil
import subprocess
import sys

HERE = os.path.dirname(os.path.realpath(__file__))
ROOT = os.path.join(HERE, "..", "..")
REFUSED = "cut\nshort"
NAMES = ["killed", "crash", "with blanks", "two\nlines", "üäö", "6", "7", "8", "9", "10"]    # and one of tracks


class Trial:
    def __init__(self, folder, command):
        self.folder = os.path.abspath(folder)
        self.command = os.path.abspath(command)
        self.wrong = 0
        self.albums = os.path.join(self.folder, "albums")
        self.out = os.path.join(self.folder, "wavs")
        os.environ["TRIAL"] = self.trial = os.path.join(self.folder, "trial")
        if os.path.exists(self.folder):
            sys.exit("test: %s is there already" % self.folder)
        os.makedirs(self.albums)
        os.makedirs(self.trial)
        with open(os.path.join(self.trial, "real"), "w", encoding="utf-8") as file:
            file.write(self.command)
        self.make_albums()

    def path(self, *names):
        return os.path.join(self.albums, *names)

    def make_albums(self):
        chord = os.path.join(self.trial, "chord")
        subprocess.run(["cc", "-O2", os.path.join(ROOT, "tools", "chord.c"), "-o", chord, "-lm"], check=True)
        subprocess.run([chord, "2", self.path("6.dsf")], check=True)
        subprocess.run([chord, "40", self.path("killed.dsf")], check=True)
        shutil.copy(self.path("killed.dsf"), self.path("crash.dsf"))
        for name in NAMES[2:]:
            if name != "6":
                shutil.copy(self.path("6.dsf"), self.path(name + ".dsf"))
        os.mkdir(self.path("of tracks"))
        for name in ("10 last", "9 first"):
            shutil.copy(self.path("6.dsf"), self.path("of tracks", name + ".dsf"))
        with open(self.path("6.dsf"), "rb") as file:
            whole = file.read()
        with open(self.path(REFUSED + ".dsf"), "wb") as file:
            file.write(whole[:-1000])

    # ---- what must hold

    def expect(self, what, holds):
        print("%-7s %s" % ("right" if holds else "WRONG", what), flush=True)
        self.wrong += not holds

    def rack(self, program, *words):
        """What a rack prints, and its status."""
        command = [os.path.join(ROOT, "contrib", program, "rack"), "-p", os.path.join(HERE, "mishaps"), "-o", self.out, *words]
        done = subprocess.run(command, stdout=subprocess.PIPE, text=True, check=False)
        self.show(done.stdout)
        return done.stdout, done.returncode

    def show(self, text):
        print(re.sub("(?m)^", "    ", text.replace(self.folder + "/", "").rstrip("\n")), flush=True)

    def ends(self):
        with open(os.path.join(self.trial, "ends"), encoding="utf-8") as file:
            return [json.loads(line) for line in file]

    def verify(self, words, what):
        done = subprocess.run([self.command, "verify", "-q", "-j", "1", *words], stdout=subprocess.PIPE, text=True, check=False)
        self.expect("verify: %s" % what.replace("\n", "\\n"), done.returncode == 0 and done.stdout == "same\n")

    def verify_all(self, more=()):
        for name in [*NAMES, *more]:
            self.verify([self.path(name + ".dsf"), os.path.join(self.out, name + ".wav")], name)
        tracks = [self.path("of tracks", name + ".dsf") for name in ("9 first", "10 last")]
        self.verify(["-o", os.path.join(self.out, "of tracks"), *tracks], "of tracks")

    def places(self):
        """The WAV files as they are: the same file, last written at the same time."""
        found = {}
        for folder, _, files in os.walk(self.out):
            for name in files:
                if name.endswith(".wav"):
                    is_now = os.stat(os.path.join(folder, name))
                    found[os.path.join(folder, name)] = (is_now.st_ino, is_now.st_mtime_ns)
        return found

    def check_once(self):
        """One of 12 is refused."""
        made = [end["output"] for end in self.ends() if end["status"] == 0 and not end["there"]]
        self.expect("no album was converted twice (%d conversions)" % len(made), len(made) == len(set(made)) == 11)

    def check_resumed(self, program, *words):
        """Again, the upload being whole by now: it alone is converted."""
        shutil.copy(self.path("6.dsf"), self.path(REFUSED + ".dsf"))
        before, ends = self.places(), len(self.ends())
        text, status = self.rack(program, *words, self.albums)
        self.expect("again: the one that was refused is done", status == 0 and "12 albums: 12 done (1 converted, 11 there already)" in text)
        self.expect("again: no other was begun", len(self.ends()) == ends + 1)
        after = self.places()
        self.expect("again: no WAV file was touched", all(after[path] == place for path, place in before.items()))
        self.verify_all([REFUSED])

    def check_order(self, program, *words):
        """One at a time, they begin in the order of their dates; without a date, last."""
        lines = ["%s\tas=order/%s%s" % (self.path("6.dsf"), name, due) for name, due in (
            ("d", ""), ("c", "\tdue=2030-03-01"), ("a", "\tdue=2030-01-01T12:00"), ("b", "\tdue=2030-01-01\twith=-r 176400 -g -6"))]
        listed = os.path.join(self.folder, "list")
        with open(listed, "w", encoding="utf-8") as file:
            file.write("# four\n" + "\n".join(lines) + "\n")
        ends = len(self.ends())
        _, status = self.rack(program, *words, listed)
        began = [os.path.basename(end["output"]) for end in self.ends()[ends:]]
        self.expect("due first: %s" % " ".join(began), status == 0 and began == ["a.wav", "b.wav", "c.wav", "d.wav"])
        self.verify(["-g", "-6", self.path("6.dsf"), os.path.join(self.out, "order", "b.wav")], "b, with its settings")

    def check_half(self, program, *words):
        """An album of which a track is there already: with -n the other is made, and this one stays."""
        os.remove(os.path.join(self.out, "of tracks", "9 first.wav"))
        before = self.places()
        text, status = self.rack(program, *words, self.albums)
        self.expect("a track that was missing is made", status == 0 and "12 albums: 12 done (1 converted, 11 there already)" in text)
        after = self.places()
        self.expect("the other one was not touched", all(after[path] == place for path, place in before.items()))
        self.verify_all([REFUSED])

    def check_lists(self, program):
        """Lists that are turned down before anything begins, and one with albums that cannot be."""
        album = self.path("6.dsf")
        wrong = [b"", b"# none\n", *(text.encode() for text in (
            album + "\tdue=soon", album + "\tas=../6", album + "\tas=/6", album + "\twith=-f", album + "\twith=-r 192000",
            album + "\tdate=2030-01-01", album + "\n" + self.path("6.dsf"), album + "\n" + album + "\tas=6.WAV/a\n" + album + "\tas=6.wav",
            self.path("of tracks") + "\n" + album + "\tas=of tracks/6", album + "\\q"))]
        listed = os.path.join(self.folder, "list")
        ends = len(self.ends())
        for text in wrong:
            with open(listed, "wb") as file:
                file.write(text)
            self.expect("turned down: %r" % text.decode().replace(self.folder, ""), self.rack(program, listed) == ("", 2))
        self.expect("nothing was begun", len(self.ends()) == ends)
        os.mkdir(self.path("empty"))
        with open(listed, "w", encoding="utf-8") as file:
            file.write("%s\r\n%s\r\n%s\tas=at\\tlast\r\n" % (self.path("none.dsf"), self.path("empty"), album))
        text, status = self.rack(program, listed)
        self.expect("one that is not there fails three times, an empty folder is for a person", status == 1
                    and "3 albums: 1 done (1 converted, 0 there already), 1 refused, 1 failed\n" in text
                    and "(3 tries)" in text and "a folder without a DSF file (1 try)" in text)
        self.verify([album, os.path.join(self.out, "at\tlast.wav")], "at\\tlast")

    def end(self):
        print("%d wrong" % self.wrong)
        sys.exit(self.wrong > 0)
