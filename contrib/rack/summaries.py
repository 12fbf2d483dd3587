"""What a run of a rack came to, and the exit status that says it: 0 all done, 3 some for a person, 1 some failed."""
import os
import re
import time

import states
from lists import plain


def grouped(count, one, many=None):
    return "%s %s" % (format(count, ","), one if count == 1 else many or one + "s")


def span(seconds):
    seconds = int(seconds + 0.5)
    return "%d:%02d:%02d" % (seconds // 3600, seconds // 60 % 60, seconds % 60)


def said(record):
    if record["status"] < 0:
        return "ended by signal %d" % -record["status"]
    lines = [line for line in record["said"].splitlines() if line]
    return plain("; ".join(lines)) if lines else "ended with status %d" % record["status"]


class Summary:
    def __init__(self, run):
        self.run = run
        self.albums = run.state.albums
        self.seconds = time.time() - run.began
        self.records = run.records()
        self.lines = []
        self.sort()

    def sort(self):
        self.converted, self.there, self.refused, self.failed = [], [], [], []
        for number in range(len(self.albums)):
            tries = self.records.get(number, [])
            done = [record for record in tries if states.is_done(record)]
            if done:
                (self.there if all(record["there"] for record in done) else self.converted).append(number)
            elif number in self.run.done_before:
                self.there.append(number)
            elif tries and states.is_for_a_person(tries[-1]):
                self.refused.append(number)
            else:
                self.failed.append(number)

    def say(self, line):
        self.lines.append(line)

    # ---- parts

    def say_album(self, word, number):
        tries = self.records.get(number, [])
        what = said(tries[-1]) if tries else "no task told of its end (%s)" % plain(self.run.state.folder)
        self.say("%-8s %s: %s (%s)" % (word, plain(self.albums[number]["told"]), what, grouped(len(tries), "try", "tries")))

    def say_again(self):
        """Albums that are done now, and of which a try failed or was lost."""
        for number in self.converted + self.there:
            tries = self.records.get(number, [])
            bad = [said(record) for record in tries if not states.is_done(record)]
            if any(record["restarts"] for record in tries):
                bad.append("put in the queue anew by Slurm")
            if bad:
                self.say("%-8s %s: %s; then done" % ("again", plain(self.albums[number]["told"]), "; ".join(bad)))

    def say_late(self):
        late = []
        for number in self.converted:
            due = self.albums[number]["due"]
            ended = min(record["ended"] for record in self.records[number] if states.is_done(record))
            if due is not None and ended > due:
                late.append((ended - due, number))
        if late:
            most, number = max(late)
            self.say("late: %s, the latest by %s: %s" % (grouped(len(late), "album"), span(most), plain(self.albums[number]["told"])))

    def say_speed(self):
        tries = [record for records in self.records.values() for record in records]
        cpu = sum(record["cpu"] for record in tries)
        music = sum(record["milliseconds"] for record in tries if states.is_done(record)) / 1000
        self.say("%.1f CPU seconds for %s of music, %.0f times real time on a processor; %s in all, %.0f times real time"
                 % (cpu, span(music), music / cpu if cpu else 0, span(self.seconds), music / self.seconds))

    def say_left_behind(self):
        """What tries that were killed could not take back: .NAME.wav. and six characters, beside where NAME.wav is."""
        folders = {os.path.dirname(os.path.join(self.run.state.out, album["name"], *(["x"] if not album["name"].endswith(".wav") else [])))
                   for album in self.albums}
        for folder in sorted(filter(os.path.isdir, folders)):
            for name in sorted(os.listdir(folder)):
                if re.fullmatch(r"\..*\.wav\.[a-z0-9]{6}", name, re.DOTALL):
                    self.say("left by a try that was killed, to be removed when nothing runs: %s" % plain(os.path.join(folder, name)))

    # ---- all

    def text(self):
        done = len(self.converted) + len(self.there)
        self.say("%s: %s done (%s converted, %s there already), %s refused, %s failed"
                 % (grouped(len(self.albums), "album"), *(format(n, ",") for n in (
                    done, len(self.converted), len(self.there), len(self.refused), len(self.failed)))))
        for number in self.refused:
            self.say_album("refused", number)
        for number in self.failed:
            self.say_album("failed", number)
        self.say_again()
        self.say_late()
        self.say_speed()
        self.say_left_behind()
        return "\n".join(self.lines) + "\n"

    def status(self):
        return 1 if self.failed else 3 if self.refused else 0
