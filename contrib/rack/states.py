"""What a rack knows of its albums: a folder of its own below that of the WAV files, .rack/NAME, seen by all machines.

`albums` has an album a line, due first; `records` a file a try, written whole by the task at its end. A list with other
albums or settings has another folder, so that nothing is taken for what it is not.
"""
import hashlib
import json
import os
import time

# The command's exit statuses: 2, 3 and 5 say what no second try would change.
DONE, THERE = 0, 4
FOR_A_PERSON = (2, 3, 5)


def write_whole(path, text):
    beside = "%s.%d.new" % (path, os.getpid())
    with open(beside, "w", encoding="utf-8") as file:
        file.write(text)
        file.flush()
        os.fsync(file.fileno())
    os.replace(beside, path)


def is_done(record):
    return record["status"] in (DONE, THERE) and all(map(os.path.exists, record["outputs"]))


def is_for_a_person(record):
    return record["status"] in FOR_A_PERSON


class State:
    def __init__(self, folder):
        self.folder = folder
        self.records_folder = os.path.join(folder, "records")
        with open(os.path.join(folder, "albums"), encoding="utf-8") as file:
            self.out, self.program, *self.albums = map(json.loads, file)

    @classmethod
    def made(cls, out, program, albums):
        text = "".join(json.dumps(what) + "\n" for what in [out, program, *albums])
        name = hashlib.sha256(text.encode()).hexdigest()[:12]
        folder = os.path.join(out, ".rack", name)
        os.makedirs(os.path.join(folder, "records"), exist_ok=True)
        os.makedirs(os.path.join(folder, "logs"), exist_ok=True)
        if not os.path.exists(os.path.join(folder, "albums")):
            write_whole(os.path.join(folder, "albums"), text)
        return cls(folder)

    # ---- records

    def write(self, record):
        name = "%d.%d.%d" % (record["number"], time.time_ns(), os.getpid())
        write_whole(os.path.join(self.records_folder, name), json.dumps(record))

    def record_names(self):
        return {name for name in os.listdir(self.records_folder) if not name.endswith(".new")}

    def records(self, names):
        """The records of some names, by album, in the order of their ends."""
        found = {}
        for name in names:
            with open(os.path.join(self.records_folder, name), encoding="utf-8") as file:
                record = json.load(file)
            found.setdefault(record["number"], []).append(record)
        for records in found.values():
            records.sort(key=lambda record: record["ended"])
        return found


class Run:
    """One run of a rack: what was done before stays done; of the rest the tries of this run count."""

    def __init__(self, state):
        self.state = state
        self.began = time.time()
        self.before = state.record_names()
        earlier = state.records(self.before)
        self.done_before = {n for n, records in earlier.items() if any(map(is_done, records))}

    def records(self):
        return self.state.records(self.state.record_names() - self.before)

    def left(self):
        """The numbers of the albums that are to be tried (again), due first."""
        now = self.records()
        return [n for n in range(len(self.state.albums)) if n not in self.done_before
                and not any(is_done(record) for record in now.get(n, ()))
                and not (n in now and is_for_a_person(now[n][-1]))]

    def left_when_told(self, tried, patience=10):
        """The same, after a task's end: over a network its record may be seen seconds later."""
        for _ in range(patience):
            now = self.records()
            if all(n in now for n in tried):
                break
            time.sleep(1)
        return self.left()
