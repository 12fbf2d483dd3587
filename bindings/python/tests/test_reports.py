"""Statistics, sheets, overs and turns beside stored answers (stored, crates/test_reports/data)."""
import array
import copy
import itertools
import pickle
import random
import threading

from support import Case, ROOT, held, rows

from puigneht import Converter, Overs, Run, Stats, sheet, turns
from puigneht import _calls

LOW, HIGH = -8388608, 8388607


def stats_of(row):
    return Stats._of(_calls.Stats.from_buffer_copy(array.array("Q", row)))


def overs_of(samples):
    """The studio rule, by runs of equal samples."""
    return sum(1 for value, run in itertools.groupby(samples) if value in (LOW, HIGH) and len(list(run)) >= 3)


class Statistics(Case):
    def test_joins(self):
        for row in rows("joins"):
            a, b, both = (stats_of(row[k:k + 24]) for k in (0, 24, 48))
            told = a.copy()
            held_before = told._record
            self.assertEqual(told.join(b), both)
            self.assertEqual(bytes(held_before), bytes(a._record), "what another thread may be reading is not written")
            self.assertIs(b.join(a), b)
            self.assertEqual(b, both)

    def test_sheets(self):
        texts, tried = held("sheets"), 0
        for row in rows("statistics"):
            channels, room, answer = row[0], row[1], row[26]
            if answer == 7:
                continue
            if answer:
                with self.refused(answer):
                    sheet(stats_of(row[2:26]), channels)
                continue
            text = texts[row[29]:row[29] + row[30]].decode()
            self.assertEqual(stats_of(row[2:26]).sheet(channels), text)
            tried += 1
        self.assertGreater(tried, 20)
        for channels in (0, 7, 255, 256, 258, 1000):
            with self.refused(1) as told:
                Stats().sheet(channels)
            self.assertEqual(str(told.error), f"refused 1: {channels:,} channels: there may be 1 to 6")

    def test_as_values(self):
        full = b"\xff" * 4704
        _, stats = Converter(channels=1, decibels=6).convert_run(Run(full, full, full))
        self.assertEqual((stats.empty, stats.clipped[:2], stats.lowest[1]), ((False,) + (True,) * 5, (1176, 0), 0))
        for again in (copy.copy(stats), copy.deepcopy(stats), pickle.loads(pickle.dumps(stats)), stats.copy()):
            self.assertEqual(again, stats)
            again.join(stats)
            self.assertNotEqual(again, stats)
        self.assertEqual((Stats() == 5, Stats() != Stats(), repr(Stats())), (False, False, "<Stats: of no samples>"))
        self.assertEqual(repr(stats), f"<Stats: 1176 clipped, {stats.lowest[0]} to {stats.highest[0]}>")
        for number in range(24):  # each of them counts
            self.assertNotEqual(stats_of([k == number for k in range(24)]), stats_of([0] * 24))
        with self.assertRaises(TypeError):
            hash(stats)

    def test_turned_down(self):
        """By what is told nothing clips, and by two tenths less something does."""
        full, none = b"\xff" * 4704, b"\0" * 4704
        self.assertEqual(Stats().turn_down, 0.0)
        for byte, decibels in [(full, 0), (full, 6), (full, 23.99), (none, 0), (none, 0.05), (none, 6.1), (full, -1), (none, -90)]:
            run = Run(byte, byte, byte)
            _, stats = Converter(channels=1, decibels=decibels).convert_run(run)
            down = stats.turn_down
            self.assertEqual(sum(Converter(channels=1, decibels=decibels - down).convert_run(run)[1].clipped), 0)
            self.assertEqual(down > 0, stats.clipped[0] > 0)
            if down > 0.1:
                self.assertGreater(sum(Converter(channels=1, decibels=decibels - down + 0.2).convert_run(run)[1].clipped), 0)
                self.assertEqual(float(f"{down:.1f}"), down)

    def test_threads_join(self):
        full = b"\xff" * 4704
        _, one = Converter(channels=1, decibels=6).convert_run(Run(full, full, full))
        stats = Stats()
        threads = [threading.Thread(target=lambda: [stats.join(one) for _ in range(500)]) for _ in range(4)]
        for thread in threads:
            thread.start()
        for thread in threads:
            thread.join()
        self.assertEqual(stats.clipped[0], 4 * 500 * 1176)


class OversCounted(Case):
    def signal(self, source, channels):
        held, samples = [0] * channels, []
        for _ in range(source.randrange(1, 80)):
            for c in range(channels):
                if source.randrange(3) == 0:
                    held[c] = source.choice([HIGH, HIGH, LOW, HIGH - 1, LOW + 1, 0])
            samples += held
        return samples

    def test_cut_anywhere(self):
        source, found = random.Random(1), 0
        for _ in range(150):
            channels = source.randrange(1, 7)
            samples = self.signal(source, channels)
            right = tuple(overs_of(samples[c::channels]) for c in range(channels))
            uncut, cut, at, told = Overs(channels), Overs(channels), 0, [0] * channels
            self.assertEqual(uncut.count(array.array("i", samples)), right)
            while at < len(samples):
                end = at + channels * source.randrange(0, 9)
                told = [a + b for a, b in zip(told, cut.count(array.array("i", samples[at:end])))]
                at = end
            self.assertEqual((cut.counts, tuple(told), cut.progress), (right, right, uncut.progress))
            found += cut.total
        self.assertGreater(found, 100)

    def test_pieces_in_any_order(self):
        """Three samples before a piece tell what is in progress there."""
        source = random.Random(2)
        for _ in range(60):
            samples = array.array("i", self.signal(source, 2) + self.signal(source, 2) + [0] * 8)
            at = 2 * source.randrange(3, len(samples) // 2)
            lead, right = Overs(2), Overs(2)
            lead.count(samples[at - 6:at])
            rest = lead.from_here()
            self.assertEqual((rest.counts, rest.progress), ((0, 0), lead.progress))
            first = Overs(2)
            first.count(samples[:at])
            rest.count(samples[at:])
            right.count(samples)
            self.assertEqual(tuple(a + b for a, b in zip(first.counts, rest.counts)), right.counts)

    def test_what_is_not_taken(self):
        overs = Overs(2)
        overs.count(array.array("i", [HIGH] * 10))
        before = overs.counts, overs.progress
        with self.assertRaises(ValueError):
            overs.count(array.array("i", [HIGH] * 3))
        self.assertEqual((overs.counts, overs.progress), before)
        self.assertEqual((overs.counts, overs.total, overs.channels, repr(overs)), ((1, 1), 2, 2, "<Overs: (1, 1)>"))
        for channels in (0, 7):
            with self.assertRaises(ValueError):
                Overs(channels)


class Boards(Case):
    def test_stored(self):
        tried = 0
        for path in sorted((ROOT / "crates" / "test_reports" / "data").glob("board*")):
            text, answer = path.read_bytes().split(b"=", 1)
            words = text.split()
            if not all(w.isdigit() for w in words) or len(words) % 2 == 0 or not text.endswith(b"\n") or any(len(w) > 19 for w in words):
                continue
            albums = [(int(a), int(b)) for a, b in zip(words[1::2], words[2::2])]
            if answer == b"refused 19\n":
                with self.refused(19) as told:
                    turns(albums, int(words[0]))
                self.assertIn("1 to 8 albums of 1 to 540,000 frames", str(told.error))
            elif answer.startswith(b"album"):
                lines = [line.split() for line in answer.decode().splitlines()[:-1]]
                self.assertEqual(turns(albums, int(words[0])), [(int(line[3]), int(line[5])) for line in lines])
                tried += 1
        self.assertGreater(tried, 50)

    def test_numbers(self):
        self.assertEqual(turns([(3, 1), (1, 1)], 2)[0]._fields, ("finish", "late"))
        for albums, turn in ([], 1), ([(1, 1)] * 9, 1), ([(1, 1)], 0):
            with self.refused(19):
                turns(albums, turn)
        with self.assertRaises(OverflowError):
            turns([(-1, 1)], 1)
