"""Conversions beside the original's stored answers (crates/test_conversions/data)."""
import array
import pickle
import threading

from support import CUTOFFS, RATES, Case, chance, digests, flat, held, number, numpy, packed, patterned, rows, signed

import puigneht
from puigneht import Converter, Run, Stats


def opened(route, channels, decibels, taps=None):
    return Converter(RATES[route % 3], CUTOFFS[route // 3], channels, decibels, taps)


class Stored(Case):
    def run_of(self, row, length):
        route, channels, _, _, neighbours, pattern, seed = row[:7]
        sounds = [patterned(pattern, s, channels, n) for s, n in ((seed + 1, 4704 * channels), (seed, length), (seed + 2, 4704 * channels))]
        return Run(sounds[0] if neighbours & 1 else None, sounds[1], sounds[2] if neighbours & 2 else None)

    def test_conversions(self):
        """Every route, one to six channels, by every call."""
        headers = held("test_conversions", "data", "wav_headers")
        for row in rows("test_conversions", "data", "conversions"):
            route, channels, db, frames = row[:4]
            c, run = opened(route, channels, number(db)), self.run_of(row, row[3] * 4704 * row[1])
            samples, stats = c.convert_run(run)
            listed = flat(samples)
            self.assertEqual(digests(listed), row[7:9])
            self.assertEqual(list(stats.clipped), row[11:17])
            if numpy:
                self.assertEqual(samples.shape, (len(listed) // channels, channels))
            counts = array.array("Q", [77] * frames)
            for call in (c.convert, c.desk):
                out, told = call(run, counts=counts)
                self.assertEqual((bytes(out), told), (packed(listed), stats))
                self.assertEqual((list(counts) + [0, 0])[:2], row[17:19])
            if channels > 2:
                with self.refused(12):
                    c.convert_wav(run)
                continue
            place = 44 * (route % 3 * 8 + (1 - channels % 2) * 4 + frames % 4)
            out, told = c.convert_wav(run)
            self.assertEqual((bytes(out), told), (headers[place:place + 44] + packed(listed), stats))

    def test_filters(self):
        """A label's own taps, the reach, and how far over the samples are."""
        for row in rows("test_conversions", "data", "filters"):
            taps = [t if t < 1 << 31 else (1 << 31) - 1 - t for both in row[16:75] for t in (both >> 32, both & 0xFFFFFFFF)]
            settings = row[0], row[1], number(row[2]), taps[:row[15]] if row[15] <= 117 else taps[:117] + [0] * (min(row[15], 999) - 117)
            if row[7] not in (0, 4):
                with self.refused(row[7], None if row[7] in (3, 17) else (row[8], row[9])):
                    opened(*settings)
                continue
            c, run = opened(*settings), self.run_of(row, row[3])
            if row[7] == 4:
                with self.refused(4, (row[8], row[9])):
                    c.convert_run(run)
                continue
            samples, stats = c.convert_run(run)
            self.assertEqual(c.taps, tuple(settings[3]))
            self.assertEqual(c.reach, row[10])
            self.assertEqual(digests(flat(samples)), row[11:13])
            for k, (clips, low, high, mark) in enumerate(((row[13], *row[75:77], row[79] % 2), (row[14], *row[77:79], row[79] // 2))):
                self.assertEqual((stats.clipped[k], stats.lowest[k], stats.highest[k], stats.empty[k]), (clips, signed(low), signed(high), bool(mark)))

    def test_factors(self):
        for db, factor in rows("test_conversions", "data", "factors"):
            decibels = number(db)
            if -120 <= decibels <= 24:
                self.assertEqual(Converter(decibels=decibels).factor, number(factor))
                continue
            with self.refused(3) as told:
                Converter(decibels=decibels)
            self.assertIn(told.error.decibels, (decibels, told.error.decibels if decibels != decibels else decibels))

    def test_refused_settings(self):
        for route, channels, db, _, _, _, answer, first, second in rows("test_conversions", "data", "refused_settings"):
            with self.refused(3 if not -120 <= number(db) <= 24 else answer, (0, 0) if not -120 <= number(db) <= 24 else (first, second)):
                opened(route, channels, number(db))
        with self.refused(2, (88200, 2)) as told:
            opened(6, 6, 0.0)
        self.assertEqual(str(told.error), "refused 2: wide is for 176400 and 352800")

    def test_refused_lengths(self):
        c = Converter(channels=1)
        for call, before, frames, after, out, counts, answer, first, second in rows("test_conversions", "data", "refused_lengths"):
            run, room = Run(bytes(before), bytes(frames), bytes(after)), [0] * counts
            call = {1: lambda: c.convert_run(run, array.array("i", [0] * out)), 3: lambda: c.convert(run, bytearray(out), array.array("Q", room)),
                    4: lambda: c.desk(run, bytearray(out), array.array("Q", room))}.get(call)
            if call is None:
                continue
            if answer == 4 and (before != 4704 or after != 4704) and frames and frames % 4704 == 0:
                answer, second = (13, 0) if before != 4704 else (14, 0)
            with self.refused(answer, (first, second)):
                call()

    def test_changes(self):
        """Lists of changes, with built-in filters: each answer, and what the converter is after it."""
        tried = 0
        for row in rows("test_conversions", "data", "changes"):
            if row[4] or row[8] or number(row[3]) != 1.0 or number(row[2]) != 0.0:
                continue
            c = opened(row[0], row[1], number(row[2]))
            self.assertEqual([c.samples_per_frame, c.reach, c.frame_bytes], row[11:14])
            for k in range(14, 86, 12):
                route, db, factor, answer, first, second, at, *_ = row[k:k + 12]
                decibels = number(db)
                before = (c.rate, c.cutoff, c.decibels, c.samples_per_frame)
                if answer == 3 and -120 <= decibels <= 24:
                    break  # a factor that is not the decibels', which nobody can hand over here
                if not -120 <= decibels <= 24:
                    answer = 3  # the gain is made first
                if answer:
                    with self.refused(answer, (0, 0) if answer == 3 else (first, second)):
                        c.change(RATES[route % 3], CUTOFFS[route // 3], decibels)
                    self.assertEqual((c.rate, c.cutoff, c.decibels, c.samples_per_frame), before)
                    continue
                c.change(RATES[route % 3], CUTOFFS[route // 3], decibels)
                self.assertEqual((c.rate, c.cutoff, c.decibels), (RATES[at % 3], CUTOFFS[at // 3], decibels))
                self.assertEqual([c.samples_per_frame, c.reach, c.frame_bytes], row[k + 9:k + 12])
                tried += 1
        self.assertGreater(tried, 20)


class Figures(Case):
    def test_full_scale(self):
        full = b"\xff" * 4704
        samples, stats = Converter(channels=1).convert_run(Run(full, full, full))
        self.assertEqual((set(flat(samples)), stats.clipped[0], stats.highest[0]), ({8388607}, 1176, 8388608))
        samples, stats = Converter(channels=1, decibels=-20).convert_run(Run(full, full, full))
        self.assertEqual((set(flat(samples)), sum(stats.clipped)), ({838861}, 0))

    def test_numbers(self):
        c = Converter.open(176400, "low", 3, -1.5)
        self.assertEqual((c.rate, c.cutoff, c.channels, c.decibels, c.taps), (176400, "low", 3, -1.5, None))
        self.assertEqual((c.samples_per_frame, c.frame_bytes), (2352, 3 * 4704))
        before = c._record
        c.change(cutoff="wide")
        self.assertEqual((c.rate, c.cutoff, c.channels, c.decibels), (176400, "wide", 3, -1.5))
        self.assertEqual(before.numbers.cutoff, 1, "what a conversion may be reading is not written")
        c.change(rate=352800)
        c.change(decibels=2)
        self.assertEqual((c.rate, c.cutoff, c.decibels), (352800, "wide", 2.0))
        with self.refused(2, (88200, 2)):
            c.change(rate=88200)
        with self.refused(255) as told:
            c.change(rate=44100)
        self.assertEqual(str(told.error), "not understood: a rate of 44,100: there are 88,200, 176,400 and 352,800")
        self.assertEqual((c.rate, c.decibels), (352800, 2.0))

    def test_what_is_not_taken(self):
        for wrong, kind in [(dict(rate=-1), OverflowError), (dict(rate=88200 + 2**32), OverflowError), (dict(rate=88200.0), TypeError),
                            (dict(channels=2**64 + 2), OverflowError), (dict(cutoff="none"), ValueError), (dict(decibels="loud"), ValueError),
                            (dict(taps=[2**31]), OverflowError)]:
            with self.assertRaises(kind):
                Converter(**wrong)
        for settings, answer, sentence in [
                (dict(rate=44100), 255, "not understood: a rate of 44,100: there are 88,200, 176,400 and 352,800"),
                (dict(channels=0), 1, "refused 1: 0 channels: there may be 1 to 6"), (dict(channels=7), 1, "refused 1: 7 channels: there may be 1 to 6"),
                (dict(channels=256), 255, "not understood: 256 channels: there may be 1 to 6"),
                (dict(decibels=24.5), 3, "refused 3: the gain is not -120 to 24 decibels, but 24.5"),
                (dict(taps=[]), 17, "refused 17: a filter of 0 taps: it may have 1 to 117"),
                (dict(taps=[0] * 118), 17, "refused 17: a filter of 118 taps: it may have 1 to 117"),
                (dict(taps=[5]), 18, "refused 18: a filter's centre and twice its other taps are to sum to 16,777,216, and their sizes to at most 40,000,000")]:
            with self.refused(answer) as told:
                Converter(**settings)
            self.assertEqual(str(told.error), sentence)
        with self.refused(4, (4705, 0)) as told:
            Converter(channels=1).convert(bytes(4705))
        self.assertEqual(str(told.error), "refused 4: 4,705 bytes are not whole frames: a frame of 1 channel has 4,704 bytes")
        with self.refused(16) as told:
            Converter(channels=1).desk(bytes(9 * 4704))
        self.assertEqual(str(told.error), "refused 16: 9 frames: at most 8 at the listening desk")
        again = pickle.loads(pickle.dumps(told.error))
        self.assertEqual((str(again), again.number, again.data), (str(told.error), 16, told.error.data))


class Cuts(Case):
    def test_any_cut_joins(self):
        for rate, cutoff, channels in [(88200, "standard", 2), (176400, "low", 1), (352800, "wide", 3)]:
            c = Converter(rate, cutoff, channels, 3)
            frames = chance(rate, 6 * c.frame_bytes)
            uncut, stats = c.convert(frames)
            for count in (1, 4, 6, 50):
                joined, told = bytearray(), Stats()
                for run in c.runs(frames, count):
                    out, some = c.convert(run)
                    joined += out
                    told.join(some)
                self.assertEqual((joined, told), (uncut, stats))

    def test_what_is_cut(self):
        c = Converter(channels=1)
        frames = bytes([k for k in range(5) for _ in range(4704)])

        def cut(first, count, more=b""):
            run = c.cut(frames + more, first, count)
            return [None if it is None else (bytes(it[:1]), len(it)) for it in (run.before, run.frames, run.after)]

        self.assertEqual(cut(0, 5), [None, (b"\0", 5 * 4704), None])
        self.assertEqual(cut(1, 2), [(b"\0", 4704), (b"\1", 2 * 4704), (b"\3", 4704)])
        self.assertEqual(cut(4, 9), [(b"\3", 4704), (b"\4", 4704), None])
        self.assertEqual(cut(9, 9), [(b"\4", 4704), (b"", 0), None])
        self.assertEqual(cut(1, 2, b"xx"), [(b"\0", 4704), (b"\1", 2 * 4704 + 2), (b"\3", 4704)])
        self.assertEqual(cut(0, 0), [None, (b"", 0), (b"\0", 4704)])
        with self.assertRaises(ValueError):
            c.runs(frames, 0)
        samples, stats = c.convert_run(c.cut(b"", 0, 1))
        self.assertEqual((len(samples), stats), (0, Stats()))
        shared = bytearray(frames)
        run = c.cut(shared, 1, 1)
        shared[4704] = 9
        self.assertEqual(run.frames[0], 9, "what is cut is not copied")


class Threads(Case):
    def test_a_change_beside_conversions(self):
        """Conversions that are going on keep their settings, and threads may share a converter."""
        frames = chance(5, 40 * 4704)
        right = {rate: bytes(Converter(rate, channels=1).convert(frames)[0]) for rate in RATES}
        c, found = Converter(channels=1), []

        def work():
            for _ in range(5):
                found.append(bytes(c.convert(frames)[0]))

        threads = [threading.Thread(target=work) for _ in range(3)]
        for thread in threads:
            thread.start()
        for k in range(200):
            c.change(rate=RATES[k % 3])
        for thread in threads:
            thread.join()
        self.assertEqual(len(found), 15)
        self.assertLessEqual(set(found), set(right.values()))
