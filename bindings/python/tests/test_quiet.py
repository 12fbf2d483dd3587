"""What no sample shows: files put on the disk, files closed, threads, memory, and what a slip leaves as it should be.
"""
import concurrent.futures
import contextlib
import io
import os
from unittest import mock

from support import Case, dsf

import puigneht.__main__ as program
from puigneht import Album, Stats, _calls


def open_files():
    return len(os.listdir("/proc/self/fd"))


class Quiet(Case):
    def setUp(self):
        self.path = self.folder()
        self.tracks = [self.path / "1.dsf", self.path / "2.dsf"]
        for k, track in enumerate(self.tracks):
            track.write_bytes(dsf(2, 5000 + 4704 * k, seed=k))
        self.names = [self.path / "1.wav", self.path / "2.wav"]

    def said(self, *words):
        """The program's status, and what it says."""
        text = io.StringIO()
        with contextlib.redirect_stderr(text):
            return program.main([str(word) for word in words]), text.getvalue()

    def test_all_are_on_the_disk_before_one_is_named(self):
        synced, named, sync, link = [], [], os.fsync, os.link
        with mock.patch("os.fsync", lambda file: (synced.append(os.fstat(file).st_ino), sync(file))), \
                mock.patch("os.link", lambda old, new: (named.append(len(synced)), link(old, new))), Album(self.tracks) as album:
            album.write_tracks(self.names)
        self.assertEqual(sorted(synced), sorted(os.stat(name).st_ino for name in self.names))
        self.assertEqual(named, [2, 2])

    def test_files_are_closed(self):
        before = open_files()
        with Album(self.tracks) as album:
            album.write_tracks(self.names)
        self.assertEqual(open_files(), before)
        with mock.patch("os.pwrite", side_effect=OSError(28, "No space left on device")), Album(self.tracks) as album:
            with self.assertRaises(OSError):
                album.write_wav(self.path / "all.wav")
        self.assertEqual(open_files(), before)
        self.tracks[1].write_bytes(b"no DSF file")
        with self.refused(9) as told:
            Album(self.tracks)
        self.assertEqual(open_files(), before, told.error.sentence)

    def test_where_there_are_no_links_what_came_meanwhile_stays(self):
        def unknown(old, new):
            raise PermissionError(1, "Operation not permitted")

        def came(old, new):
            self.names[0].write_bytes(b"another's")
            unknown(old, new)

        with mock.patch("os.link", came), Album(self.tracks[0]) as album, self.assertRaises(FileExistsError):
            album.write_wav(self.names[0])
        self.assertEqual(self.names[0].read_bytes(), b"another's")
        with mock.patch("os.link", unknown), Album(self.tracks[0]) as album:
            album.write_wav(self.names[1])
        self.assertEqual(sorted(os.listdir(self.path)), ["1.dsf", "1.wav", "2.dsf", "2.wav"])

    def threads(self, work):
        """How many threads each of the calls asked for."""
        asked, pool = [], concurrent.futures.ThreadPoolExecutor
        with mock.patch("concurrent.futures.ThreadPoolExecutor", lambda count: (asked.append(count), pool(count))[1]):
            work()
        return asked

    def test_threads(self):
        with Album(self.tracks[0]) as album:
            self.assertEqual(self.threads(lambda: album.samples(threads=3)), [3])
            self.assertEqual(self.threads(album.samples), [len(os.sched_getaffinity(0))])
            self.assertEqual(self.threads(lambda: album.write_wav(self.names[0], threads=2)), [2])
        self.assertEqual(self.threads(lambda: self.said("-j", 5, self.tracks[0], self.names[1])), [5])

    def test_no_piece_is_begun_after_one_that_failed(self):
        long = self.path / "long.dsf"
        long.write_bytes(dsf(1, 4704 * 128 * 6))
        begun = []

        def work(number, memory):
            begun.append(number)
            raise OSError(5, "Input/output error")

        with Album(long) as album:
            self.assertEqual(len(album), 6)
            with self.assertRaises(OSError):
                album._each(work, 1, None)
        self.assertLess(len(begun), 6)

    def test_memory_of_a_short_album(self):
        one = dsf(2, 4704)
        with Album(one) as album:
            # a frame's two channels, as much again for its place, blocks at both ends, and its bytes of samples
            self.assertLessEqual(album.memory, 4 * 4704 + 4 * 4096 + 1176 * 6)
            self.assertEqual(len(album.piece(0, bytearray(album.memory)).bytes), 1176 * 6)

    def test_the_track_of_a_refused_header(self):
        tracks = [dsf(6, 5000, seed=k) for k in range(3)]
        with Album(tracks) as album, self.refused(12) as told:
            album.header(2, "wav")
        self.assertEqual(told.error.track, 2)

    def test_turned_down_by_exact_arithmetic(self):
        """The least tenths of a decibel, k, so that a number and a half are at most the end × 10^(k / 200)."""
        for end, sign in ((8388607, 1), (8388608, -1)):
            for k in range(1, 240):
                near = int(end * 10 ** (k / 200))
                for number in (near - 1, near, near + 1):
                    want = next(t for t in range(k - 1, k + 3) if (2 * number + 1) ** 200 <= (2 * end) ** 200 * 10 ** t)
                    made = _calls.Stats(empty=(0,) + (1,) * 5)
                    (made.highest if sign > 0 else made.lowest)[0] = sign * number
                    self.assertEqual(round(10 * Stats._of(made).turn_down), want, sign * number)

    def test_what_cannot_be_read_is_no_refusal(self):
        with mock.patch("puigneht._sources.Source.read", return_value=False):
            status, text = self.said(self.tracks[0], self.names[0])
        self.assertEqual((status, self.names[0].exists()), (1, False), text)
        self.assertEqual(self.said(self.path, self.names[0])[0], 1)
