"""Albums beside stored answers, which document 01's formulas, Python's `wave` and the original gave."""
import array
import hashlib
import mmap
import os
import random
import struct
import sys
import threading
import wave
from unittest import mock

from support import CUTOFFS, FRAME, Case, dsf, files, flat, generated, held, numpy, packed, rows, sound

import puigneht
from puigneht import Album, Converter, Stats


def stored():
    """Rate, cutoff, decibels, file, refusal, numbers, WAV file, sheet, sentence."""
    data = held("album_bytes")
    for row in rows("albums"):
        rate, cutoff, db, length, answer, first, second = row[:7]
        file, wav, sheet, sentence = (data[at:at + n] for at, n in zip(row[14::2], row[15::2]))
        if length < 1 << 20:
            yield rate, CUTOFFS[cutoff], db - 120, file[:length].ljust(length, b"\0"), answer, row[7:14], wav, sheet.decode(), sentence.decode()


def plain(rate, channels, data):
    """Python's header."""
    size = 3 * channels
    return struct.pack("<4sI4s4sIHHIIHH4sI", b"RIFF", 36 + data + data % 2, b"WAVE", b"fmt ", 16, 1, channels, rate, rate * size, size, 24, b"data", data)


def put_together(album, wave, order=None):
    out = bytearray(wave.length)
    out[:len(wave.head)] = wave.head
    for number in order or range(len(album)):
        piece = album.piece(number)
        data, places = album.write(wave, piece)
        assert len(places) == len(data)
        out[places.start:places.stop] = data
    return bytes(out)


class Stored(Case):
    def test_files_of_one(self):
        folder, accepted, refused = self.folder(), 0, 0
        for k, (rate, cutoff, db, file, answer, numbers, wav, sheet, sentence) in enumerate(stored()):
            path = folder / f"{k}.dsf"
            path.write_bytes(file)
            if answer == 12:  # more than two channels, which the plain header does not take
                with Album(file, rate, cutoff, db) as album, self.refused(12):
                    album.header(format="wav")
                continue
            if answer:
                with self.refused(answer) as told:
                    Album([file, path][k % 2], rate, cutoff, db)
                refused += 1
                if answer not in (3, 9, 11):
                    self.assertEqual(str(told.error), sentence.rstrip("\n"))
                continue
            channels, samples, frames, data, size, filled, pieces = numbers
            with Album(file, rate, cutoff, db) as album:
                self.assertEqual((album.channels, album.frames, album.data_bytes, album.filled, len(album)), (channels, frames, data, filled, pieces))
                self.assertEqual(put_together(album, album.header()), wav)
                found, stats = album.samples(threads=2)
                self.assertEqual(packed(flat(found)), wav[44:])
                self.assertEqual(stats.sheet(channels), sheet)
            with Album(path, rate, cutoff, db) as album:
                told = album.write_wav(folder / f"{k}.wav", threads=1 + k % 3)
                self.assertEqual(((folder / f"{k}.wav").read_bytes(), told), (wav, stats))
            accepted += 1
        self.assertGreater(accepted, 5)
        self.assertGreater(refused, 10)

    def test_long_albums_as_tracks(self):
        """Cut into tracks, of both bit orders and with metadata, beside what the original gave for the uncut ones."""
        for case, _, digest, sheet in list(generated.stored())[1::5]:
            source, folder = random.Random(case.seed), self.folder()
            sounds, length = generated.sounds(case), case.samples // 8
            at = source.randrange(1, length - 9)
            places = [0, *sorted({at, at + 1, at + 5, 128 * FRAME, source.randrange(1, length)}), length]
            tracks = []
            for k, (begin, end) in enumerate(zip(places, places[1:])):
                metadata = source.choice([0, 3, 500])
                tracks.append(files.laid_out([s[begin:end] for s in sounds], source.choice([1, 8]), 8 * (end - begin), metadata) + bytes(metadata))
            (folder / "0.dsf").write_bytes(tracks[0])
            with Album([folder / "0.dsf", *tracks[1:]], case.rate, CUTOFFS[case.cutoff], case.db) as album:
                stats = album.write_tracks([folder / f"{k}.wav" for k in range(len(tracks))], threads=2)
                self.assertEqual(stats.sheet(case.channels), sheet)
                found = [(folder / f"{k}.wav").read_bytes() for k in range(len(tracks))]
                joined, every = b"", 352800 // case.rate
                for k, (begin, end) in enumerate(zip(places, places[1:])):
                    rows = range(-(-begin // every), -(-end // every))
                    data = len(rows) * 3 * case.channels
                    self.assertEqual(album.track(k), rows)
                    self.assertEqual(album.header(k).head, plain(case.rate, case.channels, data))
                    self.assertEqual(found[k][:44], plain(case.rate, case.channels, data))
                    self.assertEqual(found[k][44 + data:], bytes(data % 2))
                    joined += found[k][44:44 + data]
                done = []
                album.write_wav(folder / "all.wav", threads=3, progress=lambda *both: done.append(both))
                self.assertEqual(done, [(k + 1, len(album)) for k in range(len(album))])
                whole = (folder / "all.wav").read_bytes()
                self.assertEqual(hashlib.sha256(whole).hexdigest(), digest)
                self.assertTrue(whole[44:].startswith(joined))
                samples, told = album.samples(threads=2)
                self.assertEqual(told, stats)
                self.assertEqual(puigneht.wav.pack(samples), whole[44:])

    def test_parts(self):
        with Album(dsf(1, 3 * FRAME + 1)) as album:
            self.assertEqual(album.part(1, 0), range(0, 1))
            self.assertEqual(len(album.part(0, 0)) + len(album.part(65, 0)) + len(album.part(3, 3)), 0)
        with Album(dsf(1, 400 * FRAME)) as album:
            self.assertEqual([list(album.part(3, k)) for k in range(3)], [[0], [1], [2, 3]])


class Kinds(Case):
    def test_one_to_six_channels(self):
        """A header that names loudspeakers, and samples that are those of the frames in memory."""
        for channels in range(1, 7):
            length = 2 * FRAME + 99
            with Album(dsf(channels, length, bits=8), 176400, "wide", -3.5) as album:
                sounds = [(sound(1 + 10 * c, length) + b"\x69" * FRAME)[:3 * FRAME] for c in range(channels)]
                frames = bytes(b for at in zip(*sounds) for b in at)
                right, stats = Converter(176400, "wide", channels, -3.5).convert_run(frames)
                found, told = album.samples()
                self.assertEqual((flat(found), told), (flat(right), stats))
                head = album.header()
                self.assertEqual((len(head.head), head.data, head.pad, head.length), (44 if channels < 3 else 68, album.data_bytes, 0, len(head.head) + album.data_bytes))
                if channels > 2:
                    mask = {3: 0x7, 4: 0x33, 5: 0x37, 6: 0x3F}[channels]
                    self.assertEqual(struct.unpack("<H", head.head[20:22])[0], 0xFFFE)
                    self.assertEqual(struct.unpack("<I", head.head[40:44])[0], mask)
                    with self.refused(12, (channels, album.data_bytes)) as told:
                        album.header(format="wav")
                    self.assertEqual(str(told.error), f"refused 12: {channels} channels: the WAV file takes one or two")
                self.assertEqual(album.header(format="rf64").head[:4], b"RF64")
                for wave in (head, album.header(format="rf64")):
                    self.assertEqual(put_together(album, wave), wave.head + packed(flat(right)))
                self.assertEqual(album.channel_type, {1: 1, 2: 2, 3: 3, 4: 4, 5: 6, 6: 7}[channels])

    def test_taps(self):
        taps = [1 << 23, 1 << 22]
        with Album(dsf(1, FRAME), taps=taps) as album:
            self.assertEqual(album.converter.taps, tuple(taps))
            right = Converter(channels=1, taps=taps).convert_run(sound(1, FRAME))
            self.assertEqual(flat(album.samples()[0]), flat(right[0]))

    def test_runs(self):
        with Album([dsf(2, 130 * FRAME, seed=3, loud=True), dsf(2, 127 * FRAME + 5, seed=4)], 88200, "low", 6) as album:
            memory, joined, stats = bytearray(album.memory), [], Stats()
            for number in range(len(album)):
                run = album.run(number, memory)
                samples, some = album.converter.convert_run(run)
                joined += flat(samples)
                stats.join(some)
            found, told = album.samples()
            self.assertEqual((joined, stats), (flat(found), told))
            self.assertEqual([p.samples().tolist() for p in album][0] if not numpy else [flat(p.samples()) for p in album][0], joined[:2 * 1176 * 128])
            if numpy:
                self.assertEqual((found.dtype, found.shape), (numpy.int32, (258 * 1176, 2)))
            else:
                self.assertEqual((type(found), found.typecode), (array.array, "i"))

    def test_planned(self):
        with Album([dsf(1, 5), dsf(1, 300 * FRAME)]) as album:
            waves = [album.header(k) for k in range(2)]
            for number in range(len(album)):
                plan, piece = album.planned(number), album.piece(number)
                self.assertEqual((plan.first, plan.count, plan.place, plan.length), (piece.first, piece.count, piece.place, piece.length))
                self.assertEqual((len(plan.bytes), plan.stats, piece.length), (0, Stats(), len(piece.bytes)))
                for wave in waves:
                    self.assertEqual(album.write(wave, plan)[1], album.write(wave, piece)[1])

    def test_memory(self):
        with Album([dsf(2, 140 * FRAME + 7), dsf(2, 140 * FRAME)], 352800) as album:
            memory, most = bytearray(album.memory), 0
            for number in range(len(album)):
                piece = album.piece(number, memory)
                self.assertEqual(bytes(piece.bytes), bytes(album.piece(number).bytes))
                with self.refused(7) as told:
                    album.piece(number, bytearray(10))
                self.assertEqual(told.error.data[0], 10)
                self.assertIn("memory of 10 bytes, where", str(told.error))
                need = told.error.data[1]
                most = max(most, need)
                album.piece(number, bytearray(need))
                with self.refused(7, (need - 1, need)):
                    album.piece(number, bytearray(need - 1))
            self.assertLessEqual(most, album.memory)
            self.assertLess(album.memory, 6_500_000)
            with self.assertRaises(BufferError):
                album.piece(0, bytes(album.memory))
            with self.assertRaises(TypeError):
                album.piece(0, array.array("i", [0] * album.memory))


class RefusedAlbums(Case):
    def test_sentences(self):
        good, tall = dsf(2, 50), dsf(3, 50)
        for tracks, settings, answer, track, sentence in [
                ([b"RIFF"], {}, 9, 0, "refused 9: not a DSF file as Sony's document lays it out: it has 4 bytes, and a header has 92"),
                ([good, good[:-1]], {}, 11, 1, "refused 11: the file says 8,284 bytes and has 8,283: an incomplete upload?"),
                ([good, good, tall], {}, 9, 2, "refused 9: its channel type is 3 (3 channels), and the first track's 2 (stereo)"),
                ([good], dict(cutoff="wide"), 2, 0, "refused 2: wide is for 176400 and 352800"),
                ([good], dict(decibels=25), 3, 0, "refused 3: the gain is not -120 to 24 decibels, but 25"),
                ([good, b""], dict(decibels=25), 3, 0, "refused 3: the gain is not -120 to 24 decibels, but 25"),
                ([good], dict(taps=[]), 17, 0, "refused 17: a filter may have 1 to 117 taps"),
                ([good], dict(rate=44100), 255, 0, "not understood: a rate of 44,100: there are 88,200, 176,400 and 352,800"),
                ([], {}, 255, 0, "not understood: 0 tracks: an album has 1 to 99"),
                ([good] * 99 + ["none.dsf"], {}, 255, 0, "not understood: 100 tracks: an album has 1 to 99")]:
            with self.refused(answer) as told:
                Album(tracks, **settings)
            self.assertEqual((str(told.error), told.error.track), (sentence, track))
        with self.refused(9) as told:
            Album([good, tall])
        self.assertEqual((told.error.field, told.error.data), ((48, 3 + (3 << 32), 2 + (2 << 32)), (0, 0)))
        with self.refused(11) as told:
            Album([good[:-1]])
        self.assertEqual(told.error.field, (12, 8284, 8283))
        Album([good] * 99).close()

    def test_too_long(self):
        """By headers alone: files that have no bytes behind them."""
        folder, samples = self.folder(), 8 * FRAME * 300000
        for name in "ab":
            with open(folder / name, "wb") as file:
                head = files.header(1, 8, samples)
                file.write(head)
                file.truncate(files.stated(head))
        with self.refused(5, (600000, 0)) as told:
            Album([folder / "a", folder / "b"])
        self.assertEqual((str(told.error), told.error.track), ("refused 5: 600,000 frames with the tracks before it: at most 540,000 (two hours) are converted", 1))

    def test_what_there_is_not(self):
        with Album([dsf(1, 9)]) as album:
            for number in (1, 2**64 - 1):
                for call in (album.piece, album.planned, album.run):
                    with self.refused(5, (number, 0)) as told:
                        call(number)
                    self.assertEqual(str(told.error), f"refused 5: the album has no piece {number:,}: they are counted from 0")
            with self.refused(5, (1, 0)) as told:
                album.header(1)
            self.assertEqual(str(told.error), "refused 5: the album has no track 1: they are counted from 0")
            for number in (-1, 1):
                with self.assertRaisesRegex(IndexError, f"^the album has no track {number}: they are counted from 0$"):
                    album.track(number)
            with self.assertRaises(OverflowError):
                album.piece(-1)
            with self.assertRaises(ValueError):
                album.header(format="flac")

    def test_a_track_that_shrinks(self):
        folder, file = self.folder(), dsf(2, 300 * FRAME)
        (folder / "a.dsf").write_bytes(file)
        with Album([dsf(2, 9), folder / "a.dsf"]) as album:
            os.truncate(folder / "a.dsf", 100 * 2 * FRAME)
            with self.refused(254) as told:
                album.write_wav(folder / "a.wav")
            self.assertEqual((str(told.error), told.error.track), ("the file cannot be read", 1))
            with self.refused(254):
                album.samples()
        self.assertEqual(os.listdir(folder), ["a.dsf"])

    def test_paths(self):
        folder = self.folder()
        with self.assertRaises(FileNotFoundError):
            Album([dsf(1, 9), folder / "none.dsf"])
        with self.assertRaises(TypeError):
            Album(5)
        with self.assertRaises(TypeError):
            Album([array.array("i", [1, 2, 3])])
        read, write = os.pipe()
        try:
            with self.assertRaises(OSError):
                Album(f"/dev/fd/{read}")
        finally:
            os.close(read)
            os.close(write)
        (folder / "a.dsf").write_bytes(dsf(1, 9))
        before = len(os.listdir("/proc/self/fd"))
        try:
            Album([folder / "a.dsf", folder / "none.dsf"])
            self.fail("a track that is not there")
        except FileNotFoundError:  # which still holds what was opened
            self.assertEqual(len(os.listdir("/proc/self/fd")), before)
        with self.refused(9):
            Album([folder / "a.dsf", b""])
        with Album(str(folder / "a.dsf")):
            self.assertEqual(len(os.listdir("/proc/self/fd")), before + 1)
        self.assertEqual(len(os.listdir("/proc/self/fd")), before)
        with open(folder / "a.dsf", "rb") as file:
            with mmap.mmap(file.fileno(), 0, access=mmap.ACCESS_READ) as mapped:
                with Album(mapped) as album, Album(folder / "a.dsf") as other:
                    self.assertEqual(bytes(album.piece(0).bytes), bytes(other.piece(0).bytes))
        with self.assertRaises(ValueError):
            album.piece(0)
        with self.assertRaises(ValueError):
            other.piece(0)


class WholeOrNot(Case):
    def setUp(self):
        self.path = self.folder()
        self.album = Album([dsf(2, 200 * FRAME), dsf(2, 70 * FRAME + 3)])
        self.addCleanup(self.album.close)

    def test_what_is_there_stays(self):
        (self.path / "b.wav").write_bytes(b"old")
        names = [self.path / "a.wav", self.path / "b.wav"]
        with self.assertRaises(FileExistsError):
            self.album.write_tracks(names, progress=lambda *_: self.fail("converted, and not wanted"))
        self.assertEqual([p.name for p in self.path.iterdir()], ["b.wav"])
        self.album.write_tracks(names, replace=True)
        self.assertEqual(sorted(os.listdir(self.path)), ["a.wav", "b.wav"])
        self.assertEqual([len(p.read_bytes()) for p in names], [self.album.header(k).length for k in range(2)])
        self.assertEqual(os.stat(names[0]).st_mode & 0o777, 0o666 & ~(os.umask(0o22) or 0o22))

    def test_a_name_that_appears_meanwhile(self):
        names = [self.path / "a.wav", self.path / "b.wav"]

        def appears(done, of):
            if done == of:
                names[1].write_bytes(b"other")

        with self.assertRaises(FileExistsError) as told:
            self.album.write_tracks(names, progress=appears)
        self.assertEqual(told.exception.filename, str(names[1]))
        self.assertEqual((os.listdir(self.path), names[1].read_bytes()), (["b.wav"], b"other"))

    def test_stopped(self):
        def stops(done, of):
            raise KeyboardInterrupt

        with self.assertRaises(KeyboardInterrupt):
            self.album.write_wav(self.path / "a.wav", progress=stops)
        with self.assertRaises(KeyboardInterrupt):
            self.album.samples(progress=stops)
        self.assertEqual(os.listdir(self.path), [])

    def test_names(self):
        (self.path / "c.dsf").write_bytes(dsf(2, 9))
        with Album(self.path / "c.dsf") as album:
            with self.assertRaises(ValueError):
                album.write_wav(self.path / "c.dsf", replace=True)
        with self.assertRaises(ValueError):
            self.album.write_tracks([self.path / "a.wav", self.path / "." / "a.wav"])
        with self.assertRaises(ValueError):
            self.album.write_tracks([self.path / "a.wav"])
        with self.assertRaises(FileNotFoundError) as told:
            self.album.write_wav(self.path / "none" / "a.wav")
        self.assertEqual(told.exception.filename, str(self.path / "none" / "a.wav"))
        with self.assertRaises(IsADirectoryError):
            self.album.write_wav(self.path, replace=True)
        self.assertEqual(os.listdir(self.path), ["c.dsf"])

    def test_formats(self):
        names = [self.path / "a.wav", self.path / "b.wav"]
        self.album.write_tracks(names, "rf64")
        self.album.write_wav(self.path / "all.wav", "rf64")
        for track, name in zip((0, 1, None), (*names, self.path / "all.wav")):
            wave = self.album.header(track, "rf64")
            self.assertEqual((name.read_bytes()[:len(wave.head)], name.stat().st_size), (wave.head, wave.length))

    def test_little_at_a_time(self):
        """The system may read and write fewer bytes than it is asked to."""
        read, write = os.preadv, os.pwrite
        (self.path / "a.dsf").write_bytes(dsf(2, 3 * FRAME + 5))
        with Album(self.path / "a.dsf") as album:
            album.write_wav(self.path / "right.wav")
        with mock.patch("os.preadv", lambda file, to, place: read(file, [to[0][:50]], place)), \
                mock.patch("os.pwrite", lambda file, data, place: write(file, data[:50], place)), Album(self.path / "a.dsf") as album:
            album.write_wav(self.path / "a.wav")
        self.assertEqual((self.path / "a.wav").read_bytes(), (self.path / "right.wav").read_bytes())

    def test_python_reads_it(self):
        self.album.write_wav(self.path / "a.wav")
        with wave.open(str(self.path / "a.wav")) as file:
            self.assertEqual((file.getnchannels(), file.getsampwidth(), file.getframerate(), file.getnframes()), (2, 3, 88200, 271 * 1176))


class Threads(Case):
    def test_threads_share_an_album(self):
        with Album(dsf(2, 600 * FRAME, loud=True), decibels=6) as album:
            right, found = [bytes(piece.bytes) for piece in album], {}

            def work(k):
                memory = bytearray(album.memory)
                found.update({n: bytes(album.piece(n, memory).bytes) for n in range(k, len(album), 4)})

            threads = [threading.Thread(target=work, args=(k,)) for k in range(4)]
            for thread in threads:
                thread.start()
            for thread in threads:
                thread.join()
            self.assertEqual([found[k] for k in range(len(album))], right)

    def test_the_lock_is_not_held(self):
        """While the library works, this thread goes on: it counts in the middle of one call."""
        c, frames = Converter(352800, channels=1), bytes(600 * FRAME)
        began, ended, ticks = threading.Event(), threading.Event(), 0

        def work():
            began.set()
            c.convert(frames)
            ended.set()

        interval = sys.getswitchinterval()
        sys.setswitchinterval(0.001)
        self.addCleanup(sys.setswitchinterval, interval)
        thread = threading.Thread(target=work)
        thread.start()
        began.wait()
        while not ended.wait(0.001):
            ticks += 1
        thread.join()
        self.assertGreater(ticks, 3)
