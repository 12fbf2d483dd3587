"""DSF and WAV files in memory beside stored answers (crates/test_files/data)."""
import array
import io
import struct
import wave

from support import RATES, Case, chance, digest, flat, held, numpy, packed, rows

from puigneht import Converter, dsf, wav

JUNK = b"\x5a"


def head(row):
    return struct.pack("<12Q", *row[:12])[:92] + 68 * JUNK


def made(row):
    """A file by its row."""
    return (head(row)[:92] + chance(row[13], max(0, row[12] - 92)))[:row[12]]


def answered(call, *words):
    """Number and data, and what it gave."""
    from puigneht import Refused
    try:
        return 0, (0, 0), call(*words)
    except Refused as e:
        return e.number, e.data, None


def numbers(it):
    return [0] * 5 if it is None else [it.channel_type, it.channels, it.bits_per_sample, it.samples, it.frames]


class DsfFiles(Case):
    def test_headers(self):
        for row in rows("test_files", "data", "headers"):
            answer, _, it = answered(dsf.read_header, head(row)[:row[12]], row[13])
            self.assertEqual((answer, numbers(it)), (row[14], row[15:20]))

    def test_files(self):
        every = rows("test_files", "data", "files")
        for row in every[::4]:
            answer, _, it = answered(dsf.read, made(row))
            self.assertEqual((answer, numbers(it)), (row[14], row[15:20]))
        for k, number, room, *wanted, left in rows("test_files", "data", "frames")[::40]:
            out, file = bytearray(JUNK * room), made(every[k])
            answer, data, _ = answered(dsf.frame, file, number, out)
            self.assertEqual((answer, *((0, 0) if 9 <= answer <= 11 else data), digest(out)), (*wanted, left))
            if answer == 0:
                self.assertEqual(dsf.frame(file, number), out)

    def test_windows(self):
        for row in rows("test_files", "data", "windows")[::3]:
            out, part, lead = bytearray(JUNK * row[18]), chance(row[16], row[17]), head(row)[:row[12]]
            answer, data, _ = answered(dsf.window_frame, lead, row[13], row[14], part, row[15], out)
            self.assertEqual((answer, *((0, 0) if 9 <= answer <= 11 else data), digest(out)), (*row[19:22], row[22]))
            it = dsf.Dsf(0, row[6] >> 32, 0, row[8], 0)
            self.assertEqual(dsf.window(it, row[14]), range(row[23], row[24]))
            if answer == 0:
                self.assertEqual(dsf.window_frame(lead, row[13], row[14], part, row[15]), out)

    def test_written(self):
        tried = 0
        for channels, size, seed, room, answer, first, second, left in rows("test_files", "data", "written"):
            if size > 60000 or answer == 7:
                continue
            found, data, file = answered(dsf.write, channels, chance(seed, size))
            self.assertEqual((found, *data), (answer, first, second))
            if not found and len(file) == room:
                self.assertEqual(digest(file), left)
                tried += 1
        self.assertGreater(tried, 5)

    def test_uploads(self):
        heads = [head(row) for row in rows("test_files", "data", "heads")]
        for which, at, count, value, length, kind, place in rows("test_files", "data", "uploads")[::5]:
            lead = bytearray(heads[which][:92])
            lead[at:at + count] = value.to_bytes(8, "little")[:count]
            right = ("accepted", None) if kind == 0 else ("unfinished", None) if kind == 1 else ("give up", place)
            self.assertEqual(dsf.give_up_header(lead[:min(92, length)], length), right)
            if length <= 65536:
                self.assertEqual(dsf.give_up(bytes(lead).ljust(65536, b"\x69")[:length]), right)

    def test_sentences(self):
        good = dsf.write(1, bytes(4704))
        for call, sentence in [
                (lambda: dsf.read(good[:50]), "refused 9: not a DSF file as Sony's document lays it out: it has 50 bytes, and a header has 92"),
                (lambda: dsf.read(good[:-1]), "refused 11: the file says 8,284 bytes and has 8,283: an incomplete upload?"),
                (lambda: dsf.read_header(good[:92], 9000), "refused 11: the file says 8,284 bytes and has 9,000, which are 716 more: something was added, or tags were taken away"),
                (lambda: dsf.frame(good, 1), "refused 5: the file has no frame 1: they are counted from 0"),
                (lambda: dsf.frame(good[:-1], 0, bytearray(9)), "refused 11: the file says 8,284 bytes and has 8,283: an incomplete upload?"),
                (lambda: dsf.window_frame(good[:92], len(good), 2, b"", 0), "refused 5: the file has no frame 2: they are counted from 0"),
                (lambda: dsf.window_frame(good[:92], len(good), 0, b"", 0), "refused 11: the part of the file that was given does not hold the frame"),
                (lambda: dsf.write(7, b""), "refused 1: 7 channels: there may be 1 to 6"),
                (lambda: dsf.write(258, b""), "refused 1: 258 channels: there may be 1 to 6"),
                (lambda: dsf.write(2, bytes(5)), "refused 4: 5 bytes are not whole frames: a frame of 2 channels has 9,408 bytes"),
                (lambda: wav.read(b"RIFF"), "refused 12: not a WAV file of the plain header, 24 bits, one or two channels, one of the three rates and whole frames"),
                (lambda: wav.header(44100, 1, 0), "refused 12: a rate of 44,100: a WAV file has 88,200, 176,400 or 352,800"),
                (lambda: wav.write(88200, 3, b""), "refused 12: 3 channels: the WAV file takes one or two"),
                (lambda: wav.write(88200, 258, b""), "refused 12: 258 channels: the WAV file takes one or two"),
                (lambda: wav.header(88200, 1, 5), "refused 12: 5 bytes of samples are no whole frames of 3,528 bytes"),
                (lambda: wav.header(352800, 2, 4294967260 // 28224 * 28224 + 28224), None)]:
            with self.assertRaises(ValueError) as told:
                call()
            if sentence:
                self.assertEqual(str(told.exception), sentence)
        for wrong in (lambda: dsf.frame(good, -1), lambda: dsf.read_header(good, 2**64), lambda: wav.header(88200, 1, -3528), lambda: dsf.write(-1, b"")):
            with self.assertRaises(OverflowError):
                wrong()


class WavFiles(Case):
    def test_headers(self):
        """Those of Python's `wave`."""
        headers = held("test_conversions", "data", "wav_headers")
        for k in range(24):
            rate, channels, frames = RATES[k // 8], 1 + k // 4 % 2, k % 4
            samples = chance(1, frames * channels * 3 * rate // 75)
            file = wav.write(rate, channels, samples)
            self.assertEqual(file, headers[44 * k:44 * k + 44] + samples)
            self.assertEqual(wav.header(rate, channels, len(samples)), headers[44 * k:44 * k + 44])
            self.assertEqual(wav.read(file), wav.Wav(rate, channels, 44, len(samples)))
            with wave.open(io.BytesIO(file)) as read:
                self.assertEqual(read.readframes(10**6), samples)

    def test_packed(self):
        numbers = [0, 1, -1, 255, 256, -256, 8388607, -8388608, 4660, -4660, 65536, -65536]
        data = packed(numbers)
        self.assertEqual(wav.pack(array.array("i", numbers)), data)
        self.assertEqual(flat(wav.unpack(data)), numbers)
        self.assertEqual(flat(wav.unpack(data + b"xx", 2)), numbers)
        self.assertEqual(flat(wav.unpack(data[:-1], 5)), numbers[:10])
        self.assertEqual(len(wav.unpack(b"")), 0)
        with self.assertRaises(ValueError):
            wav.unpack(data, 0)
        if numpy:
            self.assertEqual(wav.unpack(data, 4).shape, (3, 4))
        else:
            self.assertEqual(wav.unpack(data, 4).typecode, "i")
