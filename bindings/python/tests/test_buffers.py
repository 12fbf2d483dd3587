"""Buffers are lent without a copy; what is not right is turned down before the call."""
import array
import ctypes
import mmap

from support import Case, chance, flat, numpy

from puigneht import Converter, Overs, Run, dsf, wav
from puigneht._calls import Lent

FRAME = chance(3, 4704)


class Buffers(Case):
    def setUp(self):
        self.c = Converter(channels=1)
        self.right = flat(self.c.convert_run(FRAME)[0])

    def given(self):
        mapped = mmap.mmap(-1, 4704)
        mapped[:] = FRAME
        held = [FRAME, bytearray(FRAME), memoryview(FRAME), memoryview(b"xx" + FRAME)[2:], array.array("B", FRAME), mapped,
                (ctypes.c_uint8 * 4704).from_buffer_copy(FRAME), (ctypes.c_char * 4704).from_buffer_copy(FRAME), memoryview(FRAME).cast("c"),
                memoryview(FRAME).cast("B", (96, 49))]
        if numpy:
            held += [numpy.frombuffer(FRAME, numpy.uint8), numpy.frombuffer(FRAME, numpy.uint8).reshape(49, 96)]
        return held

    def test_what_is_read(self):
        for frames in self.given():
            self.assertEqual(flat(self.c.convert_run(frames)[0]), self.right, type(frames))
            run = Run(frames, frames, frames)
            self.assertEqual(flat(self.c.convert_run(run)[0]), flat(self.c.convert_run(Run(FRAME, FRAME, FRAME))[0]))

    def test_what_is_written(self):
        outs = [array.array("i", [7] * 1176), (ctypes.c_int32 * 1176)(), memoryview(bytearray(4704)).cast("i")]
        if numpy:
            outs += [numpy.zeros(1176, numpy.int32), numpy.zeros((1176, 1), numpy.int32), numpy.zeros((2, 588), "<i4")]
        for out in outs:
            self.assertIs(self.c.convert_run(FRAME, out=out)[0], out)
            self.assertEqual(list(memoryview(out).cast("B")) if not isinstance(out, ctypes.Array) else list(bytes(out)),
                             list(array.array("i", self.right).tobytes()))
        packed = bytes(self.c.convert(FRAME)[0])
        for out in (bytearray(3528), array.array("B", bytes(3528)), memoryview(bytearray(3530))[1:-1], (ctypes.c_uint8 * 3528)()):
            self.assertIs(self.c.convert(FRAME, out=out)[0], out)
            self.assertEqual(bytes(out), packed)

    def test_nothing_is_copied(self):
        """What is lent stands where it is, and is held while it is lent and not longer."""
        held = bytearray(FRAME)
        at = ctypes.addressof(ctypes.c_char.from_buffer(held))
        with Lent() as lent:
            self.assertEqual(lent.read("a", held), (at, 4704))
            self.assertEqual(lent.read("b", memoryview(held)[5:]), (at + 5, 4699))
            with self.assertRaises(BufferError):
                held += b"x"
        with self.assertRaises(ZeroDivisionError), Lent() as lent:
            lent.read("a", held)
            raise ZeroDivisionError
        del lent
        other = bytearray(FRAME)
        self.c.convert(other)
        with self.refused(7):
            self.c.convert(other, out=bytearray(1))
        other += b"x"

    def test_wrong_kinds(self):
        for frames in ("text", None, 5, [1, 2], array.array("b", bytes(4704)), array.array("i", bytes(4704)), array.array("f", bytes(4704)),
                       (ctypes.c_int16 * 2352)(), memoryview(bytes(4704)).cast("b"), memoryview(bytes(4704)).cast("?"), object()):
            with self.assertRaises(TypeError):
                self.c.convert(Run(None, frames, None))
            if frames is not None:
                with self.assertRaises(TypeError):
                    self.c.cut(frames, 0, 1)
                for run in (Run(frames, FRAME, None), Run(None, FRAME, frames)):
                    with self.assertRaises(TypeError):
                        self.c.convert(run)
        for out in (array.array("f", bytes(4704)), array.array("I", bytes(4704)), array.array("h", bytes(4704)), array.array("q", bytes(9408)), array.array("l", bytes(9408)),
                    bytearray(4704), (ctypes.c_int32.__ctype_be__ * 1176)()):
            with self.assertRaises(TypeError):
                self.c.convert_run(FRAME, out=out)
        for counts in (array.array("q", [0]), array.array("d", [0]), array.array("I", [0]), bytearray(8)):
            with self.assertRaises(TypeError):
                self.c.convert(FRAME, counts=counts)
        for call in (lambda: Overs(1).count(bytes(8)), lambda: wav.unpack(array.array("i", [0])), lambda: wav.pack(bytes(3)), lambda: dsf.read("a.dsf")):
            with self.assertRaises(TypeError):
                call()
        if numpy:
            for kind in (numpy.float32, numpy.int16, numpy.uint32, ">i4", numpy.int64, numpy.complex64):
                with self.assertRaises(TypeError):
                    self.c.convert_run(FRAME, out=numpy.zeros(1176, kind))
            for kind in (numpy.int8, numpy.bool_):
                with self.assertRaises(TypeError):
                    self.c.convert(numpy.zeros(4704, kind))

    def test_what_can_only_be_read(self):
        for out in (bytes(3528), memoryview(bytes(3528)), memoryview(bytearray(3528)).toreadonly()):
            with self.assertRaises(BufferError):
                self.c.convert(FRAME, out=out)
        if numpy:
            out = numpy.zeros(1176, numpy.int32)
            out.flags.writeable = False
            with self.assertRaises(BufferError):
                self.c.convert_run(FRAME, out=out)

    def test_gaps(self):
        for frames in (memoryview(FRAME * 2)[::2], memoryview(FRAME)[::-1]):
            for call in (self.c.convert, lambda frames: self.c.cut(frames, 0, 1)):
                with self.assertRaises(BufferError):
                    call(frames)
        if numpy:
            with self.assertRaises(BufferError):
                self.c.convert_run(FRAME, out=numpy.zeros((1176, 2), numpy.int32)[:, 0])
            with self.assertRaises(BufferError):
                self.c.convert_run(FRAME, out=numpy.zeros((2, 588), numpy.int32, order="F"))

    def test_overlaps(self):
        both = memoryview(bytearray(4704 * 3))
        for run, out in ((both[:4704], both[4703:4703 + 3528]), (both[4704:9408], both[1177:1177 + 3528]), (both[:4704], both[100:3628])):
            with self.assertRaises(ValueError) as told:
                self.c.convert(run, out=out)
            self.assertNotIn("refused", str(told.exception))
        for run in (Run(both[:4704], FRAME, None), Run(None, FRAME, both[:4704])):
            with self.assertRaises(ValueError):
                self.c.convert(run, out=both[:3528])
        with self.assertRaises(ValueError):
            self.c.convert(FRAME, out=both[:3528], counts=both[3520:3528].cast("Q"))
        self.c.convert(both[:4704], out=both[4704:4704 + 3528])
        self.c.convert(Run(both[:4704], both[:4704], both[:4704]), out=both[4704:4704 + 3528])
        self.c.convert(both[:0], out=both[:0])
        self.assertEqual(len(self.c.convert(FRAME, out=both[:3528], counts=both[3528:3536].cast("Q"))[0]), 3528)
