"""The wrapper's records and calls beside include/puigneht.h and include/puigneht/album.h, and its types."""
import ctypes
import pathlib
import re

from support import ROOT, Case

import puigneht
from puigneht import _album, _calls, dsf, wav

PACKAGE = pathlib.Path(puigneht.__file__).resolve().parent.parent
TEXT = "\n".join((ROOT / "include" / name).read_text(encoding="utf-8") for name in ("puigneht.h", "puigneht/album.h"))
BARE = re.sub(r"/\*.*?\*/", "", TEXT, flags=re.S)
RECORDS = {"numbers": _calls.Numbers, "gain_record": _calls.Gain, "stats": _calls.Stats, "dsf": _calls.Dsf, "stretch": _calls.Stretch,
           "wav": _calls.Wav, "over": _calls.Over, "field": _calls.Field, "album_numbers": _calls.AlbumNumbers, "plan": _calls.Plan,
           "refusal": _calls.Refusal, "converter": _calls.Converter}
KINDS = {"uint8_t": ctypes.c_uint8, "uint64_t": ctypes.c_uint64, "size_t": ctypes.c_size_t, "double": ctypes.c_double}
ARRAYS = {"data[2]": _calls.Pair, "told[2]": _calls.Pair, "taps[PUIGNEHT_MOST_TAPS]": _calls.Taps}


def kinds_of(arguments):
    """The types of a declaration's arguments, as ctypes says them."""
    words = [" ".join(it.replace("const ", "").split()) for it in arguments.split(",")]
    made = []
    for k, word in enumerate(words):
        kind, name = word.rsplit(" ", 1)
        if "[" in name:
            made.append(ctypes.POINTER(ARRAYS[name]) if name in ARRAYS else ctypes.c_void_p)
        elif not name.startswith("*"):
            made.append(KINDS[kind])
        elif kind.startswith("puigneht_"):
            made.append(ctypes.POINTER(RECORDS[kind[len("puigneht_"):]]))
        elif kind == "double":
            made.append(ctypes.POINTER(_calls.Decibels))
        elif k + 1 < len(words) and words[k + 1] == f"size_t {name[1:]}_len":
            made.append(ctypes.c_void_p)
        else:
            made.append(ctypes.POINTER(ctypes.c_uint64))
    return made


class Headers(Case):
    def test_calls(self):
        declared = dict(re.findall(r"\b(?:uint8_t|void) (puigneht_\w+_call_?)\(([^()]*)\);", BARE))
        for kind in ("samples", "bytes"):
            names = re.search(rf"^puigneht_{kind}_call_ ([\w, ]+);", BARE, re.M)[1]
            arguments = re.search(rf"typedef uint8_t puigneht_{kind}_call_\(([^()]*)\);", BARE)[1]
            declared.update({name: arguments for name in names.split(", ")})
        answers = dict((name, kind) for kind, name in re.findall(r"\b(uint8_t|void) (puigneht_\w+_call)\(", BARE))
        for name, arguments in _calls.DECLARED.items():
            self.assertEqual(list(arguments), kinds_of(declared["puigneht_" + name]), name)
            call = getattr(_calls.calls, name)
            self.assertEqual((call.argtypes, call.restype), (list(arguments), None if answers.get("puigneht_" + name) == "void" else ctypes.c_uint8))
        with self.assertRaises(AttributeError):
            _calls.calls.none

    def test_records(self):
        sizes = {"uint64_t": 8, "int64_t": 8, "double": 8, "int32_t": 4, "uint8_t": 1, "size_t": 8}
        sizes.update({"puigneht_" + name: ctypes.sizeof(record) for name, record in RECORDS.items()})
        counts = {"PUIGNEHT_MOST_CHANNELS": 6, "PUIGNEHT_MOST_TAPS": 117}
        for name, record in RECORDS.items():
            body = re.search(rf"typedef struct puigneht_{name} {{(.*?)}}", BARE, re.S)[1]
            at, found = 0, []
            for kind, names in re.findall(r"(\w+) ([^;]+);", body):
                for field in names.split(","):
                    field, _, count = field.strip().rstrip("]").partition("[")
                    size = sizes[kind] * int(counts.get(count, count) or 1)
                    if (name, field) != ("stats", "made"):
                        found.append((field, at, size))
                    at += size
            self.assertEqual([(f[0], getattr(record, f[0]).offset, getattr(record, f[0]).size) for f in record._fields_], found, name)

    def test_numbers(self):
        names = re.findall(r"\bPUIGNEHT_CALL_(\w+)", re.search(r"enum {\s*(PUIGNEHT_CALL_NONE.*?)}", BARE, re.S)[1])
        for number, name in enumerate(names[:21]):
            self.assertEqual(getattr(_calls.Call, name), number)
        values = {name: int(value) for name, value in re.findall(r"\bPUIGNEHT_(\w+) = (\d+)", BARE)}
        for name, held in [("MOST_CHANNELS", _calls.MOST_CHANNELS), ("MOST_TAPS", _calls.MOST_TAPS), ("CHANNEL_BYTES", dsf.CHANNEL_BYTES), ("DSF_HEADER", dsf.HEADER),
                           ("WAV_HEADER", wav.HEADER), ("NOT_UNDERSTOOD", _calls.NOT_UNDERSTOOD), ("READ_FAILED", _calls.READ_FAILED),
                           ("MOST_TRACKS", _album._MOST_TRACKS), ("PIECE_FRAMES", _album._PIECE), ("MOST_WAVE_HEAD", _album._MOST_HEAD)]:
            self.assertEqual(values[name], held, name)
        self.assertEqual([values[name] for name in ("STANDARD", "LOW", "WIDE")], [puigneht.CUTOFFS.index(name) for name in ("standard", "low", "wide")])
        self.assertEqual([values["FORMAT_" + name.upper()] for name in _album.FORMATS], [0, 1, 2])
        self.assertEqual(wav.MOST_DATA, int(re.search(r"PUIGNEHT_WAV_MOST_DATA UINT32_C\((\d+)\)", BARE)[1]))

    def test_version(self):
        """The header's, which _calls.py repeats; the wheel and pyproject.toml have none of their own."""
        right = re.search(r'PUIGNEHT_VERSION "(.*?)"', TEXT)[1]
        self.assertEqual((puigneht.__version__, puigneht.library_version), (right, right))
        project = (PACKAGE / "pyproject.toml").read_text(encoding="utf-8")
        self.assertEqual(re.findall(r"^.*\bversion\b.*$", project, re.M), ['dynamic = ["version"]'])

    def test_names(self):
        for name in puigneht.__all__:
            self.assertTrue(hasattr(puigneht, name), name)
        self.assertEqual((puigneht.FRAME_BYTES, puigneht.RATES), (4704, (88200, 176400, 352800)))
