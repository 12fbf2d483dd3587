"""Programs: python3 -m puigneht, the rack, the lines of README.md, and the wheel."""
import itertools
import os
import pathlib
import re
import subprocess
import sys
import wave
import zipfile

from support import COMMAND, CUTOFFS, FRAME, RATES, ROOT, Case, dsf, numpy

import puigneht
from puigneht import Album

HERE = pathlib.Path(puigneht.__file__).resolve().parent.parent
PYTHON = [sys.executable] if numpy else [sys.executable, "-c", "import runpy, sys\nsys.modules['numpy'] = None\ndel sys.argv[0]\n"
                                         "if sys.argv[0] == '-m':\n    del sys.argv[0]\n    runpy.run_module(sys.argv[0], run_name='__main__', alter_sys=True)\n"
                                         "else:\n    runpy.run_path(sys.argv[0], run_name='__main__')"]


def ran(*words, cwd=None, env=None):
    done = subprocess.run([*map(str, words)], cwd=cwd, env=env, capture_output=True, text=True)
    return done.returncode, done.stdout, done.stderr


def overs_of(path):
    """Each channel's overs in a WAV file, by runs of equal samples."""
    with wave.open(str(path)) as file:
        channels, data = file.getnchannels(), file.readframes(file.getnframes())
    return [sum(1 for value, run in itertools.groupby(data[k:k + 3] for k in range(3 * c, len(data), 3 * channels))
                if value in (b"\xff\xff\x7f", b"\0\0\x80") and len(list(run)) >= 3) for c in range(channels)]


def told_overs(rate, cutoff, gain, name, channels, cwd):
    """Those that the command's own report tells, where it has one."""
    if "puigneht levels" not in ran(COMMAND, "--help")[1]:
        return None
    lines = [line.split() for line in ran(COMMAND, "levels", "-r", rate, "-c", cutoff, "-g", gain, name, cwd=cwd)[1].splitlines()[:-1]]
    return [sum(int(line[-1]) for line in lines if line[3] == str(c)) for c in range(channels)]


class Rack(Case):
    def test_three_albums(self):
        """Bytes, sheets and overs are the command's on every route."""
        path, found = self.folder(), 0
        for name, file in dict(a=dsf(1, 129 * FRAME + 5, 1, loud=True), b=dsf(2, 9 * FRAME + 1, 2, 8, 40, loud=True), c=dsf(2, 9, 3)).items():
            (path / f"{name}.dsf").write_bytes(file)
        for rate, cutoff in ((rate, cutoff) for rate in RATES for cutoff in CUTOFFS if (rate, cutoff) != (88200, "wide")):
            right = ""
            for name in "abc":
                done = ran(COMMAND, "-f", "-r", rate, "-c", cutoff, "-g", 3, "-s", "-", f"{name}.dsf", f"{name}.wav", cwd=path)
                self.assertEqual(done[0], 0, done)
                overs = overs_of(path / f"{name}.wav")
                right += f"{name}2.wav\n{done[1]}" + "".join(f"channel {c} overs {n}\n" for c, n in enumerate(overs))
                self.assertIn(told_overs(rate, cutoff, 3, f"{name}.dsf", len(overs), path), (None, overs))
                found += sum(overs)
            names = [word for name in "abc" for word in (f"{name}.dsf", f"{name}2.wav")]
            done = ran(*PYTHON, HERE / "examples" / "rack.py", rate, cutoff, 3, 3, *names, cwd=path)
            self.assertEqual(done, (0, right, ""))
            for name in "abc":
                self.assertEqual((path / f"{name}2.wav").read_bytes(), (path / f"{name}.wav").read_bytes())
                os.unlink(path / f"{name}2.wav")
        self.assertGreater(found, 100)


class AsAProgram(Case):
    def setUp(self):
        self.path = self.folder()
        for name in "ab":
            (self.path / f"{name}.dsf").write_bytes(dsf(2, 2 * FRAME + 3, ord(name), loud=True))

    def program(self, *words):
        return ran(*PYTHON, "-m", "puigneht", *words, cwd=self.path)

    def test_one_file(self):
        with Album(self.path / "a.dsf", 176400, "low", -1.5) as album:
            stats = album.write_wav(self.path / "right.wav")
        done = self.program("-r", "176400", "-c", "low", "-g", "-1.5", "-j", "2", "-s", "-", "a.dsf", "a.wav")
        self.assertEqual(done, (0, stats.sheet(2), ""))
        self.assertEqual((self.path / "a.wav").read_bytes(), (self.path / "right.wav").read_bytes())
        status, _, said = self.program("-p", "-f", "-s", "sheet", "--format", "rf64", "a.dsf", "a.wav")
        self.assertEqual((status, said), (0, "\n100 %\n"))  # a carriage return, read as text
        self.assertEqual((self.path / "a.wav").read_bytes()[:4], b"RF64")
        self.assertEqual(len((self.path / "sheet").read_text()), 129)

    def test_tracks(self):
        with Album([self.path / "a.dsf", self.path / "b.dsf"], decibels=2) as album:
            album.write_tracks([self.path / "a1.wav", self.path / "b1.wav"])
            stats = album.write_wav(self.path / "all1.wav")
        self.assertEqual(self.program("-o", ".", "-g", "2", "-s", "-", "a.dsf", "b.dsf"), (0, stats.sheet(2), ""))
        self.assertEqual(self.program("-a", "all.wav", "-g", "2", "a.dsf", "b.dsf"), (0, "", ""))
        for name in ("a", "b", "all"):
            self.assertEqual((self.path / f"{name}.wav").read_bytes(), (self.path / f"{name}1.wav").read_bytes())
        (self.path / "b.wav").write_bytes(b"old")
        self.assertEqual(self.program("-o", ".", "a.dsf", "b.dsf"), (4, "", "puigneht: ./a.wav is there already: -f replaces it\n"))
        self.assertEqual((self.path / "b.wav").read_bytes(), b"old")
        self.assertEqual(self.program("-f", "-o", ".", "-g", "2", "a.dsf", "b.dsf"), (0, "", ""))
        self.assertEqual((self.path / "b.wav").read_bytes(), (self.path / "b1.wav").read_bytes())
        self.assertEqual(self.program("-f", "-o", ".", "--format", "rf64", "a.dsf", "b.dsf"), (0, "", ""))
        self.assertEqual([(self.path / f"{name}.wav").read_bytes()[:4] for name in "ab"], [b"RF64", b"RF64"])

    def test_faults(self):
        (self.path / "short.dsf").write_bytes((self.path / "a.dsf").read_bytes()[:-1])
        (self.path / "there.wav").write_bytes(b"old")
        length = (self.path / "a.dsf").stat().st_size
        before = sorted(p.name for p in self.path.iterdir())
        held = [(self.path / name).read_bytes() for name in ("a.dsf", "b.dsf", "there.wav")]
        for words, status, said in [
                (["a.dsf", "there.wav"], 4, "puigneht: there.wav is there already: -f replaces it"),
                (["a.dsf", "short.dsf", "-a", "new.wav"], 3, f"puigneht: refused 11: the file says {length:,} bytes and has {length - 1:,}: an incomplete upload? (short.dsf)"),
                (["-c", "wide", "a.dsf", "new.wav"], 3, "puigneht: refused 2: wide is for 176400 and 352800 (a.dsf)"),
                (["none.dsf", "new.wav"], 1, "puigneht: [Errno 2] No such file or directory: 'none.dsf'"),
                (["a.dsf", "none/new.wav"], 1, "puigneht: [Errno 2] No such file or directory: 'none/new.wav'"),
                (["-f", "a.dsf", "a.dsf"], 2, "puigneht: a.dsf is a track of the album"),
                (["-f", "a.dsf", "b.dsf"], 2, "puigneht: b.dsf is a DSF file, and none is replaced"),
                (["-f", "-s", "a.dsf", "a.dsf", "new.wav"], 2, "puigneht: a.dsf is a DSF file, and none is replaced"),
                (["-f", "-s", "./new.wav", "a.dsf", "new.wav"], 2, "puigneht: two files are to have one name"),
                (["-s", "there.wav", "a.dsf", "new.wav"], 4, "puigneht: there.wav is there already: -f replaces it"),
                (["-s", "none/sheet", "a.dsf", "new.wav"], 1, "puigneht: [Errno 2] No such file or directory: 'none/sheet'"),
                (["a.dsf"], 2, None), (["a.dsf", "b.dsf", "new.wav"], 2, None), (["-r", "44100", "a.dsf", "new.wav"], 2, None),
                (["-g", "25", "a.dsf", "new.wav"], 2, None), (["-g", "nan", "a.dsf", "new.wav"], 2, None), (["-j", "65", "a.dsf", "new.wav"], 2, None),
                (["-j", "0", "a.dsf", "new.wav"], 2, None), (["-o", ".", "-a", "new.wav", "a.dsf"], 2, None)]:
            done = self.program(*words)
            self.assertEqual(done[:2], (status, ""), done)
            if said:
                self.assertEqual(done[2], said + "\n")
            self.assertEqual(sorted(p.name for p in self.path.iterdir()), before)
        self.assertEqual([(self.path / name).read_bytes() for name in ("a.dsf", "b.dsf", "there.wav")], held)
        self.assertEqual(self.program("-V"), (0, f"puigneht {puigneht.__version__}, library {puigneht.__version__}\n", ""))


class Lines(Case):
    def test_as_they_stand(self):
        """The lines of README.md, in a folder with an album that clips: what they write does not, and is as loud as can
        be.
        """
        blocks = [re.findall(r"```python\n(.*?)```", path.read_text(encoding="utf-8"), re.S) for path in (HERE / "README.md", ROOT / "README.md")]
        self.assertEqual(*blocks)
        lines, = blocks[0]
        self.assertLessEqual(len(lines.splitlines()), 10)
        path = self.folder()
        (path / "album.dsf").write_bytes(dsf(2, 3 * FRAME + 3, 7, loud=True))
        (path / "lines.py").write_text(lines)
        status, said, fault = ran(*PYTHON, "lines.py", cwd=path)
        self.assertEqual((status, fault), (0, ""))
        with Album(path / "album.dsf", 352800) as first:
            _, stats = first.samples()
        self.assertGreater(stats.clipped[0], 0)
        self.assertEqual(said.splitlines()[:3], stats.sheet(2).splitlines())
        with Album(path / "album.dsf", 352800, decibels=-stats.turn_down) as second:
            self.assertEqual(sum(second.write_wav(path / "right.wav").clipped), 0)
        self.assertEqual((path / "album.wav").read_bytes(), (path / "right.wav").read_bytes())
        with wave.open(str(path / "album.wav")) as file:
            self.assertEqual((file.getframerate(), file.getnframes()), (352800, 4 * 4704))
            data = file.readframes(file.getnframes())
        most = max(abs(int.from_bytes(data[k:k + 3], "little", signed=True)) for k in range(0, len(data), 3))
        self.assertGreater(most, 8388607 / 10**(0.2 / 20))


class Wheel(Case):
    def test_built_and_used(self):
        """Without a network and without any other package; what is unpacked converts by itself."""
        path = self.folder()
        (path / "a.dsf").write_bytes(dsf(1, FRAME))
        build = "import sys; sys.path.insert(0, '.'); import backend; print(backend.build_wheel(sys.argv[1]))"
        status, name, said = ran(sys.executable, "-c", build, path, cwd=HERE)
        self.assertEqual((status, said), (0, ""))
        built = (path / name.strip()).read_bytes()
        ran(sys.executable, "-c", build, path, cwd=HERE)
        self.assertEqual((path / name.strip()).read_bytes(), built)
        with zipfile.ZipFile(path / name.strip()) as wheel:
            self.assertIsNone(wheel.testzip())
            names = wheel.namelist()
            record = wheel.read(next(it for it in names if it.endswith("/RECORD"))).decode()
            self.assertEqual([row.split(",")[0] for row in record.splitlines()], names)
            for needed in ("puigneht/py.typed", "puigneht/libpuigneht.so", "puigneht/__main__.py", f"puigneht-{puigneht.__version__}.dist-info/METADATA"):
                self.assertIn(needed, names)
            self.assertEqual(wheel.read(f"puigneht-{puigneht.__version__}.dist-info/NOTICE"), (ROOT / "NOTICE").read_bytes())
            wheel.extractall(path / "site")
        env = {key: value for key, value in os.environ.items() if key not in ("PUIGNEHT_LIBRARY", "PYTHONPATH")}
        done = ran(sys.executable, "-m", "puigneht", "a.dsf", "a.wav", cwd=path, env={**env, "PYTHONPATH": str(path / "site")})
        self.assertEqual(done, (0, "", ""))
        with Album(path / "a.dsf") as album:
            self.assertEqual((path / "a.wav").read_bytes()[44:], bytes(album.piece(0).bytes))

    def test_other_libraries(self):
        """One that is not there, and one that is none of this package."""
        for library, said in [("/none.so", "OSError"), ("libc.so.6", "AttributeError")]:
            status, _, fault = ran(sys.executable, "-c", "import puigneht", env={**os.environ, "PUIGNEHT_LIBRARY": library})
            self.assertEqual(status, 1)
            self.assertIn(said, fault)
