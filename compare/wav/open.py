"""Opens each file of a folder with Python's `wave`, ffmpeg and sox, and compares rate, channels, bits and data with
what is expected.

ffmpeg and sox are not asked for the data of a file without frames: they call it empty and end with an error.
"""
import json
import pathlib
import subprocess
import sys
import wave


def of_wave(path):
    with wave.open(str(path), "rb") as w:
        return w.getframerate(), w.getnchannels(), 8 * w.getsampwidth(), w.readframes(w.getnframes())


def run(*words):
    return subprocess.run(words, check=True, capture_output=True).stdout


def of_ffmpeg(path):
    shown = json.loads(run("ffprobe", "-v", "error", "-show_streams", "-of", "json", path))["streams"]
    assert len(shown) == 1 and shown[0]["codec_name"] == "pcm_s24le", shown
    s = shown[0]
    data = run("ffmpeg", "-v", "error", "-i", path, "-f", "s24le", "-c:a", "pcm_s24le", "-")
    return int(s["sample_rate"]), s["channels"], int(s["bits_per_sample"]), data


def of_sox(path):
    rate, channels, bits = (int(run("soxi", flag, path)) for flag in ("-r", "-c", "-b"))
    return rate, channels, bits, run("sox", "-D", path, "-t", "raw", "-e", "signed", "-b", "24", "-L", "-")


def main():
    readers = {"wave": of_wave, "ffmpeg": of_ffmpeg, "sox": of_sox}
    bad = 0
    for name, reader in readers.items():
        tried = right = 0
        for path in sorted(pathlib.Path(sys.argv[1]).glob("*.wav")):
            rate, channels, frames = map(int, path.stem.split("-"))
            if frames == 0 and name != "wave":
                continue
            tried += 1
            right += reader(path) == (rate, channels, 24, path.with_suffix(".raw").read_bytes())
        print(f"{name}: files {tried} right {right}")
        bad += tried - right
    sys.exit(bad != 0)


main()
