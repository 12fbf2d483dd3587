#!/usr/bin/env python3
"""Writes data/wav_headers of crates/test_files and crates/test_conversions: the headers that Python's `wave` makes.

For each rate, one and two channels, and 0, 1, 2 and 3 frames, `wave` writes a file of 24-bit samples into memory. Its
data must be the bytes given to it, those of test_support's sequence; its first 44 bytes are kept, one header after the
other.
"""
import io
import pathlib
import wave

RATES = {88200: 1176, 176400: 2352, 352800: 4704}


def noise(n):
    x, out = 1, bytearray()
    for _ in range(n):
        x = (x * 1664525 + 1013904223) % 2**32
        out.append(x >> 24)
    return bytes(out)


def file(rate, channels, data):
    out = io.BytesIO()
    with wave.open(out, "wb") as w:
        w.setnchannels(channels)
        w.setsampwidth(3)
        w.setframerate(rate)
        w.writeframes(data)
    return out.getvalue()


def main():
    headers = []
    for rate, samples in RATES.items():
        for channels in (1, 2):
            for frames in range(4):
                data = noise(3 * samples * channels * frames)
                made = file(rate, channels, data)
                assert len(made) == 44 + len(data) and made[44:] == data
                headers.append(made[:44])
    crates = pathlib.Path(__file__).resolve().parents[2] / "crates"
    for name in ("test_files", "test_conversions"):
        (crates / name / "data" / "wav_headers").write_bytes(b"".join(headers))


main()
