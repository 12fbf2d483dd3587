"""Times of ffmpeg and of the command, in turns, on one album. A row has the least of all rounds, and a mark where half
of the rounds took a twentieth longer or more. For bench/files."""
import os
import shutil
import subprocess
import sys
import time

folder, rounds = sys.argv[1], int(sys.argv[2])
album, out = f"{folder}/album.dsf", f"{folder}/out.wav"


def ffmpeg(rate):
    return ["ffmpeg", "-v", "error", "-nostdin", "-y", "-threads", "1", "-i", album, "-ar", str(rate), "-c:a", "pcm_s24le", out]


def ours(rate, jobs):
    return ["target/puigneht", "-f", "-r", str(rate), "-j", str(jobs), album, out]


def wavpack():
    """WavPack's own decimation, by 8, of the album packed before; unpacking is part of its time."""
    subprocess.run(["wavpack", "-q", "-y", album, "-o", f"{folder}/album.wv"], check=True)
    return ["wvunpack", "-q", "-y", "--wav", f"{folder}/album.wv", "-o", out]


def timed(words):
    """Wall and CPU seconds of a command and its processes, and those CPU seconds of them that the system took."""
    began = time.monotonic()
    process = subprocess.Popen(words)
    _, status, used = os.wait4(process.pid, 0)
    wall = time.monotonic() - began
    assert status == 0, words
    return wall, used.ru_utime + used.ru_stime, used.ru_stime


version = subprocess.run(["ffmpeg", "-version"], capture_output=True, text=True).stdout.split()[2]
print(f"60 s in stereo, least of {rounds} rounds in turns, ffmpeg {version}\n")
print("| Rate | Program | CPU, s | of it the system's | Wall, s | Times real time | CPU / ffmpeg's | Wall: one job / this |")
print("|---|---|---|---|---|---|---|---|")
for rate in (88200, 176400, 352800):
    programs = [("ffmpeg", ffmpeg(rate)), ("ours, -j 1", ours(rate, 1)), ("ours, -j 2", ours(rate, 2))]
    if rate == 352800 and shutil.which("wvunpack"):
        programs.append(("wvunpack", wavpack()))
    taken = {name: [] for name, _ in programs}
    for _ in range(rounds):
        for name, words in programs:
            taken[name].append(timed(words))
    least = {name: [min(column) for column in zip(*rows)] for name, rows in taken.items()}
    for name, _ in programs:
        wall, cpu, system = least[name]
        faster = f"{least['ours, -j 1'][0] / wall:.2f}" if name.startswith("ours") else "-"
        cpus = sorted(row[1] for row in taken[name])
        mark = " (spread)" if cpus[len(cpus) // 2] > 1.05 * cpu else ""
        print(f"| {rate} | {name}{mark} | {cpu:.3f} | {system:.3f} | {wall:.3f} | {60 / wall:.0f} | {cpu / least['ffmpeg'][1]:.3f} | {faster} |")
