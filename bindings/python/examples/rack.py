#!/usr/bin/env python3
"""A rack: DSF albums converted to WAV files in turns, a piece each, by some threads. Prints their sheets and overs.

rack.py RATE CUTOFF DB THREADS {IN.dsf OUT.wav}..     (88200 standard -6 4 a.dsf a.wav b.dsf b.wav)
"""
import concurrent.futures
import itertools
import os
import sys

import puigneht


class Job:
    """An album, and the WAV file that it becomes."""

    def __init__(self, names: "tuple[str, str]", rate: int, cutoff: str, decibels: float) -> None:
        self.name = names[1]
        self.album = puigneht.Album(names[0], rate, cutoff, decibels)
        self.wave, self.stats = self.album.header(), puigneht.Stats()
        self.file = os.open(names[1], os.O_RDWR | os.O_CREAT | os.O_EXCL, 0o666)
        self.write(self.wave.head, 0)  # whole frames are even: there is no pad

    def write(self, data: "bytes | memoryview", place: int) -> None:
        while len(data):
            n = os.pwrite(self.file, data, place)
            data, place = data[n:], place + n

    def turn(self, number: int) -> None:
        piece = self.album.piece(number)
        data, places = self.album.write(self.wave, piece)
        self.write(data, places.start)
        self.stats.join(piece.stats)

    def report(self) -> None:
        """The sheet, and the overs of the samples that were written."""
        overs, step = puigneht.Overs(self.album.channels), 180000  # whole turns of one to six channels
        for place in range(len(self.wave.head), self.wave.length, step):
            overs.count(puigneht.wav.unpack(os.pread(self.file, step, place)))
        print(self.name, self.stats.sheet(self.album.channels), sep="\n", end="")
        for c, count in enumerate(overs.counts):
            print(f"channel {c} overs {count}")


def main(rate: str, cutoff: str, decibels: str, threads: str, *names: str) -> None:
    jobs = [Job(pair, int(rate), cutoff, float(decibels)) for pair in zip(names[::2], names[1::2])]
    rounds = itertools.zip_longest(*([(job, number) for number in range(len(job.album))] for job in jobs))
    with concurrent.futures.ThreadPoolExecutor(int(threads)) as pool:
        for done in [pool.submit(job.turn, number) for job, number in filter(None, itertools.chain(*rounds))]:
            done.result()
    for job in jobs:
        job.report()


if __name__ == "__main__":
    main(*sys.argv[1:])
