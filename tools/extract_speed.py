#!/usr/bin/env python3
"""Measures `exr extract` on a tmpfs, beside a C twin of the same reads, unpacking, copies and writes (gcc -O2: rows by memcpy,
pixels by two bytes a sample) and beside `cp` of the file, in one run: a picture of 4096 by 2048 pixels with four HALF channels
(64 MiB of samples), as scan lines and in tiles of 64 by 64, in planes, lines and pixels and of a quarter of its window; and one
of 1920 by 1080 without compression and under RLE, PIZ and B44. Prints the tables of docs/PERFORMANCE.md: the ratio of the least
times, and the peak memory of one more run; for the methods also the ratio to the time without compression.

Use: tools/extract_speed.py [ROUNDS [WORD]], at the top of the repository, after `rt ci exr` has built the program; with a
word only the pictures whose name begins with it.
"""
import os, subprocess, sys, tempfile, time

import exr_file

ROUNDS = int(sys.argv[1]) if len(sys.argv) > 1 else 15
WORD = sys.argv[2] if len(sys.argv) > 2 else ""
NAMES = ["A", "B", "G", "R"]
METHODS = {"no": 0, "rle": 1, "piz": 4, "b44": 6}
PROGRAM = os.path.abspath("crates/exr/out/exr")
TWINS = {name: os.path.abspath(f"tools/twins/{name}.c") for name in ("extract", "picture", "peak")}


class Picture:
    """A picture of four HALF channels: its name, its size, the side of its tiles, or 0 for scan lines, and its method."""

    def __init__(self, name, width, height, tile=0, method="no"):
        self.name, self.width, self.height, self.tile, self.method = name, width, height, tile, method

    def head(self):
        listed = [exr_file.channel(n.encode()) for n in NAMES]
        window = (0, 0, self.width - 1, self.height - 1)
        attributes = exr_file.picture(listed, window, method=METHODS[self.method], tile=self.tile)
        return exr_file.head(attributes, exr_file.TILED if self.tile else 0)

    def make(self, file, folder):
        """Writes the picture: smooth lines with a little grain, or tiles of random bytes, whose sides are whole."""
        if self.tile == 0:
            head = os.path.join(folder, "head")
            with open(head, "wb") as out:
                out.write(self.head())
            subprocess.run([os.path.join(folder, "picture"), file, head, str(self.width), str(self.height), self.method], check=True)
            return
        front = self.head()
        fields = [exr_file.tile_fields(x, y) for y in range(self.height // self.tile) for x in range(self.width // self.tile)]
        size = 2 * self.tile * self.tile * len(NAMES)
        each = len(fields[0]) + 4 + size
        with open(file, "wb") as out:
            out.write(front)
            out.write(exr_file.offsets(len(front) + 8 * len(fields), [each] * len(fields)))
            for place in fields:
                out.write(exr_file.chunk(place, os.urandom(64) * (size // 64)))


def timed(words):
    begin = time.perf_counter()
    subprocess.run(words, check=True, stdout=subprocess.DEVNULL)
    return time.perf_counter() - begin


def peak_of(launcher, words):
    status, peak, _ = map(int, subprocess.run([launcher] + words, check=True, stdout=subprocess.PIPE).stdout.split())
    if status != 0:
        sys.exit(f"{words[0]} ended with status {status}")
    return peak / 1024


def measure(folder, picture, rows, without=None):
    """Measures a picture, in each of the rows: what is asked, the layout, and the part of the window. Answers the program's
    least times; `without` has those of the same picture without compression."""
    source, buffer, twin_buffer, copy = (os.path.join(folder, n) for n in ("in.exr", "out.raw", "twin.raw", "copy"))
    twin, launcher = (os.path.join(folder, n) for n in ("extract", "peak"))
    picture.make(source, folder)
    times = {}
    for name, layout, part in rows:
        w, h = picture.width, picture.height
        window = (0, 0, w - 1, h - 1) if part == "whole" else (w // 4, h // 4, w * 3 // 4 - 1, h * 3 // 4 - 1)
        sides = [str(n) for n in window]
        kinds = {
            "exr extract": [PROGRAM, "extract", "in=" + source, "out=" + buffer, "layout=" + layout, "window=" + ",".join(sides)],
            "C twin": [twin, source, twin_buffer, str(len(picture.head())), str(w), str(h), str(len(NAMES)), str(picture.tile),
                       picture.method, layout] + sides,
            "cp": ["/bin/cp", source, copy],
        }
        least = {kind: float("inf") for kind in kinds}
        for _ in range(ROUNDS):
            for kind, words in kinds.items():
                least[kind] = min(least[kind], timed(words))
        if open(buffer, "rb").read() != open(twin_buffer, "rb").read():
            sys.exit("the two buffers differ")
        times[name] = least["exr extract"]
        for kind, words in kinds.items():
            ratios = [f"{least[kind] / least[other]:.2f}" for other in ("C twin", "cp")]
            more = f"{least[kind] / without[name]:.2f}" if without and kind == "exr extract" else ""
            print(f"| {picture.name}, {name} | {kind} | {' | '.join(ratios)} | {more} | {peak_of(launcher, words):.1f} |", flush=True)
    return times


def main():
    whole = [("planes", "planar", "whole"), ("lines", "lines", "whole"), ("pixels", "pixels", "whole")]
    quarter = [("a quarter in planes", "planar", "quarter")]
    with tempfile.TemporaryDirectory(dir="/dev/shm") as folder:
        for name, source in TWINS.items():
            subprocess.run(["gcc", "-O2", "-o", os.path.join(folder, name), source, "-lm"], check=True)
        print("| file | what | ratio to the C twin | ratio to `cp` | ratio to no compression | peak memory, MiB |")
        print("|---|---|---|---|---|---|")
        for picture in (Picture("scan lines", 4096, 2048), Picture("tiles of 64 by 64", 4096, 2048, tile=64)):
            if picture.name.startswith(WORD):
                measure(folder, picture, whole + quarter)
        without = None
        for method in METHODS:
            picture = Picture(f"method {method}", 1920, 1080, method=method)
            if picture.name.startswith(WORD):
                times = measure(folder, picture, [whole[0], whole[2]], without)
                without = without or times


if __name__ == "__main__":
    main()
