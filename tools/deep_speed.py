#!/usr/bin/env python3
"""Measures on a tmpfs, in one run: `exr extract` of a deep picture of 1920 by 1080 pixels with 0 to 8 samples each (A HALF, Z
FLOAT), without compression and under RLE, beside a C twin of the same reads, unpacking, copies and writes (gcc -O2); and `exr
check` beside `exr extract` of the same file that reads all chunks and keeps no sample (a channel that the file does not have,
written to /dev/null), for flat pictures of 1920 by 1080. Prints the tables of docs/PERFORMANCE.md: ratios of the least times, and
the peak memory of one more run.

Use: tools/deep_speed.py [ROUNDS], at the top of the repository, after `rt ci exr` has built the program.
"""
import os, subprocess, sys, tempfile

import exr_file
import extract_speed
from extract_speed import PROGRAM, Picture, peak_of, timed

ROUNDS = int(sys.argv[1]) if len(sys.argv) > 1 else 15
WIDTH, HEIGHT = 1920, 1080
METHODS = {"no": 0, "rle": 1}
TOOLS = ("deep_picture", "deep_extract", "picture", "peak")


def least_times(kinds):
    least = {kind: float("inf") for kind in kinds}
    for _ in range(ROUNDS):
        for kind, words in kinds.items():
            least[kind] = min(least[kind], timed(words))
    return least


def deep(folder, method):
    """Measures the extraction of a deep picture."""
    source, head, buffer, twin_buffer = (os.path.join(folder, n) for n in ("deep.exr", "head", "out.raw", "twin.raw"))
    twin, launcher = (os.path.join(folder, n) for n in ("deep_extract", "peak"))
    channels = [exr_file.channel(b"A"), exr_file.channel(b"Z", exr_file.FLOAT)]
    front = exr_file.head(exr_file.deep(exr_file.picture(channels, (0, 0, WIDTH - 1, HEIGHT - 1), METHODS[method])), exr_file.DEEP)
    with open(head, "wb") as out:
        out.write(front)
    subprocess.run([os.path.join(folder, "deep_picture"), source, head, str(WIDTH), str(HEIGHT), method], check=True)
    kinds = {
        "exr extract": [PROGRAM, "extract", "in=" + source, "out=" + buffer],
        "C twin": [twin, source, twin_buffer, str(len(front)), str(WIDTH), str(HEIGHT)],
        "exr check": [PROGRAM, "check", "in=" + source],
    }
    least = least_times(kinds)
    if open(buffer, "rb").read() != open(twin_buffer, "rb").read():
        sys.exit("the two buffers differ")
    for kind, words in kinds.items():
        print(f"| deep, {method} | {kind} | {least[kind] / least['C twin']:.2f} | {peak_of(launcher, words):.1f} |", flush=True)


def check(folder, picture):
    """Measures the test of a flat picture."""
    source, launcher = os.path.join(folder, "in.exr"), os.path.join(folder, "peak")
    picture.make(source, folder)
    kinds = {
        "exr check": [PROGRAM, "check", "in=" + source],
        "reading alone": [PROGRAM, "extract", "in=" + source, "out=/dev/null", "channels=none"],
    }
    least = least_times(kinds)
    for kind, words in kinds.items():
        print(f"| {picture.name} | {kind} | {least[kind] / least['reading alone']:.2f} | {peak_of(launcher, words):.1f} |", flush=True)


def main():
    with tempfile.TemporaryDirectory(dir="/dev/shm") as folder:
        for name in TOOLS:
            subprocess.run(["gcc", "-O2", "-o", os.path.join(folder, name), f"tools/twins/{name}.c", "-lm"], check=True)
        print("| file | what | ratio to the C twin | peak memory, MiB |\n|---|---|---|---|")
        for method in METHODS:
            deep(folder, method)
        print("\n| file | what | ratio to reading alone | peak memory, MiB |\n|---|---|---|---|")
        for method in extract_speed.METHODS:
            check(folder, Picture(f"method {method}", WIDTH, HEIGHT, method=method))
        check(folder, Picture("100 MiB of scan lines", 4096, 3200))


if __name__ == "__main__":
    main()
