#!/usr/bin/env python3
"""Makes the pictures of the repository: crates/exr/data/picture.exr for the tour in README.md, 64 by 64 pixels, and
crates/exr_example/data/small.exr for the program of docs/LIBRARY.md, 8 by 8. Both have the HALF channels B, G and R in scan
lines without compression. Red grows from left to right and green from top to bottom, and blue is a disc in the middle.

Use: tools/make_picture.py, at the top of the repository.
"""
import struct

import exr_file


def samples(side, line):
    """The samples of a line, one channel after another."""
    last = side - 1
    blue = [1.0 if (2 * x - last) ** 2 + (2 * line - last) ** 2 < side ** 2 // 2 else 0.125 for x in range(side)]
    return struct.pack(f"<{3 * side}e", *blue, *[line / last] * side, *[x / last for x in range(side)])


def make(name, side):
    """Writes a picture with sides of so many pixels."""
    channels = [exr_file.channel(name) for name in (b"B", b"G", b"R")]
    head = exr_file.head(exr_file.picture(channels, (0, 0, side - 1, side - 1)))
    chunks = [exr_file.chunk(exr_file.line_fields(line), samples(side, line)) for line in range(side)]
    with open(name, "wb") as file:
        file.write(exr_file.file_of(head, chunks))


if __name__ == "__main__":
    make("crates/exr/data/picture.exr", 64)
    make("crates/exr_example/data/small.exr", 8)
