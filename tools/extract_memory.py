#!/usr/bin/env python3
"""Measures what `exr extract` and `exr check` take for small files that claim much: the status, the peak and the processor
time of the program. Prints the table of docs/PERFORMANCE.md, and stops where a peak passes 32 MiB.

Use: tools/extract_memory.py, at the top of the repository, after `rt ci exr` has built the program.
"""
import sys

import exr_file
from peak import measured


def attributes(width, height, samplings, method=0):
    """The attributes of a picture of scan lines, of HALF channels with these y samplings: 18 bytes each in the channel list,
    19 from the eleventh on."""
    names = sorted(str(i).encode() for i in range(len(samplings)))
    listed = [exr_file.channel(name, sampling=(1, ys)) for name, ys in zip(names, samplings)]
    return exr_file.picture(listed, (0, 0, width - 1, height - 1), method)


def head(width, height, samplings=(1,)):
    """The head of a picture of scan lines without compression: 277 bytes with one channel."""
    return exr_file.head(attributes(width, height, samplings))


def blocks(count, width, height, samplings):
    """The head of a file of `count` parts in blocks of 32 lines, under PIZ."""
    one = attributes(width, height, samplings, 4)
    return exr_file.parts_head([exr_file.part(one, str(number).encode(), -(-height // 32)) for number in range(count)])


def first_chunk(width, height):
    """The head with a table of which only the first entry is written, and the first chunk."""
    front = head(width, height)
    table = exr_file.offsets(len(front) + 8 * height, [0]) + bytes(8 * (height - 1))
    return front + table + exr_file.chunk(exr_file.line_fields(0), bytes(2 * width))


def ten_bytes(method, lines):
    """A picture of one chunk of `lines` lines whose ten bytes of data claim 2^26 raw ones."""
    front = exr_file.head(attributes(1 << 20, lines, (1,) * (32 // lines), method))
    return exr_file.file_of(front, [exr_file.chunk(exr_file.line_fields(0), bytes(10))])


def deep_head(width, height, method=0):
    """The head of a deep picture of scan lines with one HALF channel."""
    one = [exr_file.channel(b"A")]
    return exr_file.head(exr_file.deep(exr_file.picture(one, (0, 0, width - 1, height - 1), method)), exr_file.DEEP)


def deep_chunk(width, table, samples, unpacked, method):
    """A deep picture of one line, with one chunk of this data."""
    chunk = exr_file.deep_chunk(exr_file.line_fields(0), table, samples, unpacked)
    return exr_file.file_of(deep_head(width, 1, method), [chunk])


def too_many_pixels():
    """A deep picture of 2^20 by 257 pixels, four bytes each more than 2^30, of which the first line is there and has no samples."""
    front = deep_head(1 << 20, 257, 1)
    table = b"\0\0" + b"\x7f\x80" * 32767 + b"\x7e\x80"  # 2^22 zeros as run lengths
    return exr_file.file_of(front, [exr_file.deep_chunk(exr_file.line_fields(0), table, b"", 0)] + [b""] * 256)


def cases():
    yield "1 by 2^20 pixels claimed, 300 bytes", head(1, 1 << 20).ljust(300, b"a")
    yield "2^20 by 512 pixels claimed (a buffer of 2^30 bytes), 300 bytes", head(1 << 20, 512).ljust(300, b"a")
    yield "1 by 2^20 pixels, the first chunk and a table of zeros", first_chunk(1, 1 << 20)
    yield "1 by 2^20 pixels claimed, of y samplings 1 and 2^20, 300 bytes", head(1, 1 << 20, (1, 1 << 20)).ljust(300, b"a")
    divisors = [n for n in range(1, 720721) if 720720 % n == 0]
    yield f"1 by 720,720 pixels claimed, of {len(divisors)} y samplings", head(1, 720720, divisors)
    yield "46 such parts in blocks of 32 lines", blocks(46, 1, 720720, divisors)
    for name, method, lines in (("RLE", 1, 1), ("PIZ", 4, 32), ("B44", 6, 32), ("B44A", 7, 32)):
        yield f"a chunk of ten bytes that claims 2^26 raw ones, {name}", ten_bytes(method, lines)
    yield "2^20 by 2^20 deep pixels claimed, 600 bytes", deep_head(1 << 20, 1 << 20).ljust(600, b"a")
    yield "2^20 by 257 deep pixels, the first line of which is there, RLE", too_many_pixels()
    yield "2^20 deep pixels whose ten bytes of counts claim 2^22, RLE", deep_chunk(1 << 20, bytes(10), b"", 0, 1)
    yield "a deep pixel whose ten bytes of samples claim 2^26, RLE", deep_chunk(1, (1 << 25).to_bytes(4, "little"), bytes(10), 1 << 26, 1)


def main():
    print("| command, file | status | file, bytes | peak, MiB | time, ms |")
    print("|---|---|---|---|---|")
    for words in (["extract", "in={in}", "out={out}"], ["check", "in={in}"]):
        for name, data, status, peak, time in measured(words, cases()):
            print(f"| {words[0]}, {name} | {status} | {len(data):,} | {peak / 1024:.1f} | {time / 1000:.1f} |", flush=True)
            if status == 0 or peak > 32 * 1024:
                sys.exit("not refused, or with too much memory")


if __name__ == "__main__":
    main()
