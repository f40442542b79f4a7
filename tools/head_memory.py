#!/usr/bin/env python3
"""Measures how much memory `exr header` takes for heads that a stranger could send: the peak of the program, and how many
bytes that is for each byte of the file, beyond 4 MiB. Prints the table of docs/PERFORMANCE.md.

Use: tools/head_memory.py, at the top of the repository, after `rt ci exr` has built the program.
"""
import struct, sys

import exr_file
from peak import measured


def head(more, channels=(b"Y",)):
    """The head of one pixel of HALF channels, with more attributes before its own."""
    return exr_file.head(more + exr_file.picture([exr_file.channel(name) for name in channels], (0, 0, 0, 0)))


def tiny(size):
    """Attributes without bytes under the shortest names, so many that they fill a size."""
    digits, out, filled, k = bytes(range(1, 256)), [], 0, 0
    while filled < size:
        name, n = b"", k
        while True:
            name, n = name + digits[n % 255:n % 255 + 1], n // 255
            if n == 0:
                break
        out.append(exr_file.attribute(name, b"a", b""))
        filled += len(out[-1])
        k += 1
    return b"".join(out)


def cases():
    front = exr_file.front()
    yield "one channel", head(b"")
    yield "1,025 channels", head(b"", [b"%04d" % k for k in range(1025)])
    yield "an attribute that claims 2^31 - 1 bytes", (front + b"a\0string\0" + struct.pack("<i", 2**31 - 1)).ljust(300, b"a")
    yield "tiny attributes, 1 MiB", head(tiny(1 << 20))
    yield "tiny attributes, almost 16 MiB", head(tiny((1 << 24) - 2000))
    yield "tiny attributes that never end, 17 MiB", front + tiny(17 << 20)
    yield "one attribute of almost 16 MiB", head(exr_file.attribute(b"a", b"string", bytes((1 << 24) - 2000)))


def main():
    print("| head | status | file, bytes | peak, MiB | bytes a byte beyond 4 MiB |")
    print("|---|---|---|---|---|")
    for name, data, status, peak, _ in measured(["header", "in={in}"], cases()):
        ratio = max(0, 1024 * peak - (4 << 20)) / min(len(data), (1 << 24) + 1)
        print(f"| {name} | {status} | {len(data):,} | {peak / 1024:.1f} | {ratio:.1f} |", flush=True)
        if ratio > 64:
            sys.exit("more than 64 bytes a byte")


if __name__ == "__main__":
    main()
