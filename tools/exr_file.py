"""Spells OpenEXR files byte by byte, for the scripts beside this one: attributes, headers, heads, offsets and chunks.
Nothing is validated, so that a script can spell files that no reader accepts."""
import struct

MAGIC = b"\x76\x2f\x31\x01"
TILED, DEEP, MULTI = 0x200, 0x800, 0x1000  # flags of the version word
UINT, HALF, FLOAT = 0, 1, 2
ONE = struct.pack("<f", 1.0)


def attribute(name, kind, value):
    """An attribute: its name, its type, the size of its value, and the value."""
    return name + b"\0" + kind + b"\0" + struct.pack("<i", len(value)) + value


def channel(name, kind=HALF, sampling=(1, 1)):
    """An entry of a channel list, with pLinear 0."""
    return name + b"\0" + struct.pack("<4i", kind, 0, *sampling)


def picture(channels, window, method=0, order=0, tile=0):
    """The attributes that each header has, in the order of their names: a list of entries of a channel list, which a
    reader wants in the order of their names, the window (first column and line, and the last ones), the numbers of
    method and line order, and the side of the tiles, or 0 for scan lines."""
    box = struct.pack("<4i", *window)
    tiles = attribute(b"tiles", b"tiledesc", struct.pack("<2IB", tile, tile, 0)) if tile else b""
    return (attribute(b"channels", b"chlist", b"".join(channels) + b"\0")
            + attribute(b"compression", b"compression", bytes([method]))
            + attribute(b"dataWindow", b"box2i", box) + attribute(b"displayWindow", b"box2i", box)
            + attribute(b"lineOrder", b"lineOrder", bytes([order])) + attribute(b"pixelAspectRatio", b"float", ONE)
            + attribute(b"screenWindowCenter", b"v2f", bytes(8)) + attribute(b"screenWindowWidth", b"float", ONE) + tiles)


def front(flags=0):
    """The magic number and the version word."""
    return MAGIC + struct.pack("<I", flags | 2)


def head(attributes, flags=0):
    """The head of a file of one part: `TILED` is its flag where it is in tiles."""
    return front(flags) + attributes + b"\0"


def deep(attributes, kind=b"deepscanline"):
    """The attributes of a deep part: those that each header has, and its type and version."""
    return attributes + attribute(b"type", b"string", kind) + attribute(b"version", b"int", struct.pack("<i", 1))


def part(attributes, name, chunks, kind=b"scanlineimage"):
    """The header of a part among others, which has `chunks` chunks."""
    return (attributes + attribute(b"name", b"string", name) + attribute(b"type", b"string", kind)
            + attribute(b"chunkCount", b"int", struct.pack("<i", chunks)) + b"\0")


def parts_head(parts):
    """The head of a file of many parts."""
    return front(MULTI) + b"".join(parts) + b"\0"


def line_fields(line):
    """What a chunk of lines says of its place: the first of them."""
    return struct.pack("<i", line)


def tile_fields(column, row):
    """What a chunk of one tile of the first level says of its place."""
    return struct.pack("<4i", column, row, 0, 0)


def chunk(fields, packed):
    """A chunk: its place, the size of its data, and the data."""
    return fields + struct.pack("<I", len(packed)) + packed


def deep_chunk(fields, table, samples, unpacked):
    """A chunk of a deep part: its place, the sizes of its table and samples, the size that the samples have unpacked, and both."""
    return fields + struct.pack("<3Q", len(table), len(samples), unpacked) + table + samples


def offsets(first, sizes):
    """The offsets of chunks of these sizes, of which the first is at `first` and each other after the one before."""
    table = bytearray()
    for size in sizes:
        table += struct.pack("<Q", first)
        first += size
    return bytes(table)


def file_of(head, chunks):
    """A file: its head, the offsets of its chunks, and the chunks, in one order."""
    return head + offsets(len(head) + 8 * len(chunks), map(len, chunks)) + b"".join(chunks)
