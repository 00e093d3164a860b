#!/usr/bin/env python3
"""side_by_side.py LEFT.png RIGHT.png OUT.png [STEP]: two pictures of one size beside each other, every STEP-th pixel, compressed.

docs/slabs.png is made of what the Rust example `slabs` draws: tools/rust-test, then
tools/side_by_side.py target/rust/slabs.png target/rust/slabs_source.png docs/slabs.png
"""
import struct
import sys
import zlib


def rows_of(path):
    """The rows of an RGB picture whose rows have no filter, as the examples write it."""
    data = open(path, "rb").read()
    at, size, packed = 8, None, b""
    while at < len(data):
        length, kind = struct.unpack(">I4s", data[at:at + 8])
        body = data[at + 8:at + 8 + length]
        if kind == b"IHDR":
            size = struct.unpack(">IIBBBBB", body)
        elif kind == b"IDAT":
            packed += body
        at += 12 + length
    width, height = size[:2]
    if size[2:4] != (8, 2):
        sys.exit(f"{path}: not eight bits of red, green and blue")
    raw, row = zlib.decompress(packed), 1 + 3 * width
    if any(raw[i * row] for i in range(height)):
        sys.exit(f"{path}: a filtered row")
    return [raw[i * row + 1:(i + 1) * row] for i in range(height)]


def chunk(kind, body):
    return struct.pack(">I", len(body)) + kind + body + struct.pack(">I", zlib.crc32(kind + body))


def main():
    left, right, out = sys.argv[1:4]
    step = int(sys.argv[4]) if len(sys.argv) > 4 else 1
    rows = [a + b for a, b in zip(rows_of(left), rows_of(right), strict=True)][::step]
    rows = [b"".join(row[i:i + 3] for i in range(0, len(row), 3 * step)) for row in rows]
    colours = sorted({row[i:i + 3] for row in rows for i in range(0, len(row), 3)})
    if len(colours) > 256:
        sys.exit("more than 256 colours")
    number = {colour: i for i, colour in enumerate(colours)}
    packed = b"".join(b"\0" + bytes(number[row[i:i + 3]] for i in range(0, len(row), 3)) for row in rows)
    head = struct.pack(">IIBBBBB", len(rows[0]) // 3, len(rows), 8, 3, 0, 0, 0)
    with open(out, "wb") as file:
        file.write(b"\x89PNG\r\n\x1a\n" + chunk(b"IHDR", head) + chunk(b"PLTE", b"".join(colours))
                   + chunk(b"IDAT", zlib.compress(packed, 9)) + chunk(b"IEND", b""))


main()
