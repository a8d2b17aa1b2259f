#!/usr/bin/env python3
"""Turns a grey PGM on standard input into a PNG on standard output, each place into 4 x 4 pixels."""
import struct
import sys
import zlib

SCALE = 4


def chunk(name, data):
    return struct.pack(">I", len(data)) + name + data + struct.pack(">I", zlib.crc32(name + data))


def png(width, height, places):
    rows = [places[at : at + width] for at in range(0, width * height, width)]
    wide = [b"\0" + bytes(grey for grey in row for _ in range(SCALE)) for row in rows]
    head = struct.pack(">IIBBBBB", SCALE * width, SCALE * height, 8, 0, 0, 0, 0)
    data = zlib.compress(b"".join(SCALE * row for row in wide), 9)
    return b"\x89PNG\r\n\x1a\n" + chunk(b"IHDR", head) + chunk(b"IDAT", data) + chunk(b"IEND", b"")


parts = sys.stdin.buffer.read().split(b"\n", 3)
if len(parts) < 4 or parts[0] != b"P5" or parts[2] != b"255":
    sys.exit("png.py: no picture as examples/draw writes it")
width, height = map(int, parts[1].split())
sys.stdout.buffer.write(png(width, height, parts[3]))
