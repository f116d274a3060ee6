"""Reads a PNG picture as rsvg-convert writes it, and keeps of each pixel how opaque it is: 0 for nothing, 255 for all of it."""

import struct
import zlib

HEAD = b"\x89PNG\r\n\x1a\n"
CHANNELS, OPAQUE = 4, 3  # red, green, blue and the one that is kept; 8 bits each


class NotRead(Exception):
    """A picture of another kind."""


def chunks(data):
    """The parts of a PNG file by name and contents."""
    if not data.startswith(HEAD):
        raise NotRead("this is no PNG picture: %r" % data[:20])
    at = len(HEAD)
    while at < len(data):
        (length,) = struct.unpack_from(">I", data, at)
        yield data[at + 4 : at + 8], data[at + 8 : at + 8 + length]
        at += 12 + length


def nearest(left, up, corner):
    """Of three bytes the one that is nearest to left + up - corner."""
    guess = left + up - corner
    return min((left, up, corner), key=lambda byte: abs(guess - byte))


GUESS = (
    lambda left, up, corner: 0,
    lambda left, up, corner: left,
    lambda left, up, corner: up,
    lambda left, up, corner: (left + up) // 2,
    nearest,
)


def read_row(kind, bytes_there, above):
    """A row of one channel: each byte stands for its difference from a guess."""
    guess, row = GUESS[kind], bytearray()
    left = corner = 0
    for byte, up in zip(bytes_there, above):
        left = (byte + guess(left, up, corner)) & 255
        row.append(left)
        corner = up
    return row


def opaque(data):
    """Width, height and the rows."""
    parts = list(chunks(data))
    wide, high, *kind = struct.unpack(">IIBBBBB", parts[0][1])
    if kind != [8, 6, 0, 0, 0]:
        raise NotRead("this picture has no plain bytes of red, green, blue and opacity: %s" % kind)
    packed = zlib.decompress(b"".join(contents for name, contents in parts if name == b"IDAT"))
    rows, above, size = [], bytes(wide), 1 + CHANNELS * wide
    for at in range(0, size * high, size):
        above = read_row(packed[at], packed[at + 1 + OPAQUE : at + size : CHANNELS], above)
        rows.append(above)
    return wide, high, rows
