"""Texts that differ from a right one by as little as can be."""


def changed(text, others=b"0129 \nacr.\x00\xff"):
    """Every text that one byte less, or one of the others more or instead, makes, every front and every order of two lines."""
    for at in range(len(text) + 1):
        yield text[:at]
        yield text[:at] + text[at + 1 :]
        for byte in others:
            yield text[:at] + bytes([byte]) + text[at:]
            yield text[:at] + bytes([byte]) + text[at + 1 :]
    lines = text.splitlines(True)
    for a in range(len(lines)):
        for b in range(len(lines)):
            swapped = list(lines)
            swapped[a], swapped[b] = lines[b], lines[a]
            yield b"".join(swapped)
            yield b"".join(lines[:a] + lines[b:])
