"""The parts of a picture, for tools/draw.py."""
