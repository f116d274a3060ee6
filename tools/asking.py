"""Asks clampcheck or curvesvg about a file: what each is given of the bytes in it, how its text is read, and its refusals in words."""

import answer
import job_bytes
import path_answer
import program
import refusals


class Asked:
    """A program by its name, with what it takes of a file, what reads its text, and what says where it refuses."""

    def __init__(self, name, given, read, judge):
        self.name, self.given, self.read, self.judge = name, given, read, judge

    def prints(self, data):
        """What the program prints on a file's bytes, or NotRun."""
        return program.run(self.name, self.given(data))

    def understood(self, printed, data):
        """What the program printed on a file's bytes, read, or NotUnderstood."""
        return self.read(printed, self.given(data))

    def told(self, found, data, name):
        """Lines that say its refusal of the file of this name."""
        return refusals.told(found.refusal, found.place, self.given(data), name, self.judge)


CLAMPCHECK = Asked("clampcheck", bytes, answer.read_answer, refusals.judged)
CURVESVG = Asked("curvesvg", job_bytes.record_in, path_answer.read_path, refusals.judged_record)
BY_NAME = {asked.name: asked for asked in (CLAMPCHECK, CURVESVG)}
