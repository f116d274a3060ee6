"""Runs a built program on bytes that come at once, a few at a time, from a file or not at all, and compares what it prints with what is right.

A run is its name, what runs it, the text that is right, and the bytes where they are handed over at once.
"""

import os
import re
import subprocess
import threading
import time
from concurrent.futures import ThreadPoolExecutor

TIMEOUT = 40
MASKS = (0x01, 0x80, 0xFF)


def printed(status, text):
    """What was printed, with the status in front where it is not 0, as it always has to be."""
    return ("status %d: " % status if status else "") + text.decode("ascii")


def printed_by(words, **more):
    ended = subprocess.run(words, timeout=TIMEOUT, **{"stdout": subprocess.PIPE, **more})
    return printed(ended.returncode, ended.stdout or b"")


def whole(words, data):
    """Standard input is a pipe that receives the bytes at once."""
    return printed_by(words, input=data)


def in_pieces(words, data, size, pause):
    """Standard input is a pipe that receives a few bytes at a time."""
    child = subprocess.Popen(words, stdin=subprocess.PIPE, stdout=subprocess.PIPE)

    def feed():
        for at in range(0, len(data), size):
            os.write(child.stdin.fileno(), data[at : at + size])
            time.sleep(pause)
        child.stdin.close()

    feeder = threading.Thread(target=feed)
    feeder.start()
    text = child.stdout.read()
    feeder.join()
    child.stdout.close()
    return printed(child.wait(TIMEOUT), text)


def from_file(words, path):
    """Standard input is a file, or something else that can be opened."""
    descriptor = os.open(path, os.O_RDONLY)
    try:
        return printed_by(words, stdin=descriptor)
    finally:
        os.close(descriptor)


def closed(words):
    """There is no standard input at all."""
    return printed_by(["sh", "-c", 'exec "$@" <&-', "sh", *words])


def lost(words, data):
    """Standard output is a device that is full, so that nothing of the text arrives."""
    with open("/dev/full", "wb") as full:
        return printed_by(words, input=data, stdout=full)


def without_bytes(words, right):
    """Runs in which no byte comes: an empty pipe and file, and a standard input that is closed or cannot be read."""
    yield "an empty pipe", lambda: in_pieces(words, b"", 1, 0), right, None
    yield "closed standard input", lambda: closed(words), right, None
    yield "unreadable standard input", lambda: from_file(words, "/"), right, None
    yield "an empty file", lambda: from_file(words, os.devnull), right, None


def damaged(name, data, places):
    """Bytes cut at each of the places, and with the byte there changed in three ways."""
    for at in places:
        yield "%s cut at %d" % (name, at), data[:at]
        for mask in MASKS:
            yield "byte %d of %s changed by %#x" % (at, name, mask), data[:at] + bytes([data[at] ^ mask]) + data[at + 1 :]


def answers_to(chosen):
    with ThreadPoolExecutor(4) as pool:
        return list(pool.map(lambda run: run[1](), chosen))


def wrong(chosen, answers):
    """The chosen runs that print something else than they should: name, what was printed, what is right."""
    return [(run[0], answer, run[2]) for run, answer in zip(chosen, answers) if answer != run[2]]


def wrong_in_words(chosen, answers):
    return ["%s: printed %r where %r is right" % (name, answer[:200], right[:200]) for name, answer, right in wrong(chosen, answers)]


def passing_fixed(runs, texts):
    """The texts that a program may print whatever it reads, and would pass; runs makes the runs of a program from the words that start it."""
    for fixed in texts:
        fake = ["sh", "-c", 'cat >/dev/null 2>&1; printf %s "$0"', fixed]
        few = list(runs(fake))[::9]
        if len(wrong(few, answers_to(few))) <= 10:
            yield "a program that prints %r would pass" % fixed


def farther(answers):
    """The answers with every place one too far."""
    return [re.sub(r" at (\d+)\n", lambda place: " at %d\n" % (int(place[1]) + 1), answer) for answer in answers]


def unnoticed(chosen, answers, changed, least):
    """Whether some of the changed answers would pass, or fewer than so many are changed."""
    moved = sum(one != other for one, other in zip(answers, changed))
    return moved < least or len(wrong(chosen, changed)) < moved
