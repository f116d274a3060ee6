"""Tells what some bytes are: a job, a text in one of the usual encodings, or neither."""

JOB, EMPTY, BYTES = "a job", "empty", "no text"
UTF8, UTF16, UTF32, LATIN = "UTF-8 text", "UTF-16 text", "UTF-32 text", "Latin-1 or Windows-1252 text"
MARKS = ((b"\xff\xfe\0\0", UTF32), (b"\0\0\xfe\xff", UTF32), (b"\xff\xfe", UTF16), (b"\xfe\xff", UTF16))
JOB_HEAD = b"\x01\x01\x00"
CONTROLS = bytes(sorted({*range(32), 127} - set(b"\t\n\v\f\r")))


def half_zero(data):
    """UTF-16 of plain words without a mark: most bytes at even places, or most at odd ones, are zero and no others."""
    for zeros, others in ((data[::2], data[1::2]), (data[1::2], data[::2])):
        if others and 2 * zeros.count(0) > len(zeros) and not set(others) & set(CONTROLS):
            return True
    return False


def kind(data):
    """What the bytes are, as one of the words above."""
    if not data:
        return EMPTY
    if data.startswith(JOB_HEAD):
        return JOB
    for mark, name in MARKS:
        if data.startswith(mark):
            return name
    if half_zero(data):
        return UTF16
    if set(data) & set(CONTROLS):
        return BYTES
    try:
        data.decode("utf-8")
    except UnicodeDecodeError:
        return LATIN
    return UTF8


def is_text(data):
    return kind(data) in (UTF8, UTF16, UTF32, LATIN)
