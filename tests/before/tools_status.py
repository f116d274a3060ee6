"""tools/clampcheck with pretended programs: nothing but the one all-clear text of a job gives 0, and what is no answer gives 3."""

import pathlib
import sys

sys.dont_write_bytecode = True
sys.path[:0] = [str(pathlib.Path(__file__).resolve().parents[1])]

from pretended import TOP, in_folder, prints, run_parts  # noqa: E402
import answer  # noqa: E402
import exit_status  # noqa: E402
from harness.changed import changed  # noqa: E402
from job_bytes import Job, read_job, write_job  # noqa: E402
from refusals import mending  # noqa: E402

SIGN = (TOP / "examples" / "sign.job").read_bytes()
CLEAR = write_job(Job(3, [0, 0, 0, 0, 4, 4, 4, 4], [(0, 0), (0, 8), (8, 8), (8, 0)], 0, [(9, 12, 0, 4), (0, 8, 9, 10)]))
TURNED = write_job(Job(3, [0, 0, 0, 0, 4, 4, 4, 4], [(0, 0), (0, 8), (8, 8), (8, 0)], 0, [(9, 12, 0, 4), (8, 0, 9, 10)]))
TOO_WIDE = write_job(Job(3, [0, 0, 0, 0, 4, 4, 4, 4], [(0, 0), (0, 8), (8, 8), (8, 0)], 4097, [(9, 12, 0, 4), (0, 8, 9, 10)]))
OLD = CLEAR[:61] + CLEAR[66:]
CLEAR_TEXT = b"curve degree 3 points 4 spans 1\nclamp 1 clear\nclamp 2 clear\n"
MET_TEXT = b"curve degree 3 points 4 spans 1\nclamp 1 may meet 0..4\nclamp 2 clear\n"
BARE = write_job(Job(1, [0, 0, 1, 1], [(0, 0), (5, 5)], 0, []))
BARE_TEXT = b"curve degree 1 points 2 spans 1\n"
BROKEN_WORDS = """refused 19 at 4: a part of the job begins with another tag than belongs there
byte 4: here the knots begin with tag 2, found 7
python3 tools/job.py explain 'my broken.job' shows what stands at which byte
"""


OLD_WORDS = """refused 19 at 61: a part of the job begins with another tag than belongs there
byte 61: here the cutter's radius begins with tag 6, found 5
%s
""" % mending("my old.job")


# What the program does, the job, and the status that is right.
PRETENDED = [
    (prints(CLEAR_TEXT), CLEAR, 0),
    (prints(BARE_TEXT), BARE, 0),
    (prints(MET_TEXT), CLEAR, 1),
    ("printf 'refused 14\\n'", CLEAR, 2),
    ("printf 'refused 22\\n'", CLEAR, 2),
    ("printf 'refused 22 at 61\\n'", CLEAR, 3),
    ("printf 'refused 8\\n'", CLEAR, 3),
    ("printf 'refused 19 at 4\\n'", CLEAR, 2),
    ("printf 'refused 16 at 104\\n'", CLEAR, 2),
    ("printf 'refused 16\\n'", CLEAR, 3),
    ("printf 'refused 14 at 4\\n'", CLEAR, 3),
    ("printf 'refused 19 at 104\\n'", CLEAR, 3),
    ("printf 'refused 16 at 103\\n'", CLEAR, 3),
    ("printf 'refused 14\\nrefused 14\\n'", CLEAR, 3),
    ("true", CLEAR, 3),
    ("printf 'curve degree 3 points 4 sp'", CLEAR, 3),
    ("printf 'curve degree 3 points 4 spans 1\\nclamp 1 clear\\nclamp 2 cle'", CLEAR, 3),
    ("printf 'curve degree 3 points 4 spans 1\\nclamp 1 clear\\n'", CLEAR, 3),
    (prints(CLEAR_TEXT) + "; exit 1", CLEAR, 3),
    (prints(CLEAR_TEXT) + "; kill -9 $$", CLEAR, 3),
    ("printf 'curve \\377\\n'", CLEAR, 3),
    (prints(CLEAR_TEXT), CLEAR[:-1], 3),
    (prints(CLEAR_TEXT), TURNED, 3),
    (prints(CLEAR_TEXT), TOO_WIDE, 3),
    (prints(CLEAR_TEXT), OLD, 3),
]


def word(printed, job):
    """What a text says of a job, None where it is not understood."""
    try:
        return answer.read_answer(printed, job).word()
    except answer.NotUnderstood:
        return None


def texts():
    """In one process: whatever is changed in an all-clear text, it says all clear no more."""
    for job, text in ((CLEAR, CLEAR_TEXT), (BARE, BARE_TEXT)):
        assert word(text, job) == answer.ALL_CLEAR, "the all-clear text is not understood"
        for other in changed(text):
            assert other == text or word(other, job) != answer.ALL_CLEAR, "%r counts as all clear" % other
    assert word(MET_TEXT, CLEAR) == answer.MAY_MEET
    for text in (CLEAR_TEXT, MET_TEXT, BARE_TEXT):
        assert word(text, SIGN) is None, "the text of another job is understood"
    for text in (b"clamp 2 may meet 20..30\nclamp 2 may meet 10..20\n", b"clamp 2 may meet 10..30\n", b"clamp 2 may meet 10..20\n" * 2):
        job = read_job(SIGN)
        whole = b"curve degree 3 points 12 spans 9\nclamp 1 clear\n" + text + b"clamp 3 clear\nclamp 4 clear\nclamp 5 clear\n"
        assert len(job.clamps) == 5 and word(whole, SIGN) is None, "%r is understood" % text
    assert [exit_status.ENDS[word] for word in (answer.ALL_CLEAR, answer.MAY_MEET, answer.REFUSED)] == [10, 11, 12]


def refusals():
    """A refusal is understood with a place where its number has one, and with no other place than one of the job."""
    for number in range(31):
        for place in (None, 0, 4, len(CLEAR) - 1, len(CLEAR), len(CLEAR) + 1):
            text = b"refused %d" % number + (b"" if place is None else b" at %d" % place) + b"\n"
            if number in (1, 2, 3, 4, 5, 6, 7, 14, 22):
                right = place is None
            else:
                right = place is not None and (place == len(CLEAR) if number == 16 else number in (19, 20, 21) and place < len(CLEAR))
            assert (word(text, CLEAR) == answer.REFUSED) == right, "%r is %s" % (text, word(text, CLEAR))
            assert not right or (answer.read_answer(text, CLEAR).refusal, answer.read_answer(text, CLEAR).place) == (number, place)
    plain = {b"refused %d\n" % number for number in (1, 2, 3, 4, 5, 6, 7, 14, 22)}
    placed = {b"refused %d at %d\n" % (number, place) for number in (16, 19, 20, 21) for place in range(len(CLEAR) + 1)}
    for other in (*changed(b"refused 19 at 4\n"), *changed(b"refused 16 at 104\n"), b"refused 19 at  4\n", b"refused 19 at -4\n"):
        assert other in plain | placed or word(other, CLEAR) is None, "%r counts as a refusal" % other


@in_folder
def programs(folder):
    """As a process: the status, and that a text which is no answer is not passed on."""
    for text, job, right in PRETENDED:
        folder.pretend_program("cat >/dev/null; " + text)
        ended = folder.run("tools/clampcheck", given=job)
        assert ended.returncode == right, "%s: status %d and not %d; %r" % (text, ended.returncode, right, ended.stderr)
        assert bool(ended.stdout) == (right != 3), "%s: printed %r" % (text, ended.stdout)
        assert bool(ended.stderr) == (right > 1), "%s: said %r" % (text, ended.stderr)
        assert b"Traceback" not in ended.stderr, ended.stderr.decode()
    for name, job, said, words in (
        ("my broken.job", CLEAR[:4] + b"\7" + CLEAR[5:], b"refused 19 at 4\n", BROKEN_WORDS),
        ("my old.job", OLD, b"refused 19 at 61\n", OLD_WORDS),
    ):
        (folder.top / name).write_bytes(job)
        folder.pretend_program(prints(said))
        ended = folder.run("tools/clampcheck", name)
        assert (ended.returncode, ended.stdout) == (2, said), ended
        assert ended.stderr.decode() == words, ended.stderr.decode()


@in_folder
def surroundings(folder):
    """No file, no output, no program, no Python: 3. The kit is not needed, and not there."""
    folder.pretend_program(prints(CLEAR_TEXT))
    clear = folder.top / "clear.job"
    clear.write_bytes(CLEAR)
    assert folder.run("tools/clampcheck", clear).returncode == 0, "a file is not read"
    link = folder.top / "link"
    link.symlink_to(folder.top / "tools" / "clampcheck")
    assert folder.run(link, clear).returncode == 0, "it does not run by way of a link"
    for words, said in (
        (("tools/clampcheck", "none.job"), b"none.job: No such file"),
        (("tools/clampcheck", "tools"), b"tools: Is a directory"),
        (("tools/clampcheck", clear, clear), b"Give a job"),
        (("sh", "-c", "tools/clampcheck clear.job >/dev/full"), b"No space left"),
        (("sh", "-c", "tools/clampcheck clear.job >&-"), b"Bad file descriptor"),
        (("sh", "-c", "tools/clampcheck <&-"), b"Bad file descriptor"),
    ):
        ended = folder.run(*words)
        assert ended.returncode == 3 and said in ended.stderr, "%s: %d %r" % (words, ended.returncode, ended.stderr)
    endless = folder.run("sh", "-c", "ulimit -v 1000000; tools/clampcheck /dev/zero")
    assert endless.returncode == 3 and b"MemoryError" not in endless.stderr, "a file without end is read on and on"
    folder.built().unlink()
    ended = folder.run("tools/clampcheck", clear)
    assert ended.returncode == 3 and b"tools/try.sh proves and builds it" in ended.stderr, "no program: %r" % ended.stderr
    folder.built().write_bytes(b"")
    ended = folder.run("tools/clampcheck", clear)
    assert ended.returncode == 3 and b"could not be started" in ended.stderr, "no program that runs: %r" % ended.stderr
    (folder.commands / "python3").unlink()
    assert folder.run("tools/clampcheck", clear).returncode == 3, "no Python"


run_parts("tools/clampcheck: changed texts, refusals with places, %d pretended programs, 10 surroundings" % len(PRETENDED), texts, refusals, programs, surroundings)
