"""A kept match, and whether a program still gives its answers.

Beside NAME.script stand its answers, NAME.answers, or their digests, NAME.digests, or both. The first line of the digests
tells of the answers, and each other one is a turn's number and digest, or the line of a bad line:

    answers 2 word replay status 0 turns 2
    turn 1 0b4c4f9a3b7d1c55
    turn 2 5f0e3a2f7d8897a1
"""
import itertools
import os
import subprocess
import tempfile

import turns
from commands import Unreadable, bytes_of, opened

WORDS = ("replay", *turns.NOTES.values())
WHOLE = (0, 3, 7)  # the statuses that a script alone decides
AGREES, DIFFERS, FAILED, CUT, OTHER, STORED, THERE = "agree", "differ", "failed", "cut short", "not compared", "stored", "there already"


class Finding:
    """What became of a match; why, and at which turn, post and lines, where it does not agree."""

    def __init__(self, kind, why="", turn=None, post=None, kept=None, answered=None):
        self.kind, self.why, self.turn, self.post, self.kept, self.answered = kind, why, turn, post, kept, answered

    def values(self):
        return {name: value for name, value in vars(self).items() if value not in (None, "")}


class Kept:
    """What is kept of a match's answers."""

    def __init__(self, script):
        stem = script.removesuffix(".script")
        self.answers, self.digests = f"{stem}.answers", f"{stem}.digests"
        self.has_answers, self.has_digests = os.path.isfile(self.answers), os.path.isfile(self.digests)
        self.number = self.word = self.status = None
        if self.has_digests:
            self.read_digests()

    def read_digests(self):
        lines = bytes_of(self.digests).decode("ascii", "replace").splitlines()
        head = (lines or [""])[0].split(" ")
        names, values = head[::2], head[1::2]
        is_good = names == ["answers", "word", "status", "turns"] and len(values) == 4 and values[1] in WORDS
        if not is_good or not all(values[it].isdecimal() for it in (0, 2, 3)):
            raise Unreadable(f"{self.digests} does not begin as digests do")
        self.number, self.word, self.status = int(values[0]), values[1], int(values[2])
        self.lines = lines[1:]
        if sum(it.startswith("turn ") for it in self.lines) != int(values[3]):
            raise Unreadable(f"{self.digests} has not the {values[3]} turns that it tells of")


class How:
    """By which program matches are played, which answers it gives, under which word, and whether its own words are kept."""

    def __init__(self, program, number, word, tells_why):
        self.program, self.number, self.word, self.tells_why = program, number, word, tells_why


class Run:
    """A run of the program over a script, whose answers are read as lines."""

    def __init__(self, how, word, script):
        self.errors = tempfile.TemporaryFile() if how.tells_why else None
        with opened(script) as it:
            words = [how.program, word, "--workers", "1"]
            self.process = subprocess.Popen(words, stdin=it, stdout=subprocess.PIPE, stderr=self.errors or subprocess.DEVNULL)
        self.lines = self.process.stdout

    def __enter__(self):
        return self

    def __exit__(self, *_):
        if self.process.poll() is None:
            self.process.kill()
        self.lines.close()
        self.process.wait()
        if self.errors:
            self.errors.close()

    def status(self):
        self.lines.close()
        return self.process.wait()

    def failure(self):
        """The finding where the run did not come to its own end, or None."""
        status = self.status()
        if status in WHOLE:
            return None
        name = f"by signal {-status}" if status < 0 else f"with status {status}"
        return Finding(FAILED, ": ".join([f"the program ended {name}", *self.said()]))

    def said(self):
        """The first line that the program wrote on standard error, where it was kept."""
        if not self.errors:
            return []
        self.errors.seek(0)
        return self.errors.read(2000).decode("utf-8", "replace").splitlines()[:1]


def has_ended(line, other):
    """Whether a text ends in or before the line in which it differs from another."""
    return not line.endswith(b"\n") and other.startswith(line)


def text_of(line):
    return line.decode("utf-8", "replace").rstrip("\n")


def by_text(run, script, kept, word):
    """The finding of a run beside the kept text."""
    with opened(kept.answers) as others:
        found = turns.first_difference(run.lines, others)
    if found is None:
        return at_the_end(run, kept)
    turn, line, other = found.turn, found.line, found.other
    if has_ended(line, other) and run.failure():
        return run.failure()
    is_cut = has_ended(other, line) and not line.startswith(b"bad line ")
    if turns.word_of(line) != turns.word_of(other) and not (is_cut and other):
        return Finding(OTHER, f"it is kept under {turns.word_of(other) or 'replay'}, and was run under {word}")
    if is_cut:
        is_whole = other == b"" and turns.number_of(line)
        return Finding(CUT, f"the kept answers end after turn {turn - 1}" if is_whole else f"the kept answers end within turn {turn}", turn)
    if has_ended(line, other) and turns.number_of(other):
        return Finding(CUT, f"the script ends after turn {turn - 1}, and its kept answers go on", turn)
    if is_behind(text_of(line), script):
        return Finding(CUT, f"the script ends within turn {turn}", turn)
    return differing(found)


def differing(found):
    return Finding(DIFFERS, "", found.turn, found.post(), text_of(found.other), text_of(found.line))


def is_behind(line, script):
    """Whether a line of answers says that the line behind a script's last one is bad: the script ends within a turn."""
    if not line.startswith("bad line "):
        return False
    return line == f"bad line {1 + len(bytes_of(script).splitlines())}"


def digest_lines(lines):
    """The lines of digests that answers have."""
    beside = []
    for turn, value in turns.digests(lines, beside.append):
        yield f"turn {turn} {value:016x}"
    yield from map(text_of, beside)


def by_digests(run, script, kept):
    """The finding of a run beside the kept digests."""
    told = digest_lines(run.lines)
    pairs = enumerate(itertools.zip_longest(told, kept.lines, fillvalue=""), 1)
    turn, line, other = next(((at, *it) for at, it in pairs if it[0] != it[1]), (0, "", ""))
    if not turn:
        return at_the_end(run, kept)
    is_last = next(told, None) is None  # of a program that was stopped the last turn may be cut
    if is_last and run.failure():
        return run.failure()
    if not line and other.startswith("turn "):
        return Finding(CUT, f"the script ends after turn {turn - 1}, and its kept answers go on", turn)
    if line.startswith("turn ") and not other:
        return Finding(CUT, f"the kept answers end after turn {turn - 1}", turn)
    if is_behind(line, script):
        return Finding(CUT, f"the script ends within turn {turn}", turn)
    return Finding(DIFFERS, "", turn, None, other, line)


def at_the_end(run, kept):
    """The finding of a run whose whole text is as it is kept."""
    failure, status = run.failure(), run.status()
    if failure or kept.status in (None, status):
        return failure or Finding(AGREES)
    return Finding(DIFFERS, f"the text is the same, and the status is {status} and was {kept.status}")


def checked(how, script):
    """Whether a program gives what is kept beside a script, under the word that is kept with it."""
    try:
        kept = Kept(script)
        if not kept.has_answers and not kept.has_digests:
            return Finding(OTHER, "no answers are kept beside it")
        if None not in (how.number, kept.number) and how.number != kept.number:
            return Finding(OTHER, f"it is kept with answers {kept.number}, and the program gives answers {how.number}")
        word = kept.word or how.word
        with Run(how, word, script) as run:
            return by_text(run, script, kept, word) if kept.has_answers else by_digests(run, script, kept)
    except Unreadable as it:
        return Finding(OTHER, str(it))
    except OSError as it:
        return Finding(FAILED, f"{it.filename or how.program}: {it.strerror}")


def stored(how, script, with_text, is_anew):
    """Keeps the answers to a script: their digests, and the text where it is wanted."""
    stem = script.removesuffix(".script")
    try:
        kept = Kept(script)
        if not is_anew and kept.has_digests and (kept.has_answers or not with_text):
            return Finding(THERE)
        with Run(how, how.word, script) as run, open(f"{stem}.answers.new" if with_text else os.devnull, "wb") as copy:
            lines = list(digest_lines(copied(run.lines, copy)))
            failure, status = run.failure(), run.status()
    except Unreadable as it:
        return Finding(FAILED, str(it))
    except OSError as it:
        return Finding(FAILED, f"{it.filename or how.program}: {it.strerror}")
    if failure:
        if with_text:
            os.remove(copy.name)
        return failure
    count = sum(it.startswith("turn ") for it in lines)
    with open(f"{stem}.digests.new", "w", encoding="ascii") as file:
        file.write("\n".join([f"answers {how.number} word {how.word} status {status} turns {count}", *lines]) + "\n")
    for end in ("answers", "digests") if with_text else ("digests",):
        os.replace(f"{stem}.{end}.new", f"{stem}.{end}")
    return Finding(STORED)


def copied(lines, file):
    for line in lines:
        file.write(line)
        yield line
