"""Answers line by line: where two texts of them differ first, and the digest of each turn (docs/FORMAT.md)."""
import itertools

from mapscript import check

PRIME = 2**64 - 59
NOTES = {note.encode(): word for word, note in check.NOTES.items()}  # lines behind a path, and the word that writes them


class Difference:
    """The first lines in which two texts differ, the turn that they stand in, and whether each text has ended: then its
    line is empty, or is cut and has no newline."""

    def __init__(self, turn, line, other):
        self.turn, self.line, self.other = turn, line, other

    def post(self):
        """The caller's and the post's number in its line, as a text, or None where it is no reply."""
        for it in (self.other, self.line):
            words = it.split(b" ", 2)
            if len(words) == 3 and words[0].isdigit() and words[1].isdigit():
                return b" ".join(words[:2]).decode()
        return None


def number_of(line):
    """The number of a turn line, or None for every other line."""
    words = line.split(b" ", 2)
    return int(words[1]) if words[0] == b"turn" and len(words) > 1 and words[1].strip().isdigit() else None


def first_difference(lines, others):
    """The first difference of two texts, or None."""
    turn = 0
    for line, other in itertools.zip_longest(lines, others, fillvalue=b""):
        if line != other:
            return Difference(number_of(other) or number_of(line) or turn, line, other)
        if line.startswith(b"turn "):
            turn = number_of(line)
    return None


def digest_of(lines, value=0):
    """The digest of lines, behind those that have this one."""
    for line in lines:
        value = (value << 8 * len(line) | int.from_bytes(line, "big")) % PRIME
    return value


def digests(lines, seen=lambda line: None):
    """The number and the digest of each turn of a text of answers. `seen` is told each line that is of no turn."""
    turn, value = None, 0
    for line in lines:
        number = number_of(line) if line.startswith(b"turn ") else None
        if number is not None:
            if turn is not None:
                yield turn, value
            turn, value, line = number, 0, line.split(b" ", 2)[-1]
        if turn is None or line.startswith(b"bad "):
            seen(line)
        else:
            value = digest_of([line], value)
    if turn is not None:
        yield turn, value


def word_of(line):
    """The word that writes a line which no other word does, or None."""
    if line.startswith(b"{"):
        return "serve"
    words = line.split(b" ", 3)
    return NOTES.get(words[2]) if len(words) > 3 else None
