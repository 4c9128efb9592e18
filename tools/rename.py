"""Gives a name of the code another one, wherever it stands: code, contracts, definitions, proofs, tests and wrong programs.

    python3 tools/rename.py OLD NEW CRATE ..        # in these crates
    python3 tools/rename.py OLD NEW                 # in all

A name is a whole word: `in_ok-OLD` and `c.OLD` have it, `OLD_at` has not. Comments keep their English: in them a name is
changed if no English word is written so (it has a capital or an underscore), or if it stands between backticks. Files and
folders of the name get the new one. Then run `rt fmt` in the crates, and read what changed.
"""
import re
import subprocess
import sys
from pathlib import Path

TOP = Path(__file__).resolve().parent.parent
CODE = {".rt": "//", ".rs": "//", ".edit": "//", ".antt": "--"}
QUOTED = re.compile(r"`[^`]*`")


def comment_at(line, mark):
    """Where the comment of a line begins, or the line's length."""
    found = re.search(r"(?:^|(?<=\s))--(?=\s|$)" if mark == "--" else r"//", line)
    return found.start() if found and line[: found.start()].count('"') % 2 == 0 else len(line)


class Name:
    """A name and its new one."""

    def __init__(self, old, new):
        self.new = new
        self.word = re.compile(rf"(?<![A-Za-z0-9_']){re.escape(old)}(?![A-Za-z0-9_'])")
        self.is_english = old.islower() and old.isalpha()

    def in_code(self, text):
        return self.word.sub(self.new, text)

    def in_comment(self, text):
        if not self.is_english:
            return self.in_code(text)
        return QUOTED.sub(lambda quoted: self.in_code(quoted[0]), text)

    def in_text(self, text, mark):
        lines = []
        for line in text.splitlines(keepends=True):
            at = comment_at(line, mark)
            lines.append(self.in_code(line[:at]) + self.in_comment(line[at:]))
        return "".join(lines)


def tracked(*folders):
    """The files of the repository below the folders."""
    out = subprocess.run(["git", "ls-files", "-z", *folders], cwd=TOP, capture_output=True, text=True, check=True).stdout
    return [Path(name) for name in out.split("\0") if name]


def folders_of(crates):
    return [f"{side}/{crate}" for crate in crates for side in ("crates", "tests")] if crates else ["crates", "tests"]


def in_mutants(name, text, crates):
    """The list of wrong programs, whose entries cite a file, and lines of it."""
    entries = re.split(r"(?m)^(?=file: )", text)
    return "".join(name.in_text(entry, "//") if is_of(entry, crates) else entry for entry in entries)


def is_of(entry, crates):
    found = re.match(r"file: crates/(\w+)/", entry)
    return bool(found) and (not crates or found[1] in crates)


def rewrite(path, text):
    if path.read_text() != text:
        path.write_text(text)


def moved(path, old, new):
    """The path with the new name in place of each part that is the old one, but for the crate's folder."""
    parts = [part if at < 2 or Path(part).stem != old else new + Path(part).suffix for at, part in enumerate(path.parts)]
    return Path(*parts)


def rename(old, new, crates):
    name = Name(old, new)
    for path in tracked(*folders_of(crates)):
        if path.suffix not in CODE:
            continue
        rewrite(TOP / path, name.in_text((TOP / path).read_text(), CODE[path.suffix]))
        to = moved(path, old, new)
        if to != path:
            (TOP / to).parent.mkdir(parents=True, exist_ok=True)
            subprocess.run(["git", "mv", path, to], cwd=TOP, check=True)
    mutants = TOP / "bench/mutants.txt"
    rewrite(mutants, in_mutants(name, mutants.read_text(), crates))


if __name__ == "__main__":
    if "--help" in sys.argv:
        print(__doc__)
        sys.exit()
    if len(sys.argv) < 3:
        sys.exit("usage: rename.py OLD NEW [CRATE ..]")
    rename(sys.argv[1], sys.argv[2], sys.argv[3:])
