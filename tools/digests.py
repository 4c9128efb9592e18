#!/usr/bin/env python3
"""The digest of each turn of answers, or where two texts of answers differ first.

    digests.py match.answers                 a line `turn N DIGEST` for each turn
    ./pathserve replay < match.script | digests.py -
    digests.py mine.answers yours.answers    the first turn and post in which they differ, and both lines
    digests.py saved.script                  a line `script DIGEST`: what stands, where that was saved in canonical form

Players of a match can compare digests turn by turn, to find the turn from which on they are out of step. docs/FORMAT.md
says how a digest is made; that of a match that goes on, or that somebody joined late, is the same. The status is 0, or 1
where two texts differ, and 2 where a file cannot be read.
"""
import sys

import commands
import turns


def lines_of(name):
    return sys.stdin.buffer if name == "-" else commands.opened(name)


def shown(line):
    return line.decode("utf-8", "replace").rstrip("\n") or "the end"


def write_digests(lines):
    """Writes the digests of a text of answers as its turns come, or that of a script, which has no turn of answers."""
    script, is_script = 0, None

    def seen(line):
        nonlocal script, is_script
        script, is_script = turns.digest_of([line], script), line.startswith(b"{") and is_script is not False

    for turn, value in turns.digests(lines, seen):
        print(f"turn {turn} {value:016x}", flush=True)
        is_script = False
    if is_script:
        print(f"script {script:016x}")


def main():
    parser = commands.parser_of(__doc__)
    parser.add_argument("answers", help="a text of answers, or a script; - for standard input")
    parser.add_argument("others", nargs="?", help="another one, to be compared with it")
    said = parser.parse_args()
    try:
        if said.others is None:
            write_digests(lines_of(said.answers))
            return 0
        found = turns.first_difference(lines_of(said.answers), lines_of(said.others))
    except commands.Unreadable as it:
        commands.say(it)
        return 2
    if found is None:
        return 0
    print(f"turn {found.turn}" + (f", post {found.post()}" if found.post() else ""), f"    {shown(found.line)}", f"    {shown(found.other)}", sep="\n")
    return 1


if __name__ == "__main__":
    commands.run(main)
