#!/usr/bin/env python3
"""Writes the words that answer a script, and their numbers in the library, wherever they are listed.

The table of them stands above `report_by` in crates/pathserve/src/commands.rt: word, number, and what it writes. `reports.py`
puts them into the header, the packages, the script `./pathserve` and the usage of the program; `reports.py --check` writes
nothing and ends with 1 where one of these is not current.
"""
import os
import re
import sys

sys.path.insert(0, os.path.dirname(os.path.abspath(__file__)))
import commands
import marks
import specs
from marks import Place

TABLE = "crates/pathserve/src/commands.rt"


def reports():
    """The words in the order of their numbers, each with what it writes."""
    rows = re.findall(r"^/// \| `(\w+)` \| (\d+) \| (.*) \|$", specs.read(TABLE), re.MULTILINE)
    if not rows or [int(number) for _, number, _ in rows] != [*range(len(rows))]:
        raise ValueError(f"{TABLE} has no table of words with the numbers 0, 1, ..")
    return [(word, text) for word, _, text in rows]


def listed(between, form="{word}"):
    """The words, each in a form, with a text between them."""
    return between.join(form.format(word=word, name=word.capitalize(), number=number) for number, (word, _) in enumerate(reports()))


def header_enum():
    """The numbers of the header, each with what the word writes; the comments stand in one column."""
    last = len(reports()) - 1
    names = [f"PATHSERVE_{word.upper()} = {number}{',' * (number < last)}" for number, (word, _) in enumerate(reports())]
    width = max(map(len, names))
    return "".join(f"    {name:<{width}} /* {text} */\n" for name, (_, text) in zip(names, reports()))


def help_lines():
    """What the script says of each word but the first, which it says more of."""
    return "".join(f"  {word:<12} the same, {text}\n" for word, text in reports()[1:])


# Where the words stand.
PLACES = [
    Place("include/pathserve.h", r"enum \{\n(?=    PATHSERVE_REPLAY)", r"\};", lambda _: header_enum()),
    Place("include/pathserve.h", r"#define PATHSERVE_REPORT_WORDS ", r"\n", lambda _: listed(", ", '"{word}"')),
    Place("examples/python/pathserve/matches.py", r"^REPORTS = \{", r"\}", lambda _: listed(", ", '"{word}": {number}')),
    Place("examples/rust/pathserve/src/matches.rs", r"pub enum Report \{\n", r"\}", lambda _: listed("", "    {name} = {number},\n")),
    Place("examples/csharp/Pathserve.cs", r"enum Report : uint \{ ", r" \}", lambda _: listed(", ", "{name} = {number}")),
    Place("examples/javascript/pathserve/pathserve.js", r"^export const REPORTS = Object.freeze\(\[", r"\]", lambda _: listed(", ", '"{word}"')),
    Place("examples/javascript/pathserve/pathserve.d.ts", r"^export type Report = ", ";", lambda _: listed(" | ", '"{word}"')),
    Place("pathserve", r"^usage: ./pathserve ", r"\|serve ", lambda _: listed("|")),
    Place("pathserve", r"^  replay  [^\n]*\n", r"  serve  ", lambda _: help_lines()),
    Place("pathserve", r"    (?=replay \|)", r" \| serve\)", lambda _: listed(" | ")),
    Place("crates/pathserve/src/status.rt", r"\"usage: pathserve ", r"\|serve ", lambda _: listed("|")),
    Place("crates/pathserve/specs/Words.antt", r"\"usage: pathserve ", r"\|serve ", lambda _: listed("|")),
]


def main(words):
    if words not in ([], ["--check"]):
        return commands.usage(__doc__, words)
    if words:
        return marks.check(PLACES, "tools/reports.py")
    marks.write(PLACES)
    return 0


if __name__ == "__main__":
    commands.run(lambda: main(sys.argv[1:]))
