#!/usr/bin/env python3
"""Writes the index of docs/DECISIONS.md: each record's number, question, date, and whether it has changed or been replaced.

`decisions.py` puts it between the two marks of the page; `decisions.py --check` writes nothing and ends with 1 where the page
is not current. A record ends with its date, as `*2026-11-29*`, `*2026-11-29, changed 2026-12-01*` or
`*2026-11-29, replaced by 44*`.
"""
import os
import re
import sys

sys.path.insert(0, os.path.dirname(os.path.abspath(__file__)))
import commands
import specs

PAGE = "docs/DECISIONS.md"
FIRST, LAST = "<!-- made by tools/decisions.py: begin -->\n", "<!-- made by tools/decisions.py: end -->\n"
DAY = r"\d{4}-\d\d-\d\d"
DATED = re.compile(rf"\*({DAY})(?:, (changed {DAY}|replaced by (\d+)))?\*")


def records():
    """The heading and the text of each record."""
    parts = re.split(r"(?m)^### (.*)$", specs.read(PAGE))
    return [(heading, text.partition("\n## ")[0].strip()) for heading, text in zip(parts[1::2], parts[2::2])]


def anchor(heading):
    return re.sub(r"[^\w -]", "", heading.lower()).replace(" ", "-")


def index():
    found = records()
    anchors = {heading.partition(".")[0]: anchor(heading) for heading, _ in found}
    lines = ["| | question | date | since then |", "|---|---|---|---|"]
    for heading, text in found:
        number, _, question = heading.partition(". ")
        dated = DATED.fullmatch(text.rpartition("\n")[2])
        if not dated or (dated[3] and dated[3] not in anchors):
            raise ValueError(f"record {number} of {PAGE} does not end with its date, as *2026-11-29*, or names no record")
        since = f"replaced by [{dated[3]}](#{anchors[dated[3]]})" if dated[3] else dated[2] or ""
        lines.append(f"| {number} | [{question}](#{anchors[number]}) | {dated[1]} | {since} |")
    return "\n".join(lines) + "\n"


def page():
    """The page with the index of the records that it has now."""
    return specs.between(PAGE, FIRST, LAST, index())


if __name__ == "__main__":
    commands.run(lambda: specs.put(PAGE, page, "decisions.py", sys.argv[1:], __doc__))
