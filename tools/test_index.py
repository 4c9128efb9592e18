#!/usr/bin/env python3
"""Makes docs/TESTS.md: the tests in `tests/`, crate by crate from the bottom up, each by its name, with the comment above it.

`test_index.py` writes the page; `test_index.py --check` writes nothing and ends with 1 where the page is not current.
"""
import os
import re
import sys

sys.path.insert(0, os.path.dirname(os.path.abspath(__file__)))
import commands
import specs
import test_folders
import test_lines

PAGE = "docs/TESTS.md"
HEAD = """# The tests

For a contributor: what each test says, crate by crate from the bottom up. Made by `tools/test_index.py`. `./try CRATE [WORD ..]` runs those of a crate, or those with a word in their names; [tests/README.md](../tests/README.md) says how they are built. What is proved of each crate stands in [PROVED.md](PROVED.md).

## Tables of numbers

`tools/test_lines.py TABLE QUESTION` prints the line of one of these tables, by the model of [FORMAT.md](FORMAT.md) in `examples/check.py`, which knows nothing of the crates; `reaches` is how far an obstruction can block, which FORMAT does not speak of. To add a line, copy it into the table. `./check --tools` compares each line of each table.

| table | lines | of |
|---|---|---|
"""


def tables():
    for name, (folder, constant, _, _) in test_lines.TABLES.items():
        path = f"tests/{folder}/mod.rs"
        yield f"| `{name}` | {len(test_lines.lines_of(name))} | `{constant}` in [{folder}](../{path}) |\n"


def head_of(path):
    """The comment at the head of a file, on one line."""
    lines = re.match(r"(?://! ?[^\n]*\n)*", specs.read(path))[0].splitlines()
    return " ".join(it[3:].strip() for it in lines)


def page():
    """The page as the sources have it now."""
    parts = [HEAD, *tables()]
    for folder in test_folders.folders():
        root = test_folders.files_of(folder)[0]
        head = head_of(root)
        parts.append(f"\n## `{folder}`\n\n[mod.rs](../{root})" + (f": {head}" if head else "") + "\n\n")
        for _, name, comment in test_folders.tests_of(folder):
            parts.append(f"- `{name.partition('::')[2]}`" + (f": {comment}" if comment else "") + "\n")
    return "".join(parts)


if __name__ == "__main__":
    commands.run(lambda: specs.put(PAGE, page, "test_index.py", sys.argv[1:], __doc__))
