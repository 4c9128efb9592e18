#!/usr/bin/env python3
"""Makes docs/CRATES.md: the crates, layer by layer from the bottom up, each by the head of its `src/lib.rt`, with its
size and what it stands on.

`crates.py` writes the page; `crates.py --check` writes nothing and ends with 1 where the page is not current.
"""
import os
import re
import sys

sys.path.insert(0, os.path.dirname(os.path.abspath(__file__)))
import commands
import layers
import specs

PAGE = "docs/CRATES.md"
HEAD = """# The crates

For a contributor, layer by layer from the bottom up: what each crate is for, a picture where one is quicker, its main type, and what it does not do. Made by `tools/crates.py` from the heads of the crates; [ARCHITECTURE.md](ARCHITECTURE.md) draws their layers, and [PROVED.md](PROVED.md) says what of them is proved.
"""


def root_of(name):
    """The root file of a crate."""
    library = f"crates/{name}/src/lib.rt"
    return library if os.path.exists(os.path.join(specs.TOP, library)) else f"crates/{name}/src/main.rt"


def head_of(path):
    """The comment at the head of a file, with its links as plain code."""
    lines = []
    for line in specs.read(path).splitlines():
        if not line.startswith("//!"):
            break
        lines.append(line[3:].removeprefix(" "))
    return re.sub(r"\[(`[^`\]]+`)\](?!\()", r"\1", "\n".join(lines))


def lines_in(name, folder, suffix):
    """How many lines the files of a folder of a crate have, to the nearest ten or hundred, so that small changes leave it."""
    count = 0
    for place, folders, files in os.walk(os.path.join(specs.TOP, "crates", name, folder)):
        count += sum(len(specs.read(os.path.join(place, it)).splitlines()) for it in files if it.endswith(suffix))
    return round(count, -1 if count < 200 else -2)


def page():
    """The page as the sources have it now."""
    used_by = {}
    for line in specs.read("crates.txt").splitlines():
        if line.strip() and not line.startswith("#"):
            name, _, used = line.partition(":")
            used_by[name.split()[0]] = used.split()
    parts = [HEAD]
    for title, names, _ in layers.layers():
        parts.append(f"\n## {title}\n")
        for name in names:
            name = name.split()[0]
            path = root_of(name)
            sizes = f"about {lines_in(name, 'src', '.rt')} lines of source and {lines_in(name, 'proofs', '.antt')} of proof"
            on = " ".join(f"`{it}`" for it in used_by[name]) or "nothing but std"
            parts.append(f"\n### `{name}`\n\n{head_of(path)}\n\n[{os.path.basename(path)}](../{path}), {sizes}; on {on}.\n")
    return "".join(parts)


if __name__ == "__main__":
    commands.run(lambda: specs.put(PAGE, page, "crates.py", sys.argv[1:], __doc__))
