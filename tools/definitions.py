#!/usr/bin/env python3
"""Makes docs/DEFINITIONS.md: the definitions that contracts of public functions name, by the comments above them.

`definitions.py` writes the page; `definitions.py --check` writes nothing and ends with 1 where the page is not current.
"""
import os
import re
import sys

sys.path.insert(0, os.path.dirname(os.path.abspath(__file__)))
import commands
import specs

PAGE = "docs/DEFINITIONS.md"
HEAD = """# Definitions

For an auditor: the definitions that the contracts of public functions name, crate by crate from the bottom up, each by the comment above it in `specs/`. What such a definition rests on stands in the same file or is imported there. Made by `tools/definitions.py`; [PROVED.md](PROVED.md#reading-order) has them, and others on which they rest, in the order in which an auditor reads them.

Lengths and coordinates are raw numbers, 65536 to a navcell, unless a definition says otherwise. A straight step costs 65536 and a diagonal one 92682.
"""
# What no such contract names, but what the definitions that they name are about.
HEARTS = [
    ("flow_field.specs.Flows", "IsNearest"),
    ("flow_field.specs.Flows", "Descends"),
    ("line_smooth.specs.Smoothed", "IsSmoothed"),
]
FUNCTION = re.compile(r'(?ms)^( *)(pub )?(?:const )?(?:unsafe )?(?:extern "C" )?fn \w+(.*?)^\1\{')


def sources(crate):
    """The source files of a crate, as names below the top."""
    for folder, _, names in os.walk(os.path.join(specs.TOP, "crates", crate, "src")):
        for name in sorted(names):
            if name.endswith(".rt"):
                yield os.path.relpath(os.path.join(folder, name), specs.TOP)


def cited(modules):
    """The definitions that contracts of public functions and of public traits name, but for those of `inner`."""
    found = set()
    for crate in specs.crate_names():
        for file in [] if crate.endswith("_tests") else sources(crate):
            text, names = specs.read(file), specs.Names()
            for line in text.splitlines():
                names.read(line)
            has_trait = re.search(r"(?m)^pub trait", text)
            for _, is_public, contract in FUNCTION.findall(text):
                if is_public or has_trait:
                    found.update(specs.definition(modules, names, word) for word in specs.words_in(contract))
    found.update(modules[path].items[name] for path, name in HEARTS)
    return {it for it in found if it and not it.module.is_inner()}


def shown(comment):
    """A comment as a line of the page."""
    text = comment.replace("|", "\\|").strip()
    return text + ("" if text.endswith((".", ":")) else ".")


def page():
    modules = specs.all_modules()
    wanted, lines = cited(modules), [HEAD]
    for crate in specs.crate_names():
        here = [it for it in modules.values() if it.crate == crate and wanted.intersection(it.items.values())]
        lines += [f"## {crate}\n"] if here else []
        for module in here:
            lines.append(f"[{module.name}](../{module.file})\n")
            bare = []
            for it in module.items.values():
                if it in wanted and it.comment:
                    lines.append(f"- `{it.name}`: {shown(it.comment)}")
                elif it in wanted:
                    bare.append(f"`{it.name}`")
            lines += [f"- Without a comment: {', '.join(bare)}."] if bare else []
            lines.append("")
    return "\n".join(lines)


if __name__ == "__main__":
    commands.run(lambda: specs.put(PAGE, page, "definitions.py", sys.argv[1:], __doc__))
