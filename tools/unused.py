#!/usr/bin/env python3
"""Lists in docs/ARCHITECTURE.md, between two marks, what the program does not use: crates, and of the others the public types
and functions that no call leads to from `main`.

Calls are followed by name: a function counts as called where some function that is called has its name before `(`, or behind
`::`. So what is listed is not used, and a name that two functions share may hide one that is not.
`unused.py --check` writes nothing and ends with 1 where the page is not current.
"""
import os
import re
import sys

sys.path.insert(0, os.path.dirname(os.path.abspath(__file__)))
import commands
import specs
import test_folders

PAGE = "docs/ARCHITECTURE.md"
FIRST, LAST = "<!-- made by tools/unused.py: begin -->\n", "<!-- made by tools/unused.py: end -->\n"
PROGRAM = "pathserve_bin"
IMPL = re.compile(r"^impl\b(?:<[^{]*?>)? ?(?:[\w:]+(?:<[^{]*>)? for )?([\w:]+)")
FN = re.compile(r"^( *)((?:pub(?:\(crate\))? )?)(?:const |unsafe |extern \"C\" )*fn (\w+)")
CALL = re.compile(r"\b([a-z]\w*)(?:::<[^()]*>)?\(|::([a-z]\w*)\b")
NO_CODE = re.compile(r"^\s*(?:ghost\b|requires\b|ensures\b|pub use\b|use\b|//|#)")


class Function:
    """A function: its crate, the type that it is a method of, whether it is public, and what its body calls."""

    def __init__(self, crate, owner, name, is_public):
        self.crate, self.owner, self.name, self.is_public, self.called = crate, owner, name, is_public, set()


def functions_in(crate, text):
    """The functions of a file, with the names that their bodies call."""
    found, owner, inside, indent, is_trait = [], None, None, "", False
    for line in text.splitlines():
        if line and not line.startswith(" "):
            named = IMPL.match(line)
            is_trait = bool(named) and " for " in line or line.startswith(("trait", "pub trait"))
            owner = named[1].split("::")[-1] if named else None
        begun = FN.match(line)
        if begun:
            inside = Function(crate, owner, begun[3], begun[2] == "pub " and not is_trait)
            indent = begun[1]
            found.append(inside)
            line = line[begun.end():]
        if inside and not NO_CODE.match(line):
            inside.called.update(it for pair in CALL.findall(line) for it in pair if it)
        if inside and line.rstrip() == indent + "}":
            inside = None
    return found


def exported_by(crate):
    """The names that the root of a crate hands out."""
    root = specs.read(f"crates/{crate}/src/{'main' if crate == PROGRAM else 'lib'}.rt")
    lists = re.findall(r"pub use [\w:]+?::(?:\{([^}]*)\}|(\w+));", root)
    own = re.findall(r"(?m)^pub (?:struct|enum|trait|fn) (\w+)", root)
    return set(own) | set(re.findall(r"\w+", " ".join(it for pair in lists for it in pair)))


def program_crates():
    """The crates that the program is made of, and the others."""
    below, _ = test_folders.crates_below([PROGRAM])
    return below, [it for it in test_folders.crate_rows() if it not in below]


def unused():
    """The public functions of the program's crates to which no call leads from `main`."""
    functions = []
    for crate in program_crates()[0]:
        for place, folders, files in sorted(os.walk(os.path.join(specs.TOP, "crates", crate, "src"))):
            folders.sort()
            for name in sorted(files):
                functions += functions_in(crate, specs.read(os.path.relpath(os.path.join(place, name), specs.TOP)))
    by_name = {}
    for it in functions:
        by_name.setdefault(it.name, []).append(it)
    waiting, reached = ["main"], {"main"}
    while waiting:
        for it in by_name.get(waiting.pop(), []):
            more = it.called & by_name.keys() - reached
            reached |= more
            waiting += more
    roots = {it.name for it in functions if not it.is_public and it.owner}  # methods of traits, which operators may call
    used = reached | roots | laws()
    exported = {it: exported_by(it) for it in program_crates()[0]}
    return [it for it in functions if it.is_public and it.name not in used and (it.owner or it.name) in exported[it.crate]]


def laws():
    """The names of laws, which have no code that runs."""
    found = set()
    for crate in program_crates()[0]:
        for place, _, files in os.walk(os.path.join(specs.TOP, "crates", crate, "src")):
            for name in files:
                text = specs.read(os.path.relpath(os.path.join(place, name), specs.TOP))
                found.update(re.findall(r"pub fn (\w+)\([^)]*\)\n(?: +\w[^\n]*\n(?: {8,}[^\n]*\n)*)*\{\n?\}", text))
    return found


def listed():
    """The lines of the list."""
    others = " ".join(f"`{it}`" for it in program_crates()[1])
    lines = [f"- The crates {others}."]
    by_crate = {}
    for it in unused():
        by_crate.setdefault(it.crate, {}).setdefault(it.owner, []).append(it.name)
    for crate, owners in by_crate.items():
        parts = [", ".join(f"`{it}`" for it in names) + (f" of `{owner}`" if owner else "") for owner, names in owners.items()]
        lines.append(f"- `{crate}`: {'; '.join(parts)}.")
    return "\n".join(lines) + "\n"


def page():
    """The page with what the sources have now."""
    return specs.between(PAGE, FIRST, LAST, listed())


if __name__ == "__main__":
    commands.run(lambda: specs.put(PAGE, page, "unused.py", sys.argv[1:], __doc__))
