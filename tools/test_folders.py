"""The tests in `tests/`: a folder for each crate that they test, with its files, its tests, and what they stand on.

`tests/NAME/mod.rs` is the root of the tests of the crate NAME, and `tests/NAME/*.rs` are the modules that it names. What
several of them share is in `tests/fixtures`. The files are Rattle, and end in `.rs` since the gate refuses a `.rt` outside
the crates. To be compiled they become a crate of their own, where each folder is a module `NAME_tests`.
"""
import os
import re

TOP = os.path.dirname(os.path.dirname(os.path.abspath(__file__)))
TESTS, FIXTURES, ROOT = "tests", "fixtures", "mod.rs"
IMPORT = re.compile(r"^\s*(?:pub(?:\(\w+\))? )?use (\w+)", re.M)
FIXTURE = re.compile(r"\bcrate::fixtures::(\w+)")
TEST = re.compile(r"((?:^///? ?[^\n]*\n)*)^#\[test\]\nfn (\w+)", re.M)


def read(path):
    with open(os.path.join(TOP, path), encoding="utf-8") as it:
        return it.read()


def crate_rows():
    """The crates of crates.txt in their order, each with what it stands on."""
    lines = (it.partition("#")[0].partition(":") for it in read("crates.txt").splitlines())
    return {name.split()[0]: used.split() for name, _, used in lines if name.strip()}


def folders():
    """The folders of tests in the order of crates.txt, and then those that are named after no crate."""
    found = {it for it in os.listdir(f"{TOP}/{TESTS}") if os.path.isfile(f"{TOP}/{TESTS}/{it}/{ROOT}")}
    listed = [it for it in crate_rows() if it in found]
    return listed + sorted(found - set(listed))


def files_of(folder):
    """The files of a folder of tests, its root first."""
    names = sorted(it for it in os.listdir(f"{TOP}/{TESTS}/{folder}") if it.endswith(".rs"))
    return [f"{TESTS}/{folder}/{it}" for it in sorted(names, key=lambda it: it != ROOT)]


def module_of(path):
    """The module that a file of tests is in the crate that is compiled."""
    _, folder, name = path.split("/")
    return f"{folder}_tests" if name == ROOT else f"{folder}_tests::{name.removesuffix('.rs')}"


def tests_of(folder):
    """The tests of a folder: the file of each, its full name, and the comment above it."""
    for path in files_of(folder):
        for comment, name in TEST.findall(read(path)):
            lines = (it.lstrip("/ ") for it in comment.splitlines())
            yield path, f"{module_of(path)}::{name}", " ".join(lines)


def with_fixtures(paths):
    """These files and those of the fixtures that they name, and that these name in turn."""
    paths = list(paths)
    for path in paths:
        named = (f"{TESTS}/{FIXTURES}/{it}.rs" for it in FIXTURE.findall(read(path)))
        paths += [it for it in dict.fromkeys(named) if it not in paths]
    return paths


def crates_below(names):
    """These crates and all that they stand on, the lowest first, and the libraries of the kit among them."""
    rows, crates, of_kit = crate_rows(), [], []

    def add(name):
        if name not in rows:
            of_kit.extend([name] * (name not in of_kit))
        elif name not in crates:
            for it in rows[name]:
                add(it)
            crates.append(name)

    for name in names:
        add(name)
    return crates, of_kit


class Unit:
    """The tests of some folders, which are compiled as one crate."""

    def __init__(self, names, kit):
        self.names, self.kit = names, kit
        own = [path for it in names for path in files_of(it)]
        # each file's place in the crate that is compiled
        self.files = {path: self.place_of(path) for path in with_fixtures(own)}
        used = dict.fromkeys(word for path in self.files for word in IMPORT.findall(read(path)))
        rows = crate_rows()
        named = [it for it in used if it in rows or it != "std" and os.path.isdir(f"{kit}/rlibs/{it}.rlib")]
        self.crates, self.of_kit = crates_below([*named, *(it for it in names if it in rows)])

    @staticmethod
    def place_of(path):
        _, folder, name = path.split("/")
        if folder == FIXTURES:
            return f"src/fixtures/{name.removesuffix('.rs')}.rt"
        return f"src/{module_of(path).replace('::', '/')}.rt"

    def made_files(self):
        """The files of the crate that name the others, with their texts."""
        fixtures = sorted(os.path.basename(it).removesuffix(".rs") for it in self.files if it.split("/")[1] == FIXTURES)
        modules = [f"mod {it}_tests;" for it in self.names] + ["mod fixtures;"] * bool(fixtures)
        yield "src/lib.rt", "#![tactic(auto)]\n" + "\n".join(modules) + "\n"
        if fixtures:
            yield "src/fixtures.rt", "".join(f"pub(crate) mod {it};\n" for it in fixtures)

    def sources(self):
        """All files that the crate is made of, but for those of the kit."""
        found = list(self.files)
        for name in self.crates:
            for place, folders_in, files in os.walk(f"{TOP}/crates/{name}/src"):
                folders_in.sort()
                found += [os.path.relpath(f"{place}/{it}", TOP) for it in sorted(files) if it.endswith(".rt")]
        return found
