#!/usr/bin/env python3
"""Lays out the files in `tests/` as `rt fmt` lays out those of the crates, which reads no `.rs`.

`format_tests.py` writes them; `format_tests.py --check` writes nothing, names those that are not laid out and ends with 1
where there is one.
"""
import glob
import os
import shutil
import subprocess
import sys
import tempfile

import commands

TOP = os.path.dirname(os.path.dirname(os.path.abspath(__file__)))


def laid_out(formatter):
    """The files of tests whose layout is another, each with its text as it should be."""
    with tempfile.TemporaryDirectory() as folder:
        copies = {}
        for path in sorted(glob.glob(f"{TOP}/tests/**/*.rs", recursive=True)):
            copies[path] = os.path.join(folder, os.path.relpath(path, TOP).removesuffix("rs") + "rt")
            os.makedirs(os.path.dirname(copies[path]), exist_ok=True)
            shutil.copy(path, copies[path])
        subprocess.run([formatter, "fmt", "--write", *copies.values()], check=True, stdout=subprocess.DEVNULL)
        for path, copy in copies.items():
            with open(path, encoding="utf-8") as old, open(copy, encoding="utf-8") as new:
                was, made = old.read(), new.read()
            if was != made:
                yield path, made


def main(words):
    rt = shutil.which("rt")
    if words not in ([], ["--check"]):
        return commands.usage(__doc__.strip(), words)
    if not rt:
        commands.say("the command rt is missing")
        return 2
    try:
        found = [*laid_out(os.path.join(os.path.dirname(os.path.realpath(rt)), "rattle"))]
    except subprocess.SubprocessError as error:
        commands.say(error)
        return 2
    for path, made in found:
        print(f"{os.path.relpath(path, TOP)} {'is not laid out: run tools/format_tests.py' if words else 'is laid out'}")
        if not words:
            with open(path, "w", encoding="utf-8") as it:
                it.write(made)
    return 1 if found and words else 0


if __name__ == "__main__":
    commands.run(lambda: main(sys.argv[1:]))
