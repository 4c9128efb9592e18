#!/usr/bin/env python3
"""Puts the examples into the heads of the crates: the body of the test `example` in `tests/NAME/example.rs` into the block of
Rust at the head of `crates/NAME/src/lib.rt`, so that `./try` runs what the head shows.

`head_examples.py` writes the heads; `head_examples.py --check` writes nothing and ends with 1 where one is not current.
"""
import os
import re
import sys
import textwrap

sys.path.insert(0, os.path.dirname(os.path.abspath(__file__)))
import commands
import specs
import test_folders

TEST = re.compile(r"#\[test\]\nfn example\(rt: HostRuntime\)[^{]*\{\n(.*?)^\}", re.S | re.M)
BLOCK = re.compile(r"(?<=^//! ```rust\n).*?(?=^//! ```$)", re.S | re.M)


def folders():
    """The crates whose heads have an example."""
    return [it for it in test_folders.folders() if os.path.exists(f"{specs.TOP}/tests/{it}/example.rs")]


def example_of(name):
    """The example of a crate as lines of a comment."""
    found = TEST.search(specs.read(f"tests/{name}/example.rs"))
    if not found:
        raise commands.Unreadable(f"tests/{name}/example.rs has no test `example`")
    lines = textwrap.dedent(found[1]).splitlines()
    return "".join(f"//! {it}".rstrip() + "\n" for it in lines)


def with_example(name):
    """The root of a crate with its example."""
    text = specs.read(f"crates/{name}/src/lib.rt")
    if len(BLOCK.findall(text)) != 1:
        raise commands.Unreadable(f"the head of {name} has no place for its example: one block of Rust")
    return BLOCK.sub(lambda _: example_of(name), text)


def main(words):
    for name in folders():
        status = specs.put(f"crates/{name}/src/lib.rt", lambda: with_example(name), "head_examples.py", words, __doc__)
        if status:
            return status
    return 0


if __name__ == "__main__":
    commands.run(lambda: main(sys.argv[1:]))
