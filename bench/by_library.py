#!/usr/bin/env python3
"""by_library.py PROGRAM LIBRARY: what paths cost by the program and by the library, in instructions counted by valgrind.

LIBRARY is an archive of the same sources and built alike, as `lib/libpathserve.a` of a release; the system's C compiler links
tools/library/program.c and bench/by_library.c with it. 20 turns of 50 short paths among blobs on 256 by 256 are played by the
program with one worker, by the library fed with text, and by structs whose replies are taken; and the same 1,000 paths are
asked on a view, with and without a finder. Counts are for one path, less the same without paths, in thousands of
instructions, and as a ratio to the program's. The status is 1 where the answers differ, or where the library takes more than a
hundredth above the program.
"""
import os
import re
import subprocess
import sys
import tempfile

sys.dont_write_bytecode = True
sys.path.append(os.path.join(os.path.dirname(os.path.abspath(__file__)), "..", "tools"))
import commands
import measure

TOP = os.path.dirname(os.path.dirname(os.path.abspath(__file__)))
SIDE, TURNS, MANY = 256, 20, 50
HUNDREDTH = 1.01


def built(source, library, folder):
    """A program of a source in C with the library."""
    to = os.path.join(folder, os.path.splitext(os.path.basename(source))[0])
    words = ["cc", "-O2", f"-I{TOP}/include", f"{TOP}/{source}", library, "-o", to]
    if subprocess.run(words).returncode:
        sys.exit(f"by_library.py: {source} was not built")
    return to


def count(words, given):
    """The instructions that a command takes, and what it writes."""
    with tempfile.NamedTemporaryFile() as out:
        tool = ["valgrind", "--tool=callgrind", f"--callgrind-out-file={out.name}"]
        ran = subprocess.run([*tool, *words], input=given, capture_output=True)
    if ran.returncode:
        sys.exit(f"{words[0]} ended with status {ran.returncode}: {ran.stderr[-300:]}")
    return int(re.search(rb"Collected : (\d+)", ran.stderr)[1]), ran.stdout


def scripts():
    """The same paths as scripts, without and with turns, and as by_library.c reads them."""
    lines, posts = measure.short_turns(SIDE, MANY, TURNS)
    turns = [line for turn, its in enumerate(posts, 1) for line in (*its, measure.end(turn))]
    text = lambda its: "".join(f"{it}\n" for it in its).encode()
    rects = re.findall(r"\[(\d+),(\d+),(\d+),(\d+),1\]", " ".join(lines))
    cells = [re.findall(r'"(\d+)\.5"', it) for its in posts for it in its]
    numbers = [[SIDE, len(rects)], *rects, [TURNS, MANY], *cells]
    return text(lines), text(lines + turns), text(" ".join(map(str, it)) for it in numbers)


def main(words):
    if len(words) != 2 or words[0].startswith("-"):
        return commands.usage(__doc__, words)
    bare, whole, numbers = scripts()
    paths = TURNS * MANY
    with tempfile.TemporaryDirectory() as folder:
        by_text, by_structs = (built(it, os.path.abspath(words[1]), folder) for it in ("tools/library/program.c", "bench/by_library.c"))
        costs, texts, sums = {}, set(), set()
        for name, program in (("turns by the program", words[0]), ("turns by text", by_text)):
            (more, text), (less, _) = (count([program, "replay", "--workers", "1"], it) for it in (whole, bare))
            costs[name] = (more - less) / paths
            texts.add(text)
        for how in ("turns", "all", "finder", "find"):
            (more, told), (less, _) = (count([by_structs, how, str(it)], numbers) for it in (TURNS, 0))
            costs[f"{how} by structs"] = (more - less) / paths
            sums.add(told)
    first = costs["turns by the program"]
    for name, cost in costs.items():
        print(f"  {name:24}{cost / 1000:10.2f}{cost / first:9.3f}")
    same = len(texts) == len(sums) == 1
    print("the answers are the same" if same else "the answers differ")
    return 0 if same and all(cost <= HUNDREDTH * first for cost in costs.values()) else 1


if __name__ == "__main__":
    commands.run(lambda: main(sys.argv[1:]))
