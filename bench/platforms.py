#!/usr/bin/env python3
"""platforms.py [RELEASE [MATCHES]]: seconds of processor time that a release takes for the same matches on each platform, and the sizes
of its files. out/release and 120 matches by themselves.

A match has 512 by 512 navcells among blobs and eight turns of 200 short paths, drawn from a fixed seed. Under Windows is Wine; the
time of one match is that of a start. Of three runs the least is told. What a machine lacks, as Wine, is left out.
"""
import os
import random
import resource
import shutil
import subprocess
import sys
import tempfile

from measure import bases, blobs, end, largest_area, map_line, near_pairs, path

TOP = os.path.dirname(os.path.dirname(os.path.abspath(__file__)))
TESTS = os.path.join(TOP, "tools", "tests", "library")
FILES = ("lib/libpathserve.so.0", "lib/libpathserve.a", "windows/bin/pathserve.dll", "windows/bin/pathserve.exe", "windows/lib/libpathserve.a", "web/pathserve/pathserve.wasm")


def script(draw, side=512):
    """A match."""
    blocked = blobs(side, draw)
    area, inside = largest_area(blocked), [bytearray(side) for _ in blocked]
    for i, j in area:
        inside[j][i] = 1
    lines = [map_line(side), *bases(blocked)]
    for turn in range(1, 9):
        lines += [path(start, goal) for start, goal in near_pairs(area, inside, 200, draw)]
        lines.append(end(turn))
    return "".join(f"{line}\n" for line in lines).encode()


def commands(release, folder):
    """The platforms that can be tried here, and the command and surroundings of each."""
    source, include = os.path.join(TESTS, "answers.c"), os.path.join(release, "include")
    for name, compiler, library, by in (
        ("Linux", os.environ.get("CC", "cc"), "lib/libpathserve.a", []),
        ("Windows, by Wine", "x86_64-w64-mingw32-gcc", "windows/lib/libpathserve.a", ["wine"]),
    ):
        library = os.path.join(release, library)
        if os.path.isfile(library) and all(map(shutil.which, [compiler, *by])):
            program = os.path.join(folder, f"{compiler}.exe")
            subprocess.run([compiler, "-O2", "-I", include, "-o", program, source, library], check=True)
            yield name, [*by, program]
    package = os.path.join(release, "web", "pathserve")
    if os.path.isfile(os.path.join(package, "pathserve.wasm")) and shutil.which("node"):
        words = [os.path.join(package, it) for it in ("pathserve.js", "pathserve.wasm")]
        yield "the web, by Node", ["node", os.path.join(TESTS, "answers.mjs"), *words]


def seconds(command, given, where):
    """The least processor time of three runs, without that of the system, and what was told."""
    took = []
    for _ in range(3):
        before = resource.getrusage(resource.RUSAGE_CHILDREN).ru_utime
        told = subprocess.run(command, input=given, env=where, capture_output=True, check=True).stdout
        took.append(resource.getrusage(resource.RUSAGE_CHILDREN).ru_utime - before)
    return min(took), told


def main(words):
    release, many = os.path.abspath([*words, os.path.join(TOP, "out", "release")][0]), int([*words, 0, 0][1] or 120)
    draw = random.Random(5)
    given = [b"0 %d\n%s" % (len(it), it) for it in (script(draw) for _ in range(many))]
    for name in FILES:
        if os.path.isfile(os.path.join(release, name)):
            print(f"{os.path.getsize(os.path.join(release, name)):9} bytes  {name}")
    with tempfile.TemporaryDirectory() as folder:
        where, first = dict(os.environ, WINEPREFIX=f"{folder}/wine", WINEDEBUG="-all", DISPLAY=""), None
        for name, command in commands(release, folder):
            start, _ = seconds(command, given[0], where)
            took, told = seconds(command, b"".join(given), where)
            first = first or told
            alike = "the same answers" if told == first else "OTHER ANSWERS"
            print(f"{took:9.2f} s  {name}: {many} matches, of which one alone takes {start:.2f}; {alike}")


if __name__ == "__main__":
    main(sys.argv[1:])
