"""The C library of a release beside the plain program: by text, by structs, cut, out of memory, by threads, from each language;
and its folder by itself: what its pages name is there, and what they show runs.

The release is the folder that PATHSERVE_RELEASE names, or out/release, which `./release` makes, or where there is none
out/release-unproved, which `./release --unproved` makes in minutes.
"""
import collections
import concurrent.futures
import ctypes
import dataclasses
import glob
import json
import os
import re
import shutil
import subprocess
import sys
import tempfile
import unittest

from places import TOP, read
import forms
import links
import mapscript
import platforms
import turns

MADE = [os.path.join(TOP, "out", it) for it in ("release", "release-unproved")]
RELEASE = os.environ.get("PATHSERVE_RELEASE") or next((it for it in MADE if os.path.isfile(f"{it}/PROVENANCE")), MADE[0])
HEADER = os.path.join(RELEASE, "include", "pathserve.h")
SHARED = os.path.join(RELEASE, "lib", "libpathserve.so")
CC = os.environ.get("CC", "cc")
# a release without proof has the first alone
ARCHIVES = [it for it in ("libpathserve.a", "rattle/libpathserve.a") if os.path.isfile(os.path.join(RELEASE, "lib", it))]
check = mapscript.check

needs_release = unittest.skipUnless(os.path.isfile(SHARED), "there is no release: ./release makes one, and ./release --unproved one without proof")
needs_cc = unittest.skipUnless(shutil.which(CC), "there is no C compiler")
# what examples/c/views.c sees: the wall of 1 by 4, grown by a clearance of 1.5, and a path round it
VIEWED = b"""\
............
.....##.....
....####....
....####....
....####....
....####....
....####....
....####....
to the goal, cost 791090: 8,5 8,6 7,7 4,7 2,5 2,4
"""
# what examples/c/fields.c draws and tells: steps as strokes, * on the goal, # where none leads there
FIELD = rb"""4 waypoints, smoothed: 4,6 7,6 10,3; its end is not in sight
####--\|||||
####---\||||
----|##-\|||
---/|##--\|/
--/||##---*-
-/|||##--/|\
/||||##-/|||
|||||##/||||
unit 1,1 has 13.5 navcells to go, is there after 11 steps, at 10,3
unit 4,4 has 9.2 navcells to go, is there after 8 steps, at 10,3
unit 1,7 can't get there
"""
# what examples/c/saves.c tells
SAVED = b"""\
the same stands: yes
turn 3 here, turn 2 there, in step: yes
turn 2 here, turn 3 there, in step: yes
"""
# the waypoints that examples/cpp/first.cpp prints
FIRST = b"""\
column 15, row 27
column 37, row 27
column 42, row 32
column 50, row 32
"""
# what examples/cpp/game_loop.cpp tells: s the soldiers of a group, c a scout, # a wall that a player builds
LOOP = b"""\
the scout goes by 1,7 25,8
tick 20
............................
............................
......c.....................
............................
............................
.......s.s..................
............................
.......s.s..................
............................
............................
the scout goes by 6,7 12,1 15,1 25,8
tick 117
.............###............
.............###.........c..
.............###............
.............###............
.............###............
.............###............
.............###............
..............#.......s.....
............................
............................
"""
STRICT = ["-std=c11", "-Wall", "-Wextra", "-Werror", "-I", os.path.join(RELEASE, "include")]
SANE = ["-g", "-fsanitize=address,undefined", "-fno-sanitize-recover=all"]


def built(folder, source, archive="libpathserve.a", flags=()):
    """A C program of the repository, linked with an archive of the release."""
    program = os.path.join(folder, os.path.basename(source)[:-2])
    words = [CC, *STRICT, *flags, "-o", program, os.path.join(TOP, source), os.path.join(RELEASE, "lib", archive)]
    subprocess.run(words, check=True)
    return program


def answers(program, script=b"", words=()):
    ran = subprocess.run([program, *words], input=script, capture_output=True, timeout=600)
    return ran.stdout, ran.returncode


def scripts(count):
    """Made scripts of all forms, with their answers and statuses by the plain program."""
    maker = check.Maker(11)
    for _ in range(count):
        script = maker.script()
        yield script, *check.predicted(script)


class Sources(unittest.TestCase):
    def test_the_header_declares_what_the_crate_defines(self):
        texts = [read(it).decode() for it in glob.glob(f"{TOP}/crates/pathserve_c/src/*.rt")]
        defined = [name for text in texts for name in re.findall(r'(?m)^pub extern "C" fn (\w+)\(', text)]
        declared = re.findall(r"(?m)^[a-z].*\b(pathserve_\w+)\(", read("include/pathserve.h").decode())
        self.assertEqual(sorted(defined), sorted(declared))

    @needs_cc
    def test_each_maker_of_the_header_fills_what_its_kind_uses(self):
        with tempfile.TemporaryDirectory() as folder:
            program = os.path.join(folder, "makers")
            words = [CC, "-std=c11", "-Wall", "-Wextra", "-Werror", "-I", os.path.join(TOP, "include"), "-o", program]
            subprocess.run([*words, os.path.join(TOP, "tools", "tests", "library", "makers.c")], check=True)
            self.assertEqual(answers(program), (b"", 0))

    def test_the_page_shows_the_first_program_in_cpp(self):
        shown = re.findall(r"(?ms)^```cpp\n(.*?)^```", read("docs/C.md").decode())
        text = read("examples/cpp/first.cpp").decode()
        self.assertEqual(shown, [text[text.index("#include"):]])
        self.assertLessEqual(text.count("\n"), 17)

    def test_the_header_for_cpp_has_each_call(self):
        declared = re.findall(r"(?m)^[a-z].*\b(pathserve_\w+)\(", read("include/pathserve.h").decode())
        named = set(re.findall(r"\bpathserve_\w+", read("examples/cpp/pathserve.hpp").decode()))
        # the compiler knows the sizes
        self.assertEqual(set(declared) - named, {"pathserve_size_of"})

    def test_each_file_of_a_platform_is_named_by_what_makes_it(self):
        made = read("tools/library_targets.py").decode()
        for name in os.listdir(os.path.join(TOP, "tools", "library")):
            if not name.endswith((".in", ".md")):
                self.assertIn(f'"{name}"', made)


@needs_release
class Header(unittest.TestCase):
    def names(self):
        with open(HEADER, encoding="utf-8") as file:
            return set(re.findall(r"^[a-z].*\b(pathserve_\w+)\(", file.read(), re.M))

    @needs_cc
    def test_it_is_c_and_cpp(self):
        for language, standards in (("c", ("c99", "c11")), ("c++", ("c++98", "c++11", "c++20"))):
            if language == "c++" and not shutil.which("c++"):
                continue
            for standard in standards:
                words = [CC, f"-std={standard}", "-pedantic", "-Wall", "-Wextra", "-Werror", "-fsyntax-only", "-x", language, HEADER]
                subprocess.run(words, check=True)

    @needs_cc
    def test_each_size_is_what_the_library_says(self):
        with open(HEADER, encoding="utf-8") as file:
            sizes = re.findall(r"PATHSERVE_SIZE_(\w+) = (\d+),? +/\* (\d+) \*/", file.read())
        self.assertEqual([int(number) for _, number, _ in sizes], list(range(1, len(sizes) + 1)))
        lines = "".join(
            f"    if (pathserve_size_of({number}) != {size} || sizeof(pathserve_{name.lower()}) != {size}) return {number};\n"
            for name, number, size in sizes
        )
        with tempfile.TemporaryDirectory() as folder:
            source = os.path.join(folder, "sizes.c")
            with open(source, "w", encoding="utf-8") as file:
                file.write(f"#include <pathserve.h>\nint main(void) {{\n{lines}    return (int)pathserve_size_of(0);\n}}\n")
            self.assertEqual(answers(built(folder, source)), (b"", 0))

    @unittest.skipUnless(shutil.which("nm"), "there is no nm")
    def test_the_shared_object_exports_what_it_declares(self):
        told = subprocess.run(["nm", "-D", "--defined-only", SHARED], capture_output=True, text=True, check=True).stdout
        exported = {line.split()[2].split("@")[0] for line in told.splitlines() if line.split()[1] == "T"}
        self.assertEqual(exported, self.names())


@needs_release
@needs_cc
class Clients(unittest.TestCase):
    def setUp(self):
        self.folder = self.enterContext(tempfile.TemporaryDirectory())

    def test_by_text(self):
        for archive in ARCHIVES:
            program = built(self.folder, "examples/c/by_text.c", archive, SANE)
            for name in ("first", "skirmish"):
                self.assertEqual(answers(program, read(f"examples/{name}.script")), (read(f"examples/{name}.answers"), 0))
            for script, text, status in scripts(100):
                self.assertEqual(answers(program, script), (text, status), script)
            for word in check.WORDS:
                script = read("examples/skirmish.script")
                self.assertEqual(answers(program, script, [word]), check.predicted(script, word), word)

    def test_by_structs(self):
        for archive in ARCHIVES:
            program = built(self.folder, "examples/c/by_structs.c", archive, SANE)
            self.assertEqual(answers(program), (read("examples/skirmish.answers"), 0))

    def test_views(self):
        for archive in ARCHIVES:
            program = built(self.folder, "examples/c/views.c", archive, SANE)
            self.assertEqual(answers(program), (VIEWED, 0))

    def test_fields(self):
        for archive in ARCHIVES:
            program = built(self.folder, "examples/c/fields.c", archive, SANE)
            self.assertEqual(answers(program), (FIELD, 0))

    def test_saves(self):
        for archive in ARCHIVES:
            program = built(self.folder, "examples/c/saves.c", archive, SANE)
            self.assertEqual(answers(program), (SAVED, 0))

    @unittest.skipUnless(shutil.which("c++"), "there is no C++ compiler")
    def test_cpp(self):
        strict = ["-Wall", "-Wextra", "-Werror", "-pedantic", *(f"-I{RELEASE}/{it}" for it in ("include", "examples/cpp"))]
        program, script = os.path.join(self.folder, "cpp"), read("examples/skirmish.script")
        for standard, archive in (("-std=c++17", ARCHIVES[0]), ("-std=c++20", ARCHIVES[-1])):
            told = []
            for source in ("examples/cpp/first.cpp", "examples/cpp/game_loop.cpp", "tools/tests/library/owners.cpp"):
                words = ["c++", standard, *strict, *SANE, os.path.join(TOP, source), os.path.join(RELEASE, "lib", archive), "-o", program]
                subprocess.run(words, check=True)
                told.append(answers(program, script))
            self.assertEqual(told, [(FIRST, 0), (LOOP, 0), (read("examples/skirmish.answers"), 0)])

    def test_each_allocation_is_refused_in_turn(self):
        program = built(self.folder, "tools/tests/library/refused.c", "libpathserve_noheap.a", SANE)
        told, status = answers(program, words=[os.path.join(TOP, "examples", "skirmish.script")])
        self.assertEqual(status, 0, told)

    def test_a_match_without_a_journal_does_not_grow(self):
        program = built(self.folder, "tools/tests/library/grows.c", "libpathserve_noheap.a", SANE)
        told, status = answers(program)
        self.assertEqual(status, 0, told)

    def test_threads_with_views(self):
        program = built(self.folder, "tools/tests/library/threads.c", flags=["-g", "-pthread"])
        self.assertEqual(answers(program), (b"", 0))
        if shutil.which("valgrind"):
            watched = subprocess.run(["valgrind", "--tool=helgrind", "--error-exitcode=9", "-q", program], capture_output=True)
            self.assertEqual(watched.returncode, 0, watched.stderr.decode()[-2000:])

    def test_a_thread_with_the_stack_that_the_header_asks_for_answers_the_deepest_lines(self):
        for archive in ARCHIVES:
            program = built(self.folder, "tools/tests/library/stack.c", archive, ["-pthread"])
            told, status = answers(program, read("examples/skirmish.script"))
            self.assertEqual(status, 0, archive)
            self.assertRegex(told, rb"^lines \d+, script \d+\n$")

    @unittest.skipUnless(shutil.which("pkg-config"), "there is no pkg-config")
    def test_pkg_config(self):
        where = dict(os.environ, PKG_CONFIG_PATH=os.path.join(RELEASE, "lib", "pkgconfig"))
        said = subprocess.run(["pkg-config", "--cflags", "--libs", "pathserve"], env=where, capture_output=True, text=True, check=True)
        program = os.path.join(self.folder, "linked")
        subprocess.run([CC, os.path.join(TOP, "examples/c/by_text.c"), "-o", program, *said.stdout.split()], check=True)
        self.assertEqual(answers(program, read("examples/skirmish.script")), (read("examples/skirmish.answers"), 0))

    @unittest.skipUnless(shutil.which("cmake"), "there is no cmake")
    def test_cmake(self):
        with open(os.path.join(self.folder, "CMakeLists.txt"), "w", encoding="utf-8") as file:
            file.write(
                "cmake_minimum_required(VERSION 3.10)\nproject(game C)\nset(CMAKE_C_STANDARD 11)\n"
                f"find_package(pathserve 0.1.0 REQUIRED CONFIG)\nadd_executable(game {TOP}/examples/c/by_text.c)\n"
                "target_link_libraries(game pathserve::pathserve)\n"
            )
        made = os.path.join(self.folder, "made")
        for words in (["-S", self.folder, "-B", made, f"-DCMAKE_PREFIX_PATH={RELEASE}"], ["--build", made]):
            subprocess.run(["cmake", *words], capture_output=True, check=True)
        self.assertEqual(answers(os.path.join(made, "game"), read("examples/skirmish.script"))[0], read("examples/skirmish.answers"))

    @unittest.skipUnless(shutil.which("cargo"), "there is no cargo")
    def test_rust(self):
        where = dict(os.environ, PATHSERVE_LIB_DIR=os.path.join(RELEASE, "lib"), CARGO_TARGET_DIR=self.folder)
        for name in ("skirmish", "posts", "views", "finders", "saves"):
            words = ["cargo", "run", "-q", "--offline", "--example", name]
            folder = os.path.join(RELEASE, "examples", "rust", "pathserve")
            ran = subprocess.run(words, cwd=folder, env=where, input=read("examples/skirmish.script"), capture_output=True)
            self.assertEqual(ran.returncode, 0, ran.stderr.decode())
            if name == "skirmish":
                self.assertEqual(ran.stdout, read("examples/skirmish.answers"))
            if name == "saves":
                digests = [it.split()[-1] for it in ran.stdout.decode().splitlines()]
                self.assertEqual((digests[0], digests[1]), ("9d975c6fe012e721", digests[2]))
            if name == "finders":
                self.assertEqual(ran.stdout.count(b"\nunit"), 2)


ARM_CC = "aarch64-linux-gnu-gcc"
EMULATOR = shutil.which("qemu-aarch64") or shutil.which("qemu-aarch64-static")
ARM_ARCHIVE = os.path.join("aarch64", "libpathserve_noheap.a")


@needs_release
@needs_cc
@unittest.skipUnless(os.path.isfile(os.path.join(RELEASE, "lib", ARM_ARCHIVE)), "the release is not for aarch64")
@unittest.skipUnless(EMULATOR and shutil.which(ARM_CC), "there is no compiler or no emulator for aarch64")
class Aarch64(unittest.TestCase):
    def setUp(self):
        self.folder = self.enterContext(tempfile.TemporaryDirectory())

    def built(self, *sources):
        """A program for aarch64, with all that it needs in it."""
        program = os.path.join(self.folder, f"{os.path.basename(sources[0])[:-2]}-aarch64")
        files = [*(os.path.join(TOP, it) for it in sources), os.path.join(RELEASE, "lib", ARM_ARCHIVE)]
        subprocess.run([ARM_CC, *STRICT, "-static", "-o", program, *files], check=True)
        return program

    def told(self, program, words=()):
        ran = subprocess.run([EMULATOR, program, *words], capture_output=True, timeout=1800)
        return ran.stdout, ran.returncode

    def test_made_scripts_by_each_report_are_answered_as_here(self):
        made = platforms.scripts(200)
        here = platforms.answers([built(self.folder, "tools/tests/library/answers.c")], made)
        there = platforms.answers([EMULATOR, self.built("tools/tests/library/answers.c", "examples/c/heap.c")], made)
        self.assertEqual((len(here), platforms.differing(made, here, there)), (800, []))

    def test_the_examples(self):
        self.assertEqual(self.told(self.built("examples/c/by_structs.c", "examples/c/heap.c")), (read("examples/skirmish.answers"), 0))
        self.assertEqual(self.told(self.built("examples/c/views.c", "examples/c/heap.c")), (VIEWED, 0))

    def test_each_allocation_is_refused_in_turn(self):
        told, status = self.told(self.built("tools/tests/library/refused.c"), [os.path.join(TOP, "examples", "skirmish.script")])
        self.assertEqual(status, 0, told)


@needs_release
class Folder(unittest.TestCase):
    """A copy of the folder, without the repository."""

    def setUp(self):
        self.top = os.path.join(self.enterContext(tempfile.TemporaryDirectory()), "release")
        shutil.copytree(RELEASE, self.top, symlinks=True)
        self.pages = ["README.md", *sorted(f"docs/{os.path.basename(it)}" for it in glob.glob(f"{self.top}/docs/*.md"))]

    def told(self, commands):
        """What a shell writes in the folder for these commands, of which none fails."""
        ran = subprocess.run(["sh", "-e", "-c", commands], cwd=self.top, capture_output=True, timeout=600)
        self.assertEqual(ran.returncode, 0, f"{commands}\n{ran.stderr.decode()}")
        return ran.stdout

    def commands(self, page):
        """The blocks of commands that a page shows."""
        return re.findall(r"(?m)(?:^    .*\n)+", links.text_of(self.top, page))

    def test_links_lead_somewhere(self):
        self.assertEqual(links.dead(self.top, self.pages), [])

    def test_files_that_are_named_are_there(self):
        for page in [*self.pages, "include/pathserve.h"]:
            for name in re.findall(r"\b(?:docs|examples|include|tools)/[\w./]*\w", links.text_of(self.top, page)):
                is_elsewhere = name.startswith("tools/tests/")
                self.assertTrue(is_elsewhere or os.path.exists(os.path.join(self.top, name)), f"{page}: {name}")

    def test_sections_that_the_header_names_are_there(self):
        named = re.findall(r'docs/C\.md, "([^"]*)"', links.text_of(self.top, "include/pathserve.h"))
        self.assertGreater(len(named), 1)
        for name in named:
            self.assertIn(f"\n## {name}\n", links.text_of(self.top, "docs/C.md"))

    def test_nothing_built_was_copied_and_the_sums_are_right(self):
        names = [name for _, folders, files in os.walk(self.top) for name in [*folders, *files]]
        self.assertEqual([it for it in names if it in ("target", "__pycache__", ".gitignore") or it.endswith((".o", ".pyc"))], [])
        self.told("sha256sum --check --quiet --strict SHA256SUMS")
        listed = {line.split("  ", 1)[1] for line in links.text_of(self.top, "SHA256SUMS").splitlines()}
        files = {os.path.relpath(it, self.top) for it in glob.glob(f"{self.top}/**", recursive=True) if os.path.isfile(it)}
        self.assertLessEqual(files - listed, {"SHA256SUMS", "build.log", "lib/libpathserve.so"})

    @needs_cc
    def test_the_readme_shows_what_runs(self):
        blocks = self.commands("README.md")
        self.assertEqual(len(blocks), 2)
        told = b"".join(map(self.told, blocks))
        self.assertTrue(told.startswith(read("examples/first.answers") + b"turn 1 "))

    @needs_cc
    def test_the_page_shows_what_runs(self):
        lines = [line for block in self.commands("docs/C.md") for line in block.splitlines() if "by_structs.c" in line]
        self.assertEqual(len(lines), 3)
        for line in lines:
            if "pkg-config" not in line or shutil.which("pkg-config"):
                self.assertEqual(self.told(line), read("examples/skirmish.answers"), line)

    @needs_cc
    def test_the_page_begins_with_a_whole_program(self):
        shown, = re.findall(r"(?ms)^```c\n(.*?)^```", links.text_of(self.top, "docs/C.md"))
        source = os.path.join(self.top, "shown.c")
        with open(source, "w", encoding="utf-8") as file:
            file.write(shown)
        told, status = answers(built(self.top, source, flags=SANE))
        self.assertEqual((status, told.splitlines()[-1:]), (0, [b"column 50, row 32"]))

    def test_python(self):
        told = self.told("PATHSERVE_LIBRARY=lib/libpathserve.so.0 python3 -B examples/python/skirmish.py")
        self.assertTrue(told.startswith(b"turn 1: "))

    @needs_cc
    def test_from_a_map_to_a_page(self):
        lines = self.commands("docs/MAPS.md")[0]
        self.assertIn("./pathserve replay", lines)
        self.told("cc -Iinclude examples/c/by_text.c lib/libpathserve.a -o by_text")
        self.told(lines.replace("./pathserve replay", "./by_text"))
        self.told("tools/view.py --check valley.script valley.answers")


def text_of(turn):
    """The text of a turn, by its replies."""
    head = f"turn {turn.turn} regions {turn.regions} edges {turn.edges} areas {turn.areas} relabelled {turn.relabelled}"
    return "".join(f"{line}\n" for line in [head, *map(line_of, turn.replies)])


def line_of(reply):
    kind = reply.kind.name
    if reply.why:
        said = "refused " + reply.why.name.lower().replace("_", "-")
    elif reply.path:
        path = reply.path
        ends = f"{path.start.i} {path.start.j} {path.end.i} {path.end.j} {'goal' if kind == 'AT_GOAL' else 'near'}"
        said = " ".join(["path", ends, str(path.cost), str(len(path.waypoints)), *(f"{it.i}.5,{it.j}.5" for it in path.waypoints)])
    elif reply.region:
        said = f"region {reply.region.chunk.i} {reply.region.chunk.j} {reply.region.region} {reply.region.area}"
    else:
        said = kind.lower() + (f" {reply.id}" if reply.id is not None else "")
    return f"{reply.caller} {reply.post} {said}"


class Posted:
    """A script as the posts of its turns."""

    def __init__(self, api, script):
        self.api = api
        lines = [json.loads(line) for line in script.decode().splitlines()]
        first = lines[0]
        self.size, self.callers, self.version = first["size"], first["callers"], first["version"]
        self.names = [it["name"] for it in first["classes"]]
        self.classes = [api.PassabilityClass(it["name"], check.decimal(it["clearance"])) for it in first["classes"]]
        self.base = [api.Rect(*it) for line in lines if "base" in line for it in line["base"]]
        self.turns = [[]]
        for line in lines[1:]:
            if "end" in line:
                self.turns.append([])
            elif "base" not in line:
                self.turns[-1].append(self.post(line))
        self.turns.pop()

    def open(self):
        return self.api.PostedMatch(*self.size, self.callers, self.classes, self.base)

    def is_said(self):
        """Whether structs can say each post: a class is a number there, so one that the map lacks is not."""
        return all(post is not None for posts in self.turns for post in posts)

    def post(self, line):
        caller = line["caller"]
        if "add" in line:
            kind = "unit" if "unit" in line else "square"
            make = self.api.add_unit if kind == "unit" else self.api.add_square
            mask = line["mask"] if self.version > 1 else 65535
            return make(caller, line["add"], mask, *check.decimals(line[kind], len(line[kind])))
        if "remove" in line:
            return self.api.remove(caller, line["remove"])
        if "move" in line:
            return self.api.move(caller, line["move"], *check.decimals(line["to"], 2))
        name = line.get("path", line.get("region"))
        if name not in self.names:
            return None
        if "path" in line:
            return self.api.path(caller, self.names.index(name), *check.decimals(line["from"], 2), self.goal(line["goal"]))
        return self.api.region(caller, self.names.index(name), *check.decimals(line["at"], 2))

    def goal(self, goal):
        (kind, value), = goal.items()
        numbers = [it if isinstance(it, int) else check.decimal(it) for it in value]
        outside = {"outside": True} if kind.startswith("not-") else {}
        return getattr(self.api.Goal, kind.removeprefix("not-"))(*numbers, **outside)


KINDS = {it.value: it.with_dashes() for it in forms.numbers("goals")}


class Seen(check.Cells):
    """The passable cells of a class, as a view shows them."""

    def __init__(self, view, number, size):
        rows = [view.row(number, j, size[0]) for j in range(size[1])]
        self.free = {(i, j) for j, row in enumerate(rows) for i, is_free in enumerate(row) if is_free}

    def field(self, targets):
        """The step and the distance of each cell that has them, by the definition: the first step that leads nearer by its cost."""
        far = self.distances(*targets)
        lead = {
            cell: next(
                (
                    number
                    for number, name in enumerate(check.STEPS, 1)
                    if (there := self.step(cell, name)) and far[there] + check.cost_of(name) == cost
                ),
                9,
            )
            for cell, cost in far.items()
        }
        return lead, far

    def is_walk(self, start, points):
        """Whether these are the waypoints of a legal walk from a passable start: each step is tried."""
        if start not in self.free:
            return False
        before, at = None, start
        for point in points:
            gaps = point[0] - at[0], point[1] - at[1]
            name = next((it for it, way in check.STEPS.items() if way == tuple((gap > 0) - (gap < 0) for gap in gaps)), None)
            if name in (None, before) or 0 not in gaps and abs(gaps[0]) != abs(gaps[1]):
                return False
            while at != point:
                at = self.step(at, name)
                if at is None:
                    return False
            before = name
        return True


def goal_cells(post, standing):
    """The goal of a path, as the plain program has it."""
    if post.goal == 6:
        its = standing[post.id]
        square = [its.x, its.z, its.ux, its.uz, its.hw, its.hh] if its.kind == 2 else [its.x, its.z, 65536, 0, its.radius, its.radius]
        return check.Goal("square", [*square[:4], *(it + post.radius for it in square[4:])])
    numbers = [post.goal_x, post.goal_z]
    numbers += [post.radius] if post.goal in (2, 3) else [post.ux, post.uz, post.hw, post.hh] if post.goal > 3 else []
    return check.Goal(KINDS[post.goal], numbers)


def stand_after(standing, posts, replies):
    """The adds of what stands after a turn, by the replies to its posts, caller by caller."""
    standing = dict(standing)
    by_caller = sorted(posts, key=lambda post: post.caller)
    for post, reply in zip(by_caller, replies):
        if reply.kind.name == "ADDED":
            standing[post.id] = post
        elif reply.kind.name == "REMOVED":
            del standing[post.id]
        elif reply.kind.name == "MOVED":
            standing[post.id] = standing[post.id]._replace(x=post.x, z=post.z)
    return standing


def as_view_of(match, native):
    """The handle of a match, where a view's is wanted."""
    return ctypes.cast(ctypes.pointer(match._handle), native.VIEW)


@needs_release
class Python(unittest.TestCase):
    def setUp(self):
        os.environ["PATHSERVE_LIBRARY"] = SHARED
        sys.path.insert(0, os.path.join(TOP, "examples", "python"))
        import pathserve

        self.api = pathserve

    def tearDown(self):
        sys.path.remove(os.path.join(TOP, "examples", "python"))

    def by_text(self, script, piece=1 << 20):
        with self.api.TextMatch() as match:
            text, status = b"", 0
            try:
                for at in range(0, len(script), piece):
                    match.feed(script[at : at + piece])
                    text += match.take()
                match.finish()
            except self.api.Failed as failed:
                status = int(failed.status)
            return text + match.take(), status

    def said(self, count):
        """Made scripts that structs can say, as posts, with their texts."""
        for script, text, status in scripts(count):
            posted = Posted(self.api, script) if status == 0 else None
            if posted and posted.is_said():
                yield posted, text

    def test_made_scripts_by_posts(self):
        played = 0
        for posted, text in self.said(400):
            with posted.open() as match:
                told = ""
                for posts in posted.turns:
                    match.post(posts[:1])
                    match.post(posts[1:])
                    told += text_of(match.end_turn())
                self.assertEqual(told.encode(), text)
                self.assertEqual(self.by_text(match.journal()), (text, 0))
            played += 1
        self.assertGreater(played, 200)

    def test_a_match_that_is_saved_goes_on_alike(self):
        compared = 0
        for posted, _ in self.said(100):
            with posted.open() as match:
                standing = {}
                for at, posts in enumerate(posted.turns):
                    match.post(posts)
                    standing = stand_after(standing, posts, match.end_turn().replies)
                    with match.view() as view, posted.open() as opened:
                        opened.post(add._replace(caller=0) for add in standing.values())
                        self.assertEqual({it.kind.name for it in opened.end_turn().replies} - {"ADDED"}, set())
                        self.assertEqual(self.further(opened, posted.turns[at + 1 :]), self.further_of(posted, at + 1))
                        compared += 1
        self.assertGreater(compared, 100)

    def test_a_match_opens_from_its_journal_and_from_snapshots_and_stays_in_step(self):
        compared = 0
        for posted, text in self.said(60):
            digests = [value for _, value in turns.digests(text.splitlines(True))]
            with posted.open() as match, posted.open() as forgetful:
                self.assertEqual(match.digest(), 0)
                for at, posts in enumerate(posted.turns):
                    for its in (match, forgetful):
                        its.post(posts)
                        its.end_turn()
                        self.assertEqual(its.digest(), digests[at])
                    with match.view() as view, forgetful.view() as other:
                        saved = view.snapshot()
                        self.assertEqual((other.snapshot(), other.digest()), (saved, view.digest()))
                        self.assertEqual(view.digest(), int.from_bytes(saved, "big") % turns.PRIME)
                    forgetful.forget()
                    self.assertEqual((forgetful.journal(), forgetful.digest()), (saved, digests[at]))
                    self.assertEqual(self.by_text(saved)[1], 0)
                    for script, number in ((match.journal(), digests[at]), (saved, None)):
                        with self.api.PostedMatch.of_script(script) as opened:
                            self.assertEqual(opened.journal(), script)
                            self.assertIn(number, (None, opened.digest()))
                            with opened.view() as view:
                                self.assertEqual(view.snapshot(), saved)
                            for posts, digest in zip(posted.turns[at + 1 :], digests[at + 1 :]):
                                opened.post(posts)
                                opened.end_turn()
                                self.assertEqual(opened.digest(), digest)
                                compared += 1
        self.assertGreater(compared, 100)

    def test_a_match_without_a_journal_differs_in_nothing_else(self):
        compared = 0
        for posted, _ in self.said(100):
            with posted.open() as match, posted.open() as keeper:
                match.keep_no_journal()
                for at, posts in enumerate(posted.turns):
                    for its in (match, keeper):
                        its.post(posts)
                    self.assertEqual(match.end_turn(), keeper.end_turn())
                    self.assertEqual(match.digest(), keeper.digest())
                    with match.view() as view, keeper.view() as other:
                        self.assertEqual((view.snapshot(), view.digest()), (other.snapshot(), other.digest()))
                        saved = view.snapshot()
                    with self.assertRaises(self.api.Failed) as raised:
                        match.journal()
                    self.assertEqual(raised.exception.status, self.api.Status.NO_JOURNAL)
                    compared += 1
                match.forget()
                if posted.turns:
                    self.assertEqual(match.journal(), saved)
        self.assertGreater(compared, 100)

    def test_a_script_that_opens_no_match_is_refused_by_its_line(self):
        api, stop = self.api, self.api.Status
        head = b'{"version":3,"size":[3,3],"callers":1,"classes":[{"name":"a","clearance":"0"}]}\n'
        with api.PostedMatch.of_script(head) as match:
            self.assertEqual((match.digest(), match.journal()), (0, head))
        for script, line in ((b"", 1), (b"{}", 1), (head + b'{"end":2}\n', 2), (head + b'{"caller":0,"remove":1}\n', 3)):
            with self.assertRaises(api.BadScript) as raised:
                api.PostedMatch.of_script(script)
            self.assertEqual((raised.exception.status, raised.exception.line), (stop.BAD_LINE, line))
            self.assertEqual((line, raised.exception.cause), self.bad_line_by_text(script))
        for version in (1, 2):
            with self.assertRaises(api.Failed) as raised:
                api.PostedMatch.of_script(head.replace(b":3,", b":%d," % version, 1))
            self.assertEqual(raised.exception.status, stop.BAD_VALUE)

    def bad_line_by_text(self, script):
        """At which line a match by text finds a script bad, and why."""
        with self.api.TextMatch() as match:
            try:
                match.feed(script)
                match.finish()
            except self.api.BadLine as bad:
                return int(match.take().split()[-1]), bad.cause
        return 0, ""

    def test_a_script_says_its_bad_line_as_a_match_by_text_does(self):
        found = {True: 0, False: 0}
        for script, _, _ in scripts(60):
            for its in (script, script[:-1], script[: len(script) // 2], script + b"\n", script + script):
                said = self.api.cause_of(its)
                self.assertEqual(said, self.bad_line_by_text(its), its)
                found[bool(said[0])] += 1
        self.assertGreater(min(found.values()), 30)
        self.assertEqual(self.api.cause_of(b" " * ((1 << 23) + 1) + b"\n"), (0, ""))

    def test_a_match_by_text_of_an_older_version_has_snapshots_too(self):
        opened = 0
        for script, text, status in scripts(60):
            if status == 0:
                with self.api.TextMatch() as match:
                    match.feed(script)
                    with match.view() as view:
                        saved, standing = view.snapshot(), view.standing()
                with self.api.PostedMatch.of_script(saved) as again, again.view() as view:
                    self.assertEqual((view.standing(), view.snapshot()), (standing, saved))
                opened += 1
        self.assertGreater(opened, 20)

    def test_a_view_says_what_stands_and_where_paths_start_and_end(self):
        starts, ends = 0, collections.Counter()
        for posted, _ in self.said(100):
            with posted.open() as match:
                standing = {}
                for posts in posted.turns:
                    match.post(posts)
                    replies = match.end_turn().replies
                    standing = stand_after(standing, posts, replies)
                    asked = [it for it in zip(sorted(posts, key=lambda post: post.caller), replies) if it[0].kind == 5]
                    with match.view() as view:
                        adds = [standing[number]._replace(caller=0) for number in sorted(standing)]
                        self.assertEqual(view.standing(), adds)
                        self.assertEqual(view.size(), tuple(posted.size))
                        for number in {*standing, *(post.id for post in posts)}:
                            add = standing.get(number)
                            self.assertEqual(view.standing_at(number), add and add._replace(caller=0))
                        for post, reply in asked:
                            end = reply.path.end if reply.kind == self.api.Kind.NEAR_GOAL else None
                            self.assertEqual(view.reachable(post), (reply.kind, end))
                            ends[reply.kind] += 1
                            start = view.nearest(post.class_number, post.x, post.z)
                            if reply.path:
                                self.assertEqual(start, reply.path.start)
                                starts += 1
                            elif reply.why in (None, self.api.Refusal.START_OUTSIDE):
                                self.assertIsNone(start)
        self.assertGreater(starts, 100)
        kinds = self.api.Kind
        self.assertGreater(min(ends[it] for it in (kinds.REFUSED, kinds.AT_GOAL, kinds.NEAR_GOAL)), 10)

    def test_what_can_be_reached_beside_a_wall(self):
        api, native = self.api, self.api.finders.native
        library, classes, fixed = api.load(), [api.PassabilityClass("walker", 0), api.PassabilityClass("ship", 0)], api.fixed
        across = api.path(0, 0, fixed(1.5), fixed(2.5), api.Goal.point(fixed(8.5), fixed(3.5)))
        goal = api.Goal.circle(fixed(8.5), fixed(3.5), fixed(6))
        # column 6 is a wall for walkers, and all is land for ships
        base = [api.Rect(6, 0, 6, 7, 1), api.Rect(0, 0, 11, 7, 2)]
        with api.PostedMatch(12, 8, 2, classes, base) as match, match.view() as view:
            self.assertEqual(view.reachable(across), (api.Kind.NEAR_GOAL, (5, 3)))
            self.assertEqual(view.reachable(across._replace(x=fixed(7.5))), (api.Kind.AT_GOAL, None))
            self.assertEqual(view.reachable(api.path(1, 0, fixed(1.5), fixed(2.5), goal)), (api.Kind.AT_GOAL, None))
            self.assertEqual(view.reachable(across._replace(class_number=1)), (api.Kind.NOWHERE, None))
            self.assertEqual(view.reachable(across._replace(x=fixed(12.5))), (api.Kind.REFUSED, None))
            self.assertEqual(view.reachable(across._replace(goal_x=fixed(12.5))), (api.Kind.REFUSED, None))
            for i, j, other, joined in ((0, 0, 5, True), (0, 0, 7, False), (7, 0, 11, True)):
                self.assertEqual(view.area(0, i, j) == view.area(0, other, 7) != 0, joined)
            bad = [api.remove(0, 1), api.region(0, 0, fixed(1.5), fixed(2.5)), across._replace(class_number=2)]
            bad += [across._replace(caller=2), across._replace(mask=1), across._replace(goal=9), across._replace(kind=0)]
            for post in bad:
                with self.assertRaises(api.Failed) as raised:
                    view.reachable(post)
                self.assertEqual(raised.exception.status, api.Status.BAD_VALUE, post)
            cell, refused = native.CellStruct(3, 4), across._replace(x=fixed(12.5))
            for seen in (native.ViewHandle(), as_view_of(match, native)):
                self.assertEqual(library.pathserve_reachable(seen, across.struct(), cell), 0)
            for post in (*bad, refused, across._replace(x=fixed(7.5)), across._replace(class_number=1)):
                library.pathserve_reachable(view._handle, post.struct(), cell)
            self.assertEqual((cell.i, cell.j), (3, 4))

    def test_a_finder_answers_as_a_view_whatever_it_served_before(self):
        paths = 0
        with self.api.Finder() as finder:
            for posted, _ in self.said(100):
                with posted.open() as match:
                    for posts in posted.turns:
                        match.post(posts)
                        match.end_turn()
                        asked = [it for it in posts if it.kind in (5, 6)]
                        with match.view() as view:
                            one_by_one = [view.find(it) for it in asked]
                            self.assertEqual([finder.find(view, it) for it in asked], one_by_one)
                            placed = [dataclasses.replace(it, post=place) for place, it in enumerate(one_by_one)]
                            self.assertEqual(finder.find_all(view, asked), placed)
                        paths += sum(1 for it in one_by_one if it.path)
        self.assertGreater(paths, 100)

    def test_a_find_within_a_cost_is_too_far_exactly_where_the_path_costs_more(self):
        kind, paths = self.api.Kind.TOO_FAR, 0
        with self.api.Finder() as finder:
            for posted, _ in self.said(60):
                with posted.open() as match:
                    for posts in posted.turns:
                        match.post(posts)
                        match.end_turn()
                        with match.view() as view:
                            for post in (it for it in posts if it.kind in (5, 6)):
                                found = view.find(post)
                                cost = found.path.cost if found.path else 0
                                for most in (cost, cost + 1, 2 * cost, (1 << 64) - 1):
                                    self.assertEqual(finder.find_within(view, post, most), found)
                                for most in {0, cost // 2, max(cost, 1) - 1} if cost else ():
                                    told = finder.find_within(view, post, most)
                                    self.assertEqual(told, self.api.Reply(post.caller, 0, kind))
                                paths += cost > 0
        self.assertGreater(paths, 100)

    def test_a_finder_refuses_as_a_view_and_writes_nothing_then(self):
        api, native = self.api, self.api.finders.native
        library, classes = api.load(), [api.PassabilityClass("walker", api.fixed(0.5))]
        good = api.path(0, 0, api.fixed(1.5), api.fixed(1.5), api.Goal.point(api.fixed(5.5), api.fixed(1.5)))
        with api.PostedMatch(12, 8, 1, classes) as match, match.view() as view, api.Finder() as finder:
            for bad in (api.remove(0, 1), good._replace(class_number=1), good._replace(mask=1), good._replace(caller=1)):
                posts, replies = (native.PostStruct * 2)(good.struct(), bad.struct()), (native.ReplyStruct * 2)()
                cells = (native.CellStruct * 8)()
                status = library.pathserve_find_all(finder._handle, view._handle, posts, 2, replies, 2, cells, 8)
                self.assertEqual(status, api.Status.BAD_VALUE, bad)
                self.assertEqual((bytes(replies), bytes(cells)), (bytes(112), bytes(32)))
                with self.assertRaises(api.Failed) as raised:
                    finder.find(view, bad)
                self.assertEqual(raised.exception.status, api.Status.BAD_VALUE, bad)
            posts, reply = (native.PostStruct * 2)(good.struct(), good.struct()), native.ReplyStruct()
            # buffers that hold less are filled as far as they go
            cells = (native.CellStruct * 2)()
            self.assertEqual(library.pathserve_find_all(finder._handle, view._handle, posts, 2, reply, 1, cells, 1), api.Status.DONE)
            self.assertEqual((reply.post, reply.waypoints > 0, bytes(cells)[4:]), (0, True, bytes(4)))
            self.assertEqual(library.pathserve_finder_open(finder._handle), api.Status.OPEN)
            as_view = ctypes.cast(ctypes.pointer(finder._handle), native.VIEW)
            as_finder = ctypes.cast(ctypes.pointer(view._handle), native.FINDER)
            calls = [
                (as_finder, view._handle, api.Status.OTHER), (finder._handle, as_view_of(match, native), api.Status.OTHER),
                (native.FinderHandle(), view._handle, api.Status.CLOSED), (finder._handle, native.ViewHandle(), api.Status.CLOSED),
            ]
            for by, seen, status in calls:
                self.assertEqual(library.pathserve_find_with(by, seen, posts, reply, cells, 2), status)
                self.assertEqual(library.pathserve_find_within(by, seen, posts, 0, reply, cells, 2), status)
                self.assertEqual(library.pathserve_find_all(by, seen, posts, 2, reply, 1, cells, 2), status)
            other = native.ViewHandle()
            self.assertEqual(library.pathserve_view_again(as_view, other), api.Status.NO_MAP)
            self.assertEqual(library.pathserve_passable(as_view, 0, 0, 0), 0)
            self.assertEqual(finder.find(view, good).kind, api.Kind.AT_GOAL)
    def paths(self, count):
        """Each path that is answered in made scripts, with a view of its turn, its class as that shows it, and what stands."""
        for posted, _ in self.said(count):
            with posted.open() as match:
                standing = {}
                for posts in posted.turns:
                    match.post(posts)
                    replies = match.end_turn().replies
                    standing = stand_after(standing, posts, replies)
                    with match.view() as view:
                        for post, reply in zip(sorted(posts, key=lambda post: post.caller), replies):
                            if post.kind == 5:
                                yield posted.size, view, Seen(view, post.class_number, posted.size), post, reply, standing

    def test_a_field_is_that_of_the_definition(self):
        fields = 0
        for size, view, seen, post, reply, standing in self.paths(60):
            field = view.field(post, *size)
            if not reply.path:
                self.assertIsNone(field)
                continue
            self.assertEqual(field.reply, dataclasses.replace(reply, post=0, path=dataclasses.replace(reply.path, waypoints=())))
            goal = goal_cells(post, standing)
            hit = [cell for cell in seen.distances(tuple(reply.path.start)) if goal.has(cell)]
            self.assertEqual(reply.kind.name, "AT_GOAL" if hit else "NEAR_GOAL")
            lead, far = seen.field(hit or [tuple(reply.path.end)])
            cells = [(i, j) for j in range(size[1]) for i in range(size[0])]
            self.assertEqual(list(field.steps), [lead.get(cell, 0) for cell in cells])
            self.assertEqual(list(field.distances), [far.get(cell, (1 << 64) - 1) for cell in cells])
            self.assertEqual(field.distance(reply.path.start), reply.path.cost)
            with self.assertRaises(IndexError):
                field.next(self.api.Cell(-1, 0))
            with self.assertRaises(IndexError):
                field.distance(self.api.Cell(0, size[1]))
            fields += 1
        self.assertGreater(fields, 100)

    def test_a_part_of_a_field_leaves_what_is_behind(self):
        native = self.api.native
        for size, view, _, post, reply, _ in self.paths(10):
            whole = view.field(post, *size)
            for count in (0, 1, size[0] + 1, size[0] * size[1] + 3):
                steps, far, told = bytearray(b"\xee" * (count + 1)), (native.c_uint64 * (count + 1))(*[7] * (count + 1)), native.ReplyStruct()
                room = (native.c_uint8 * len(steps)).from_buffer(steps)
                native.must(view._call("field", post.struct(), told, room, count, far, count))
                many = min(count, size[0] * size[1]) if whole else 0
                self.assertEqual(bytes(steps), (whole.steps[:many] if whole else b"") + b"\xee" * (count + 1 - many))
                self.assertEqual(list(far), (whole.distances[:many] if whole else []) + [7] * (count + 1 - many))

    def test_smoothed_walks_and_what_is_no_walk(self):
        Cell, tried = self.api.Cell, {True: 0, False: 0}
        for number, (size, view, seen, post, reply, _) in enumerate(self.paths(60)):
            if not reply.path:
                continue
            start, points = reply.path.start, list(reply.path.waypoints)
            self.assertEqual(view.smooth(post.class_number, start, points), [Cell(*it) for it in seen.smoothed([start, *points])])
            at = number % (len(points) + 1)
            moved = Cell(abs(start.i - 1), start.j)
            for begins, others in (
                (start, points[:at] + points[at + 1 :]),
                (start, points[:at] + points[at : at + 1] * 2 + points[at + 1 :]),
                (start, points[:at] + [Cell(it.i + 1, it.j) for it in points[at : at + 1]] + points[at + 1 :]),
                (start, [start, *points]),
                (start, points + [Cell(size[0], 0)]),
                (moved, points),
                (points[0] if points else start, points[1:]),
            ):
                is_walk = seen.is_walk(tuple(begins), [tuple(it) for it in others])
                tried[is_walk] += 1
                if is_walk:
                    smoothed = [Cell(*it) for it in seen.smoothed([begins, *others])]
                    self.assertEqual(view.smooth(post.class_number, begins, others), smoothed)
                else:
                    with self.assertRaises(self.api.Failed) as failed:
                        view.smooth(post.class_number, begins, others)
                    self.assertEqual(failed.exception.status, self.api.Status.BAD_VALUE)
            with self.assertRaises(self.api.Failed):
                view.smooth(16, start, [])
        self.assertGreater(min(tried.values()), 100)

    def test_lines_of_sight(self):
        Cell, seen_so = self.api.Cell, {True: 0, False: 0}
        for number, (size, view, seen, post, _, _) in enumerate(self.paths(40)):
            for k in range(40):
                a, b = (Cell((7 * number + 5 * k + it) % (size[0] + 1), (3 * k + 11 * it) % (size[1] + 1)) for it in (0, k))
                is_clear = seen.is_clear(a, b)
                seen_so[is_clear] += 1
                self.assertEqual(view.clear(post.class_number, a, b), is_clear, (a, b))
            self.assertFalse(view.clear(16, Cell(0, 0), Cell(0, 0)))
        self.assertGreater(min(seen_so.values()), 200)

    def further(self, match, turns):
        """What these turns are told, without their numbers."""
        told = []
        for posts in turns:
            match.post(posts)
            told.append(match.end_turn()._replace(turn=0))
        return told

    def further_of(self, posted, first):
        with posted.open() as match:
            return self.further(match, posted.turns)[first:]

    def test_what_is_no_post_or_no_map_is_refused(self):
        api = self.api
        classes = [api.PassabilityClass("walker", api.fixed(0.5))]
        no_maps = [
            (0, 8, 1, classes, []), (2049, 8, 1, classes, []), (12, 8, 65, classes, []), (12, 8, 0, classes, []), (12, 8, 1, [], []),
            (12, 8, 1, classes * 2, []), (12, 8, 1, [api.PassabilityClass("a b", 0)], []),
            (12, 8, 1, [api.PassabilityClass("a", -1)], []), (12, 8, 1, classes, [api.Rect(0, 0, 12, 0, 1)]),
        ]
        wrong = ["width must", "width must", "callers must", "callers must", "1 to 16 classes", "the name 'walker' of", "name of class 0", "clearance of class 0", "rectangle 0"]
        for parts, words in zip(no_maps, wrong, strict=True):
            with self.assertRaises(api.Failed) as raised:
                api.PostedMatch(*parts)
            self.assertEqual(raised.exception.status, api.Status.BAD_VALUE, parts)
            self.assertIn(words, str(raised.exception))
        with api.PostedMatch(12, 8, 1, classes) as match:
            good = api.region(0, 0, 0, 0)
            with self.assertRaises(TypeError):
                match.post(good)
            path = api.path(0, 0, 0, 0, api.Goal.point(0, 0))
            bad = {
                "WRONG_KIND": good._replace(kind=7), "WRONG_CALLER": good._replace(caller=1),
                "WRONG_CLASS": good._replace(class_number=1), "WRONG_GOAL": path._replace(goal=7), "NOT_ZERO": good._replace(mask=1),
            }
            for place, (why, post) in enumerate(bad.items()):
                with self.assertRaises(api.BadPost) as raised:
                    match.post([good] * place + [post, good._replace(kind=0)])
                it = raised.exception
                self.assertEqual((it.status, it.place, it.why.name), (api.Status.BAD_VALUE, place, why))
            self.assertEqual(match.end_turn().replies, [])
            library = api.load()
            self.assertEqual(library.pathserve_finish(match._handle), api.Status.OTHER)
        with api.TextMatch() as match:
            self.assertEqual(library.pathserve_post_all(match._handle, None, 0), api.Status.OTHER)

    def test_each_number_of_the_header_has_a_text(self):
        with open(HEADER, encoding="utf-8") as file:
            header = file.read()
        blocks = [re.findall(r"PATHSERVE_(\w+) = (\d+)", it) for it in re.findall(r"(?ms)^enum \{.*?^\};", header)]
        most = int(re.search(r"PATHSERVE_TEXT (\d+)u", header)[1])
        for call, first in (("status_text", "DONE"), ("refusal_text", "BAD_SHAPE"), ("fault_text", "WRONG_KIND")):
            block, = (it for it in blocks if it[0][0] == first)
            texts = [self.api.text_of(call, int(number)) for _, number in block]
            self.assertEqual(len({*texts, self.api.text_of(call, 99)}), len(block) + 1, call)
            self.assertLess(max(map(len, texts)), most)
            if call == "refusal_text":
                self.assertEqual(texts, [name.lower().replace("_", "-") for name, _ in block])
        self.assertEqual(self.api.text_of("version_text"), read("VERSION").decode().strip())

    def test_a_bad_line_has_its_cause(self):
        good = read("examples/skirmish.script").splitlines(keepends=True)
        causes = {
            b"\n": "the line must be one JSON value, and is blank",
            b"[" * 9 + b"]" * 9 + b"\n": "the line must not have arrays and objects more than 8 deep",
            b'{"caller":0}\n': "the line must ",
            b"{} // once\n": "byte 4: JSON has no comments",
        }
        for bad, cause in causes.items():
            for before in (0, 1, len(good)):
                for piece in (1, 7, 1 << 20):
                    script = b"".join(good[:before]) + bad + b"more"
                    with self.api.TextMatch() as match:
                        self.assertEqual(match.cause(), "")
                        with self.assertRaises(self.api.BadLine) as raised:
                            for at in range(0, len(script), piece):
                                match.feed(script[at : at + piece])
                        self.assertTrue(raised.exception.cause.startswith(cause), raised.exception.cause)
                        self.assertEqual(match.cause(), raised.exception.cause)
        with self.api.TextMatch() as match:
            with self.assertRaises(self.api.BadLine) as raised:
                match.finish()
            self.assertEqual(raised.exception.cause, "the script must begin with a map line, and has no line")
            self.assertEqual(match.cause(), raised.exception.cause)

    def test_a_grid_of_masks_blocks_what_its_rectangles_do(self):
        played = 0
        for posted, text in self.said(150):
            width, height = posted.size
            masks = [0] * (width * height)
            for rect in posted.base:
                for j in range(rect.j0, rect.j1 + 1):
                    for i in range(rect.i0, rect.i1 + 1):
                        masks[j * width + i] |= rect.mask
            with self.api.PostedMatch(*posted.size, posted.callers, posted.classes, masks=masks) as match:
                told = ""
                for posts in posted.turns:
                    match.post(posts)
                    told += text_of(match.end_turn())
                self.assertEqual(told.encode(), text)
                self.assertEqual(self.by_text(match.journal()), (text, 0))
            played += bool(posted.base)
        self.assertGreater(played, 5)

    def test_a_grid_that_is_none_is_refused(self):
        api = self.api
        classes = [api.PassabilityClass("walker", 0)]
        for size, count in (((12, 8), 95), ((12, 8), 97), ((12, 8), 0), ((0, 8), 0), ((2049, 1), 2049)):
            with self.assertRaises(api.Failed) as raised:
                api.PostedMatch(*size, 1, classes, masks=[0] * count)
            self.assertEqual(raised.exception.status, api.Status.BAD_VALUE)
        with self.assertRaises(ValueError):
            api.PostedMatch(1, 1, 1, classes, masks=[65536])
        with self.assertRaises(ValueError):
            api.PostedMatch(1, 1, 1, classes, [api.Rect(0, 0, 0, 0, 1)], masks=[1])
        with api.PostedMatch(3, 2, 1, classes, masks=[1, 0, 1, 2, 65535, 0]) as match, match.view() as view:
            self.assertEqual([view.passable(0, i, j) for j in range(2) for i in range(3)], [False, True, False, True, False, True])

    def test_a_limit_refuses_exactly_the_posts_past_it(self):
        api = self.api
        with api.PostedMatch(4, 4, 1, [api.PassabilityClass("walker", 0)]) as match:
            ask = api.region(0, 0, 0, 0)
            match.limit_posts(3)
            for turn in range(2):
                for posts, fits in (([ask] * 4, False), ([ask] * 2, True), ([ask] * 2, False), ([ask], True), ([ask], False), ([], True)):
                    if fits:
                        match.post(posts)
                        continue
                    with self.assertRaises(api.Failed) as raised:
                        match.post(posts)
                    self.assertEqual(raised.exception.status, api.Status.PAST_LIMIT)
                with self.assertRaises(api.Failed) as raised:
                    match.post([ask._replace(kind=9)])
                self.assertEqual(raised.exception.status, api.Status.PAST_LIMIT)
                self.assertEqual(len(match.end_turn().replies), 3, turn)
            with self.assertRaises(ValueError):
                match.limit_posts(-1)
            match.limit_posts(1 << 40)
            match.post([ask] * 4)
            match.limit_posts(0)
            self.assertEqual(len(match.end_turn().replies), 4)
        with api.TextMatch() as match, self.assertRaises(api.Failed) as raised:
            api.native.must(match._call("limit_posts", 1))
        self.assertEqual(raised.exception.status, api.Status.OTHER)

    def test_a_loaded_match_tells_the_size_of_its_map(self):
        api = self.api
        for size in ((1, 1), (1, 2048), (2048, 1), (97, 640)):
            with api.PostedMatch(*size, 1, [api.PassabilityClass("walker", 0)]) as match:
                script = match.journal()
            with api.PostedMatch.of_script(script) as match, match.view() as view:
                self.assertEqual(view.size(), size)
            self.assertEqual(view.size(), (0, 0))

    def fed(self, match, piece: bytes) -> bool:
        """Whether a match takes a piece; else it refuses it for its limit."""
        try:
            match.feed(piece)
            return True
        except self.api.Failed as refused:
            self.assertEqual(refused.status, self.api.Status.PAST_LIMIT)
            return False

    def test_a_limit_refuses_exactly_the_lines_past_it(self):
        api, script = self.api, read("examples/skirmish.script")
        longest = max(map(len, script.split(b"\n")))
        refused = 0
        for most in (longest - 1, longest, 40, 0):
            for size in (1, 7, 64, len(script)):
                with api.TextMatch() as match, api.TextMatch() as free:
                    match.limit_line(most)
                    begun = 0
                    for at in range(0, len(script), size):
                        piece = script[at : at + size]
                        first, *others = piece.split(b"\n")
                        fits = (not first or begun + len(first) <= most) and all(len(line) <= most for line in others)
                        self.assertEqual(self.fed(match, piece), fits)
                        if not fits:
                            refused += 1
                            match.limit_line(1 << 40)
                            match.feed(piece)
                            match.limit_line(most)
                        free.feed(piece)
                        begun = len(others[-1]) if others else begun + len(first)
                        self.assertEqual(match.take(), free.take())
        self.assertGreater(refused, 100)

    def test_a_line_of_just_the_limit_passes(self):
        api, line = self.api, read("examples/skirmish.script").split(b"\n")[0]
        for size in (1, len(line)):
            pieces = [line[at : at + size] for at in range(0, len(line), size)]
            for most in (len(line), len(line) - 1):
                with api.TextMatch() as match:
                    match.limit_line(most)
                    self.assertEqual([self.fed(match, piece) for piece in pieces], [True] * (len(pieces) - 1) + [most == len(line)])
                    if most == len(line):
                        self.assertFalse(self.fed(match, b" "))
                        self.assertFalse(self.fed(match, b" \n"))
                        match.feed(b"\n")
                        match.view().close()
                        self.assertFalse(self.fed(match, b"\n" + b" " * (most + 1)))
                        self.assertTrue(self.fed(match, b" " * most))

    def test_a_limit_of_lines_counts_from_the_first_on(self):
        api = self.api
        with api.TextMatch() as match:
            match.feed(b" " * 100)
            match.limit_line(3)
            match.feed(b"  ")
            match.limit_line(2)
            self.assertFalse(self.fed(match, b" "))
            match.limit_line(3)
            self.assertTrue(self.fed(match, b" "))
            self.assertFalse(self.fed(match, b" "))
            match.feed(b"")
            with self.assertRaises(api.BadLine):
                match.feed(b"\n")
            self.assertFalse(self.fed(match, b"    "))
            with self.assertRaises(api.BadLine):
                match.feed(b"   ")
            with self.assertRaises(ValueError):
                match.limit_line(-1)
        with api.PostedMatch(4, 4, 1, [api.PassabilityClass("walker", 0)]) as match, self.assertRaises(api.Failed) as raised:
            api.native.must(match._call("limit_line", 1))
        self.assertEqual(raised.exception.status, api.Status.OTHER)

    def test_numbers_that_no_field_holds_are_refused(self):
        api = self.api
        classes = [api.PassabilityClass("walker", api.fixed(0.5))]
        no_maps = [
            ((1 << 32) + 12, 8, 1, classes, []), (12, 8, -1, classes, []),
            (12, 8, 1, [api.PassabilityClass("walker", 1 << 31)], []), (12, 8, 1, classes, [api.Rect(0, 0, 65536, 0, 1)]),
        ]
        for parts in no_maps:
            with self.assertRaises(ValueError):
                api.PostedMatch(*parts)
        with api.PostedMatch(12, 8, 1, classes) as match:
            good = api.region(0, 0, 0, 0)
            for name, number in (("caller", 256), ("class_number", 256), ("mask", 65536), ("id", -1), ("x", api.fixed(65541.5))):
                with self.assertRaises(ValueError):
                    match.post([good, good._replace(**{name: number})])
            self.assertEqual(match.end_turn().replies, [])
            with match.view() as view:
                self.assertTrue(view.passable(0, 0, 0))
                self.assertFalse(view.passable(0, 1 << 32, 0) or view.passable(1 << 32, 0, 0) or view.passable(0, -1, 0))
                self.assertEqual((view.area(0, 1 << 32, 0), view.region(0, 0, 1 << 32)), (0, 0))

    def test_a_script_is_bytes(self):
        script = read("examples/skirmish.script")
        for its in (bytearray(script), memoryview(script)):
            self.assertEqual(self.by_text(its), (read("examples/skirmish.answers"), 0))
        with self.api.TextMatch() as match:
            for no_bytes in (script.decode(), 5, None):
                with self.assertRaises(TypeError):
                    match.feed(no_bytes)

    def test_eight_threads_ask_one_view(self):
        classes = [self.api.PassabilityClass("walker", 0)]
        with self.api.PostedMatch(64, 64, 1, classes, [self.api.Rect(0, 32, 31, 32, 1)]) as match, match.view() as view:
            asked = [(i, j) for i in range(64) for j in range(31, 34)]

            def told(_):
                return [(view.passable(0, i, j), view.area(0, i, j)) for i, j in asked]

            with concurrent.futures.ThreadPoolExecutor(8) as threads:
                seen = list(threads.map(told, range(32)))
        free = [(i, j) for (i, j), (is_free, _) in zip(asked, seen[0]) if is_free]
        self.assertEqual(len(asked) - len(free), 32)
        self.assertEqual(seen, [seen[0]] * 32)

    def test_in_pieces_of_any_length(self):
        script = read("examples/skirmish.script")
        for piece in (1, 2, 3, 7, 64):
            self.assertEqual(self.by_text(script, piece), (read("examples/skirmish.answers"), 0))

    def test_cut_after_each_byte(self):
        script = read("examples/skirmish.script")
        for end in range(len(script) + 1):
            self.assertEqual(self.by_text(script[:end]), check.predicted(script[:end]))

    def test_made_scripts(self):
        for script, text, status in scripts(200):
            self.assertEqual(self.by_text(script), (text, status), script)

    def test_a_view_sees_what_paths_see(self):
        script = (
            b'{"version":3,"size":[70,9],"callers":1,"classes":[{"name":"walker","clearance":"0.5"}]}\n'
            b'{"base":[[0,8,69,8,1]]}\n{"caller":0,"add":1,"unit":["66.5","4.5","0.5"],"mask":1}\n{"end":1}\n'
        )
        line = b'{"caller":0,"path":"walker","from":["60.5","4.5"],"goal":{"point":["69.5","4.5"]}}\n{"end":2}\n'
        with self.api.TextMatch() as match:
            match.feed(script)
            match.take()
            with match.view() as view:
                for j in range(9):
                    row = view.row(0, j, 70)
                    self.assertEqual(row, [view.passable(0, i, j) for i in range(70)])
                    self.assertEqual(row, [bool(view.area(0, i, j)) for i in range(70)])
                self.assertFalse(view.passable(0, 66, 4) or view.passable(0, 70, 0) or view.passable(1, 0, 0))
                fixed = self.api.fixed
                found = view.find(self.api.path(0, 0, fixed(60.5), fixed(4.5), self.api.Goal.point(fixed(69.5), fixed(4.5)))).path
            match.feed(line)
            told = match.take().decode().splitlines()[1].split()
            self.assertEqual(told[:7], f"0 0 path {found.start.i} {found.start.j} {found.end.i} {found.end.j}".split())
            self.assertEqual(told[8:10], [str(found.cost), str(len(found.waypoints))])
            self.assertEqual(told[10:], [f"{it.i}.5,{it.j}.5" for it in found.waypoints])


if __name__ == "__main__":
    unittest.main()
