"""The library of a release for the web, by its package for JavaScript: made scripts by each report beside the library for Linux, by
posts beside the plain program, each allocation refused, the heap, and the numbers of 128 bits."""
import os
import re
import shutil
import subprocess
import tempfile
import unittest

from places import TOP, read
from test_library import CC, RELEASE, built, needs_cc, needs_release, scripts
import platforms

FOLDER = os.path.join(RELEASE, "web", "pathserve")
PACKAGE, MODULE = os.path.join(FOLDER, "pathserve.js"), os.path.join(FOLDER, "pathserve.wasm")
NODE = shutil.which("node")
TESTS = os.path.join(TOP, "tools", "tests", "library")

needs_web = unittest.skipUnless(os.path.isfile(MODULE), "the release is not for the web")
needs_node = unittest.skipUnless(NODE, "there is no node")
needs_kit = unittest.skipUnless(shutil.which("rt") and shutil.which("wasm-opt"), "rt or wasm-opt is missing")


def node(*words, given=b""):
    return subprocess.run([NODE, *words], input=given, capture_output=True, timeout=1800)


@needs_release
@needs_web
class Package(unittest.TestCase):
    def test_it_has_the_version_of_the_header_and_types_for_each_name(self):
        version = read("VERSION").decode().strip()
        self.assertIn(f'"version": "{version}"', read(os.path.join(FOLDER, "package.json")).decode())
        code, types = (read(os.path.join(FOLDER, it)).decode() for it in ("pathserve.js", "pathserve.d.ts"))
        exported = set(re.findall(r"^export (?:async )?(?:const|function|class) (\w+)", code, re.M))
        declared = set(re.findall(r"^export (?:const|function|class) (\w+)", types, re.M))
        self.assertEqual(exported, declared)
        self.assertGreater(len(exported), 12)

    @needs_node
    def test_the_module_needs_nothing_and_exports_what_the_header_declares(self):
        code = """const module = await WebAssembly.compile((await import("node:fs")).readFileSync(process.argv[1]));
          console.log(JSON.stringify([WebAssembly.Module.imports(module), WebAssembly.Module.exports(module).map((it) => it.name).sort()]));"""
        ran = node("--input-type=module", "-e", code, MODULE)
        self.assertEqual(ran.returncode, 0, ran.stderr.decode())
        declared = set(re.findall(r"^[a-z].*\b(pathserve_\w+)\(", read("include/pathserve.h").decode(), re.M))
        names = ", ".join(f'"{it}"' for it in sorted({*declared, "free", "malloc", "memory"}))
        self.assertEqual(ran.stdout.decode().strip(), f"[[],[{names}]]".replace(", ", ","))


@needs_release
@needs_web
@needs_node
class Node(unittest.TestCase):
    @needs_cc
    def test_made_scripts_by_each_report_are_answered_as_on_linux(self):
        made = platforms.scripts(200)
        with tempfile.TemporaryDirectory() as folder:
            here = platforms.answers([built(folder, "tools/tests/library/answers.c")], made)
        there = platforms.answers([NODE, os.path.join(TESTS, "answers.mjs"), PACKAGE, MODULE], made)
        self.assertEqual(len(here), 800)
        self.assertEqual(platforms.differing(made, here, there), [])

    def test_made_scripts_by_posts_are_answered_as_the_plain_program_predicts(self):
        made = [(script, text) for script, text, status in scripts(150) if status == 0]
        given = b"".join(b"%d\n%s" % (len(script), script) for script, _ in made)
        ran = node(os.path.join(TESTS, "posts.mjs"), PACKAGE, MODULE, given=given)
        self.assertEqual(ran.returncode, 0, ran.stderr.decode())
        told, at, played = ran.stdout, 0, 0
        for script, text in made:
            is_played, length, end = *map(int, told[at : told.index(b"\n", at)].split()), told.index(b"\n", at) + 1
            if is_played:
                self.assertEqual(told[end : end + length], text, script)
            at, played = end + length, played + is_played
        self.assertEqual(at, len(told))
        self.assertGreater(played, 80)

    def test_the_example_says_what_the_examples_answers_say(self):
        ran = node(os.path.join(RELEASE, "web", "skirmish.mjs"))
        self.assertEqual(ran.returncode, 0, ran.stderr.decode())
        turns, _, view = ran.stdout.decode().partition("siege, from the north:")
        costs = re.findall(r"path \d+ \d+ \d+ \d+ \w+ (\d+)", read("examples/skirmish.answers").decode())
        self.assertEqual(re.findall(r'"cost":(\d+)', turns), costs)
        self.assertIn('caller 0, post 1: refused {"why":"unknown-id"}', turns)
        self.assertEqual(view.count("############"), 1)

    def test_the_page_shows_what_runs(self):
        shown, = re.findall(r"(?ms)^```js\n(.*?)^```", read(os.path.join(RELEASE, "docs", "PLATFORMS.md")).decode())
        with tempfile.TemporaryDirectory() as folder:
            shutil.copytree(os.path.join(RELEASE, "web"), f"{folder}/web")
            with open(f"{folder}/web/shown.mjs", "w", encoding="utf-8") as it:
                it.write(shown)
            ran = node(f"{folder}/web/shown.mjs")
        self.assertEqual(ran.returncode, 0, ran.stderr.decode())
        self.assertRegex(ran.stdout.decode().replace("\n", " "), r"^\d+ \[.*\{ i: 50, j: 32 \} *\] $")

    def test_numbers_that_do_not_fit_are_refused_before_a_call(self):
        code = """import { pathToFileURL } from "node:url";
          const its = await import(pathToFileURL(process.argv[1])), library = await its.load();
          const map = { width: 8, height: 8, callers: 1, classes: [{ name: "a", clearance: 0 }] }, other = await its.load();
          const match = library.postedMatch(map), finder = library.finder(), post = its.region(0, 0, 0, 0), cell = { i: 0, j: 0 };
          match.endTurn();
          const view = match.view();
          const tries = [() => match.post(its.remove(256, 1)), () => match.post(its.remove(0, 2 ** 32)), () => match.post({ kind: 3, idd: 1 }),
            () => match.post(its.addUnit(0, 1, 65536, 0, 0, 1)), () => match.post(its.move(0, 1, 0.5, 0)),
            () => match.post(its.region(0, 1, 0, 0)), () => library.postedMatch({ width: 2 ** 32 + 8, height: 8, callers: 1, classes: [] }),
            () => library.textMatch("reply"), () => view.nearest(0, 2 ** 31, 0), () => view.standingAt(-1), () => view.clear(0, cell, { i: 65536, j: 0 }),
            () => view.smooth(0, { i: 0.5, j: 0 }, []), () => view.smooth(0, cell, [{ i: 2, j: 1 }]), () => view.field(its.remove(0, 1), 8, 8),
            () => finder.findAll(view, [its.path(0, 0, 0, 0, its.Goal.point(0, 0)), its.region(0, 1, 0, 0)]), () => finder.find(match, post),
            () => finder.find(other.postedMatch(map), post), () => { view.close(); finder.find(view, post); },
            () => { finder.close(); finder.find(view, post); }, () => { match.close(); match.endTurn(); }];
          for (const it of tries) try { it(); console.log("taken"); } catch (fault) { console.log(fault.name, fault.status ?? ""); }"""
        ran = node("--input-type=module", "-e", code, PACKAGE)
        said = ["RangeError", "RangeError", "TypeError", "RangeError", "RangeError", "Failed 21", "RangeError", "Failed 21"]
        said += ["RangeError", "RangeError", "RangeError", "RangeError", "Failed 21", "Failed 21", "Failed 21", "Failed 18", "TypeError"]
        said += ["Failed 16", "Failed 16", "Failed 16"]
        self.assertEqual([it.strip() for it in ran.stdout.decode().splitlines()], said, ran.stderr.decode())

    def test_a_line_as_deep_as_can_be_has_room(self):
        code = """import { pathToFileURL } from "node:url";
          const its = await import(pathToFileURL(process.argv[1])), library = await its.load();
          for (const deep of ['{"a":', "[", '[{"a":']) for (const many of [1, 4, 8, 10000]) {
            const match = library.textMatch();
            try { match.feed(deep.repeat(many) + "\\n"); } catch (fault) { console.log(fault.status, match.takeText().trim()); }
            match.close();
          }"""
        ran = node("--input-type=module", "-e", code, PACKAGE)
        self.assertEqual(ran.stdout.decode().splitlines(), ["3 bad line 1"] * 12, ran.stderr.decode())

    @needs_kit
    def test_each_allocation_is_refused_in_turn(self):
        with tempfile.TemporaryDirectory() as folder:
            module = module_of(folder, ["web_refused.c"], ["refuse", "count_calls", "count_live"])
            ran = node(os.path.join(TESTS, "refused.mjs"), PACKAGE, module, os.path.join(TOP, "examples", "skirmish.script"))
        self.assertEqual(ran.returncode, 0, ran.stderr.decode())
        self.assertRegex(ran.stdout, rb"^\d{2,} allocations by text, \d{2,} by posts\n$")


@needs_cc
class Parts(unittest.TestCase):
    """What the library has there in place of a C library."""

    def told(self, name, *flags):
        with tempfile.TemporaryDirectory() as folder:
            program = os.path.join(folder, "part")
            subprocess.run([CC, "-std=gnu11", "-O1", "-Wall", "-Wextra", *flags, "-o", program, os.path.join(TESTS, name)], check=True)
            ran = subprocess.run([program], capture_output=True)
        return ran.stdout.decode(), ran.returncode

    def test_numbers_of_128_bits(self):
        for flags in ([], ["-DPORTABLE"]):
            self.assertEqual(self.told("own_numbers.c", *flags), ("2000000 alike\n", 0), flags)

    def test_memory(self):
        told, status = self.told("own_heap.c")
        self.assertEqual(status, 0, told)


def module_of(folder, sources, exports):
    """A module of the release's archive with other memory, of files of the tests, as the web's is made."""
    import library_targets as targets

    kit, _ = targets.unproved_build.kit_at(shutil.which("rt"))
    maker = targets.Maker(kit, targets.WEB, folder)
    objects = [maker.part("web_heap.c"), *(maker.part(os.path.join(TESTS, it)) for it in sources)]
    names = [f"--export={it}" for it in (*targets.names(), *exports, "malloc", "free")]
    words = ["-mwasm64", "--no-entry", "-z", f"stack-size={targets.STACK}", "--stack-first", "--gc-sections", *names]
    maker.run("wasm-ld", *words, *objects, os.path.join(RELEASE, "web", "wasm64", "libpathserve_noheap.a"), "-o", "wide.wasm")
    targets.narrowed(shutil.which("wasm-opt"), f"{folder}/wide.wasm", f"{folder}/made.wasm")
    return f"{folder}/made.wasm"


if __name__ == "__main__":
    unittest.main()
