"""The tools and the examples as commands: help, missing words, a reader that leaves, a full disk and a locale without UTF-8."""
import os
import shutil
import subprocess
import sys
import tempfile
import unittest

from places import PROGRAM, TOP, needs_program, read

BENCH = [f"bench/{it}" for it in ("beside_0ad.py", "broken", "game_loop", "hostile", "limits", "load", "measure.py", "random_calls", "refused", "times.py")]
MAKERS = [f"tools/{it}.py" for it in ("crates", "decisions", "definitions", "format_tests", "forms", "gate_minutes", "layers", "library_module", "library_targets", "packages", "reading_list", "search_pictures", "speed_plots", "test_index", "theorems", "unproved_tests")]
OTHERS = ["digests.py", "from_0ad.py", "from_movingai.py", "from_picture.py", "rename.py", "replays.py", "test_lines.py", "unproved_build.py", "view.py"]
TOOLS = [f"tools/{it}" for it in OTHERS] + ["examples/check.py", "examples/client.py", "examples/two_callers.py", "examples/python/skirmish.py"]
# commands that write, each with its words
WRITERS = [
    ["tools/digests.py", "examples/skirmish.answers"], ["tools/from_movingai.py", "examples/valley.map"],
    ["tools/view.py", "examples/skirmish.script", "examples/skirmish.answers"], ["examples/check.py", "--help"],
]
# as in a locale that cannot write every name
PLAIN = {"LC_ALL": "C", "PYTHONCOERCECLOCALE": "0", "PYTHONUTF8": "0"}


def run(*words, **more):
    """The status of a command, and what it says on standard error."""
    ran = subprocess.run([sys.executable, "-B", *words], cwd=TOP, stderr=subprocess.PIPE, timeout=120, **{"stdout": subprocess.PIPE, **more})
    return ran.returncode, ran.stderr.decode(errors="replace"), ran.stdout


class Commands(unittest.TestCase):
    def test_each_has_help(self):
        for name in [*BENCH, *MAKERS, *TOOLS]:
            status, said, out = run(name, "--help", stdin=subprocess.DEVNULL)
            self.assertEqual((status, said, len(out) > 80), (0, "", True), name)

    def test_a_missing_word_is_told(self):
        for name in [*BENCH, *TOOLS]:
            status, said, _ = run(name, stdin=subprocess.DEVNULL, env={**os.environ, "PATHSERVE_LIBRARY": "/no/library"})
            self.assertIn(status, (1, 2), name)
            self.assertTrue(said and "Traceback" not in said, name)

    def test_a_full_disk(self):
        for words in WRITERS:
            with open("/dev/full", "wb") as full:
                status, said, _ = run(*words, stdout=full)
            self.assertEqual((status, said.count("\n")), (5, 1), words)
            self.assertIn("No space left on device", said)

    def test_a_reader_that_leaves(self):
        for words in WRITERS:
            near, far = os.pipe()
            os.close(near)
            status, said, _ = run(*words, stdout=far)
            os.close(far)
            self.assertEqual(status, 5, words)
            self.assertLessEqual(said.count("\n"), 1, words)

    def test_a_name_that_the_locale_cannot_write(self):
        with tempfile.TemporaryDirectory() as folder:
            for name in ("\u00e4 \u00f6.script", os.fsdecode(b"\xff.script")):
                place = os.path.join(folder, name)
                shutil.copy(os.path.join(TOP, "examples/skirmish.script"), place)
                env = {**os.environ, **PLAIN}
                self.assertEqual(run("tools/view.py", place, "examples/skirmish.answers", env=env)[:2], (0, ""))
                for words in (["tools/view.py", f"{place}s", place], ["tools/digests.py", f"{place}s"], ["tools/replays.py", "/bin/false", place]):
                    status, said, _ = run(*words, env=env)
                    self.assertEqual((status, "Traceback" in said), (2, False), said)

    def test_tools_without_the_examples_say_so(self):
        with tempfile.TemporaryDirectory() as folder:
            shutil.copytree(os.path.join(TOP, "tools"), f"{folder}/tools")
            status, said, _ = run(f"{folder}/tools/view.py", "a", "b")
        self.assertEqual((status, said), (1, f"{folder}/examples/check.py is missing: the folder examples must stand beside tools\n"))


class Clients(unittest.TestCase):
    @needs_program
    def test_a_bad_line_in_a_turn_longer_than_a_pipe_is_told(self):
        code = """import sys
sys.path.insert(0, "examples")
import client
service = client.Service(sys.argv[1], {"version": 3, "size": [12, 8], "callers": 1, "classes": [{"name": "a", "clearance": "0"}]})
service.play(1, [{"caller": 0, "remove": "one"}, *[{"caller": 0, "remove": 1}] * int(sys.argv[2])])
"""
        for count in ("10", "5000"):
            status, said, _ = run("-c", code, PROGRAM, count)
            # (the program says why too, before or after)
            self.assertEqual((status, said.splitlines().count("RuntimeError: bad line 2")), (1, 1), said)


if __name__ == "__main__":
    unittest.main()
