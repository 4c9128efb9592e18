"""The script `./pathserve`: over a small repository with a command rt and a compiler that only pretend."""
import concurrent.futures
import os
import shutil
import stat
import subprocess
import sys
import tempfile
import unittest

from places import PROGRAM, TOP, needs_program, read

# Proves in place of the kit: it writes what `rt all` writes, with the status that the file `verdict` says.
RT = """#!/bin/sh
case $1 in
version) echo a-kit ;;
all) echo "== low"; verdict=$(cat '{top}/verdict'); [ "$verdict" = 0 ] || echo "low: failed ($verdict)"; exit "$verdict" ;;
run) mkdir -p out && printf '#!/bin/sh\\necho proved "$@"\\n' >out/pathserve_bin && chmod +x out/pathserve_bin ;;
esac
"""
BUILDER = """import os, sys
with open(sys.argv[1], "w") as it:
    it.write('#!/bin/sh\\necho built "$@"; cat\\n')
os.chmod(sys.argv[1], 0o755)
"""


def write(name, text):
    os.makedirs(os.path.dirname(name), exist_ok=True)
    with open(name, "w", encoding="utf-8") as it:
        it.write(text)


class Pathserve(unittest.TestCase):
    def setUp(self):
        made = tempfile.TemporaryDirectory()
        self.addCleanup(made.cleanup)
        self.top = made.name
        os.mkdir(f"{self.top}/include")
        for name in ("pathserve", "VERSION", "include/pathserve.h"):
            shutil.copy(os.path.join(TOP, name), os.path.join(self.top, name))
        for name, text in {
            "crates.txt": "low:\npathserve_bin: low\nlow_tests: low\n",
            "HANDLES": "Handles allowed: none.\n",
            "crates/low/src/lib.rt": "one",
            "crates/low_tests/src/lib.rt": "tests",
            "crates/pathserve_bin/src/main.rt": "main",
            "examples/first.script": "",
            "tools/unproved_build.py": BUILDER,
            "verdict": "0",
            "bin/rt": RT.format(top=self.top),
        }.items():
            write(os.path.join(self.top, name), text)
        os.chmod(os.path.join(self.top, "bin/rt"), stat.S_IRWXU)
        os.mkdir(f"{self.top}/python")
        os.symlink(sys.executable, f"{self.top}/python/python3")

    def run_it(self, *words, with_rt=True, text=""):
        path = os.pathsep.join([*([f"{self.top}/bin"] if with_rt else []), f"{self.top}/python", "/usr/bin", "/bin"])
        ran = subprocess.run([f"{self.top}/pathserve", *words], input=text, capture_output=True, text=True, timeout=60, env={"PATH": path})
        return ran.returncode, ran.stdout, ran.stderr

    def is_built(self):
        return os.path.isdir(f"{self.top}/out")

    def test_wrong_words_answer_at_once(self):
        for words in (
            [], ["relpay"], ["replay", "x"], ["replay", "--workers"], ["replay", "--workers", "0"], ["replay", "--workers", "65"],
            ["replay", "--workers", "04"], ["serve", "--workers", "4", "5"], ["make"], ["make", "01"], ["make", "-1"],
            ["make", "18446744073709551616"], ["make", "7", "8"], ["prove", "now"], ["--unproved"], ["--unproved", "prove"], ["--version", "x"],
        ):
            self.assertEqual(self.run_it(*words)[0], 2, words)
        self.assertFalse(self.is_built())

    def test_wrong_words_are_told(self):
        write(f"{self.top}/my.script", "")
        for words, told in (
            (["replay", f"{self.top}/my.script"], f"replay reads standard input: ./pathserve replay < {self.top}/my.script;"),
            (["replay", "no.script"], '"no.script" can\'t stand after replay;'), (["--proved", "replay"], 'there is no option "--proved";'),
            (["--unproved", "prove"], '"prove" can\'t stand after --unproved;'), (["smooth", "--worker", "3"], 'there is no option "--worker" after smooth;'),
        ):
            status, out, said = self.run_it(*words)
            self.assertEqual((status, out, said.partition(" ./pathserve --help")[0]), (2, "", f"pathserve: {told}"))

    def test_help_and_version_answer_at_once(self):
        for words in (["--help"], ["-h"], ["help"], ["replay", "--help"], ["make", "-h"]):
            status, out, _ = self.run_it(*words)
            self.assertEqual((status, out.split()[0]), (0, "usage:"))
        status, out, _ = self.run_it("--version")
        version = read("VERSION").decode().strip()
        self.assertEqual((status, out.splitlines()), (0, [f"pathserve {version}, answers 2, commit unknown", "a-kit", "not proved"]))
        self.assertFalse(self.is_built())

    def test_right_words_run(self):
        for words in (["replay"], ["smooth", "--workers", "64"], ["make", "0"], ["make", "18446744073709551615", "--workers", "1"]):
            self.assertEqual(self.run_it(*words)[:2], (0, f"built {' '.join(words)}\n"))

    def test_the_first_run_builds_and_says_that_nothing_is_proved(self):
        status, out, said = self.run_it("replay", text="lines\n")
        self.assertEqual((status, out), (0, "built replay\nlines\n"))
        self.assertIn("NOT PROVED yet: ./pathserve prove", said)
        # what was built is kept, and needs no kit
        status, _, said = self.run_it("replay", with_rt=False)
        self.assertEqual((status, len(said.splitlines())), (0, 1))

    def test_what_is_proved_runs_and_says_nothing(self):
        status, _, said = self.run_it("prove")
        self.assertEqual(status, 0, said)
        self.assertIn("2 crates", said)
        self.assertEqual(self.run_it("flow", with_rt=False), (0, "proved flow\n", ""))
        self.assertEqual(self.run_it("--version")[1].splitlines()[2], "proved with a-kit")
        # the sources of tests are not the program's
        write(f"{self.top}/crates/low_tests/src/lib.rt", "others")
        self.assertEqual(self.run_it("flow")[2], "")

    def test_a_changed_source_runs_with_a_word(self):
        self.run_it("prove")
        write(f"{self.top}/crates/low/src/lib.rt", "two")
        status, out, said = self.run_it("replay")
        self.assertEqual((status, out), (0, "built replay\n"))
        self.assertIn("NOT PROVED: the sources have changed since their proof", said)
        write(f"{self.top}/crates/low/src/lib.rt", "one")
        self.assertEqual(self.run_it("replay"), (0, "proved replay\n", ""))

    def test_refused_sources_run_only_where_asked(self):
        write(f"{self.top}/verdict", "1")
        self.assertEqual(self.run_it("prove")[0], 10)
        status, out, said = self.run_it("replay")
        self.assertEqual((status, out), (10, ""))
        self.assertIn("refused", said)
        status, out, said = self.run_it("--unproved", "replay")
        self.assertEqual((status, out), (0, "built replay\n"))
        self.assertIn("NOT PROVED", said)
        self.assertEqual(self.run_it("--version")[1].splitlines()[2], "refused by a proof")

    def test_a_proof_that_did_not_end_refuses_nothing(self):
        write(f"{self.top}/verdict", "2")
        self.assertEqual(self.run_it("prove")[0], 10)
        self.assertEqual(self.run_it("replay")[:2], (0, "built replay\n"))

    @unittest.skipIf(shutil.which("rt", path="/usr/bin:/bin"), "the kit lies among the system's commands")
    def test_without_the_kit(self):
        for words in (["prove"], ["replay"]):
            status, _, said = self.run_it(*words, with_rt=False)
            self.assertEqual(status, 11, said)

    def test_without_python(self):
        os.mkdir(f"{self.top}/few")
        for name in ("awk", "cat", "cut", "date", "dirname", "find", "grep", "head", "mkdir", "readlink", "sed", "sha256sum", "sh", "sort"):
            os.symlink(shutil.which(name), f"{self.top}/few/{name}")
        ran = subprocess.run([f"{self.top}/pathserve", "replay"], input="", capture_output=True, text=True, env={"PATH": f"{self.top}/bin:{self.top}/few"})
        self.assertEqual((ran.returncode, ran.stdout), (10, ""))
        self.assertEqual(ran.stderr.count("\n"), 1)
        self.assertIn("the command python3 is missing, which the Rattle kit runs on (Debian: apt-get install python3)", ran.stderr)

    def test_who_sits_at_a_terminal_is_told_that_it_waits(self):
        self.run_it("replay")
        near, far = os.openpty()
        self.addCleanup(os.close, near)
        for words, is_told in ((["replay"], True), (["make", "7"], False)):
            os.write(near, b"\x04\x04")  # the end of what is typed
            ran = subprocess.run([f"{self.top}/pathserve", *words], stdin=far, capture_output=True, text=True, timeout=60, env={"PATH": f"{self.top}/bin:/usr/bin:/bin"})
            self.assertEqual("waits for a script on standard input, up to Ctrl-D" in ran.stderr, is_told, ran.stderr)
        os.close(far)

    @unittest.skipUnless(shutil.which("flock"), "there is no flock")
    def test_two_calls_at_once_build_once(self):
        builder = f"import time\ntime.sleep(3)\nopen({self.top + '/builds'!r}, 'a').write('built\\n')\n{BUILDER}"
        write(f"{self.top}/tools/unproved_build.py", builder)
        with concurrent.futures.ThreadPoolExecutor(2) as pool:
            ran = [it.result() for it in [pool.submit(self.run_it, "replay") for _ in range(2)]]
        self.assertEqual([it[:2] for it in ran], [(0, "built replay\n")] * 2)
        self.assertEqual(sum("this one waits for it" in it[2] for it in ran), 1)
        with open(f"{self.top}/builds", encoding="utf-8") as it:
            self.assertEqual(it.read(), "built\n")

    def test_sources_that_do_not_compile(self):
        write(f"{self.top}/tools/unproved_build.py", "import sys\nsys.exit('an error')\n")
        status, out, said = self.run_it("replay")
        self.assertEqual((status, out), (10, ""))
        self.assertIn("an error", said)


class Words(unittest.TestCase):
    @needs_program
    def test_the_program_takes_the_same_words(self):
        for words in (["relpay"], ["replay", "--workers", "65"], ["make", "01"], ["make", "18446744073709551616"], ["prove"]):
            self.assertEqual(subprocess.run([PROGRAM, *words], capture_output=True).returncode, 2, words)
        for words in (["replay"], ["serve", "--workers", "1"]):
            self.assertEqual(subprocess.run([PROGRAM, *words], input=b"", capture_output=True).returncode, 3, words)


if __name__ == "__main__":
    unittest.main()
