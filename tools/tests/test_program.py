"""The program for other platforms, by the library: made here by the C compiler, and as a release has it for Windows, under Wine."""
import os
import shutil
import subprocess
import tempfile
import unittest

from places import TOP, read, tool
from test_library import RELEASE, built, check, needs_cc, needs_release
import replays

EXE = os.path.join(RELEASE, "windows", "bin", "pathserve.exe")
WINE = shutil.which("wine") or shutil.which("wine64") or shutil.which("wine-stable")


class Program:
    """Tests of `program`, which is run `count` times by made scripts under each word."""

    def ran(self, *words, **how):
        """What is written, and the status."""
        ran = subprocess.run([self.program, *words], capture_output="stdout" not in how, timeout=300, **how)
        return ran.stdout, ran.returncode

    def test_made_scripts_under_each_word(self):
        maker = check.Maker(17)
        for script in (maker.script() for _ in range(self.count)):
            for word in check.WORDS:
                self.assertEqual(self.ran(word, input=script), check.predicted(script, word), (word, script))

    def test_each_status(self):
        good, bad = read("examples/first.script"), b'{"version":4}\n'
        self.assertEqual(self.ran("replay", "--workers", "64", input=good), (read("examples/first.answers"), 0))
        for words in ([], ["serve"], ["replay", "--workers"], ["replay", "--workers", "65"], ["replay", "--workers", "01"], ["replay", "-", "1"]):
            self.assertEqual(self.ran(*words, input=good), (b"", 2), words)
        self.assertEqual(self.ran("replay", input=bad), (b"bad line 1\n", 3))
        self.assertEqual(self.ran("replay", input=b" " * (8 << 20) + b" \n"), (b"", 7))
        with open("/dev/full", "wb") as full:
            self.assertEqual(self.ran("replay", input=good, stdout=full)[1], 5)

    def test_a_client_over_a_pipe(self):
        for word in check.WORDS:
            out, status, said = tool("examples/client.py", self.program, word)
            self.assertEqual((status, len(out.splitlines())), (0, 5 if word == "replay" else 7), said)

    def test_kept_matches_are_checked_with_it(self):
        self.assertEqual(replays.number_of_answers(self.program), 2)
        out, status, said = tool("tools/replays.py", self.program, "examples")
        self.assertEqual((status, out), (0, b"2 matches: 2 agree, 0 differ, 0 failed, 0 cut short, 0 not compared\n"), said)


@needs_release
@needs_cc
class Here(Program, unittest.TestCase):
    count = 60

    @classmethod
    def setUpClass(cls):
        made = tempfile.TemporaryDirectory()
        cls.addClassCleanup(made.cleanup)
        cls.program = built(made.name, "tools/library/program.c")

    def test_a_folder_cannot_be_read(self):
        folder = os.open(TOP, os.O_RDONLY)
        try:
            self.assertEqual(self.ran("replay", stdin=folder), (b"", 4))
        finally:
            os.close(folder)


@unittest.skipUnless(os.path.isfile(EXE), "the release is not for Windows")
@unittest.skipUnless(WINE, "there is no Wine")
class UnderWine(Program, unittest.TestCase):
    count = 8

    @classmethod
    def setUpClass(cls):
        made = tempfile.TemporaryDirectory(ignore_cleanup_errors=True)  # (Wine may still write there)
        cls.addClassCleanup(made.cleanup)
        cls.program = os.path.join(made.name, "pathserve")
        with open(cls.program, "w", encoding="utf-8") as it:
            it.write(f"#!/bin/sh\nWINEPREFIX='{made.name}/wine' WINEDEBUG=-all DISPLAY= exec '{WINE}' '{EXE}' \"$@\"\n")
        os.chmod(cls.program, 0o755)

    @classmethod
    def tearDownClass(cls):
        """What Wine left running for this folder ends."""
        where = dict(os.environ, WINEPREFIX=f"{os.path.dirname(cls.program)}/wine", WINEDEBUG="-all", DISPLAY="")
        subprocess.run([WINE, "wineboot", "--kill"], env=where, capture_output=True, timeout=300)

    def test_it_needs_what_each_windows_has(self):
        data = read(EXE)
        self.assertIn(b"msvcrt.dll", data)
        self.assertNotIn(b"pathserve.dll", data)


if __name__ == "__main__":
    unittest.main()
