"""The runner of these tests: what it tells and counts, with what a class has for all of its tests."""
import os
import shutil
import subprocess
import sys
import tempfile
import unittest

from places import TOP

TESTS = """import unittest

class Good(unittest.TestCase):
    @classmethod
    def setUpClass(cls):
        cls.number = 1

    def test_its_class_was_set_up(self):
        self.assertEqual(self.number, 1)

    @unittest.skip("there is no Wine")
    def test_what_is_missing(self):
        pass

class Bad(unittest.TestCase):
    @classmethod
    def setUpClass(cls):
        raise ValueError("no set-up")

    def test_nothing(self):
        pass

class Parts(unittest.TestCase):
    def test_one_part_fails(self):
        for it in (1, 2, 3):
            with self.subTest(it):
                self.assertNotEqual(it, 2)
"""


class Runner(unittest.TestCase):
    def lines(self, *words):
        """The lines that are no traceback, and the status."""
        with tempfile.TemporaryDirectory() as folder:
            os.makedirs(f"{folder}/tools/tests")
            shutil.copy(os.path.join(TOP, "tools", "check.py"), f"{folder}/tools")
            with open(f"{folder}/tools/tests/test_a.py", "w", encoding="utf-8") as it:
                it.write(TESTS)
            ran = subprocess.run([sys.executable, "-B", f"{folder}/tools/check.py", *words], capture_output=True, text=True)
        kinds = ("ok ", "skipped ", "FAILED ")
        return [it for it in ran.stdout.splitlines() if it.startswith(kinds) or it.endswith(" failed")], ran.returncode

    def test_each_is_told_and_counted(self):
        good = ["ok test_a.Good.test_its_class_was_set_up", "skipped test_a.Good.test_what_is_missing: there is no Wine"]
        bad = ["FAILED setUpClass (test_a.Bad)", "FAILED test_a.Parts.test_one_part_fails"]
        self.assertEqual(self.lines(), ([bad[0], *good, bad[1], "1 passed, 2 failed"], 1))
        self.assertEqual(self.lines("Good"), ([*good, "1 passed, 0 failed"], 0))


if __name__ == "__main__":
    unittest.main()
