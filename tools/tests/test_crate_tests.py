"""The tests of the crates in `tests/`: their files are complete and laid out, and their tables say what the model says."""
import glob
import os
import re
import shutil
import subprocess
import unittest

from places import TOP, read, tool
import test_folders
import test_lines

RT = shutil.which("rt")


class CrateTests(unittest.TestCase):
    def test_each_file_is_a_module(self):
        for folder in test_folders.folders():
            root, *others = test_folders.files_of(folder)
            named = set(re.findall(r"(?m)^(?:pub(?:\(\w+\))? )?mod (\w+);", read(root).decode()))
            self.assertEqual(named, {os.path.basename(it).removesuffix(".rs") for it in others}, folder)

    def test_each_test_is_listed(self):
        files = glob.glob(f"{TOP}/tests/**/*.rs", recursive=True)
        marks = sum(read(os.path.relpath(it, TOP)).decode().count("#[test]") for it in files)
        listed = [name for folder in test_folders.folders() for _, name, _ in test_folders.tests_of(folder)]
        self.assertEqual((len(listed), len(set(listed))), (marks, marks))

    def test_folders_are_named_after_crates(self):
        self.assertEqual([it for it in test_folders.folders() if it not in test_folders.crate_rows()], [])

    def test_fixtures_are_all_used(self):
        own = [path for folder in test_folders.folders() for path in test_folders.files_of(folder)]
        used = {it for it in test_folders.with_fixtures(own) if it.startswith("tests/fixtures/")}
        self.assertEqual(used, {os.path.relpath(it, TOP) for it in glob.glob(f"{TOP}/tests/fixtures/*.rs")})

    def test_tables_are_those_of_the_model(self):
        self.assertEqual([*test_lines.differing()], [])

    def test_wrong_questions_have_status_2(self):
        for words in (["nothing"], [], ["--al"], ["--jobs", "0", "--all"]):
            ran = subprocess.run([f"{TOP}/try", *words], capture_output=True, text=True)
            self.assertEqual(ran.returncode, 2 if words else 0, ran.stderr)
        self.assertEqual(tool("tools/test_lines.py", "walks", "no question")[1], 2)

    @unittest.skipUnless(RT, "the command rt is missing")
    def test_files_are_laid_out(self):
        out, status, said = tool("tools/format_tests.py", "--check")
        self.assertEqual(status, 0, out.decode() + said)


if __name__ == "__main__":
    unittest.main()
