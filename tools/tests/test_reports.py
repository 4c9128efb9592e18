"""The words that answer a script, beside all that is to have each of them."""
import contextlib
import io
import os
import re
import shutil
import tempfile
import unittest
from unittest import mock

from places import TOP, read, tool
import contradictions
import reports
import specs
from mapscript import check

REPORTS = [word for word, _ in reports.reports()]
CODE, DEFINITION = read("crates/pathserve/src/commands.rt").decode(), read("crates/pathserve/specs/Commands.antt").decode()


class Table(unittest.TestCase):
    def test_it_has_the_words_and_numbers_of_the_crates(self):
        """The code and the definition read each word as the report at its number."""
        order = re.search(r"pub const REPORTS: \[Report; \d+\] = \[(.*?)\];", read("crates/turn_core/src/reports.rt").decode(), re.DOTALL)[1]
        numbered = [*zip(REPORTS, re.findall(r"Report::(\w+)", order), strict=True)]
        self.assertEqual(re.findall(r'== b"(\w+)"\.as_slice\(\) \{\s+Some\(Report::(\w+)\)', CODE), numbered)
        self.assertEqual(re.findall(r'bytes_eq word \(codes "(\w+)"\) then Some (\w+)$', DEFINITION, re.MULTILINE), numbered)

    def test_all_places_are_current(self):
        out, status, said = tool("tools/reports.py", "--check")
        self.assertEqual((out, status, said), (b"", 0, ""))

    def test_a_word_more_is_written_to_each_place(self):
        """The script writes it into each file, and takes it out again where the table has it no more."""
        now = reports.reports()
        files = {it.file: it.file for it in reports.PLACES}
        with tempfile.TemporaryDirectory() as top, mock.patch.object(specs, "TOP", top):
            for file in files:
                os.makedirs(os.path.dirname(f"{top}/{file}"), exist_ok=True)
                shutil.copy(f"{TOP}/{file}", f"{top}/{file}")
            with mock.patch.object(reports, "reports", lambda: [*now, ("leap", "and for each path its longest leap")]):
                self.assertEqual([reports.main([]), reports.main(["--check"])], [0, 0])
                for file in files:
                    self.assertIn("leap", specs.read(file).lower(), file)
            with mock.patch.object(reports, "reports", lambda: now):
                with contextlib.redirect_stderr(io.StringIO()) as said:
                    self.assertEqual([reports.main(["--check"]), reports.main([])], [1, 0])
                self.assertEqual(said.getvalue().count("\n"), len(files))
            for file in files:
                self.assertEqual(specs.read(file), read(file).decode(), file)


class EachWord(unittest.TestCase):
    def test_the_header_has_its_number(self):
        header = read("include/pathserve.h").decode()
        for number, word in enumerate(REPORTS):
            self.assertRegex(header, rf"\bPATHSERVE_{word.upper()} = {number}\b")

    def test_the_client_predicts_it(self):
        self.assertEqual([*check.WORDS], REPORTS)

    def test_the_page_tells_of_it(self):
        page = read("docs/FORMAT.md").decode()
        for word in REPORTS:
            self.assertTrue(re.search(rf"(?m)^\| `{word}` \|", page), f"FORMAT has no row of {word}")
        for word, note in check.NOTES.items():
            self.assertTrue(re.search(rf"(?m)^    <caller> <post> {note} ", page), f"FORMAT has no line of {note}")

    def test_the_program_is_tested_under_it(self):
        """The tests of the program have a path with its line."""
        rows = re.search(r"^const REPORTS: .*?^\];", read("tests/pathserve/mod.rs").decode(), re.DOTALL | re.MULTILINE)[0]
        for word, note in check.NOTES.items():
            self.assertRegex(rows, rf'"{word}",\s+[A-Z_]+,\s+"0 0 path [^"]*\\n0 0 {note} ')

    def test_its_lines_are_looked_at(self):
        """The page that shows matches has something to say of its line, and of no other."""
        path = contradictions.Path("path 0 0 1 0 goal 65536 1 1.5,0.5")
        for note in (*check.NOTES.values(), "leapt"):
            with self.assertRaises(contradictions.Wrong) as found:
                contradictions.check_note(None, 0, None, path, note)
            self.assertEqual("no such line" in str(found.exception), note == "leapt", note)


if __name__ == "__main__":
    unittest.main()
