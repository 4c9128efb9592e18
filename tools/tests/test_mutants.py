"""The list of wrong programs in bench/mutants.txt: it fits the sources, and is over all crates of the program. So do wrong bodies."""
import importlib.machinery
import importlib.util
import os
import pathlib
import sys
import unittest

from places import PROGRAM, TOP, needs_program

sys.path.append(os.path.join(TOP, "bench"))
import trials  # noqa: E402



def command(name):
    """A command of bench/ as a module."""
    loader = importlib.machinery.SourceFileLoader(name, os.path.join(TOP, "bench", name))
    module = importlib.util.module_from_spec(importlib.util.spec_from_loader(name, loader))
    loader.exec_module(module)
    return module


mutants, wrong_bodies = command("mutants"), command("wrong_bodies")


def crates_of_the_program():
    """The crates of crates.txt that the program stands on, and its own."""
    with open(os.path.join(TOP, "crates.txt"), encoding="utf-8") as file:
        lines = [line.partition("#")[0].partition(":") for line in file]
    below = {name.split()[0]: words.split() for name, colon, words in lines if colon}
    found, waiting = set(), ["pathserve_bin"]
    while waiting:
        name = waiting.pop()
        if name in below and name not in found:
            found.add(name)
            waiting += below[name]
    return found


class Mutants(unittest.TestCase):
    def test_each_line_stands_once_in_its_file(self):
        for mutant in mutants.listed():
            with open(os.path.join(TOP, mutant.file), encoding="utf-8") as file:
                self.assertEqual(file.read().count(mutant.old), 1, mutant.name)
            self.assertNotEqual(mutant.old, mutant.new, mutant.name)

    def test_each_crate_of_the_program_has_one(self):
        listed = mutants.listed()
        self.assertEqual(len({mutant.name for mutant in listed}), len(listed))
        self.assertGreaterEqual(len(listed), 40)
        tried = {mutant.crate for mutant in listed}
        self.assertLessEqual(crates_of_the_program(), tried)
        # of the library's own crates those alone can be tried that have tests of their own
        for crate in tried - crates_of_the_program():
            self.assertTrue(os.path.isdir(os.path.join(TOP, "tests", crate)), crate)


class WrongBodies(unittest.TestCase):
    def test_each_line_stands_once_in_its_file(self):
        edits = sorted(pathlib.Path(TOP, "crates").glob("*/must-fail/*.edit")) + [it for its in wrong_bodies.listed().values() for it in its]
        self.assertGreaterEqual(len(edits), 40)
        for edit in edits:
            pieces = list(wrong_bodies.pieces(edit))
            self.assertTrue(pieces, edit)
            for file, old in pieces:
                self.assertEqual(file.read_text(encoding="utf-8").count(old), 1, edit)


class Rows(unittest.TestCase):
    @needs_program
    def test_small_scripts_are_answered_as_predicted(self):
        for trial in trials.row_trials():
            self.assertTrue(trial.is_passed(PROGRAM), trial.name)

    @needs_program
    def test_faults_of_the_system_have_their_status(self):
        for trial in trials.fault_trials():
            self.assertTrue(trial.is_passed(PROGRAM), trial.name)


if __name__ == "__main__":
    unittest.main()
