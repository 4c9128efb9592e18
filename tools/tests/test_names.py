"""The names of the code: no type's name stands for two things, and the tool that gives a name another one."""
import collections
import glob
import os
import re
import unittest

from places import TOP

import rename  # noqa: E402

TYPE = re.compile(r"^\s*(?:pub(?:\([a-z ]+\))? )?(?:struct|enum|trait) (\w+)", re.M)
# A shape out of its limits, of a goal and of an obstruction.
SHARED = {"BadShape"}
# Names inside a crate that another crate has for another type: to be renamed when the crate is proved again.
INNER = {"Wanted"}


def sources():
    """The code of each crate, as (path, text)."""
    for path in sorted(glob.glob(f"{TOP}/crates/*/src/**/*.rt", recursive=True)):
        with open(path, encoding="utf-8") as it:
            yield path, it.read()


class Types(unittest.TestCase):
    def test_no_name_stands_for_two_types(self):
        found = collections.defaultdict(list)
        for path, text in sources():
            for name in TYPE.findall(text):
                found[name].append(os.path.relpath(path, TOP))
        self.assertGreater(len(found), 200)
        twice = {name: places for name, places in found.items() if len(places) > 1 and name not in SHARED | INNER}
        self.assertEqual(twice, {})


class Renaming(unittest.TestCase):
    def test_a_name_is_a_whole_word_and_comments_keep_their_english(self):
        name = rename.Name("port", "channel")
        text = "fn port(report: u8) -> u8 { // a port, or `port`\n    self.port_of(\"//\").port\n}\n"
        new = "fn channel(report: u8) -> u8 { // a port, or `channel`\n    self.port_of(\"//\").channel\n}\n"
        self.assertEqual(name.in_text(text, "//"), new)

    def test_a_proof_has_the_name_between_hyphens(self):
        name = rename.Name("hands", "pending")
        self.assertEqual(name.in_text("c.in_ok-hands.result -- the hands\n", "--"), "c.in_ok-pending.result -- the hands\n")

    def test_a_name_that_no_english_word_has_goes_from_comments_too(self):
        name = rename.Name("StopTable", "JumpFlags")
        self.assertEqual(name.in_text("-- a StopTable\n", "--"), "-- a JumpFlags\n")

    def test_files_and_folders_have_the_name(self):
        path = rename.Path("crates/claims/proofs/claims/draw/Answers.antt")
        self.assertEqual(str(rename.moved(path, "claims", "board")), "crates/claims/proofs/board/draw/Answers.antt")
        self.assertEqual(str(rename.moved(rename.Path("crates/claims/src/claims.rt"), "claims", "board")), "crates/claims/src/board.rt")

    def test_wrong_programs_are_changed_in_the_crates_that_are_named(self):
        text = "== one\nfile: crates/a/src/lib.rt\nold: hands + 1\n\n== two\nfile: crates/b/src/lib.rt\nold: hands - 1\n"
        new = rename.in_mutants(rename.Name("hands", "pending"), text, ["a"])
        self.assertEqual(new, text.replace("hands + 1", "pending + 1"))


if __name__ == "__main__":
    unittest.main()
