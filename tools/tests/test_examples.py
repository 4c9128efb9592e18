"""The examples beside the built program."""
import subprocess
import sys
import unittest

from places import PROGRAM, TOP, needs_program, read, tool
import mapscript


class Examples(unittest.TestCase):
    def test_the_plain_program_has_their_answers(self):
        for name in ("first", "skirmish"):
            predicted = mapscript.check.predicted(read(f"examples/{name}.script"))
            self.assertEqual(predicted, (read(f"examples/{name}.answers"), 0))

    @needs_program
    def test_made_scripts_are_answered_as_predicted(self):
        out, status, said = tool("examples/check.py", PROGRAM, "20", "4")
        self.assertEqual((status, said), (0, ""), out)  # what the program says of their bad lines is not told

    @needs_program
    def test_a_client_over_a_pipe(self):
        out, status, _ = tool("examples/client.py", PROGRAM)
        words = [it.split()[:7] for it in out.decode().splitlines()]
        self.assertEqual((status, [it[0] for it in words]), (0, ["turn", "0", "turn", "0", "0"]))
        self.assertEqual(words[1], "0 0 path 1 1 10 1".split())

    @needs_program
    def test_a_client_under_each_word(self):
        plain, _, _ = tool("examples/client.py", PROGRAM)
        for word in mapscript.check.WORDS:
            note = mapscript.check.NOTES.get(word, "").encode() or None
            out, status, _ = tool("examples/client.py", PROGRAM, word)
            lines = out.splitlines()
            notes = [it.split()[:3] for it in lines if it.split()[2] == note]
            self.assertEqual((status, notes), (0, [] if note is None else [[b"0", b"0", note], [b"0", b"1", note]]))
            self.assertEqual([it for it in lines if it.split()[2] != note], plain.splitlines())
        self.assertEqual(tool("examples/client.py", PROGRAM, "serve")[1], 2)

    @needs_program
    def test_two_callers(self):
        ran = subprocess.run([sys.executable, f"{TOP}/examples/two_callers.py", PROGRAM], capture_output=True, timeout=300)
        self.assertEqual(ran.returncode, 0, ran.stdout)


if __name__ == "__main__":
    unittest.main()
