"""The binding for C#: it declares what the header does, and its examples and a test of its own run by Mono."""
import os
import re
import shutil
import subprocess
import tempfile
import unittest

from places import TOP, read
from test_library import FIELD, RELEASE, SAVED, needs_release

FOLDER = os.path.join("examples", "csharp")
needs_mono = unittest.skipUnless(shutil.which("mcs") and shutil.which("mono"), "mono-mcs or mono-runtime is missing")


class Declarations(unittest.TestCase):
    def setUp(self):
        self.header, self.code = read("include/pathserve.h").decode(), read(f"{FOLDER}/Pathserve.cs").decode()

    def test_each_function_is_declared_with_as_many_parameters(self):
        def counted(pattern, text):
            return {name: len([it for it in words.split(",") if it.strip() not in ("", "void")]) for name, words in re.findall(pattern, text)}

        plain = re.sub(r"(?s)/\*.*?\*/", "", self.header)
        declared = counted(r"(?m)^[a-z][\w ]*?[ *](pathserve_\w+)\(([^)]*)\)", plain)
        bound = counted(r"(?s)\[DllImport\(Library\)\] internal static extern \w+ (pathserve_\w+)\((.*?)\);", re.sub(r"\[(?:In|Out|In, Out)\]", "", self.code))
        self.assertGreater(len(declared), 25)
        self.assertEqual(bound, declared)

    def test_each_number_is_that_of_the_header(self):
        enums = {name: dict(re.findall(r"(\w+) = (\d+)", words)) for name, words in re.findall(r"(?s)enum (\w+) : \w+\s*\{(.*?)\}", self.code)}
        blocks = [re.findall(r"PATHSERVE_(\w+) = (\d+)", it) for it in re.findall(r"(?ms)^enum \{.*?^\};", self.header)]
        of = {"Status": "DONE", "Report": "REPLAY", "PostKind": "ADD_UNIT", "GoalKind": "POINT", "ReplyKind": "ADDED", "Refusal": "BAD_SHAPE", "PostFault": "WRONG_KIND"}
        self.assertEqual(set(enums), set(of))
        for name, first in of.items():
            block, = (it for it in blocks if it[0][0] == first)
            named = {word.title().replace("_", ""): number for word, number in block}
            self.assertEqual({key: value for key, value in enums[name].items() if key != "None"}, named)


@needs_release
@needs_mono
class ByMono(unittest.TestCase):
    def ran(self, sources, given=b""):
        with tempfile.TemporaryDirectory() as folder:
            program = os.path.join(folder, "program.exe")
            subprocess.run(["mcs", "-langversion:7", "-warn:4", "-warnaserror", f"-out:{program}", *sources], check=True)
            where = dict(os.environ, LD_LIBRARY_PATH=os.path.join(RELEASE, "lib"))
            ran = subprocess.run(["mono", program], input=given, env=where, capture_output=True, timeout=600)
        self.assertEqual(ran.returncode, 0, ran.stderr.decode())
        return ran.stdout

    def test_the_example_leads_its_group_as_that_for_c(self):
        lines = self.ran([os.path.join(RELEASE, FOLDER, it) for it in ("Pathserve.cs", "Group.cs")]).decode().splitlines()
        expected = [re.sub(r" has .* to go,", "", it) for it in FIELD.decode().splitlines()]
        self.assertEqual(lines[-len(expected) + 1 :], expected[1:])
        found = [it.split(": ")[1] for it in lines if it.startswith("unit ") and ": " in it]
        self.assertEqual((lines[2], len(found)), (found[0], 3))
        self.assertIn("smoothed: True, 3 waypoints, not in sight", lines)

    def test_the_example_of_saving_tells_what_that_for_c_does(self):
        sources = [os.path.join(RELEASE, FOLDER, it) for it in ("Pathserve.cs", "Saves.cs")]
        self.assertEqual(self.ran(sources), SAVED)

    def test_the_rest_of_the_binding(self):
        sources = [os.path.join(TOP, it) for it in (f"{FOLDER}/Pathserve.cs", "tools/tests/library/Binding.cs")]
        self.assertEqual(self.ran(sources, read("examples/skirmish.script")), read("examples/skirmish.answers"))


if __name__ == "__main__":
    unittest.main()
