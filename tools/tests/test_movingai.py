"""Grid maps and scenarios of the literature, with lengths counted by hand."""
import os
import re
import tempfile
import unittest

from places import read, tool
import mapscript

check = mapscript.check
# two rooms with a door two rows high; `S`, `G` are passable, and water is not
MAP = """type octile
height 5
width 7
map
...@...
.S.W...
.......
..G....
...T..@
"""
# bucket, map, width, height, column and row of start and goal, length. From corner to corner of the west room: four rows
# down. Over the top: down to row 2, through the door and up: 6 columns with 4 diagonal steps, where the door forbids to cut.
SCENARIO = """version 1
0	two.map	7	5	0	0	0	4	4.0
0	two.map	7	5	0	2	6	2	6
1	two.map	7	5	0	0	6	0	7.65685425
1	two.map	7	5	2	1	4	1	4.0
"""


class MovingAi(unittest.TestCase):
    def setUp(self):
        self.folder = tempfile.TemporaryDirectory()
        self.map, self.scenario = self.file("two.map", MAP), self.file("two.map.scen", SCENARIO)
        out, status, _ = tool("tools/from_movingai.py", self.map, self.scenario)
        self.assertEqual(status, 0)
        self.script = out

    def tearDown(self):
        self.folder.cleanup()

    def file(self, name, text):
        path = os.path.join(self.folder.name, name)
        with open(path, "wb") as file:
            file.write(text if isinstance(text, bytes) else text.encode())
        return path

    def test_the_cells(self):
        made = mapscript.Script(self.script)
        self.assertEqual((made.bad, made.map.w, made.map.h), (0, 7, 5))
        rows = [bin(it | 1 << 7)[:2:-1] for it in mapscript.base_rows(made.map)[0]]
        self.assertEqual(rows, ["0001001", "0000000", "0000000", "0001000", "0001000"])
        self.assertIn(b'{"caller":0,"path":"walker","from":["0.5","4.5"],"goal":{"point":["0.5","0.5"]}}', self.script)

    def test_the_lengths(self):
        answers = self.file("answers", check.predicted(self.script)[0])
        out, status, _ = tool("tools/from_movingai.py", self.map, self.scenario, "--check", answers)
        self.assertEqual((out, status), (b"4 of 4 lengths agree\n", 0))

    def test_the_valley(self):
        words = ["tools/from_movingai.py", "examples/valley.map", "examples/valley.map.scen"]
        script = self.file("valley.script", tool(*words)[0])
        answers = self.file("valley.answers", check.predicted(tool(*words)[0])[0])
        self.assertEqual(tool(*words, "--check", answers)[0], b"5 of 5 lengths agree\n")
        picture, status, told = tool("tools/view.py", "--svg", "1", script, answers)
        self.assertEqual((picture, status), (read("docs/pictures/valley.svg"), 0), told)

    def test_another_length_differs(self):
        answers = self.file("answers", check.predicted(self.script)[0])
        other = self.file("other.scen", SCENARIO.replace("7.65685425", "7.65"))
        out, status, _ = tool("tools/from_movingai.py", self.map, other, "--check", answers)
        self.assertEqual(status, 1)
        self.assertEqual(out, b"query 3: the walk is 7.65685 long, and the optimum is 7.65\n3 of 4 lengths agree\n")

    def test_classes_keep_away_from_what_they_cannot_walk_on(self):
        words = ["--class", "scout:0", "--class", "siege:0.5", "--class", "ship:0:WS", self.map]
        script = mapscript.Script(tool("tools/from_movingai.py", *words, "--paths", "2")[0])
        rows = [[bin(it | 1 << 7)[:2:-1] for it in mine] for mine in mapscript.base_rows(script.map)]
        self.assertEqual(rows[0], ["0001001", "0000000", "0000000", "0001000", "0001000"])
        self.assertEqual(rows[1], ["0011111", "0011111", "0011100", "0011100", "0011100"])
        self.assertEqual(rows[2], ["1111111"] * 3 + ["1010111"] + ["1111111"])
        self.assertEqual([it.values[2] for it in script.turns[0].posts], ["scout"] * 2 + ["siege"] * 2 + ["ship"] * 2)
        # a scenario is asked for by each class, and the first is compared
        script = tool("tools/from_movingai.py", *words, self.scenario)[0]
        self.assertEqual([it.values[2] for it in mapscript.Script(script).turns[0].posts], ["scout"] * 4 + ["siege"] * 4 + ["ship"] * 4)
        answers = self.file("answers", check.predicted(script)[0])
        self.assertEqual(tool("tools/from_movingai.py", *words, self.scenario, "--check", answers)[:2], (b"4 of 4 lengths agree\n", 0))
        _, status, told = tool("tools/from_movingai.py", "--class", "siege:0.5", self.map, self.scenario, "--check", answers)
        self.assertEqual((status, "a class without a clearance" in told), (2, True))

    def test_a_map_without_a_free_cell_is_told(self):
        _, status, told = tool("tools/from_movingai.py", self.file("full.map", "type octile\nheight 1\nwidth 2\nmap\n@@\n"))
        self.assertEqual((status, told), (0, "from_movingai.py: no class has a cell to walk on, so no path is asked for\n"))

    def test_paths_without_a_scenario(self):
        out = {it: tool("tools/from_movingai.py", self.map, "--paths", "30", "--seed", it)[0] for it in ("1", "2")}
        script = mapscript.Script(out["1"])
        rows = mapscript.base_rows(script.map)[0]
        posts = script.turns[0].posts
        self.assertEqual((script.bad, len(posts), out["1"] == out["2"]), (0, 30, False))
        self.assertEqual(tool("tools/from_movingai.py", self.map, "--paths", "30")[0], out["1"])
        for post in posts:
            for x, z in (post.values[3], post.values[4][1]):
                self.assertFalse(rows[z // mapscript.SIDE] >> x // mapscript.SIDE & 1, post.text)
        # where nothing is passable it asks for no path
        shut = self.file("shut.map", "type octile\nheight 1\nwidth 2\nmap\n@T\n")
        self.assertEqual(mapscript.Script(tool("tools/from_movingai.py", shut)[0]).turns[0].posts, [])

    def test_a_scenario_without_lengths(self):
        answers = self.file("answers", check.predicted(self.script)[0])
        other = self.file("other.scen", "\n".join(it.rpartition("\t")[0] or it for it in SCENARIO.splitlines()))
        self.assertEqual(tool("tools/from_movingai.py", self.map, other)[0], self.script)
        nothing = (b"0 of 4 paths have a length to compare\n", 2)
        self.assertEqual(tool("tools/from_movingai.py", self.map, other, "--check", answers)[:2], nothing)

    def test_only_paths_with_a_length_are_compared(self):
        right = check.predicted(self.script)[0]
        # the first has no length, and goes round by the column beside; the others are as they were
        longer = re.sub(rb"0 0 path .*", b"0 0 path 0 4 0 0 goal 447508 3 1.5,3.5 1.5,1.5 0.5,0.5", right)
        self.assertNotEqual(longer, right)
        scenario = self.file("some.scen", SCENARIO.replace("\t4.0\n", "\n", 1))
        told = (b"3 of 3 lengths agree\n3 of 4 paths have a length to compare\n", 0)
        for answers in (right, longer):
            self.assertEqual(tool("tools/from_movingai.py", self.map, scenario, "--check", self.file("answers", answers))[:2], told)
        self.assertEqual(tool("tools/from_movingai.py", self.map, self.scenario, "--check", self.file("answers", longer))[1], 1)

    def test_what_the_page_of_maps_shows(self):
        blocks = [it.replace("\n    ", "\n").strip() + "\n" for it in re.findall(r"(?m)(?:^    .*\n)+", read("docs/MAPS.md").decode())]
        grid, scenario, script = (next(it for it in blocks if it.startswith(head)) for head in ("type", "version 1", '{"version"'))
        out, status, told = tool("tools/from_movingai.py", self.file("yard.map", grid), self.file("yard.map.scen", scenario))
        self.assertEqual(status, 0, told)
        # two steps down to the gap, two through it, two up again; those down and up are diagonal
        self.assertIn(b"0 0 path 0 3 6 3 goal 501800 3 2.5,1.5 4.5,1.5 6.5,3.5\n", check.predicted(out)[0])
        self.assertEqual(check.predicted(script.encode())[1], 0)

    def test_files_of_another_form(self):
        maps = [
            (MAP.replace("octile", "tile"), "a map has the lines"), (MAP.replace("height 5", "height 6"), "the map has 5 rows, and its line 'height' says 6"),
            (MAP.replace(".S.W...", ".S.W.."), "line 6 of the map has 6 cells, and its line 'width' says 7"),
            (MAP.replace("height 5", "height 4"), "the map has 5 rows, and its line 'height' says 4"),
        ]
        scenarios = [
            ("0 two.map 7 5 0 0 0", "line 1 of the scenario is not: bucket, map, width"), ("0 two.map 7 6 0 0 0 4 4.0", "line 1 of the scenario: it is for a map of 7 by 6"),
            (SCENARIO + "0 two.map 7 5 7 4 0 4", "line 6 of the scenario: start 7 4 is off the map"),
            ("version 1\n0 two.map 7 5 0 0 6 5", "line 2 of the scenario: goal 6 5 is off the map"), ("0 two.map 7 5 0 0 -1 0", "line 1 of the scenario: goal -1 0 is off the map"),
        ]
        cases = [([self.file(f"{n}.map", text)], told) for n, (text, told) in enumerate(maps)]
        cases += [([self.map, self.file(f"{n}.scen", text)], told) for n, (text, told) in enumerate(scenarios)]
        cases += [(["no.map"], "no such file: no.map"), ([self.map, "no.scen"], "no such file: no.scen")]
        cases += [([self.map, self.scenario, "--check", "no.answers"], "no such file: no.answers")]
        for words, told in cases:
            _, status, said = tool("tools/from_movingai.py", *words)
            self.assertEqual(status, 2)
            self.assertIn(f"from_movingai.py: {told}", said)

    def test_empty_lines_behind_the_last_row(self):
        self.assertEqual(tool("tools/from_movingai.py", self.file("more.map", MAP + "\n\n"), self.scenario)[:2], (self.script, 0))


if __name__ == "__main__":
    unittest.main()
