"""Maps of 0 A.D., from a mod that is made here, with cells counted by hand."""
import math
import os
import re
import struct
import tempfile
import unittest

from places import read, tool
import contradictions
import mapscript

TILES = 32  # two patches a side, so 128 navcells, of which 12 at each side are the edge
PATHFINDER = """<Pathfinder><PassabilityClasses>
  <walk><Obstructions>pathfinding</Obstructions><MaxWaterDepth>2</MaxWaterDepth><MaxTerrainSlope>1.0</MaxTerrainSlope><Clearance>0.8</Clearance></walk>
  <boat><Obstructions>none</Obstructions><MinWaterDepth>1</MinWaterDepth></boat>
  <land><Obstructions>foundation</Obstructions><MaxWaterDepth>0</MaxWaterDepth><MinShoreDistance>4.0</MinShoreDistance></land>
</PassabilityClasses></Pathfinder>"""
FLAGS = "<Active>true</Active><BlockPathfinding>true</BlockPathfinding><BlockFoundation>true</BlockFoundation>"
TEMPLATES = {
    "template_tree": f'<Entity><Obstruction><Static width="1.6" depth="1.6"/>{FLAGS}</Obstruction></Entity>',
    "gaia/oak": '<Entity parent="template_tree"><Obstruction><Static width="2.0"/></Obstruction></Entity>',
    "template_house": f'<Entity><Obstruction><Static width="10" depth="4"/>{FLAGS}</Obstruction></Entity>',
    "structures/made/house": '<Entity parent="template_house"/>',
    "skirmish/house": '<Entity parent="template_house"><SkirmishReplacer/></Entity>',
    "skirmish/gone": '<Entity parent="template_house"><SkirmishReplacer/></Entity>',
    "structures/gate": '<Entity parent="template_house"><Obstruction><Static disable=""/><Obstructions><Left x="-4" z="0" width="2" depth="4"/>'
    '<Right x="4" z="0" width="2" depth="4"/></Obstructions></Obstruction></Entity>',
    "units/man": '<Entity><Obstruction><Unit/><Active>true</Active><BlockPathfinding>false</BlockPathfinding></Obstruction></Entity>',
    "special/filter/open": '<Entity><Obstruction><BlockPathfinding>false</BlockPathfinding></Obstruction></Entity>',
}
ENTITIES = [
    (1, "gaia/oak", 0, 40.0, 40.0, 0.0), (2, "skirmish/house", 1, 50.25, 60.5, math.pi / 2), (3, "structures/gate", 2, 30.0, 90.0, 0.0),
    (4, "units/man", 1, 20.0, 20.0, 0.0), (5, "open|gaia/oak", 0, 90.0, 90.0, 0.0), (6, "skirmish/gone", 1, 70.0, 70.0, 0.0),
    (7, "gaia/oak", 0, -0.5, 64.0, 0.0),
]


def heights():
    """20 m everywhere, a lake of 5 m at corners 24 to 28 by 4 to 8, a step of slope 1 at one corner, and of less at another."""
    rows = [[20 * 92] * (TILES + 1) for _ in range(TILES + 1)]
    for j in range(4, 9):
        rows[j][24:29] = [5 * 92] * 5
    rows[16][10] += 4 * 92
    rows[24][10] += 4 * 92 - 1
    return rows


def scene(is_circular):
    entity = '<Entity uid="{}"><Template>{}</Template><Player>{}</Player><Position x="{}" z="{}"/><Orientation y="{}"/></Entity>'
    settings = '{"CircularMap": %s, "PlayerData": ["", {"Civ": "made"}, {}]}' % ("true" if is_circular else "false")
    return f"""<Scenario><Environment><Water><WaterBody><Height>10</Height></WaterBody></Water></Environment>
<ScriptSettings><![CDATA[{settings}]]></ScriptSettings><Entities>{"".join(entity.format(*it) for it in ENTITIES)}</Entities></Scenario>"""


def made_mod(folder):
    body = b"".join(struct.pack(f"<{TILES + 1}H", *row) for row in heights())
    files = {"simulation/data/pathfinder.xml": PATHFINDER, "maps/small.xml": scene(False), "maps/round.xml": scene(True)}
    files.update({f"simulation/templates/{name}.xml": text for name, text in TEMPLATES.items()})
    files["simulation/data/civs/made.json"] = '{"SkirmishReplacements": {"skirmish/house": "structures/{civ}/house", "skirmish/gone": ""}}'
    terrain = b"PSMP" + struct.pack("<III", 7, len(body), TILES // 16) + body
    files.update({"maps/small.pmp": terrain, "maps/round.pmp": terrain})
    for name, text in files.items():
        path = os.path.join(folder, name)
        os.makedirs(os.path.dirname(path), exist_ok=True)
        with open(path, "wb") as file:
            file.write(text if isinstance(text, bytes) else text.encode())


def runs(bits):
    """The free runs `(first, last)` of a row of blocked cells."""
    line, found = bin(bits | 1 << 128)[:2:-1], []
    for i, it in enumerate(line):
        if it == "0" and (not found or found[-1][1] != i - 1):
            found.append((i, i))
        elif it == "0":
            found[-1] = (found[-1][0], i)
    return found


class Oad(unittest.TestCase):
    def setUp(self):
        self.folder = tempfile.TemporaryDirectory()
        made_mod(self.folder.name)

    def tearDown(self):
        self.folder.cleanup()

    def made(self, name, *words):
        out, status, told = tool("tools/from_0ad.py", "--mod", self.folder.name, *words, name)
        self.assertEqual(status, 0, told)
        script = mapscript.Script(out)
        self.assertEqual(script.bad, 0)
        return script, out.decode()

    def test_the_terrain(self):
        script, _ = self.made("small")
        walk, boat, land = mapscript.base_rows(script.map)
        self.assertEqual(list(script.map.classes), ["walk", "boat", "land"])
        # the edge alone; the walker's is grown by 1
        self.assertEqual((runs(walk[115]), runs(walk[114]), runs(land[115])), ([], [(13, 114)], [(12, 115)]))
        # the four tiles at a corner that is 4 m higher have a slope of 1.0, which is denied, and grown by 1
        self.assertEqual([runs(walk[j]) for j in (58, 59, 68, 69)], [[(13, 114)], [(13, 34), (45, 114)], [(13, 34), (45, 114)], [(13, 114)]])
        # one height less is less than 1.0
        self.assertEqual(runs(walk[96]), [(13, 114)])
        # the lake's middle: beside its deep corners one navcell is deep enough for boats
        self.assertEqual(runs(boat[24]), [(95, 112)])
        self.assertEqual((runs(boat[14]), runs(boat[15]), runs(boat[32]), runs(boat[33])), ([], [(95, 112)], [(95, 112)], []))
        # houses keep off the shore tile beside water, and one tile farther is 4 m away
        self.assertEqual((runs(land[24]), runs(land[36])), ([(12, 91)], [(12, 115)]))

    def test_what_stands(self):
        _, text = self.made("small", "--paths", "0", "--more", "0.5")
        adds = [it for it in text.splitlines() if '"add"' in it]
        self.assertEqual(adds, [
            '{"caller":0,"add":1,"square":["40","40","1","0","1","0.79998779296875"],"mask":5}',
            '{"caller":1,"add":2,"square":["50.25","60.5","0","-1","5","2"],"mask":5}',
            '{"caller":2,"add":3,"square":["30","90","1","0","5","2"],"mask":0}',
            '{"caller":2,"add":8,"square":["26","90","1","0","1","2"],"mask":5}',
            '{"caller":2,"add":9,"square":["34","90","1","0","1","2"],"mask":5}',
            '{"caller":0,"add":5,"square":["90","90","1","0","1","0.79998779296875"],"mask":4}',
        ])
        self.assertIn('"callers":3,"classes":[{"name":"walk","clearance":"1.29998779296875"},', text)

    def test_a_disc(self):
        script, _ = self.made("round", "--classes", "boat,land")
        land = mapscript.base_rows(script.map)[1]
        # 64 - 0.5 rows from the middle: no column; in the middle row those whose middle is less than 52 away
        self.assertEqual((runs(land[0]), runs(land[63])), ([], [(12, 115)]))
        # row 20 is 43.5 away, and 52 * 52 - 43.5 * 43.5 is 28.49 squared
        self.assertEqual(runs(land[20])[0][0], 36)

    def test_its_paths_are_answered(self):
        script, text = self.made("small", "--classes", "walk", "--paths", "3")
        answers, status = mapscript.check.predicted(text.encode())
        self.assertEqual((status, [it.kind for it in script.turns[1].posts]), (0, ["path"] * 3))
        match = contradictions.Match(script, contradictions.Answers(answers))
        self.assertEqual([len(it[2]) for it in match.turns()], [5, 3])
        self.assertEqual(match.found, [])

    def test_what_is_missing(self):
        for words, told in ((["nowhere"], "the mod has no maps/nowhere.pmp"), (["--classes", "fish", "small"], "the game has no class fish")):
            _, status, said = tool("tools/from_0ad.py", "--mod", self.folder.name, *words)
            self.assertEqual(status, 2)
            self.assertIn(told, said)
        with tempfile.TemporaryDirectory() as folder:
            packed = os.path.join(folder, "public.zip")
            with open(packed, "wb") as file:
                file.write(b"no zip")
            _, status, said = tool("tools/from_0ad.py", "--mod", folder, "--list")
            self.assertEqual((status, said), (2, f"from_0ad.py: {packed} cannot be read: File is not a zip file\n"))

    def test_the_path_that_the_page_of_maps_adds(self):
        _, text = self.made("small", "--classes", "walk", "--paths", "0")
        lines = text.splitlines()
        self.assertEqual([it for it in lines if '"end"' in it], ['{"end":1}', '{"end":2}'])
        path = re.search(r'(?m)^    (\{"caller".*"obstruction".*)$', read("docs/MAPS.md").decode())[1].replace('"default"', '"walk"')
        script = mapscript.Script("\n".join([*lines[:-1], path, lines[-1]]).encode())
        self.assertEqual((script.bad, [it.kind for it in script.turns[1].posts]), (0, ["path"]))


if __name__ == "__main__":
    unittest.main()
