"""The page that answers at once: what is drawn becomes a script that is answered alike, also in a browser."""
import json
import os
import re
import shutil
import subprocess
import tempfile
import unittest

from places import TOP, needs_browser, read, tool
from browsers import said_by
from test_library import RELEASE, needs_release
import live_page
import mapscript

FOLDER = os.path.join(RELEASE, "web", "pathserve")
NODE = shutil.which("node")

needs_web = unittest.skipUnless(os.path.isfile(os.path.join(FOLDER, "pathserve.wasm")), "the release is not for the web")

# The edits of a match, by the names of the page's parts.
EDITS = """
const moves = [];
moves.push(live.add(boxBetween([2, 2], [4, 3]), 1));
moves.push(live.add(wallBetween([8.5, 0.5], [5.25, 4.75], 1), 3));
moves.push(live.add(boxBetween([0, 0], [300, 1]), 3));
moves.push(live.remove(live.at([3, 2.5])));
moves.push(live.remove(77));
moves.push(live.add(boxBetween([9, 5], [10, 6]), 3));
live.undo();
"""


def code():
    """The library and the match of the page, as one text."""
    library = re.sub(r"(?m)^export ", "", live_page.text_of(FOLDER, "pathserve.js"))
    return "\n".join([library, *(live_page.text_of(live_page.FOLDER, it) for it in ("cells.js", "live_match.js"))])


class Scripts(unittest.TestCase):
    def test_only_whole_turns_are_taken(self):
        text = read("examples/skirmish.script")
        lines = text.splitlines(keepends=True)
        ends = [n for n, line in enumerate(lines, 1) if b'"end"' in line]
        for cut, kept in ((len(lines), ends[-1]), (ends[-1] - 1, ends[0]), (ends[0] - 1, 2), (1, 1)):
            part = b"".join(lines[:cut])
            self.assertEqual(live_page.whole_turns(part, mapscript.Script(part)), b"".join(lines[:kept]), cut)

    def test_words_that_do_not_fit_are_told(self):
        for words, status, said in (
            (["--live", "examples/first.script", "examples/first.answers"], 2, "--live takes no answers"),
            (["examples/first.script"], 2, "the answers are missing"),
            (["--live", "--package", "docs", "examples/first.script"], 2, "docs has no pathserve.wasm"),
            (["--live", "README.md"], 2, "README.md has no map line"),
        ):
            out, got, told = tool("tools/view.py", *words)
            self.assertEqual((out, got), (b"", status))
            self.assertIn(said, told)


@needs_release
@needs_web
class Page(unittest.TestCase):
    @classmethod
    def setUpClass(cls):
        out, status, said = tool("tools/view.py", "--live", "--package", FOLDER, "examples/skirmish.script")
        assert status == 0, said
        cls.page = out.decode()

    def test_it_has_nothing_from_outside(self):
        self.assertEqual(re.findall(r"(?:src|href)=|https?:|^import |@[A-Z]+@", self.page, re.M), [])
        self.assertLess(len(self.page), 700_000)

    @unittest.skipUnless(NODE, "there is no node")
    def test_what_is_drawn_is_a_script_that_is_answered_alike(self):
        play = f"""{code()}
import {{ readFileSync }} from "node:fs";
const live = new Live(await load(readFileSync(process.argv[2])), readFileSync(process.argv[3], "utf8"));
{EDITS}
const finds = [[0, [0.5, 0.5], [11.25, 6.75]], [0, [7.5, 2.5], [11, 7.5]], [1, [10.5, 3.5], [1.5, 3.5]]].map((it) => [it, live.find(...it)]);
const fields = finds.map(([[k], {{ path }}]) => new Field(live.cells(k), [path.end.j * 12 + path.end.i]));
const told = fields.map((it, n) => [it.next(finds[n][1].path.start.i, finds[n][1].path.start.j)?.[0] ?? "-", it.count, it.most, it.sum].join(" "));
const standing = [...live.standing].map(([id, it]) => [id, it.mask, ...it.shape]);
console.log(JSON.stringify([live.script, moves, standing, finds, told, live.edits.length]));"""
        with tempfile.TemporaryDirectory() as folder:
            name = os.path.join(folder, "play.mjs")
            with open(name, "w", encoding="utf-8") as it:
                it.write(play)
            ran = subprocess.run([NODE, name, os.path.join(FOLDER, "pathserve.wasm"), os.path.join(TOP, "examples/skirmish.script")], capture_output=True)
        self.assertEqual(ran.returncode, 0, ran.stderr.decode())
        script, moves, standing, finds, fields, edits = json.loads(ran.stdout)
        self.assertEqual(moves, ["added 2", "added 3", "refused bad-shape", "removed 2", "refused unknown-id", "added 5"])
        self.assertEqual((edits, [it[0] for it in standing]), (5, [1, 3]))
        self.assert_standing(script, standing)
        self.assertEqual({found["kind"] for _, found in finds}, {"at-goal", "near-goal"})
        for (ask, found), field in zip(finds, fields):
            self.assert_same(script, ask, found, field)

    def assert_standing(self, script, standing):
        """The plain program makes of the script what stands."""
        parsed = mapscript.Script(script.encode())
        self.assertEqual(parsed.bad, 0)
        stands = {}
        for turn in parsed.turns:
            for post in turn.in_order():
                if post.kind in mapscript.check.EDITS:
                    mapscript.check.edited(parsed.map, stands, post.values)
        self.assertEqual([[number, mask, *square] for number, (square, mask) in stands.items()], standing)

    def assert_same(self, script, ask, found, field):
        """The plain program answers one more turn by the path, its smoothed waypoints and its field."""
        (number, start, goal), path = ask, found["path"]
        line = {"caller": 0, "path": ("infantry", "siege")[number], "from": [*map(str, start)], "goal": {"point": [*map(str, goal)]}}
        turn = script.count('"end"') + 1
        more = f"{script}{json.dumps(line)}\n" + '{"end":%d}\n' % turn
        told = {word: mapscript.check.predicted(more.encode(), word)[0].decode().splitlines() for word in ("smooth", "flow")}
        ends = [str(path[it][k]) for it in ("start", "end") for k in "ij"]
        ways, smoothed = ([f"{it['i']}.5,{it['j']}.5" for it in path[name]] for name in ("waypoints", "smoothed"))
        word = {"at-goal": "goal", "near-goal": "near"}[found["kind"]]
        self.assertEqual(told["smooth"][-2].split()[2:], ["path", *ends, word, str(path["cost"]), str(len(ways)), *ways])
        self.assertEqual(told["smooth"][-1].split()[2:], ["smooth", str(len(smoothed)), *smoothed])
        self.assertEqual(told["flow"][-1].split(maxsplit=3)[2:], ["flow", field])

    @unittest.skipUnless(NODE, "there is no node")
    def test_the_picture_of_the_readme_is_what_the_page_draws(self):
        classes = [it for name in ("infantry:0", "siege:1") for it in ("--class", name)]
        script, _, _ = tool("tools/from_movingai.py", "--paths", "0", *classes, "examples/valley.map")
        with tempfile.TemporaryDirectory() as folder:
            names = [os.path.join(folder, it) for it in ("valley.script", "live.html")]
            with open(names[0], "wb") as it:
                it.write(script)
            page, _, said = tool("tools/view.py", "--live", "--package", FOLDER, names[0])
            with open(names[1], "wb") as it:
                it.write(page)
            ran = subprocess.run([NODE, os.path.join(TOP, "tools", "live_picture.mjs"), names[1]], capture_output=True)
        self.assertEqual((said, ran.stderr.decode()), ("", ""))
        self.assertEqual(ran.stdout, read("docs/pictures/live.svg"))

    @needs_browser
    def test_it_answers_in_a_browser(self):
        # a path along the south, a wall across it, and the path again
        code = """ready.then(({ live, state, searched }) => {
          const map = document.getElementById("map"), side = map.getBoundingClientRect(), said = [];
          const at = (i, j) => ({ clientX: side.left + (i - state.x) * state.scale, clientY: side.top + map.height - (j - state.z) * state.scale, bubbles: true, button: 0 });
          const send = (kind, i, j) => map.dispatchEvent(new PointerEvent(kind, at(i, j)));
          const told = () => { searched(); said.push(document.getElementById("path").textContent.split("\\n")[0]); };
          send("pointerdown", 1.5, 1.5); send("pointerup", 1.5, 1.5); send("pointermove", 3.5, 5.5); told();
          document.getElementById("act-wall").click();
          send("pointerdown", 0.5, 4.5); send("pointermove", 11.5, 4.5); send("pointerup", 11.5, 4.5); told();
          document.getElementById("act-erase").click();
          send("pointerdown", 6, 4.5); send("pointerup", 6, 4.5); told();
          return [...said, live.edits.length, document.getElementById("edits").childElementCount].join("|");
        }).catch(String).then((text) => fetch("/said", { method: "POST", body: text }));"""
        told = said_by(self.page.replace("</body>", f'<script type="module">{code}</script></body>'))
        self.assertEqual(told, "from 1 1 to 3 5, the goal|from 1 1 to 3 2, as near as can be|from 1 1 to 3 5, the goal|2|2")


if __name__ == "__main__":
    unittest.main()
