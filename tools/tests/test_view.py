"""The viewer: what it finds wrong, the page and the pictures."""
import base64
import contextlib
import html
import io
import json
import re
import struct
import tempfile
import unittest
import xml.etree.ElementTree as xml
import zlib

from places import needs_browser, read, shown, tool
import contradictions
import mapscript
import pictures
import view

check = mapscript.check
CORNER = b"""{"version":1,"size":[3,3],"callers":1,"classes":[{"name":"a","clearance":"0"}]}
{"base":[[1,1,1,1,1]]}
{"caller":0,"path":"a","from":["0.5","0.5"],"goal":{"point":["2.5","2.5"]}}
{"end":1}
"""
KEYED = 'const keyed1 = (key) => document.dispatchEvent(new KeyboardEvent("keydown", { key, bubbles: true }));'
ROUND = "turn 1 regions 1 edges 0 areas 1 relabelled 0\n0 0 path 0 0 2 2 goal 262144 2 2.5,0.5 2.5,2.5\n"


def match(script, answers):
    return contradictions.Match(mapscript.Script(script), contradictions.Answers(answers))


def wrong(script, answers):
    found = match(script, answers)
    found.go_through()
    return [str(it) for it in found.found]


class Contradictions(unittest.TestCase):
    def test_the_examples_have_none(self):
        for name in ("first", "skirmish"):
            self.assertEqual(wrong(read(f"examples/{name}.script"), read(f"examples/{name}.answers")), [])

    def test_the_plain_program_has_none(self):
        maker = check.Maker(8)
        for _ in range(25):
            script = maker.script()
            for word in check.WORDS:
                if mapscript.Script(script).map:
                    self.assertEqual(wrong(script, check.predicted(script, word)[0]), [], script)

    def test_each_wrong_answer_is_found(self):
        script, right = read("examples/skirmish.script"), read("examples/skirmish.answers").decode()
        cases = [
            ("turn 1 regions 3", "turn 1 regions 4", "the turn line is to be 'turn 1 regions 3 edges 0 areas 3 relabelled 2'"),
            ("0 0 added 1", "0 0 refused duplicate-id", "it is to be 'added 1'"),
            ("goal 196608", "goal 196609", "the walk costs 196608, and not 196609"),
            ("4 1 goal 196608", "4 1 near 196608", "a goal cell can be walked to"),
            ("path 10 3 7 6 near", "path 10 3 7 6 goal", "the end is no goal cell at 7 6"),
            ("path 1 1 4 1 goal 196608 1 4.5,1.5", "path 1 1 7 1 goal 393216 1 7.5,1.5", "goes over a blocked cell at 5 1"),
            ("path 10 3 7 6", "path 9 3 7 6", "the start cell is 9 3"),
            ("3 8.5,5.5 8.5,6.5 7.5,6.5", "3 8.5,5.5 7.5,7.5 7.5,6.5", "neither straight nor diagonal at 7 7"),
            ("1 1 region 0 0 0 0", "1 1 region 0 0 1 1", "it is to be 'region 0 0 0 0'"),
            ("0 1 refused unknown-id", "0 1 removed 2", "it is to be 'refused unknown-id'"),
            ("0 0 moved 1\n", "", "it is to be 'moved 1'"),
            ("1 1 region 0 0 0 0\n", "", "there is no reply"),
            ("turn 2 regions", "1 2 region 0 0 0 0\nturn 2 regions", "a reply to no post: 1 2"),
            ("turn 2 regions", "hello\nturn 2 regions", "the answers: line 6 has no form"),
            ("0 0 moved 1\n", "0 0 moved 1\n0 0 moved 1\n", "one line answers it, and behind it stands 'moved 1'"),
        ]
        for old, new, text in cases:
            self.assertEqual(right.count(old), 1, old)
            found = wrong(script, right.replace(old, new).encode())
            self.assertTrue(any(text in it for it in found), (new, found))

    def test_a_cut_corner_is_found(self):
        cut = ROUND.replace("262144 2 2.5,0.5 2.5,2.5", "223754 3 1.5,0.5 2.5,1.5 2.5,2.5")
        self.assertIn("the path cuts a corner at 2 1", wrong(CORNER, cut.encode())[0])

    def test_lines_behind_a_path(self):
        right = ["opened 5", "flow N 8 262144 1048576", "smooth 2 2.5,0.5 2.5,2.5"]
        bad = [
            ("flow NE 8 262144 1048576", "over a blocked cell"), ("flow N 9 262144 1048576", "the area has 8 cells"), ("opened 0", "at least"),
            ("smooth 1 2.5,2.5", "touches a blocked cell at 1 1"), ("smooth 1 2.5,0.5", "do not lead to the end"),
            ("smooth 2 1.5,0.5 2.5,2.5", "none of the next"), ("leapt 3", "no such line"),
        ]
        for line in right:
            self.assertEqual(wrong(CORNER, f"{ROUND}0 0 {line}\n".encode()), [])
        for line, text in bad:
            found = wrong(CORNER, f"{ROUND}0 0 {line}\n".encode())
            self.assertTrue(found and text in found[0], (line, found))

    def test_the_command_tells_them(self):
        with tempfile.NamedTemporaryFile() as file:
            file.write(read("examples/first.answers").replace(b"343582", b"343583"))
            file.flush()
            out, status, told = tool("tools/view.py", "--check", "examples/first.script", file.name)
        self.assertEqual((out, status), (b"", 1))
        self.assertIn("contradiction: turn 1, script line 2, post 0 0: the walk costs 343582, and not 343583", told)

    def test_of_many_only_some_are_told(self):
        lines = len(read("README.md").decode().splitlines())
        out, status, told = tool("tools/view.py", "--check", "examples/skirmish.script", "README.md")
        self.assertEqual((out, status, told.count("contradiction: ")), (b"", 1, 20))
        self.assertEqual(told.splitlines()[20], f"and {lines - 20} more (--most {lines} tells them all)")
        told = tool("tools/view.py", "--check", "--most", "3", "examples/skirmish.script", "README.md")[2]
        self.assertEqual(told.count("contradiction: "), 3)

    def test_progress_is_told(self):
        progress = view.Progress(50)
        progress.told -= 11
        with contextlib.redirect_stderr(io.StringIO()) as told:
            progress.tell(7)
            progress.tell(8)
        self.assertEqual(told.getvalue().partition(": ")[2], "7 of 50 turns looked at\n")

    def test_replies_and_turns_stand_in_their_order(self):
        script = read("examples/skirmish.script")
        lines = read("examples/skirmish.answers").decode().splitlines(True)
        late = "turn 1, script line 4, post 0 1: its reply stands behind that to post 1 0"
        self.assertEqual(wrong(script, "".join(lines[:2] + [lines[3], lines[2]] + lines[4:]).encode()), [late])
        # a line that belongs behind the path of post 0 1, and stands behind the next
        self.assertEqual(wrong(script, "".join(lines[:4] + ["0 1 opened 2\n"] + lines[4:]).encode()), [late])
        cases = [
            (lines[5:], "turn 2: its turn line stands where that of turn 1 is to stand"), (lines + lines, "turn 1: its turn line stands where that of turn 3 is to stand"),
            (lines[:5] + ["bad line 8\n"], "turn 1: 'bad line 8' stands where turn 2 is to stand"),
        ]
        for answers, text in cases:
            self.assertIn(text, wrong(script, "".join(answers).encode()))

    def test_answers_that_end_early(self):
        lines = read("examples/skirmish.answers").splitlines(True)
        # what stopped runs leave, the whole text, and a turn that was cut
        cases = [(0, 3, "answers end after turn 0 of 2\n"), (5, 3, "answers end after turn 1 of 2\n"), (9, 0, "")]
        cases += [(8, 1, "contradiction: turn 2, script line 8, post 1 0: there is no reply\n")]
        for count, wanted, text in cases:
            with tempfile.NamedTemporaryFile() as file:
                file.write(b"".join(lines[:count]))
                file.flush()
                files = "examples/skirmish.script", file.name
                self.assertEqual(tool("tools/view.py", "--check", *files), (b"", wanted, text))
                page, *said = tool("tools/view.py", *files)
            self.assertEqual(said, [wanted, text])
            self.assertEqual(json.loads(unpacked(page.decode(), "data"))["early"], text.strip() if wanted == 3 else "")

    def test_a_missing_file(self):
        for words in (["no.script", "examples/first.answers"], ["examples/first.script", "no.answers"]):
            name = next(it for it in words if it.startswith("no."))
            self.assertEqual(tool("tools/view.py", "--check", *words), (b"", 2, f"view.py: no such file: {name}\n"))


def unpacked(page, name):
    text = re.search(f'<script type="text/plain" id="{name}">([^<]*)</script>', page)[1]
    return zlib.decompress(base64.b64decode(text))


class Page(unittest.TestCase):
    def setUp(self):
        out, status, _ = tool("tools/view.py", "examples/skirmish.script", "examples/skirmish.answers")
        self.assertEqual(status, 0)
        self.page = out.decode()

    def test_nothing_from_outside(self):
        self.assertEqual(re.findall(r"https?://|\bsrc=|\bhref=|@import|url\(", self.page), [])
        self.assertEqual(re.findall("@[A-Z]+@", self.page), [])

    def test_the_data(self):
        data = json.loads(unpacked(self.page, "data"))
        self.assertEqual([len(it["posts"]) for it in data["turns"]], [4, 3])
        self.assertEqual(data["turns"][1]["edits"], [1, 2])
        # the northernmost of 8 rows of 12 cells is blocked, for two classes
        self.assertEqual(unpacked(self.page, "base"), (bytes(14) + b"\xff\x0f") * 2)

    @needs_browser
    def test_a_browser_moves_through_it(self):
        # turn 2, second class, the post after, its field; then the pointer on the middle of the map, where the wall stands
        code = """ready.then(() => {
          for (const key of ["ArrowRight", "c", "t", "j", "f"]) document.dispatchEvent(new KeyboardEvent("keydown", { key, bubbles: true }));
          const side = map.getBoundingClientRect(), half = { clientX: side.left + side.width / 2, clientY: side.top + side.height / 2 };
          map.dispatchEvent(new PointerEvent("pointermove", { ...half, bubbles: true }));
        });"""
        dom = shown(self.page.replace("</body>", f"<script>{code}</script></body>"), "turn=1&class=infantry")
        self.assertIn("2 of 2", dom)
        self.assertIn("line 8: post 1 0, path, siege", dom)
        self.assertIn("cell 6 4: blocked by a clearance for siege", dom)
        # 84 cells south of the north wall, of which the moved wall takes 18
        self.assertRegex(dom, "field: 66 cells, farthest [0-9]+, sum [0-9]+")

    def run_in(self, code, words, page=None):
        """What the page's title is after some code that gives a list, run when the page was read."""
        wanted = f"ready.then(async () => {{ by('title').textContent = '<' + (await (async () => {{ {code} }})()).join('|') + '>'; }});"
        dom = shown((page or self.page).replace("</body>", f"<script>{KEYED}{wanted}</script></body>"), words)
        return html.unescape(re.search(r'<h1 id="title">(.*?)</h1>', dom)[1])[1:-1].split("|")

    @needs_browser
    def test_the_chosen_post_stays(self):
        # the path of infantry in turn 1, looked at in turn 2 and for siege
        code = """const said = [], tell = () => said.push([...by("chosen").querySelectorAll("div")].map((it) => it.textContent).join(";"));
          for (const key of ["f", "ArrowRight", "c", "Escape"]) { keyed1(key); tell(); }
          return [...said, by("chosen").hidden, by("note").textContent];"""
        said = self.run_in(code, "turn=1&class=infantry&line=4")
        self.assertRegex(said[0], "^field: [0-9]+ cells, farthest [0-9]+, sum [0-9]+$")
        self.assertRegex(said[1], "^of turn 1; turn 2 is shown;field: [0-9]+ cells, farthest [0-9]+, sum [0-9]+$")
        self.assertEqual(said[2], "of turn 1; turn 2 is shown;for infantry; siege is shown;no field: the chosen path is for infantry")
        self.assertEqual(said[4:], ["true", "choose a path to see its field"])

    @needs_browser
    def test_the_address_says_what_is_looked_at(self):
        code = """for (const key of ["p", "p", "t", "+", "9"]) keyed1(key);
          await new Promise((done) => setTimeout(done, 1000));
          const here = location.hash;
          keyed1("0"); keyed1("t"); keyed1("p"); keyed1("ArrowRight");
          location.hash = here; recalled();
          return [here.replace(/&at=[^&]*/, "&at=").replace(/theme=.*/, "theme="), here === "#" + address(), now().t];"""
        wanted = "#turn=1&class=siege&caller=1&line=5&at=&layers=paths,smooth,outlines&theme="
        self.assertEqual(self.run_in(code, "turn=1&class=siege&line=5"), [wanted, "true", "1"])

    @needs_browser
    def test_a_line_without_a_post_is_told(self):
        self.assertEqual(self.run_in("return [by('note').textContent];", "line=2"), ["line 2 has no post of a turn with answers"])

    @needs_browser
    def test_the_legend_has_what_is_drawn(self):
        said = self.run_in("return [...by('legend').querySelectorAll('span')].map((it) => it.textContent);", "")
        for word in ("chosen path", "where it turns", "smoothed path", "cells that the turn blocked", "cells that the turn freed", "regions, areas", "field:", "step of the field", "the walk along it"):
            self.assertTrue(any(word in it for it in said), word)

    @needs_browser
    def test_what_a_turn_changed_and_the_walk_along_a_field(self):
        made, before = match(read("examples/skirmish.script"), read("examples/skirmish.answers")), []
        for _ in made.turns():
            before.append([list(rows) for rows in made.ground.rows])
        wanted = [str(it) for k in (0, 1) for it in sides_of(*(rows[k] for rows in before), made.script.map.w)]
        # each cell of the field leads to the goal at its distance
        code = """const said = []; let wrong = 0, seen = 0;
          for (const k of [0, 1]) { classed(k); said.push(...changesMade().map((it) => it.length)); }
          wentTo(8); layered("field", true);
          for (let j = 0; j < data.h; j++) for (let i = 0; i < data.w; i++) {
            const far = field.far[j * data.w + i], walk = field.walk(i, j);
            if (far < 0) continue;
            const cost = walk.slice(1).reduce((sum, [a, b], n) => sum + (a !== walk[n][0] && b !== walk[n][1] ? DIAGONAL : STRAIGHT), 0);
            seen++;
            if (cost !== far || field.far[walk.at(-1)[1] * data.w + walk.at(-1)[0]] !== 0) wrong++;
          }
          return [...said, seen, wrong];"""
        self.assertEqual(self.run_in(code, "turn=2"), [*wanted, "66", "0"])

    @needs_browser
    def test_the_paths_of_a_caller_have_colours_of_their_own(self):
        code = "state.theme = 'light'; return [1, 7].flatMap((callers) => { data.callers = callers; return [0, 1, 5, 6, 13].map((nth) => inkOf({ c: 3 % callers, nth })); });"
        rgb = [pictures.rgb(pictures.ink_of(callers, 3 % callers, nth)) for callers in (1, 7) for nth in (0, 1, 5, 6, 13)]
        self.assertEqual(self.run_in(code, ""), [f"rgb({','.join(map(str, it))})" for it in rgb])
        self.assertEqual(len({pictures.ink_of(1, 0, nth) for nth in range(18)}), 18)

    @needs_browser
    def test_the_map_stays_in_the_middle_of_a_window_that_changes(self):
        # first seen whole, and then zoomed in: the pointer on the middle of a narrow window is on the middle of the map
        code = """ready.then(() => {
          const main = document.querySelector("main"), said = [];
          for (const [key, width] of [["0", 300], ["+", 400]]) {
            document.dispatchEvent(new KeyboardEvent("keydown", { key, bubbles: true }));
            main.style.cssText = `flex: none; width: ${width}px; height: 320px`;
            window.dispatchEvent(new Event("resize"));
            const side = map.getBoundingClientRect(), half = { clientX: side.left + side.width / 2 + 1, clientY: side.top + side.height / 2 - 1 };
            map.dispatchEvent(new PointerEvent("pointermove", { ...half, bubbles: true }));
            said.push(by("tip").textContent.slice(0, 8), (view.scale * data.w < map.width) + "");
          }
          by("title").textContent = said.join("|");
        });"""
        dom = shown(self.page.replace("</body>", f"<script>{code}</script></body>"), "turn=1&class=infantry")
        self.assertIn("cell 6 4|true|cell 6 4|false", dom)

    @needs_browser
    def test_its_cells_are_those_of_the_tools(self):
        maker = check.Maker(3)
        scripts = [mapscript.Script(maker.script()) for _ in range(8)]
        self.assertIn("<p>0 cells differ</p>", shown(cells_page([it for it in scripts if it.map])))


def sides_of(before, after, w):
    """How many sides the cells have that were blocked, and that were freed, but for those between two of a kind."""
    found = []
    for was, now in ((before, after), (after, before)):
        rows = [0, *(b & ~a for a, b in zip(was, now)), 0]
        across = sum(bin(a ^ b).count("1") for a, b in zip(rows, rows[1:]))
        found.append(across + sum(bin(it ^ it << 1).count("1") for it in rows))
    return found


def wanted_cells(script):
    """The map with what stands at the end of a script, and the region and area of each cell for each class."""
    ground, standing = mapscript.Ground(script.map), {}
    for turn in script.turns:
        for post in turn.in_order():
            if post.kind in check.EDITS:
                check.edited(script.map, standing, post.values)
    for number, (square, mask) in standing.items():
        ground.put(number, square, mask)
    ground.settle()
    w, h, wanted = script.map.w, script.map.h, []
    for k in range(len(script.map.classes)):
        labels = mapscript.Labels(ground, k)
        wanted.append([[labels.at(i, j) for i in range(w)] for j in range(h)])
    what = {"w": w, "h": h, "wanted": wanted, "base": list(view.base_bits(script.map)), "clearances": list(script.map.classes.values())}
    what["standing"] = [{"square": square, "mask": mask} for square, mask in standing.values()]
    return what


def cells_page(scripts):
    """A page that says how many cells differ from those that the tools have, or regions, or areas."""
    code = """let bad = 0;
      for (const it of DATA) it.wanted.forEach((rows, k) => {
        const cells = new Cells(it.w, it.h, new Uint8Array(it.base), k, it.clearances[k], it.standing);
        cells.label();
        rows.forEach((row, j) => row.forEach(([region, area], i) => {
          const at = j * it.w + i;
          if (cells.region[at] !== region || cells.area[at] !== area || (cells.state[at] === FREE) !== (region > 0)) bad++;
        }));
      });
      document.body.innerHTML = `<p>${bad} cells differ</p>`;"""
    data = json.dumps([wanted_cells(it) for it in scripts])
    return f"<body></body><script>{view.part('cells.js')}\n{code.replace('DATA', data)}</script>"


def points_of(made, words, scale):
    """The colours of a picture of points, row by row from the north, and its two sides."""
    out = pictures.png(view.panels(made, words, None)[0], scale)
    wide, high = struct.unpack_from(">II", out, 16)
    data = zlib.decompress(out[41:41 + struct.unpack_from(">I", out, 33)[0]])
    lines = [data[n * (3 * wide + 1) + 1:(n + 1) * (3 * wide + 1)].hex() for n in range(high)]
    return [[line[k:k + 6] for k in range(0, len(line), 6)] for line in lines], (wide, high)


class Pictures(unittest.TestCase):
    def test_svg(self):
        words = ["--svg", "1:infantry,1:siege,2:siege", "examples/skirmish.script", "examples/skirmish.answers"]
        out, status, _ = tool("tools/view.py", *words)
        self.assertEqual(status, 0)
        root = xml.fromstring(out)
        names = [it.text for it in root.iter("{http://www.w3.org/2000/svg}text")]
        self.assertEqual(names, ["turn 1, infantry", "turn 1, siege", "turn 2, siege"])
        self.assertEqual(out, read("docs/pictures/skirmish.svg"), "docs/pictures/skirmish.svg was made by another viewer")

    def test_a_smoothed_line_runs_beside_its_path(self):
        with tempfile.NamedTemporaryFile() as script, tempfile.NamedTemporaryFile() as answers:
            script.write(CORNER)
            answers.write(f"{ROUND}0 0 smooth 2 2.5,0.5 2.5,2.5\n".encode())
            script.flush()
            answers.flush()
            out, status, told = tool("tools/view.py", "--svg", "1", "--scale", "10", script.name, answers.name)
        self.assertEqual(status, 0, told)
        lines = [(it.get("points"), it.get("stroke")) for it in xml.fromstring(out).iter("{http://www.w3.org/2000/svg}polyline")]
        # the halo and the colour of the path, and then one line without a halo, to the right of the path's way
        self.assertEqual(lines, [("5,25 25,25 25,5", "#ffffff"), ("5,25 25,25 25,5", "#0072b2"), ("5,27.3 25,27.3 27.3,25 27.3,5", "#1b1f24")])

    def test_png(self):
        words = ["--png", "2:siege", "--scale", "4", "examples/skirmish.script", "examples/skirmish.answers"]
        out, status, _ = tool("tools/view.py", *words)
        self.assertEqual((status, out[:8]), (0, b"\x89PNG\r\n\x1a\n"))
        self.assertEqual(struct.unpack_from(">II", out, 16), (48, 32))
        size = struct.unpack_from(">I", out, 33)[0]
        rows = zlib.decompress(out[41:41 + size])
        self.assertEqual(rows[1:4].hex(), "4b535d")  # the north is blocked by the base map
        self.assertEqual(rows[16 * 145 + 1:16 * 145 + 4].hex(), "fbfaf7")  # the west in the middle is free

    def test_a_start_is_hollow_and_an_end_is_full(self):
        # caller 1 starts at 10 3, and ends near at 7 6; in turn 2 it ends at the goal, at 2 4
        for words, (i, j) in (("1:siege", (7, 6)), ("2:siege", (2, 4))):
            made = match(read("examples/skirmish.script"), read("examples/skirmish.answers"))
            rows, side = points_of(made, words, 16)
            self.assertEqual(side, (192, 128))
            self.assertEqual((rows[119 - 16 * 3][168], rows[119 - 16 * j][16 * i + 8]), ("ffffff", "d55e00"))

    def test_marks_grow_with_the_picture(self):
        script = CORNER.replace(b"[3,3]", b"[512,512]").replace(b"[[1,1,1,1,1]]", b"[]")
        script = script.replace(b'["0.5","0.5"]', b'["100.5","9.5"]').replace(b'["2.5","2.5"]', b'["400.5","9.5"]')
        answers = b"turn 1 regions 36 edges 60 areas 1 relabelled 0\n0 0 path 100 9 400 9 goal 19660800 1 400.5,9.5\n"
        rows, side = points_of(match(script, answers), "1", None)
        self.assertEqual(side, (1024, 1024))
        # across the line, at the middle of its end
        self.assertEqual(sum(row[801] == "0072b2" for row in rows), 15)

    def test_an_unknown_turn(self):
        for kind in ("--svg", "--png"):
            _, status, told = tool("tools/view.py", kind, "9", "examples/skirmish.script", "examples/skirmish.answers")
            self.assertEqual((status, told), (2, "view.py: there are no answers for turn 9\n"))
        _, status, told = tool("tools/view.py", "--png", "1,2", "examples/skirmish.script", "examples/skirmish.answers")
        self.assertEqual((status, told), (2, "view.py: a picture of points has one turn, and not 1,2\n"))


if __name__ == "__main__":
    unittest.main()
