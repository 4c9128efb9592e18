"""The table of forms beside what is written of it elsewhere: the header, the packages, the page and the client that checks."""
import contextlib
import copy
import io
import json
import os
import re
import shutil
import sys
import tempfile
import unittest
from unittest import mock

from places import TOP, read, tool

sys.path.insert(0, f"{TOP}/examples")
import check  # noqa: E402
import forms  # noqa: E402
import marks  # noqa: E402
import specs  # noqa: E402


def snake(name):
    """A name such as `AddUnit`, `addUnit` or `add_unit` as `ADD_UNIT`."""
    return re.sub(r"(?<=[a-z])(?=[A-Z])", "_", name).upper()


def count_of(wanted):
    """How many items an array has, or None where no array of decimals is wanted."""
    several = re.fullmatch(r"(\w+)Decimals", wanted)
    return WORDS.index(several[1]) + 1 if several else {"NumberAndDecimal": 2}.get(wanted)


PAGE = read("docs/FORMAT.md").decode().partition("\n## The script\n")[2].partition("\n### Why a line is bad\n")[0]
ROWS = {"Map": "map", "Base": "base", "AddUnit": "add", "AddSquare": "add", "Remove": "remove", "Move": "move", "Path": "path",
        "Region": "region", "End": "end"}
WORDS = ["One", "Two", "Three", "Four", "Five", "Six"]
CPP = "examples/cpp/pathserve.hpp"
# In each file that has makers of posts: what these stand in, and how they name a kind.
MAKERS = {
    forms.HEADER: (r"^PATHSERVE_MAKER .*?^\}", r"PATHSERVE_([A-Z_]+)"),
    CPP: (r"^inline Post .*?^\}|^class Goal .*?^\}", r"PATHSERVE_([A-Z_]+)"),
    forms.PYTHON_POSTS: (r".+", r"(?:Post|Goal)Kind\.([A-Z_]+)"),
    forms.RUST_POSTS: (r"fn raw\(.*?^    \}", r"sys::([A-Z_]+)"),
    forms.CSHARP: (r"public struct Post$.*?^    \}", r"(?:Post|Goal)Kind\.(\w+)"),
    forms.SCRIPT: (r"^// ---- posts$.*?^\}\);$", r"(?:Post|Goal)Kind\.([A-Z_]+)"),
}
# Makers that stand for one kind, and what reads one: the name, and the kind.
NAMED = [
    (forms.PYTHON_POSTS, r'^def (\w+)\([^)]*\) -> Post:\n(?:    """[^\n]*"""\n)?    return Post\(PostKind\.(\w+),'),
    (forms.RUST_POSTS, r"Post::(\w+) \{[^}]*\} => (?:\{\s*)?sys::Post \{ kind: sys::(\w+),"),
    (forms.RUST_POSTS, r"Goal::(\w+) \{[^}]*\} => (?:\{\s*)?sys::Post \{ goal: sys::(\w+),"),
    (forms.CSHARP, r"public static Post (\w+)\([^)]*\)\s*\{[^}]*? Kind = PostKind\.(\w+)"),
    (forms.SCRIPT, r"^export const (\w+) = \(.*?\) => \(\{ kind: PostKind\.(\w+),"),
]
# In each file with makers by hand: what one of these fills, and the kinds that then lack it.
LEFT_OUT = {
    forms.HEADER: ("    post.hw = hw;\n", ("ADD_SQUARE", "hw")),
    CPP: ("    post.id = id;\n", ("ADD_UNIT", "id"), ("ADD_SQUARE", "id")),
    forms.CSHARP: ("post.Hh = hh;", ("ADD_SQUARE", "hh")),
}
OUTCOMES = r"sys::([A-Z_]+) => Outcome::(\w+)"


def page_lines():
    return [json.loads(it) for it in re.findall(r"^\{.*\}$", PAGE, re.MULTILINE)]


def reads(line):
    """Whether the client of examples/check.py reads a line, alone or behind the page's map line."""
    script = line if "version" in line else page_lines()[0]
    map_ = check.Map(script)
    if "base" in line:
        check.needs(check.has_keys(line, "base"))
        map_.add_base(line["base"])
    elif "end" in line:
        check.needs(check.has_keys(line, "end"))
    elif "version" not in line:
        map_.post(line)


class Table(unittest.TestCase):
    def test_it_is_whole(self):
        """Each form, key and goal of the crate is in the table."""
        of_lines = re.search(r"pub enum Form \{(.*?)\}", read("crates/script_text/src/table.rt").decode(), re.DOTALL)[1]
        self.assertEqual(re.findall(r"\w+", of_lines), list(forms.forms()))
        self.assertEqual({key for it in forms.forms().values() for key in it}, set(forms.key_texts().values()))
        of_goals = re.search(r"pub enum GoalKey \{(.*?)\}", read("crates/script_text/src/goals.rt").decode(), re.DOTALL)[1]
        self.assertEqual(re.findall(r"^\s+(\w+),", of_goals, re.MULTILINE), list(forms.goals()))

    def test_it_is_printed(self):
        out, status, said = tool("tools/forms.py")
        self.assertEqual((status, said), (0, ""))
        for key in forms.key_texts().values():
            self.assertRegex(out.decode(), rf"(?m)^    {key} ")


class Written(unittest.TestCase):
    def test_all_places_are_current(self):
        out, status, said = tool("tools/forms.py", "--check")
        self.assertEqual((out, status, said), (b"", 0, ""))

    def test_what_is_new_is_written_to_each_place(self):
        """A number more of each kind and a field more come into each file, and go again where the crates have them no more."""
        numbers, fields, size, uses = {of: forms.numbers(of) for of in forms.NUMBERS}, forms.post_fields(), forms.post_size(), forms.uses()
        more = {of: [*its, forms.Number("LEAP_FROG", 99, its[0].type, "a leap")] for of, its in numbers.items()}
        used = {kind: [*its, "leap_far"] for kind, its in uses.items()} | {"LEAP_FROG": ["leap_far"]}
        files = list(dict.fromkeys(it.file for it in forms.PLACES))
        with tempfile.TemporaryDirectory() as top, mock.patch.object(specs, "TOP", top):
            for file in [*files, CPP]:
                os.makedirs(os.path.dirname(f"{top}/{file}"), exist_ok=True)
                shutil.copy(f"{TOP}/{file}", f"{top}/{file}")
            changed = [*fields, forms.Field("leap_far", "u64", "how far a frog leaps")]
            with mock.patch.multiple(forms, numbers=more.get, post_fields=lambda: changed, post_size=lambda: "99", uses=lambda: used):
                self.assertEqual([forms.main(["--write"]), marks.check(forms.PLACES, "")], [0, 0])
                for file in files:
                    self.assertRegex(specs.read(file), r"(?i)\bleap[_-]?frog\b|\bPATHSERVE_LEAP_FROG = 99 ", file)
                    self.assertRegex(specs.read(file), r"(?i)\bleap_?far\b", file)
                header = specs.read(forms.HEADER)
                self.assertRegex(header, r"(?m)^    uint64_t leap_far; +/\* how far a frog leaps \*/$")
                self.assertEqual(len(re.findall(r"PATHSERVE_SIZE_POST = 6, +/\* 99 |PATHSERVE_HAS_SIZE\(pathserve_post, 99\)", header)), 2)
                self.assertIn(f"/* each of the {len(changed)} fields is 0 */", header)
                for file, maker in ((forms.PYTHON_POSTS, "leap_far: int)"), (forms.SCRIPT, ", leapFar) => ("), (forms.RUST_POSTS, ", leap_far, ..")):
                    self.assertEqual(specs.read(file).count(maker), len(uses) + (file == forms.RUST_POSTS), file)
                wanted = {f"{file}: the maker of {kind} leaves out leap_far" for file in (forms.HEADER, CPP, forms.CSHARP) for kind in used}
                self.assertEqual(set(forms.missing()), wanted)
            with mock.patch.multiple(forms, numbers=numbers.get, post_fields=lambda: fields, post_size=lambda: size, uses=lambda: uses):
                with contextlib.redirect_stderr(io.StringIO()) as said:
                    self.assertEqual([forms.main(["--check"]), forms.main(["--write"])], [1, 0])
                self.assertEqual(said.getvalue().count("\n"), len(files))
            for file in files:
                self.assertEqual(specs.read(file), read(file).decode(), file)

    def test_a_maker_that_leaves_out_a_field_is_found(self):
        for file, (line, *others) in LEFT_OUT.items():
            def changed(name):
                return specs.read(name).replace(line, "", 1) if name == file else specs.read(name)

            self.assertIn(line, specs.read(file))
            with mock.patch.object(forms, "read", changed):
                self.assertEqual(list(forms.missing()), [f"{file}: the maker of {kind} leaves out {field}" for kind, field in others], file)

    def test_comments_of_the_header_stay(self):
        with mock.patch.object(forms, "numbers", lambda of: [forms.Number("POINT", 1, "u8", "new"), forms.Number("RING", 2, "u8", "new too")]):
            self.assertEqual(
                forms.header_enum("goals")("    PATHSERVE_POINT = 1 /* old */\n"),
                "    PATHSERVE_POINT = 1, /* old */\n    PATHSERVE_RING = 2   /* new too */\n",
            )


class Makers(unittest.TestCase):
    """What makes posts by hand in each language has each kind of them and of goals."""

    def test_each_kind_has_one(self):
        kinds = {*forms.values("posts"), *forms.values("goals")}
        for file, (pattern, name) in MAKERS.items():
            found = set(re.findall(name, "".join(re.findall(pattern, read(file).decode(), re.DOTALL | re.MULTILINE))))
            self.assertEqual({snake(it) for it in found} & kinds, kinds, file)

    def test_each_has_the_name_of_its_kind(self):
        for file, pattern in NAMED:
            found = re.findall(pattern, read(file).decode(), re.MULTILINE)
            self.assertGreater(len(found), 3, pattern)
            for name, kind in found:
                self.assertEqual(snake(name), snake(kind))

    def test_each_reply_is_read(self):
        found = {snake(kind): snake(name) for kind, name in re.findall(OUTCOMES, read(forms.RUST_POSTS).decode())}
        self.assertEqual(found, {it: it for it in forms.values("replies")})


class Page(unittest.TestCase):
    def test_it_has_a_line_of_each_form(self):
        shown = [set(it) for it in page_lines()]
        for form, fields in forms.forms().items():
            self.assertIn(set(fields), shown, form)
        for keys in shown:
            self.assertIn(keys, [set(it) for it in forms.forms().values()])

    def test_its_table_has_each_key(self):
        for form, fields in forms.forms().items():
            row = re.search(rf"^\| {ROWS[form]} line.*$", PAGE, re.MULTILINE)[0]
            for key in fields:
                self.assertIn(f"`{key}`", row)
            found = re.search(r"line, from version (\d) on \|", row)
            self.assertEqual(found and int(found[1]), forms.first_versions().get(form))
            for key in fields:
                if key in forms.key_versions():
                    self.assertIn(f"from version {forms.key_versions()[key]} on, and only there, `{key}`", row)

    def test_it_shows_each_goal_with_its_numbers(self):
        shown = {key: value for it in page_lines() if "goal" in it for key, value in it["goal"].items()}
        self.assertEqual(set(shown), {key for key, _ in forms.goals().values()})
        for key, version in forms.goal_versions().items():
            self.assertIn(f"`{key}`, from version {version} on, ", PAGE)
        for key, wanted in forms.goals().values():
            self.assertEqual(len(shown[key]), count_of(wanted), key)


class Client(unittest.TestCase):
    def test_it_reads_each_form_by_exactly_its_keys(self):
        for line in page_lines():
            reads(line)
            for key in line:
                with self.assertRaises(check.BadLine, msg=f"{line} without {key}"):
                    reads({name: value for name, value in line.items() if name != key} or {"caller": 0})
            with self.assertRaises(check.BadLine, msg=f"{line} with a key more"):
                reads(line | {"more": 1})

    def test_it_reads_each_array_by_its_count(self):
        for line in page_lines():
            fields, = (it for it in forms.forms().values() if set(it) == set(line))
            for key, wanted in fields.items():
                if count_of(wanted):
                    self.assertEqual(len(line[key]), count_of(wanted))
                    for other in (line[key][:-1], line[key] + ["1"]):
                        with self.assertRaises(check.BadLine):
                            reads(line | {key: other})

    def test_it_reads_each_goal_by_its_count(self):
        for line in (it for it in page_lines() if "goal" in it):
            (key, value), = line["goal"].items()
            for other in ({key: value[:-1]}, {key: value + ["1"]}, {"other": value}):
                with self.assertRaises(check.BadLine):
                    reads(copy.copy(line) | {"goal": other})


if __name__ == "__main__":
    unittest.main()
