"""The grammar of docs/FORMAT.md beside the built program: what the page shows is read, and what departs from it is a bad line."""
import copy
import json
import re
import subprocess
import unittest

from places import PROGRAM, needs_program, read

import forms  # noqa: E402

PAGE = read("docs/FORMAT.md").decode().partition("\n## The script\n")[2].partition("\n### Why a line is bad\n")[0]
FORMS, GOALS = (re.findall(r"(?m)^\{.*\}$", it) for it in re.findall(r"(?s)```\n(.*?)```", PAGE))
# the page's table: which keys a line of each form has, besides those of its place
KEYS = {name: set(re.findall(r"`([a-z]+)`", cell)) for name, cell in re.findall(r"(?m)^\| (\w+) line[^|]*\| ([^|]*) \|", PAGE)}


def form_of(line):
    """The name of a form by the key that only it has."""
    names = {"version": "map"} | {it: it for it in ("base", "add", "remove", "move", "path", "region", "end")}
    return next(names[key] for key in line if key in names)


def first_version(line):
    """The first version that has a line."""
    first = {form.lower(): version for form, version in forms.first_versions().items()} | forms.key_versions() | forms.goal_versions()
    return max(first.get(it, 1) for it in (*line, *line.get("goal", ())))


def run(lines):
    """The status and the last line that the program writes for these lines."""
    ran = subprocess.run([PROGRAM, "replay", "--workers", "1"], input="".join(it + "\n" for it in lines), capture_output=True, text=True)
    return ran.returncode, ran.stdout.splitlines()[-1:]


def whole():
    """One script with a line of each form, and a path line with each goal."""
    return [*FORMS[:-1], *GOALS[1:], FORMS[-1]]


def bent(value):
    """The value in ways that no form has: other items, other types."""
    yield None
    yield {"x": 1}
    if isinstance(value, list) and isinstance(value[0], (list, dict)):
        yield [*value, 1]
        yield from ([it] for it in bent(value[0])) if isinstance(value[0], list) else ()
    elif isinstance(value, list):
        yield value[:-1]
        yield [*value, value[-1]]
    elif isinstance(value, str):
        yield f"{value} "
        yield 1
    elif isinstance(value, int):
        yield -1
        yield str(value)
        yield value + 0.5


def departures(text):
    """Lines that depart from a line in one key or one value, at any depth but that of items."""
    line = json.loads(text)
    for key in line:
        yield {it: line[it] for it in line if it != key}
        for value in bent(line[key]):
            yield line | {key: value}
        if isinstance(line[key], dict):
            for value in bent(line[key][next(iter(line[key]))]):
                yield line | {key: {next(iter(line[key])): value}}
    yield line | {"x": 1}
    for key, values in line.items():
        if key == "classes":
            for name in values[0]:
                other = copy.deepcopy(line)
                del other[key][0][name]
                yield other


class Format(unittest.TestCase):
    def test_the_table_has_the_keys_of_the_lines(self):
        self.assertEqual(set(KEYS), {form_of(json.loads(it)) for it in FORMS})
        for text in [*FORMS, *GOALS]:
            line = json.loads(text)
            self.assertLessEqual(set(line), KEYS[form_of(line)] | {"caller"}, text)

    @needs_program
    def test_what_the_page_shows_is_read(self):
        status, last = run(whole())
        self.assertEqual(status, 0, last)

    @needs_program
    def test_keys_may_come_in_any_order(self):
        status, last = run([json.dumps(dict(reversed(json.loads(it).items()))) for it in whole()])
        self.assertEqual(status, 0, last)

    @needs_program
    def test_what_departs_from_it_is_a_bad_line(self):
        lines = whole()
        for place, text in enumerate(lines):
            for other in departures(text):
                bad = [*lines[:place], json.dumps(other), *lines[place + 1 :]]
                self.assertEqual(run(bad), (3, [f"bad line {place + 1}"]), bad[place])

    @needs_program
    def test_a_later_form_is_bad_in_an_earlier_version(self):
        lines = whole()
        map_line = json.loads(lines[0])
        for version in range(1, forms.newest()):
            for text in lines[1:-1]:
                is_later = first_version(json.loads(text)) > version
                base = [] if "base" in json.loads(text) else [text]
                script = [json.dumps(map_line | {"version": version}), *base, FORMS[-1]]
                self.assertEqual(run(script)[0], 3 if is_later else 0, (version, text))


if __name__ == "__main__":
    unittest.main()
