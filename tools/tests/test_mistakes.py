"""What the program says of the mistakes that somebody makes who writes a first client: the line, the place and what to change."""
import gzip
import re
import subprocess
import unittest

from places import PROGRAM, needs_program, read

import forms  # noqa: E402

FIRST = '{"version":3,"size":[12,8],"callers":2,"classes":[{"name":"infantry","clearance":"0.75"},{"name":"siege","clearance":"2.5"}]}'
ADD = '{"caller":0,"add":1,"unit":["6","4","1"],"mask":3}'
PATH = '{"caller":1,"path":"infantry","from":["1.5","1.5"],"goal":{"point":["9.5","1.5"]}}'
END = '{"end":1}'
CLASSES = (
    'the key "classes" must have an array of 1 to 16 objects with the keys "name" and "clearance", each name once, of 1 to 64 ASCII letters, '
    "digits, - or _, and each clearance a decimal in quotes from 0 to 64"
)
DECIMALS = "must have an array of {} decimals in quotes with at most 16 places, from -32768 to below 32768"
TWO, THREE, SIX = (DECIMALS.format(it) for it in ("two", "three", "six"))
NUMBER = "must have a whole number from 0 to 4294967295"
BASE = 'the key "base" must have an array of arrays [i0,j0,i1,j1,mask] with i0 <= i1, j0 <= j1 and mask <= 65535, on a map of 12 by 8; array 1 is wrong'
GOALS = f'the key "goal" must have an object with exactly one key: {forms.goals_in_words()}'
VERSIONS = f'the key "version" must have a whole number from 1 to {forms.newest()}'
BROKEN = "the line must be one JSON value, with no words but true, false and null, and numbers as 0, -1.5 or 2e3"
BRACKET = "a bracket or brace must close what was opened last: ] a [, and } a {"
KEY = "a key in double quotes must stand here"
LARGE = "a number must be within those of 64-bit floats, about 1.8e308"
WORDS = "only true, false, null and numbers stand without quotes"
ZERO = "a number must not have a zero before its other digits"
BEHIND = "a line has one value, and this stands behind it"
FORM = "the line must be an object with exactly the keys of one form"
ARRAY = "the line must be an object, and is an array: each object of a script must have a line of its own"
PLACES = "the map line must be line 1 alone, and base lines must stand between it and the turns"


def lines(*texts):
    return "".join(f"{it}\n" for it in texts)


# The mistake, the script, the number of the bad line, and the text of its cause.
MISTAKES = [
    ("NaN for a number", lines(FIRST, '{"end":NaN}'), 2, "byte 8: JSON has no NaN, no Infinity and no None"),
    ("a number beyond a double", lines(FIRST, '{"caller":0,"add":1e400,"unit":["6","4","1"],"mask":3}'), 2, f"byte 19: {LARGE}"),
    ("a hexadecimal number", lines(FIRST, '{"caller":0,"add":0x10,"unit":["6","4","1"],"mask":3}'), 2, f"byte 20: {WORDS}"),
    ("lines that end with a carriage return alone", FIRST+"\r"+END+"\r", 1, f"byte 127: {BEHIND}"),
    ("UTF-16", lines(FIRST, END).encode('utf-16'), 1, "byte 1: the line must be in UTF-8"),
    ("a byte order mark", lines(FIRST, END).encode('utf-8-sig'), 1, "the line must be one JSON value, and begins with a byte order mark"),
    ("Latin-1", lines(FIRST.replace("infantry","infanterie-à"), END).encode('latin-1'), 1, "byte 71: the line must be in UTF-8"),
    ("a byte 0", lines(FIRST, END[:-1]+"\0}"), 2, "byte 9: a control character must be written as \\u and four digits, in a string"),
    ("a gzip file", gzip.compress(lines(FIRST, END).encode(),mtime=0), 1, "byte 2: the line must be in UTF-8"),
    ("a comment behind a line", lines(FIRST, END+" // first turn"), 2, "byte 11: JSON has no comments"),
    ("a line with a # comment", lines("# my map",FIRST, END), 1, "byte 1: JSON has no comments"),
    ("an empty line", lines(FIRST, "", END), 2, "the line must be one JSON value, and is blank"),
    ("a trailing comma", lines(FIRST, '{"end":1,}'), 2, "byte 10: no comma may stand before a closing bracket"),
    ("single quotes", lines(FIRST, "{'end':1}"), 2, "byte 2: JSON has strings in double quotes only"),
    ("a key without quotes", lines(FIRST, "{end:1}"), 2, f"byte 2: {WORDS}"),
    ("Python's True", lines(FIRST, '{"caller":True,"remove":1}'), 2, f"byte 11: {WORDS}"),
    ("Python's None", lines(FIRST, '{"caller":0,"remove":None}'), 2, "byte 22: JSON has no NaN, no Infinity and no None"),
    ("half a line", lines(FIRST, '{"caller":0,"add":1,"unit":["6","4"'), 2, "the line must be one JSON value, and ends inside an array or an object"),
    ("two objects on a line", lines(FIRST, ADD+END), 2, f"byte 51: {BEHIND}"),
    ("all lines in an array", "["+FIRST+","+END+"]\n", 1, ARRAY),
    ("a post in an array", lines(FIRST, "["+ADD+"]", END), 2, ARRAY),
    ("a text for a line", lines(FIRST, '"end 1"'), 2, FORM),
    ("an object over several lines", lines(FIRST, '{','  "end": 1','}'), 2, "the line must be one JSON value, and ends inside an array or an object"),
    ("too deep", lines(FIRST, '{"caller":0,"remove":'+'['*9+']'*9+'}'), 2, "the line must not have arrays and objects more than 8 deep"),
    ("a missing comma", lines(FIRST, '{"caller":0 "remove":1}'), 2, "byte 13: a comma or a colon is missing before this"),
    ("a backslash in a name", lines(FIRST, '{"caller":0,"path":"c:\\q","from":["1","1"],"goal":{"point":["2","2"]}}'), 2, 'byte 24: a backslash in a string must stand before one of " \\ / b f n r t u'),
    ("commas behind the lines", lines(FIRST + ",", END), 1, f"byte 126: {BEHIND}"),
    ("a semicolon behind a line", lines(FIRST, END + ";"), 2, f"byte 10: {WORDS}"),
    ("quotes of a word processor", lines(FIRST, "{\u201cend\u201d:1}"), 2, f"byte 2: {WORDS}"),
    ("thousands with a comma", lines(FIRST, '{"caller":0,"remove":1,000}', END), 2, f"byte 24: {KEY}, and a number must have no commas"),
    ("other thousands with a comma", lines(FIRST, '{"caller":0,"remove":1,500}', END), 2, f"byte 24: {KEY}, and a number must have no commas"),
    ("a number with a leading zero", lines(FIRST, '{"end":01}'), 2, f"byte 9: {ZERO}"),
    ("a number without its last digits", lines(FIRST, '{"end":1.}'), 2, "byte 10: a number must be written as 0, -1.5 or 2e3"),
    ("a version for a number", lines(FIRST, '{"end":1.2.3}'), 2, "byte 11: a number must be written as 0, -1.5 or 2e3"),
    ("two colons", lines(FIRST, '{"end"::1}'), 2, "byte 8: a colon must stand behind a key in double quotes"),
    ("a bracket that closes a brace", lines(FIRST, '{"caller":0,"remove":1]', END), 2, f"byte 23: {BRACKET}"),
    ("a brace that closes a bracket", lines(FIRST, ADD.replace('"1"]', '"1"}'), END), 2, f"byte 40: {BRACKET}"),
    ("a number for a key", lines(FIRST, '{1:2}'), 2, f"byte 2: {KEY}"),
    ("a key without its value", lines(FIRST, '{"end"}'), 2, "byte 7: a colon and a value must stand behind a key"),
    ("a word that is cut off", lines(FIRST, '{"end":tru}'), 2, BROKEN),
    ("a string that is cut off", lines(FIRST, '{"caller":0,"path":"inf'), 2, "the line must be one JSON value, and ends inside a string"),
    ("a tab in a name", lines(FIRST, PATH.replace("infantry", "in\tfantry"), END), 2, "byte 23: a control character must be written as \\u and four digits, in a string"),
    ("half a surrogate pair", lines(FIRST, PATH.replace("infantry", "\\ud83d"), END), 2, "byte 27: a half of a surrogate pair must stand with its other half, as in \\ud83d\\ude00"),
    ("an escape of two digits", lines(FIRST, PATH.replace("infantry", "\\u41"), END), 2, "byte 25: four hexadecimal digits must stand behind \\u"),
    ("YAML", lines("version: 3", "size: [12, 8]"), 1, f"byte 1: {WORDS}"),
    ("the answers in place of the script", lines("turn 1 regions 4 edges 0 areas 4 relabelled 0"), 1, f"byte 6: {BEHIND}"),
    ("the mark of DOS at the end of a file", lines(FIRST, END) + "\x1a", 3, "byte 1: a control character must be written as \\u and four digits, in a string"),
    ("no map line", lines(ADD, END), 1, PLACES),
    ("the map line without version", lines(FIRST.replace('"version":3,',''), END), 1, 'the line must have the key "version" too'),
    ("the map line without classes", lines('{"version":3,"size":[12,8],"callers":2}', END), 1, 'the line must have the key "classes" too'),
    ("an unknown version", lines(FIRST.replace('"version":3', f'"version":{forms.newest() + 1}'), END), 1, VERSIONS),
    ("a map too large", lines(FIRST.replace('[12,8]','[4096,4096]'), END), 1, 'the key "size" must have an array of two whole numbers from 1 to 2048'),
    ("a clearance that is no string", lines(FIRST.replace('"0.75"','0.75'), END), 1, CLASSES),
    ("two classes of one name", lines(FIRST.replace('siege','infantry'), END), 1, CLASSES),
    ("a coordinate that is a number", lines(FIRST, PATH.replace('"1.5","1.5"','1.5,1.5'), END), 2, f'the key "from" {TWO}'),
    ("a coordinate with an exponent", lines(FIRST, PATH.replace('"9.5","1.5"','"9.5e0","1.5"'), END), 2, f'the key "point" {TWO}'),
    ("two shapes in one add", lines(FIRST, ADD[:-1]+',"square":["6","4","1","0","1","1"]}', END), 2, 'the line must not have the key "unit" beside its others'),
    ("two goals", lines(FIRST, PATH.replace('{"point":["9.5","1.5"]}','{"point":["9.5","1.5"],"circle":["9.5","1.5","1"]}'), END), 2, GOALS),
    ("a goal of an unknown shape", lines(FIRST, PATH.replace('point','box'), END), 2, GOALS),
    ("an add without mask", lines(FIRST, ADD.replace(',"mask":3',''), END), 2, 'an add line must have the key "mask" from version 2 on'),
    ("a key misspelt", lines(FIRST, PATH.replace('"from"','"form"'), END), 2, 'the line must have the keys of one form, and no form has the key "form"'),
    ("a caller too many", lines(FIRST, PATH.replace('"caller":1','"caller":2'), END), 2, 'the key "caller" must have the number of a caller, which is a whole number below 2'),
    ("the wrong number of a turn", lines(FIRST, '{"end":0}'), 2, 'the key "end" must have the number of this turn, 1'),
    ("a turn that is not ended", lines(FIRST, ADD), 3, "the script must not end inside a turn: its end line is missing"),
    ("a second map line", lines(FIRST, END, FIRST), 3, PLACES),
    ("a base line in a turn", lines(FIRST, ADD, '{"base":[[0,0,1,1,1]]}', END), 3, PLACES),
    ("a rectangle the wrong way round", lines(FIRST, '{"base":[[4,0,3,0,1]]}', END), 2, BASE),
    ("classes by their names alone", lines(re.sub(r'"classes":.*', '"classes":["infantry","siege"]}', FIRST), END), 1, CLASSES),
    ("a class name with a space", lines(FIRST.replace("siege", "siege engine"), END), 1, CLASSES),
    ("a negative clearance", lines(FIRST.replace("2.5", "-1"), END), 1, CLASSES),
    ("a size as a text", lines(FIRST.replace("[12,8]", '"12x8"'), END), 1, 'the key "size" must have an array of two whole numbers from 1 to 2048'),
    ("a map without callers", lines(FIRST.replace('"callers":2', '"callers":0'), END), 1, 'the key "callers" must have a whole number from 1 to 64'),
    ("the version as a text", lines(FIRST.replace('"version":3', '"version":"3"'), END), 1, VERSIONS),
    ("a class by its number", lines(FIRST, PATH.replace('"infantry"', "0"), END), 2, 'the key "path" must have a string of 1 to 64 ASCII letters, digits, - or _'),
    ("a decimal comma", lines(FIRST, PATH.replace('"1.5","1.5"', '"1,5","1,5"'), END), 2, f'the key "from" {TWO}'),
    ("a point with a height", lines(FIRST, PATH.replace('"1.5","1.5"', '"1.5","0","1.5"'), END), 2, f'the key "from" {TWO}'),
    ("a point as an object", lines(FIRST, PATH.replace('["1.5","1.5"]', '{"x":"1.5","z":"1.5"}'), END), 2, f'the key "from" {TWO}'),
    ("a goal without its shape", lines(FIRST, PATH.replace('{"point":["9.5","1.5"]}', '["9.5","1.5"]'), END), 2, GOALS),
    ("a circle without its radius", lines(FIRST, PATH.replace("point", "circle"), END), 2, f'the key "circle" {THREE}'),
    ("a goal by obstruction that nests", lines(FIRST, PATH.replace('{"point":["9.5","1.5"]}', '{"obstruction":[[1,"1"]]}'), END), 2,
     'the key "obstruction" must have an array of an obstruction number from 0 to 4294967295 and a decimal in quotes'),
    ("a rectangle by its angle", lines(FIRST, '{"caller":0,"add":1,"square":["6","4","0.785","1","1"],"mask":3}', END), 2, f'the key "square" {SIX}'),
    ("an obstruction that nests", lines(FIRST, '{"caller":0,"add":{"id":1,"unit":["6","4","1"],"mask":3}}', END), 2, 'the line must have the key "unit" too'),
    ("an obstruction that nests too deep", lines(FIRST, ADD.replace('["6","4","1"]', "[" * 8 + '"6"' + "]" * 8), END), 2, "the line must not have arrays and objects more than 8 deep"),
    ("a mask as a list", lines(FIRST, ADD.replace('"mask":3', '"mask":[0,1]'), END), 2, 'the key "mask" must have a whole number from 0 to 65535'),
    ("a negative number", lines(FIRST, '{"caller":0,"remove":-1}', END), 2, f'the key "remove" {NUMBER}'),
    ("a number past 32 bits", lines(FIRST, '{"caller":0,"remove":4294967296}', END), 2, f'the key "remove" {NUMBER}'),
    ("a whole number with a point", lines(FIRST, '{"end":1.0}'), 2, 'the key "end" must have the number of this turn, 1'),
    ("an end line of a caller", lines(FIRST, '{"caller":0,"end":1}'), 2, 'the line must not have the key "caller" beside its others'),
    ("a key of one's own", lines(FIRST, '{"caller":0,"remove":1,"comment":"the gate"}', END), 2, 'the line must have the keys of one form, and no form has the key "comment"'),
    ("a capital letter in a key", lines(FIRST, '{"Caller":0,"remove":1}', END), 2, 'the line must have the keys of one form, and no form has the key "Caller"'),
    ("a move in version 2", lines(FIRST.replace('"version":3', '"version":2'), '{"caller":0,"move":1,"to":["1","1"]}', END), 2, "the map line must name version 3 or later for this"),
    ("a base line of one rectangle alone", lines(FIRST, '{"base":[4,0,4,5,1]}', END), 2, BASE),
    ("a rectangle without its mask", lines(FIRST, '{"base":[[4,0,4,5]]}', END), 2, BASE),
    ("a rectangle past the map", lines(FIRST, '{"base":[[0,0,12,7,1]]}', END), 2, BASE),
    ("a turn that is skipped", lines(FIRST, END, '{"end":3}'), 3, 'the key "end" must have the number of this turn, 2'),
    ("an empty file", "", 1, "the script must begin with a map line, and has no line"),
]


def cause_of(script):
    """The number of the bad line and the text of its cause, as the program says them."""
    given = script if isinstance(script, bytes) else script.encode()
    ran = subprocess.run([PROGRAM, "replay", "--workers", "1"], input=given, capture_output=True)
    told = re.fullmatch(r"pathserve: line (\d+) is bad: (.*)\n", ran.stderr.decode())
    return told and (ran.returncode, int(told[1]), told[2])


class Mistakes(unittest.TestCase):
    @needs_program
    def test_each_is_named(self):
        for what, script, number, text in MISTAKES:
            self.assertEqual(cause_of(script), (3, number, text), what)

    @needs_program
    def test_each_line_of_the_page_is_said_so(self):
        page = read("docs/FORMAT.md").decode().partition("### Why a line is bad")[2].partition("Which cause is reported")[0]
        # rows of one line as it is, and its text
        rows = re.findall(r"(?m)^\| `([^`]+)` \|(?: [^|`]* \|)? `([^`]+)` \|$", page)
        self.assertGreater(len(rows), 15)
        first = re.search(r'(?m)^\{"version":3,.*"callers":2.*$', read("docs/FORMAT.md").decode())[0]
        for line, text in rows:
            self.assertEqual(cause_of(lines(first, line)), (3, 2, text), line)


if __name__ == "__main__":
    unittest.main()
