"""A page that answers paths at once, in one file: the map of a script with what stands after it, and the library for the web."""
import base64
import os
import re
import zlib

TOP = os.path.dirname(os.path.dirname(os.path.abspath(__file__)))
FOLDER = os.path.join(TOP, "tools", "page")
# the package lies so in a release, and so where `./release` has made one in the repository
PACKAGES = [os.path.join(TOP, *it) for it in (("web", "pathserve"), ("out", "release", "web", "pathserve"))]


class Missing(Exception):
    """There is no package for the web."""


def package(named=None):
    """The folder of the package with its module."""
    for it in [named] if named else PACKAGES:
        if os.path.isfile(os.path.join(it, "pathserve.wasm")):
            return it
    raise Missing(f"{named or PACKAGES[-1]} has no pathserve.wasm: ./release makes it, where wasm-opt of binaryen is")


def text_of(*name):
    with open(os.path.join(*name), encoding="utf-8") as file:
        return file.read()


def whole_turns(text, script):
    """The lines of a script up to its last whole turn; without one, its map and base lines."""
    lines = text.split(b"\n")
    count = script.turns[-1].end_line if script.turns else 0
    while not script.turns and count < len(lines) and (count == 0 or lines[count].lstrip().startswith(b'{"base"')):
        count += 1
    return b"\n".join([*lines[:count], b""])


def packed(data):
    return base64.b64encode(zlib.compress(data, 9)).decode()


def live(text, script, title, folder=None):
    """The page of a script, whose bytes are `text`."""
    folder = package(folder)
    with open(os.path.join(folder, "pathserve.wasm"), "rb") as file:
        module = file.read()
    library = re.sub(r"(?m)^export ", "", text_of(folder, "pathserve.js"))
    code = "\n".join([library, *(text_of(FOLDER, it) for it in ("cells.js", "field.js", "live_match.js", "live.js"))])
    holes = {"@TITLE@": title.replace("&", "&amp;").replace("<", "&lt;"), "@STYLE@": text_of(FOLDER, "page.css"), "@CODE@": code}
    holes.update({"@SCRIPT@": packed(whole_turns(text, script)), "@MODULE@": packed(module)})
    return re.sub("|".join(holes), lambda it: holes[it[0]], text_of(FOLDER, "live.html"))
