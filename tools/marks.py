"""Texts that a script writes between marks of files, wherever these repeat a table of the crates."""
import os
import re
from typing import Callable, NamedTuple

import commands
import specs


class Place(NamedTuple):
    """A part of a file: what it stands between, and what is to stand there, made of what stands there now."""

    file: str
    begin: str
    end: str
    made: Callable[[str], str]


def written(file, places):
    """A file with what is to stand in each of its places."""
    text = specs.read(file)
    for place in places:
        if place.file == file:
            found = re.search(rf"({place.begin})(.*?)(?={place.end})", text, re.MULTILINE | re.DOTALL)
            if not found:
                raise ValueError(f"{file} has no such place: {place.begin}")
            text = text[: found.end(1)] + place.made(found[2]) + text[found.end(2) :]
    return text


def write(places):
    for file in dict.fromkeys(it.file for it in places):
        text = written(file, places)
        if text != specs.read(file):
            with open(os.path.join(specs.TOP, file), "w", encoding="utf-8") as it:
                it.write(text)


def check(places, how):
    """The status: 0 where each place has what is to stand there. Of each file that has not it says how that is mended."""
    old = [it for it in dict.fromkeys(it.file for it in places) if written(it, places) != specs.read(it)]
    for file in old:
        commands.say(f"{file} is not current: run {how}")
    return 1 if old else 0
