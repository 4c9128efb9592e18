#!/usr/bin/env python3
"""A script and its answers as one page for a browser, or as a picture.

The page has nothing from outside: the map by class, what stands, chunks, regions, areas, paths, fields and smoothed
waypoints, turn by turn, and marks where the answers contradict the script. It reads what `replay` and `profile` write,
and lines `flow` and `smooth` behind a path. That a path is a cheapest one is not looked at: that takes a search.

    view.py first.script first.answers > page.html
    view.py --svg 2:siege first.script first.answers > picture.svg
    view.py --svg 1:infantry,1:siege,2:siege first.script first.answers > three.svg
    view.py --png 1 --scale 4 first.script first.answers > picture.png
    view.py --check first.script first.answers
    view.py --live first.script > live.html

--live makes a page without answers, in which a path to the pointer is found at once, by the library, and obstructions are drawn
and taken away; what was drawn is saved as a script.

Contradictions are told on standard error too, and --check writes nothing else: the turn, the line of the script, the post,
and the cell by its column and row from the south-west. A run that was stopped leaves the answers to its first turns. That
contradicts nothing, so it is told as `answers end after turn N of M`, and what was asked for is made. A turn of which only
some replies are there contradicts.

The status is 0 where the answers are whole and nothing contradicts, 1 where something does, 3 where nothing does and the
answers end before their script, 5 where writing failed, and 2 where a file is missing, the script has no map line, a picture
is asked of a turn without answers, or the words are others. It is not noticed where a walk is longer than it need be, or
another of equal cost.
"""
import base64
import json
import os
import sys
import time
import zlib

import commands
import contradictions
import live_page
import mapscript
import pictures


class Unknown(Exception):
    """A turn or a class that the script or its answers don't have, or a map that the script doesn't."""


FOLDER = os.path.join(os.path.dirname(os.path.abspath(__file__)), "page")


def packed(data):
    return base64.b64encode(zlib.compress(data, 9)).decode()


def base_bits(map_):
    """For each class the rows of its base bits, eight cells a byte, the first cell lowest."""
    width = -(-map_.w // 8)
    return b"".join(row.to_bytes(width, "little") for rows in mapscript.base_rows(map_) for row in rows)


def post_data(post, replies):
    """What the page knows of a post: its line, caller, number, kind, text and replies, and its values."""
    values, data = post.values, {"l": post.line, "c": post.caller, "n": post.number, "k": post.kind}
    data.update(x=post.text.strip(), r=replies)
    if post.kind == "add":
        data.update(id=values[2], s=values[3], m=values[4])
    elif post.kind == "move":
        data.update(id=values[2], to=values[3])
    elif post.kind == "remove":
        data.update(id=values[2])
    elif post.kind == "path":
        data.update({"cls": values[2], "from": values[3], "goal": [values[4][0], *values[4][1]]})
    else:
        data.update(cls=values[2], at=values[3])
    return data


def wrong_data(it):
    data = {"t": it.turn, "text": it.text}
    if it.post:
        data["l"] = it.post.line
    if it.cell:
        data["at"] = it.cell
    return data


def turn_data(turn, line, replies):
    places = {id(post): at for at, post in enumerate(turn.posts)}
    posts = [post_data(it, replies.get((it.caller, it.number), [])) for it in turn.posts]
    edits = [places[id(it)] for it in turn.in_order() if it.kind in mapscript.check.EDITS]
    return {"t": turn.number, "line": line, "posts": posts, "edits": edits, "wrong": []}


def page_data(match, title):
    """All that the page shows, with the contradictions at their turns."""
    map_ = match.script.map
    turns = [turn_data(*it) for it in match.turns()]
    rest = []
    for it in match.found:
        fits = 1 <= it.turn <= len(turns)
        (turns[it.turn - 1]["wrong"] if fits else rest).append(wrong_data(it))
    classes = [{"name": name, "clearance": raw} for name, raw in map_.classes.items()]
    data = {"title": title, "w": map_.w, "h": map_.h, "callers": map_.callers, "classes": classes}
    return {**data, "bad": match.script.bad, "early": match.ends_early(), "turns": turns, "wrong": rest}


def part(name):
    with open(os.path.join(FOLDER, name), encoding="utf-8") as file:
        return file.read().rstrip()


def page(match, title):
    data = json.dumps(page_data(match, title), separators=(",", ":")).encode()
    safe = title.replace("&", "&amp;").replace("<", "&lt;")
    code = "\n".join(part(it) for it in ("cells.js", "field.js", "page.js", "moves.js"))
    holes = {"@TITLE@": safe, "@STYLE@": part("page.css"), "@CODE@": code}
    holes.update({"@DATA@": packed(data), "@BASE@": packed(base_bits(match.script.map))})
    text = part("page.html")
    for hole, value in holes.items():
        text = text.replace(hole, value, 1)
    return text + "\n"


def panels(match, words, caller):
    """The panels that words such as `1:infantry,2` ask for, each as the turn went."""
    names = list(match.script.map.classes)
    wanted = [(it.partition(":")[0], it.partition(":")[2] or names[0]) for it in words.split(",")]
    for turn, name in wanted:
        if not turn.isdecimal() or name not in names:
            raise Unknown(f"no turn and class: {turn}:{name} (classes: {', '.join(names)})")
    found = {}
    for turn, _, replies in match.turns():
        for number, name in wanted:
            if int(number) == turn.number:
                found[number, name] = pictures.Panel(match, turn, replies, name, caller)
    missing = [it for it in wanted if it not in found]
    if missing:
        raise Unknown(f"there are no answers for turn {missing[0][0]}")
    return [found[it] for it in wanted]


def words():
    parser = commands.parser_of(__doc__)
    parser.add_argument("script", help="the script, as it was given to the program")
    parser.add_argument("answers", nargs="?", help="what the program wrote for it; --live takes none")
    kind = parser.add_mutually_exclusive_group()
    kind.add_argument("--svg", metavar="TURN[:CLASS],..", help="a picture of lines, of one turn or several beside each other; without :CLASS the first class")
    kind.add_argument("--png", metavar="TURN[:CLASS]", help="a picture of points, of one turn, for large maps")
    kind.add_argument("--check", action="store_true", help="only tell contradictions")
    kind.add_argument("--live", action="store_true", help="a page that finds paths at once")
    parser.add_argument("--package", help="the folder with pathserve.js and pathserve.wasm for --live (that of a release by itself)")
    parser.add_argument("--scale", type=int, help="points a navcell in a picture (as fits by itself)")
    parser.add_argument("--caller", type=int, help="only this caller's paths in a picture")
    parser.add_argument("--most", type=int, default=20, metavar="N", help="how many contradictions are told (20)")
    parser.add_argument("--title", help="the page's title (the script's name by itself)")
    said = parser.parse_args()
    if bool(said.live) == bool(said.answers):
        parser.error("--live takes no answers" if said.live else "the answers are missing")
    return said


def live(said):
    """The page without answers."""
    text = commands.bytes_of(said.script)
    script = mapscript.Script(text)
    if script.map is None:
        raise Unknown(f"{said.script} has no map line")
    return live_page.live(text, script, said.title or os.path.basename(said.script), said.package).encode()


class Progress:
    """Tells on standard error how many turns are done, every ten seconds."""

    def __init__(self, most):
        self.most, self.told = most, time.monotonic()

    def tell(self, turn):
        if time.monotonic() - self.told >= 10:
            self.told = time.monotonic()
            commands.say(f"{turn} of {self.most} turns looked at")


def made(said, match):
    """What the words ask for, as bytes."""
    if said.svg:
        return pictures.svg(panels(match, said.svg, said.caller), said.scale).encode()
    if said.png:
        if "," in said.png:
            raise Unknown(f"a picture of points has one turn, and not {said.png}")
        return pictures.png(panels(match, said.png, said.caller)[0], said.scale)
    if said.check:
        match.go_through()
        return b""
    return page(match, said.title or os.path.basename(said.script)).encode("utf-8", "replace")


def main():
    said = words()
    try:
        if said.live:
            sys.stdout.buffer.write(live(said))
            return 0
        script = mapscript.Script(commands.bytes_of(said.script))
        answers = contradictions.Answers(commands.bytes_of(said.answers))
        if script.map is None:
            raise Unknown(f"{said.script} has no map line")
        match = contradictions.Match(script, answers, Progress(len(script.turns)).tell)
        out = made(said, match)
    except (Unknown, live_page.Missing, commands.Unreadable) as it:
        commands.say(it)
        return 2
    sys.stdout.buffer.write(out)
    sys.stdout.flush()
    for it in match.found[:said.most]:
        print(f"contradiction: {it}", file=sys.stderr)
    if len(match.found) > said.most:
        print(f"and {len(match.found) - said.most} more (--most {len(match.found)} tells them all)", file=sys.stderr)
    early = match.ends_early()
    if early:
        print(early, file=sys.stderr)
    return 1 if match.found else 3 if early else 0


if __name__ == "__main__":
    commands.run(main)
