#!/usr/bin/env python3
"""Checks that a program still gives the answers that are kept of matches, many beside each other.

    replays.py out/pathserve replays/                       every NAME.script below the folder
    replays.py --store answers out/pathserve replays/       keeps answers where none are kept
    replays.py --json out/pathserve --list matches.txt      the scripts of a list, the report for machines
    replays.py --part 3/100 out/pathserve replays/          a hundredth of them, for a job on another machine
    replays.py --sum reports/*                              the report of all parts

Beside NAME.script stand its answers, NAME.answers, or the digests of its turns, NAME.digests, or both (docs/REPLAYS.md).
PROGRAM is the built file: out/pathserve, which `./pathserve prove` makes, or out/pathserve-unproved, which any other use of
./pathserve does before. The script itself would look at all sources for each match.

Of each match that differs the first turn is told, and where the answers are kept the post and both lines. A match is cut
short where its script or its kept answers end before the other, `failed` where the program was stopped (out of memory, a
signal; it then has a second try), and `not compared` where no answers are kept beside it, or those of another word or of
another number of answers.

The status is 0 where all matches agree, 1 where some differ, and 2 where none does and some could not be checked to their
end, or there are none, or the words are wrong. That of a part is 0 where its report was written.
"""
import collections
import hashlib
import json
import multiprocessing
import multiprocessing.connection
import os
import re
import signal
import subprocess
import sys
import time

import commands
import kept
from kept import AGREES, CUT, DIFFERS, FAILED, OTHER, STORED, THERE, WORDS

KINDS = {False: (AGREES, DIFFERS, FAILED, CUT, OTHER), True: (STORED, THERE, FAILED)}  # by whether answers are stored
FORK = multiprocessing.get_context("fork") if "fork" in multiprocessing.get_all_start_methods() else None  # as on Windows
BATCH = 40  # the most matches that a process has at a time
MOST = 100  # findings that a report for readers lists
SHOWN = 160  # letters of a line there
HEADER = os.path.join(os.path.dirname(os.path.abspath(__file__)), "..", "include", "pathserve.h")


def scripts_of(places, lists):
    """The scripts of files, folders and lists, each once and in their order."""
    found = []
    for place in places:
        if os.path.isdir(place):
            below = [os.path.join(folder, it) for folder, _, names in os.walk(place) for it in names if it.endswith(".script")]
            found += sorted(below)
        else:
            found.append(place)
    for name in lists:
        text = sys.stdin.buffer.read() if name == "-" else commands.bytes_of(name)
        found += os.fsdecode(text).splitlines()
    return list(dict.fromkeys(found))


def number_of_answers(program):
    """The number of a program's answers, where it tells it, or else that of the header beside this tool, or None.

    The built file tells it with its usage, on standard error, since `--version` is no word of it.
    """
    words = [program, "--version"]
    try:
        said = subprocess.run(words, stdin=subprocess.DEVNULL, stdout=subprocess.PIPE, stderr=subprocess.STDOUT, text=True, errors="replace").stdout
    except OSError as it:
        raise commands.Unreadable(f"{program}: {it.strerror}") from None
    found = re.search(r"\banswers (\d+)", said)
    if not found and os.path.isfile(HEADER):
        found = re.search(r"#define PATHSERVE_ANSWERS (\d+)", commands.bytes_of(HEADER).decode())
    return int(found[1]) if found else None


# ---- many at once


def side_by_side(work, items, jobs):
    """The items with what `work` gives for each, as they come, by so many processes. One that is ended loses no item."""
    if jobs == 1 or not FORK:
        yield from ((it, work(it)) for it in items)
        return
    size = max(1, min(BATCH, len(items) // (4 * jobs)))
    waiting, busy = [items[at:at + size] for at in range(0, len(items), size)][::-1], {}
    tries = collections.Counter()
    while waiting or busy:
        while waiting and len(busy) < jobs:
            near, far = FORK.Pipe(duplex=False)
            batch = waiting.pop()
            worker = FORK.Process(target=served, args=(work, batch, far), daemon=True)
            worker.start()
            far.close()
            busy[near] = worker, batch
        for near in multiprocessing.connection.wait(list(busy)):
            worker, batch = busy.pop(near)
            try:
                yield from zip(batch, near.recv())
            except (EOFError, OSError):  # each of its matches has a process of its own next, and again
                tries.update(batch)
                waiting += [[it] for it in batch if tries[it] < 3]
                yield from ((it, kept.Finding(FAILED, "what plays it was ended three times")) for it in batch if tries[it] == 3)
            worker.join()
            near.close()


def served(work, batch, far):
    signal.signal(signal.SIGINT, signal.SIG_DFL)
    far.send([work(it) for it in batch])


class Progress:
    """Tells how far it is on standard error: on a terminal in one line, and else every ten seconds."""

    def __init__(self, most):
        self.most, self.begun, self.is_terminal = most, time.monotonic(), sys.stderr.isatty()
        self.told = self.begun

    def tell(self, counts, is_last=False):
        now = time.monotonic()
        if not is_last and now - self.told < (0.2 if self.is_terminal else 10):
            return
        self.told, taken = now, now - self.begun
        rest = "".join(f", {count} {kind}" for kind, count in counts.items() if kind not in (AGREES, STORED))
        text = f"{sum(counts.values())} of {self.most} matches in {taken:.1f} s{rest}"
        end = "\n" if is_last or not self.is_terminal else ""
        print(f"\r{text}\033[K" if self.is_terminal else text, end=end, file=sys.stderr, flush=True)


def with_second_try(work, item):
    """Does it once more where the program was stopped: what stopped it may be gone."""
    found = work(item, False)
    return work(item, True) if found.kind == FAILED else found


def report_of(scripts, part, work, jobs, is_storing):
    """What became of a part of these scripts, with the findings in their order."""
    first, parts = part
    mine = [(place, it) for place, it in enumerate(scripts) if place % parts == first - 1]
    counts, found, progress = collections.Counter(), [], Progress(len(mine))
    for (place, script), its in side_by_side(lambda it: with_second_try(work, it[1]), mine, jobs):
        counts[its.kind] += 1
        if its.kind not in (AGREES, STORED, THERE):
            found.append({"place": place, "script": script, **its.values()})
        progress.tell(counts)
    progress.tell(counts, is_last=True)
    names = hashlib.sha256("\n".join(scripts).encode("utf-8", "surrogateescape")).hexdigest()
    totals = {kind: counts[kind] for kind in KINDS[is_storing]}
    return {"list": names, "part": part, "matches": len(mine), **totals, "found": sorted(found, key=lambda it: it["place"])}


# ---- reports


def around(kept_line, line):
    """Two lines, cut about the letter in which they differ first."""
    at = len(os.path.commonprefix([kept_line, line]))
    start = max(0, at - SHOWN // 2)

    def shown(it):
        return ("..." if start else "") + it[start:start + SHOWN] + ("..." if len(it) > start + SHOWN else "")
    return shown(kept_line), shown(line)


def told(report):
    """A report for readers, as lines."""
    for it in report["found"][:MOST]:
        place = f", turn {it['turn']}" if "turn" in it else ""
        place += f", post {it['post']}" if "post" in it else ""
        yield f"{it['kind']}: {it['script']}{place}" + (f": {it['why']}" if "why" in it else "")
        if "kept" in it:
            was, now = around(it["kept"], it["answered"])
            yield f"    kept      {was}"
            yield f"    answered  {now}"
    if len(report["found"]) > MOST:
        yield f"and {len(report['found']) - MOST} more"
    if report.get("missing"):
        yield "missing: part " + ", ".join(map(str, report["missing"]))
    yield f"{report['matches']} matches: " + ", ".join(f"{count} {kind}" for kind, count in counts_of(report).items())


def counts_of(report):
    return {kind: count for kind, count in report.items() if any(kind in kinds for kinds in KINDS.values())}


def status_of(report):
    if report.get(DIFFERS):
        return 1
    whole = sum(report.get(kind, 0) for kind in (AGREES, STORED, THERE))
    return 2 if report.get("missing") or whole != report["matches"] or not whole else 0


def summed(texts):
    """The report of all parts, of which those that are missing are named. A part may be told twice."""
    parts = {}
    for line in (line for text in texts for line in text.splitlines()):
        try:
            it = json.loads(line)
            parts[it["part"][0]] = it
        except (ValueError, KeyError, TypeError):
            continue  # what a part that was ended has left
    if not parts:
        raise commands.Unreadable("there is no report of a part")
    if len({(it["list"], it["part"][1]) for it in parts.values()}) > 1:
        raise commands.Unreadable("the reports are of other lists of matches, or of other numbers of parts")
    some = next(iter(parts.values()))
    count = some["part"][1]
    counts = collections.Counter()
    for it in parts.values():
        counts.update({"matches": it["matches"], **counts_of(it)})
    total = {"list": some["list"], "part": [1, 1], "matches": counts["matches"], **{kind: counts[kind] for kind in counts_of(some)}}
    found = sorted((at for it in parts.values() for at in it["found"]), key=lambda at: at["place"])
    missing = [it for it in range(1, count + 1) if it not in parts]
    return {**total, "found": found, **({"missing": missing} if missing else {})}


# ---- the command


def part_of(text):
    found = re.fullmatch(r"([1-9]\d*)/([1-9]\d*)", text)
    if not found or int(found[1]) > int(found[2]):
        raise ValueError
    return [int(it) for it in found.groups()]


def positive(text):
    if int(text) < 1:
        raise ValueError
    return int(text)


def words():
    parser = commands.parser_of(__doc__)
    parser.add_argument("program", nargs="?", help="the built program, as out/pathserve")
    parser.add_argument("places", nargs="*", metavar="SCRIPT|FOLDER", help="scripts, or folders with scripts in them")
    parser.add_argument("--list", action="append", default=[], metavar="FILE", help="a file with a script's name a line; - for standard input")
    parser.add_argument("--jobs", type=positive, metavar="N", help="so many matches at once (as many as there are processors)")
    parser.add_argument("--word", choices=WORDS, default="replay", help="the word for answers that are kept without digests, or that are stored (replay)")
    parser.add_argument("--answers", type=positive, metavar="N", help="the number of the program's answers, where it is not told by --version")
    parser.add_argument("--store", choices=("answers", "digests"), help="keep answers with their digests, or digests alone, where there are none yet")
    parser.add_argument("--anew", action="store_true", help="with --store, also where there are some")
    parser.add_argument("--json", action="store_true", help="the report as one line of JSON")
    parser.add_argument("--part", type=part_of, metavar="K/N", help="only each N-th match from the K-th on; the report is JSON")
    parser.add_argument("--sum", nargs="+", metavar="REPORT", help="add reports of parts up; - for standard input")
    said = parser.parse_args()
    if not said.sum and not (said.program and (said.places or said.list)):
        parser.error("give a program, and scripts, folders or a list")
    return said


def not_there(program):
    """Why a program cannot be run, and which to name."""
    if os.access(f"{program}-unproved", os.X_OK):
        return f"{program} is not built, which `./pathserve prove` does; {program}-unproved is: name that one, or prove first"
    return f"{program} is no program: `./pathserve prove` makes out/pathserve, and any other use of ./pathserve out/pathserve-unproved"


def made(said):
    """The report that the words ask for."""
    if said.sum:
        return summed(sys.stdin.read() if it == "-" else commands.bytes_of(it).decode("utf-8", "replace") for it in said.sum)
    if not os.access(said.program, os.X_OK) or os.path.isdir(said.program):
        raise commands.Unreadable(not_there(said.program))
    program = os.path.abspath(said.program)
    folder = os.path.dirname(os.path.realpath(program))
    if os.path.isfile(os.path.join(folder, "crates.txt")):
        raise commands.Unreadable(f"{said.program} looks at all sources for each match: name the file that it built, {folder}/out/pathserve or pathserve-unproved there")
    number = said.answers or number_of_answers(program)
    if said.store and number is None:
        raise commands.Unreadable("the program does not tell the number of its answers: give it by --answers")

    def work(script, is_last):
        how = kept.How(program, number, said.word, tells_why=is_last)
        if said.store:
            return kept.stored(how, script, said.store == "answers", said.anew)
        return kept.checked(how, script)

    jobs = said.jobs or len(os.sched_getaffinity(0))
    return report_of(scripts_of(said.places, said.list), said.part or [1, 1], work, jobs, bool(said.store))


def main():
    said = words()
    try:
        report = made(said)
    except commands.Unreadable as it:
        commands.say(it)
        return 2
    if said.json or said.part:
        print(json.dumps(report))
    else:
        print(*told(report), sep="\n")
    return 0 if said.part else status_of(report)


if __name__ == "__main__":
    commands.run(main)
