#!/usr/bin/env python3
"""What the gate costs, crate by crate: its log says nothing of time, so its processes are looked at while it runs.

usage: gate_minutes.py --run FILE [COMMAND ..]   runs a command (`rt ci`), and writes what its processes cost to FILE
       gate_minutes.py FILE ..                   prints a table of what such runs cost, dearest crates first
       gate_minutes.py --page FILE LOG COMMIT    writes docs/GATE.md: what a run over a commit said, and its table

A run ends with the status of its command, whose output is left as it is. Each second the prover's processes below it are
looked at; of one that ends in between less than a second is lost, and clang's are not counted. Minutes are those of a
processor; memory is the most that one process held. A file has one line a process: its crate, what it did (`check`,
`library` or `wrong bodies`; a library is proved too, for the crates above it), seconds and MB. What the gate has kept it
does not prove again, so measure `rt ci --anew`, with nothing beside it: other programs make the same work take longer.
"""
import ctypes
import os
import re
import subprocess
import sys
import threading

import commands
import test_folders
from test_folders import TOP

TICK = os.sysconf("SC_CLK_TCK")
# prctl's number by which what loses its parent becomes a child of this process, and not of the first one
SUBREAPER = 36
KINDS = ("check", "library", "wrong bodies")
PAGE_HEAD = """# The last gate

What the last whole gate said, from nothing, and what each crate cost it, for an auditor and for whoever wants it cheaper. Minutes are those of a processor; memory is the most that one process held; a library is proved too, for the crates above it. `tools/gate_minutes.py` measures and writes this page.
"""


def text_of(path):
    with open(path, encoding="utf-8", errors="replace") as it:
        return it.read()


def processes():
    """Each process by its number: its parent's, the clock of its start, its seconds and what it was started as."""
    found = {}
    for number in filter(str.isdigit, os.listdir("/proc")):
        try:
            fields = text_of(f"/proc/{number}/stat").rpartition(")")[2].split()
            words = text_of(f"/proc/{number}/cmdline").split("\0")
        except OSError:
            continue
        seconds = (int(fields[11]) + int(fields[12])) / TICK
        found[int(number)] = int(fields[1]), fields[19], seconds, words
    return found


def what_it_does(number, words):
    """What a process does for a crate, and how much memory it has held. None where it works for none, or has ended."""
    if "--crate-name" not in words[:-1] or not any(os.path.basename(it) == "rattle" for it in words[:2]):
        return None
    try:
        place = os.readlink(f"/proc/{number}/cwd")
        held = [it.split()[1] for it in text_of(f"/proc/{number}/status").splitlines() if it.startswith("VmHWM")]
    except OSError:
        return None
    kind = "wrong bodies" if "/rt-edit" in place else "check" if "check" in words[:3] else "library"
    return words[words.index("--crate-name") + 1], kind, int(held[0]) // 1024 if held else 0


class Sampler:
    """What the processes below this one have cost so far."""

    def __init__(self):
        self.seen, self.ended = {}, threading.Event()

    def look(self):
        found = processes()
        below = {os.getpid()}
        # parents mostly have lower numbers; a second round takes what has not
        for number in [*sorted(found)] * 2:
            if found[number][0] in below:
                below.add(number)
        for number in below & found.keys():
            _, start, seconds, words = found[number]
            told = what_it_does(number, words)
            if told:
                self.seen[number, start] = *told[:2], seconds, told[2]

    def run(self):
        while not self.ended.wait(1):
            self.look()


def run(file, command):
    """Runs a command and writes what its processes cost. Returns its status."""
    ctypes.CDLL(None).prctl(SUBREAPER, 1, 0, 0, 0)
    sampler = Sampler()
    watch = threading.Thread(target=sampler.run, daemon=True)
    watch.start()
    try:
        return subprocess.run(command).returncode
    finally:
        sampler.ended.set()
        watch.join()
        with open(file, "w", encoding="utf-8") as it:
            for crate, kind, seconds, held in sampler.seen.values():
                it.write(f"{crate}\t{kind}\t{seconds:.2f}\t{held}\n")


def lines_of(crate, folder, suffix):
    """How many lines the files of a folder of a crate have."""
    count = 0
    for place, _, files in os.walk(f"{TOP}/crates/{crate}/{folder}"):
        count += sum(test_folders.read(f"{place}/{it}").count("\n") for it in files if it.endswith(suffix))
    return count


def table(files):
    """The table of what runs cost."""
    cost, held = {}, {}
    for file in files:
        for line in text_of(file).splitlines():
            crate, kind, seconds, most = line.split("\t")
            of_crate = cost.setdefault(crate, {})
            of_crate[kind] = of_crate.get(kind, 0) + float(seconds) / 60
            held[crate] = max(held.get(crate, 0), int(most))
    yield "| crate | lines of source | specs | proof | minutes | check | library | wrong bodies | GB |"
    yield "|---|---|---|---|---|---|---|---|---|"
    for crate, of_crate in sorted(cost.items(), key=lambda it: -sum(it[1].values())):
        sizes = [lines_of(crate, *it) for it in (("src", ".rt"), ("specs", ".antt"), ("proofs", ".antt"))]
        minutes = [sum(of_crate.values()), *(of_crate.get(it, 0) for it in KINDS)]
        cells = [f"`{crate}`", *map(str, sizes), *(f"{it:.1f}" for it in minutes), f"{held[crate] / 1024:.1f}"]
        yield f"| {' | '.join(cells)} |"
    sums = [sum(it.get(kind, 0) for it in cost.values()) for kind in KINDS]
    yield f"| all | | | | {' | '.join(f'{it:.1f}' for it in [sum(sums), *sums])} | {max(held.values(), default=0) / 1024:.1f} |"


def page(file, log, commit):
    """The page of a run: what it said at its end, what it proved and refused, and its table."""
    lines = text_of(log).splitlines()
    counts = [it for it in lines if re.fullmatch(r"\d+ passed, \d+ failed", it)]
    if not counts:
        raise ValueError(f"{log} has no last line of a gate")
    proved = sum(bool(re.fullmatch(r"rt: \w+ proved", it)) for it in lines)
    refused = sum(": refused, as it must be" in it for it in lines)
    kit = subprocess.run(["rt", "version"], capture_output=True, text=True).stdout.strip()
    said = f"`rt ci` over commit {commit} with the kit `{kit}`: **{counts[-1]}** ({proved} crates proved, {refused} wrong bodies refused)."
    return "\n".join([PAGE_HEAD, said, "", *table([file]), ""])


def main(words):
    if words[:1] == ["--run"] and len(words) > 1:
        return run(words[1], words[2:] or ["rt", "ci"])
    if words[:1] == ["--page"] and len(words) == 4:
        made = page(*words[1:])
        with open(os.path.join(TOP, "docs", "GATE.md"), "w", encoding="utf-8") as it:
            it.write(made)
        return 0
    if not words or words[0].startswith("-"):
        return commands.usage(__doc__.strip(), words)
    try:
        rows = [*table(words)]
    except ValueError as error:
        commands.say(error)
        return 2
    print(*rows, sep="\n")
    return 0


if __name__ == "__main__":
    commands.run(lambda: main(sys.argv[1:]))
