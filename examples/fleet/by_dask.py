#!/usr/bin/env python3
"""Checks kept matches on many machines, by Dask: by_dask.py SCHEDULER PROGRAM LIST PARTS.

SCHEDULER is the address of a Dask scheduler with workers. PROGRAM is the built pathserve, and LIST has the name of a script
a line; both, this folder's repository and the scripts lie at the same places on each machine. A part whose worker is lost
is begun again on another. The report and the status are those of tools/replays.py on one machine.
"""
import os
import subprocess
import sys

TOOLS = os.path.join(os.path.dirname(os.path.abspath(__file__)), "..", "..", "tools")
sys.path.insert(0, TOOLS)
import commands  # noqa: E402
import replays  # noqa: E402


def part(words):
    """The report of a part, on a worker; where the part is ended, Dask begins it again."""
    return subprocess.run(words, stdout=subprocess.PIPE, text=True, check=True).stdout


def main():
    parser = commands.parser_of(__doc__)
    for it in ("scheduler", "program", "list", "parts"):
        parser.add_argument(it)
    said = parser.parse_args()
    try:
        from distributed import Client, as_completed
    except ImportError:
        commands.say("Dask is missing (Debian's package python3-distributed)")
        return 2
    tool = ["python3", os.path.join(os.path.abspath(TOOLS), "replays.py"), "--jobs", "1"]
    program, names = os.path.abspath(said.program), os.path.abspath(said.list)
    jobs = [[*tool, "--part", f"{k}/{said.parts}", program, "--list", names] for k in range(1, int(said.parts) + 1)]
    with Client(said.scheduler) as client:
        ended = as_completed(client.map(part, jobs, retries=3, pure=False))
        report = replays.summed([it.result() for it in ended if it.status == "finished"])
    print(*replays.told(report), sep="\n")
    return replays.status_of(report)


if __name__ == "__main__":
    commands.run(main)
