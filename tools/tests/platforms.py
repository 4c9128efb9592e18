"""The same scripts for each platform's library, and where two of them answer otherwise."""
import subprocess

import mapscript

REPORTS = len(mapscript.check.WORDS)


def scripts(count, seed=29):
    """Made scripts of all forms."""
    maker = mapscript.check.Maker(seed)
    return [maker.script() for _ in range(count)]


def answers(command, scripts, **how):
    """The status and the text of each script by each report, by a program as tools/tests/library/answers.c is."""
    given = b"".join(b"%d %d\n%s" % (report, len(it), it) for it in scripts for report in range(REPORTS))
    told = subprocess.run(command, input=given, capture_output=True, timeout=1800, check=True, **how).stdout
    found, at = [], 0
    while at < len(told):
        end = told.index(b"\n", at)
        status, length = map(int, told[at:end].split())
        found.append((status, told[end + 1 : end + 1 + length]))
        at = end + 1 + length
    return found


def differing(scripts, here, there):
    """The scripts and reports that two platforms answer otherwise."""
    if len(here) != len(there):
        return [f"{len(here)} and {len(there)} answers"]
    return [(scripts[n // REPORTS], n % REPORTS) for n, (one, other) in enumerate(zip(here, there)) if one != other]
