#!/usr/bin/env python3
"""Builds the tests of a crate as they are, with nothing proved, and runs them.

usage: ./try CRATE [TEST ..]    the tests of the crate, or those whose names have one of the words
       ./try --all [TEST ..]    the tests of all crates
       ./try --list             the crates that have tests, with their tests
       --jobs N                 builds and tests at a time (default: as many as there are processors)

The tests of the crate NAME are in tests/NAME. They are compiled with tests that stop the program where an index, a sum or a
value is wrong, and the build is kept in out/try until a source changes that it was made of. Each test runs in a process of
its own, and has 10 minutes of a processor; one that waits for a minute and cannot run is stopped too.

Each test is printed as it ends, with the seconds of a processor that it took, and then `N passed, M failed`. The status is 0
where all passed, 1 where one failed, and 2 where they could not be built or the question is wrong.
"""
import argparse
import concurrent.futures
import hashlib
import os
import re
import shutil
import signal
import subprocess
import sys
import tempfile
import threading
import time

import test_folders
import unproved_build
from test_folders import TOP, Unit

KEPT = f"{TOP}/out/try"
# Optimised so far that the long tests are quick, and not so far that clang takes longer than they do.
LEVEL = "-O1"
# How many builds the tests of all crates are, since each takes 10 seconds or more for the standard library alone.
PARTS = 4
# The most seconds of a processor that a test may take, and those that it may wait where nothing of it can run.
LIMIT, QUIET = 600, 60
PASSED = "test result: ok"


class Refused(Exception):
    """What was asked cannot be done, or the sources cannot be built."""


def say(text):
    print(text, file=sys.stderr, flush=True)


def words_of_sources(unit, rtlib):
    """The words that name the root of the unit's crate, the crates below it and the kit's libraries."""
    words, rows = ["--crate-name", "unproved_tests", "--test", "src/lib.rt"], test_folders.crate_rows()
    for name in unit.crates:
        uses = ",".join(dict.fromkeys(["core", "std", *rows[name]]))
        words += ["--lib", f"{name}:{uses}={TOP}/crates/{name}/src/lib.rt"]
    return words + rtlib.kit_sources(["std", *unit.of_kit])


def stamp_of(unit):
    """A sum of all that the unit's program is made of."""
    made = hashlib.sha256(f"{LEVEL}\n{os.path.realpath(unit.kit)}\n".encode())
    made.update(test_folders.read(f"{unit.kit}/KIT-ID").encode())
    rows = test_folders.crate_rows()
    for name in unit.crates:
        made.update(f"{name} {rows[name]}\n".encode())
    for path in [*unit.sources(), "tools/test_folders.py"]:
        text = test_folders.read(path).encode()
        made.update(f"{path} {len(text)}\n".encode() + text)
    return made.hexdigest()


def with_real_paths(text, unit):
    """What the compiler or a test says, with the paths of the files that it was made of."""
    for path, place in unit.files.items():
        text = re.sub(rf"(?<![\w/]){re.escape(place)}\b", path, text)
    return text.replace(f"{TOP}/", "")


def build(unit, rtlib, stamp, program):
    """Compiles and links the unit's tests as `program`."""
    with tempfile.TemporaryDirectory(prefix="pathserve-try-") as folder:
        texts = [*unit.made_files(), *((place, test_folders.read(path)) for path, place in unit.files.items())]
        for place, text in texts:
            os.makedirs(os.path.dirname(f"{folder}/{place}"), exist_ok=True)
            with open(f"{folder}/{place}", "w", encoding="utf-8") as it:
                it.write(text)
        options, said = unproved_build.keep_module(unit.kit, words_of_sources(unit, rtlib), folder, folder)
        if options is None:
            raise Refused(f"{with_real_paths(said, unit)}the tests of {' '.join(unit.names)} could not be compiled")
        unproved_build.compile_module(unit.kit, options, folder, LEVEL)
        unproved_build.link(unit.kit, folder)
        os.makedirs(KEPT, exist_ok=True)
        shutil.copy(f"{folder}/program", f"{program}.new")
    if os.path.exists(f"{program}.stamp"):
        os.remove(f"{program}.stamp")
    os.replace(f"{program}.new", program)
    # where a source has changed meanwhile, nobody knows what was built
    if stamp_of(unit) == stamp:
        with open(f"{program}.stamp", "w", encoding="utf-8") as it:
            it.write(stamp)


def is_kept(program, stamp):
    """Whether the program is there, and was made of what the stamp is of."""
    if not os.path.isfile(program) or not os.path.isfile(f"{program}.stamp"):
        return False
    return test_folders.read(f"{program}.stamp") == stamp


def built(unit, rtlib):
    """The program of the unit's tests, which is built where it is not kept."""
    first, last = unit.names[0], unit.names[-1]
    what, program = (first, f"{KEPT}/{first}") if first == last else (f"{first} to {last}", f"{KEPT}/{first}-to-{last}")
    stamp = stamp_of(unit)
    if not is_kept(program, stamp):
        say(f"building the tests of {what} ..")
        begun = time.monotonic()
        build(unit, rtlib, stamp, program)
        say(f"built the tests of {what} in {time.monotonic() - begun:.0f} s")
    return program


def tests_in(program):
    """The full names of the program's tests."""
    ran = subprocess.run([program, "--list"], stdout=subprocess.PIPE, text=True, check=True)
    return re.findall(r"^(\S+): test$", ran.stdout, re.M)


class Quiet:
    """Looks whether a process waits: no thread of it can run, and it takes no time of a processor."""

    def __init__(self, process):
        self.process, self.ticks, self.since = process, None, time.monotonic()

    def looks_dead(self):
        """Whether it has waited for too long."""
        ticks, waits = [], True
        try:
            for thread in os.listdir(f"/proc/{self.process}/task"):
                fields = test_folders.read(f"/proc/{self.process}/task/{thread}/stat").rpartition(")")[2].split()
                ticks.append((thread, fields[11], fields[12]))
                waits = waits and fields[0] == "S"
        except (OSError, IndexError):
            waits = False
        if not waits or ticks != self.ticks:
            self.ticks, self.since = ticks, time.monotonic()
        return time.monotonic() - self.since > QUIET


def run_test(program, name):
    """Whether the test passes, the seconds of a processor that it takes, and what it writes."""
    limited = ["sh", "-c", 'ulimit -c 0; ulimit -t "$0"; exec "$@"', str(LIMIT), program, name]
    with tempfile.TemporaryFile() as out:
        process = subprocess.Popen(limited, stdin=subprocess.DEVNULL, stdout=out, stderr=out, start_new_session=True)
        quiet, pause, why = Quiet(process.pid), 0.002, ""
        while not (ended := os.wait4(process.pid, os.WNOHANG))[0]:
            time.sleep(pause)
            pause = min(2 * pause, 0.5)
            if pause == 0.5 and not why and quiet.looks_dead():
                why = f"it waited for {QUIET} seconds and nothing of it could run\n"
                os.kill(process.pid, signal.SIGKILL)
        process.returncode = os.waitstatus_to_exitcode(ended[1])
        out.seek(0)
        said = out.read().decode(errors="replace")
    took = ended[2].ru_utime + ended[2].ru_stime
    if process.returncode in (-signal.SIGXCPU, -signal.SIGKILL) and not why:
        why = f"it was stopped after {took:.0f} seconds of a processor\n"
    passed = process.returncode == 0 and said.rstrip().endswith(PASSED)
    return passed, took, said + why


class Tally:
    """Prints the tests as they end, and counts them."""

    def __init__(self):
        self.passed = self.failed = 0
        self.lock = threading.Lock()

    def add(self, name, unit, passed, took, said):
        with self.lock:
            self.passed += passed
            self.failed += not passed
            print(f"{'ok' if passed else 'FAILED'} {name} {took:.2f} s")
            if not passed:
                lines = (it for it in with_real_paths(said, unit).splitlines() if it and not it.startswith(PASSED))
                print("".join(f"    {it}\n" for it in lines), end="")
            sys.stdout.flush()


def parts_of(names):
    """These folders in as many parts as all are built in, so that each has about as many lines of tests."""
    size = {it: sum(test_folders.read(path).count("\n") for path in test_folders.files_of(it)) for it in names}
    parts, done = [[] for _ in range(PARTS)], 0
    for name in names:
        parts[min(PARTS * done // max(sum(size.values()), 1), PARTS - 1)].append(name)
        done += size[name]
    return [it for it in parts if it]


def run_units(units, words, jobs, rtlib):
    """Builds the units and runs their tests, so many at a time. Returns the status."""
    tally, faults = Tally(), []
    with concurrent.futures.ThreadPoolExecutor(jobs) as pool:
        tests = []

        def run_one(program, unit, name):
            tally.add(name, unit, *run_test(program, name))

        builds = {pool.submit(built, unit, rtlib): unit for unit in units}
        try:
            for done in concurrent.futures.as_completed(builds):
                unit = builds[done]
                try:
                    program = done.result()
                except (Refused, SystemExit) as error:
                    faults.append(str(error))
                    continue
                wanted = [it for it in tests_in(program) if not words or any(word in it for word in words)]
                tests += [pool.submit(run_one, program, unit, it) for it in wanted]
            for it in tests:
                it.result()
        except BaseException:
            pool.shutdown(wait=False, cancel_futures=True)
            raise
    for it in faults:
        say(it)
    if words and not tests and not faults:
        raise Refused(f"no test has {' or '.join(words)} in its name")
    print(f"{tally.passed} passed, {tally.failed} failed")
    return 2 if faults else 1 if tally.failed else 0


def print_list():
    for folder in test_folders.folders():
        print(folder)
        for _, name, _ in test_folders.tests_of(folder):
            print(f"    {name.partition('::')[2]}")


def stop_on_unknown(crate, kit):
    """Says which tests there are of a crate that has none of its own."""
    known = test_folders.folders()
    if crate in known:
        return
    if crate not in test_folders.crate_rows():
        raise Refused(f"there is no crate {crate}: ./try --list names those that have tests")
    above = [it for it in known if crate in Unit([it], kit).crates]
    raise Refused(f"{crate} has no tests of its own. Those of these crates stand on it: {' '.join(above) or 'none'}")


def main(words):
    texts = __doc__.split("\n\n")
    said = argparse.ArgumentParser(prog="./try", add_help=False, allow_abbrev=False, usage=argparse.SUPPRESS)
    said.add_argument("--help", "-h", action="store_true")
    said.add_argument("--list", action="store_true")
    said.add_argument("--all", action="store_true")
    said.add_argument("--jobs", type=int, default=len(os.sched_getaffinity(0)))
    said.add_argument("words", nargs="*")
    said.error = lambda message: (_ for _ in ()).throw(Refused(f"{message}\n{texts[1]}"))
    asked = said.parse_args(words)
    if asked.help or not words:
        print(__doc__.strip())
        return 0
    if asked.list:
        print_list()
        return 0
    if not asked.all and not asked.words or asked.jobs < 1:
        raise Refused(texts[1])
    rt = shutil.which("rt")
    if not rt:
        raise Refused("the command rt is missing")
    kit, rtlib = unproved_build.kit_at(rt)
    if asked.all:
        units = [Unit(it, kit) for it in parts_of(test_folders.folders())]
        return run_units(units, asked.words, asked.jobs, rtlib)
    stop_on_unknown(asked.words[0], kit)
    return run_units([Unit(asked.words[:1], kit)], asked.words[1:], asked.jobs, rtlib)


def end(number, _):
    """Ends what this has started, and then this, so that folders are removed."""
    for thread in os.listdir("/proc/self/task"):
        for child in test_folders.read(f"/proc/self/task/{thread}/children").split():
            os.kill(int(child), signal.SIGTERM)
    sys.exit(128 + number)


if __name__ == "__main__":
    for number in (signal.SIGTERM, signal.SIGHUP):
        signal.signal(number, end)
    try:
        sys.exit(main(sys.argv[1:]))
    except (Refused, OSError, subprocess.SubprocessError) as error:
        say(f"try: {error}")
        sys.exit(2)
    except KeyboardInterrupt:
        sys.exit(130)
