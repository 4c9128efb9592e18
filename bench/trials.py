"""What the commands of this folder share: a client that predicts answers from docs/FORMAT.md, and runs of the program."""
import functools
import json
import os
import pathlib
import re
import signal
import subprocess
import sys
from unittest import mock

HOME = pathlib.Path(__file__).resolve().parent.parent
sys.dont_write_bytecode = True
sys.path[:0] = [str(HOME / "examples"), str(HOME / "tools")]
import check  # noqa: E402
import forms  # noqa: E402

SECONDS = 30  # a run that takes longer hangs
MOST_CELLS = 20_000  # of larger maps only the status and the bad line are predicted
CALLER = re.compile(rb'\{"caller":([0-9]+),')
UNREAD = b"the line must be one JSON value, "
BROKEN = (b"and ends inside a string", b"and ends inside an array or an object",
          b"with no words but true, false and null, and numbers as 0, -1.5 or 2e3")
MISTAKE = re.compile(rb"byte ([1-9][0-9]*): ([ -~]+)")
PASSED_OVER = (b"JSON has no NaN", b"a half of a surrogate pair")  # what Python's reader takes
ALL_CELLS = check.Cells


def base_scripts():
    files = sorted((HOME / "bench" / "scripts").glob("*.script")) + sorted((HOME / "examples").glob("*.script"))
    return {file.stem: file.read_bytes() for file in files}


def row_scripts():
    """The scripts that are small enough to be answered under all words by the client: those above, and bench/rows."""
    return base_scripts() | {file.stem: file.read_bytes() for file in sorted((HOME / "bench" / "rows").glob("*.script"))}


class Read(check.Service):
    """Reads turns, and answers none."""

    last = None

    def __init__(self, map_, word):
        super().__init__(map_, word)
        self.turns = []
        Read.last = self

    def answers(self):
        self.turns.append(self.posts)
        self.posts, self.turn = [], self.turn + 1
        return []

    def map_told(self):
        it = self.map
        return it.version, it.w, it.h, it.callers, list(it.classes.items()), it.base

    def posts_of_callers(self):
        return [[post for turn in self.turns for post in turn if post[0] == caller] for caller in range(self.map.callers)]


def read(script):
    """What is written of a script but for its answers, the status, and what was read of it."""
    Read.last = None
    with mock.patch.multiple(check, Service=Read, all_cells=lambda *_: []):
        text, status = check.predicted(script)
    return text, status, Read.last


@functools.lru_cache(maxsize=1)
def known_cells():
    return {}


def remembered(map_, standing, number, clearance):
    """The cells of a class, which are made once for the maps that are alike."""
    known = known_cells()
    key = map_.w, map_.h, str(map_.base), str(standing), number, clearance
    if len(known) > 5000:
        known.clear()
    if key not in known:
        known[key] = ALL_CELLS(map_, standing, number, clearance)
    return known[key]


def predicted(script, word="replay"):
    with mock.patch.multiple(check, Cells=remembered):
        return check.predicted(script, word)


def is_text(line):
    try:
        return bool(line.decode("utf-8"))
    except UnicodeDecodeError:
        return False


def stopped_at(line):
    """How many bytes of a line in UTF-8 Python's reader of JSON passes before it stops. None where it reads the line."""
    text = line.decode("utf-8")
    try:
        json.loads(text)
    except json.JSONDecodeError as why:
        return len(text[: why.pos].encode("utf-8"))
    except (ValueError, RecursionError):
        pass
    return None


def broken_is_right(line, said):
    """Whether this may be said of a line that is no JSON value, is not blank, has no byte order mark and is not too deep: no
    mistake is named before the place at which another reader stops, but for those that it passes over."""
    mistake = MISTAKE.fullmatch(said)
    try:
        line.decode("utf-8")
    except UnicodeDecodeError as why:
        return said == b"byte %d: the line must be in UTF-8" % (why.start + 1)
    if not mistake:
        return said.startswith(UNREAD) and said[len(UNREAD) :] in BROKEN
    place, stopped = int(mistake[1]), stopped_at(line)
    return place <= len(line) and (stopped is None or stopped < place or mistake[2].startswith(PASSED_OVER))


def cause_is_right(script, text, said):
    """Whether this is the one line that is said of a script whose text ends with a bad line."""
    number = int(text.split()[-1])
    found = re.fullmatch(rb"pathserve: line %d is bad: (the [ -~]+|an add [ -~]+|byte [ -~]+)\n" % number, said)
    if not found:
        return False
    lines = script.split(b"\n")
    if number > len(lines) or number == len(lines) and lines[-1] == b"":
        wanted = b"the script must not end inside a turn: its end line is missing"
        return found[1] == (wanted if number > 1 else b"the script must begin with a map line, and has no line")
    line = lines[number - 1]
    too_deep = b"the line must not have arrays and objects more than 8 deep"
    try:
        check.value_of(line)
    except check.BadLine:
        if not line.strip(b" \t\r"):
            return found[1] == UNREAD + b"and is blank"
        if line.startswith(b"\xef\xbb\xbf"):
            return found[1] == UNREAD + b"and begins with a byte order mark"
        if is_text(line) and check.is_deep(line):
            return found[1] == too_deep
        return broken_is_right(line, found[1])
    return not found[1].startswith((UNREAD, too_deep, b"byte "))


def served_wrong(read_script, out):
    """What is wrong with what was served of a whole script, if anything is."""
    lines = out.splitlines(keepends=True)
    journal = b"".join(line for line in lines if line.startswith(b"{"))
    if not out.startswith(journal):
        return "the journal does not come first"
    _, status, again = read(journal)
    if status or again.map_told() != read_script.map_told():
        return "the journal is no script of the map"
    if again.posts_of_callers() != read_script.posts_of_callers():
        return "the journal has other posts"
    if not all(again.turns):
        return "a turn of the journal has no posts"
    if any(json.dumps(json.loads(line), separators=(",", ":")).encode() + b"\n" != line for line in journal.splitlines(True)):
        return "the journal has white space"
    large = again.map.w * again.map.h * len(again.map.classes) > MOST_CELLS
    if not large and predicted(journal)[0] != out[len(journal) :]:
        return "the answers are not those of the journal"
    return None


def end_line(turn):
    return b'{"end":%d}\n' % turn


class Journal:
    """A script as it is served: its first lines, and the lines of each caller's posts, all of them canonical."""

    def __init__(self, script, callers):
        lines = script.splitlines(keepends=True)
        self.head = [line for line in lines if line.startswith((b'{"version"', b'{"base"'))]
        self.posts = [[] for _ in range(callers)]
        for line in lines:
            if caller := CALLER.match(line):
                self.posts[int(caller[1])].append(line)

    def lines_of(self, text):
        """How many bytes of a text are lines of a journal, each where it may stand, and which lines may come then."""
        at, turn, last = 0, 1, -1
        head, left = self.head[::-1], [mine[::-1] for mine in self.posts]
        for line in text.splitlines(keepends=True):
            caller = int(found[1]) if (found := CALLER.match(line)) else -1
            waiting = head or (left[caller] if max(last, 0) <= caller < len(left) else [])
            if waiting[-1:] == [line]:
                waiting.pop()
                last = max(last, caller)
            elif last >= 0 and line == end_line(turn):
                turn, last = turn + 1, -1
            else:
                break
            at += len(line)
        ends = [end_line(turn)] if last >= 0 else []
        return at, head[-1:] or [mine[-1] for mine in left[max(last, 0) :] if mine] + ends

    def is_begun_by(self, text, answers=lambda journal: predicted(journal)[0]):
        """Whether a text is a beginning of a journal with its answers, cut behind any of its bytes."""
        at, then = self.lines_of(text)
        return any(line.startswith(text[at:]) for line in then) if then else answers(text[:at]).startswith(text[at:])


# ---- running


def late(*_):
    raise TimeoutError


def run(program, words, script, env=None, seconds=SECONDS):
    """What the program writes to standard output and standard error, and its status, or none where it hangs."""
    files = [os.memfd_create(name) for name in ("in", "out", "err")]
    os.write(files[0], script)
    os.lseek(files[0], 0, os.SEEK_SET)
    actions = [(os.POSIX_SPAWN_DUP2, file, number) for number, file in enumerate(files)]
    child = os.posix_spawn(program, [program, *words], env or os.environ, file_actions=actions)
    signal.signal(signal.SIGALRM, late)
    signal.alarm(seconds)
    try:
        status = os.waitstatus_to_exitcode(os.waitpid(child, 0)[1])
    except TimeoutError:
        os.kill(child, signal.SIGKILL)
        os.waitpid(child, 0)
        status = None
    signal.alarm(0)
    out, said = (os.pread(file, os.fstat(file).st_size, 0) for file in files[1:])
    for file in files:
        os.close(file)
    return out, said, status


# ---- scripts with what is wanted of them


class Trial:
    """A script under a word, with the status and the text that are wanted: those that stand beside it or are predicted.

    Of a whole script that is served, what was read of it is kept in place of the text."""

    def __init__(self, name, script, word, stored=None):
        self.name, self.script, self.word = f"{name} {word}", script, word
        if word == "serve":
            text, self.status, known = read(script)
            self.wanted = text if self.status else known
        else:
            text, self.status = predicted(script, word)
            self.wanted = stored or text

    def is_passed(self, program, seconds=SECONDS):
        out, _, status = run(program, [self.word], self.script, seconds=seconds)
        if status != self.status:
            return False
        if self.word == "serve" and status == 0:
            return not served_wrong(self.wanted, out)
        return out == self.wanted


def row_trials():
    """The small scripts under all words, against the answers that stand beside them or are predicted."""
    trials = []
    for name, script in row_scripts().items():
        answers = HOME / "examples" / f"{name}.answers"
        stored = answers.read_bytes() if answers.exists() else None
        trials += [Trial(name, script, word, stored if word == "replay" else None) for word in (*check.WORDS, "serve")]
    return trials


class FaultTrial:
    """A word whose input can't be read, or whose output takes nothing, with the status that is wanted."""

    def __init__(self, word, status):
        self.word, self.status = word, status
        self.name = f"{word} with a {'read' if status == 4 else 'write'} that fails"

    def is_passed(self, program, seconds=SECONDS):
        script = base_scripts()["version-1"]
        with open("/dev/full", "wb") as full:
            how = {"input": script, "stdout": full} if self.status == 5 else {"stdin": os.open("/", os.O_RDONLY), "stdout": subprocess.DEVNULL}
            try:
                ran = subprocess.run([program, self.word], stderr=subprocess.DEVNULL, timeout=seconds, **how)
            except subprocess.TimeoutExpired:
                return False
            finally:
                if "stdin" in how:
                    os.close(how["stdin"])
        return ran.returncode == self.status


def fault_trials():
    return [FaultTrial(word, status) for word in (*check.WORDS, "serve") for status in (4, 5)]


def made_trials(count, seed=1):
    """Scripts that the client makes, under all words but `serve`."""
    maker = check.Maker(seed)
    scripts = [maker.script() for _ in range(count)]
    return [Trial(f"made {at}", script, word) for at, script in enumerate(scripts) for word in check.WORDS]
