"""Kept matches beside a program, and the digests of turns."""
import json
import os
import shutil
import subprocess
import tempfile
import unittest
import unittest.mock

from places import PROGRAM, TOP, needs_program, read, tool
from pretender import Pretender, write
import mapscript
import replays
import turns

check = mapscript.check
def skirmish():
    return read("examples/skirmish.script"), read("examples/skirmish.answers")


class Replays(Pretender):
    def run_it(self, *words):
        """The lines of the report, the status, and standard error."""
        out, status, told = tool("tools/replays.py", *words)
        return out.decode().replace(self.kept + "/", "").splitlines(), status, told

    def over(self, *words):
        return self.run_it(*words, self.program, self.kept)

    def test_those_that_agree(self):
        maker = check.Maker(5)
        for n in range(8):
            script = maker.script()
            answers, status = check.predicted(script)
            self.match(f"{n}", script, answers, status=status)
        for jobs in ("1", "5"):
            lines, status, told = self.over("--jobs", jobs)
            self.assertEqual((lines, status), (["8 matches: 8 agree, 0 differ, 0 failed, 0 cut short, 0 not compared"], 0))
            self.assertIn("8 of 8 matches in ", told)

    def test_the_first_difference_is_told(self):
        script, answers = skirmish()
        self.match("a", script, answers, answers.replace(b"0 1 refused unknown-id", b"0 1 removed 2"))
        self.match("b", script + b" \n", answers, answers.replace(b"turn 2 regions 2", b"turn 2 regions 3"))
        lines, status, _ = self.over()
        self.assertEqual(status, 1)
        self.assertEqual(lines, [
            "differ: a.script, turn 2, post 0 1", "    kept      0 1 refused unknown-id", "    answered  0 1 removed 2",
            "differ: b.script, turn 2", f"    kept      {answers.splitlines()[5].decode()}",
            f"    answered  {answers.splitlines()[5].decode().replace('turn 2 regions 2', 'turn 2 regions 3')}",
            "2 matches: 0 agree, 2 differ, 0 failed, 0 cut short, 0 not compared",
        ])
        report = json.loads(self.over("--json")[0][0])
        self.assertEqual([(os.path.basename(it["script"]), it["turn"], it.get("post")) for it in report["found"]], [("a.script", 2, "0 1"), ("b.script", 2, None)])

    def test_what_was_cut(self):
        script, answers = skirmish()
        first_turn, first_answers = b"".join(script.splitlines(True)[:7]), b"".join(answers.splitlines(True)[:5])
        self.match("answers", script, first_answers, answers)
        self.match("answers-within", script + b" \n", answers[:-20], answers)
        self.match("script", first_turn, answers, first_answers)
        self.match("script-within", first_turn + b'{"caller":0,"remove":1}\n', answers, first_answers + b"bad line 9\n", status=3)
        lines, status, _ = self.over()
        self.assertEqual((lines[:-1], status), ([
            "cut short: answers-within.script, turn 2: the kept answers end within turn 2", "cut short: answers.script, turn 2: the kept answers end after turn 1",
            "cut short: script-within.script, turn 2: the script ends within turn 2", "cut short: script.script, turn 2: the script ends after turn 1, and its kept answers go on",
        ], 2))
        # a bad line elsewhere is no cut
        self.match("script-within", first_turn + b'{"caller":0}\n', answers, first_answers + b"bad line 8\n", status=3)
        self.assertEqual(self.over()[1], 1)

    def test_answers_of_another_word_or_number(self):
        script, answers = skirmish()
        smooth, _ = check.predicted(script, "smooth")
        self.match("word", script, smooth, answers)
        write(f"{self.kept}/number.script", script)
        write(f"{self.kept}/number.digests", b"answers 6 word replay status 0 turns 0\n")
        write(f"{self.kept}/odd.script", script)
        write(f"{self.kept}/odd.digests", b"answers 7 word replay status 0 turns 2\nturn 1 00\n")
        write(f"{self.kept}/none.script", script)
        # a path is the last reply of these: what stands behind it is missing on one side
        path = script + b'{"caller":1,"path":"siege","from":["1.5","1.5"],"goal":{"point":["1.5","2.5"]}}\n{"end":3}\n'
        told, more = (check.predicted(path, it)[0] for it in ("replay", "smooth"))
        self.match("word-1", path, more, told)
        self.match("word-2", path + b" ", told, more)
        self.match("word-3", script + b" ", b"{\"version\":3}\n" + answers, answers)
        for n, head in enumerate(("answers 7 word replay status 0 turns", "answers 7 word make status 0 turns 0", "", "turn 1 00")):
            write(f"{self.kept}/head-{n}.script", script)
            write(f"{self.kept}/head-{n}.digests", f"{head}\n".encode())
        lines, status, _ = self.over()
        heads = [f"not compared: head-{n}.script: head-{n}.digests does not begin as digests do" for n in range(4)]
        self.assertEqual((lines, status), ([
            *heads, "not compared: none.script: no answers are kept beside it", "not compared: number.script: it is kept with answers 6, and the program gives answers 7",
            "not compared: odd.script: odd.digests has not the 2 turns that it tells of", "not compared: word-1.script: it is kept under smooth, and was run under replay",
            "not compared: word-2.script: it is kept under replay, and was run under replay", "not compared: word-3.script: it is kept under serve, and was run under replay",
            "not compared: word.script: it is kept under smooth, and was run under replay", "11 matches: 0 agree, 0 differ, 0 failed, 0 cut short, 11 not compared",
        ], 2))

    def test_a_program_that_is_stopped_has_a_second_try(self):
        script, answers = skirmish()
        self.match("once", script, answers, once="kill -9 $$")
        self.assertEqual(self.over()[1], 0)
        self.assertTrue(any(it.endswith(".done") for it in os.listdir(self.told)))
        self.match("memory", script + b" \n", answers, answers[:50], status=6)
        lines, status, _ = self.over()
        self.assertEqual((lines[0], status), ("failed: memory.script: the program ended with status 6", 2))

    def test_a_process_that_is_ended_loses_no_match(self):
        script, answers = skirmish()
        for n in range(20):
            self.match(f"{n}", script + b" \n" * n, answers, once="kill -9 $PPID" if n in (4, 11) else None)
        self.assertEqual(self.over("--jobs", "3")[:2], (["20 matches: 20 agree, 0 differ, 0 failed, 0 cut short, 0 not compared"], 0))
        self.assertEqual(sum(it.endswith(".done") for it in os.listdir(self.told)), 2)
        # one that ends its process each time is told
        self.match("20", script + b"\n\n", answers, once='mv "$name.done" "$name.once"; kill -9 $PPID')
        lines, status, _ = self.over("--jobs", "3")
        self.assertEqual((lines, status), (["failed: 20.script: what plays it was ended three times", "21 matches: 20 agree, 0 differ, 1 failed, 0 cut short, 0 not compared"], 2))

    def test_what_is_stored_agrees(self):
        script, answers = skirmish()
        for store in ("digests", "answers"):
            self.match("a", script, said=answers)
            self.match("b", script + b"7\n", said=answers + b"bad line 11\n", status=3)
            stored = "2 matches: {} stored, {} there already, 0 failed".format
            self.assertEqual(self.over("--store", store)[:2], ([stored(2, 0)], 0))
            self.assertEqual(self.over("--store", store)[:2], ([stored(0, 2)], 0))
            self.assertEqual(self.over("--store", store, "--anew")[:2], ([stored(2, 0)], 0))
            self.assertEqual(self.over()[1], 0)
            wanted = {"a.script", "a.digests", "b.script", "b.digests"} | ({"a.answers", "b.answers"} if store == "answers" else set())
            self.assertEqual(set(os.listdir(self.kept)), wanted)
            self.match("a", script, said=answers.replace(b"0 0 moved 1", b"0 0 moved 2"))
            lines, status, _ = self.over()
            self.assertEqual((lines[0], status), ("differ: a.script, turn 2" + (", post 0 0" if store == "answers" else ""), 1))

    def test_digests_of_what_was_cut(self):
        script, answers = skirmish()
        self.match("a", script, said=answers)
        self.over("--store", "digests")
        first_answers = b"".join(answers.splitlines(True)[:5])
        cases = [
            (script[:-1], first_answers, 0, "cut short: a.script, turn 2: the script ends after turn 1, and its kept answers go on"),
            (script + b" ", answers + b"turn 3 regions 2 edges 0 areas 2 relabelled 0\n", 0, "cut short: a.script, turn 3: the kept answers end after turn 2"),
            (script[:-3], answers[:10], 6, "failed: a.script: the program ended with status 6"),
            (script[:-4], answers, 3, "differ: a.script: the text is the same, and the status is 3 and was 0"),
        ]
        for other, said, status, wanted in cases:
            self.match("a", other, said=said, status=status)
            self.assertEqual(self.over()[0][0], wanted)

    def test_parts_add_up_to_the_whole(self):
        script, answers = skirmish()
        for n in range(10):
            self.match(f"{n}", script + b" \n" * n, answers, answers.replace(b"moved 1", b"moved 3") if n in (3, 7) else answers)
        whole = self.over()
        self.assertEqual(whole[1], 1)
        names = "".join(f"{self.kept}/{n}.script\n" for n in range(10))
        write(f"{self.kept}/list", names.encode())
        reports = []
        for part in ("1/3", "2/3", "3/3"):
            out, status, _ = tool("tools/replays.py", "--part", part, self.program, "--list", f"{self.kept}/list")
            self.assertEqual(status, 0)
            reports.append(f"{self.kept}/report-{part[0]}")
            write(reports[-1], out)
        self.assertEqual(self.run_it("--sum", *reports[::-1])[:2], whole[:2])
        # a part that came twice, once cut, counts once
        write(f"{self.kept}/more", read(reports[0])[:40] + b"\n" + read(reports[0]))
        self.assertEqual(self.run_it("--sum", *reports, f"{self.kept}/more")[:2], whole[:2])
        lines, status, _ = self.run_it("--sum", reports[2])
        self.assertEqual((lines, status), (["missing: part 1, 2", "3 matches: 3 agree, 0 differ, 0 failed, 0 cut short, 0 not compared"], 2))
        write(f"{self.kept}/list", names.replace("9", "8").encode())
        write(reports[0], tool("tools/replays.py", "--part", "1/3", self.program, "--list", f"{self.kept}/list")[0])
        self.assertEqual(self.run_it("--sum", *reports)[1:], (2, "replays.py: the reports are of other lists of matches, or of other numbers of parts\n"))

    def test_where_no_process_can_be_copied_one_match_follows_another(self):
        with unittest.mock.patch.object(replays, "FORK", None):
            self.assertEqual(list(replays.side_by_side(lambda it: 2 * it, [1, 2, 3], jobs=4)), [(1, 2), (2, 4), (3, 6)])

    def test_wrong_words(self):
        self.match("a", *skirmish())
        write(f"{self.folder}/text", b"no program")
        os.chmod(f"{self.folder}/text", 0o755)
        lines, status, _ = self.run_it("--answers", "1", f"{self.folder}/text", self.kept)
        self.assertEqual((lines[0], status), (f"failed: a.script: {self.folder}/text: Exec format error", 2))
        self.assertEqual(self.run_it(f"{self.folder}/text", self.kept), ([], 2, f"replays.py: {self.folder}/text: Exec format error\n"))
        told = f"./pathserve looks at all sources for each match: name the file that it built, {TOP}/out/pathserve or pathserve-unproved there"
        self.assertEqual(tool("tools/replays.py", "./pathserve", self.kept), (b"", 2, f"replays.py: {told}\n"))
        shutil.copy(self.program, f"{self.folder}/built-unproved")
        none = "no-program is no program: `./pathserve prove` makes out/pathserve, and any other use of ./pathserve out/pathserve-unproved"
        other = f"is not built, which `./pathserve prove` does; {self.folder}/built-unproved is: name that one, or prove first"
        cases = [(["no-program", self.kept], none), ([f"{self.folder}/built", self.kept], f"{self.folder}/built {other}"), ([self.program, "--list", "no.list"], "no such file: no.list")]
        for words, told in cases:
            self.assertEqual(tool("tools/replays.py", *words), (b"", 2, f"replays.py: {told}\n"))
        for words in ([], [self.program], ["--part", "4/3", self.program, self.kept], ["--jobs", "0", self.program, self.kept]):
            self.assertEqual(tool("tools/replays.py", *words)[:2], (b"", 2), words)
        # none is no success
        os.mkdir(f"{self.kept}/empty")
        self.assertEqual(self.run_it(self.program, f"{self.kept}/empty")[1], 2)

    @needs_program
    def test_the_built_program_gives_what_the_plain_one_predicts(self):
        maker = check.Maker(9)
        for n in range(25):
            script = maker.script()
            word = replays.WORDS[n % len(replays.WORDS)]
            answers, status = check.predicted(script, word)
            self.match(f"{n}", script, answers)
            head = f"answers {replays.number_of_answers(PROGRAM)} word {word} status {status} turns {answers.count(b'turn ')}"
            lines = [f"turn {turn} {value:016x}" for turn, value in turns.digests(answers.splitlines(True))]
            lines += [it for it in answers.decode().splitlines() if it.startswith("bad line ")]
            write(f"{self.kept}/{n}.digests", "".join(f"{it}\n" for it in [head, *lines]).encode())
            if n % 2:
                os.remove(f"{self.kept}/{n}.answers")
        self.assertEqual(self.run_it(PROGRAM, self.kept)[:2], (["25 matches: 25 agree, 0 differ, 0 failed, 0 cut short, 0 not compared"], 0))


class Digests(unittest.TestCase):
    def test_the_remainder_of_a_text(self):
        text = b"turn 3 regions 1\n0 0 added 1\nturn 4 regions 2\nbad line 9\n"
        wanted = [(n, int.from_bytes(it, "big") % (2**64 - 59)) for n, it in ((3, b"regions 1\n0 0 added 1\n"), (4, b"regions 2\n"))]
        self.assertEqual(list(turns.digests(text.splitlines(True))), wanted)

    def test_the_command(self):
        out, status, _ = tool("tools/digests.py", "examples/skirmish.answers")
        lines = read("examples/skirmish.answers").splitlines(True)
        second = b"".join([lines[5][len("turn 2 "):], *lines[6:]])
        self.assertEqual((out.decode().splitlines()[1], status), (f"turn 2 {int.from_bytes(second, 'big') % (2**64 - 59):016x}", 0))
        page = read("docs/FORMAT.md").decode()
        self.assertIn(out.decode().splitlines()[0], page)
        self.assertIn("".join(f"    {it}\n" for it in out.decode().splitlines()), read("docs/REPLAYS.md").decode())

    def test_a_script(self):
        script = read("examples/skirmish.script")
        wanted = f"script {int.from_bytes(script, 'big') % (2**64 - 59):016x}\n".encode()
        self.assertEqual(tool("tools/digests.py", "examples/skirmish.script")[:2], (wanted, 0))
        with tempfile.NamedTemporaryFile() as file:
            file.write(script + read("examples/skirmish.answers"))
            file.flush()
            self.assertEqual(tool("tools/digests.py", file.name)[:2], tool("tools/digests.py", "examples/skirmish.answers")[:2])

    def test_two_texts(self):
        self.assertEqual(tool("tools/digests.py", "examples/first.answers", "examples/first.answers")[:2], (b"", 0))
        other = read("examples/skirmish.answers").replace(b"0 0 moved 1", b"0 0 moved 2")
        with tempfile.NamedTemporaryFile() as file:
            file.write(other)
            file.flush()
            out, status, _ = tool("tools/digests.py", "examples/skirmish.answers", file.name)
            self.assertEqual((out.decode().splitlines(), status), (["turn 2, post 0 0", "    0 0 moved 1", "    0 0 moved 2"], 1))
        ran = subprocess.run([f"{TOP}/tools/digests.py", "-"], input=read("examples/skirmish.answers"), capture_output=True)
        self.assertEqual(ran.stdout.count(b"turn "), 2)


if __name__ == "__main__":
    unittest.main()
