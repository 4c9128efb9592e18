"""The pages: those that scripts make are current, links lead somewhere, and commands are as they are shown."""
import glob
import os
import re
import subprocess
import unittest

from places import PROGRAM, TOP, needs_program, read, tool
import links
import reading_list
import specs

PAGES = [os.path.relpath(it, TOP) for it in sorted([*glob.glob(f"{TOP}/*.md"), *glob.glob(f"{TOP}/docs/*.md")])]


def text_of(page):
    return read(page).decode()


def too_long(text):
    """The cells of more than 40 words and the paragraphs and items of more than 90, out of blocks of code, by their first words."""
    found, plain = [], re.sub(r"(?ms)^```.*?^```$", "", text)
    for block in re.split(r"\n\s*\n", plain):
        lines = [it for it in block.splitlines() if not it.startswith("    ")]
        cells = [cell for it in lines if it.startswith("|") for cell in it.strip("|").split("|")]
        prose = "\n".join(it for it in lines if not it.startswith("|"))
        items = re.split(r"(?m)^\s*(?:[-*]|\d+\.) ", prose)
        found += [(len(it.split()), it.strip()[:60]) for limit, them in ((40, cells), (90, items)) for it in them if len(it.split()) > limit]
    return found


class Pages(unittest.TestCase):
    def test_those_made_by_scripts_are_current(self):
        for name in ("crates", "decisions", "definitions", "head_examples", "layers", "reading_list", "search_pictures", "speed_plots", "test_index", "theorems", "unused"):
            out, status, said = tool(f"tools/{name}.py", "--check")
            self.assertEqual(status, 0, out.decode() + said)

    def test_links_lead_somewhere(self):
        self.assertEqual(links.dead(TOP, PAGES), [])

    def test_files_that_are_named_are_there(self):
        for page in PAGES:
            for name in re.findall(r"`([\w./]+/[\w./]+\.(?:rt|antt|py|script|answers|map|md|sh))`", text_of(page)):
                places = [name, f"crates/{name}", f"crates/*/{name}", f"crates/*/src/{name}", f"docs/{name}"]
                self.assertTrue(any(glob.glob(os.path.join(TOP, it)) for it in places), f"{page}: {name}")

    def test_paragraphs_and_cells_are_short(self):
        self.assertEqual([len(too_long(it)) for it in ("word " * 90, "word " * 91, f"| {'word ' * 41}|", f"```\n{'word ' * 99}\n```")], [0, 1, 1, 0])
        for page in PAGES:
            self.assertEqual(too_long(text_of(page)), [], page)
        self.assertLessEqual(len(text_of("README.md").split()), 900)

    def test_each_crate_is_named(self):
        for page in ("docs/PROVED.md", "docs/ARCHITECTURE.md"):
            missing = [it for it in specs.crate_names() if f"`{it}`" not in text_of(page)]
            self.assertEqual(missing, [], page)

    def test_the_claim_has_the_clauses_of_the_program(self):
        table = text_of("docs/PROVED.md").partition("| clause or law | what it says |")[2].partition("\n\n")[0]
        told = {it for row in re.findall(r"(?m)^\| (`.*?) \|", table) for it in re.findall(r"`(\w+)`", row)}
        self.assertEqual(told, {name for name, _ in reading_list.contract_of("pathserve", "run").clauses})
        laws = [it for row in re.findall(r"(?m)^\| laws (.*?) \|", table) for it in re.findall(r"((?:`\w+`,? ?)+)of `(\w+)`", row)]
        self.assertTrue(laws)
        for names, crate in laws:
            for name in re.findall(r"`(\w+)`", names):
                reading_list.contract_of(crate, name)

    def test_the_version_is_one(self):
        version = text_of("VERSION").strip()
        self.assertIn(f"Version {version}.", text_of("README.md"))
        self.assertIn(f"## {version}", text_of("CHANGELOG.md"))
        answers = re.search(r"#define PATHSERVE_ANSWERS (\d+)u", text_of("include/pathserve.h"))[1]
        program = text_of("crates/pathserve_bin/src/main.rt")
        self.assertIn(f'const VERSION: &str = "{version}";', program)
        self.assertIn(f"const ANSWERS: u32 = {answers};", program)

    def test_help_has_the_statuses_of_the_format(self):
        helped = subprocess.run([f"{TOP}/pathserve", "--help"], capture_output=True, text=True).stdout
        told = dict(re.findall(r"(?<!\d) (\d+)  +([a-zA-Z][^\n]*?)(?=  |\n)", helped.partition("Exit statuses:")[2]))
        for number, meaning in re.findall(r"(?m)^\| (\d+) \| ([^|]*?) \|", text_of("docs/FORMAT.md").partition("## Words and statuses")[2]):
            self.assertIn(told[number].split(";")[0][:12], meaning, number)

    @needs_program
    def test_the_readme_shows_what_runs(self):
        for command in re.findall(r"(?m)^    \./pathserve (\w+) < (\S+)$", text_of("README.md")):
            with open(os.path.join(TOP, command[1]), "rb") as script:
                ran = subprocess.run([PROGRAM, command[0]], stdin=script, capture_output=True)
            self.assertEqual((ran.stdout, ran.returncode), (read(command[1].replace(".script", ".answers")), 0))

    @needs_program
    def test_the_summary_of_a_match_is_as_shown(self):
        seed, shown = re.search(r"\$ pathserve make (\d+)\n(.*?)```", text_of("docs/MAKE.md"), re.S).groups()
        ran = subprocess.run([PROGRAM, "make", seed], capture_output=True, text=True)
        self.assertEqual(ran.stdout, shown)


if __name__ == "__main__":
    unittest.main()
