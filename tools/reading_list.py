#!/usr/bin/env python3
"""Writes the reading order into docs/PROVED.md: the contract of `run`, and the definitions on which it rests.

`reading_list.py` puts it between the two marks of the page; `reading_list.py --check` writes nothing and ends with 1 where
the page is not current.
"""
import glob
import os
import re
import sys

sys.path.insert(0, os.path.dirname(os.path.abspath(__file__)))
import commands
import specs
from mapscript import check

PAGE = "docs/PROVED.md"
FIRST, LAST = "<!-- made by tools/reading_list.py: begin -->\n", "<!-- made by tools/reading_list.py: end -->\n"
CORE = ("turn_core.specs.Turns", "IsOneThread")
# A file with more definitions than this has several rows.
NAMES_A_ROW = 40
# The parts of the contract, in the order of reading: a heading, and the clauses that belong to it.
PARTS = [
    (f"{', '.join(f'`{it}`' for it in check.WORDS[:-1])} and `{check.WORDS[-1]}`", ["replay", "stop"]),
    ("`serve`", ["serve", "serve_stop"]),
    ("`make`", ["make", "make_status", "make_unread"]),
    ("Words, faults and the cause of a bad line", None),
]
# The laws by which a reader may leave definitions out: the crate, the laws, the module and the definitions that may be left
# out, and what to know in their place.
SKIPS = [
    ("fixed_point", ["text_reads_back", "text_is_in_grammar", "text_is_exact", "text_is_shortest"], "fixed_point.specs.Text", ["fixed_text"],
     "the text of a coordinate is the shortest decimal that has exactly its value (that 0 has no minus, `fixed_text` alone says)"),
    ("grid_versions", ["passable_where_nothing_covers"], "grid_versions.specs.Passing", ["passable_at"],
     "read the relation `IsPassable` in place of the test that computes"),
    ("grid_versions", ["fits_where_it_fits"], "grid_versions.specs.Fitting", ["fits"],
     "read `FitsMap` in place of the test that computes"),
    ("turn_core", ["tests_hold_where_they_should"], "turn_core.specs.NamedGoals", ["is_on_map", "is_well_formed"],
     "read `IsOnAxis` and `IsWellFormed` in place of the tests that compute"),
    ("script_text", ["map_lines", "base_lines", "post_lines", "end_lines"], "script_text.specs.Forms", ["map_of", "base_of", "post_of", "end_of"],
     "read the grammar of lines, `Grammar`, in place of the functions that read them"),
    ("script_text", ["canonical_reads_back"], "script_text.specs.ReadsBack", ["canon_script"],
     "the journal of `serve` reads back as the map and the turns that it was written from, where it is within the limits of an input"),
    ("script_text", ["line_causes", "true_causes", "strange_lines", "array_lines", "blank_lines", "deep_lines", "unread_lines", "end_causes"], "script_text.specs.Causes", ["cause", "end_cause"],
     "exactly the bad lines have a cause, and what it says of a JSON value, or of another line's bytes, is true (`IsTrueOf`, `IsTrueOfBytes`); of places in a script and versions these two alone tell"),
    ("answer_text", ["waypoint_is_canonical"], "answer_text.specs.Answers", ["waypoint_text"],
     "a waypoint is the text of its cell's centre along both axes"),
    ("pathserve", ["beginning_is_prefix"], "pathserve.specs.Output", ["IsBeginning"],
     "what a run writes that ends early is a prefix of the one output text, where there is one"),
    ("pathserve", ["notes_are_one_thread"], "match_play.specs.Texts", ["IsText"],
     "the text of the turns is that of the replies to the whole journal (`IsOneThread`), with the notes of each turn"),
    ("match_laws", ["journal_is_told", "served_answers_are_replayed"], "pathserve.specs.Output", ["turn_texts"],
     "the lines of an output of `serve` that begin with `{` are its journal, and the others are what `replay` writes for it, where the journal is within the limits of an input"),
]


def link(file):
    return f"[{os.path.basename(file)}](../{file})"


def contract_of(crate, function):
    """The contract of a public function, wherever in its crate it stands."""
    for path in sorted(glob.glob(os.path.join(specs.TOP, "crates", crate, "src", "**", "*.rt"), recursive=True)):
        file = os.path.relpath(path, specs.TOP)
        if re.search(rf"(?m)^pub fn {function}\b", specs.read(file)):
            return specs.Contract(file, function)
    raise ValueError(f"{crate} has no public function {function}")


def in_order(modules, found):
    """The modules of definitions so that each comes after those it imports, and lower crates first."""
    ranks, crates = {}, specs.crate_names()

    def rank(module):
        if module.path not in ranks:
            ranks[module.path] = 0
            used = {path for path, _ in module.imports.values()} | {*module.aliases.values()}
            same = [modules[it] for it in used if it in modules and modules[it].crate == module.crate]
            ranks[module.path] = 1 + max(map(rank, same), default=0)
        return ranks[module.path]

    paths = {it.module.path for it in found}
    return sorted((modules[it] for it in paths), key=lambda it: (crates.index(it.crate), rank(it), it.name))


def item(modules, path, name):
    """A definition by its module and its name."""
    if path not in modules or name not in modules[path].items:
        raise ValueError(f"there is no {name} in {path}: this script names it")
    return modules[path].items[name]


def counted(found):
    return f"{len(found)} definitions in {len({it.module.path for it in found})} files, {lines_in(found)} lines"


def table(modules, found):
    rows = ["| crate | file | definitions | lines |", "|---|---|---|---|"]
    for module in in_order(modules, found):
        here, head = [it for it in module.items.values() if it in found], f"`{module.crate}` | {link(module.file)}"
        for at in range(0, len(here), NAMES_A_ROW):
            part = here[at : at + NAMES_A_ROW]
            rows.append(f"| {head} | {' '.join(f'`{it.name}`' for it in part)} | {lines_in(part)} |")
            head = " | "
    return rows


def lines_in(found):
    return sum(len(it.lines) for it in found)


def law(modules, whole, begun, row):
    """What a law lets a reader leave out: its row, the definitions, those in their place, and the lines more than before."""
    crate, laws, path, names, text = row
    left_out = {item(modules, path, name) for name in names}
    contracts = [contract_of(crate, it) for it in laws]
    named = set().union(*(it.definitions(modules) for it in contracts))
    if not left_out <= named or not left_out & whole:
        raise ValueError(f"the laws {laws} do not speak of {names}")
    more = lines_in(left_with(modules, begun, left_out, named - left_out)) - lines_in(whole)
    where = ", ".join(link(it) for it in sorted({it.file for it in contracts}))
    cells = [f"{', '.join(f'`{it}`' for it in laws)} in {where} of `{crate}`", ", ".join(f"`{it}`" for it in names), text, f"{more:+}"]
    return f"| {' | '.join(cells)} |", left_out, named - left_out, more


def skips(modules, whole, begun):
    """Two tables: the laws that make the reading shorter, and those that say it in other words, which are longer."""
    laws = [law(modules, whole, begun, it) for it in SKIPS]
    shorter = [it for it in laws if it[3] < 0]
    cut, added = (set().union(*(it[place] for it in shorter)) for place in (1, 2))
    left = left_with(modules, begun, cut, added)
    head = ["| law | left out | in its place | lines |", "|---|---|---|---|"]
    lines = [f"**What a law lets you skip.** With these {counted(left)} are left.", "", *head, *(it[0] for it in shorter), ""]
    lines += ["**The same in other words.** These make the reading longer, for whoever would rather read a relation or a grammar than a function that computes.", ""]
    return [*lines, *head, *(it[0] for it in laws if it[3] >= 0), ""]


def types_of(found, read):
    """The Rust types that these definitions name first, by the files that declare them."""
    named = {}
    for it in found:
        for word in it.words():
            path, name = it.module.imports.get(word.partition(".")[0], ("", ""))
            crate, _, rest = path.partition(".specs.declared.")
            if rest and name[:1].isupper() and not name.isupper() and rest.endswith(f".{name}") and (crate, name) not in read:
                named[crate, name] = f"crates/{crate}/src/{'/'.join(rest.split('.')[:-1])}.rt"
    read.update(named)
    crates = specs.crate_names()
    ours = sorted((it for it in named if it[0] in crates), key=lambda it: (crates.index(it[0]), it[1]))
    return [f"Types: {', '.join(f'[{name}](../{named[crate, name]})' for crate, name in ours)}.", ""] if ours else []


def words_of_the_kit(found):
    """The words of the kit's own `specs` that these definitions name, by crate."""
    ours, named = specs.crate_names(), {}
    for it in found:
        for word in it.words():
            path, name = it.module.imports.get(word.partition(".")[0], ("", ""))
            crate = path.partition(".")[0]
            if crate and crate not in ours:
                named.setdefault(crate, set()).add(name)
    return ", ".join(f"{len(names)} of `{crate}`" for crate, names in sorted(named.items()))


def left_with(modules, begun, cut, added):
    """The definitions that are left to be read where some are left out and others come in their place."""
    found, waiting = set(), [it for it in [*begun, *added] if it not in cut]
    while waiting:
        it = waiting.pop()
        if it not in found:
            found.add(it)
            words = filter(None, (specs.definition(modules, it.module, word) for word in it.words()))
            waiting += [other for other in words if other not in cut]
    return found


def section():
    modules = specs.all_modules()
    run = contract_of("pathserve", "run")
    core = specs.closure(modules, [item(modules, *CORE)])
    begun, read, types = run.definitions(modules), set(core), set()
    whole = specs.closure(modules, begun)
    lines = [f"`run` of `pathserve`, in {link(run.file)}, has {len(run.clauses)} clauses:", "", "```", *run.text.splitlines(), "```", ""]
    lines += [f"They rest on {counted(whole)}. `S.left`, `K.kept` and the counts of faults are members of the traits `Source` and `Sink` in `io_edges`. Below them are words of the kit's own `specs`: {words_of_the_kit(whole)}; lists, numbers and options among those of `std`, and what a JSON text is among those of `serde_json`.", ""]
    lines += ["Read in this order. A file comes after those that it imports, and a definition is listed where it is needed first.", ""]
    lines += [f"**1. The core: `IsOneThread`,** the replies to a journal, without texts, turns in flight or threads. {counted(core)}.", "", *table(modules, core), "", *types_of(core, types)]
    for number, (heading, clauses) in enumerate(PARTS, 2):
        more = specs.closure(modules, run.definitions(modules, clauses)) - read
        read |= more
        lines += [f"**{number}. {heading}:** {counted(more)} more.", "", *table(modules, more), "", *types_of(more, types)]
    return "\n".join([*lines, *skips(modules, whole, begun)])


def page():
    """The page with what the sources have now."""
    return specs.between(PAGE, FIRST, LAST, section())


if __name__ == "__main__":
    commands.run(lambda: specs.put(PAGE, page, "reading_list.py", sys.argv[1:], __doc__))
