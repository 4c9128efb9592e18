"""The definitions in the crates' `specs/`, and the contracts that cite them, read as text.

Names are followed by the imports of their file. A word is taken for a definition where the file has or imports one of this
name, so a variable of the same name counts too: what is found errs on the large side.
"""
import os
import re

import commands

TOP = os.path.dirname(os.path.dirname(os.path.abspath(__file__)))
MARKS = r"(?:(?:pub|abbrev|unfoldable|record|data|ruleset)\s+)+"
ITEM = re.compile(rf"{MARKS}(?!use\b|mod\b)(\S+)")
# one of several definitions that call each other, which stand in a block that begins with `mutual`
MUTUAL = re.compile(r"\s+pub (\S+) :")
IMPORT = re.compile(r"(?:(pub|ghost) )?use Rattle\.([\w.]+?)(?:\.\{(.*)\}| as (\w+))?;?$")
WORD = re.compile(r"(?<![\w.◌])[^\W\d][\w'-]*(?:\.[^\W\d][\w'-]*)*")


class Definition:
    """One definition: its module, its name, the comment above it, and its lines."""

    def __init__(self, module, name, comment, line):
        self.module, self.name, self.comment, self.lines = module, name, comment, [line]

    def words(self):
        return words_in("\n".join(self.lines))


class Names:
    """What a file's words mean: what it imports, by name, and the modules that it gives another name."""

    def __init__(self):
        self.imports, self.aliases, self.handed_on = {}, {}, {}

    def read(self, line):
        """Whether the line is an import, which is then taken."""
        found = IMPORT.match(line)
        if not found:
            return False
        how, path, names, alias = found.groups()
        if alias:
            self.aliases[alias] = path
        for it in (names or "").split(","):
            name, _, other = it.strip().partition(" as ")
            if name:
                self.imports[other or name] = (path, name)
                if how == "pub":
                    self.handed_on[other or name] = (path, name)
        return True


class Module(Names):
    """A file of `specs/`: `crate` has it as `name`, as `Turns` or `inner.Tables`."""

    def __init__(self, crate, name, file):
        super().__init__()
        self.crate, self.name, self.file = crate, name, file
        self.path, self.items = f"{crate}.specs.{name}", {}
        comment, last, in_block = [], None, False
        for line in read(file).splitlines():
            item = ITEM.match(line)
            one_of_block = in_block and MUTUAL.match(line)
            if self.read(line) or not line.strip():
                comment, last = [], last if line.startswith(" ") else None
            elif line.startswith("--"):
                comment = [] if line.startswith("-- ----") else [*comment, line[2:].strip()]
            elif item and item[1] == "mutual":
                in_block = True
            elif item or one_of_block:
                in_block = in_block and not item
                name = (item or one_of_block)[1]
                last = self.items[name] = Definition(self, name, " ".join(comment), line)
                comment = []
            elif last:
                last.lines.append(line)

    def is_inner(self):
        return self.name.startswith("inner")


def read(file):
    with open(os.path.join(TOP, file), encoding="utf-8") as it:
        return it.read()


def put(file, page, tool, words, text):
    """Writes a page that a script makes; with `--check` only says whether it is current. Returns the exit status."""
    if words not in ([], ["--check"]):
        return commands.usage(text, words)
    made = page()
    if words:
        is_current = read(file) == made
        print(f"{file} is {'current' if is_current else f'not current: run tools/{tool}'}")
        return 0 if is_current else 1
    with open(os.path.join(TOP, file), "w", encoding="utf-8") as it:
        it.write(made)
    return 0


def put_pictures(made, tool, words, text):
    """Writes the pictures of docs that a script draws, by their names; with `--check` only tells which are not current.
    Returns the exit status."""
    if words not in ([], ["--check"]):
        return commands.usage(text, words)
    stale = 0
    for name, drawing in made().items():
        file = f"docs/pictures/{name}.svg"
        path = os.path.join(TOP, file)
        if not words:
            with open(path, "w", encoding="utf-8") as it:
                it.write(drawing)
        elif not os.path.isfile(path) or read(file) != drawing:
            print(f"{file} is not current: run tools/{tool}")
            stale += 1
    return 1 if stale else 0


def between(file, first, last, made):
    """The text of a page with what is made between two of its marks."""
    before, found, rest = read(file).partition(first)
    _, ended, after = rest.partition(last)
    if not found or not ended:
        raise ValueError(f"{file} lacks the marks {first.strip()} and {last.strip()}")
    return f"{before}{first}\n{made}\n{last}{after}"


def words_in(text):
    """The names in a text of the logic, without comments and strings."""
    return WORD.findall(re.sub(r'--.*|"[^"]*"', " ", text))


def crate_names():
    """The crates from the bottom up, as `crates.txt` lists them."""
    return re.findall(r"(?m)^(\w+)[^#:\n]*:", read("crates.txt"))


def all_modules():
    """The modules of all crates, by their paths."""
    found = {}
    for crate in crate_names():
        top = f"crates/{crate}/specs"
        for folder, folders, files in os.walk(os.path.join(TOP, top)):
            folders.sort()
            for name in sorted(files):
                file = os.path.relpath(os.path.join(folder, name), TOP)
                if name.endswith(".antt") and file != f"{top}/Lib.antt":
                    module = Module(crate, file[len(top) + 1 : -5].replace("/", "."), file)
                    found[module.path] = module
    return found


def definition(modules, names, word):
    """The definition that a word means in a file, or None."""
    first, _, rest = word.partition(".")
    if isinstance(names, Module) and first in names.items:
        return names.items[first]
    if first in names.aliases and rest:
        path, name = names.aliases[first], rest.partition(".")[0]
    elif first in names.imports:
        path, name = names.imports[first]
    else:
        return None
    module = modules.get(path)
    while module and name not in module.items and name in module.handed_on:
        path, name = module.handed_on[name]
        module = modules.get(path)
    return module.items.get(name) if module else None


def closure(modules, begun):
    """The definitions that some rest on, themselves among them."""
    found, waiting = set(), list(begun)
    while waiting:
        it = waiting.pop()
        if it not in found:
            found.add(it)
            waiting += filter(None, (definition(modules, it.module, word) for word in it.words()))
    return found


class Contract(Names):
    """The contract of a function of a source file, and what the file's ghost imports mean by its words."""

    def __init__(self, file, function):
        super().__init__()
        self.file, text = file, read(file)
        for line in text.splitlines():
            self.read(line)
        found = re.search(rf"(?ms)^pub fn {function}\b.*?^{{", text)
        if not found:
            raise ValueError(f"{file} has no public function {function}")
        self.text = found[0][:-1].rstrip()
        self.clauses = re.findall(r"(?ms)^    ensures (\w*) ?\{(.*?)\}$", self.text)

    def definitions(self, modules, wanted=None):
        """The definitions that the clauses name, of all clauses or of those that are wanted."""
        missing = {*(wanted or [])} - {name for name, _ in self.clauses}
        if missing:
            raise ValueError(f"{self.file}: the contract lacks the clauses {sorted(missing)}")
        said = [text for name, text in self.clauses if wanted is None or name in wanted]
        return set(filter(None, (definition(modules, self, word) for text in said for word in words_in(text))))
