#!/usr/bin/env python3
"""Prints the table of forms: the keys of each line and goal of a script, what stands under them, and the numbers of the C structs.

It is read out of the crates: the forms out of the table of script_text, the numbers, the post as a struct and the fields that each
kind uses out of flat_posts and pathserve_c. `forms.py --write` writes the numbers, the post as a struct and the makers of
posts for Python, Rust and JavaScript, wherever the header and the packages repeat them. `forms.py --check` writes nothing
and ends with 1 where one of these is not current, or where a maker that is written by hand, in the header, for C++ or C#,
leaves out a field of its kind. What else is written by hand, docs/FORMAT.md and examples/check.py, `tools/tests/test_forms.py`
holds against the table.
"""
import itertools
import os
import re
import sys
from typing import NamedTuple

sys.path.insert(0, os.path.dirname(os.path.abspath(__file__)))
import commands
import marks
from marks import Place
from specs import read

TABLE = "crates/script_text/specs/Table.antt"
GOALS = "crates/script_text/src/goals.rt"
POST = "crates/flat_posts/src/posted.rt"
NUMBERS = {
    "posts": "crates/flat_posts/src/post_kinds.rt",
    "goals": "crates/flat_posts/src/goal_kinds.rt",
    "faults": "crates/pathserve_c/src/checks.rt",
    "replies": "crates/flat_posts/src/reply_kinds.rt",
    "refusals": "crates/flat_posts/src/refusals.rt",
    "statuses": "crates/pathserve_c/src/statuses.rt",
}


# ---- the table


def said(name, of, table=TABLE):
    """What the table says of each constructor of a type, by one clause for each."""
    newest = re.search(r"NEWEST_VERSION: u8 = (\d+);", read("crates/script_text/src/versions.rt"))[1]
    text = read(table).replace("NEWEST_VERSION", newest)
    return dict(re.findall(rf"^{name}(?: \w+)* {of}\.(\w+) = (.*)$", text, re.MULTILINE))


def quoted(texts):
    return {name: text.removeprefix('codes "').rstrip('"') for name, text in texts.items()}


def key_texts():
    """The keys of lines as they stand there, by their names."""
    return quoted(said("key_text", "key"))


def wanted(text):
    number = re.search(r"^obstruction_wanted = (.*)$", read(TABLE), re.MULTILINE)[1]
    return re.sub(r"rules\.", "", text.replace("obstruction_wanted", number))


def forms():
    """The keys of each form of a line, and what stands under each, in the newest version."""
    texts, under = key_texts(), said("wanted_of", "key")
    keys = {form: re.findall(r"key\.(\w+)", clause) for form, clause in said("keys_by", "form").items()}
    return {form: {texts[key]: wanted(under[key]) for key in names} for form, names in keys.items()}


def versions_of(of, by):
    """The version from which on each condition holds by which a clause of the table goes."""
    names = re.search(rf"^{by}((?: \w+)*) form\.", read(TABLE), re.MULTILINE)[1].split()
    call = re.search(rf"^{of} version f = {by} (.*) f$", read(TABLE), re.MULTILINE)[1]
    return dict(zip(names, map(int, re.findall(r"\(nat_le (\d) version\)", call)), strict=True))


def first_versions():
    """The first version of the forms that not each version has."""
    versions = versions_of("stands_in", "stands_by")
    return {form: versions[clause] for form, clause in said("stands_by", "form").items()}


def key_versions():
    """The first version of the keys that not each version has."""
    texts, versions = key_texts(), versions_of("keys_of", "keys_by")
    found = re.findall(r"\(if (\w+) then key\.(\w+) ", " ".join(said("keys_by", "form").values()))
    return {texts[key]: versions[condition] for condition, key in found}


def goal_versions():
    """The first version of the goals that not each version has."""
    return {key: int(version) for version, key in re.findall(r"from version (\d) on, ([a-z-]+)", goals_in_words())}


def goals():
    """What stands under the key of each goal, by its name and its key."""
    table = "crates/script_text/specs/Goals.antt"
    under = said("goal_wanted", "key", table)
    return {name: (key, under[name]) for name, key in quoted(said("goal_key_text", "key", table)).items()}


def newest():
    """The newest version of the script."""
    return int(forms()["Map"]["version"].split()[-1])


def goals_in_words():
    """The keys of goals as a cause of a bad line has them."""
    return re.search(r"fn goal_keys.*?\"(.*?)\"", read(GOALS), re.DOTALL)[1]


class Number(NamedTuple):
    """A number of the C structs: its name, its value, its type, and what it stands for where the crates say it."""

    name: str
    value: int
    type: str
    about: str = ""

    def in_words(self):
        """The name as `BadShape`."""
        return "".join(it.capitalize() for it in self.name.split("_"))

    def with_dashes(self):
        """The name as `bad-shape`."""
        return self.name.lower().replace("_", "-")


def as_remark(sentence):
    """A sentence as it stands behind a name in the header."""
    return sentence[:1].lower() + sentence[1:]


def numbers(of):
    """The numbers of this kind, in the order of the crates."""
    found = re.findall(r"(?:^/// (.*)\.\n)?^pub const (\w+): (u\d+) = (\d+);$", read(NUMBERS[of]), re.MULTILINE)
    return [Number(name, int(value), type_, as_remark(about)) for about, name, type_, value in found]


def values(of):
    """The values of these numbers by their names."""
    return {it.name: it.value for it in numbers(of)}


class Field(NamedTuple):
    """A field of a struct: its name, its type, and what it holds where the crates say it."""

    name: str
    type: str
    about: str = ""

    def camel(self):
        first, *others = self.name.split("_")
        return first + "".join(it.capitalize() for it in others)


def post_fields():
    """The fields of a post as a struct."""
    body = re.search(r"^pub struct FlatPost \{\n(.*?)^\}", read(POST), re.MULTILINE | re.DOTALL)[1]
    found = re.findall(r"(?:^    /// (.*)\.\n)?^    pub (\w+): (\w+),$", body, re.MULTILINE)
    return [Field(name, type_, as_remark(about)) for about, name, type_ in found]


def uses():
    """The fields that each kind of posts uses, beside its kind and its caller, in the order in which it names them."""
    rows = re.findall(r"^/// \| `([A-Z_]+)` \| (.*) \|$", read(POST), re.MULTILINE)
    return {kind: re.findall(r"`(\w+)`", told) for kind, told in rows}


def post_size():
    """How many bytes a post has as a struct."""
    return re.search(r"size_of::<FlatPost>\(\) == (\d+)", read(POST))[1]


def of_one_type(fields):
    """Fields that stand together and have one type: the type, and these."""
    return [(type_, [*its]) for type_, its in itertools.groupby(fields, lambda it: it.type)]


def lines():
    first = first_versions() | key_versions() | goal_versions()

    def since(name):
        return f", from version {first[name]} on" if name in first else ""

    for form, fields in forms().items():
        yield f"{form}{since(form)}"
        yield from (f"    {key:<10} {wanted}{since(key)}" for key, wanted in fields.items())
    yield "goals"
    yield from (f"    {key:<12} {wanted}{since(key)}" for key, wanted in goals().values())
    for of in NUMBERS:
        yield f"numbers of {of}"
        yield from (f"    {value:>2} {name}" for name, value in values(of).items())
    yield "fields of a post"
    yield from (f"    {it.type:<4} {it.name}" for it in post_fields())
    yield "fields of each kind of posts"
    yield from (f"    {kind:<10} {', '.join(fields)}" for kind, fields in uses().items())


# ---- what repeats it

WIDTH = 136  # of the lines that hold a list
HEADER, CSHARP = "include/pathserve.h", "examples/csharp/Pathserve.cs"
PYTHON_NATIVE, PYTHON_POSTS = "examples/python/pathserve/native.py", "examples/python/pathserve/posts.py"
RUST_SYS, RUST_POSTS = "examples/rust/pathserve-sys/src/lib.rs", "examples/rust/pathserve/src/posts.rs"
SCRIPT, SCRIPT_TYPES = "examples/javascript/pathserve/pathserve.js", "examples/javascript/pathserve/pathserve.d.ts"


def listed(items, between, indent):
    """Items in as few lines as have room for them."""
    rows = [indent + items[0]]
    for item in items[1:]:
        if len(rows[-1] + between + item) < WIDTH:
            rows[-1] += between + item
        else:
            rows[-1] += between.rstrip()
            rows.append(indent + item)
    return "\n".join(rows)


def with_remarks(rows):
    """Lines of the header, each with its remark in one column where it has one."""
    width = max(len(it) for it, _ in rows)
    return "".join(f"    {line:<{width}} /* {remark} */\n" if remark else f"    {line}\n" for line, remark in rows)


def header_enum(of):
    """The names of an enum. A comment that stands there stays; a new name has that of the crates."""

    def made(old):
        comments = dict(re.findall(r"PATHSERVE_(\w+) = \d+,? +/\* (.*) \*/", old))
        found = numbers(of)
        commas = [","] * (len(found) - 1) + [""]
        return with_remarks([(f"PATHSERVE_{it.name} = {it.value}{comma}", comments.get(it.name, it.about)) for it, comma in zip(found, commas)])

    return made


def greatest(of):
    return lambda _: str(max(values(of).values()))


def header_struct(old):
    """The fields. Those that stand in one line stay there, and a comment stays; a new one has that of the crates."""
    rows = re.findall(r"^    \w+ ([\w, ]+);(?: +/\* (.*) \*/)?$", old, re.MULTILINE)
    row_of = {name: row for row in rows for name in row[0].split(", ")}
    found = []
    for row, fields in itertools.groupby(post_fields(), lambda it: row_of.get(it.name, (it.name, it.about))):
        first, *others = fields
        of_c = "pathserve_fixed" if first.type == "i32" else f"uint{first.type[1:]}_t"
        found.append((f"{of_c} {', '.join(it.name for it in (first, *others))};", row[1]))
    return with_remarks(found)


def empty_post(_):
    count = len(post_fields())
    return f"{{{', '.join('0' * count)}}} /* each of the {count}"


def python_enum(of):
    return lambda _: "\n".join(f"    {name} = {value}" for name, value in values(of).items())


def python_struct(_):
    text = ""
    for type_, fields in of_one_type(post_fields()):
        of_c = f"c_uint{type_[1:]}" if type_[0] == "u" else f"c_int{type_[1:]}"
        names = [f'"{it.name}"' for it in fields]
        line = f"({names[0]}, {of_c})" if len(names) == 1 else f"*[(name, {of_c}) for name in ({', '.join(names)})]"
        text += f"        {line},\n"
    return text


def python_post(_):
    """The fields of the tuple. Those of a post that is not filled are 0, but for its kind."""
    return "".join(f"    {it.name}: int{' = 0' * (it.name != 'kind')}\n" for it in post_fields() if it.name != "zero")


def rust_numbers(_):
    return "\n".join("".join(f"pub const {it.name}: {it.type} = {it.value};\n" for it in numbers(of)) for of in NUMBERS)


def rust_struct(_):
    return "".join(f"    pub {it.name}: {it.type},\n" for it in post_fields())


def rust_refusals(_):
    return "".join(f"    {it.in_words()},\n" for it in numbers("refusals"))


def rust_refusal_arms(_):
    return "".join(f"        sys::{it.name} => Refusal::{it.in_words()},\n" for it in numbers("refusals"))


def csharp_enum(of, none):
    """The body of an enum, in one line where that has room for it."""

    def made(_):
        names = ["None = 0"] * none + [f"{it.in_words()} = {it.value}" for it in numbers(of)]
        line = f" {{ {', '.join(names)} }}"
        return line if len(line) < 104 else f"\n    {{\n{listed(names, ', ', ' ' * 8)}\n    }}"

    return made


def csharp_struct(_):
    """The fields, those of one type that stand together in one line. The kinds have the types of their enums."""
    types = {"u8": "byte", "u16": "ushort", "u32": "uint", "u64": "ulong", "i32": "int"}
    kinds = {"kind": "PostKind", "goal": "GoalKind"}
    fields = [it._replace(type=kinds.get(it.name, types[it.type])) for it in post_fields()]
    text = ""
    for (type_, is_zero), its in itertools.groupby(fields, lambda it: (it.type, it.name == "zero")):
        names = [it.camel() if is_zero else it.camel()[0].upper() + it.camel()[1:] for it in its]
        text += f"        {'private' if is_zero else 'public'} {type_} {', '.join(names)};\n"
    return text


def script_object(of, between):
    """The fields of an object of JavaScript, or of its type, in one line where that has room for them."""

    def made(_):
        fields = [f"{name}: {value}" for name, value in values(of).items()]
        line = f" {between.join(fields)} "
        return line if len(line) < 96 else f"\n{listed(fields, between, '  ')}\n"

    return made


def script_names(of, between):
    return lambda _: between.join(f'"{it.with_dashes()}"' for it in numbers(of))


def script_struct(_):
    """The fields with the kinds that a DataView has for them."""
    kinds = {"u8": "Uint8", "u16": "Uint16", "u32": "Uint32", "u64": "BigUint64", "i32": "Int32"}
    items = []
    for type_, fields in of_one_type(post_fields()):
        names = ", ".join(f'"{it.camel()}"' for it in fields)
        items.append(f'...all("{kinds[type_]}", {names})' if len(fields) > 1 else f'[{names}, "{kinds[type_]}"]')
    return listed(items, ", ", "  ") + ",\n"


def typed_post(_):
    names = [it.camel() for it in post_fields() if it.name != "zero"]
    return listed([f"{name}{'?' * (name != 'kind')}: number;" for name in names], " ", "  ") + "\n"


def typed(parameters):
    """Parameters of JavaScript with their types."""
    others = {"goal": "GoalFields", "outside": "boolean"}
    named = [it.partition(" = ") for it in parameters.split(", ")]
    return ", ".join(f"{name}{'?' * bool(default)}: {others.get(name, 'number')}" for name, _, default in named)


def typed_makers(_):
    """The makers of posts as they are declared to TypeScript, out of those for JavaScript."""
    maker = r"((?:^/\*\* .* \*/\n)?)^export const (\w+) = \((.*?)\) => \(\{ kind: "
    found = re.findall(maker, read(SCRIPT), re.MULTILINE)
    return "".join(f"{about}export function {name}({typed(parameters)}): Post;\n" for about, name, parameters in found)


def typed_goals(_):
    found = re.findall(r"^  (\w+): \((.*?)\) => \(\{ goal: ", read(SCRIPT), re.MULTILINE)
    return "".join(f"  {name}({typed(parameters)}): GoalFields;\n" for name, parameters in found)


# ---- makers of posts

HALF = {"radius": "half"}  # what it is to the one kind of posts that uses it


def python_makers(old):
    """The makers with their parameters and the fields that they fill; their comments stay."""
    names = {**HALF, "id": "number"}
    order = [it.name for it in post_fields()]

    def made(found):
        name, comment, kind = found.groups()
        fields = uses()[kind]
        parameters = "".join(f", {names.get(it, it)}: {'Goal' if it == 'goal' else 'int'}" for it in fields)
        filled = sorted((it for it in fields if it != "goal"), key=order.index)
        values = [names.get(it, it) if order.index(it) == place + 2 else f"{it}={names.get(it, it)}" for place, it in enumerate(filled)]
        values += ["**goal._asdict()"] * ("goal" in fields)
        return f"def {name}(caller: int{parameters}) -> Post:\n{comment or ''}    return Post(PostKind.{kind}, caller, {', '.join(values)})\n"

    pattern = r'^def (\w+)\([^)]*\) -> Post:\n(    """[^\n]*"""\n)?    return Post\(PostKind\.(\w+),[^\n]*\n'
    return re.sub(pattern, made, old, flags=re.MULTILINE)


def script_makers(old):
    """The same for JavaScript."""

    def made(found):
        name, kind = found.groups()
        fields = {it.name: it.camel() for it in post_fields() if it.name in uses()[kind]}
        names = [fields[it] for it in uses()[kind]]
        parameters = ", ".join(HALF.get(it, it) for it in names)
        filled = ["...goal" if it == "goal" else f"{it}: {HALF[it]}" if it in HALF else it for it in names]
        return f"export const {name} = (caller, {parameters}) => ({{ kind: PostKind.{kind}, caller, {', '.join(filled)} }});"

    return re.sub(r"^export const (\w+) = \(.*?\) => \(\{ kind: PostKind\.(\w+),.*\}\);$", made, old, flags=re.MULTILINE)


RUST_NAMES = {**HALF, "class_number": "class"}


def rust_parameters(kind):
    """The fields of a kind as those of a variant: the names, and these with their types."""
    types = {it.name: it.type for it in post_fields()} | {"goal": "Goal"}
    fields = ["caller", *uses()[kind]]
    names = [RUST_NAMES.get(it, it) for it in fields]
    return names, ", ".join(f"{name}: {types[it]}" for it, name in zip(fields, names))


def rust_variants(_):
    return "".join(f"    {it.in_words()} {{ {rust_parameters(it.name)[1]} }},\n" for it in numbers("posts"))


def rust_arms(_):
    text = ""
    for it in numbers("posts"):
        filled = [f"{field}: {RUST_NAMES[field]}" if field in RUST_NAMES else field for field in uses()[it.name] if field != "goal"]
        rest = "goal.raw()" if "goal" in uses()[it.name] else "none"
        pattern = f"Post::{it.in_words()} {{ {', '.join(rust_parameters(it.name)[0])} }}"
        value = f"sys::Post {{ kind: sys::{it.name}, caller, {', '.join(filled)}, ..{rest} }}"
        line = f"            {pattern} => {value},\n"
        text += line if len(line) < 118 else f"            {pattern} => {{\n                {value}\n            }}\n"
    return text


def rust_path(_):
    names, typed = rust_parameters("PATH")
    of_self = typed.replace(", goal: Goal", "")
    filled = ", ".join("goal: self" if it == "goal" else it for it in names)
    return f"{of_self}) -> Post {{\n        Post::Path {{ {filled} }}\n"


def in_header(kind):
    return [rf"^PATHSERVE_MAKER pathserve_post pathserve_make_{it}\(.*?^\}}" for it in ("post", kind.lower())]


def in_cpp(kind):
    """A maker there begins with that of another kind, or is the class of goals."""
    if kind == "PATH":
        return [r"^    Post path\(.*?^    \}", r"^    Goal\(int kind.*?^    \}"]
    others = {"ADD_SQUARE": ["add_unit", "add_rectangle"], "MOVE": ["remove", "move_to"]}
    return [rf"^inline Post {it}\(.*?^\}}" for it in others.get(kind, [kind.lower()])]


def in_csharp(kind):
    name = "".join(it.capitalize() for it in kind.split("_"))
    return [rf"static Post {name}\([^)]*\)(?: \{{[^\n]*|\n.*?^        \}})"]


def missing():
    """The fields that a maker leaves out which is written by hand."""
    fields = {it.name: it.camel()[0].upper() + it.camel()[1:] for it in post_fields()}
    places = [(HEADER, in_header, r"\.{0} = "), ("examples/cpp/pathserve.hpp", in_cpp, r"\.{0} = "), (CSHARP, in_csharp, r"\b{1} = ")]
    for (file, makers, filled), (kind, used) in itertools.product(places, uses().items()):
        found = [re.search(it, read(file), re.MULTILINE | re.DOTALL) for it in makers(kind)]
        text = "".join(it[0] for it in found) if all(found) else ""
        yield from (f"{file}: the maker of {kind} leaves out {it}" for it in used if not re.search(filled.format(it, fields[it]), text))


def header_place(of, begin):
    return Place(HEADER, begin, r"\};", header_enum(of))


def python_place(of, file, name):
    return Place(file, rf"^class {name}\(.*?(?=^    [A-Z])", r"\n\n", python_enum(of))


def csharp_place(of, name, none=False):
    return Place(CSHARP, rf"public enum {name} : \w+", r"\n\n", csharp_enum(of, none))


def script_places(of, name):
    yield Place(SCRIPT, rf"^export const {name} = Object.freeze\(\{{", r"\}", script_object(of, ", "))
    yield Place(SCRIPT_TYPES, rf"^export const {name}: Readonly<\{{", r"\}", script_object(of, "; "))


PLACES = [
    header_place("statuses", r"uint32_t pathserve_status;\nenum \{\n"),
    header_place("posts", r"enum \{ /\* pathserve_post\.kind .*?\n"),
    header_place("goals", r"enum \{ /\* pathserve_post\.goal .*?\n"),
    header_place("faults", r"enum \{ /\* what pathserve_check .*?\n"),
    header_place("replies", r"enum \{ /\* pathserve_reply\.kind .*?\n"),
    header_place("refusals", r"enum \{ /\* pathserve_reply\.why .*?\n"),
    Place(HEADER, r"^typedef struct pathserve_post \{\n", r"\}", header_struct),
    Place(HEADER, r"^#define PATHSERVE_EMPTY_POST ", r" fields is 0", empty_post),
    Place(HEADER, r"^    PATHSERVE_SIZE_POST = 6, +/\* ", r" ", lambda _: post_size()),
    Place(HEADER, r"^PATHSERVE_HAS_SIZE\(pathserve_post, ", r"\)", lambda _: post_size()),
    Place(HEADER, r"^    uint8_t kind; +/\* 1 to ", r" ", greatest("posts")),
    Place(HEADER, r"^    uint8_t goal; +/\* 1 to ", r" ", greatest("goals")),
    python_place("statuses", PYTHON_NATIVE, "Status"),
    python_place("faults", PYTHON_NATIVE, "Fault"),
    python_place("posts", PYTHON_POSTS, "PostKind"),
    python_place("goals", PYTHON_POSTS, "GoalKind"),
    python_place("replies", PYTHON_POSTS, "Kind"),
    python_place("refusals", PYTHON_POSTS, "Refusal"),
    Place(PYTHON_NATIVE, r"^class PostStruct\(.*?_fields_ = \[\n", r"    \]", python_struct),
    Place(PYTHON_POSTS, r"^class Post\(NamedTuple\):\n.*?\n\n", r"\n    def ", python_post),
    Place(PYTHON_POSTS, r"^        return filled\(PostStruct.*?\n\n\n", r"^class Kind\(", python_makers),
    Place(RUST_SYS, r"^pub const ANSWERS: u32 = \d+;\n\n", r"\n/// A match: ", rust_numbers),
    Place(RUST_SYS, r"^pub struct Post \{\n", r"\}", rust_struct),
    Place(RUST_POSTS, r"^pub enum Post \{\n", r"^\}", rust_variants),
    Place(RUST_POSTS, r"^impl Post \{.*?\n        match \*self \{\n", r"^        \}\n", rust_arms),
    Place(RUST_POSTS, r"^    pub fn path\(self, ", r"^    \}\n", rust_path),
    Place(RUST_POSTS, r"^pub enum Refusal \{\n", r"\}", rust_refusals),
    Place(RUST_POSTS, r"^fn refusal\(.*\n    match why \{\n", r"        other ", rust_refusal_arms),
    csharp_place("statuses", "Status"),
    csharp_place("posts", "PostKind"),
    csharp_place("goals", "GoalKind", none=True),
    csharp_place("faults", "PostFault", none=True),
    csharp_place("replies", "ReplyKind"),
    csharp_place("refusals", "Refusal", none=True),
    Place(CSHARP, r"public struct Post\n    \{\n", r"\n        ///", csharp_struct),
    *script_places("statuses", "Status"),
    *script_places("faults", "PostFault"),
    *script_places("posts", "PostKind"),
    *script_places("goals", "GoalKind"),
    Place(SCRIPT, r"^const POST = struct\(\n", r"\);", script_struct),
    Place(SCRIPT, r"^// ---- posts\n", r"^// ---- flow fields", script_makers),
    Place(SCRIPT, r'^const KINDS = \["", ', r"\]", script_names("replies", ", ")),
    Place(SCRIPT, r'^const WHYS = \["", ', r"\]", script_names("refusals", ", ")),
    Place(SCRIPT_TYPES, r"^export interface Post \{\n", r"\}", typed_post),
    Place(SCRIPT_TYPES, r"^export type GoalFields = .*?\n\n", r"\n/\*\* Where ", typed_makers),
    Place(SCRIPT_TYPES, r"^export const Goal: Readonly<\{\n", r"\}", typed_goals),
    Place(SCRIPT_TYPES, r"^export interface Reply \{.*?  kind: ", ";", script_names("replies", " | ")),
    Place(SCRIPT_TYPES, r"^  why\?: ", ";", script_names("refusals", " | ")),
]


def main(words):
    if words == ["--write"]:
        marks.write(PLACES)
        return 0
    if words == ["--check"]:
        wrong = list(missing())
        for it in wrong:
            commands.say(it)
        return marks.check(PLACES, "tools/forms.py --write") or bool(wrong)
    if words:
        return commands.usage(__doc__, words)
    for line in lines():
        print(line)
    return 0


if __name__ == "__main__":
    commands.run(lambda: main(sys.argv[1:]))
