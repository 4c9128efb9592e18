#!/usr/bin/env python3
"""Makes the library for another platform out of the module that library_module.py keeps.

    library_targets.py linux   MODULE FOLDER    libpathserve_noheap.a, for a module without proof
    library_targets.py windows MODULE FOLDER    bin: pathserve.dll and pathserve.exe; lib: an import library, and archives
    library_targets.py web     MODULE FOLDER    pathserve.wasm, and an archive for programs of a 64-bit memory
    library_targets.py macos   MODULE FOLDER    an archive for each of its processors

The module is that of Linux on x86-64. As text it is given the layout and the name of the other platform, and loses what is of
Linux alone. The kit's own compiler and linkers do the rest; for the web, `wasm-opt` of binaryen makes the addresses of 32
bits. The status is 0 where all was made, and else 1; the last line on standard error then says why.
"""
import os
import re
import shutil
import subprocess
import sys
import tempfile

import commands
import unproved_build
from unproved_build import TOP, stop

PARTS = os.path.join(TOP, "tools", "library")
WINDOWS, WEB = "x86_64-w64-windows-gnu", "wasm64-unknown-unknown"
MAC = {"arm64": "arm64-apple-macosx11.0", "x86_64": "x86_64-apple-macosx10.15"}
# as the kit compiles a proved module
FLAGS = ["--no-default-config", "-no-canonical-prefixes", "-O3"]
LLVM_FLAGS = ["-no-trap-after-noreturn", "-trap-unreachable", "-disable-machine-licm", "-disable-postra-machine-licm", "-sink-common-insts=false"]
# what Windows gives to a library that starts nothing, and to the program
MSVCRT = ("free", "malloc", "memcmp", "memcpy", "memmove", "memset", "realloc")
MSVCRT_PROGRAM = ("__getmainargs", "_read", "_setmode", "_write", "exit")
STACK = 1 << 20
# the kit's compiler comes without the headers that pathserve.h takes its types from
HEADERS = {
    "stddef.h": "typedef __SIZE_TYPE__ size_t;\n#define NULL ((void *)0)\n",
    "stdint.h": "".join(f"typedef __{it.upper()}{bits}_TYPE__ {it}{bits}_t;\n" for it in ("int", "uint") for bits in (8, 16, 32, 64)),
}


def names():
    """What the header declares."""
    with open(os.path.join(TOP, "include", "pathserve.h"), encoding="utf-8") as it:
        return sorted(set(re.findall(r"^[a-z].*\b(pathserve_\w+)\(", it.read(), re.M)))


class Maker:
    """Makes files of one platform in a folder of its own."""

    def __init__(self, kit, triple, folder):
        self.clang, self.triple, self.folder = f"{kit}/toolchain/bin/clang", triple, folder

    def run(self, tool, *words):
        """The kit's clang is each of LLVM's tools, by the name that it is called by."""
        ran = subprocess.run([tool, *words], executable=self.clang, cwd=self.folder, capture_output=True, text=True)
        if ran.returncode:
            sys.stderr.write(ran.stderr)
            stop(f"{tool} failed")
        return ran.stdout

    def layout(self):
        """The line of a module that tells the platform's layout."""
        with open(f"{self.folder}/empty.c", "w", encoding="utf-8") as it:
            it.write("int empty;\n")
        text = self.run("clang", f"--target={self.triple}", "-S", "-emit-llvm", "empty.c", "-o", "-")
        return re.search(r"^target datalayout.*$", text, re.M)[0]

    def text(self, module):
        """A module as text for the platform."""
        if not module.endswith(".ll"):
            words = ["--target=x86_64-unknown-linux-gnu", "--no-default-config", "-x", "ir", os.path.abspath(module)]
            self.run("clang", *words, "-S", "-emit-llvm", "-O0", "-Xclang", "-disable-llvm-passes", "-o", "module.ll")
            module = f"{self.folder}/module.ll"
        with open(module, encoding="utf-8") as it:
            text = re.sub(r"^target (datalayout|triple).*\n", "", it.read(), flags=re.M)
        return f'{self.layout()}\ntarget triple = "{self.triple}"\n{self.fitted(text)}'

    def fitted(self, text):
        """Without the attributes that are of Linux or of its processor, and with tables to unwind by on Windows."""
        if "linux" not in self.triple:
            text = re.sub(r' "probe-stack"="[^"]*"| "stack-probe-size"="[^"]*"', "", text)
        if not self.triple.startswith("x86_64"):
            text = re.sub(r' "target-(cpu|features)"="[^"]*"', "", text)
        if self.triple == WINDOWS:
            text = re.sub(r"^(attributes #\d+ = \{)", r"\1 uwtable", text, flags=re.M)
            text = re.sub(r"^(define .*) nounwind \{$", r"\1 nounwind uwtable {", text, flags=re.M)
        return text

    def compiled(self, module, name, renamed=None):
        """The object `name` of a module, in which functions may get other names."""
        text = self.text(module)
        for old, new in (renamed or {}).items():
            text = re.sub(rf"@{old}\b", f"@{new}", text)
        with open(f"{self.folder}/{name}.ll", "w", encoding="utf-8") as it:
            it.write(text)
        # on Windows a linker may lose the tables to unwind by that stand in sections of their own
        more = [] if self.triple == WINDOWS else ["-ffunction-sections", "-fdata-sections"]
        more += ["-fPIC"] if "linux" in self.triple else []
        llvm = [word for it in LLVM_FLAGS for word in ("-mllvm", it)]
        self.run("clang", f"--target={self.triple}", *FLAGS, *llvm, *more, "-c", "-x", "ir", f"{name}.ll", "-o", name)
        return name

    def part(self, source):
        """The object of a file in C or for the assembler, of tools/library where it names no other folder."""
        name = f"{os.path.splitext(os.path.basename(source))[0]}.o"
        for header, text in HEADERS.items():
            with open(f"{self.folder}/{header}", "w", encoding="utf-8") as it:
                it.write(text)
        words = ["-I.", f"-I{TOP}/include", "-ffreestanding", "-fno-builtin", "-O2", "-c", os.path.join(PARTS, source), "-o", name]
        more = ["-fasynchronous-unwind-tables"] if self.triple == WINDOWS else []
        self.run("clang", f"--target={self.triple}", "--no-default-config", *more, *words)
        return name

    def heap(self, renamed=None):
        return self.compiled(os.path.join(PARTS, "heap.ll"), "own_heap.o" if renamed else "heap.o", renamed)

    def archive(self, name, objects):
        self.run("llvm-ar", "rcsD", name, *objects)

    def definitions(self, name, library, exports):
        with open(f"{self.folder}/{name}", "w", encoding="utf-8") as it:
            it.write(f"LIBRARY {library}\nEXPORTS\n" + "".join(f"    {one}\n" for one in exports))


# where a struct of two words is not given by C as the library takes it, a program's own memory has these names
OWN = {it: f"pathserve_{it}" for it in ("malloc", "realloc", "free")}


def linux(maker, module, out):
    objects = [maker.compiled(module, "pathserve.o")]
    maker.archive("libpathserve_noheap.a", objects)
    put(maker, out, ["libpathserve_noheap.a"])


def windows(maker, module, out):
    own = [maker.compiled(module, "pathserve.o"), maker.part("numbers.c"), maker.part("stack_probe.s")]
    maker.archive("libpathserve.a", [*own, maker.heap()])
    maker.archive("libpathserve_noheap.a", [*own, maker.heap(OWN)])
    maker.definitions("msvcrt.def", "msvcrt.dll", MSVCRT + MSVCRT_PROGRAM)
    maker.run("llvm-lib", "/machine:x64", "/def:msvcrt.def", "/out:msvcrt.lib")
    maker.definitions("pathserve.def", "pathserve.dll", names())
    words = ["/machine:x64", "/Brepro", *own, "heap.o", "msvcrt.lib"]
    maker.run("lld-link", "/dll", "/noentry", "/def:pathserve.def", "/out:pathserve.dll", "/implib:pathserve.lib", *words)
    maker.run("lld-link", "/entry:start", "/subsystem:console", "/out:pathserve.exe", maker.part("program.c"), *words)
    shutil.copy(f"{maker.folder}/pathserve.lib", f"{maker.folder}/libpathserve.dll.a")
    put(maker, f"{out}/bin", ["pathserve.dll", "pathserve.exe"])
    put(maker, f"{out}/lib", ["pathserve.lib", "libpathserve.dll.a", "libpathserve.a", "libpathserve_noheap.a"])


def web(maker, module, out):
    narrow = shutil.which("wasm-opt") or stop("the command wasm-opt of binaryen is missing")
    own = [maker.compiled(module, "pathserve.o"), maker.part("numbers.c")]
    maker.archive("libpathserve_noheap.a", [*own, maker.heap(OWN)])
    words = ["-mwasm64", "--no-entry", "-z", f"stack-size={STACK}", "--stack-first", "--gc-sections", "--strip-all"]
    words += [f"--export={it}" for it in (*names(), "malloc", "free")]
    maker.run("wasm-ld", *words, *own, maker.heap(), maker.part("web_heap.c"), "-o", "wide.wasm")
    narrowed(narrow, f"{maker.folder}/wide.wasm", f"{maker.folder}/pathserve.wasm")
    put(maker, out, ["pathserve.wasm"])
    put(maker, f"{out}/wasm64", ["libpathserve_noheap.a"])


def narrowed(tool, wide, to):
    """Makes of a module of a 64-bit memory one of a 32-bit memory, as every browser runs it."""
    features = ("memory64", "bulk-memory", "sign-ext", "mutable-globals", "nontrapping-float-to-int")
    words = [*(f"--enable-{it}" for it in features), "--memory64-lowering", wide, "-o", to]
    if subprocess.run([tool, *words]).returncode:
        stop("wasm-opt failed")


def macos(kit, module, out):
    for processor, triple in MAC.items():
        with tempfile.TemporaryDirectory(prefix="pathserve-macos-") as folder:
            maker = Maker(kit, triple, folder)
            objects = [maker.compiled(module, "pathserve.o"), maker.heap()]
            maker.run("llvm-ar", "--format=darwin", "rcsD", "libpathserve.a", *objects)
            put(maker, f"{out}/{processor}", ["libpathserve.a"])


def put(maker, out, files):
    os.makedirs(out, exist_ok=True)
    for it in files:
        shutil.copy(f"{maker.folder}/{it}", out)


def main(words):
    made = {"linux": ("x86_64-unknown-linux-gnu", linux), "windows": (WINDOWS, windows), "web": (WEB, web), "macos": (None, macos)}
    if len(words) != 3 or words[0] not in made:
        return commands.usage(__doc__, words)
    kit, _ = unproved_build.kit_at(shutil.which("rt") or stop("the command rt is missing"))
    (triple, make), module, out = made[words[0]], os.path.abspath(words[1]), os.path.abspath(words[2])
    if triple is None:
        return make(kit, module, out)
    with tempfile.TemporaryDirectory(prefix="pathserve-library-") as folder:
        make(Maker(kit, triple, folder), module, out)


if __name__ == "__main__":
    commands.run(lambda: main(sys.argv[1:]))
