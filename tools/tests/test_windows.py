"""The library of a release for Windows, under Wine, beside that for Linux: made scripts by each report, the examples, memory that
is refused, threads, what the DLL exports and needs, and that a crash in it can be walked through."""
import os
import re
import shutil
import struct
import subprocess
import tempfile
import unittest

from places import TOP, read
from test_library import HEADER, RELEASE, VIEWED, built, check, needs_cc, needs_release
import platforms

LIB = os.path.join(RELEASE, "windows", "lib")
DLL = os.path.join(RELEASE, "windows", "bin", "pathserve.dll")
CC = "x86_64-w64-mingw32-gcc"
WINE = shutil.which("wine") or shutil.which("wine64") or shutil.which("wine-stable")

needs_windows = unittest.skipUnless(os.path.isfile(DLL), "the release is not for Windows")
needs_mingw = unittest.skipUnless(shutil.which(CC), "there is no mingw")
needs_wine = unittest.skipUnless(WINE, "there is no Wine")


class Image:
    """What a DLL says of itself."""

    def __init__(self, data):
        self.data = data
        start = struct.unpack_from("<I", data, 60)[0]
        self.machine, count, optional = struct.unpack_from("<H", data, start + 4)[0], *struct.unpack_from("<H12xH", data, start + 6)
        head = start + 24
        self.entry = struct.unpack_from("<I", data, head + 16)[0]
        self.folders = [struct.unpack_from("<II", data, head + 112 + 8 * n) for n in range(16)]
        self.sections = [struct.unpack_from("<8sIIII", data, head + optional + 40 * n) for n in range(count)]

    def at(self, address):
        for _, size, start, raw, place in self.sections:
            if start <= address < start + max(size, raw):
                return address - start + place
        raise ValueError(address)

    def text(self, address):
        place = self.at(address)
        return self.data[place : self.data.index(b"\0", place)].decode()

    def exports(self):
        place = self.at(self.folders[0][0])
        count, _, names = struct.unpack_from("<III", self.data, place + 24)
        return {self.text(it) for it in struct.unpack_from(f"<{count}I", self.data, self.at(names))}

    def imports(self):
        place, found = self.at(self.folders[1][0]), set()
        while any(entry := struct.unpack_from("<5I", self.data, place)):
            found.add(self.text(entry[3]).lower())
            place += 20
        return found

    def unwound(self):
        """How many functions have tables to unwind by."""
        return self.folders[3][1] // 12


@needs_release
@needs_windows
class Library(unittest.TestCase):
    def test_it_exports_what_the_header_declares_and_needs_what_each_windows_has(self):
        image = Image(read(DLL))
        declared = set(re.findall(r"^[a-z].*\b(pathserve_\w+)\(", read(HEADER).decode(), re.M))
        self.assertEqual((image.machine, image.entry), (0x8664, 0))
        self.assertEqual(image.exports(), declared)
        self.assertEqual(image.imports(), {"msvcrt.dll"})
        self.assertGreater(image.unwound(), 100)


@needs_release
@needs_windows
@needs_mingw
@needs_wine
class Clients(unittest.TestCase):
    @classmethod
    def setUpClass(cls):
        made = tempfile.TemporaryDirectory(ignore_cleanup_errors=True)  # (Wine may still write there)
        cls.addClassCleanup(made.cleanup)
        cls.folder = made.name
        cls.where = dict(os.environ, WINEPREFIX=os.path.join(cls.folder, "wine"), WINEDEBUG="-all", DISPLAY="")
        shutil.copy(DLL, cls.folder)

    @classmethod
    def tearDownClass(cls):
        """What Wine left running for this folder ends."""
        subprocess.run([WINE, "wineboot", "--kill"], env=cls.where, capture_output=True, timeout=300)

    def built(self, source, library="libpathserve.a", flags=()):
        program = os.path.join(self.folder, f"{os.path.basename(source)[:-2]}-{library}.exe")
        words = [CC, "-std=c11", "-D__USE_MINGW_ANSI_STDIO=1", "-Wall", "-Wextra", "-Werror", "-I", os.path.join(RELEASE, "include")]
        ran = subprocess.run([*words, *flags, "-o", program, os.path.join(TOP, source), os.path.join(LIB, library)], capture_output=True)
        self.assertEqual(ran.returncode, 0, ran.stderr.decode())
        return program

    def told(self, program, given=b"", words=()):
        """What a program writes, with its status; a line ends there as here."""
        ran = subprocess.run([WINE, program, *words], input=given, env=self.where, cwd=self.folder, capture_output=True, timeout=1200)
        return ran.stdout.replace(b"\r\n", b"\n"), ran.returncode

    def test_made_scripts_by_each_report_are_answered_as_on_linux(self):
        scripts = platforms.scripts(200)
        with tempfile.TemporaryDirectory() as folder:
            here = platforms.answers([built(folder, "tools/tests/library/answers.c")], scripts)
        program = self.built("tools/tests/library/answers.c")
        there = platforms.answers([WINE, program], scripts, env=self.where)
        self.assertEqual(len(here), 800)
        self.assertEqual(platforms.differing(scripts, here, there), [])
        self.assertEqual({status for status, _ in here}, {0, 3})

    def test_the_examples_by_the_archive_and_by_the_dll(self):
        for library in ("libpathserve.a", "libpathserve.dll.a", "pathserve.lib"):
            self.assertEqual(self.told(self.built("examples/c/by_structs.c", library)), (read("examples/skirmish.answers"), 0), library)
            self.assertEqual(self.told(self.built("examples/c/views.c", library)), (VIEWED, 0), library)
            script, text = read("examples/skirmish.script"), read("examples/skirmish.answers")
            self.assertEqual(self.told(self.built("examples/c/by_text.c", library), script), (text, 0), library)

    def test_the_page_shows_what_runs(self):
        lines = re.findall(rf"(?m)^    ({CC} .*)$", read(os.path.join(RELEASE, "docs", "PLATFORMS.md")).decode())
        self.assertEqual(len(lines), 2)
        for line in lines:
            with tempfile.TemporaryDirectory() as folder:
                top = os.path.join(folder, "release")
                shutil.copytree(RELEASE, top, symlinks=True)
                subprocess.run(["sh", "-e", "-c", line], cwd=top, check=True)
                ran = subprocess.run([WINE, "game.exe"], env=self.where, cwd=top, capture_output=True, timeout=600)
            self.assertEqual(ran.stdout.replace(b"\r\n", b"\n"), read("examples/skirmish.answers"), line)

    @unittest.skipUnless(shutil.which("cmake"), "there is no cmake")
    def test_cmake(self):
        for target, needs in (("pathserve", []), ("shared", [DLL])):
            with tempfile.TemporaryDirectory() as folder:
                with open(os.path.join(folder, "CMakeLists.txt"), "w", encoding="utf-8") as file:
                    file.write(
                        "cmake_minimum_required(VERSION 3.10)\nproject(game C)\nset(CMAKE_C_STANDARD 11)\n"
                        f"find_package(pathserve 0.1.0 REQUIRED CONFIG)\nadd_executable(game {TOP}/examples/c/by_structs.c)\n"
                        f"target_link_libraries(game pathserve::{target})\n"
                    )
                system = ["-DCMAKE_SYSTEM_NAME=Windows", f"-DCMAKE_C_COMPILER={CC}", f"-Dpathserve_DIR={LIB}/cmake/pathserve"]
                for words in (["-S", folder, "-B", f"{folder}/made", *system], ["--build", f"{folder}/made"]):
                    ran = subprocess.run(["cmake", *words], capture_output=True)
                    self.assertEqual(ran.returncode, 0, ran.stderr.decode())
                for it in needs:
                    shutil.copy(it, f"{folder}/made")
                ran = subprocess.run([WINE, "game.exe"], env=self.where, cwd=f"{folder}/made", capture_output=True, timeout=600)
            self.assertEqual(ran.stdout.replace(b"\r\n", b"\n"), read("examples/skirmish.answers"), target)

    def test_each_allocation_is_refused_in_turn(self):
        program = self.built("tools/tests/library/refused.c", "libpathserve_noheap.a")
        told, status = self.told(program, words=["Z:" + os.path.join(TOP, "examples", "skirmish.script")])
        self.assertEqual(status, 0, told)
        self.assertRegex(told, rb"^\d{2,} allocations by text, \d{2,} by structs, \d{2,} by a grid, \d+ of a bad line\n$")

    def test_threads_with_views(self):
        self.assertEqual(self.told(self.built("tools/tests/library/threads.c", flags=["-pthread", "-static"])), (b"", 0))

    def test_a_crash_in_it_is_walked_through(self):
        told, status = self.told(self.built("tools/tests/library/crash.c", "pathserve.lib"))
        self.assertEqual(status, 0, told)
        self.assertEqual(told, b"seen by the game\n")


if __name__ == "__main__":
    unittest.main()
