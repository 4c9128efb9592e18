"""The packages of a release: a wheel is installed and plays, each says the sums of its files, and making them again gives the same."""
import glob
import io
import os
import shutil
import subprocess
import sys
import tarfile
import tempfile
import unittest
import zipfile

from places import TOP, read
from test_library import RELEASE, needs_release
import packages

NODE = shutil.which("node")
MODULE = os.path.join(RELEASE, "web", "pathserve", "pathserve.wasm")
MINGW_CC = "x86_64-w64-mingw32-gcc"


@needs_release
class Made(unittest.TestCase):
    """A folder of packages."""

    @classmethod
    def setUpClass(cls):
        made = tempfile.TemporaryDirectory()
        cls.addClassCleanup(made.cleanup)
        cls.folder = made.name
        ran = subprocess.run([sys.executable, "-B", os.path.join(TOP, "tools", "packages.py"), RELEASE, cls.folder], capture_output=True)
        cls.said = ran.returncode, ran.stderr.decode()

    def one(self, pattern):
        found = glob.glob(os.path.join(self.folder, pattern))
        if not found:
            self.skipTest(f"the release has nothing for {pattern}")
        self.assertEqual(len(found), 1)
        return found[0]


class Packages(Made):
    def test_they_are_made_and_summed(self):
        self.assertEqual(self.said, (0, ""))
        subprocess.run(["sha256sum", "--check", "--quiet", "--strict", "SHA256SUMS"], cwd=self.folder, check=True)
        listed = {line.split("  ")[1] for line in read(os.path.join(self.folder, "SHA256SUMS")).decode().splitlines()}
        files = {os.path.relpath(it, self.folder) for it in glob.glob(f"{self.folder}/**", recursive=True) if os.path.isfile(it)}
        self.assertEqual(listed, files - {"SHA256SUMS"})

    def test_the_same_release_gives_the_same_bytes(self):
        for name, data in packages.packages(RELEASE, read("VERSION").decode().strip(), f"file://{self.folder}"):
            self.assertEqual(read(os.path.join(self.folder, name)), data, name)

    def test_a_wheel_is_installed_and_plays(self):
        wheel = self.one("*linux*.whl")
        with tempfile.TemporaryDirectory() as folder:
            subprocess.run([sys.executable, "-m", "venv", folder], check=True)
            python, where = os.path.join(folder, "bin", "python"), {k: v for k, v in os.environ.items() if k != "PATHSERVE_LIBRARY"}
            words = [python, "-m", "pip", "install", "-q", "--no-index", "--no-deps", "--disable-pip-version-check", wheel]
            subprocess.run(words, env=where, check=True)
            code = """import sys, pathserve
match = pathserve.TextMatch()
match.feed(sys.stdin.buffer.read())
sys.stdout.buffer.write(match.take())"""
            how = {"cwd": folder, "env": where, "capture_output": True}
            ran = subprocess.run([python, "-c", code], input=read("examples/skirmish.script"), **how)
            self.assertEqual((ran.stdout, ran.returncode), (read("examples/skirmish.answers"), 0), ran.stderr.decode())
            example = shutil.copy(os.path.join(TOP, "examples", "python", "skirmish.py"), folder)
            ran = subprocess.run([python, example], **how)
            self.assertTrue(ran.stdout.startswith(b"turn 1: "), ran.stderr.decode())
            check = subprocess.run([python, "-m", "pip", "check", "--disable-pip-version-check"], **how)
            self.assertEqual(check.returncode, 0, check.stdout.decode())

    def test_a_wheel_has_the_library_of_its_platform(self):
        for pattern, library in (("*win_amd64.whl", "windows/bin/pathserve.dll"), ("*linux*.whl", "lib/libpathserve.so.0")):
            with zipfile.ZipFile(self.one(pattern)) as it:
                names = it.namelist()
                name = f"pathserve/{os.path.basename(library)}"
                self.assertEqual(it.read(name), read(os.path.join(RELEASE, library)))
                record = next(one for one in names if one.endswith("/RECORD"))
                listed = {line.split(",")[0] for line in it.read(record).decode().splitlines()}
            self.assertEqual(listed, set(names))

    def test_an_archive_has_one_platform_with_its_sums(self):
        with tarfile.open(self.one("*.tar.gz")) as it, tempfile.TemporaryDirectory() as folder:
            it.extractall(folder)
            self.sums_are_right(folder, {"lib"})
        with zipfile.ZipFile(self.one("*.zip")) as it, tempfile.TemporaryDirectory() as folder:
            it.extractall(folder)
            self.sums_are_right(folder, {"windows"})

    def sums_are_right(self, folder, platform):
        top = os.path.join(folder, *os.listdir(folder))
        subprocess.run(["sha256sum", "--check", "--quiet", "--strict", "SHA256SUMS"], cwd=top, check=True)
        self.assertEqual(packages.PLATFORMS & set(os.listdir(top)), platform)
        self.assertTrue(os.path.isfile(os.path.join(top, "include", "pathserve.h")))

    @unittest.skipUnless(NODE and shutil.which("npm") and os.path.isfile(MODULE), "npm or the package for JavaScript is missing")
    def test_npm_installs_what_is_for_javascript(self):
        with tempfile.TemporaryDirectory() as folder:
            words = ["npm", "install", "--offline", "--no-audit", "--no-fund", self.one("pathserve-*.tgz")]
            ran = subprocess.run(words, cwd=folder, capture_output=True)
            self.assertEqual(ran.returncode, 0, ran.stderr.decode())
            code = """import { load } from "pathserve";
import { readFileSync } from "node:fs";
const match = (await load()).textMatch();
match.feed(readFileSync(0));
process.stdout.write(match.takeText());"""
            with open(os.path.join(folder, "play.mjs"), "w", encoding="utf-8") as it:
                it.write(code)
            ran = subprocess.run([NODE, "play.mjs"], cwd=folder, input=read("examples/skirmish.script"), capture_output=True)
            self.assertEqual((ran.stdout, ran.returncode), (read("examples/skirmish.answers"), 0), ran.stderr.decode())


# by triplet: what vcpkg tells a port, and the files that a program is linked and run with
LINUX, WINDOWS, MINGW = ["-DVCPKG_TARGET_IS_LINUX=1"], ["-DVCPKG_TARGET_IS_WINDOWS=1"], ["-DVCPKG_TARGET_IS_WINDOWS=1", "-DVCPKG_TARGET_IS_MINGW=1"]
TRIPLETS = {
    "x64-linux": (LINUX, "static", ["lib/libpathserve.a"]),
    "x64-linux-dynamic": (LINUX, "dynamic", ["lib/libpathserve.so", "lib/libpathserve.so.0"]),
    "x64-windows": (WINDOWS, "dynamic", ["bin/pathserve.dll", "lib/pathserve.lib"]),
    "x64-windows-static": (WINDOWS, "static", ["bin/pathserve.dll", "lib/pathserve.lib"]),
    "x64-mingw-static": (MINGW, "static", ["lib/libpathserve.a"]),
    "x64-mingw-dynamic": (MINGW, "dynamic", ["bin/pathserve.dll", "lib/libpathserve.dll.a"]),
}
GAME = f"""cmake_minimum_required(VERSION 3.10)
project(game C)
set(CMAKE_C_STANDARD 11)
find_package(pathserve {read("VERSION").decode().strip()} REQUIRED CONFIG)
add_executable(game {TOP}/examples/c/by_structs.c)
target_link_libraries(game PRIVATE pathserve::pathserve)
"""


@unittest.skipUnless(shutil.which("cmake"), "there is no cmake")
class Port(Made):
    """The port for vcpkg, which is run by CMake with stand-ins for vcpkg's own functions."""

    def installed(self, triplet, folder):
        """What the port installs for a triplet: its files, and the folder."""
        system, linkage, _ = TRIPLETS[triplet]
        self.one("*.tar.gz" if system == LINUX else "*.zip")
        where = [f"-DPORT_FOLDER={self.folder}/vcpkg/pathserve", f"-DWORK={folder}", f"-DVCPKG_LIBRARY_LINKAGE={linkage}"]
        ran = subprocess.run(["cmake", *system, *where, "-P", f"{TOP}/tools/tests/library/vcpkg.cmake"], capture_output=True)
        self.assertEqual(ran.returncode, 0, ran.stderr.decode())
        top = os.path.join(folder, "installed")
        return {os.path.relpath(it, top) for it in glob.glob(f"{top}/**", recursive=True) if os.path.isfile(it)}, top

    def game(self, top, folder, words=()):
        """The example, linked with what is installed."""
        with open(os.path.join(folder, "CMakeLists.txt"), "w", encoding="utf-8") as it:
            it.write(GAME)
        for line in (["-S", folder, "-B", f"{folder}/made", f"-DCMAKE_PREFIX_PATH={top}", *words], ["--build", f"{folder}/made"]):
            ran = subprocess.run(["cmake", *line], capture_output=True)
            self.assertEqual(ran.returncode, 0, ran.stderr.decode())
        return f"{folder}/made/game"

    def test_each_triplet_gets_its_library(self):
        shared = ["copyright", "pathserve-config-version.cmake", "pathserve-config.cmake", "usage"]
        for triplet, (_, _, files) in TRIPLETS.items():
            with tempfile.TemporaryDirectory() as folder:
                found, _ = self.installed(triplet, folder)
            self.assertEqual(found, {"include/pathserve.h", *files, *(f"share/pathserve/{it}" for it in shared)}, triplet)

    def test_a_game_is_linked_with_it(self):
        for triplet in ("x64-linux", "x64-linux-dynamic"):
            with tempfile.TemporaryDirectory() as folder:
                ran = subprocess.run([self.game(self.installed(triplet, folder)[1], folder)], capture_output=True)
            self.assertEqual((ran.stdout, ran.returncode), (read("examples/skirmish.answers"), 0), triplet)

    @unittest.skipUnless(shutil.which(MINGW_CC), "there is no mingw")
    def test_a_game_for_windows_is_linked_with_it(self):
        system = ["-DCMAKE_SYSTEM_NAME=Windows", f"-DCMAKE_C_COMPILER={MINGW_CC}", "-DCMAKE_FIND_ROOT_PATH_MODE_PACKAGE=BOTH"]
        for triplet, needs in (("x64-mingw-static", set()), ("x64-mingw-dynamic", {"pathserve.dll"})):
            with tempfile.TemporaryDirectory() as folder:
                game = read(self.game(self.installed(triplet, folder)[1], folder, system) + ".exe")
            self.assertEqual({it for it in {"pathserve.dll"} if it.encode() in game}, needs, triplet)

    def test_an_archive_that_was_changed_is_refused(self):
        archive = self.one("*.tar.gz")
        with tempfile.TemporaryDirectory() as folder:
            kept = shutil.copy(archive, folder)
            try:
                with open(archive, "ab") as it:
                    it.write(b"\0")
                with self.assertRaisesRegex(AssertionError, "(?i)hash mismatch"):
                    self.installed("x64-linux", os.path.join(folder, "work"))
            finally:
                shutil.copy(kept, archive)


class Parts(unittest.TestCase):
    def test_a_wheel_names_the_c_library_that_is_needed(self):
        self.assertEqual(packages.linux_platform(b"GLIBC_2.14\0GLIBC_2.2.5\0"), "manylinux_2_17_x86_64")
        self.assertEqual(packages.linux_platform(b"GLIBC_2.14\0GLIBC_2.34\0"), "manylinux_2_34_x86_64")

    def test_an_archive_keeps_links_and_modes(self):
        data = packages.tarred({"a/run": (b"x", 0o755)}, [("a/link", "run")])
        with tarfile.open(fileobj=io.BytesIO(data)) as it:
            said = [(one.name, one.mode & 0o777, one.linkname, one.mtime) for one in it.getmembers()]
        self.assertEqual(said[0], ("a/run", 0o755, "", 0))
        self.assertEqual((said[1][0], said[1][2]), ("a/link", "run"))

    def test_a_sum_of_a_wheel_is_that_of_its_bytes(self):
        self.assertEqual(packages.sum_in_base64(b""), "sha256=47DEQpj8HBSa-_TImW-5JCeuQeRkm5NMpJWZG3hSuFU")


if __name__ == "__main__":
    unittest.main()
