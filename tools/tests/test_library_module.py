"""The module that is kept of a proved crate: it is the crate's, and what is built beside it is what the kit builds."""
import os
import shutil
import subprocess
import sys
import tempfile
import unittest

from places import TOP, read

SOURCE = """\
//! A trial of one function that C calls.
#![tactic(auto)]
ghost use Rattle.std.specs.Prelude.{◌≡◌};

/// Always seven.
#[unsafe(no_mangle)]
pub extern "C" fn pathserve_seven() -> u32
    ensures { result ≡ %s }
{
    7
}
"""
KEEP = """\
import sys
sys.path.insert(0, sys.argv[1])
import library_module
library_module.CRATE = sys.argv[2]
library_module.keep_proved(sys.argv[3], sys.argv[4:])
"""


@unittest.skipUnless(shutil.which("rt"), "the command rt is missing")
class Proved(unittest.TestCase):
    def setUp(self):
        self.top = self.enterContext(tempfile.TemporaryDirectory())
        self.crate, self.kept = os.path.join(self.top, "crates", "pathserve_c"), os.path.join(self.top, "kept")
        os.makedirs(os.path.join(self.crate, "src"))
        os.makedirs(self.kept)
        shutil.copy(os.path.join(TOP, "HANDLES"), self.top)
        with open(os.path.join(self.top, "crates.txt"), "w", encoding="utf-8") as it:
            it.write("pathserve_c staticlib: core\n")
        subprocess.run(["git", "init", "-q", self.top], check=True)

    def keep(self, result, *flags):
        """Has the module kept of a crate whose contract says this result."""
        with open(os.path.join(self.crate, "src", "lib.rt"), "w", encoding="utf-8") as it:
            it.write(SOURCE % result)
        words = [sys.executable, "-B", "-c", KEEP, os.path.join(TOP, "tools"), self.crate, self.kept, *flags]
        ran = subprocess.run(words, capture_output=True, stdin=subprocess.DEVNULL)
        return ran.returncode, ran.stdout.decode(), ran.stderr.decode()

    def test_it_is_the_crates_and_the_archive_is_the_kits(self):
        status, said, why = self.keep(7, "--cpu", "x86-64")
        self.assertEqual(status, 0, said + why)
        self.assertRegex(said, r"(?m)^logic=proved functions=1 target=x86_64-unknown-linux-gnu sum=")
        self.assertIn(b"pathserve_seven", read(os.path.join(self.kept, "module.bc")))
        subprocess.run(["rt", "lib", "--cpu", "x86-64"], cwd=self.crate, capture_output=True, stdin=subprocess.DEVNULL, check=True)
        self.assertEqual(read(os.path.join(self.kept, "library.a")), read(os.path.join(self.crate, "out", "libpathserve_c.a")))

    def test_of_what_is_not_proved_none_is_kept(self):
        status, said, why = self.keep(8)
        self.assertNotEqual(status, 0)
        self.assertIn("the crate was not built", why)
        self.assertFalse(os.path.exists(os.path.join(self.kept, "module.bc")), said)


if __name__ == "__main__":
    unittest.main()
