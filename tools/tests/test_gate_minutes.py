"""The table of what the gate costs, of a made file and of a run of another command."""
import os
import sys
import tempfile
import unittest

from places import tool

LINES = "walks\tcheck\t90.00\t512\nwalks\twrong bodies\t30.00\t1024\nnav_types\tlibrary\t240.00\t256\n"


class GateMinutes(unittest.TestCase):
    def test_a_table_has_the_dearest_crate_first(self):
        with tempfile.TemporaryDirectory() as folder:
            with open(f"{folder}/cost", "w", encoding="utf-8") as it:
                it.write(LINES)
            rows = tool("tools/gate_minutes.py", f"{folder}/cost")[0].decode().splitlines()[2:]
        cells = [[it.strip() for it in row.strip("|").split("|")] for row in rows]
        self.assertEqual([[row[0], *row[4:]] for row in cells], [
            ["`nav_types`", "4.0", "0.0", "4.0", "0.0", "0.2"],
            ["`walks`", "2.0", "1.5", "0.0", "0.5", "1.0"],
            ["all", "6.0", "1.5", "4.0", "0.5", "1.0"],
        ])

    def test_a_run_is_looked_at(self):
        with tempfile.TemporaryDirectory() as folder:
            with open(f"{folder}/rattle", "w", encoding="utf-8") as it:
                it.write("import time\ntime.sleep(4)\nprint('done')\nraise SystemExit(3)\n")
            words = [sys.executable, f"{folder}/rattle", "check", "--crate-name", "walks"]
            # behind a shell that has other work, so that it is not the child itself
            command = ["sh", "-c", '"$@"; ended=$?; exit $ended', "sh", *words]
            out, status, said = tool("tools/gate_minutes.py", "--run", f"{folder}/cost", *command)
            self.assertEqual((out, status, said), (b"done\n", 3, ""))
            with open(f"{folder}/cost", encoding="utf-8") as it:
                (line,) = it.read().splitlines()
        self.assertEqual(line.split("\t")[:2], ["walks", "check"])
        self.assertFalse(os.path.exists(folder))


if __name__ == "__main__":
    unittest.main()
