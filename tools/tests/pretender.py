"""Kept matches in a folder, and a program that only pretends: it writes the answers that it was given for a script."""
import hashlib
import os
import stat
import tempfile
import unittest

FAKE = """#!/bin/sh
[ "$1" != --version ] || {{ echo 'pathserve 9, answers 7'; exit; }}
cd '{folder}' || exit 99
name=$1.$(sha256sum | cut -c 1-64)
cat "$name" || exit 6
if [ -f "$name.once" ] && mv "$name.once" "$name.done"; then . "./$name.done"; fi
exit "$(cat "$name.status")"
"""


def write(name, data):
    with open(name, "wb") as file:
        file.write(data)


class Pretender(unittest.TestCase):
    def setUp(self):
        made = tempfile.TemporaryDirectory()
        self.addCleanup(made.cleanup)
        self.folder, self.told, self.kept = made.name, f"{made.name}/told", f"{made.name}/kept matches ä"
        os.mkdir(self.told)
        os.mkdir(self.kept)
        self.program = f"{made.name}/program"
        write(self.program, FAKE.format(folder=self.told).encode())
        os.chmod(self.program, stat.S_IRWXU)

    def match(self, name, script, answers=None, said=None, status=0, once=None):
        """A match with these answers beside it, what the program says to it under `replay`, and what it does once."""
        write(f"{self.kept}/{name}.script", script)
        if answers is not None:
            write(f"{self.kept}/{name}.answers", answers)
        at = f"{self.told}/replay.{hashlib.sha256(script).hexdigest()}"
        write(at, answers if said is None else said)
        write(f"{at}.status", str(status).encode())
        if once:
            write(f"{at}.once", once.encode())
