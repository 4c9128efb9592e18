"""Where the tests find the tools, the examples, the program and a browser."""
import os
import shutil
import subprocess
import sys
import tempfile
import unittest

TOP = os.path.dirname(os.path.dirname(os.path.dirname(os.path.abspath(__file__))))
sys.path.insert(0, os.path.join(TOP, "tools"))

# What was built last: by a proof, by `./pathserve`, or by the gate.
BUILT = [os.path.join(TOP, *it) for it in (("out", "pathserve"), ("out", "pathserve-unproved"), ("crates", "pathserve_bin", "out", "pathserve_bin"))]
PROGRAM = os.environ.get("PATHSERVE") or max(BUILT, key=lambda it: os.path.getmtime(it) if os.path.isfile(it) else 0)
BROWSER = os.environ.get("CHROMIUM") or shutil.which("chromium") or shutil.which("chromium-browser")

needs_program = unittest.skipUnless(os.access(PROGRAM, os.X_OK), "the program is not built")
needs_browser = unittest.skipUnless(BROWSER, "there is no chromium")


def tool(name, *words):
    """What a tool or an example writes, and its status; names of files are below the top."""
    ran = subprocess.run([sys.executable, "-B", os.path.join(TOP, name), *words], cwd=TOP, capture_output=True)
    return ran.stdout, ran.returncode, ran.stderr.decode()


def read(name):
    with open(os.path.join(TOP, name), "rb") as file:
        return file.read()


def shown(page, words=""):
    """What a browser without a screen has of a page after it was read, as text. On a machine that is too busy it is skipped."""
    with tempfile.TemporaryDirectory() as folder:
        name = os.path.join(folder, "page.html")
        with open(name, "w", encoding="utf-8") as file:
            file.write(page)
        options = ["--headless=new", "--no-sandbox", "--disable-gpu", f"--user-data-dir={folder}/profile", "--virtual-time-budget=5000"]
        run = [BROWSER, *options, "--dump-dom", f"file://{name}#{words}"]
        try:
            return subprocess.run(run, capture_output=True, timeout=240).stdout.decode()
        except subprocess.TimeoutExpired:
            raise unittest.SkipTest("the browser gave nothing within four minutes") from None
