"""Kept matches that are checked by the engines of examples/fleet, in earnest, on this machine. A worker is ended in the middle."""
import os
import shutil
import socket
import subprocess
import time
import unittest

from places import TOP, read, tool
from pretender import Pretender, write

SSHD, ROOM = "/usr/sbin/sshd", "/run/sshd"  # the folder is one that sshd wants where root runs it
# What a match does once: it ends the process that runs its part, or the worker above that.
ENDS_PART = "kill -9 $PPID"
ENDS_WORKER = "kill -9 $(sed 's/.*) . //; s/ .*//' /proc/$PPID/stat)"


def python_of(command):
    """The interpreter that a Python command was installed for."""
    with open(shutil.which(command), encoding="utf-8") as file:
        return file.readline()[2:].split()[0]


def free_port():
    with socket.socket() as it:
        it.bind(("127.0.0.1", 0))
        return it.getsockname()[1]


def waits_for(holds, seconds=60):
    end = time.monotonic() + seconds
    while not holds():
        if time.monotonic() > end:
            raise unittest.SkipTest("what the test wants did not start within a minute")
        time.sleep(0.1)


class Fleet(Pretender):
    def setUp(self):
        super().setUp()
        self.script, self.answers = read("examples/skirmish.script"), read("examples/skirmish.answers")
        self.env = {**os.environ, "PYTHONDONTWRITEBYTECODE": "1"}

    def begun(self, *words, **more):
        """A process that ends with the test."""
        log = open(f"{self.folder}/log", "ab")
        self.addCleanup(log.close)
        it = subprocess.Popen(words, stdin=subprocess.DEVNULL, stdout=log, stderr=log, env=self.env, **more)
        self.addCleanup(it.wait)
        self.addCleanup(it.terminate)
        return it

    def list_of(self, once):
        """Twelve matches of which one differs, and one ends its worker; the report of one process, and the list's name."""
        for n in range(12):
            other = self.answers.replace(b"moved 1", b"moved 3") if n == 7 else None
            self.match(f"{n}", self.script + b" \n" * n, self.answers, other)
        name = f"{self.kept}/list"
        write(name, "".join(f"{self.kept}/{n}.script\n" for n in range(12)).encode())
        whole = tool("tools/replays.py", self.program, "--list", name)[:2]
        self.match("5", self.script + b" \n" * 5, self.answers, once=once)
        self.assertEqual(whole[1], 1)
        return whole, name

    def run_engine(self, words, whole, told=()):
        ran = subprocess.run(words, cwd=TOP, capture_output=True, env=self.env, timeout=300)
        self.assertEqual((ran.stdout.decode(), ran.returncode), (whole[0].decode(), whole[1]), ran.stderr.decode())
        self.assertTrue(any(it.endswith(".done") for it in os.listdir(self.told)), "no worker was ended")

    @unittest.skipUnless(shutil.which("parallel") and os.path.isfile(SSHD) and shutil.which("ssh"), "there is no parallel or no sshd")
    def test_ssh(self):
        whole, name = self.list_of(ENDS_PART)
        port = free_port()
        for key in ("host", "user"):
            subprocess.run(["ssh-keygen", "-q", "-t", "ed25519", "-N", "", "-f", f"{self.folder}/{key}"], check=True)
        server = f"Port {port}\nListenAddress 127.0.0.1\nHostKey {self.folder}/host\nAuthorizedKeysFile {self.folder}/user.pub\n"
        write(f"{self.folder}/server", f"{server}StrictModes no\nUsePAM no\nPidFile none\nSetEnv PATH={os.environ['PATH']}\n".encode())
        client = f"Host one two\nHostName 127.0.0.1\nPort {port}\nIdentityFile {self.folder}/user\nStrictHostKeyChecking no\n"
        write(f"{self.folder}/client", f"{client}UserKnownHostsFile /dev/null\nLogLevel ERROR\nBatchMode yes\n".encode())
        if os.geteuid() == 0 and not os.path.isdir(ROOM):
            os.mkdir(ROOM)
            self.addCleanup(os.rmdir, ROOM)
        self.begun(SSHD, "-D", "-e", "-f", f"{self.folder}/server")
        ssh = ["ssh", "-F", f"{self.folder}/client"]
        waits_for(lambda: subprocess.run([*ssh, "one", "true"], capture_output=True).returncode == 0, 20)
        write(f"{self.folder}/hosts", b"one\ntwo\n")
        self.env["PARALLEL_SSH"] = " ".join(ssh)
        self.run_engine(["examples/fleet/by_ssh", f"{self.folder}/hosts", self.program, name, "4"], whole)

    @unittest.skipUnless(shutil.which("dask-scheduler") and shutil.which("dask-worker"), "there is no Dask")
    def test_dask(self):
        whole, name = self.list_of(ENDS_WORKER)
        python, port = python_of("dask-scheduler"), free_port()
        address = f"tcp://127.0.0.1:{port}"
        words = ["--no-dashboard", "--host", "127.0.0.1"]
        self.begun("dask-scheduler", *words, "--port", f"{port}", cwd=self.folder)
        count = f"from distributed import Client; print(len(Client('{address}', timeout=60).scheduler_info()['workers']))"
        for _ in range(2):
            self.begun("dask-worker", address, *words, "--nthreads", "1", "--local-directory", self.folder, cwd=self.folder)
        waits_for(lambda: subprocess.run([python, "-c", count], capture_output=True).stdout == b"2\n", 120)
        self.run_engine([python, "examples/fleet/by_dask.py", address, self.program, name, "4"], whole)

    def test_help(self):
        for engine in ("by_ssh", "by_dask.py"):
            ran = subprocess.run([f"{TOP}/examples/fleet/{engine}", "--help"], capture_output=True, text=True)
            self.assertEqual((ran.returncode, ran.stdout[:6]), (0, "usage:"), engine)
            self.assertEqual(subprocess.run([f"{TOP}/examples/fleet/{engine}"], capture_output=True).returncode, 2)


if __name__ == "__main__":
    unittest.main()
