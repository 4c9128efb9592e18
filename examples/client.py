#!/usr/bin/env python3
"""A game that asks the service turn by turn, over a pipe: client.py PROGRAM [WORD].

PROGRAM is the built file, out/pathserve or out/pathserve-unproved. WORD is replay, or another word that answers turn by
turn: under those a line more follows each path.
"""
import json
import math
import subprocess
import sys

NOT_BY_TURNS = {"serve", "make"}  # the words of the program that read on before they answer, or read nothing


def decimal(number):
    """A number as the service reads it: a text, rounded down to a multiple of 1/65536, which 16 decimals write exactly."""
    return f"{math.floor(number * 65536) / 65536:.16f}"


class Service:
    def __init__(self, program, map_line, word="replay"):
        self.process = subprocess.Popen([program, word], stdin=subprocess.PIPE, stdout=subprocess.PIPE, text=True)
        self.lines_of_path = 1 if word == "replay" else 2
        self.send([map_line])

    def send(self, lines):
        try:
            for line in lines:
                self.process.stdin.write(json.dumps(line) + "\n")
            self.process.stdin.flush()
        except BrokenPipeError:
            pass  # the service has ended, and its last answer says why

    def play(self, turn, posts):
        """Sends the posts of a turn, and gives its answers: the turn line, and the lines for each post."""
        self.send([*posts, {"end": turn}])
        # (read before the next turn is sent: where nobody reads, the pipe fills and the service waits)
        answers = [self.line()]
        if not answers[0].startswith("turn "):
            raise RuntimeError(answers[0] or f"the service has ended with status {self.process.wait()}")
        for _ in posts:
            answers.append(self.line())
            is_path = answers[-1].split()[2:3] == ["path"]
            answers += [self.line() for _ in range(self.lines_of_path - 1) if is_path]
        return answers

    def line(self):
        return self.process.stdout.readline().rstrip()

    def close(self):
        """The exit status of the service."""
        self.process.stdin.close()
        return self.process.wait()


def main(words):
    if len(words) not in (1, 2) or words[0].startswith("-") or NOT_BY_TURNS & {*words[1:]}:
        is_asked = words in (["-h"], ["--help"])
        print(__doc__, file=sys.stdout if is_asked else sys.stderr)
        return 0 if is_asked else 2
    classes = [{"name": "infantry", "clearance": decimal(0.5)}]
    service = Service(words[0], {"version": 3, "size": [12, 8], "callers": 1, "classes": classes}, *words[1:])
    ask = {"caller": 0, "path": "infantry", "from": ["1.5", "1.5"], "goal": {"point": [decimal(10.5), decimal(1.5)]}}
    print(*service.play(1, [ask]), sep="\n")
    # what comes next may depend on those answers
    wall = {"caller": 0, "add": 1, "unit": [decimal(6), decimal(1.5), decimal(1)], "mask": 1}
    print(*service.play(2, [wall, ask]), sep="\n", flush=True)
    return service.close()


if __name__ == "__main__":
    try:
        sys.exit(main(sys.argv[1:]))
    except (OSError, RuntimeError) as it:
        sys.exit(f"client.py: {it}")
