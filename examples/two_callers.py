#!/usr/bin/env python3
"""Two callers that are served, and what came of it played once more: two_callers.py ./pathserve (or the built program).

Both callers post by themselves under `serve`, which writes the journal that came of it and its answers. The journal is
then played turn by turn under `replay`, over a pipe. The status is 0 where each caller's posts are in the journal in
their order and each turn has the answers that `serve` wrote.
"""
import json
import subprocess
import sys

MAP = {"version": 3, "size": [64, 64], "callers": 2, "classes": [{"name": "infantry", "clearance": "0.5"}]}


def path(caller, start, goal):
    return {"caller": caller, "path": "infantry", "from": start, "goal": {"point": goal}}


def wall(caller, number):
    return {"caller": caller, "add": number, "unit": [f"{10 + number % 40}", "31.5", "1"], "mask": 1}


# what each caller posts: walls and paths, one after another
POSTS = [
    [post for n in range(200) for post in (wall(0, n), path(0, ["1.5", "1.5"], ["62.5", "62.5"]))],
    [post for n in range(200) for post in (path(1, ["62.5", "1.5"], ["1.5", "62.5"]), wall(1, 1000 + n))],
]


def text_of(lines):
    return "".join(json.dumps(line) + "\n" for line in lines)


def serve(program):
    """Has both callers served, and gives the lines of the journal and those of the answers to it."""
    script = text_of([MAP, *POSTS[0], *POSTS[1], {"end": 1}])
    done = subprocess.run([program, "serve"], input=script, stdout=subprocess.PIPE, text=True, check=True)
    lines = done.stdout.splitlines()
    journal = [line for line in lines if line.startswith("{")]
    return journal, lines[len(journal) :]


def turns_of(journal):
    """The turns of a journal, each a list of lines of which the end line is the last."""
    turns = [[]]
    for line in journal:
        turns[-1].append(line)
        if "end" in json.loads(line):
            turns.append([])
    return turns[:-1]


def posts_of(caller, journal):
    return [post for post in map(json.loads, journal) if post.get("caller") == caller]


def play(service, turn):
    """Sends the lines of a turn, and gives its answers: the turn line, and one line for each post."""
    try:
        service.stdin.write("".join(line + "\n" for line in turn))
        service.stdin.flush()
    except BrokenPipeError:
        pass  # the service has ended, and its last answer says why
    return [service.stdout.readline().rstrip("\n") for _ in turn]


def first_difference(program, journal, answers):
    """The first turn of the journal that has other answers when it is played than stand next, in words, or None."""
    service = subprocess.Popen([program, "replay"], stdin=subprocess.PIPE, stdout=subprocess.PIPE, text=True)
    service.stdin.write(journal[0] + "\n")
    place = 0
    for turn in turns_of(journal[1:]):
        told = play(service, turn)
        pairs = zip(told, answers[place : place + len(turn)])
        differs = next((pair for pair in pairs if pair[0] != pair[1]), None)
        if differs:
            return "{} in place of {}".format(*differs)
        place += len(turn)
    service.stdin.close()
    return None if service.wait() == 0 and place == len(answers) else "the answers do not end together"


def main(words):
    if len(words) != 1 or words[0].startswith("-"):
        is_asked = words in (["-h"], ["--help"])
        print(__doc__, file=sys.stdout if is_asked else sys.stderr)
        return 0 if is_asked else 2
    journal, answers = serve(words[0])
    in_order = all(posts_of(caller, journal) == POSTS[caller] for caller in (0, 1))
    differs = first_difference(words[0], journal, answers) if in_order else "a caller's posts are out of order"
    print(f"{len(turns_of(journal[1:]))} turns, {len(answers)} lines of answers;", f"THEY DIFFER: {differs}" if differs else "they agree", flush=True)
    return 1 if differs else 0


if __name__ == "__main__":
    try:
        sys.exit(main(sys.argv[1:]))
    except (OSError, subprocess.CalledProcessError) as it:
        sys.exit(f"two_callers.py: {it}")
