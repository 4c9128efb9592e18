"""Where answers contradict their script.

All that docs/FORMAT.md says of a reply is looked at, but for what takes a search: that a walk is a cheapest one and the
chosen one, that a near end is the least remote, how many states were opened, and what the cells of a field sum up to.
"""
import mapscript
from mapscript import CHUNK, SIDE, check

WAYS = {way: name for name, way in check.STEPS.items()}
COUNTED = ("regions", "edges", "areas", "relabelled")
BOX_CELLS = 20000  # of a larger goal it is not looked for a goal cell that could be walked to


class Contradiction:
    """What is wrong, in which turn, at which post of the script, and at which cell (column and row from the south-west)."""

    def __init__(self, turn, text, post=None, cell=None):
        self.turn, self.text, self.post, self.cell = turn, text, post, cell

    def __str__(self):
        place = f"turn {self.turn}" if self.turn else "the answers"
        if self.post:
            place += f", script line {self.post.line}, post {self.post.caller} {self.post.number}"
        return f"{place}: {self.text}" + (f" at {self.cell[0]} {self.cell[1]}" if self.cell else "")


class Wrong(Exception):
    """A reply that is wrong, perhaps at a cell."""

    def __init__(self, text, cell=None):
        super().__init__(text)
        self.cell = cell


def needs(holds, text, cell=None):
    if not holds:
        raise Wrong(text, cell)


class Answers:
    """Answers by turn: the turn line, and the replies to each post as lists of texts without its two numbers.

    `order` has the numbers of the turn lines as they stand, and `late` for each turn the posts whose replies stand behind
    those to later ones, each with the post that it is behind.
    """

    def __init__(self, text):
        self.turns, self.order, self.late, self.bad, self.odd, now, last = {}, [], {}, 0, [], None, None
        for number, line in enumerate(text.decode("utf-8", "replace").splitlines(), 1):
            words = line.split(" ")
            if words[0] == "turn" and words[1:2] and words[1].isdecimal():
                self.order.append(int(words[1]))
                now, last = self.turns.setdefault(self.order[-1], (line, {})), (-1, -1)
            elif words[:2] == ["bad", "line"] and words[2:3] and words[2].isdecimal():
                self.bad = int(words[2])
            elif now and len(words) > 2 and words[0].isdecimal() and words[1].isdecimal():
                key = int(words[0]), int(words[1])
                now[1].setdefault(key, []).append(line.split(" ", 2)[2])
                if key < last:
                    self.late.setdefault(self.order[-1], {}).setdefault(key, last)
                last = max(key, last)
            else:
                self.odd.append((number, line))


# ---- paths


def middle(text):
    """The cell whose middle a waypoint names."""
    parts = text.split(",")
    needs(len(parts) == 2 and all(it.endswith(".5") and it[:-2].isdecimal() for it in parts), f"no waypoint: {text}")
    return tuple(int(it[:-2]) for it in parts)


class Path:
    """A path as its line tells it."""

    def __init__(self, text):
        words = text.split(" ")
        needs(len(words) >= 8 and all(it.isdecimal() for it in words[1:5] + words[6:8]), "this is no path line")
        self.start, self.end = (int(words[1]), int(words[2])), (int(words[3]), int(words[4]))
        self.word, self.cost = words[5], int(words[6])
        self.waypoints = [middle(it) for it in words[8:]]
        needs(self.word in ("goal", "near"), f"an end is goal or near, not {self.word}")
        needs(len(self.waypoints) == int(words[7]), f"{len(self.waypoints)} waypoints and not {words[7]}")

    def places(self):
        return [self.start, *self.waypoints]


def direction(a, b):
    di, dj = b[0] - a[0], b[1] - a[1]
    needs((di or dj) and (di == 0 or dj == 0 or abs(di) == abs(dj)), "a leg is neither straight nor diagonal", b)
    return (di > 0) - (di < 0), (dj > 0) - (dj < 0)


def walk(ground, k, path):
    """Goes along a path, and gives what it costs."""
    cost, before, places = 0, None, path.places()
    needs(not ground.blocked(k, *path.start), "the path starts on a blocked cell", path.start)
    for a, b in zip(places, places[1:]):
        di, dj = direction(a, b)
        needs((di, dj) != before, "there is a waypoint where the direction does not change", a)
        before, (i, j) = (di, dj), a
        while (i, j) != b:
            i, j = i + di, j + dj
            needs(not ground.blocked(k, i, j), "the path goes over a blocked cell", (i, j))
            if di and dj:
                sides = [(i - di, j), (i, j - dj)]
                needs(not any(ground.blocked(k, *it) for it in sides), "the path cuts a corner", (i, j))
            cost += 92682 if di and dj else 65536
    return cost


def plain_goal(ground, kind, numbers):
    if kind != "obstruction":
        return check.Goal(kind, numbers)
    square, distance = ground.standing[numbers[0]][0], numbers[1]
    return check.Goal("square", square[:4] + [it + distance for it in square[4:]])


def refusal(ground, post):
    """The word for which a path or region post is refused, or None."""
    map_, (name, (x, z)) = ground.map, post.values[2:4]
    if name not in map_.classes:
        return "unknown-class"
    if not map_.holds(x, z):
        return "start-outside"
    if post.kind == "region":
        return None
    kind, numbers = post.values[4]
    if kind == "obstruction":
        if not 0 <= numbers[1] <= 3840 * SIDE:
            return "bad-shape"
        return None if numbers[0] in ground.standing else "unknown-id"
    if not check.Goal(kind, numbers).is_well_formed():
        return "bad-shape"
    return None if map_.holds(*numbers[:2]) else "goal-outside"


def reachable_goal(ground, labels, goal, area):
    """A goal cell of an area, where the goal's box is small enough to look."""
    i0, j0, i1, j1 = goal.box(ground.map.w, ground.map.h)
    if (i1 - i0 + 1) * (j1 - j0 + 1) > BOX_CELLS:
        return None
    cells = ((i, j) for j in range(j0, j1 + 1) for i in range(i0, i1 + 1))
    return next((it for it in cells if goal.has(it) and labels.at(*it)[1] == area), None)


def check_path(ground, k, labels, post, path):
    x, z = post.values[3]
    start = ground.nearest(k, x, z)
    needs(path.start == start, f"the start cell is {path.start[0]} {path.start[1]}, and is to be", start)
    cost = walk(ground, k, path)
    needs(path.places()[-1] == path.end, "the last waypoint is not the end cell", path.end)
    needs(cost == path.cost, f"the walk costs {cost}, and not {path.cost}", path.end)
    goal = plain_goal(ground, *post.values[4])
    if path.word == "goal":
        needs(goal.has(path.end), "the end is no goal cell", path.end)
    else:
        found = reachable_goal(ground, labels, goal, labels.at(*start)[1])
        needs(not goal.has(path.end) and not found, "a goal cell can be walked to", found or path.end)


# ---- what stands behind a path line


def touched(a, b):
    """The cells that the segment between two cells' middles touches."""
    di, dj = b[0] - a[0], b[1] - a[1]
    for j in range(min(a[1], b[1]), max(a[1], b[1]) + 1):
        for i in range(min(a[0], b[0]), max(a[0], b[0]) + 1):
            if 2 * abs(di * (j - a[1]) - dj * (i - a[0])) <= abs(di) + abs(dj):
                yield i, j


def check_smooth(ground, k, path, words):
    kept = [path.start, *(middle(it) for it in words[2:])]
    needs(words[1:2] == [str(len(kept) - 1)], "the number of smoothed waypoints is wrong")
    places, at = path.places(), 0
    for a, b in zip(kept, kept[1:]):
        ahead = places[at + 1:at + 65]
        needs(b in ahead, "a smoothed waypoint is none of the next 64 of the path", b)
        at += 1 + ahead.index(b)
        hit = next((it for it in touched(a, b) if ground.blocked(k, *it)), None)
        needs(not hit, "a smoothed leg touches a blocked cell", hit)
    needs(at == len(places) - 1, "the smoothed waypoints do not lead to the end", kept[-1])


def check_flow(ground, k, labels, path, words):
    needs(len(words) == 5 and all(it.isdecimal() for it in words[2:]), "this is no flow line")
    cells, far, total = map(int, words[2:])
    area = labels.at(*path.start)[1]
    needs(cells == labels.area_cells[area], f"the area has {labels.area_cells[area]} cells, and not {cells}", path.start)
    needs(path.cost <= far <= total or cells == 1, "the farthest cell is nearer than the start, or farther than all together")
    needs((words[1] == "-") == (path.cost == 0), f"at cost {path.cost} the field does not lead {words[1]}", path.start)
    if path.cost:
        needs(words[1] in check.STEPS, f"{words[1]} is no direction")
        (i, j), (di, dj) = path.start, check.STEPS[words[1]]
        beside = [(i + di, j), (i, j + dj), (i + di, j + dj)]
        needs(not any(ground.blocked(k, *it) for it in beside), "the field leads over a blocked cell", beside[2])


def check_note(ground, k, labels, path, text):
    words = text.split(" ")
    if words[0] == "opened":
        needs(len(words) == 2 and words[1].isdecimal() and int(words[1]) > 0, "at least the start is opened")
    elif words[0] == "smooth":
        check_smooth(ground, k, path, words)
    elif words[0] == "flow":
        check_flow(ground, k, labels, path, words)
    else:
        raise Wrong(f"no such line stands behind a path: {words[0]}")


# ---- turns


class Match:
    """A script with its answers, turn by turn. `ground` is what the answers say stands, and `done` is told each turn's number."""

    def __init__(self, script, answers, done=lambda turn: None):
        self.script, self.answers, self.done = script, answers, done
        self.ground = mapscript.Ground(script.map)
        self.labels = [mapscript.Labels(self.ground, k) for k in range(len(script.map.classes))]
        self.found = []

    def add(self, turn, text, post=None, cell=None):
        self.found.append(Contradiction(turn, text, post, cell))

    def turns(self):
        """Goes on turn by turn, as far as there are answers, and gives each with its line and its replies."""
        for turn in self.script.turns:
            if turn.number not in self.answers.turns:
                break
            line, replies = self.answers.turns[turn.number]
            self.edit(turn, replies)
            changed = self.ground.settle()
            for k, labels in enumerate(self.labels):
                labels.update({(c, d) for it, c, d in changed if it == k})
            self.check_line(turn, line, len(changed))
            known = {(it.caller, it.number) for it in turn.posts}
            for caller, number in sorted(set(replies) - known):
                self.add(turn.number, f"a reply to no post: {caller} {number}")
            late = self.answers.late.get(turn.number, {})
            for post in turn.in_order():
                self.check_reply(turn, post, replies.get((post.caller, post.number), []))
                behind = late.get((post.caller, post.number))
                if behind:
                    self.add(turn.number, f"its reply stands behind that to post {behind[0]} {behind[1]}", post)
            yield turn, line, replies
            self.done(turn.number)
        self.check_end()

    def answered(self):
        """How many turns of the script have answers, from the first on."""
        return next((n for n, it in enumerate(self.script.turns) if it.number not in self.answers.turns), len(self.script.turns))

    def ends_early(self):
        """What to tell of answers that end before their script, as those of a run that was stopped do, or an empty text."""
        count, most = self.answered(), len(self.script.turns)
        return f"answers end after turn {count} of {most}" if count < most else ""

    def go_through(self):
        for _ in self.turns():
            pass

    def edit(self, turn, replies):
        for post in turn.in_order():
            if post.kind not in check.EDITS:
                continue
            said = replies.get((post.caller, post.number), [""])[0]
            standing = dict(self.ground.standing)
            wanted = check.edited(self.script.map, standing, post.values)
            if said != wanted:
                self.add(turn.number, f"it is to be '{wanted}', and not '{said}'", post)
            self.draw(post, said)

    def draw(self, post, said):
        """What an edit's reply says."""
        number, ground = post.values[2], self.ground
        if said.startswith("added"):
            ground.put(number, *post.values[3:])
        elif said.startswith("removed"):
            ground.take(number)
        elif said.startswith("moved") and number in ground.standing:
            square, mask = ground.standing[number]
            ground.put(number, post.values[3] + square[2:], mask)

    def check_line(self, turn, line, changed):
        counts = [sum(it.region_count for it in self.labels), sum(len(it.edges) for it in self.labels)]
        counts += [sum(len(it.area_cells) - 1 for it in self.labels), changed]
        wanted = f"turn {turn.number} " + " ".join(f"{a} {b}" for a, b in zip(COUNTED, counts))
        if line != wanted:
            self.add(turn.number, f"the turn line is to be '{wanted}', and not '{line}'")

    def check_reply(self, turn, post, said):
        if len(said) > 1 and not said[0].startswith("path "):
            self.add(turn.number, f"one line answers it, and behind it stands '{said[1]}'", post)
        if post.kind in check.EDITS:
            return
        try:
            needs(said, "there is no reply")
            word = refusal(self.ground, post)
            needs((said[0] == f"refused {word}") == bool(word), f"it is to be 'refused {word}', and not '{said[0]}'")
            if word:
                return
            needs(not said[0].startswith("refused"), f"nothing refuses it, and it says '{said[0]}'")
            k = list(self.script.map.classes).index(post.values[2])
            (self.check_region if post.kind == "region" else self.check_asked)(k, post, said)
        except Wrong as it:
            self.add(turn.number, str(it), post, it.cell)

    def check_region(self, k, post, said):
        cell = tuple(it // SIDE for it in post.values[3])
        numbers = (cell[0] // CHUNK, cell[1] // CHUNK, *self.labels[k].at(*cell))
        wanted = "region {} {} {} {}".format(*numbers)
        needs(said[0] == wanted, f"it is to be '{wanted}', and not '{said[0]}'", cell)

    def check_asked(self, k, post, said):
        if all(it == self.ground.full for it in self.ground.rows[k]):
            needs(said[0] == "nowhere", f"no cell is passable, and it says '{said[0]}'")
            return
        needs(said[0].startswith("path "), f"this is no path: {said[0]}")
        path = Path(said[0])
        check_path(self.ground, k, self.labels[k], post, path)
        for note in said[1:]:
            check_note(self.ground, k, self.labels[k], path, note)

    def check_end(self):
        last = max(self.answers.turns, default=0)
        for place, number in enumerate(self.answers.order, 1):
            if number != place:
                self.add(number, f"its turn line stands where that of turn {place} is to stand")
                break
        if self.answers.bad and last < len(self.script.turns):
            self.add(last, f"'bad line {self.answers.bad}' stands where turn {last + 1} is to stand")
        if last > len(self.script.turns):
            self.add(last, f"the script has {len(self.script.turns)} turns")
        if self.answers.bad != self.script.bad and (self.answers.bad or last == len(self.script.turns)):
            self.add(last, f"the first bad line is {self.script.bad}, and not {self.answers.bad} (0 for none)")
        for number, line in self.answers.odd:
            self.add(0, f"line {number} has no form of an answer: {line[:80]}")
