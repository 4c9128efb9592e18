"""Scripts as the tools read them: the map, the posts of each turn, what stands, and which cells each class may pass.

The rules are those of docs/FORMAT.md; values of lines and shapes are judged by the plain program examples/check.py.
A row of cells is a whole number whose bit i is set where column i is blocked.
"""
import os
import sys

EXAMPLES = os.path.join(os.path.dirname(os.path.dirname(os.path.abspath(__file__))), "examples")
if not os.path.isfile(os.path.join(EXAMPLES, "check.py")):  # (a file of this name stands here too)
    sys.exit(f"{EXAMPLES}/check.py is missing: the folder examples must stand beside tools")
sys.path.insert(0, EXAMPLES)
import check  # noqa: E402

SIDE, CHUNK = check.SIDE, check.CHUNK


class Post:
    """A post line: its number in the script, its caller, its number among that caller's posts, and its values."""

    def __init__(self, line, number, values, text):
        self.line, self.number, self.values, self.text = line, number, values, text
        self.caller, self.kind = values[:2]


class Turn:
    def __init__(self, number):
        self.number, self.posts, self.end_line = number, [], None

    def in_order(self):
        """The posts in the order in which they are answered."""
        return sorted(self.posts, key=lambda it: (it.caller, it.number))


class Script:
    """A script up to its first bad line (`bad`, 0 where there is none); `turns` are those with an end line."""

    def __init__(self, text):
        self.map, self.turns, self.bad = None, [], 0
        lines = text.split(b"\n")
        if lines[-1] == b"":
            lines.pop()
        turn, number = None, 0
        try:
            for number, line in enumerate(lines, 1):
                value = check.value_of(line)
                if self.map is None:
                    self.map = check.Map(value)
                elif turn is None and check.has_keys(value, "base"):
                    self.map.add_base(value["base"])
                else:
                    turn = self.taken(turn or Turn(len(self.turns) + 1), number, line, value)
            number += 1
            check.needs(self.map and not (turn and turn.posts))
        except check.BadLine:
            self.bad = number

    def taken(self, turn, number, line, value):
        """The turn with one more line, or the next one behind an end line."""
        if not check.has_keys(value, "end"):
            values = self.map.post(value)
            count = sum(it.caller == values[0] for it in turn.posts)
            turn.posts.append(Post(number, count, values, line.decode()))
            return turn
        check.needs(check.whole(value["end"]) == turn.number)
        turn.end_line = number
        self.turns.append(turn)
        return Turn(turn.number + 1)


def row_bits(first, last):
    return (1 << last - first + 1) - 1 << first


def base_rows(map_):
    """For each class the rows of what its base rectangles block."""
    by_mask = {}
    for i0, j0, i1, j1, mask in map_.base:
        rows = by_mask.setdefault(mask, [0] * map_.h)
        bits = row_bits(i0, i1)
        for j in range(j0, j1 + 1):
            rows[j] |= bits
    found = [[0] * map_.h for _ in map_.classes]
    for mask, rows in by_mask.items():
        for k, mine in enumerate(found):
            if mask >> k & 1:
                found[k] = [a | b for a, b in zip(mine, rows)]
    return found


def rectangles(rows, width):
    """Disjoint rectangles `[i0, j0, i1, j1, mask]` that have the classes' rows."""
    found, open_, height = [], {}, len(rows[0])
    for j in range(height + 1):
        mine = set()
        if j < height:
            lines = [it[j] for it in rows]
            ends = 1 << width
            for bits in lines:
                ends |= bits ^ bits << 1
            first = 0
            while ends:
                at = (ends & -ends).bit_length() - 1
                ends &= ends - 1
                if at > first:
                    mask = sum((bits >> first & 1) << k for k, bits in enumerate(lines))
                    if mask:
                        mine.add((first, min(at, width) - 1, mask))
                first = at
        for key in [it for it in open_ if it not in mine]:
            found.append([key[0], open_.pop(key), key[1], j - 1, key[2]])
        for key in mine:
            open_.setdefault(key, j)
    return sorted(found, key=lambda it: (it[1], it[0]))


def blocked_rows(square, clearance, w, h):
    """The rows that a square blocks for a clearance, as a dict from row to bits. What it blocks of a row hangs together."""
    x, z, ux, uz, hw, hh = square
    wide, high, most = SIDE * hw, SIDE * hh, (SIDE * clearance) ** 2
    reach = hw + hh + 2 * clearance
    reach += reach // 64 + 1 + SIDE
    low, top = max(0, (x - reach) // SIDE), min(w - 1, (x + reach) // SIDE)

    def blocks(i, pz):
        px = SIDE * i + SIDE // 2 - x
        a, b = abs(px * ux + pz * uz) - wide, abs(pz * ux - px * uz) - high
        return (a * a if a > 0 else 0) + (b * b if b > 0 else 0) <= most

    found, last = {}, None
    for j in range(max(0, (z - reach) // SIDE), min(h - 1, (z + reach) // SIDE) + 1):
        pz = SIDE * j + SIDE // 2 - z
        # begin where the row before was blocked, and else try them all
        hit = next((i for i in last or () if blocks(i, pz)), None)
        if hit is None:
            hit = next((i for i in range(low, top + 1) if blocks(i, pz)), None)
        if hit is None:
            continue
        first = end = hit
        while first > low and blocks(first - 1, pz):
            first -= 1
        while end < top and blocks(end + 1, pz):
            end += 1
        found[j], last = row_bits(first, end), (first, end, (first + end) // 2)
    return found


class Ground:
    """What stands on a map, and for each class the blocked rows that come of it."""

    def __init__(self, map_):
        self.map, self.clearances = map_, list(map_.classes.values())
        self.full = row_bits(0, map_.w - 1)
        self.base = base_rows(map_)
        self.rows = [list(rows) for rows in self.base]
        self.standing, self.reaches = {}, {}
        self.over = [[set() for _ in range(map_.h)] for _ in self.rows]  # the numbers of what reaches into a row
        self.stale, self.texts = set(), {}

    def blocked(self, k, i, j):
        return not (0 <= i < self.map.w and 0 <= j < self.map.h) or self.row(k, j)[i] == "1"

    def row(self, k, j):
        """A row as a text, `1` where a cell is blocked."""
        if (k, j) not in self.texts:
            self.texts[k, j] = bin(self.rows[k][j] | 1 << self.map.w)[:2:-1]
        return self.texts[k, j]

    def put(self, number, square, mask):
        self.take(number)
        self.standing[number] = square, mask
        known, mine = {}, {}
        for k, clearance in enumerate(self.clearances):
            if mask >> k & 1:
                if clearance not in known:
                    known[clearance] = blocked_rows(square, clearance, self.map.w, self.map.h)
                mine[k] = known[clearance]
                for j in mine[k]:
                    self.over[k][j].add(number)
                    self.stale.add((k, j))
        self.reaches[number] = mine

    def take(self, number):
        for k, rows in self.reaches.pop(number, {}).items():
            for j in rows:
                self.over[k][j].discard(number)
                self.stale.add((k, j))
        self.standing.pop(number, None)

    def settle(self):
        """Makes the rows new after edits, and gives the pairs of class and chunk that changed."""
        changed = set()
        for k, j in self.stale:
            bits = self.base[k][j]
            for number in self.over[k][j]:
                bits |= self.reaches[number][k][j]
            differs = bits ^ self.rows[k][j]
            if differs:
                self.rows[k][j] = bits
                self.texts.pop((k, j), None)
                while differs:
                    column = ((differs & -differs).bit_length() - 1) // CHUNK
                    changed.add((k, column, j // CHUNK))
                    differs = differs >> CHUNK * (column + 1) << CHUNK * (column + 1)
        self.stale = set()
        return changed

    def nearest(self, k, x, z):
        """The cell that holds a point, or else the passable one whose middle is nearest, the first among equals, or None."""
        best, (i0, j0) = None, (x // SIDE, z // SIDE)
        if not self.blocked(k, i0, j0):
            return i0, j0
        for away in range(self.map.h):
            for j in sorted({j0 - away, j0 + away}):
                pz = (SIDE * j + SIDE // 2 - z) ** 2
                if not 0 <= j < self.map.h or (best and pz > best[0]):
                    continue
                free = self.full & ~self.rows[k][j]
                beyond = free >> i0
                sides = [(free & row_bits(0, i0 - 1)).bit_length() - 1, (beyond & -beyond).bit_length() - 1 + i0]
                found = [((SIDE * i + SIDE // 2 - x) ** 2 + pz, j, i) for i in sides if 0 <= i and free >> i & 1]
                best = min(found + ([best] if best else []), default=None)
            if best and (SIDE * max(away - 1, 0)) ** 2 > best[0]:
                break
        return best and (best[2], best[1])


class Chunk:
    """The regions of one chunk: for each row its runs `(first, last, region)`, and how many cells each region has."""

    def __init__(self, rows, width):
        self.width, self.runs, parents = width, [], []

        def root(it):
            while parents[it] != it:
                it = parents[it]
            return it

        below = []
        for bits in rows:
            mine, free = [], ~bits & row_bits(0, width - 1)
            while free:
                first = (free & -free).bit_length() - 1
                last = first + (~(free >> first) & (free >> first) + 1).bit_length() - 2
                free = free >> last + 1 << last + 1
                touched = {root(it[2]) for it in below if it[0] <= last and first <= it[1]}
                name = min(touched, default=len(parents))
                if not touched:
                    parents.append(name)
                for it in touched:
                    parents[it] = name
                mine.append((first, last, name))
            self.runs.append(mine)
            below = mine
        numbers = {}
        self.runs = [[(a, b, numbers.setdefault(root(it), len(numbers) + 1)) for a, b, it in mine] for mine in self.runs]
        self.cells = [0] * (len(numbers) + 1)
        for mine in self.runs:
            for first, last, region in mine:
                self.cells[region] += last - first + 1

    def region(self, i, j):
        return next((it[2] for it in self.runs[j] if it[0] <= i <= it[1]), 0)

    def column(self, i):
        return [self.region(i, j) for j in range(len(self.runs))]

    def line(self, j):
        found = [0] * self.width
        for first, last, region in self.runs[j]:
            found[first:last + 1] = [region] * (last - first + 1)
        return found


class Labels:
    """The regions, edges and areas of one class, of which only chunks that changed are made again."""

    def __init__(self, ground, k):
        self.ground, self.k, self.chunks = ground, k, {}
        self.update(None)

    def update(self, changed):
        """Makes the named chunks again, all of them for None, and the edges and areas."""
        w, h = self.ground.map.w, self.ground.map.h
        self.columns, self.lines = -(-w // CHUNK), -(-h // CHUNK)
        every = [(c, d) for d in range(self.lines) for c in range(self.columns)]
        if changed is not None and not changed:
            return
        for c, d in every if changed is None else changed:
            width = min(CHUNK, w - CHUNK * c)
            rows = self.ground.rows[self.k][CHUNK * d:CHUNK * (d + 1)]
            self.chunks[c, d] = Chunk([it >> CHUNK * c & row_bits(0, width - 1) for it in rows], width)
        self.edges = set()
        for c, d in every:
            mine = self.chunks[c, d]
            if c + 1 < self.columns:
                east = self.chunks[c + 1, d]
                pairs = set(zip(mine.column(mine.width - 1), east.column(0)))
                self.edges |= {((c, d, a), (c + 1, d, b)) for a, b in pairs if a and b}
            if d + 1 < self.lines:
                north = self.chunks[c, d + 1]
                pairs = set(zip(mine.line(len(mine.runs) - 1), north.line(0)))
                self.edges |= {((c, d, a), (c, d + 1, b)) for a, b in pairs if a and b}
        self.number_areas(every)

    def number_areas(self, every):
        parents = {(c, d, r): (c, d, r) for c, d in every for r in range(1, len(self.chunks[c, d].cells))}
        self.region_count = len(parents)

        def root(it):
            while parents[it] != it:
                parents[it] = parents[parents[it]]
                it = parents[it]
            return it

        for a, b in self.edges:
            parents[root(a)] = root(b)
        numbers = {}
        self.areas = {it: numbers.setdefault(root(it), len(numbers) + 1) for it in list(parents)}
        self.area_cells = [0] * (len(numbers) + 1)
        for (c, d, r), area in self.areas.items():
            self.area_cells[area] += self.chunks[c, d].cells[r]

    def at(self, i, j):
        """The region and the area of a cell, 0 and 0 where it is blocked."""
        c, d = i // CHUNK, j // CHUNK
        region = self.chunks[c, d].region(i - CHUNK * c, j - CHUNK * d)
        return region, self.areas.get((c, d, region), 0)
