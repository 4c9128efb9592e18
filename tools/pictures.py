"""Pictures of one class after a turn, as SVG (lines) and as PNG (points). A start is hollow, an end is full.

Those of docs/pictures are made so, at the top of the repository:

    tools/from_movingai.py examples/valley.map examples/valley.map.scen > valley.script
    ./pathserve replay < valley.script > valley.answers
    tools/view.py --svg 1 valley.script valley.answers > docs/pictures/valley.svg
    tools/view.py --svg 1:infantry,1:siege,2:siege examples/skirmish.script examples/skirmish.answers > docs/pictures/skirmish.svg
"""
import collections
import math
import struct
import zlib

import contradictions
from mapscript import SIDE

CALLERS = ["#0072b2", "#d55e00", "#007a5a", "#a3357a", "#8a6500", "#111111"]
SHADES = [("#000000", 0), ("#000000", 0.45), ("#ffffff", 0.4)]  # into which colour, and how far
CELLS = {"free": "#fbfaf7", "base": "#4b535d", "near": "#e3d3a8", "body": "#a9823f"}
LINE, OTHER, GRID, INK, ALARM, HALO = "#5f4514", "#9a927f", "#e4e1da", "#1b1f24", "#c8102e", "#ffffff"
MARGIN, HEAD = 8, 22  # points about a panel, and above it for its name


class Panel:
    """One class after one turn, as the answers tell it: blocked runs by what blocks them, outlines, paths and marks."""

    def __init__(self, match, turn, replies, name, caller):
        map_, ground = match.script.map, match.ground
        self.w, self.h, self.name = map_.w, map_.h, f"turn {turn.number}, {name}"
        k = list(map_.classes).index(name)
        self.base, self.blocked = list(ground.base[k]), list(ground.rows[k])
        self.body = [0] * self.h
        self.outlines = []
        for square, mask in ground.standing.values():
            self.outlines.append((corners(square), bool(mask >> k & 1)))
            if mask >> k & 1:
                for j, bits in contradictions.mapscript.blocked_rows(square, 0, self.w, self.h).items():
                    self.body[j] |= bits & ~self.base[j]
        self.paths, counts = [], collections.Counter()
        for post in turn.in_order():
            said = replies.get((post.caller, post.number), [""])
            if post.kind == "path" and post.values[2] == name:
                if caller in (None, post.caller):
                    self.add_path(ink_of(map_.callers, post.caller, counts[post.caller]), said)
                counts[post.caller] += 1
        self.marks = [it.cell for it in match.found if it.turn == turn.number and it.cell]

    def add_path(self, ink, said):
        if not said[0].startswith("path "):
            return
        try:
            path = contradictions.Path(said[0])
            smooth = next((it.split(" ")[2:] for it in said if it.startswith("smooth ")), [])
            kept = [contradictions.middle(it) for it in smooth]
        except contradictions.Wrong:
            return
        self.paths.append((ink, path, [path.start, *kept] if kept else []))

    def runs(self, what):
        """The runs `(row, first, last)` of cells that are blocked by `base`, `near` or `body`."""
        for j in range(self.h):
            bits = {"base": self.base[j], "body": self.body[j], "near": self.blocked[j] & ~self.base[j] & ~self.body[j]}[what]
            while bits:
                first = (bits & -bits).bit_length() - 1
                last = first + (~(bits >> first) & (bits >> first) + 1).bit_length() - 2
                yield j, first, last
                bits = bits >> last + 1 << last + 1


def ink_of(callers, caller, nth):
    """The colour of a path: a shade of its caller's, or one of all colours where there is one caller."""
    hue, shade = (caller, nth) if callers > 1 else (nth, nth // len(CALLERS))
    into, part = SHADES[shade % len(SHADES)]
    return "#" + bytes(round(a + (b - a) * part) for a, b in zip(rgb(CALLERS[hue % len(CALLERS)]), rgb(into))).hex()


def rgb(text):
    return bytes.fromhex(text[1:])


def corners(square):
    x, z, ux, uz, hw, hh = (it / SIDE for it in square)
    n = ux * ux + uz * uz
    return [(x + a * hw / n * ux - b * hh / n * uz, z + a * hw / n * uz + b * hh / n * ux) for a, b in ((1, 1), (1, -1), (-1, -1), (-1, 1))]


def beside(places, far):
    """The places of a line that runs so far beside another one, so that both are seen."""
    found = []
    for (a, b), (c, d) in zip(places, places[1:]):
        size = math.hypot(c - a, d - b) or 1
        x, z = (d - b) / size * far, (a - c) / size * far
        found += [(a + x, b + z), (c + x, d + z)]
    return found


def middles(cells):
    return [(i + 0.5, j + 0.5) for i, j in cells]


# ---- SVG


class Drawing:
    """Elements of one panel. Its navcells stand `scale` points apart, rows from the south."""

    def __init__(self, panel, scale):
        self.panel, self.scale, self.out = panel, scale, []

    def points(self, places):
        return " ".join(f"{num(x * self.scale)},{num((self.panel.h - z) * self.scale)}" for x, z in places)

    def line(self, places, ink, width):
        for color, wide in ((HALO, width + 2), (ink, width)):
            self.out.append(f'<polyline points="{self.points(places)}" stroke="{color}" stroke-width="{num(wide)}"/>')

    def smoothed(self, places, width):
        """A thin line that runs beside that of a path which is so wide."""
        places = beside(places, (width / 2 + 1.5) / self.scale)
        self.out.append(f'<polyline points="{self.points(places)}" stroke="{INK}" stroke-width="{num(max(1, width / 2))}" stroke-dasharray="5 4"/>')

    def cells(self):
        s, panel = self.scale, self.panel
        self.out.append(f'<rect width="{panel.w * s}" height="{panel.h * s}" fill="{CELLS["free"]}" stroke="{OTHER}"/>')
        if s >= 8:
            lines = [f"M{i * s} 0V{panel.h * s}" for i in range(1, panel.w)] + [f"M0 {j * s}H{panel.w * s}" for j in range(1, panel.h)]
            self.out.append(f'<path d="{"".join(lines)}" stroke="{GRID}"/>')
        for what in ("base", "near", "body"):
            runs = [f"M{a * s} {(panel.h - 1 - j) * s}h{(b - a + 1) * s}v{s}h-{(b - a + 1) * s}z" for j, a, b in panel.runs(what)]
            if runs:
                self.out.append(f'<path d="{"".join(runs)}" fill="{CELLS[what]}"/>')
        for places, is_mine in panel.outlines:
            style = f'stroke="{LINE}"' if is_mine else f'stroke="{OTHER}" stroke-dasharray="4 4"'
            self.out.append(f'<polygon points="{self.points(places)}" {style} stroke-width="1.5"/>')

    def end(self, cell, ink, word):
        (x, z), r = middles([cell])[0], max(3, self.scale * 0.26)
        x, y = x * self.scale, (self.panel.h - z) * self.scale
        if word == "start":
            shape = f'<circle cx="{num(x)}" cy="{num(y)}" r="{num(r)}" fill="{HALO}"'
        elif word == "goal":
            shape = f'<rect x="{num(x - r)}" y="{num(y - r)}" width="{num(2 * r)}" height="{num(2 * r)}" fill="{ink}"'
        else:
            places = " ".join(f"{num(x + a * 1.4 * r)},{num(y + b * 1.4 * r)}" for a, b in ((0, -1), (1, 0), (0, 1), (-1, 0)))
            shape = f'<polygon points="{places}" fill="{ink}"'
        self.out.append(f'{shape} stroke="{ink}" stroke-width="2"/>')

    def paths(self):
        wide = max(1.5, min(4, self.scale * 0.16))
        for ink, path, kept in self.panel.paths:
            self.line(middles(path.places()), ink, wide)
            if kept:
                self.smoothed(middles(kept), wide)
        for ink, path, _ in self.panel.paths:  # ends stand over all lines
            self.end(path.start, ink, "start")
            self.end(path.end, ink, path.word)
        for i, j in self.panel.marks:
            x, y, r = (i + 0.5) * self.scale, (self.panel.h - j - 0.5) * self.scale, max(6, self.scale / 2)
            lines = f"M{num(x - r)} {num(y - r)}L{num(x + r)} {num(y + r)}M{num(x - r)} {num(y + r)}L{num(x + r)} {num(y - r)}"
            self.out.append(f'<path d="{lines}" stroke="{ALARM}" stroke-width="3"/>')

    def text(self, x):
        self.cells()
        self.paths()
        name = f'<text x="{x}" y="15" font-family="sans-serif" font-size="13" fill="{INK}">{self.panel.name}</text>'
        return name + f'\n<g transform="translate({x} {HEAD})" fill="none" stroke-linejoin="round">\n' + "\n".join(self.out) + "\n</g>"


def num(value):
    return f"{value:.1f}".removesuffix(".0")


def svg(panels, scale=None):
    scale = scale or max(1, min(24, 900 // sum(it.w for it in panels)))
    parts, x = [], MARGIN
    for panel in panels:
        parts.append(Drawing(panel, scale).text(x))
        x += panel.w * scale + 2 * MARGIN
    width, height = x - MARGIN, HEAD + max(it.h for it in panels) * scale + MARGIN
    head = f'<svg xmlns="http://www.w3.org/2000/svg" width="{width}" height="{height}" viewBox="0 0 {width} {height}">'
    return f'{head}\n<rect width="{width}" height="{height}" fill="{HALO}"/>\n' + "\n".join(parts) + "\n</svg>\n"


# ---- PNG


# What of the points about an end its shape has, of half a side r.
SHAPES = {
    "start": lambda a, b, r: a * a + b * b <= r * r,
    "goal": lambda a, b, r: max(abs(a), abs(b)) <= r,
    "near": lambda a, b, r: abs(a) + abs(b) <= 1.4 * r,
}


class Sheet:
    """Points in rows from the north, three bytes each."""

    def __init__(self, panel, scale):
        self.panel, self.scale = panel, scale
        self.wide, self.high = panel.w * scale, panel.h * scale
        self.rows = []
        lines = [bytearray(rgb(CELLS["free"]) * self.wide) for _ in range(panel.h)]
        for what in ("base", "near", "body"):
            for j, first, last in panel.runs(what):
                count = (last - first + 1) * scale
                lines[j][3 * first * scale:3 * (first * scale + count)] = rgb(CELLS[what]) * count
        for line in reversed(lines):
            self.rows += [bytearray(line) for _ in range(scale)]

    def dot(self, x, y, size, ink):
        for b in range(max(0, y - size), min(self.high, y + size + 1)):
            a, end = max(0, x - size), min(self.wide, x + size + 1)
            if a < end:
                self.rows[b][3 * a:3 * end] = rgb(ink) * (end - a)

    def line(self, places, ink, size):
        spots = [(int(x * self.scale), self.high - 1 - int(z * self.scale)) for x, z in places]
        for (a, b), (c, d) in zip(spots, spots[1:]):
            count = max(abs(c - a), abs(d - b), 1)
            for n in range(count + 1):
                self.dot(a + (c - a) * n // count, b + (d - b) * n // count, size, ink)

    def end(self, cell, ink, word, size):
        x, y = int((cell[0] + 0.5) * self.scale), self.high - 1 - int((cell[1] + 0.5) * self.scale)
        r = max(2 * size + 2, max(self.wide, self.high) // 140)  # larger in a larger picture, which is seen smaller
        has, far, hole = SHAPES[word], 3 * r // 2, r - max(2, r // 3)
        for b in range(-far, far + 1):
            for a in range(-far, far + 1):
                if has(a, b, r):
                    self.dot(x + a, y + b, 0, HALO if word == "start" and has(a, b, hole) else ink)

    def bytes(self):
        def piece(kind, data):
            return struct.pack(">I", len(data)) + kind + data + struct.pack(">I", zlib.crc32(kind + data))

        head = struct.pack(">IIBBBBB", self.wide, self.high, 8, 2, 0, 0, 0)
        body = zlib.compress(b"".join(b"\0" + bytes(row) for row in self.rows), 6)
        return b"\x89PNG\r\n\x1a\n" + piece(b"IHDR", head) + piece(b"IDAT", body) + piece(b"IEND", b"")


def png(panel, scale=None):
    scale = scale or max(1, 1024 // max(panel.w, panel.h))
    sheet, size = Sheet(panel, scale), max(1, min(3, scale // 8))
    for places, is_mine in panel.outlines:
        if scale > 2:
            sheet.line([*places, places[0]], LINE if is_mine else OTHER, 0)
    for ink, path, kept in panel.paths:
        sheet.line(middles(path.places()), HALO, size + 1)
        sheet.line(middles(path.places()), ink, size)
        if kept:
            sheet.line(middles(kept), INK, size // 2)
    for ink, path, _ in panel.paths:
        sheet.end(path.start, ink, "start", size)
        sheet.end(path.end, ink, path.word, size)
    for i, j in panel.marks:
        x, z, r = i + 0.5, j + 0.5, max(0.5, 8 / scale)
        for way in (1, -1):
            sheet.line([(x - r, z - way * r), (x + r, z + way * r)], ALARM, size)
    return sheet.bytes()
