#!/usr/bin/env python3
"""A map of an installed 0 A.D. (0.0.26) as a script.

    from_0ad.py --mod MOD --list
    from_0ad.py --mod MOD skirmishes/acropolis_bay_2p > bay.script
    ./pathserve replay < bay.script > bay.answers
    tools/view.py bay.script bay.answers > bay.html

The terrain becomes base rectangles that do not meet. What it denies is grown by each class's clearance, as in the game.
What stands becomes one obstruction each in turn 1, of the player who owns it, under its number in the scene. An entity of
several squares has an outline with mask 0 under that number, which serves as a goal, and its squares have numbers beyond.
What stands with its middle off the map becomes base rectangles. In turn 2 each class with a clearance asks for paths
between cells that the terrain leaves to it.

Here a clearance blocks a cell whose middle lies within it. The game blocks a cell whose four corners lie within the
clearance and 1. So clearances are written with 0.35 more, which comes nearest; --more 0.5 blocks all that the game does,
and about a tenth too much. Nothing of the game is copied but numbers.

The numbers of rectangles and obstructions, and each template that the mod lacks, are told on standard error. The status is
2 where a map cannot be made.
"""
import math
import random
import sys

import commands
import game_files
import mapmaking
import mapscript
from game_files import HEIGHT_UNITS as HEIGHT, SIDE
from mapmaking import MOST, decimal, line, map_lines, path_line
from mapscript import row_bits

TILE, EDGE_TILES = 4, 3  # navcells a tile; tiles of the impassable edge
SHORE_FAR = 32767


# ---- what the terrain denies


class Ground:
    """The rows of navcells that the terrain and the edge deny each class, as whole numbers."""

    def __init__(self, terrain, scene):
        self.terrain, self.water, self.tiles = terrain, scene.water, terrain.tiles
        self.side = TILE * self.tiles
        self.full = row_bits(0, self.side - 1)
        self.edge = self.edge_rows(scene.is_circular)
        self.shore, self.spans, self.below = None, None, {}  # what several classes ask for, once it was asked

    def denied(self, kind):
        low, high = kind.depths
        rows = list(self.edge)
        if low is not None:  # the height is at most water - low
            self.merge(rows, self.heights_below((HEIGHT * (self.water - low + 1) - 1) // 1024 + 1), True)
        if high is not None:  # the height is at least water - high
            self.merge(rows, self.heights_below(-(-HEIGHT * (self.water - high) // 1024)), False)
        tiles = self.denied_tiles(kind)
        for j in range(self.side):
            rows[j] |= tiles[j // TILE]
        return mapmaking.grown(rows, -(-kind.clearance // SIDE), self.side)

    def merge(self, rows, below, is_denied_above):
        for j, bits in enumerate(below):
            rows[j] |= self.full & ~bits if is_denied_above else bits

    def heights_below(self, limit):
        """Where 64 heights of the middle of a navcell, between the four corners of its tile, are below a limit."""
        if limit not in self.below:
            self.below[limit] = self.found_below(limit)
        return self.below[limit]

    def found_below(self, limit):
        found = []
        for j, spans in enumerate(self.span_rows()):
            # most tiles are below the limit with all their corners, or with none
            parts = ["1111" if 64 * high < limit else "0000" if 64 * low >= limit else "" for low, high in spans]
            cut = [i for i, it in enumerate(parts) if not it]
            south, north = self.terrain.rows[j], self.terrain.rows[j + 1]
            for up in (1, 3, 5, 7):
                for i in cut:
                    a, b = ((8 - up) * south[k] + up * north[k] for k in (i, i + 1))
                    parts[i] = "".join("1" if (8 - n) * a + n * b < limit else "0" for n in (1, 3, 5, 7))
                found.append(int("".join(parts)[::-1], 2))
        return found

    def span_rows(self):
        """For each tile the least and the greatest height of its corners."""
        if self.spans is None:
            pairs = [list(zip(map(min, row, row[1:]), map(max, row, row[1:]))) for row in self.terrain.rows]
            self.spans = [[(min(a, c), max(b, d)) for (a, b), (c, d) in zip(*it)] for it in zip(pairs, pairs[1:])]
        return self.spans

    def denied_tiles(self, kind):
        """For each row of tiles the navcells that slope and shore distance deny, which are asked by tile."""
        found, (near, far) = [], kind.shores
        for j in range(self.tiles):
            denied = [False] * self.tiles
            if kind.slope is not None:
                steep = TILE * -(-kind.slope * HEIGHT // SIDE)  # the rise over a tile from which on it is denied
                denied = [high - low >= steep for low, high in self.span_rows()[j]]
            if near is not None or far is not None:
                shore = [TILE * SIDE * it for it in self.shore_rows()[j]]
                denied = [a or (near is not None and d < near) or (far is not None and d > far) for a, d in zip(denied, shore)]
            found.append(int("".join("1111" if it else "0000" for it in reversed(denied)), 2))
        return found

    def shore_rows(self):
        """For each tile how many tiles it is from the shore: 0 on water and beside it."""
        if self.shore is None:
            wet = [self.wet_tiles(j) for j in range(self.tiles)]
            near = [wet[j] | wet[max(j - 1, 0)] | wet[min(j + 1, self.tiles - 1)] for j in range(self.tiles)]
            beside = [it | it << 1 | it >> 1 for it in near]
            self.shore = [[0 if beside[j] >> i & 1 else SHORE_FAR for i in range(self.tiles)] for j in range(self.tiles)]
            for j, row in enumerate(self.shore):
                spread([(row, i) for i in range(self.tiles) if not wet[j] >> i & 1])
            for i in range(self.tiles):
                spread([(self.shore[j], i) for j in range(self.tiles) if not wet[j] >> i & 1])
        return self.shore

    def wet_tiles(self, j):
        south, north = self.terrain.rows[j], self.terrain.rows[j + 1]
        heights = (sum(it) * (SIDE // 4) // HEIGHT for it in zip(south, south[1:], north, north[1:]))
        return sum(1 << i for i, it in enumerate(heights) if self.water > it)

    def edge_rows(self, is_circular):
        side, edge = self.side, TILE * EDGE_TILES
        if not is_circular:
            rim = self.full & ~row_bits(edge, side - edge - 1) if side > 2 * edge else self.full
            return [self.full if j < edge or j >= side - edge else rim for j in range(side)]
        rows = []
        for j in range(side):
            # the columns whose middle is less than this far from the map's middle, in half navcells
            room = (side - 2 * edge) ** 2 - (2 * j + 1 - side) ** 2
            most = math.isqrt(room - 1) if room > 0 else -1
            first, last = (side - most) // 2, (side - 1 + most) // 2
            rows.append(self.full & ~row_bits(first, last) if most >= 0 and first <= last else self.full)
        return rows


def spread(places):
    """Lowers each place to one more than the least before it, there and back."""
    for way in (places, places[::-1]):
        least = SHORE_FAR
        for row, i in way:
            least = row[i] = min(row[i], least)
            least = min(least + 1, SHORE_FAR)


# ---- what stands


class Square:
    """A raw square `[x, z, ux, uz, hw, hh]` with its owner, its number in the scene and its mask."""

    def __init__(self, entity, dx, dz, width, depth, mask):
        cos, sin = math.cos(entity.angle), math.sin(entity.angle)
        x, z = entity.x + dx * cos + dz * sin, entity.z + dz * cos - dx * sin
        self.numbers = [math.floor(it * SIDE) for it in (x, z)] + [round(cos * SIDE), round(-sin * SIDE)]
        self.numbers += [math.floor(it / 2 * SIDE) for it in (width, depth)]
        self.owner, self.number, self.mask = entity.player, entity.number, mask

    def fits(self, side):
        return all(0 <= it < SIDE * side for it in self.numbers[:2]) and all(it <= 256 * SIDE for it in self.numbers[4:])


class Standing:
    """The squares of all entities of a scene that block somebody."""

    def __init__(self, mod, scene, kinds, civ):
        self.templates, self.kinds, self.squares = game_files.Templates(mod), kinds, []
        self.missing, self.blockers = set(), {}
        self.masks = {by: sum(1 << k for k, it in enumerate(kinds) if it.blocked_by == by) for by in ("pathfinding", "foundation")}
        for entity in scene.entities:
            its_civ = (scene.civs[entity.player] if entity.player < len(scene.civs) else None) or civ
            name = self.templates.replaced(entity.template, its_civ)
            if name:
                self.add(entity, name)
        beyond = max((it.number for it in scene.entities), default=0)
        self.number(beyond)

    def blocker(self, name):
        if name not in self.blockers:
            template = self.templates.get(name)
            if template is None and not name.startswith("actor|"):
                self.missing.add(name)
            self.blockers[name] = template is not None and game_files.Blocker(template)
        return self.blockers[name]

    def add(self, entity, name):
        it = self.blocker(name)
        if not it:
            return
        mask = (self.masks["pathfinding"] if it.pathfinding else 0) | (self.masks["foundation"] if it.foundation else 0)
        if not mask:
            return
        if it.unit_class:
            side = 2 * next((k.clearance for k in self.kinds if k.name == it.unit_class), 0) / SIDE
            entity.angle = 0.0
            self.squares.append(Square(entity, 0, 0, side, side, mask))
            return
        if len(it.parts) > 1:
            self.squares.append(Square(entity, *outline(it.parts), 0))
        self.squares += [Square(entity, *part, mask) for part in it.parts]

    def number(self, beyond):
        """Gives numbers beyond the scene's to all squares of an entity but the first."""
        taken = set()
        for it in self.squares:
            if it.number in taken:
                beyond += 1
                it.number = beyond
            taken.add(it.number)


def outline(parts):
    """The rectangle about the squares of an entity, which stand along its own sides."""
    west, east = min(x - w / 2 for x, _, w, _ in parts), max(x + w / 2 for x, _, w, _ in parts)
    south, north = min(z - d / 2 for _, z, _, d in parts), max(z + d / 2 for _, z, _, d in parts)
    return (west + east) / 2, (south + north) / 2, east - west, north - south


# ---- the script


def asked(rng, rows, side, names, count):
    """Path lines for each class between cells that the terrain leaves to it."""
    for k, name in names:
        free = [(j, ~bits & row_bits(0, side - 1)) for j, bits in enumerate(rows[k])]
        free = [(j, bits) for j, bits in free if bits]
        for _ in range(count if free else 0):
            places = []
            for _ in range(2):
                j, bits = rng.choice(free)
                spots = [i for i, it in enumerate(bin(bits)[:1:-1]) if it == "1"]
                places.append((rng.choice(spots), j))
            yield path_line(name, *places)


def chosen(kinds, names):
    """The classes of these names, in their order in the game; all of them where none is named."""
    unknown = set(names) - {it.name for it in kinds}
    if unknown:
        raise game_files.NotThere(f"the game has no class {sorted(unknown)[0]} (it has {', '.join(it.name for it in kinds)})")
    return [it for it in kinds if not names or it.name in names]


class Map:
    """A map of the game, as the lines of a script."""

    def __init__(self, mod, name, classes, more, civ):
        terrain = game_files.Terrain(mod.needed(f"maps/{name}.pmp"))
        scene = game_files.Scene(mod.needed(f"maps/{name}.xml"))
        self.side, self.more = TILE * terrain.tiles, more
        if self.side > MOST:
            raise game_files.NotThere(f"{name} has {self.side} navcells a side, and a script at most {MOST}")
        self.kinds = chosen(game_files.passabilities(mod), classes)
        self.standing = Standing(mod, scene, self.kinds, civ)
        ground = Ground(terrain, scene)
        self.rows = [ground.denied(it) for it in self.kinds]
        self.callers = 1 + max([len(scene.civs) - 1] + [it.player for it in scene.entities])
        self.inside = [it for it in self.standing.squares if it.fits(self.side)]
        for it in self.standing.squares:
            if not it.fits(self.side):
                self.sink(it)
        self.base = mapscript.rectangles(self.rows, self.side)

    def clearance(self, kind):
        return kind.clearance + (self.more if kind.blocked_by == "pathfinding" else 0)

    def sink(self, square):
        """Lets the base map block what a square that no obstruction may be would block."""
        for k, kind in enumerate(self.kinds):
            if square.mask >> k & 1:
                for j, bits in mapscript.blocked_rows(square.numbers, self.clearance(kind), self.side, self.side).items():
                    self.rows[k][j] |= bits

    def lines(self, paths, seed):
        classes = [(it.name, self.clearance(it)) for it in self.kinds]
        yield from map_lines(self.side, self.side, self.callers, classes, self.base)
        for it in self.inside:
            yield line({"caller": it.owner, "add": it.number, "square": [decimal(n) for n in it.numbers], "mask": it.mask})
        yield line({"end": 1})
        names = [(k, it.name) for k, it in enumerate(self.kinds) if it.clearance]
        yield from asked(random.Random(seed), self.rows, self.side, names, paths)
        yield line({"end": 2})


def words():
    parser = commands.parser_of(__doc__)
    parser.add_argument("map", nargs="?", help="a map's name below maps/, without its ending")
    parser.add_argument("--mod", required=True, help="the folder mods/public of the game, or the public.zip in it")
    parser.add_argument("--list", action="store_true", help="write the names of all maps, and nothing else")
    parser.add_argument("--classes", default="", metavar="NAME,..", help="only these passability classes")
    parser.add_argument("--more", type=float, default=0.35, help="what to add to the clearances of moving classes (0.35)")
    parser.add_argument("--paths", type=int, default=20, help="how many paths each class with a clearance asks for (20)")
    parser.add_argument("--seed", type=int, default=1, help="which paths (1)")
    parser.add_argument("--civ", default="athen", help="the civilisation of players whose map leaves it open (athen)")
    said = parser.parse_args()
    if not said.list and not said.map:
        parser.error("give a map's name, or --list")
    return said


def main():
    said = words()
    try:
        mod = game_files.Mod(said.mod)
        if said.list:
            print("\n".join(mod.maps()))
            return 0
        classes = [it for it in said.classes.split(",") if it]
        made = Map(mod, said.map, classes, round(said.more * SIDE), said.civ)
    except game_files.NotThere as it:
        commands.say(it)
        return 2
    for it in made.lines(said.paths, said.seed):
        print(it)
    sunk = len(made.standing.squares) - len(made.inside)
    told = f"{said.map}: {made.side} navcells a side, {len(made.base)} base rectangles, {len(made.inside)} obstructions"
    print(told + (f", {sunk} off the map made base" if sunk else ""), file=sys.stderr)
    for name in sorted(made.standing.missing):
        print(f"no template {name}", file=sys.stderr)
    return 0


if __name__ == "__main__":
    commands.run(main)
