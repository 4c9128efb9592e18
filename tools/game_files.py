"""Files of an installed 0 A.D. (0.0.26): terrain, scenes, templates and passability classes. Lengths are in metres of the
game, which are navcells here; raw ones are in 65536ths."""
import array
import copy
import json
import math
import os
import struct
import sys
import xml.etree.ElementTree as xml
import zipfile

SIDE = 65536
HEIGHT_UNITS = 92  # heights a metre
TEMPLATES = "simulation/templates/"


class NotThere(Exception):
    """What is missing or of another form, in words."""


class Mod:
    """The files of a mod, in its folder or in its `public.zip`."""

    def __init__(self, path):
        packed = path if path.endswith(".zip") else os.path.join(path, "public.zip")
        try:
            self.folder, self.zip = path, zipfile.ZipFile(packed) if os.path.isfile(packed) else None
        except (OSError, zipfile.BadZipFile) as it:
            raise NotThere(f"{packed} cannot be read: {it}") from None
        if not self.zip and not os.path.isdir(path):
            raise NotThere(f"there is no mod at {path}: give the folder mods/public or its public.zip")

    def read(self, name):
        """The bytes of a file, or None."""
        if self.zip:
            try:
                return self.zip.read(name)
            except KeyError:
                return None
        try:
            with open(os.path.join(self.folder, name), "rb") as file:
                return file.read()
        except OSError:
            return None

    def needed(self, name):
        found = self.read(name)
        if found is None:
            raise NotThere(f"the mod has no {name}")
        return found

    def maps(self):
        """The names of all maps that have a terrain and a scene."""
        if self.zip:
            names = set(self.zip.namelist())
        else:
            walks = os.walk(os.path.join(self.folder, "maps"))
            names = {os.path.relpath(os.path.join(top, it), self.folder).replace(os.sep, "/") for top, _, files in walks for it in files}
        return sorted(it[5:-4] for it in names if it.startswith("maps/") and it.endswith(".pmp") and it[:-4] + ".xml" in names)


# ---- terrain and scene


class Terrain:
    """Heights at the corners of tiles of 4 by 4 navcells, row by row from the south."""

    def __init__(self, data):
        if len(data) < 16 or data[:4] != b"PSMP":
            raise NotThere("this is no terrain: it does not begin with PSMP")
        version, _, patches = struct.unpack_from("<III", data, 4)
        self.tiles, count = 16 * patches, (16 * patches + 1) ** 2
        if len(data) < 16 + 2 * count:
            raise NotThere(f"a terrain of {patches} patches a side (version {version}) is longer than this file")
        heights = array.array("H", data[16:16 + 2 * count])
        if sys.byteorder == "big":
            heights.byteswap()
        side = self.tiles + 1
        self.rows = [heights[side * j:side * (j + 1)] for j in range(side)]


class Entity:
    def __init__(self, node):
        self.number = int(node.get("uid"))
        self.template, self.player = node.findtext("Template"), int(node.findtext("Player") or 0)
        at, turn = node.find("Position"), node.find("Orientation")
        self.x, self.z = float(at.get("x")), float(at.get("z"))
        self.angle = float(turn.get("y")) if turn is not None else 0.75 * math.pi


class Scene:
    def __init__(self, data):
        root = xml.fromstring(data)
        self.water = math.floor(float(root.findtext("Environment/Water/WaterBody/Height") or 0) * SIDE)
        settings = json.loads(root.findtext("ScriptSettings") or "{}")
        self.is_circular = bool(settings.get("CircularMap"))
        players = settings.get("PlayerData") or []
        self.civs = [(it or {}).get("Civ") if isinstance(it, dict) else None for it in players]
        self.entities = [Entity(it) for it in root.iterfind("Entities/Entity")]


class Passability:
    """A passability class: limits of depth, slope and shore distance (raw, None for none), clearance, and what blocks it."""

    def __init__(self, node):
        def raw(name):
            text = node.findtext(name)
            return None if text is None else math.floor(float(text) * SIDE)

        self.name = node.tag
        self.depths = raw("MinWaterDepth"), raw("MaxWaterDepth")
        self.slope, self.shores = raw("MaxTerrainSlope"), (raw("MinShoreDistance"), raw("MaxShoreDistance"))
        self.clearance, self.blocked_by = raw("Clearance") or 0, node.findtext("Obstructions") or "none"


def passabilities(mod):
    root = xml.fromstring(mod.needed("simulation/data/pathfinder.xml"))
    return [Passability(it) for it in root.find("PassabilityClasses")]


# ---- templates


def laid_over(under, over):
    """Lays the children of an element over those of another, as `disable`, `replace`, `merge`, `filtered` and `op` say."""
    if "replace" in over.attrib:
        for child in list(under):
            under.remove(child)
        under.text = ""
    for name, value in over.attrib.items():
        if name not in ("disable", "replace", "merge", "filtered", "op"):
            under.set(name, value)
    if over.text and over.text.strip():
        under.text = combined(under.text, over.text, over.get("op"))
    for child in over:
        old = under.find(child.tag)
        if "disable" in child.attrib:
            if old is not None:
                under.remove(old)
        elif old is not None:
            laid_over(old, child)
        elif "merge" not in child.attrib:
            under.append(copy.deepcopy(child))
    if "filtered" in over.attrib:
        kept = {it.tag for it in over}
        for child in list(under):
            if child.tag not in kept:
                under.remove(child)


def combined(old, new, way):
    if way not in ("add", "mul", "mul_round"):
        return new
    a, b = float(old or 0), float(new)
    return str(a + b if way == "add" else a * b if way == "mul" else round(a * b))


class Templates:
    """Templates with all that they inherit."""

    def __init__(self, mod):
        self.mod, self.known = mod, {}

    def get(self, name):
        """A template's element, or None where there is none of the name."""
        if name not in self.known:
            self.known[name] = self.made(name)
        return self.known[name]

    def made(self, name):
        first, bar, rest = name.partition("|")
        if bar:
            under = self.get(rest)
            data = self.mod.read(f"{TEMPLATES}special/filter/{first}.xml") or self.mod.read(f"{TEMPLATES}mixins/{first}.xml")
            if under is None or data is None:
                return None
            under = copy.deepcopy(under)
            laid_over(under, xml.fromstring(data))
            return under
        data = self.mod.read(f"{TEMPLATES}{name}.xml")
        if data is None:
            return None
        over = xml.fromstring(data)
        if over.get("parent"):
            under = self.get(over.get("parent"))
            if under is None:
                return None
            under = copy.deepcopy(under)
            laid_over(under, over)
            return under
        return over

    def replaced(self, name, civ):
        """The name that stands for a placeholder of skirmish maps for a civilisation, or None where nothing does."""
        template = self.get(name)
        node = None if template is None else template.find("SkirmishReplacer")
        if node is None:
            return name
        filters, _, plain = name.rpartition("|")
        table = json.loads(self.mod.read(f"simulation/data/civs/{civ}.json") or "{}").get("SkirmishReplacements", {})
        found = table[plain] if plain in table else node.findtext("general")
        if not found:
            return None
        return (filters + "|" if filters else "") + found.strip().replace("{civ}", civ)


class Blocker:
    """What of an entity blocks: rectangles `(dx, dz, width, depth)` about its middle or a unit, and whom."""

    def __init__(self, template):
        node = template.find("Obstruction")
        has = (lambda name: (node.findtext(name) or "").strip() == "true") if node is not None else lambda name: False
        self.pathfinding = has("Active") and has("BlockPathfinding") and not has("DisableBlockPathfinding")
        self.foundation = has("Active") and has("BlockFoundation")
        self.parts, self.unit_class = [], None
        if node is None:
            return
        if node.find("Unit") is not None:
            self.unit_class = (template.findtext("UnitMotion/PassabilityClass") or "default").strip()
        elif node.find("Static") is not None:
            self.parts = [(0.0, 0.0, *sides(node.find("Static")))]
        elif node.find("Obstructions") is not None:
            self.parts = [(float(it.get("x", 0)), float(it.get("z", 0)), *sides(it)) for it in node.find("Obstructions")]


def sides(node):
    return float(node.get("width", 0)), float(node.get("depth", 0))
