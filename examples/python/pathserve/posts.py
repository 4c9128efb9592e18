"""Posts and their replies. Coordinates and lengths are whole numbers, of which 65,536 are the side of a navcell."""
from __future__ import annotations

import enum
import math
from dataclasses import dataclass
from typing import NamedTuple, Sequence

from .native import CellStruct, ClassStruct, NameBytes, PostStruct, RectStruct, ReplyStruct, filled

NAVCELL = 65536


def fixed(navcells: float) -> int:
    """A length in navcells as a whole number, truncated towards zero as a decimal of a script is."""
    return math.trunc(navcells * NAVCELL)


class PostKind(enum.IntEnum):
    ADD_UNIT = 1
    ADD_SQUARE = 2
    REMOVE = 3
    MOVE = 4
    PATH = 5
    REGION = 6


class GoalKind(enum.IntEnum):
    POINT = 1
    CIRCLE = 2
    NOT_CIRCLE = 3
    SQUARE = 4
    NOT_SQUARE = 5
    OBSTRUCTION = 6


class Post(NamedTuple):
    """A post, by the fields of the C struct; those that its kind does not use are 0."""

    kind: int
    caller: int = 0
    class_number: int = 0
    goal: int = 0
    mask: int = 0
    id: int = 0
    x: int = 0
    z: int = 0
    goal_x: int = 0
    goal_z: int = 0
    ux: int = 0
    uz: int = 0
    hw: int = 0
    hh: int = 0
    radius: int = 0

    def struct(self) -> PostStruct:
        return filled(PostStruct, **self._asdict())


def add_unit(caller: int, number: int, mask: int, x: int, z: int, half: int) -> Post:
    """Adds a square along the axes under a number, for the classes of the mask."""
    return Post(PostKind.ADD_UNIT, caller, mask=mask, id=number, x=x, z=z, radius=half)


def add_square(caller: int, number: int, mask: int, x: int, z: int, ux: int, uz: int, hw: int, hh: int) -> Post:
    """Adds a rectangle along the unit vector (ux, uz) under a number, for the classes of the mask."""
    return Post(PostKind.ADD_SQUARE, caller, mask=mask, id=number, x=x, z=z, ux=ux, uz=uz, hw=hw, hh=hh)


def remove(caller: int, number: int) -> Post:
    return Post(PostKind.REMOVE, caller, id=number)


def move(caller: int, number: int, x: int, z: int) -> Post:
    return Post(PostKind.MOVE, caller, id=number, x=x, z=z)


class Goal(NamedTuple):
    """Where a path shall lead."""

    goal: int
    goal_x: int = 0
    goal_z: int = 0
    ux: int = 0
    uz: int = 0
    hw: int = 0
    hh: int = 0
    radius: int = 0
    id: int = 0

    @staticmethod
    def point(x: int, z: int) -> Goal:
        return Goal(GoalKind.POINT, x, z)

    @staticmethod
    def circle(x: int, z: int, radius: int, outside: bool = False) -> Goal:
        return Goal(GoalKind.NOT_CIRCLE if outside else GoalKind.CIRCLE, x, z, radius=radius)

    @staticmethod
    def square(x: int, z: int, ux: int, uz: int, hw: int, hh: int, outside: bool = False) -> Goal:
        return Goal(GoalKind.NOT_SQUARE if outside else GoalKind.SQUARE, x, z, ux, uz, hw, hh)

    @staticmethod
    def obstruction(number: int, distance: int) -> Goal:
        return Goal(GoalKind.OBSTRUCTION, id=number, radius=distance)


def path(caller: int, class_number: int, x: int, z: int, goal: Goal) -> Post:
    """Asks for a path of a class from the point (x, z) to a goal."""
    return Post(PostKind.PATH, caller, class_number, x=x, z=z, **goal._asdict())


def region(caller: int, class_number: int, x: int, z: int) -> Post:
    """Asks in which region and area of a class the point (x, z) lies."""
    return Post(PostKind.REGION, caller, class_number, x=x, z=z)


class Kind(enum.IntEnum):
    __str__ = enum.Enum.__str__  # its name in each version of Python

    ADDED = 1
    REMOVED = 2
    MOVED = 3
    REFUSED = 4
    NOWHERE = 5
    AT_GOAL = 6
    NEAR_GOAL = 7
    IN_REGION = 8
    TOO_FAR = 9


class Refusal(enum.IntEnum):
    __str__ = enum.Enum.__str__  # its name in each version of Python

    BAD_SHAPE = 1
    DUPLICATE_ID = 2
    STORE_FULL = 3
    UNKNOWN_ID = 4
    UNKNOWN_CLASS = 5
    START_OUTSIDE = 6
    GOAL_OUTSIDE = 7


class Cell(NamedTuple):
    i: int
    j: int


@dataclass(frozen=True)
class Path:
    start: Cell
    end: Cell
    cost: int
    waypoints: tuple[Cell, ...]


@dataclass(frozen=True)
class Region:
    chunk: Cell
    region: int
    area: int


@dataclass(frozen=True)
class Reply:
    """The reply to the post of this number among those of its caller. One of the last four is there, or none of them (NOWHERE, TOO_FAR)."""

    caller: int
    post: int
    kind: Kind
    id: int | None = None
    why: Refusal | None = None
    path: Path | None = None
    region: Region | None = None


def cell_of(struct: CellStruct) -> Cell:
    return Cell(struct.i, struct.j)


def post_of(struct: PostStruct) -> Post:
    return Post(*(getattr(struct, name) for name in Post._fields))


def reply_of(struct: ReplyStruct, waypoints: Sequence[Cell]) -> Reply:
    """A reply, with the waypoints of its turn."""
    kind = Kind(struct.kind)
    found: dict = {}
    if kind in (Kind.ADDED, Kind.REMOVED, Kind.MOVED):
        found["id"] = struct.id
    elif kind == Kind.REFUSED:
        found["why"] = Refusal(struct.why)
    elif kind in (Kind.AT_GOAL, Kind.NEAR_GOAL):
        its = tuple(waypoints[struct.first_waypoint : struct.first_waypoint + struct.waypoints])
        found["path"] = Path(cell_of(struct.start), cell_of(struct.end), struct.cost, its)
    elif kind == Kind.IN_REGION:
        found["region"] = Region(cell_of(struct.chunk), struct.region, struct.area)
    return Reply(struct.caller, struct.post, kind, **found)


class PassabilityClass(NamedTuple):
    """A class of units: its name, and how far they keep from obstructions."""

    name: str
    clearance: int

    def struct(self) -> ClassStruct:
        name = self.name.encode("ascii")
        made = filled(ClassStruct, name_length=len(name), clearance=self.clearance)
        made.name = NameBytes(*name[:64])
        return made


class Rect(NamedTuple):
    """A rectangle of navcells, both corners among them, that the classes of the mask never pass."""

    i0: int
    j0: int
    i1: int
    j1: int
    mask: int

    def struct(self) -> RectStruct:
        return filled(RectStruct, **self._asdict())
