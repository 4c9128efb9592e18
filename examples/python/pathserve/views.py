"""Views of what stands, to be looked at beside a match."""
from __future__ import annotations

import ctypes
from dataclasses import dataclass, field
from typing import Sequence

from . import native
from .native import filled, must, written
from .owners import Owner
from .posts import Cell, Kind, Post, Reply, cell_of, post_of, reply_of

# the way of each step of a field, by its number: none, N, E, S, W, NE, SE, SW, NW, and where a unit stays
WAYS = ((0, 0), (0, 1), (1, 0), (0, -1), (-1, 0), (1, 1), (1, -1), (-1, -1), (-1, 1), (0, 0))
NO_STEP, STAYS = 0, 9
NO_DISTANCE = (1 << 64) - 1


def word(number: int) -> int:
    """The number, or where it has not 32 bits the greatest that has: no map has such a class or cell."""
    return number if 0 <= number < 1 << 32 else (1 << 32) - 1


def coordinate(raw: int) -> int:
    """The coordinate, or where it has not 32 bits the least that has: it lies on no map."""
    return raw if -1 << 31 <= raw < 1 << 31 else -1 << 31


@dataclass(frozen=True)
class FlowField:
    """From each cell of a map of this width the step to take to a goal that a group has in common, row by row: a number of
    `WAYS`, or NO_STEP where the goal can't be reached, or STAYS on it. Its reply has no waypoints."""

    reply: Reply
    width: int
    steps: bytes = field(repr=False)
    distances: Sequence[int] = field(repr=False)

    def _place(self, cell: Cell) -> int:
        if not (0 <= cell.i < self.width and 0 <= cell.j < len(self.steps) // self.width):
            raise IndexError(f"{cell} is not on the map")
        return cell.j * self.width + cell.i

    def next(self, cell: Cell) -> Cell | None:
        """Where a unit on this cell goes next: the cell itself where it has arrived, None where it can't."""
        step = self.steps[self._place(cell)]
        return Cell(cell.i + WAYS[step][0], cell.j + WAYS[step][1]) if step != NO_STEP else None

    def distance(self, cell: Cell) -> int | None:
        """What the cheapest walk from this cell costs, or None where it has none."""
        far = self.distances[self._place(cell)]
        return far if far != NO_DISTANCE else None


class View(Owner):
    """What stood when it was made. Its calls wait for one another: `again` makes another view, for a thread of its own."""

    def __init__(self, library: ctypes.CDLL) -> None:
        super().__init__(library, native.ViewHandle(), "view_close")

    def again(self) -> View:
        """Another view of the same."""
        view = View(self._library)
        must(self._call("view_again", view._handle))
        return view

    def passable(self, class_number: int, i: int, j: int) -> bool:
        return bool(self._call("passable", word(class_number), word(i), word(j)))

    def region(self, class_number: int, i: int, j: int) -> int:
        """The number of the cell's region in its chunk, or 0."""
        return self._call("region", word(class_number), word(i), word(j))

    def area(self, class_number: int, i: int, j: int) -> int:
        """The number of the cell's area, or 0: cells of one area can be reached from one another."""
        return self._call("area", word(class_number), word(i), word(j))

    def row(self, class_number: int, j: int, width: int) -> list[bool]:
        """Which cells of a row are passable."""
        words = (ctypes.c_uint64 * ((width + 63) // 64))()
        self._call("row", word(class_number), word(j), words, len(words))
        return [bool(words[i // 64] >> i % 64 & 1) for i in range(width)]

    def nearest(self, class_number: int, x: int, z: int) -> Cell | None:
        """The cell in which a path from the point (x, z) starts: the one that holds it, or else the passable one nearest to it."""
        cell = native.CellStruct()
        is_there = self._call("nearest", word(class_number), coordinate(x), coordinate(z), cell)
        return cell_of(cell) if is_there else None

    def reachable(self, post: Post) -> tuple[Kind, Cell | None]:
        """How a path would end, without a search: the kind of the reply that `find` gives, and the cell where it ends near its
        goal. A post that asks for no path raises BAD_VALUE."""
        cell = native.CellStruct()
        kind = self._call("reachable", post.struct(), cell)
        must(native.Status.DONE if kind else native.Status.BAD_VALUE)
        return Kind(kind), cell_of(cell) if kind == Kind.NEAR_GOAL else None

    def size(self) -> tuple[int, int]:
        """How many columns and rows the map has."""
        cell = native.CellStruct()
        self._call("view_size", cell)
        return cell.i, cell.j

    def standing_at(self, number: int) -> Post | None:
        """The post by which caller 0 adds what stands under a number."""
        struct = native.PostStruct()
        is_there = 0 <= number < 1 << 32 and self._call("standing_at", number, struct)
        return post_of(struct) if is_there else None

    def standing(self) -> list[Post]:
        """All that stands, as the posts by which caller 0 adds it, by rising number."""
        whole = ctypes.c_uint64()
        must(self._call("standing", 0, None, 0, whole))
        structs = (native.PostStruct * whole.value)()
        must(self._call("standing", 0, structs, len(structs), whole))
        return [post_of(it) for it in structs]

    def snapshot(self) -> bytes:
        """What stands as a script: the map, and one turn in which caller 0 adds all that stands."""
        with self._lock:
            return written(lambda *room: self._call("snapshot", *room))

    def digest(self) -> int:
        """The digest of the snapshot: where two players have the same, the same stands."""
        digest = ctypes.c_uint64()
        must(self._call("view_digest", digest))
        return digest.value

    def find(self, post: Post) -> Reply:
        """Answers a path or a region at once, as a turn without edits would. The match knows nothing of it."""
        struct, reply, room = post.struct(), native.ReplyStruct(), 64
        while True:
            cells = (native.CellStruct * room)()
            must(self._call("find", struct, reply, cells, room))
            if reply.waypoints <= room:
                return reply_of(reply, [cell_of(it) for it in cells])
            room = reply.waypoints

    def field(self, post: Post, width: int, height: int) -> FlowField | None:
        """The flow field of a path, one for a whole group, on a map of this size. None where no path is answered: `find` says
        why."""
        struct, reply, count = post.struct(), native.ReplyStruct(), width * height
        steps, distances = (ctypes.c_uint8 * count)(), (ctypes.c_uint64 * count)()
        must(self._call("field", struct, reply, steps, count, distances, count))
        told = reply_of(reply, ())
        return FlowField(told, width, bytes(steps), distances) if told.path else None

    def clear(self, class_number: int, a: Cell, b: Cell) -> bool:
        """Whether a straight line between the middles of two cells touches passable cells alone."""
        ends = [filled(native.CellStruct, **it._asdict()) for it in (a, b)]
        return bool(self._call("clear", word(class_number), *ends))

    def smooth(self, class_number: int, start: Cell, waypoints: Sequence[Cell]) -> list[Cell]:
        """The fewest of a walk's waypoints that clear straight lines join. Failed with BAD_VALUE where these are those of no
        legal walk from the start."""
        cells = (native.CellStruct * len(waypoints))(*(filled(native.CellStruct, **it._asdict()) for it in waypoints))
        kept = ctypes.c_size_t()
        begins = filled(native.CellStruct, **start._asdict())
        must(self._call("smooth", word(class_number), begins, cells, len(cells), kept))
        return [cell_of(it) for it in cells[: kept.value]]
