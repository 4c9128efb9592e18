"""Matches by text and by posts."""
from __future__ import annotations

import ctypes
import re
from typing import Iterable, NamedTuple, Sequence

from . import native
from .native import BadLine, BadPost, BadScript, Failed, Fault, OutOfMemory, Status, filled, must, written
from .owners import Owner
from .posts import NAVCELL, PassabilityClass, Post, Rect, Reply, cell_of, reply_of
from .views import View

REPORTS = {"replay": 0, "profile": 1, "flow": 2, "smooth": 3}


class _Match(Owner):
    def __init__(self) -> None:
        library = native.load()
        super().__init__(library, native.MatchHandle(), "close")

    def view(self) -> View:
        """What stands after the turns that have ended."""
        view = View(self._library)
        must(self._call("view_of", view._handle))
        return view


class TextMatch(_Match):
    """A match by the text of its script, as the program plays it with one of the words `REPORTS`."""

    def __init__(self, report: str = "replay") -> None:
        super().__init__()
        must(self._call("open", REPORTS[report]))

    def feed(self, script: bytes) -> None:
        """Feeds the next bytes, cut anywhere. What is told waits, also where this raises BadLine. Text is refused by TypeError.

        Where it raises OutOfMemory, only the first `taken` bytes were taken: feed the others again.
        """
        taken = ctypes.c_size_t()
        its = script if isinstance(script, bytes) else bytes(memoryview(script))
        status = self._call("feed", its, len(its), taken)
        if status == Status.NO_MEMORY:
            raise OutOfMemory(taken.value)
        self._must(status)

    def limit_line(self, most: int) -> None:
        """Lets a line have at most so many bytes. `feed` raises PAST_LIMIT where one would have more, and takes nothing."""
        must(self._call("limit_line", _limit(most)))

    def finish(self) -> None:
        """Tells that no more bytes come."""
        self._must(self._call("finish"))

    def cause(self) -> str:
        """Why the line is bad at which the match has stopped, as the program says it. Empty as long as no line was bad."""
        with self._lock:
            return written(lambda *room: self._call("cause", *room)).decode()

    def _must(self, status: int) -> None:
        if status == Status.BAD_LINE:
            raise BadLine(self.cause())
        must(status)

    def take(self) -> bytes:
        """The text that waits. None waits then."""
        with self._lock:
            buffer = ctypes.create_string_buffer(self._call("waiting"))
            count = self._call("take", buffer, len(buffer))
        return buffer.raw[:count]


class Turn(NamedTuple):
    """A turn's numbers, and the replies to its posts, caller by caller."""

    turn: int
    regions: int
    edges: int
    areas: int
    relabelled: int
    replies: list[Reply]


def _limit(most: int) -> int:
    """A limit as the library takes it. ValueError where it has no room there, since ctypes would keep the low bits."""
    if not 0 <= most < 1 << 64:
        raise ValueError(f"most has no room for {most}")
    return most


def _masks_of(masks: Sequence[int]) -> ctypes.Array:
    """The masks as the library takes them. ValueError where one has more than 16 bits, of which ctypes would keep the low ones."""
    if any(not 0 <= it < 1 << 16 for it in masks):
        raise ValueError("a mask has 16 bits")
    return (ctypes.c_uint16 * len(masks))(*masks)


def cause_of(script: bytes) -> tuple[int, str]:
    """The number of the line at which a script is bad, and why, as the program says it. 0 and no cause where none is."""
    its, bad_line = bytes(memoryview(script)), ctypes.c_uint64()
    call = native.load().pathserve_script_cause
    cause = written(lambda *room: call(its, len(its), bad_line, *room)).decode()
    return bad_line.value, cause


def _wrong_with(width: int, height: int, callers: int, classes: Sequence[PassabilityClass], base: Sequence[Rect],
                masks: Sequence[int] | None) -> str:
    """What pathserve.h asks of a map and the first of these values that breaks it. It says why opening ended with BAD_VALUE."""
    for name, value, most in ("width", width, 2048), ("height", height, 2048), ("callers", callers, 64):
        if not 1 <= value <= most:
            return f"{name} must be 1 to {most}, not {value}"
    if not 1 <= len(classes) <= 16:
        return f"there must be 1 to 16 classes, not {len(classes)}"
    for place, it in enumerate(classes):
        if not re.fullmatch("[A-Za-z0-9_-]{1,64}", it.name):
            return f"the name of class {place} must have 1 to 64 ASCII letters, digits, - or _; {it.name!r} has {len(it.name)} characters"
        if it.name in [other.name for other in classes[:place]]:
            return f"class {place} has the name {it.name!r} of an earlier one"
        if not 0 <= it.clearance <= 64 * NAVCELL:
            return f"the clearance of class {place}, {it.name}, must be 0 to fixed(64), which is {64 * NAVCELL}, not {it.clearance}"
    for place, it in enumerate(base):
        if not (it.i0 <= it.i1 < width and it.j0 <= it.j1 < height):
            return f"rectangle {place} must have i0 <= i1 < {width} and j0 <= j1 < {height}: {it}"
    if masks is not None and len(masks) != width * height:
        return f"masks must have {width} * {height} = {width * height} items, not {len(masks)}"
    return ""


class PostedMatch(_Match):
    """A match on a map, whose turns are posts."""

    def __init__(
        self,
        width: int,
        height: int,
        callers: int,
        classes: Sequence[PassabilityClass],
        base: Sequence[Rect] = (),
        masks: Sequence[int] | None = None,
    ) -> None:
        """What is impassable from the start stands in `base`, or else in `masks`: a mask for each cell, that of cell (i, j) at
        place j * width + i."""
        super().__init__()
        if masks is not None and base:
            raise ValueError("terrain comes as base or as masks, not as both")
        its_classes = (native.ClassStruct * len(classes))(*[it.struct() for it in classes])
        its_base = (native.RectStruct * len(base))(*[it.struct() for it in base])
        its_map = filled(native.MapStruct, width=width, height=height, callers=callers)
        if masks is None:
            status = self._call("open_map", its_map, its_classes, len(classes), its_base, len(base))
        else:
            status = self._call("open_grid", its_map, its_classes, len(classes), _masks_of(masks), len(masks))
        if status == Status.BAD_VALUE:
            raise Failed(status, _wrong_with(width, height, callers, classes, base, masks))
        must(status)

    def limit_posts(self, most: int) -> None:
        """Lets at most so many posts wait for the end of a turn. `post` raises PAST_LIMIT where there would be more."""
        must(self._call("limit_posts", _limit(most)))

    def post(self, posts: Iterable[Post]) -> None:
        """Posts, behind those that the turn has: all or none. BadPost where one of them is no post of the map."""
        if isinstance(posts, Post):
            raise TypeError("post takes a list of posts: match.post([...])")
        structs = [it.struct() for it in posts]
        its = (native.PostStruct * len(structs))(*structs)
        with self._lock:
            status = self._call("post_all", its, len(its))
            if status == Status.BAD_VALUE:
                place, why = ctypes.c_size_t(), ctypes.c_uint32()
                self._call("check", its, len(its), place, why)
                raise BadPost(place.value, Fault(why.value))
        must(status)

    def end_turn(self) -> Turn:
        """Makes the edits of the turn, and answers its requests on what they leave."""
        turn = native.TurnStruct()
        with self._lock:
            must(self._call("end_turn", turn))
            replies = (native.ReplyStruct * turn.replies)()
            self._call("replies", 0, replies, len(replies))
            cells = (native.CellStruct * turn.waypoints)()
            self._call("waypoints", 0, cells, len(cells))
        waypoints = [cell_of(it) for it in cells]
        told = [reply_of(it, waypoints) for it in replies]
        return Turn(turn.turn, turn.regions, turn.edges, turn.areas, turn.relabelled, told)

    def journal(self) -> bytes:
        """The turns that have ended as a script, which a TextMatch or the program answers alike."""
        with self._lock:
            return written(lambda *room: self._call("journal", *room))

    @classmethod
    def of_script(cls, script: bytes) -> PostedMatch:
        """A match in which a whole script of version 3 was played, such as a journal or a snapshot. BadScript where it is none."""
        match, bad_line = cls.__new__(cls), ctypes.c_uint64()
        _Match.__init__(match)
        its = bytes(memoryview(script))
        status = match._call("open_script", its, len(its), bad_line)
        if status in (Status.BAD_LINE, Status.TOO_LONG):
            raise BadScript(status, bad_line.value, cause_of(its)[1])
        must(status)
        return match

    def keep_no_journal(self) -> None:
        """Lets go of the journal, and keeps none from then on: `journal` raises NO_JOURNAL. `forget` begins one again."""
        must(self._call("keep_no_journal"))

    def forget(self) -> None:
        """Begins the journal anew, with one turn that adds what stands: the next turn is the second."""
        must(self._call("forget"))

    def digest(self) -> int:
        """The digest of the turn that ended last, as tools/digests.py makes it of the turn's text; 0 where none has ended."""
        digest = ctypes.c_uint64()
        must(self._call("turn_digest", digest))
        return digest.value
