"""The shared object: its structs and its calls, as pathserve.h declares them."""
from __future__ import annotations

import ctypes
import enum
import functools
import os
from ctypes import POINTER, c_int32, c_size_t, c_uint8, c_uint16, c_uint32, c_uint64, c_void_p
from typing import Callable

VERSION_MAJOR, VERSION_MINOR, ANSWERS = 0, 1, 2


class Status(enum.IntEnum):
    DONE = 0
    BAD_LINE = 3
    NO_MEMORY = 6
    TOO_LONG = 7
    CLOSED = 16
    OPEN = 17
    OTHER = 18
    ENDED = 19
    NO_MAP = 20
    BAD_VALUE = 21
    SMALL = 22
    PAST_LIMIT = 23
    NO_JOURNAL = 24


class Failed(Exception):
    """A call that ended with another status than DONE."""

    def __init__(self, status: int, text: str = "") -> None:
        super().__init__(text or Status(status).name)
        self.status = Status(status)


class OutOfMemory(Failed, MemoryError):
    """There was no memory. Nothing is lost: the call may come again, and after `feed` with the bytes behind the first `taken`."""

    def __init__(self, taken: int = 0) -> None:
        super().__init__(Status.NO_MEMORY)
        self.taken = taken


class Fault(enum.IntEnum):
    """What is wrong first with a post."""

    WRONG_KIND = 1
    WRONG_CALLER = 2
    WRONG_CLASS = 3
    WRONG_GOAL = 4
    NOT_ZERO = 5


class BadPost(Failed):
    """The post at a place is the first that is none of the map, and why."""

    def __init__(self, place: int, why: Fault) -> None:
        super().__init__(Status.BAD_VALUE, f"post {place}: {why.name}")
        self.place, self.why = place, why


class BadLine(Failed):
    """A line of the script is not in the grammar, and why. The text that waits ends with its number, as `bad line 3`."""

    def __init__(self, cause: str) -> None:
        super().__init__(Status.BAD_LINE, cause)
        self.cause = cause


class BadScript(Failed):
    """A script that opens no match: the line of this number is not in the grammar in its place, and why; or it is past its limit,
    without a cause."""

    def __init__(self, status: int, line: int, cause: str) -> None:
        super().__init__(status, f"line {line}: {cause}" if cause else f"line {line}")
        self.line, self.cause = line, cause


class MatchHandle(ctypes.Structure):
    _fields_ = [("live", c_uint64), ("at", c_void_p)]


class ViewHandle(ctypes.Structure):
    _fields_ = [("live", c_uint64), ("at", c_void_p)]


class FinderHandle(ctypes.Structure):
    _fields_ = [("live", c_uint64), ("at", c_void_p)]


class CellStruct(ctypes.Structure):
    _fields_ = [("i", c_uint16), ("j", c_uint16)]


class MapStruct(ctypes.Structure):
    _fields_ = [(name, c_uint32) for name in ("width", "height", "callers")]


NameBytes = c_uint8 * 64


class ClassStruct(ctypes.Structure):
    _fields_ = [("name", NameBytes), ("name_length", c_uint32), ("clearance", c_int32)]


class RectStruct(ctypes.Structure):
    _fields_ = [(name, c_uint16) for name in ("i0", "j0", "i1", "j1", "mask", "zero")]


class PostStruct(ctypes.Structure):
    _fields_ = [
        *[(name, c_uint8) for name in ("kind", "caller", "class_number", "goal")],
        *[(name, c_uint16) for name in ("mask", "zero")],
        ("id", c_uint32),
        *[(name, c_int32) for name in ("x", "z", "goal_x", "goal_z", "ux", "uz", "hw", "hh", "radius")],
    ]


class TurnStruct(ctypes.Structure):
    _fields_ = [
        *[(name, c_uint64) for name in ("turn", "regions", "edges", "areas", "replies", "waypoints")],
        *[(name, c_uint32) for name in ("relabelled", "zero")],
    ]


class ReplyStruct(ctypes.Structure):
    _fields_ = [
        *[(name, c_uint8) for name in ("kind", "caller", "why", "zero")],
        *[(name, c_uint32) for name in ("post", "id")],
        *[(name, CellStruct) for name in ("start", "end", "chunk")],
        *[(name, c_uint16) for name in ("region", "zero_too")],
        ("area", c_uint32),
        *[(name, c_uint64) for name in ("waypoints", "first_waypoint", "cost")],
    ]


# in the order of PATHSERVE_SIZE_..
STRUCTS = (MatchHandle, ViewHandle, MapStruct, ClassStruct, RectStruct, PostStruct, TurnStruct, ReplyStruct, CellStruct, FinderHandle)

MATCH, VIEW, FINDER, SIZE = POINTER(MatchHandle), POINTER(ViewHandle), POINTER(FinderHandle), POINTER(c_size_t)
CALLS = {
    "version": (c_uint32, []),
    "answers": (c_uint32, []),
    "size_of": (c_size_t, [c_uint32]),
    "status_text": (c_size_t, [c_uint32, c_void_p, c_size_t]),
    "refusal_text": (c_size_t, [c_uint32, c_void_p, c_size_t]),
    "fault_text": (c_size_t, [c_uint32, c_void_p, c_size_t]),
    "version_text": (c_size_t, [c_void_p, c_size_t]),
    "close": (None, [MATCH]),
    "open": (c_uint32, [MATCH, c_uint32]),
    "feed": (c_uint32, [MATCH, c_void_p, c_size_t, SIZE]),
    "limit_line": (c_uint32, [MATCH, c_size_t]),
    "finish": (c_uint32, [MATCH]),
    "cause": (c_uint32, [MATCH, c_void_p, c_size_t, SIZE]),
    "waiting": (c_size_t, [MATCH]),
    "take": (c_size_t, [MATCH, c_void_p, c_size_t]),
    "open_map": (c_uint32, [MATCH, POINTER(MapStruct), POINTER(ClassStruct), c_size_t, POINTER(RectStruct), c_size_t]),
    "open_grid": (c_uint32, [MATCH, POINTER(MapStruct), POINTER(ClassStruct), c_size_t, POINTER(c_uint16), c_size_t]),
    "limit_posts": (c_uint32, [MATCH, c_size_t]),
    "post_all": (c_uint32, [MATCH, POINTER(PostStruct), c_size_t]),
    "check": (c_uint32, [MATCH, POINTER(PostStruct), c_size_t, SIZE, POINTER(c_uint32)]),
    "end_turn": (c_uint32, [MATCH, POINTER(TurnStruct)]),
    "replies": (c_size_t, [MATCH, c_uint64, POINTER(ReplyStruct), c_size_t]),
    "waypoints": (c_size_t, [MATCH, c_uint64, POINTER(CellStruct), c_size_t]),
    "journal": (c_uint32, [MATCH, c_void_p, c_size_t, SIZE]),
    "view_of": (c_uint32, [MATCH, VIEW]),
    "view_again": (c_uint32, [VIEW, VIEW]),
    "view_close": (None, [VIEW]),
    "passable": (c_uint32, [VIEW, c_uint32, c_uint32, c_uint32]),
    "region": (c_uint32, [VIEW, c_uint32, c_uint32, c_uint32]),
    "area": (c_uint32, [VIEW, c_uint32, c_uint32, c_uint32]),
    "row": (c_size_t, [VIEW, c_uint32, c_uint32, POINTER(c_uint64), c_size_t]),
    "nearest": (c_uint32, [VIEW, c_uint32, c_int32, c_int32, POINTER(CellStruct)]),
    "reachable": (c_uint32, [VIEW, POINTER(PostStruct), POINTER(CellStruct)]),
    "view_size": (c_uint32, [VIEW, POINTER(CellStruct)]),
    "standing_at": (c_uint32, [VIEW, c_uint32, POINTER(PostStruct)]),
    "standing": (c_uint32, [VIEW, c_uint64, POINTER(PostStruct), c_size_t, POINTER(c_uint64)]),
    "find": (c_uint32, [VIEW, POINTER(PostStruct), POINTER(ReplyStruct), POINTER(CellStruct), c_size_t]),
    "finder_open": (c_uint32, [FINDER]),
    "finder_close": (None, [FINDER]),
    "find_with": (c_uint32, [FINDER, VIEW, POINTER(PostStruct), POINTER(ReplyStruct), POINTER(CellStruct), c_size_t]),
    "find_within": (
        c_uint32,
        [FINDER, VIEW, POINTER(PostStruct), c_uint64, POINTER(ReplyStruct), POINTER(CellStruct), c_size_t],
    ),
    "find_all": (
        c_uint32,
        [FINDER, VIEW, POINTER(PostStruct), c_size_t, POINTER(ReplyStruct), c_size_t, POINTER(CellStruct), c_size_t],
    ),
    "field": (c_uint32, [VIEW, POINTER(PostStruct), POINTER(ReplyStruct), c_void_p, c_size_t, POINTER(c_uint64), c_size_t]),
    "clear": (c_uint32, [VIEW, c_uint32, POINTER(CellStruct), POINTER(CellStruct)]),
    "smooth": (c_uint32, [VIEW, c_uint32, POINTER(CellStruct), POINTER(CellStruct), c_size_t, SIZE]),
    "open_script": (c_uint32, [MATCH, c_void_p, c_size_t, POINTER(c_uint64)]),
    "script_cause": (c_uint32, [c_void_p, c_size_t, POINTER(c_uint64), c_void_p, c_size_t, SIZE]),
    "snapshot": (c_uint32, [VIEW, c_void_p, c_size_t, SIZE]),
    "keep_no_journal": (c_uint32, [MATCH]),
    "forget": (c_uint32, [MATCH]),
    "turn_digest": (c_uint32, [MATCH, POINTER(c_uint64)]),
    "view_digest": (c_uint32, [VIEW, POINTER(c_uint64)]),
}


def filled(struct: type[ctypes.Structure], **values: int) -> ctypes.Structure:
    """A struct with these values. ValueError where a field does not hold its value, of which ctypes would keep the low bits."""
    made = struct(**values)
    for name, value in values.items():
        if getattr(made, name) != value:
            raise ValueError(f"{name} has no room for {value}")
    return made


def must(status: int) -> None:
    """Raises a status that is not DONE."""
    if status == Status.NO_MEMORY:
        raise OutOfMemory
    if status != Status.DONE:
        raise Failed(status)


TEXT = 96  # PATHSERVE_TEXT


def text_of(name: str, *numbers: int) -> str:
    """What the library says of a number, by `status_text` and its like, or of its version, by `version_text`."""
    buffer = ctypes.create_string_buffer(TEXT)
    count = getattr(load(), "pathserve_" + name)(*numbers, buffer, TEXT)
    return buffer.raw[:count].decode()


def written(write: Callable[..., int]) -> bytes:
    """The bytes that a call writes into a buffer of the size that it tells."""
    whole = c_size_t()
    status = write(None, 0, whole)
    if status != Status.SMALL:
        must(status)
    buffer = ctypes.create_string_buffer(whole.value)
    must(write(buffer, len(buffer), whole))
    return buffer.raw


SHARED = "pathserve.dll" if os.name == "nt" else "libpathserve.so.0"


def found() -> str:
    """The library that PATHSERVE_LIBRARY names, or the one beside this file, or else the one that the loader finds."""
    beside = os.path.join(os.path.dirname(os.path.abspath(__file__)), SHARED)
    return os.environ.get("PATHSERVE_LIBRARY") or (beside if os.path.isfile(beside) else SHARED)


@functools.lru_cache(maxsize=None)
def load(file: str | None = None) -> ctypes.CDLL:
    """The library of this file, or else the one that is found. It is loaded once, and refused where its version or one of its
    structs is another one than this package is made for."""
    try:
        library = ctypes.CDLL(file or found())
    except OSError as it:
        raise OSError(f"{it}. Set the variable PATHSERVE_LIBRARY to the library of a release, as in lib/{SHARED}") from it
    for name, (result, arguments) in CALLS.items():
        call = getattr(library, "pathserve_" + name)
        call.restype, call.argtypes = result, arguments
    version, answers = library.pathserve_version(), library.pathserve_answers()
    if (version >> 8, answers) != (VERSION_MAJOR << 8 | VERSION_MINOR, ANSWERS):
        raise ImportError(f"libpathserve has the version {version >> 16}.{version >> 8 & 255} with answers {answers}")
    for which, struct in enumerate(STRUCTS, 1):
        if library.pathserve_size_of(which) != ctypes.sizeof(struct):
            raise ImportError(f"{struct.__name__} has another size in libpathserve")
    return library
