"""The library libpathserve for Python: matches by text and by posts, views, and finders. Python 3.8 or later, nothing to install.

    with TextMatch() as match:
        match.feed(script)
        print(match.take().decode(), end="")

The library is the file that the variable PATHSERVE_LIBRARY names, or the one beside this package, as a wheel has it, or else
`libpathserve.so.0` or `pathserve.dll` where the system's loader finds it. What each call owes and gives stands in pathserve.h; a status that is not DONE is raised as an exception.
A number that a field of the library does not hold is refused by ValueError. Any thread may use a match or a view: the calls of
one wait for one another, and those of distinct ones do not.
"""
from .finders import Finder
from .matches import PostedMatch, TextMatch, Turn, cause_of
from .native import BadLine, BadPost, BadScript, Failed, Fault, OutOfMemory, Status, load, text_of
from .posts import (
    NAVCELL,
    Cell,
    Goal,
    GoalKind,
    Kind,
    PassabilityClass,
    Path,
    Post,
    PostKind,
    Rect,
    Refusal,
    Region,
    Reply,
    add_square,
    add_unit,
    fixed,
    move,
    path,
    region,
    remove,
)
from .views import FlowField, View

__all__ = [
    "NAVCELL", "BadLine", "BadPost", "BadScript", "Cell", "Failed", "Fault", "Finder", "FlowField", "Goal", "GoalKind", "Kind",
    "OutOfMemory", "PassabilityClass", "Path", "Post", "PostKind", "PostedMatch", "Rect", "Refusal", "Region", "Reply", "Status",
    "TextMatch", "Turn", "View", "add_square", "add_unit", "cause_of", "fixed", "load", "move", "path", "region", "remove", "text_of",
]
