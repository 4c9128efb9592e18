"""Finders, which keep the memory of their searches from one call to the next."""
from __future__ import annotations

import ctypes
from collections.abc import Iterable
from typing import Callable

from . import native
from .native import load, must
from .owners import Owner
from .posts import Post, Reply, cell_of, reply_of
from .views import View


class Finder(Owner):
    """Answers paths and regions by views of any match, as `View.find` does and faster: a thread that finds paths keeps one."""

    def __init__(self) -> None:
        super().__init__(load(), native.FinderHandle(), "finder_close")
        must(self._call("finder_open"))

    def find(self, view: View, post: Post) -> Reply:
        """What `view.find` answers to the post."""
        return self._found(view, "find_with", post)

    def find_within(self, view: View, post: Post, most: int) -> Reply:
        """What `view.find` answers to the post, if that is no path that costs more than `most`; else a reply of the kind TOO_FAR."""
        if not 0 <= most < 1 << 64:
            raise ValueError(f"most has no room for {most}")
        return self._found(view, "find_within", post, most)

    def _found(self, view: View, name: str, post: Post, *limits: int) -> Reply:
        """The reply of a call to a post, within limits."""
        struct, reply = post.struct(), native.ReplyStruct()

        def ask(cells: ctypes.Array, room: int) -> int:
            must(self._asked(view, name, struct, *limits, reply, cells, room))
            return reply.waypoints

        cells = with_room(64, ask)
        return reply_of(reply, [cell_of(it) for it in cells])

    def find_all(self, view: View, posts: Iterable[Post]) -> list[Reply]:
        """What `view.find` answers to each of the posts, in their order. A reply's `post` is the place of its post."""
        structs = [post.struct() for post in posts]
        count = len(structs)
        asked, replies = (native.PostStruct * count)(*structs), (native.ReplyStruct * count)()

        def ask(cells: ctypes.Array, room: int) -> int:
            must(self._asked(view, "find_all", asked, count, replies, count, cells, room))
            return max((it.first_waypoint + it.waypoints for it in replies), default=0)

        cells = [cell_of(it) for it in with_room(64 * count, ask)]
        return [reply_of(it, cells) for it in replies]

    def _asked(self, view: View, name: str, *arguments: object) -> int:
        """What a call gives for this finder and a view, which serves one call at a time too."""
        with view._lock:
            return self._call(name, view._handle, *arguments)


def with_room(room: int, ask: Callable[[ctypes.Array, int], int]) -> ctypes.Array:
    """The cells that a call writes, in a buffer that holds them all. The call gives how many there are."""
    cells = (native.CellStruct * room)()
    count = ask(cells, room)
    if count <= room:
        return cells
    cells = (native.CellStruct * count)()
    ask(cells, count)
    return cells
