"""Owners of a handle."""
from __future__ import annotations

import ctypes
import threading
from typing import Any, TypeVar

Its = TypeVar("Its", bound="Owner")


class Owner:
    """Has a handle that is closed once and never copied. Its calls wait for one another, so any thread may use it."""

    def __init__(self, library: ctypes.CDLL, handle: ctypes.Structure, close: str) -> None:
        self._library, self._handle, self._close = library, handle, close
        # ctypes lets other threads run during a call, and a handle serves one at a time
        self._lock = threading.RLock()

    def _call(self, name: str, *arguments: Any) -> int:
        """What a call of the library gives for the handle."""
        with self._lock:
            return getattr(self._library, "pathserve_" + name)(self._handle, *arguments)

    def close(self) -> None:
        """Frees what it has. Closing twice is no harm."""
        self._call(self._close)

    def __enter__(self: Its) -> Its:
        return self

    def __exit__(self, *_) -> None:
        self.close()

    def __del__(self) -> None:
        if hasattr(self, "_lock"):
            self.close()

    def __copy__(self):
        raise TypeError("a handle is not copied")

    __deepcopy__ = __reduce__ = lambda self, *_: self.__copy__()
