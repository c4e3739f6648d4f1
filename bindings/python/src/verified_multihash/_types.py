"""Types of arguments: bytes and files."""

from __future__ import annotations

from collections.abc import Awaitable
from typing import TYPE_CHECKING, Any, Protocol

if TYPE_CHECKING:
    from _typeshed import ReadableBuffer as Buffer
else:
    Buffer = bytes | bytearray | memoryview

__all__ = ["AsyncReadable", "Buffer", "Readable", "read_of", "view_of"]


class Readable(Protocol):
    def read(self, size: int, /) -> bytes | None:
        """Returns at most `size` bytes; none at the end; None if none can be read without waiting."""


class AsyncReadable(Protocol):
    def read(self, size: int, /) -> Awaitable[bytes]:
        """Returns at most `size` bytes; none at the end."""


def view_of(data: Buffer, name: str) -> memoryview:
    try:
        return memoryview(data)
    except TypeError:
        raise TypeError(f"{name} must be a bytes-like object, not {type(data).__name__}") from None


def read_of(file: object, expected: str = "file must be a binary file, such as open(path, 'rb')") -> Any:
    """Returns the method of a file or a stream. If it has none, the error says what is expected."""
    try:
        return getattr(file, "read")
    except AttributeError:
        raise TypeError(f"{expected}, not {type(file).__name__}") from None
