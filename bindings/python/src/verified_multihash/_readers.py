"""Readers of multihashes and frames: what is in Python of them. _core has the rest."""

from __future__ import annotations

import io
from collections.abc import AsyncIterator
from typing import TypeVar

from . import _core
from ._core import DIGEST_MAX, Multihash
from ._types import AsyncReadable, Readable, read_of

FRAME_MAX = 1 << 22
STREAM = "stream must have a read that is awaited, as an asyncio.StreamReader has"
Item = TypeVar("Item")


class AsyncReader(_core.Reader[Item]):
    """The base of readers of a stream whose `read` is awaited."""

    async def read(self) -> Item | None:
        """Returns the next multihash or frame, or None at the end of the stream."""
        wanted = self._begin()
        while wanted:
            try:
                chunk = await self._read(wanted)
            except BaseException as error:
                self._fail(error)
                raise
            wanted = self._end(chunk)
        return self._take()

    def __aiter__(self) -> AsyncIterator[Item]:
        return self

    async def __anext__(self) -> Item:
        try:
            item = await self.read()
        except StopAsyncIteration as error:  # of the stream: raised here it would end a loop
            raise RuntimeError("the stream raised StopAsyncIteration") from error
        if item is None:
            raise StopAsyncIteration
        return item


class MultihashReader(_core.FileReader[Multihash]):
    """Reads concatenated encodings from a binary file. It consumes no byte after the multihash that it returns.

    `limit` is the maximum length of a digest, in bytes. `file.read` may return fewer bytes than requested. Nothing
    else may read from the file or seek in it.

    If the file does not block and has no bytes yet, `file.read` returns None or raises BlockingIOError. The reader then
    raises BlockingIOError, and its next call continues where it stopped. The same holds if the file ends inside a
    multihash, which raises MultihashError. After any other error of the file, every call raises ValueError, because a
    buffered file may have lost bytes. A call during another call raises RuntimeError, and the other call continues.
    """

    def __init__(self, file: Readable, limit: int = DIGEST_MAX) -> None:
        super().__init__(read_of(file), limit)


class AsyncMultihashReader(AsyncReader[Multihash]):
    """Reads as a MultihashReader does, from a stream whose `read` is awaited, such as an asyncio.StreamReader.

    If a call is cancelled, for example by a timeout, the next call continues where it stopped: an asyncio.StreamReader
    loses no bytes when a `read` of it is cancelled.
    """

    def __init__(self, stream: AsyncReadable, limit: int = DIGEST_MAX) -> None:
        super().__init__(read_of(stream, STREAM), limit)


class FrameReader(_core.FileReader[bytes]):
    """Reads frames from a binary file: a varint, and then as many bytes as it says. It consumes no byte after a frame.

    `limit` is the maximum length of a frame, in bytes, without its varint. The memory that a reader takes depends on
    the bytes that it has read, not on the length that a varint has. The errors, and what `file` is, are those of a
    MultihashReader. The text of a MultihashError starts with the number of the frame, from 0 on, and its offset.
    """

    def __init__(self, file: Readable, limit: int = FRAME_MAX) -> None:
        super().__init__(read_of(file), limit, True)


class AsyncFrameReader(AsyncReader[bytes]):
    """Reads as a FrameReader does, from a stream whose `read` is awaited. A call may be cancelled, as that of an
    AsyncMultihashReader."""

    def __init__(self, stream: AsyncReadable, limit: int = FRAME_MAX) -> None:
        super().__init__(read_of(stream, STREAM), limit, True)


def read_from(file: Readable, limit: int = DIGEST_MAX) -> Multihash | None:
    """Returns the next multihash of a binary file, and consumes no byte after it; returns None at the end of the file.

    `limit` is the maximum length of a digest, in bytes. `file.read` may return fewer bytes than requested. After an
    error the bytes read of a multihash are lost; a MultihashReader keeps them. Raises io.UnsupportedOperation if the
    file does not block and has no bytes yet.
    """
    try:
        return _core.FileReader(read_of(file), limit).read()
    except BlockingIOError as error:
        raise io.UnsupportedOperation("the file does not block: use a MultihashReader") from error
