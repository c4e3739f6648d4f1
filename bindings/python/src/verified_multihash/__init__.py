"""Decodes, encodes and compares multihashes, by C source that is checked for all inputs.

Functions that take bytes accept any object that supports the buffer protocol, and raise TypeError for anything else.
Invalid input, and a code or digest that is too large, raise MultihashError, a subclass of ValueError. The module
verified_multihash.hashes has the names of codes, and makes and verifies multihashes with hashlib.

    from verified_multihash import decode, hashes

    multihash = hashes.digest(b"hello", "sha2-256")
    assert decode(bytes(multihash)) == multihash and hashes.verify(multihash, b"hello")
"""

from __future__ import annotations

import struct
from typing import NamedTuple

from . import _core, hashes

from ._core import (
    DIGEST_MAX, HEAD_MAX, LENGTH_MAX, SCALE_LENGTH_MAX, VARINT_LENGTH_MAX, Multihash, compare, decode, encode,
    encode_varint, encoded_length, read, read_varint, scale_decode, scale_encode,
)  # fmt: skip
from ._error import MultihashError
from ._readers import AsyncFrameReader, AsyncMultihashReader, FrameReader, MultihashReader, read_from
from ._status import Status
from ._types import Buffer

__all__ = [
    "AsyncFrameReader", "AsyncMultihashReader", "Columns", "DIGEST_MAX", "FrameReader", "HEAD_MAX", "Head",
    "LENGTH_MAX", "Multihash", "MultihashError", "MultihashReader", "SCALE_LENGTH_MAX", "Status", "VARINT_LENGTH_MAX",
    "__version__", "compare", "decode", "encode", "encode_varint", "encoded_length", "hashes", "head", "read",
    "read_from", "read_many", "read_varint", "scale_decode", "scale_encode",
]  # fmt: skip

__version__ = "1.0.0"


class Head(NamedTuple):
    """The two varints at the start of an encoding: the code and the digest's length. They have `consumed` bytes."""

    code: int
    digest_length: int
    consumed: int


class Columns(NamedTuple):
    """What `read_many` decoded. Item i of each column belongs to multihash i, from 0 on.

    `codes` has the codes. The digest is `data[offsets[i] : offsets[i] + lengths[i]]`, if `data` is of bytes.
    `consumed` is the number of bytes consumed: those of all multihashes in the columns.
    `error` is the MultihashError of the bytes from `consumed` on, or None if there are none. Its own `consumed` counts
    from there.
    """

    codes: memoryview
    offsets: memoryview
    lengths: memoryview
    consumed: int
    error: MultihashError | None


def head(data: Buffer) -> Head:
    """Decodes the two varints at the start of an encoding, without the digest, which may be missing or too long.

    Raises MultihashError if a varint is malformed or truncated.
    """
    return Head._make(_core.head(data))


def read_many(data: Buffer) -> Columns:
    """Decodes the multihashes in `data`, one after the other, up to the end or the first that is invalid or truncated.

    `data` must be contiguous. No digest is copied, and no object is made for a multihash: the columns are memoryviews,
    which other packages use without a copy. No MultihashError is raised: `error` of the columns has it.
    """
    items, consumed, error = _core.read_many(data)
    view = memoryview(items).toreadonly()
    size = struct.calcsize("N")
    in_code = 8 // size  # an item of the C library is a code in eight bytes, and an offset and a length of this size
    step = in_code + 2
    codes, numbers = view.cast("q"), view.cast("q" if size == 8 else "i")
    return Columns(codes[:: step // in_code], numbers[in_code::step], numbers[in_code + 1 :: step], consumed, error)
