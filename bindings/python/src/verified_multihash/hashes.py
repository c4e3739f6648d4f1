"""Names of codes, and multihashes of data, computed by hashlib or by your own functions. This is only tested.

Where a call has the parameter `functions`, it maps names or codes to functions that hashlib lacks, or that are used in
place of its own. Each takes no arguments and returns an object with the methods `update(data)` and `digest()`, as the
functions of hashlib do: `functions={"blake3": blake3.blake3}`.
"""

from __future__ import annotations

import functools
from collections.abc import Callable, Iterable, Iterator, Mapping
from operator import methodcaller
from types import MappingProxyType
from typing import Any, Protocol

from . import _codes
from ._core import DIGEST_MAX, Multihash, decode
from ._error import MultihashError
from ._status import Status
from ._types import Buffer, Readable, read_of, view_of

# The calls that use hashlib and hmac import them: this takes longer than to import the rest of the package.

__all__ = ["CODES", "NAMES", "Hasher", "UnsupportedHashError", "digest", "digest_file", "verify", "verify_file"]


# The hash functions of the multicodec table: the code of each name, and the name of each code.
CODES: Mapping[str, int] = MappingProxyType(_codes.CODES)
NAMES: Mapping[int, str] = MappingProxyType({code: name for name, code in CODES.items()})


def _double_sha256(hasher: Any) -> bytes:
    import hashlib

    return hashlib.sha256(hasher.digest()).digest()


_IN_HASHLIB = {"dbl-sha2-256": "sha256", "keccak-256": "keccak-256", "ripemd-160": "ripemd160", "sm3-256": "sm3"}
# What returns the digest of an object of hashlib, where `digest()` does not.
_DIGESTS: Mapping[str, Callable[[Any], bytes]] = {
    "shake-128": methodcaller("digest", 32),
    "shake-256": methodcaller("digest", 64),
    "dbl-sha2-256": _double_sha256,
}


class UnsupportedHashError(ValueError):
    """There is no function for a code: the name of the code is not known, or this build of hashlib lacks the function.

    So data can be neither hashed nor verified, which says nothing about them.
    """


class _Hash(Protocol):
    def update(self, data: bytes, /) -> object:
        ...

    def digest(self) -> bytes:
        ...


_Functions = Mapping[int, Callable[[], _Hash]] | Mapping[str, Callable[[], _Hash]]


class _Identity:
    """The function whose digest is the data, with the methods of hashlib's objects."""

    _data = b""

    def update(self, data: Buffer) -> None:
        """Raises MultihashError for more than DIGEST_MAX bytes, before it copies them."""
        size = len(self._data) + memoryview(data).nbytes
        if size > DIGEST_MAX:
            text = f"identity takes at most {DIGEST_MAX} bytes of content, got {size}"
            raise MultihashError(Status.INVALID_SIZE, size, text=text)
        self._data += data

    def digest(self) -> bytes:
        return self._data


@functools.cache
def _constructor(code: int) -> Callable[[], Any]:
    """Returns the function of hashlib that makes a hash object for a code."""
    import hashlib

    if code not in NAMES:
        raise UnsupportedHashError(f"no hash function is known for the code {hex(code)}")
    name = NAMES[code]
    kind, _, bits = name.partition("-")
    if kind == "identity":
        return _Identity
    if kind in ("blake2b", "blake2s"):
        return functools.partial(getattr(hashlib, kind), digest_size=int(bits) // 8)
    constructor = functools.partial(hashlib.new, _IN_HASHLIB.get(name, name.replace("sha2-", "sha").replace("-", "_")))
    try:
        constructor()
    except ValueError:
        raise UnsupportedHashError(f"hashlib does not have {name} here, whose code is {hex(code)}") from None
    return constructor


class Hasher:
    """Makes the multihash of data that is passed in parts, by the function of a name or a code.

    Raises UnsupportedHashError if neither `functions` nor this build of hashlib has the function. Raises ValueError if
    the name is not in CODES.
    """

    __slots__ = ("_code", "_hash", "_digest")

    def __init__(self, name: str | int, functions: _Functions | None = None) -> None:
        if not isinstance(name, (str, int)):
            raise TypeError(f"name must be a str such as 'sha2-256', or a code, not {type(name).__name__}")
        if isinstance(name, str) and name not in CODES:
            raise ValueError(f"name must be in hashes.CODES, such as 'sha2-256', not {name!r:.60}")
        code = self._code = CODES[name] if isinstance(name, str) else name
        custom: Mapping[Any, Callable[[], Any]] = {} if functions is None else functions
        if not isinstance(custom, Mapping):
            raise TypeError(f"functions must map names or codes to functions, not {type(functions).__name__}")
        constructor = custom.get(code, custom.get(NAMES.get(code, code)))
        self._hash: Any = _constructor(code)() if constructor is None else constructor()
        self._digest = _DIGESTS.get(NAMES[code] if constructor is None else "", methodcaller("digest"))

    def update(self, data: Buffer) -> None:
        """Appends data. Raises MultihashError if "identity" gets more than DIGEST_MAX bytes."""
        view = view_of(data, "data")
        self._hash.update(data if view.c_contiguous and view.ndim < 2 else view.tobytes())  # as hashlib wants it

    def multihash(self) -> Multihash:
        """Returns the multihash of all data so far."""
        return Multihash(self._code, self._digest(self._hash))


def _parts(file: Readable) -> Iterator[Buffer]:
    read = read_of(file)
    while (part := read(1 << 18)) is not None:
        if view_of(part, "the result of read").nbytes == 0:
            return
        yield part
    raise BlockingIOError("the file has no bytes now")


def _digest(parts: Iterable[Buffer], name: str | int, functions: _Functions | None) -> Multihash:
    hasher = Hasher(name, functions)
    for part in parts:
        hasher.update(part)
    return hasher.multihash()


def digest(data: Buffer, name: str | int, functions: _Functions | None = None) -> Multihash:
    """Returns the multihash of data, hashed with the function of a name or a code.

    Raises UnsupportedHashError if neither `functions` nor this build of hashlib has the function. Raises ValueError if
    the name is not in CODES, and MultihashError for "identity" and more than DIGEST_MAX bytes.
    """
    return _digest([data], name, functions)


def digest_file(file: Readable, name: str | int, functions: _Functions | None = None) -> Multihash:
    """Returns the multihash of the bytes of a binary file up to its end, as `digest` does, with 256 KiB in memory."""
    return _digest(_parts(file), name, functions)


def _verify(multihash: Multihash | Buffer, parts: Iterable[Buffer], functions: _Functions | None) -> bool:
    import hmac

    try:
        claimed = multihash if isinstance(multihash, Multihash) else decode(multihash)
    except TypeError:
        raise TypeError(f"multihash must be a Multihash or its encoding, not {type(multihash).__name__}") from None
    hasher = Hasher(claimed.code, functions)
    try:
        for part in parts:
            hasher.update(part)
    except MultihashError:
        if isinstance(hasher._hash, _Identity):
            return False  # the data are longer than any digest
        raise
    return hmac.compare_digest(claimed.digest, hasher._digest(hasher._hash))


def verify(multihash: Multihash | Buffer, data: Buffer, functions: _Functions | None = None) -> bool:
    """Returns whether data has this multihash: a Multihash or its encoding. Returns False for a truncated digest.

    Raises UnsupportedHashError if neither `functions` nor this build of hashlib has a function for the code. The time
    that it takes to compare digests of equal lengths does not depend on their bytes.
    """
    view_of(data, "data")  # first: if the arguments are swapped, the error is about data
    return _verify(multihash, [data], functions)


def verify_file(multihash: Multihash | Buffer, file: Readable, functions: _Functions | None = None) -> bool:
    """Returns whether the bytes of a binary file up to its end have this multihash, as `verify` does."""
    return _verify(multihash, _parts(file), functions)
