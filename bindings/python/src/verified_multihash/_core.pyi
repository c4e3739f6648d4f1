# The functions and types in C. Editors show these texts, and help() those of the module, which are the same.
from collections.abc import Awaitable, Callable
from types import GenericAlias
from typing import ClassVar, Generic, Literal, Self, TypeVar

from _typeshed import ReadableBuffer as Buffer

from ._error import MultihashError

_Item = TypeVar("_Item")

DIGEST_MAX: int
HEAD_MAX: int
LENGTH_MAX: int
SCALE_LENGTH_MAX: int
VARINT_LENGTH_MAX: int

class Multihash:
    """A code below 2**63, which identifies the hash function, and a digest of at most DIGEST_MAX bytes.

    Values are immutable and hashable. They are ordered by code, then by digest length, then by the first digest
    byte that differs. `bytes(multihash)` returns the encoding, and `str(multihash)` the same in hexadecimal.
    """

    __match_args__: ClassVar[tuple[Literal["code"], Literal["digest"]]]
    def __new__(cls, code: int, digest: Buffer) -> Self: ...
    @property
    def code(self) -> int:
        """The code of the hash function, below 2**63."""
    @property
    def digest(self) -> bytes:
        """The digest, as bytes."""
    def __bytes__(self) -> bytes: ...
    def __lt__(self, other: Multihash) -> bool: ...
    def __le__(self, other: Multihash) -> bool: ...
    def __gt__(self, other: Multihash) -> bool: ...
    def __ge__(self, other: Multihash) -> bool: ...
    def __replace__(self, /, *, code: int = ..., digest: Buffer = ...) -> Self: ...
    @classmethod
    def fromhex(cls, text: str, /) -> Self:
        """Decodes the multihash whose encoding is all of a text in hexadecimal.

        Raises ValueError if the text is not hexadecimal, and what `decode` raises.
        """
    def hex(self) -> str:
        """Returns the encoding in hexadecimal, as str does."""
    def hexdigest(self) -> str:
        """Returns the digest in hexadecimal, as the objects of hashlib do."""

class Reader(Generic[_Item]):
    @property
    def _read(self) -> Callable[[int], Awaitable[object]]: ...
    @property
    def rest(self) -> bytes:
        """The bytes read so far of the next multihash or frame."""
    @property
    def consumed(self) -> int:
        """The number of bytes of the multihashes or frames returned so far."""
    @property
    def count(self) -> int:
        """The number of the multihashes or frames returned so far."""
    def __class_getitem__(cls, item: object, /) -> GenericAlias: ...
    def __init__(self, read: object, limit: int, is_framed: bool = ..., /) -> None: ...
    def _begin(self) -> int: ...
    def _end(self, chunk: object, /) -> int: ...
    def _fail(self, error: BaseException, /) -> None: ...
    def _take(self) -> _Item | None: ...

class FileReader(Reader[_Item]):
    def __iter__(self) -> Self: ...
    def __next__(self) -> _Item: ...
    def read(self) -> _Item | None:
        """Returns the next multihash or frame, or None at the end of the file."""

def decode(data: Buffer) -> Multihash:
    """Decodes `data`, which must be exactly one multihash.

    Raises MultihashError if it is malformed or truncated, or if bytes follow the multihash.
    """

def read(data: Buffer, limit: int = ...) -> tuple[Multihash, int]:
    """Decodes the multihash at the start of `data`, with a digest of at most `limit` bytes.

    Returns the multihash and the length of its encoding. More bytes may follow. Raises MultihashError if `data`
    does not start with such a multihash. If `is_incomplete` of the error is true, append bytes and call again.
    """

def scale_decode(data: Buffer) -> tuple[Multihash, int]:
    """Decodes the SCALE encoding at the start of `data`. Returns the multihash and the length of the encoding.

    Raises MultihashError if the encoding is truncated, or if the code is 2**63 or more.
    """

def head(data: Buffer, /) -> tuple[int, int, int]: ...
def read_many(data: Buffer, /) -> tuple[bytearray, int, MultihashError | None]: ...
def read_varint(data: Buffer) -> tuple[int, int]:
    """Decodes the varint at the start of `data`. Returns the value, below 2**63, and the length of the varint.

    Raises MultihashError if the varint is malformed or truncated.
    """

def encode_varint(value: int) -> bytes:
    """Returns the varint of a value. Raises MultihashError for a value of 2**63 or more."""

def encode(code: int, digest: Buffer) -> bytes:
    """Returns the encoding of a code and a digest.

    Raises MultihashError for a code of 2**63 or more, and for a digest of more than DIGEST_MAX bytes.
    """

def scale_encode(code: int, digest: Buffer) -> bytes:
    """Returns the SCALE encoding of a code and a digest. Raises what `encode` raises."""

def encoded_length(code: int, digest_length: int) -> int:
    """Returns the length of the encoding of a code and a digest of that length. Raises what `encode` raises."""

def compare(left: Multihash, right: Multihash) -> int:
    """Returns -1 if `left` is less than `right`, 0 if they are equal, and 1 if it is greater."""

def set_error(error: type[ValueError], /) -> None: ...
