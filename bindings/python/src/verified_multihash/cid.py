"""Content identifiers (CIDs), as bytes and as strings. All of this is only tested.

A CID is a version, a codec, which is the number of the content's format, and a multihash. The bytes of version 1 are the
varints of 1 and of the codec, and the multihash. The bytes of version 0 are the multihash alone: SHA2-256, 32 bytes. Each
CID has exactly one encoding, and one string in each base: others, with capitals or padding, are rejected.

    from verified_multihash.cid import CID, CODECS

    cid = CID.parse("bafkreifzjut3te2nhyekklss27nh3k72ysco7y32koao5eei66wof36n5e")
    assert cid.codec == CODECS["raw"] and CID.decode(bytes(cid)) == cid
"""

from __future__ import annotations

import base64
import re
from collections.abc import Callable, Mapping
from dataclasses import dataclass
from types import MappingProxyType
from typing import Self

from . import LENGTH_MAX as MULTIHASH_MAX
from . import VARINT_LENGTH_MAX, Multihash, MultihashError, Status, encode_varint, read, read_varint
from ._types import Buffer, view_of

__all__ = ["CID", "CIDError", "CODECS", "LENGTH_MAX", "TEXT_MAX"]

# The codecs that most CIDs have, by their names in the multicodec table. Any other number is a codec too.
CODECS: Mapping[str, int] = MappingProxyType(
    {"raw": 0x55, "dag-pb": 0x70, "dag-cbor": 0x71, "libp2p-key": 0x72, "dag-json": 0x129}
)

# The maximum lengths of an encoding in bytes, and of a text in characters, which is in base16. To decode base58 takes
# time that is quadratic in the length of the text, so a longer text is not decoded.
LENGTH_MAX = 1 + VARINT_LENGTH_MAX + MULTIHASH_MAX
TEXT_MAX = 1 + 2 * LENGTH_MAX

_BASE58 = "123456789ABCDEFGHJKLMNPQRSTUVWXYZabcdefghijkmnopqrstuvwxyz"
_SHA256 = b"\x12\x20"  # the code, and the length of the digest


class CIDError(ValueError):
    """The error of a string, bytes or fields that are not a CID. Its message says what is wrong.

    `status` is the kind of the error, which has the same name in other languages:
    A name of Status, in lower case: the version, the codec or the multihash is invalid or truncated, or bytes follow it,
    as that Status says; `__cause__` is the MultihashError. An empty text is `insufficient`.
    `unknown_base`: the text does not start with `b`, `f`, `z` or `Qm`.
    `invalid_digit`: a character is not a digit of the base.
    `too_long`: the text has more than TEXT_MAX characters.
    `trailing_bits`: the last digit is superfluous, or its unused bits are not zero.
    `wrong_prefix`: a CID of version 0 has a prefix, or a text that starts with `Qm` is not of version 0.
    `unknown_version`: the version of bytes is not 1, or that of fields neither 0 nor 1.
    `not_version_0`: version 0 cannot have this codec or multihash.
    """

    def __init__(self, status: str, text: str) -> None:
        self.status = status
        super().__init__(text)

    def __reduce__(self) -> tuple[object, ...]:
        return type(self), (self.status, str(self)), self.__dict__


@dataclass(frozen=True, repr=False)
class CID:
    """A version, which is 0 or 1, a codec below 2**63, and a multihash.

    Version 0 has the codec `dag-pb` and a multihash of SHA2-256 with 32 bytes. Values are immutable and hashable.
    `bytes(cid)` returns the encoding, and `str(cid)` the text: in base32 for version 1, `Qm..` for version 0. Raises
    CIDError with the status `unknown_version`, `not_version_0` or, for the codec, `overflow`.
    """

    version: int
    codec: int
    multihash: Multihash

    def __post_init__(self) -> None:
        for name, number in (("version", self.version), ("codec", self.codec)):
            if not isinstance(number, int):
                raise TypeError(f"{name} must be an int, not {type(number).__name__}")
        if not isinstance(self.multihash, Multihash):
            raise TypeError(f"multihash must be a Multihash, not {type(self.multihash).__name__}")
        if self.codec < 0:
            raise ValueError("codec must not be negative")
        if self.version not in (0, 1):
            raise CIDError("unknown_version", "the version must be 0 or 1")
        try:
            encode_varint(self.codec)
        except MultihashError as error:
            raise CIDError("overflow", f"codec: {error}") from error
        if self.version == 0 and (self.codec != CODECS["dag-pb"] or bytes(self.multihash)[:2] != _SHA256):
            raise CIDError("not_version_0", "version 0 has the codec 0x70 and a multihash of SHA2-256 with 32 bytes")

    @classmethod
    def parse(cls, text: str) -> Self:
        """Decodes a string: `b..` (base32), `f..` (base16), `z..` (base58btc), or `Qm..` (version 0).

        Raises CIDError for other strings.
        """
        if not isinstance(text, str):
            raise TypeError(f"text must be a str (CID.decode takes bytes), not {type(text).__name__}")
        if not text:
            raise CIDError("insufficient", "the text is empty")
        is_version_0 = text.startswith("Qm")
        base, start = ("z", 0) if is_version_0 else (text[0], 1)
        if base not in _BASES:
            raise CIDError("unknown_base", "the text must start with b, f, z or Qm")
        name, not_digit, encode, decode = _BASES[base]
        wrong_digit = not_digit.search(text, start, TEXT_MAX)
        if wrong_digit:  # the character is not shown: it may be one that changes how the text is displayed
            raise CIDError("invalid_digit", f"the character at index {wrong_digit.start()} is not a {name} digit")
        if len(text) > TEXT_MAX:
            raise CIDError("too_long", f"the text has more than {TEXT_MAX} characters")
        data = decode(text[start:])
        if encode(data) != text[start:]:
            raise CIDError("trailing_bits", f"the last {name} digit has superfluous bits")
        if data.startswith(_SHA256) != is_version_0:
            raise CIDError("wrong_prefix", "a CID of version 0 has the text Qm.., and no other has")
        return cls.decode(data)

    @classmethod
    def decode(cls, data: Buffer) -> Self:
        """Decodes `data`, which must be exactly one CID. Raises CIDError for other input."""
        cid, length = cls.read(data)
        more = memoryview(data).nbytes - length
        if more == 0:
            return cid
        text = f"{more} {'byte follows' if more == 1 else 'bytes follow'} the multihash"
        error = MultihashError(Status.INVALID_SIZE, more, consumed=length + more, text=text)
        raise CIDError("invalid_size", f"multihash: {text}") from error

    @classmethod
    def read(cls, data: Buffer) -> tuple[Self, int]:
        """Decodes the CID at the start of `data`. Returns it and the length of its encoding.

        More bytes may follow. Raises CIDError if `data` does not start with a CID.
        """
        first = _first_bytes(data)
        version, codec, start, part = 0, CODECS["dag-pb"], 0, "version"
        try:
            if not first.startswith(_SHA256):
                version, start = read_varint(first)
                if version != 1:
                    raise CIDError("unknown_version", f"the version must be 1, not {version}")
                part = "codec"
                codec, length = read_varint(first[start:])
                start += length
            part = "multihash"
            multihash, length = read(first[start:])
        except MultihashError as error:
            raise CIDError(error.status.name.lower(), f"{part}: {error}") from error
        return cls(version, codec, multihash), start + length

    def text(self, base: str = "") -> str:
        """Returns the string in the base of a prefix: `b` is base32, `f` base16, `z` base58btc, which has no prefix in
        version 0. Version 0 has no other base."""
        base = base or ("b" if self.version else "z")
        if base not in _BASES or (self.version == 0 and base != "z"):
            raise ValueError(f"base must be 'b', 'f' or 'z', and 'z' for version 0, not {base!r:.20}")
        _, _, encode, _ = _BASES[base]
        return (base if self.version else "") + encode(bytes(self))

    def __bytes__(self) -> bytes:
        start = b"\x01" + encode_varint(self.codec) if self.version == 1 else b""
        return start + bytes(self.multihash)

    def __str__(self) -> str:
        return self.text()

    def __format__(self, format_spec: str) -> str:
        """Formats what str returns."""
        return format(str(self), format_spec)

    def __repr__(self) -> str:
        return f"{type(self).__qualname__}.parse({str(self)!r})"


def _first_bytes(data: Buffer) -> bytes:
    """Returns a copy, so that an error does not keep the buffer from being resized."""
    view = view_of(data, "data")
    return (view[:LENGTH_MAX] if view.ndim else view).tobytes()[:LENGTH_MAX]


def _to_base32(data: bytes) -> str:
    return base64.b32encode(data).decode().lower().rstrip("=")


def _from_base32(digits: str) -> bytes:
    if len(digits) % 8 in (1, 3, 6):  # the last digit has bits of no byte
        digits = digits[:-1]
    return base64.b32decode(digits.upper() + "=" * (-len(digits) % 8))


def _from_base16(digits: str) -> bytes:
    return bytes.fromhex(digits[: len(digits) // 2 * 2])


def _to_base58(data: bytes) -> str:
    number, digits = int.from_bytes(data, "big"), []
    while number:
        number, value = divmod(number, 58)
        digits.append(_BASE58[value])
    return "1" * (len(data) - len(data.lstrip(b"\0"))) + "".join(reversed(digits))


def _from_base58(digits: str) -> bytes:
    number = 0
    for digit in digits:
        number = 58 * number + _BASE58.index(digit)
    zeros = len(digits) - len(digits.lstrip("1"))
    return bytes(zeros) + number.to_bytes((number.bit_length() + 7) // 8, "big")


# By the prefix of a text: the name of the base, what is not a digit of it, and functions that encode and decode digits. What
# decodes ignores bits that belong to no byte.
_BASES: Mapping[str, tuple[str, re.Pattern[str], Callable[[bytes], str], Callable[[str], bytes]]] = {
    "b": ("base32", re.compile("[^a-z2-7]"), _to_base32, _from_base32),
    "f": ("base16", re.compile("[^0-9a-f]"), bytes.hex, _from_base16),
    "z": ("base58btc", re.compile(f"[^{_BASE58}]"), _to_base58, _from_base58),
}
