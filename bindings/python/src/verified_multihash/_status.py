"""The statuses of multihash.h. Made by tools/generate tables."""

import enum


class Status(enum.IntEnum):
    """Why a call failed, with the numbers of the C library. OK and NO_ROOM are not raised.

    INSUFFICIENT: The input ends before or inside a varint. More input can change the result.
    OVERFLOW: A varint has, or would have, more than nine bytes. Numbers of 2^63 and above need that many.
    NOT_MINIMAL: A varint of more than one byte ends in a zero byte.
    INVALID_SIZE: `size` is the length of a digest that is too long, or the number of bytes that follow the multihash.
    INVALID_CODE: The code is 2^63 or more. A decoding returns it in `code`.
    UNEXPECTED_EOF: The input ends inside the digest, or anywhere inside a SCALE encoding. More input can change the result.
    """

    __module__ = "verified_multihash"  # where pickled values find it
    OK = 0
    INSUFFICIENT = 1
    OVERFLOW = 2
    NOT_MINIMAL = 3
    INVALID_SIZE = 4
    INVALID_CODE = 5
    UNEXPECTED_EOF = 6
    NO_ROOM = 7


INCOMPLETE = (Status.INSUFFICIENT, Status.UNEXPECTED_EOF)

# What multihash_status_text returns.
TEXTS = {
    Status.OK: "ok",
    Status.INSUFFICIENT: "the input ends before or inside a varint",
    Status.OVERFLOW: "a varint has more than nine bytes",
    Status.NOT_MINIMAL: "a varint is not minimal: it ends in a zero byte",
    Status.INVALID_SIZE: "the digest or the input is too long",
    Status.INVALID_CODE: "the code is 2^63 or more",
    Status.UNEXPECTED_EOF: "the input ends before the end of the digest",
    Status.NO_ROOM: "the buffer is too small",
}
