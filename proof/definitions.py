"""What each function of multihash.h returns and writes, for all arguments: docs/FORMAT.md as formulas, in its order.
A function of the header has its name and its parameters here, but for the pointers. What multihash_read_many returns is
in c_read_many.py, by the definition of multihash_read."""
import re
from collections.abc import Callable
from dataclasses import dataclass, field
from pathlib import Path
from typing import Any, NamedTuple

import z3

Value = Any  # a number, or a bit vector of z3
C = Path(__file__).parents[1] / "bindings/c"
HEADER = (C / "include/multihash.h").read_text("utf-8")
OK, INSUFFICIENT, OVERFLOW, NOT_MINIMAL, INVALID_SIZE, INVALID_CODE, UNEXPECTED_EOF, NO_ROOM = range(8)


@dataclass
class Result:
    """The members of what a function returns, of which those without a name here are 0. A number has the member "". The
    function writes `head` and that many bytes of the digest to the start of `out`."""

    members: dict[str, Value]
    head: list[Value] = field(default_factory=list)
    digest: Value = 0


# The first row whose condition holds decides: it has a Result, or further rows.
Rows = list[tuple[Any, Any]]


def widened(x: Value) -> Any:
    """A number as a bit vector of 64 bits, with zeros above its own."""
    return z3.BitVecVal(x, 64) if isinstance(x, int) else z3.ZeroExt(64 - x.size(), x)


# Limits
def is_code(number: Any) -> Any:
    return z3.ULE(number, (1 << 63) - 1)


def is_too_long(size: Any, limit: Value = 255) -> Any:
    return z3.Or(z3.UGT(size, widened(limit)), z3.UGT(size, 255))


# Varints
def varint_of(number: Any, then: Callable[[list[Any]], Any]) -> Rows:
    """The bytes of the varint of a number below 2^63: digits of base 128, least significant first, plus 128 but for the
    last one. There are as few as the number allows."""
    rows = []
    for length in range(1, 10):
        digits = [z3.Extract(7 * i + 6, 7 * i, number) for i in range(length)]
        marked = [z3.Concat(z3.BitVecVal(i < length - 1, 1), digit) for i, digit in enumerate(digits)]
        rows.append((z3.ULT(number, 1 << 7 * length), then(marked)))
    return rows


def varint(name: str, at: int, length: Any) -> list[tuple[Any, tuple[int, Any, int]]]:
    """What an input of `length` bytes has at an index, in rows: a status, a number, which is 0 if the varint is malformed, and
    the index after the varint, or after the byte that decides."""
    rows: list[tuple[Any, tuple[int, Any, int]]] = []
    digits: list[Any] = []
    for end in range(at + 1, at + 10):
        byte = z3.BitVec(f"{name}[{end - 1}]", 8)
        digits.append(z3.Extract(6, 0, byte))
        number = z3.Concat(z3.BitVecVal(0, 1), *reversed(digits))
        rows.append((length == end - 1, (INSUFFICIENT, 0, end - 1)))
        if len(digits) > 1:
            rows.append((byte == 0, (NOT_MINIMAL, 0, end)))
        rows.append((z3.ULT(byte, 128), (OK, widened(number), end)))
    return [*rows, (True, (OVERFLOW, 0, at + 9))]


class Varint:
    """What an input has at an index, as symbols."""

    def __init__(self, name: str):
        self.status, self.end = z3.BitVec(f"{name}.status", 8), z3.BitVec(f"{name}.end", 8)
        self.number = z3.BitVec(f"{name}.number", 64)

    def holds(self, name: str, at: int, length: Any) -> Any:
        """That the symbols are what `varint` says."""
        formula: Any = z3.BoolVal(False)
        for when, (status, number, end) in reversed(varint(name, at, length)):
            same = z3.And(self.status == status, self.number == number, self.end == end)
            formula = z3.If(when, same, formula)
        return formula


FIRST, SECOND = Varint("first"), Varint("second")
CODE, SIZE, END = FIRST.number, SECOND.number, SECOND.end  # of both, if none is malformed


class TwoVarints(NamedTuple):
    """Rows about FIRST and SECOND: the varints at the start of an input, of which the first `length` bytes are there."""

    rows: Rows
    name: str
    length: Any

    def holds(self) -> Any:
        """That FIRST is at the start of the input, and SECOND follows it."""
        follows = [z3.And(FIRST.status == OK, FIRST.end == at) for at in range(1, 10)]
        second = [z3.Implies(follows[at - 1], SECOND.holds(self.name, at, self.length)) for at in range(1, 10)]
        return z3.And(FIRST.holds(self.name, 0, self.length), *second)


def stopped(status: Value, consumed: Value) -> Result:
    return Result({"status": status, "consumed": consumed})


def get_varint(length: Any) -> Rows:
    """The varint at the start of an input, and how many bytes decide."""
    rows = varint("bytes", 0, length)
    return [(when, Result({"status": status, "value": x, "consumed": end})) for when, (status, x, end) in rows]


def multihash_read_varint(bytes_length: Any) -> Rows:
    def result(status: int, number: Any, end: int) -> Result:
        return Result({"status": status, "value": number, "length": end if status == OK else 0})

    return [(when, result(*row)) for when, row in varint("bytes", 0, bytes_length)]


def malformed(consumed: Any = None) -> Rows:
    """The errors of the two varints, with that many bytes consumed, or else those up to and including the one that decides."""
    return [
        (each.status != OK, stopped(each.status, each.end if consumed is None else consumed))
        for each in (FIRST, SECOND)
    ]


def multihash_read_head(bytes_length: Any) -> TwoVarints:
    both = Result({"status": OK, "code": CODE, "digest_length": SIZE, "consumed": END})
    return TwoVarints([*malformed(), (True, both)], "bytes", bytes_length)


def multihash_read_limit(bytes_length: Any, limit: Value) -> TwoVarints:
    after = widened(END)
    pair = {"code": CODE, "digest_offset": END, "digest_length": SIZE, "consumed": after + SIZE}
    rows = [
        *malformed(),
        (is_too_long(SIZE, limit), Result({"status": INVALID_SIZE, "size": SIZE, "consumed": END})),
        (z3.ULT(widened(bytes_length) - after, SIZE), stopped(UNEXPECTED_EOF, END)),
        (True, Result({"status": OK, **pair})),
    ]
    return TwoVarints(rows, "bytes", bytes_length)


def multihash_read(bytes_length: Any) -> TwoVarints:
    return multihash_read_limit(bytes_length, 255)


def whole(name: str, length: Any, whole_length: Any) -> TwoVarints:
    """The verdict on an input of `whole_length` bytes, of which the first `length` are there."""
    left = widened(whole_length) - widened(END)
    pair = {"code": CODE, "digest_offset": END, "digest_length": SIZE}
    rows = [
        *malformed(whole_length),
        (is_too_long(SIZE), Result({"status": INVALID_SIZE, "size": SIZE, "consumed": whole_length})),
        (z3.ULT(left, SIZE), stopped(UNEXPECTED_EOF, whole_length)),
        (z3.UGT(left, SIZE), Result({"status": INVALID_SIZE, "size": left - SIZE, "consumed": whole_length})),
        (True, Result({"status": OK, **pair, "consumed": whole_length})),
    ]
    return TwoVarints(rows, name, length)


def multihash_from_bytes(bytes_length: Any) -> TwoVarints:
    return whole("bytes", bytes_length, bytes_length)


def multihash_from_prefix(prefix_length: Any, whole_length: Any) -> TwoVarints:
    is_less = z3.ULT(prefix_length, whole_length)
    return whole("prefix", z3.If(is_less, prefix_length, whole_length), whole_length)


# The encoding
def written(room: Any, head: list[Any], digest: Any) -> Rows:
    """These bytes and that many of the digest, if there is room for them."""
    length = len(head) + widened(digest)
    return [
        (z3.UGT(length, widened(room)), Result({"status": NO_ROOM, "length": length})),
        (True, Result({"status": OK, "length": length}, head, digest)),
    ]


def fitting(code: Any, digest_length: Any, pair: Any) -> Rows:
    """The errors of the functions that encode, and what holds without one."""
    return [
        (z3.UGT(digest_length, 255), Result({"status": INVALID_SIZE, "size": digest_length})),
        (z3.Not(is_code(code)), Result({"status": INVALID_CODE})),
        (True, pair),
    ]


def multihash_write_varint(value: Any, out_length: Any) -> Rows:
    varints = varint_of(value, lambda head: written(out_length, head, 0))
    return [(z3.Not(is_code(value)), Result({"status": OVERFLOW})), (True, varints)]


def encoding(code: Any, size: Any, then: Callable[[list[Any]], Any]) -> Rows:
    return varint_of(code, lambda first: varint_of(widened(size), lambda second: then(first + second)))


def multihash_encode(code: Any, digest_length: Any, out_length: Any) -> Rows:
    pair = encoding(code, digest_length, lambda head: written(out_length, head, digest_length))
    return fitting(code, digest_length, pair)


def multihash_encoded_length(code: Any, digest_length: Any) -> Rows:
    size = widened(digest_length)
    counted = encoding(code, size, lambda head: Result({"status": OK, "length": len(head) + size}))
    return fitting(code, digest_length, counted)


# SCALE
def multihash_scale_decode(bytes_length: Any) -> Rows:
    length, source = widened(bytes_length), [z3.BitVec(f"bytes[{i}]", 8) for i in range(9)]
    code, size = z3.Concat(*reversed(source[:8])), widened(source[8])
    return [
        (z3.ULT(length, 8), stopped(UNEXPECTED_EOF, 0)),
        (z3.Not(is_code(code)), Result({"status": INVALID_CODE, "code": code, "consumed": 8})),
        (length == 8, stopped(UNEXPECTED_EOF, 8)),
        (z3.ULT(length - 9, size), stopped(UNEXPECTED_EOF, 9)),
        (True, Result({"status": OK, "code": code, "digest_offset": 9, "digest_length": size, "consumed": 9 + size})),
    ]


def multihash_scale_encode(code: Any, digest_length: Any, out_length: Any) -> Rows:
    head = [z3.Extract(8 * i + 7, 8 * i, code) for i in range(8)] + [z3.Extract(7, 0, digest_length)]
    return fitting(code, digest_length, written(out_length, head, digest_length))


# Equality and order
def multihash_compare(left_code: Any, left_digest_length: Any, right_code: Any, right_digest_length: Any) -> Rows:
    digests = z3.BitVec("the order of left_digest and right_digest", 32)  # by the first byte that differs
    less, equal, greater = (Result({"": order}) for order in (-1, 0, 1))
    return [
        (z3.ULT(left_code, right_code), less),
        (z3.UGT(left_code, right_code), greater),
        (z3.ULT(left_digest_length, right_digest_length), less),
        (z3.UGT(left_digest_length, right_digest_length), greater),
        (z3.Or(left_digest_length == 0, digests == 0), equal),
        (digests < 0, less),
        (True, greater),
    ]


# About the library
def multihash_version() -> Rows:
    return [(True, Result({"": int(re.findall(r"#define MULTIHASH_VERSION_NUMBER (\d+)", HEADER)[0])}))]


def multihash_status_text(status: Any) -> Rows:
    texts = (
        "ok",
        "the input ends before or inside a varint",
        "a varint has more than nine bytes",
        "a varint is not minimal: it ends in a zero byte",
        "the digest or the input is too long",
        "the code is 2^63 or more",
        "the input ends before the end of the digest",
        "the buffer is too small",
    )
    known = [(status == number, Result({"": text.encode()})) for number, text in enumerate(texts)]
    return [*known, (True, Result({"": b"unknown status"}))]


def multihash_is_incomplete(status: Any) -> Rows:
    ends = z3.Or(status == INSUFFICIENT, status == UNEXPECTED_EOF)
    return [(ends, Result({"": 1})), (True, Result({"": 0}))]
