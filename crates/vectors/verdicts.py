#!/usr/bin/env python3
"""Compares the results of the stored test vectors with those that it computes.

It computes them from the rules of docs/FORMAT.md and the bound on numbers in specs/Varint, and calls nothing of the
library.

    crates/vectors/verdicts.py            checks each line
    crates/vectors/verdicts.py --write    writes the results of the stored inputs and values, and of the lines that
                                          README.md shows; of a new one only what they are computed from is needed
    crates/vectors/verdicts.py --draw SEED COUNT
                                          prints that many lines of stored inputs that are changed at random

No input is there twice with one capacity."""
import random
import re
import sys
from collections.abc import Callable, Iterator, Mapping
from pathlib import Path

TOP = Path(__file__).resolve().parents[2]
DEFINITIONS = (TOP / "crates/multihash/specs/Varint.antt").read_text("utf-8")
STORED = TOP / "crates/vectors/data/verdicts.tsv"
COLUMNS = ("S", "input", "read", "read_consumed", "from_bytes", "scale_decode", "scale_consumed")
VALUE_COLUMNS = ("kind", "limit", "code", "digest", "encoding", "scale")
VALUES, PAGE = STORED.with_name("values.tsv"), STORED.with_name("README.md")

LONGEST_DIGEST, SCALE_CODE, SCALE_HEAD = 255, 8, 9
# Numbers are below 2^BITS.
[BITS] = map(int, re.findall(r"(?m)^varint_limit = 2 \^ (\d+)$", DEFINITIONS))
MAX_CONTINUATION = (BITS - 1) // 7
LAST_BYTE_LIMIT = 1 << (BITS - 7 * MAX_CONTINUATION)


class Rejected(Exception):
    """An error, and the number of bytes that determine it, 0 if more bytes can change it."""


def read_varint(data: bytes, start: int) -> tuple[int, int]:
    """Returns the number of the varint at an index, and where it ends."""
    number = 0
    for at, byte in enumerate(data[start:]):
        if at == MAX_CONTINUATION and byte >= LAST_BYTE_LIMIT:
            raise Rejected("overflow", start + at + 1)
        if byte == 0 and at > 0:
            raise Rejected("not_minimal", start + at + 1)
        number += (byte & 127) << (7 * at)
        if byte < 128:
            return number, start + at + 1
    raise Rejected("insufficient", 0)


def read_digest(size: int, data: bytes, start: int, length: int) -> tuple[bytes, int]:
    if length > min(size, LONGEST_DIGEST):
        raise Rejected(f"invalid_size {length}", start)
    if len(data) < start + length:
        raise Rejected("unexpected_eof", 0)
    return data[start : start + length], start + length


def read(size: int, data: bytes) -> tuple[int, bytes, int]:
    """Returns the code and the digest of the multihash at the front, and where it ends."""
    code, start = read_varint(data, 0)
    length, start = read_varint(data, start)
    return code, *read_digest(size, data, start, length)


def scale_decode(size: int, data: bytes) -> tuple[int, bytes, int]:
    """Does the same for SCALE."""
    code = int.from_bytes(data[:SCALE_CODE], "little")
    if code >= 1 << BITS:
        raise Rejected(f"invalid_code {code}", SCALE_CODE)
    if len(data) < SCALE_HEAD:
        raise Rejected("unexpected_eof", 0)
    return code, *read_digest(size, data, SCALE_HEAD, data[SCALE_CODE])


def result(call: Callable[[int, bytes], tuple[int, bytes, int]], size: int, data: bytes) -> tuple[str, int]:
    """Returns the result of a call as a column has it, and the number of bytes that determine it."""
    try:
        code, found, end = call(size, data)
        return f"pair {code} {found.hex() or '-'}", end
    except Rejected as rejected:
        error, consumed = rejected.args
        return error, consumed


def verdict(size: int, data: bytes) -> str:
    """Makes a line of an input."""
    found, consumed = result(read, size, data)
    scale, scale_consumed = result(scale_decode, size, data)
    has_trailing = found.startswith("pair") and len(data) > consumed
    whole = f"invalid_size {len(data) - consumed}" if has_trailing else found
    return "\t".join(map(str, (size, data.hex() or "-", found, consumed or "-", whole, scale, scale_consumed or "-")))


def bytes_of(digits: str) -> bytes:
    return bytes.fromhex(digits.removeprefix("-"))


def inputs_of(stored: str) -> list[tuple[str, ...]]:
    return [tuple(line.split("\t")[:2]) for line in stored.splitlines()[1:]]


def changed(data: bytes, other: bytes, draw: random.Random) -> bytes:
    """Changes, inserts, repeats or removes bytes, mostly near the front, and may drop those that follow."""
    at = draw.randint(0, min(len(data), draw.choice((4, 12, 24, 300))))
    end = draw.randint(at, min(len(data), at + 9))
    part = data[at:end]
    flipped = bytes(byte ^ draw.choice((0, 128, 1 << draw.randrange(8))) for byte in part)
    edge = bytes(draw.choices((0, 1, 127, 128, 255), k=draw.randint(1, 9)))
    new = draw.choice((b"", part + part, flipped, flipped, edge, draw.randbytes(len(part)), other[at:end]))
    return data[:at] + new + data[end : draw.choice((len(data), len(data), len(data), draw.randint(end, len(data))))]


def drawn(stored: str, seed: int, count: int) -> Iterator[str]:
    """Makes a list of stored inputs that are changed once or more."""
    inputs, draw = inputs_of(stored), random.Random(seed)
    yield "\t".join(COLUMNS)
    for _ in range(count):
        (size, data), (_, other) = draw.choices(inputs, k=2)
        made, other_made = bytes_of(data), bytes_of(other)
        for _ in range(draw.randint(1, 4)):
            made = changed(made, other_made, draw)
        yield verdict(int(size), made)


def varint(number: int) -> bytes:
    """Encodes a number."""
    return bytes([number]) if number < 128 else bytes([number % 128 + 128]) + varint(number // 128)


def encodings(code: int, digest: bytes) -> tuple[bytes, bytes]:
    """Returns the encoding and the SCALE encoding."""
    length = len(digest)
    return varint(code) + varint(length) + digest, code.to_bytes(SCALE_CODE, "little") + bytes([length]) + digest


def value(limit: int, code: int, digest: bytes) -> str:
    """Makes a line of both encodings of a multihash, or of the error if there is none, twice."""
    columns = [f"invalid_size {len(digest)}"] * 2
    if len(digest) <= min(limit, LONGEST_DIGEST):
        columns = [f"invalid_code {code}"] * 2
        if code < 1 << BITS:
            columns = [form.hex() for form in encodings(code, digest)]
    return "\t".join(["value", str(limit), str(code), digest.hex() or "-", *columns])


def order(code: int, digest: bytes, other_code: int, other: bytes) -> str:
    """Makes a line of two multihashes and how they compare: by code, by length, by the first byte that differs."""
    left, right = (code, len(digest), digest), (other_code, len(other), other)
    columns = [f"{code}\t{digest.hex() or '-'}" for code, _, digest in (left, right)]
    return "\t".join(["order", *columns, str((left > right) - (left < right))])


def line_of(stored: str) -> str:
    """Makes a line of values.tsv of its first columns."""
    match stored.split("\t"):
        case ["value", limit, code, digest, *_]:
            return value(int(limit), int(code), bytes_of(digest))
        case ["order", code, digest, other_code, other, *_]:
            return order(int(code), bytes_of(digest), int(other_code), bytes_of(other))
    raise SystemExit(f"no value and no order: {stored}")


def values_of(stored: str) -> str:
    """Makes the list of the stored values."""
    return "\n".join(["\t".join(VALUE_COLUMNS), *map(line_of, stored.splitlines()[1:]), ""])


def made_of(stored: str) -> str:
    """Makes the list of the stored inputs."""
    inputs = inputs_of(stored)
    if len({*inputs}) < len(inputs):
        raise SystemExit("an input is there twice with one capacity")
    lines = (verdict(int(size), bytes_of(data)) for size, data in inputs)
    return "\n".join(["\t".join(COLUMNS), *lines, ""])


def page_of(stored: str) -> str:
    """Makes the page, whose lines are of the inputs that it shows."""
    page = re.sub(r"(?m)^S\t.*", "\t".join(COLUMNS), stored)
    page = re.sub(r"(?m)^kind\t.*", "\t".join(VALUE_COLUMNS), page)
    page = re.sub(r"(?m)^(?:value|order)\t.*", lambda line: line_of(line[0]), page)
    return re.sub(r"(?m)^(\d+)\t([0-9a-f]+)\t.*", lambda line: verdict(int(line[1]), bytes_of(line[2])), page)


def write_or_compare(lists: Mapping[Path, Callable[[str], str]], write: bool) -> int:
    """Writes what is made of each stored text, or returns 1 if one differs."""
    status = 0
    for path, make in lists.items():
        stored = path.read_text("utf-8")
        made = make(stored)
        if write:
            path.write_text(made, "utf-8")
        elif made != stored:
            print(f"{path.name} has other results: tools/generate vectors writes them")
            status = 1
    return status


def main() -> int:
    lists = {STORED: made_of, VALUES: values_of, PAGE: page_of}
    match sys.argv[1:]:
        case [] | ["--write"] as words:
            return write_or_compare(lists, bool(words))
        case ["--draw", seed, lines]:
            sys.stdout.writelines(f"{line}\n" for line in drawn(STORED.read_text("utf-8"), int(seed), int(lines)))
            return 0
    print(__doc__, file=sys.stderr)
    return 2


if __name__ == "__main__":
    sys.exit(main())
