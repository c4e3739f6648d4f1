"""For measure.py: prints the least nanoseconds of CPU time of each call, or for each of many multihashes, of the package
for Python that is installed, and of plain Python with the same checks."""

import io
import time
import timeit
from collections.abc import Callable, Iterator
from typing import NamedTuple

import verified_multihash as vm

ROUNDS, CALLS, MANY = 60, 1000, 100
DATA = bytes([18, 32]) + bytes(range(32))
LONGER = bytes([0x96, 0xA2, 3, 32]) + bytes(range(32))
LIST = DATA * MANY


class Plain(NamedTuple):
    code: int
    digest: bytes


def plain_varint(data: bytes, at: int) -> tuple[int, int]:
    value = 0
    for index in range(at, at + 9):
        if index >= len(data):
            raise ValueError("insufficient")
        byte = data[index]
        value |= (byte & 127) << 7 * (index - at)
        if byte < 128:
            if byte == 0 and index > at:
                raise ValueError("not minimal")
            return value, index + 1
    raise ValueError("overflow")


def plain_read(data: bytes) -> tuple[Plain, int]:
    code, at = plain_varint(data, 0)
    size, start = plain_varint(data, at)
    if size > 255 or size > len(data) - start:
        raise ValueError("invalid size")
    return Plain(code, bytes(data[start : start + size])), start + size


def plain_decode(data: bytes) -> Plain:
    multihash, length = plain_read(data)
    if length != len(data):
        raise ValueError("trailing bytes")
    return multihash


def plain_encode(code: int, digest: bytes) -> bytes:
    if len(digest) > 255 or not 0 <= code < 1 << 63:
        raise ValueError("no multihash")
    out = bytearray()
    for number in code, len(digest):
        while number > 127:
            out.append(number & 127 | 128)
            number >>= 7
        out.append(number)
    return bytes(out + digest)


def plain_read_many(data: bytes) -> Iterator[Plain]:
    while data:
        multihash, length = plain_read(data)
        yield multihash
        data = data[length:]


def plain_reader() -> Iterator[Plain]:
    file = io.BytesIO(LIST)
    while head := file.read(2):  # codes and lengths below 128
        yield plain_decode(head + file.read(head[1]))


LEFT, RIGHT = vm.decode(DATA), vm.decode(LIST[:34])
PLAIN_LEFT, PLAIN_RIGHT = plain_decode(DATA), plain_decode(LIST[:34])
# the number of multihashes, the call of the package, and that of plain Python
ROWS: dict[str, tuple[int, Callable[[], object], Callable[[], object]]] = {
    "`decode` of 34 bytes": (1, lambda: vm.decode(DATA), lambda: plain_decode(DATA)),
    "`decode`, a code of 3 bytes": (1, lambda: vm.decode(LONGER), lambda: plain_decode(LONGER)),
    "`encode` of 32 bytes": (1, lambda: vm.encode(18, DATA[2:]), lambda: plain_encode(18, DATA[2:])),
    "`==`": (1, lambda: LEFT == RIGHT, lambda: PLAIN_LEFT == PLAIN_RIGHT),
    "`<`": (1, lambda: LEFT < RIGHT, lambda: PLAIN_LEFT < PLAIN_RIGHT),
    "a multihash by `read_many`": (MANY, lambda: vm.read_many(LIST), lambda: [*plain_read_many(LIST)]),
    "a multihash of a stream": (MANY, lambda: [*vm.MultihashReader(io.BytesIO(LIST))], lambda: [*plain_reader()]),
}


def nanoseconds(call: Callable[[], object]) -> float:
    return min(timeit.repeat(call, timer=time.process_time, repeat=ROUNDS, number=CALLS)) / CALLS * 1e9


NOTHING = nanoseconds(lambda: None)
for name, (count, *calls) in ROWS.items():
    print(name, *(f"{(nanoseconds(call) - NOTHING) / count:.1f}" for call in calls), sep="\t")
