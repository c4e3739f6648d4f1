"""What a pointer of C can point to: a variable of a caller, or the elements of an argument or of a text. Each access is
shown to be inside of its object, and to read what has a value."""
from dataclasses import dataclass, field
from typing import Any

import z3
from execution import Execution, Rejected

Value = Any  # a bit vector of the width of its type, a pointer, or the members of a structure by their names


@dataclass(eq=False)
class Variable:
    """What has no value yet is None."""

    name: str
    value: Value = None


@dataclass(frozen=True)
class Place:
    """A variable, or a member of one. As a value it is the address."""

    variable: Variable
    member: str | None = None

    def overlaps(self, other: Value) -> bool:
        is_same = isinstance(other, Place) and self.variable is other.variable
        return is_same and (self.member == other.member or None in (self.member, other.member))


@dataclass(eq=False)
class Region:
    """What an argument points to, or a text: `length` elements. If there are none, the pointer may be null."""

    name: str
    length: Any
    is_output: bool = False
    text: bytes = b""
    written: dict[Any, Value] = field(default_factory=dict)  # elements by their indices
    copied: list[tuple[int, str, Any]] = field(default_factory=list)  # to which index, from which input, how many


@dataclass(frozen=True)
class Pointer:
    """The address of an element, or of the end."""

    region: Region
    offset: Any


class Memory(Execution):
    """A path with its memory. `word` is the width of a size, `log` the accesses to variables: whether it was a write."""

    def __init__(self, solver: Any, prefix: list[bool], model: Any, word: int):
        super().__init__(solver, prefix, model)
        self.word = word
        self.log: list[tuple[Place, bool]] = []

    def size(self, x: Value) -> Any:
        """A number, which is not negative, as a size."""
        if isinstance(x, int):
            return z3.BitVecVal(x, self.word)
        if x.size() > self.word:
            raise Rejected("unknown: an index with more bits than a size")
        return z3.ZeroExt(self.word - x.size(), x)

    def moved(self, pointer: Value, by: Value, is_access: bool = False) -> Pointer:
        """A pointer and an index: inside, or also at the end if nothing is accessed there. A null pointer is not moved."""
        if not isinstance(pointer, Pointer):
            raise Rejected("unknown: arithmetic with a pointer to a variable")
        region, by = pointer.region, self.size(by)
        rest = region.length - pointer.offset
        is_inside = z3.ULT(by, rest) if is_access else z3.ULE(by, rest)
        self.must(z3.And(is_inside, region.length != 0), f"outside {region.name}")
        return Pointer(region, z3.simplify(pointer.offset + by))

    # ---- accesses, to places that `moved` has shown to be there

    def load(self, at: Value) -> Value:
        if isinstance(at, Place):
            self.log.append((at, False))
            x = at.variable.value
            x = x[at.member] if at.member and x else x
            if x is None:
                raise Rejected(f"uninitialized: {at.variable.name}{'.' + at.member if at.member else ''}")
            return x
        if at.region.is_output or at.region.text:
            raise Rejected(f"reads {at.region.name}")
        return self.byte(at.region, at.offset)

    def byte(self, region: Region, offset: Any) -> Any:
        """The byte of an input: a symbol."""
        return z3.BitVec(f"{region.name}[{offset.as_long() if z3.is_bv_value(offset) else offset.sexpr()}]", 8)

    def store(self, at: Value, x: Value) -> None:
        if isinstance(x, Place):
            raise Rejected("unknown: the address of a variable in another one")
        if isinstance(at, Place):
            self.log.append((at, True))
            at.variable.value = {**at.variable.value, at.member: x} if at.member else x
            return
        index = at.offset.as_long() if z3.is_bv_value(at.offset) else at.offset
        if not at.region.is_output or index in at.region.written:
            raise Rejected("writes an input" if not at.region.is_output else f"unknown: writes {at.region.name} twice")
        at.region.written[index] = x

    # ---- the functions of string.h

    def memcpy(self, to: Value, source: Value, count: Value) -> Value:
        for pointer in (to, source):
            self.moved(pointer, count)
        if not to.region.is_output or source.region.is_output or not z3.is_bv_value(to.offset):
            raise Rejected("unknown: memcpy to an input, from out, or to an index that is not known")
        if source.region.text or not z3.is_bv_value(source.offset) or source.offset.as_long() != 0:
            raise Rejected("unknown: memcpy from a text or an index")
        to.region.copied.append((to.offset.as_long(), source.region.name, count))
        return to

    def memcmp(self, left: Value, right: Value, count: Value) -> Value:
        """The order of two whole inputs: a symbol, as in the definition."""
        for pointer in (left, right):
            self.moved(pointer, count)
            if pointer.region.is_output or pointer.region.text:
                raise Rejected("unknown: memcmp of other than inputs")
            self.must(z3.And(pointer.offset == 0, pointer.region.length == count), "unknown: memcmp of a part")
        return z3.BitVec(f"the order of {left.region.name} and {right.region.name}", 32)
