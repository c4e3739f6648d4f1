"""Compares a function of multihash.h with its definition, at the end of each path."""
from functools import partial
from typing import Any

import definitions
import z3
from c import Run
from definitions import FIRST, OK, SECOND, Result, TwoVarints, widened
from c_memory import Place, Pointer, Region, Value, Variable
from c_tree import Unit, type_of
from execution import Rejected, Wrong, check, miswritten

# Static functions of this type read a varint: of `bytes` with a length, the number and how many bytes it has. Each is
# shown once. Where another function calls one it returns FIRST or SECOND.
READER = "multihash_status (const uint8_t *, size_t, uint64_t *, size_t *)"


def readers_of(unit: Unit) -> list[str]:
    return [name for name, node in unit.functions.items() if node["type"]["qualType"] == READER]


class Function:
    """A function, by its name or by what follows `multihash_` in it."""

    what = "wrong result"

    def __init__(self, unit: Unit, name: str):
        self.unit, self.name = unit, name if name in unit.functions else f"multihash_{name}"
        if self.name not in unit.functions:
            raise Rejected(f"unknown: the source has no {self.name}")
        self.is_reader = self.name in readers_of(unit)
        self.types = {node["name"]: type_of(node) for node in unit.function(self.name)[0]}
        numbers = {name: kind for name, kind in self.types.items() if not kind.endswith("*")}
        self.given = {name: z3.BitVec(name, unit.width(kind)) for name, kind in numbers.items()}
        self.start: Any = z3.BitVecVal(0, unit.word)  # where FIRST is
        self.solver = z3.SolverFor("QF_BV")

    def definition(self) -> Any:
        name = "get_varint" if self.is_reader else self.name
        if not hasattr(definitions, name):
            raise Rejected("unknown: definitions.py does not have this function")
        return getattr(definitions, name)(*self.given.values())

    def arguments(self) -> dict[str, Value]:
        """The arguments by their names, anew for each path."""
        zero = z3.BitVecVal(0, self.unit.word)
        if self.is_reader:
            bytes_, length, number, count = self.types
            places = {number: Place(Variable(number)), count: Place(Variable(count))}
            return {bytes_: Pointer(Region("bytes", self.given[length]), zero), **self.given, **places}
        arguments: dict[str, Value] = {}
        for name in self.types:
            if name not in self.given and f"{name}_length" not in self.given:
                raise Rejected(f"unknown: {name} without its length")
            length = self.given.get(f"{name}_length")
            arguments[name] = self.given.get(name, Pointer(Region(name, length, is_output=name == "out"), zero))
        return arguments

    def run(self) -> int:
        definition = self.definition()
        return check(self.solver, definition, self.new_path, lambda path: self.end(path, definition), self.what)

    def new_path(self, prefix: list[bool], model: Any) -> Run:
        return Run(self.unit, self.solver, prefix, model)

    def end(self, path: Run, definition: Any) -> Wrong:
        """Runs a path to its end. What is returned says what may be wrong there."""
        path.arguments = self.arguments()
        if isinstance(definition, TwoVarints):
            for reader in readers_of(self.unit):
                path.summaries[reader] = partial(self.varint, path, definition)
        result = path.call(self.name, list(path.arguments.values()))
        return lambda wanted: self.wrong(path, result, wanted)

    def varint(self, path: Run, of: TwoVarints, bytes_: Value, length: Value, number: Value, count: Value) -> Value:
        """What a call of a function for varints does."""
        if not isinstance(bytes_, Pointer) or bytes_.region.name != of.name:
            raise Rejected("unknown: the varint of something else")
        at = z3.simplify(bytes_.offset - self.start)
        is_first = z3.is_bv_value(at) and at.as_long() == 0
        varint, before = (FIRST, path.size(0)) if is_first else (SECOND, path.size(FIRST.end))
        path.must(is_first or FIRST.status == OK, "unknown: a varint after none")
        is_next = z3.And(at == before, length == path.size(of.length) - before)
        path.must(is_next, "unknown: the varint of other bytes")
        path.store(number, varint.number if path.decide(varint.status == OK) else None)
        path.store(count, path.size(varint.end) - before)
        return z3.ZeroExt(24, varint.status)

    def wrong(self, path: Run, result: Value, wanted: Result) -> dict[str, Any]:
        """What may be wrong at the end of a path, and when."""
        found = result if isinstance(result, dict) else {"": result}
        if self.is_reader:
            number, count = (x.variable.value for x in path.arguments.values() if isinstance(x, Place))
            is_ok = wanted.members["status"] == OK
            found = {"status": result, "consumed": count, "value": number if is_ok else z3.BitVecVal(0, 64)}
        wrong = different(found, wanted.members)
        if "out" in path.arguments:
            out = path.arguments["out"].region
            wrong |= miswritten(out.written, out.copied, wanted)
        return wrong


def different(found: dict[str, Value], wanted: dict[str, Value]) -> dict[str, Any]:
    """Which members are not as they should be, and when. Those that are not wanted are 0."""
    if wanted.keys() - found.keys() or None in found.values():
        raise Rejected("uninitialized: a member of the result, or it has other members than its definition")
    return {name: differs(x, wanted.get(name, 0)) for name, x in found.items()}


def differs(x: Value, wanted: Value) -> Any:
    if isinstance(x, Pointer):
        return x.region.text != wanted + b"\0" or x.offset != 0
    return x != wanted if isinstance(wanted, int) else widened(x) != widened(wanted)
