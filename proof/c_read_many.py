"""Shows multihash_read_many for any number of items, by induction over its loop.

The invariant says what the variables are before a turn, after `count` items were written and `consumed` bytes consumed, without
an error. It is shown for the first turn. Then one turn from any such state ends the function with the result of the
definition, or writes the next item and keeps the invariant with more bytes consumed."""
from typing import Any

import definitions
import z3
from c import Run
from definitions import OK, Result, TwoVarints, widened
from c_function import Function, different, differs
from c_memory import Place, Region, Value
from c_tree import Node, Unit
from execution import Rejected, Wrong


def invariant(count: Any, consumed: Any) -> dict[str, Any]:
    """Variables of the function, and members of them. Its arguments do not change. Other variables have no value."""
    status, size = z3.BitVecVal(OK, 32), z3.BitVecVal(0, 64)
    return {"count": count, "consumed": consumed, "result.status": status, "result.size": size}


def violated(state: dict[str, Value], arguments: dict[str, Value], count: Any, consumed: Any) -> dict[str, Any]:
    """What of the invariant a state does not meet, and when."""
    wrong = {name: differs(state[name], x) for name, x in invariant(count, consumed).items()}
    return wrong | {name: z3.BoolVal(state[name] is not x) for name, x in arguments.items()}


class Arrived(Exception):
    """The end of a path at the loop: its argument is the state there."""


class Turn(Run):
    """A path from the start to the loop, and from any state there through one turn of it."""

    count: Any = None
    consumed: Any = None
    is_in_turn = False

    def place_of(self, name: str) -> Place:
        name, _, member = name.partition(".")
        if name not in self.scope:
            raise Rejected(f"not shown: read_many: the invariant has the variable {name}")
        return Place(self.scope[name], member or None)

    def state(self) -> dict[str, Value]:
        """What the variables of the invariant have, and the arguments."""
        return {name: self.load(self.place_of(name)) for name in [*invariant(0, 0), *self.arguments]}

    def loop(self, test: Node, body: Node, step: Node) -> None:
        if self.is_in_turn or self.calls != ["multihash_read_many"]:
            raise Rejected("not shown: read_many: it has another loop")
        wrong = violated(self.state(), self.arguments, 0, 0)
        self.must(z3.Not(z3.Or(list(wrong.values()))), "not shown: read_many: the invariant before the first turn")
        self.is_in_turn = True
        for variable in self.scope.values():
            if variable.name not in self.arguments:
                variable.value = dict.fromkeys(variable.value) if isinstance(variable.value, dict) else None
        for name, x in invariant(self.count, self.consumed).items():
            self.store(self.place_of(name), x)
        if (not test or self.truth(test)) and self.turn(body):
            if step:
                self.value(step)
            raise Arrived(self.state())

    def byte(self, region: Region, offset: Any) -> Any:
        """A byte of what is left has the name that it has in `read`."""
        return super().byte(region, z3.simplify(offset - self.consumed))


class ReadMany(Function):
    """`count` and `consumed` are those before a turn; `room` and `rest` are what is left."""

    what = "not shown: read_many"

    def __init__(self, unit: Unit):
        super().__init__(unit, "read_many")
        names = ("rest", "room", "count", "consumed")
        self.rest, self.room, self.count, self.start = (z3.BitVec(x, unit.word) for x in names)
        self.given |= {"bytes_length": self.start + self.rest, "out_length": self.count + self.room}
        self.solver.add(z3.ULE(self.start, self.given["bytes_length"]), z3.ULE(self.count, self.given["out_length"]))

    def definition(self) -> TwoVarints:
        """What a turn does: nothing if nothing is left, else what `read` says of the bytes that are left."""
        read = definitions.multihash_read(self.rest)
        nothing_left = z3.Or(self.room == 0, self.rest == 0)
        return read._replace(rows=[(nothing_left, Result({"status": OK})), (True, read.rows)])

    def new_path(self, prefix: list[bool], model: Any) -> Turn:
        path = Turn(self.unit, self.solver, prefix, model)
        path.count, path.consumed = self.count, self.start
        return path

    def end(self, path: Any, definition: Any) -> Wrong:
        try:
            return super().end(path, definition)
        except Arrived as arrived:
            state = arrived.args[0]
            return lambda wanted: self.went_on(path, state, wanted)

    def wrong(self, path: Any, result: Value, wanted: Result) -> dict[str, Any]:
        """What may be wrong where the function ends: in its result, or in an item of the last turn."""
        if not path.is_in_turn or "code" in wanted.members:
            return {"an item that is left out, or an end before the loop": True}
        return super().wrong(path, result, Result({**wanted.members, "count": self.count, "consumed": self.start}))

    def went_on(self, path: Any, state: dict[str, Value], wanted: Result) -> dict[str, Any]:
        """What may be wrong where a turn ends at the loop."""
        items, read = path.arguments["out"].region.written, wanted.members
        if "code" not in read or len(items) != 1:
            return {"a turn without an item": True}
        [(index, found)] = items.items()
        item = {name: read[name] for name in ("code", "digest_offset", "digest_length")}
        item["digest_offset"] = widened(self.start) + widened(read["digest_offset"])
        consumed = widened(self.start) + widened(read["consumed"])
        wrong = different(found, item) | violated(state, path.arguments, self.count + 1, consumed)
        return wrong | {"index": index != self.count, "end": z3.UGT(widened(read["consumed"]), widened(self.rest))}
