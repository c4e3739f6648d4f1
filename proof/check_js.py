#!/usr/bin/python3
"""Shows that format.js, which decodes, encodes and compares in JavaScript, does for all inputs what definitions.py says.

    check_js.py [FUNCTION]..           checks these functions, or all
    check_js.py --wrong [FUNCTION]..   shows that each edit in wrong_js.py is rejected
"""
import re
import sys
from collections.abc import Callable
from dataclasses import dataclass, replace
from functools import partial
from pathlib import Path
from typing import Any

import cli
import definitions
import z3
from definitions import FIRST, OK, SECOND, Result, Rows, is_code
from execution import Rejected, Return, Wrong, check, miswritten, report
from js import Node, Program, Run, Scope
from js_values import SAFE, WIDTH, Array, Number, Value, known, symbol
from wrong_js import EDITS

FOLDER = Path(__file__).resolve().parents[1] / "bindings/js"
STATUSES = tuple(re.findall(r"^  '(\w+)',$", (FOLDER / "statuses.js").read_text("utf-8"), re.M))
# ---- arguments: bit vectors of 64 bits for the definitions, and the same numbers for JavaScript
INDEX = 2**52  # no array has as many bytes
# what each number is at most
MOST = {"at": INDEX, "length": INDEX, "limit": 255, "code": 2**64 - 1, "other": 2**64 - 1}
MOST |= {"left": INDEX, "right": INDEX, "size": 255, "room": 9}


def bits(name: str) -> Any:
    return z3.BitVec(name, 64)


def number(name: str) -> Number:
    return symbol(bits(name), "wide" if MOST[name] > SAFE else "number")


RANGES = [z3.ULE(bits(name), most) for name, most in MOST.items()]
RANGES.append(z3.ULE(bits("at") + bits("length"), INDEX))
INPUT, WHOLE = Array("bytes", number("length"), number("at")), Array("bytes", number("length"))
DIGEST, LEFT, RIGHT = Array("digest", number("size")), Array("one", number("left")), Array("two", number("right"))


# ---- results: what may be wrong, each with the condition under which it is
def wide(x: Value) -> Any:
    return z3.BitVecVal(x, WIDTH) if isinstance(x, int) else z3.ZeroExt(WIDTH - x.size(), x)


def another(found: Value, wanted: Any) -> Any:
    """Whether a result is another number. A bigint is only what is not exact as a number."""
    if not isinstance(found, Number) or found.type == "quotient":
        return True
    is_big = found.x > SAFE if found.type == "wide" else z3.BoolVal(found.type == "bigint")
    return z3.Or(found.x != wanted, (found.x > SAFE) != is_big)


def wrong_status(found: Value, wanted: Result, _: Any) -> dict[str, Any]:
    return {"status": found not in STATUSES or wanted.members["status"] != STATUSES.index(found)}


def wrong_decoded(found: Value, wanted: Result, given: list[Value]) -> dict[str, Any]:
    """Of a varint, of the two before a digest, or of a multihash, which ends with its digest."""
    members, origin = wanted.members, given[0].origin.x
    size = wide(members.get("digest_length", members.get("size", 0)))
    if "value" in members:
        numbers = {"value": wide(members["value"])}
    else:
        numbers = {"code": wide(members.get("code", 0)), "size": size}
    numbers["next"] = origin + wide(members["consumed"])
    if not isinstance(found, dict) or found.keys() != {"status", *numbers}:
        return {"the fields": True}
    wrong = {name: another(found[name], x) for name, x in numbers.items()}
    if "digest_offset" in members:
        wrong["the digest"] = numbers["next"] - size != origin + wide(members["digest_offset"])
    return wrong_status(found["status"], wanted, given) | wrong


def wrong_length(found: Value, wanted: Result, _: Any) -> dict[str, Any]:
    return {"length": another(found, len(wanted.head) + wide(wanted.digest))}


def wrong_encoding(found: Value, wanted: Result, given: Any) -> dict[str, Any]:
    """Of a new array: the bytes of the head, the digest, and nothing else."""
    if not isinstance(found, Array) or found.role != "new":
        return {"the array": True}
    return wrong_length(found.count, wanted, given) | miswritten(found.written, found.copied, wanted)


def wrong_end(found: Value, wanted: Result, given: list[Value]) -> dict[str, Any]:
    wrong = miswritten(given[1].written, given[1].copied, wanted)
    return {"next": another(found, number("at").x + len(wanted.head))} | wrong


def wrong_order(found: Value, wanted: Result, _: Any) -> dict[str, Any]:
    return {"order": another(found, z3.BitVecVal(wanted.members[""], WIDTH))}


# ---- what a call returns of a function that was shown
def must_be(run: Run, is_same: Any) -> None:
    """Rejects a call for which a function was not shown."""
    run.must(is_same, "unknown: other arguments of a function that is called")


def varint_at(run: Run, bytes: Value, index: Value, end: Value) -> Value:
    """The first varint of an input, or the one after it."""
    must_be(run, bytes is INPUT or bytes is WHOLE)
    origin, index, end = bytes.origin.x, run.number(index, "number").x, run.number(end, "number").x
    found, start = (FIRST, origin) if z3.is_true(z3.simplify(index == origin)) else (SECOND, origin + wide(FIRST.end))
    must_be(run, z3.And(index == start, end == origin + number("length").x))
    must_be(run, found is FIRST or FIRST.status == OK)
    value, next = symbol(found.number, "wide"), Number(z3.simplify(origin + wide(found.end)))
    for number_of_status, status in enumerate(STATUSES):
        if run.decide(found.status == number_of_status):
            return {"status": status, "value": value, "next": next}
    raise Rejected("unknown: a status")


def compare_bytes(run: Run, one: Value, two: Value, count: Value) -> Value:
    length = run.number(count, "number").x
    must_be(run, one is LEFT and two is RIGHT)
    must_be(run, z3.And(length == number("left").x, length == number("right").x))
    digests = z3.BitVec("the order of left_digest and right_digest", 32)  # has this name in the definition
    sign = z3.If(z3.Or(length == 0, digests == 0), wide(0), z3.If(digests < 0, wide(0) - 1, wide(1)))
    return Number(sign)


class Turn(Run):
    """By induction over the loop of a function: its turn at the index `at`, of a variable `index`. The function returns 2 if the
    next turn follows."""

    is_in_turn = False

    def loop(self, test: Node, update: Node, body: Node, scope: Scope) -> None:
        index = scope.get("index")
        if self.is_in_turn or index is None or index.value.known != 0:
            raise Rejected("not shown: another loop")
        self.is_in_turn, index.value = True, number("at")
        before = {name: variable.value for name, variable in scope.items()}
        if self.truth(self.value(test, scope)):
            self.statement(body, scope)
            self.value(update, scope)
            others = [scope[name].value is x for name, x in before.items() if name != "index"]
            self.must(z3.And(all(others), index.value.x == number("at").x + 1), "not shown: another turn")
            raise Return(known(2))


# ---- the functions of format.js
@dataclass
class Function:
    """What a function returns for these arguments is what a definition says of numbers. An output is empty on each path."""

    definition: Callable[..., Any]
    numbers: list[str]
    wrong: Callable[[Value, Result, list[Value]], dict[str, Any]]
    arguments: list[Value]
    when: Any = True
    path_type: type[Run] = Run


def fitting(code: Any, size: Any) -> Rows:
    return definitions.fitting(code, size, Result({"status": OK}))


def varint(code: Any) -> Rows:
    return definitions.varint_of(code, lambda head: Result({}, head))


def pair(code: Any, size: Any) -> Rows:
    return definitions.encoding(code, size, lambda head: Result({}, head, size))


def scale(code: Any, size: Any) -> Rows:
    return definitions.multihash_scale_encode(code, size, 264)


def turn(at: Any, left: Any) -> Rows:
    """What a turn of compareBytes returns, by the bytes at its index."""
    one, two = z3.BitVec("one[0]", 8), z3.BitVec("two[0]", 8)
    rows = [(at == left, 0), (z3.ULT(one, two), -1), (z3.UGT(one, two), 1), (True, 2)]
    return [(when, Result({"": order})) for when, order in rows]


def functions() -> dict[str, Function]:
    at, length, limit, left, right = (number(name) for name in ("at", "length", "limit", "left", "right"))
    code, other, size, rest = number("code"), number("other"), number("size"), Number(left.x - at.x)
    part = [INPUT, at, Number(at.x + length.x)]
    out = Array("out", number("room"), at, "output")
    ones = [Array("one", rest, at), Array("two", rest, at), left]
    both = [code, LEFT, left, other, RIGHT, right]
    valid = is_code(bits("code"))
    has_room = z3.Or([z3.And(z3.UGE(bits("room"), i), z3.ULT(bits("code"), 1 << 7 * i)) for i in range(1, 10)])
    head, read_limit = definitions.multihash_read_head, definitions.multihash_read_limit
    from_bytes, compare = definitions.multihash_from_bytes, definitions.multihash_compare
    orders = ["code", "left", "other", "right"]
    return {
        "readVarint": Function(definitions.get_varint, ["length"], wrong_decoded, part),
        "head": Function(head, ["length"], wrong_decoded, part),
        "read": Function(read_limit, ["length", "limit"], wrong_decoded, [*part, limit]),
        "decode": Function(from_bytes, ["length"], wrong_decoded, [WHOLE, length]),
        "scaleDecode": Function(definitions.multihash_scale_decode, ["length"], wrong_decoded, [WHOLE, length]),
        "encodingStatus": Function(fitting, ["code", "other"], wrong_status, [code, other]),
        "varintLength": Function(varint, ["code"], wrong_length, [code], valid),
        "writeVarint": Function(varint, ["code"], wrong_end, [code, out, at], z3.And(valid, has_room)),
        "encodedLength": Function(pair, ["code", "size"], wrong_length, [code, size], valid),
        "encode": Function(pair, ["code", "size"], wrong_encoding, [code, DIGEST, size], valid),
        "scaleEncode": Function(scale, ["code", "size"], wrong_encoding, [code, DIGEST, size], valid),
        "compare": Function(compare, orders, wrong_order, both),
        "compareBytes": Function(turn, ["at", "left"], wrong_order, ones, z3.ULE(bits("at"), bits("left")), Turn),
    }


def result(name: str) -> str:
    """Checks a function."""

    def run() -> int:
        program, defined = Program(FOLDER / "format.js"), functions()
        if name not in defined or program.exports != {*defined}:
            raise Rejected(f"unknown: no definition, or no function: {name} {program.exports ^ {*defined}}")
        function, solver = defined[name], z3.SolverFor("QF_BV")
        solver.add(*RANGES, function.when)

        def end(path: Run) -> Wrong:
            path.summaries = {"readVarint": varint_at, "compareBytes": compare_bytes}
            path.summaries.pop(name, None)
            given = [
                replace(x, written={}) if isinstance(x, Array) and x.role == "output" else x for x in function.arguments
            ]
            found = path.call(name, given)
            return lambda wanted: function.wrong(found, wanted, given)

        definition = function.definition(*map(bits, function.numbers))
        what = "not shown" if function.path_type is Turn else "wrong result"
        return check(solver, definition, partial(function.path_type, program, solver), end, what)

    return report(name, run)


if __name__ == "__main__":
    files = ["bindings/c/include/multihash.h", *(f"bindings/js/{x}.js" for x in ("format", "limits", "statuses"))]
    sys.exit(cli.main("check_js.py", files, {"format.js": result}, lambda: [*functions()], EDITS))
