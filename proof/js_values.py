"""What a variable of JavaScript may have, and the operators: on whole numbers that are exact, and nothing else."""
import operator
from dataclasses import dataclass, field
from typing import Any

import z3
from execution import Execution, Rejected, formula

WIDTH = 72  # of bit vectors: all numbers are below 2^66, so that no sum wraps
SAFE = 2**53 - 1  # numbers up to here are exact
BIG = 2**66 - 1  # a bound of this program: a bigint has none
INT = 2**31 - 1

Value = Any  # a Number, a bool or a condition of z3, a str, an Array, or a dict: an object


@dataclass(frozen=True)
class Number:
    """A whole number: a bit vector. Its type is number or bigint; or wide, a bigint if it is above SAFE and otherwise a number;
    or quotient, a number of which this is the floor."""

    x: Any
    type: str = "number"

    @property
    def known(self) -> int | None:
        return self.x.as_signed_long() if z3.is_bv_value(self.x) else None

    @property
    def exponent(self) -> int | None:
        """Of a power of 2, if it is known to be one."""
        x = self.known or 0
        return x.bit_length() - 1 if x > 0 and x.bit_count() == 1 else None

    @property
    def most(self) -> int:
        """Up to here a number of the type is exact."""
        return BIG if self.type == "bigint" else SAFE


def known(x: int, type: str = "number") -> Number:
    if abs(x) > BIG or type == "number" and int(float(x)) != x:
        raise Rejected(f"not exact: {x}")
    return Number(z3.BitVecVal(x, WIDTH), type)


def symbol(x: Any, type: str = "number") -> Number:
    """The number of a bit vector of any width."""
    return Number(z3.ZeroExt(WIDTH - x.size(), x), type)


@dataclass(eq=False)
class Array:
    """A Uint8Array, of which `count` bytes are there from the index `origin` on. These have the places 0, 1, ..: in the names of
    an input's bytes, and in what is written to an output or a new array: bytes, and all of an input."""

    name: str
    count: Number
    origin: Number = known(0)
    role: str = "input"
    written: dict[int, Any] = field(default_factory=dict)
    copied: list[tuple[int, str, Any]] = field(default_factory=list)


RELATIONS = {"<": operator.lt, "<=": operator.le, ">": operator.gt, ">=": operator.ge, "===": operator.eq}


def related(name: str, a: Number, b: Number) -> Any:
    """Whether two numbers have a relation: their difference shows it, since nothing wraps, and is often simpler."""
    return RELATIONS[name](z3.simplify(a.x - b.x), 0)


class Operators(Execution):
    """A path on which values are computed."""

    def made(self, x: Any, type: str) -> Number:
        """A result, which has to be exact."""
        result = Number(z3.simplify(x), type)
        if result.known is not None:
            return known(result.known, type)
        self.must(z3.And(x >= -result.most, x <= result.most), "not exact")
        return result

    def number(self, x: Value, *types: str) -> Number:
        """A number of one of these types, or of any. Of a wide one it is decided what it is."""
        if isinstance(x, Number) and x.type == "wide":
            x = Number(x.x, "bigint" if self.decide(x.x > SAFE) else "number")
        if not isinstance(x, Number) or x.type not in (types or ("number", "bigint")):
            raise Rejected(f"unknown: {getattr(x, 'type', x)} as a {' or '.join(types) or 'number'}")
        return x

    def truth(self, x: Value) -> bool:
        if not isinstance(x, bool) and not z3.is_bool(x):
            raise Rejected(f"unknown: the condition {x}")
        return self.decide(x)

    def equal(self, a: Value, b: Value) -> Any:
        """What === returns."""
        match a, b:
            case Number(), Number():
                a, b = (a, b) if a.type == b.type == "wide" else (self.number(a), self.number(b))
                return related("===", a, b) if a.type == b.type else False
            case str(), str():
                return a == b
        raise Rejected(f"unknown: === of {a} and {b}")

    def binary(self, name: str, a: Value, b: Value) -> Value:
        if name in ("===", "!=="):
            equal = formula(self.equal(a, b))
            return equal if name == "===" else z3.Not(equal)
        if name in RELATIONS and isinstance(a, Number) and isinstance(b, Number) and "quotient" not in (a.type, b.type):
            return related(name, a, b)
        a, b = self.number(a), self.number(b)
        if a.type == b.type and name in ("+", "-"):
            return self.made(a.x + b.x if name == "+" else a.x - b.x, a.type)
        self.must(z3.And(a.x >= 0, b.x >= 0), f"unknown: {name} of a negative number")
        if a.type == b.type and (result := self.combined(name, a, b, a.type == "bigint")):
            return result
        raise Rejected(f"unknown: {name} of {a} and {b}")

    def combined(self, name: str, a: Number, b: Number, is_big: bool) -> Number | None:
        """An operation on two numbers of a type, of which none is negative, if it is one that this program knows. Operators on
        bits see 32 of a number's."""
        match name:
            case "*" if b.exponent is not None:
                return self.shifted(a, b.exponent)
            case "*" if a.exponent is not None:
                return self.shifted(b, a.exponent)
            case "**" if a.known == 2 and b.known is not None and b.known < WIDTH:
                return known(2**b.known, a.type)
            case "%" if b.exponent is not None:
                return Number(z3.simplify(a.x & (b.x - 1)), a.type)
            case "/" if b.exponent is not None and not is_big:
                return Number(z3.simplify(z3.LShR(a.x, b.exponent)), "quotient")
            case "&" if is_big or any(each.known is not None and each.known <= INT for each in (a, b)):
                return Number(z3.simplify(a.x & b.x), a.type)
            case "<<" if is_big and b.known is not None:
                return self.shifted(a, b.known)
            case ">>" if is_big and b.known is not None:
                return Number(z3.simplify(z3.LShR(a.x, b.x)), a.type)
            case ">>>" if not is_big and b.known is not None and b.known < 32:
                self.must(a.x < 2**32, "unknown: >>> of a number of more than 32 bits")
                return Number(z3.simplify(z3.LShR(a.x, b.x)))
        return None

    def shifted(self, a: Number, bits: int) -> Number:
        """A number times a power of 2."""
        if a.known is not None:
            return known(a.known << bits, a.type)
        self.must(a.x <= a.most >> bits, "not exact")
        return Number(z3.simplify(a.x << bits), a.type)
