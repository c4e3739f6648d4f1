"""Runs a function of C for all arguments at once, from the tree that Clang prints. It knows what multihash.c uses. What has
no defined result is rejected, and so is what this file does not know."""
import json
from collections.abc import Callable
from functools import partial
from itertools import permutations
from operator import add, and_, eq, ge, gt, le, lt, mul, ne, or_, sub
from typing import Any

import z3
from c_memory import Memory, Place, Pointer, Region, Value, Variable
from c_tree import Node, Unit, type_of
from execution import Rejected, Return

ORDER = {"==": eq, "!=": ne, "<": lt, "<=": le, ">": gt, ">=": ge}
UNSIGNED = {**ORDER, "<": z3.ULT, "<=": z3.ULE, ">": z3.UGT, ">=": z3.UGE}
SUMS = {"+": add, "-": sub, "*": mul}
BITS = {"&": and_, "|": or_}
WIDE = 130  # bits, in which no sum or product of two numbers overflows


class Break(Exception):
    """The end of a loop."""


class Run(Memory):
    """A path through a function. `summaries` are functions that are not run: what they return was shown before."""

    def __init__(self, unit: Unit, solver: Any, prefix: list[bool], model: Any):
        super().__init__(solver, prefix, model, unit.word)
        self.unit = unit
        self.summaries: dict[str, Callable[..., Value]] = {"memcpy": self.memcpy, "memcmp": self.memcmp}
        self.arguments: dict[str, Value] = {}  # of the function that is shown
        self.calls: list[str] = []
        self.scope: dict[str, Variable] = {}  # the variables of the function

    # ---- numbers

    def number(self, x: int, kind: str) -> Any:
        return z3.BitVecVal(x, self.unit.width(kind))

    def extended(self, x: Value, kind: str) -> Any:
        """A number of a type, in enough bits that nothing overflows."""
        more = WIDE - self.unit.width(kind)
        return z3.SignExt(more, x) if self.unit.is_signed(kind) else z3.ZeroExt(more, x)

    def converted(self, x: Value, old: str, new: str) -> Value:
        """A number of a type as one of another type, which a signed type has to have."""
        if new == "char" != old:
            raise Rejected("unknown: a number as char, which may have a sign or none")
        exact = self.extended(x, old)
        x = z3.simplify(z3.Extract(self.unit.width(new) - 1, 0, exact))
        if self.unit.is_signed(new):
            self.must(self.extended(x, new) == exact, f"overflow: a number as {new}")
        return x

    def binary(self, name: str, x: Value, y: Value, kind: str) -> Value:
        """An operation on two numbers of a type."""
        is_signed = self.unit.is_signed(kind)
        if name in ORDER:
            holds = (ORDER if is_signed else UNSIGNED)[name](x, y)
            return z3.simplify(z3.If(holds, self.number(1, "int"), self.number(0, "int")))
        if name not in SUMS | BITS:
            raise Rejected(f"unknown: the operator {name}")
        result = (SUMS | BITS)[name](x, y)
        if is_signed and name in SUMS:
            exact = SUMS[name](self.extended(x, kind), self.extended(y, kind))
            self.must(self.extended(result, kind) == exact, f"overflow: {name}")
        return z3.simplify(result)

    def shifted(self, name: str, x: Value, by: Value, kind: str, by_kind: str) -> Value:
        by = z3.simplify(self.extended(by, by_kind))
        if self.unit.is_signed(kind) or not z3.is_bv_value(by):
            raise Rejected("shift: of a number that may be negative, or by one that is not known")
        count = by.as_signed_long()
        self.must(0 <= count < self.unit.width(kind), "shift: by a negative number, or too far")
        return z3.simplify(x << count if name == "<<" else z3.LShR(x, count))

    def operation(self, name: str, x: Value, y: Value, kind: str, other: str) -> Value:
        """An operation on values of two types."""
        if not isinstance(x, Pointer):
            return self.shifted(name, x, y, kind, other) if name in ("<<", ">>") else self.binary(name, x, y, kind)
        if name != "+" or isinstance(y, Pointer):
            raise Rejected(f"unknown: {name} of pointers")
        return self.moved(x, self.index(y, other))

    def index(self, x: Value, kind: str) -> Value:
        if self.unit.is_signed(kind):
            self.must(x >= 0, "unknown: an index that may be negative")
        return z3.simplify(x)

    # ---- expressions

    def truth(self, node: Node) -> bool:
        """Which way a condition goes."""
        x = self.value(node)
        if not z3.is_bv(x):
            raise Rejected("unknown: a condition that is no number")
        return self.decide(x != 0)

    def each(self, *evaluate: Callable[[], Value]) -> list[Value]:
        """Values whose order is open: none may depend on what another one writes."""
        values, logs = [], []
        for one in evaluate:
            start = len(self.log)
            values.append(one())
            logs.append(self.log[start:])
        for log, other in permutations(logs, 2):
            for place, is_write in log:
                if is_write and any(place.overlaps(used) for used, _ in other):
                    raise Rejected(f"order: {place.variable.name} is written and used in one expression")
        return values

    def values(self, *nodes: Node) -> list[Value]:
        return self.each(*(partial(self.value, node) for node in nodes))

    def value(self, node: Node) -> Value:
        """What an expression has as its value."""
        self.step(node["line"])
        match parts(node):
            case ["ParenExpr" | "ConstantExpr" | "CompoundLiteralExpr", x]:
                return self.value(x)
            case ["IntegerLiteral", *_]:
                return self.number(int(node["value"]), type_of(node))
            case ["StringLiteral", *_] if node["value"].startswith('"'):
                text = json.loads(node["value"]).encode("ascii") + b"\0"
                return Pointer(Region("a text", self.size(len(text)), text=text), self.size(0))
            case ["ImplicitValueInitExpr", *_]:
                return self.number(0, type_of(node))
            case ["DeclRefExpr", *_] if node["referencedDecl"]["kind"] == "EnumConstantDecl":
                return self.number(self.unit.constants[node["referencedDecl"]["name"]], "int")
            case ["ImplicitCastExpr" | "CStyleCastExpr", x]:
                return self.cast(node, x)
            case ["InitListExpr", *inner]:
                names = self.unit.members(type_of(node))
                if len(inner) != len(names):
                    raise Rejected("unknown: an initializer with other members")
                return dict(zip(names, self.values(*inner)))
            case ["ConditionalOperator", test, one, other]:
                return self.value(one if self.truth(test) else other)
            case ["BinaryOperator", left, right] if node["opcode"] == "&&":
                return self.number(self.truth(left) and self.truth(right), "int")
            case ["BinaryOperator", left, right] if node["opcode"] == "||":
                return self.number(self.truth(left) or self.truth(right), "int")
            case ["BinaryOperator", left, right] if node["opcode"] == "=":
                return self.assign(left, partial(self.value, right))
            case ["BinaryOperator", left, right]:
                x, y = self.values(left, right)
                return self.operation(node["opcode"], x, y, type_of(left), type_of(right))
            case ["CompoundAssignOperator", left, right]:
                return self.assign(left, lambda: self.combined(node, left, right))
            case ["UnaryOperator", x]:
                return self.unary(node, x)
            case ["CallExpr", callee, *arguments]:
                return self.call(name_of(callee), self.values(*arguments))
        raise Rejected(f"unknown: {node['kind']}")

    def cast(self, node: Node, inner: Node) -> Value:
        kind, new, is_implicit = node["castKind"], type_of(node), node["kind"] == "ImplicitCastExpr"
        match kind:
            case "LValueToRValue":
                return self.value(inner) if inner["kind"] == "CompoundLiteralExpr" else self.load(self.place(inner))
            case "IntegralCast":
                return self.converted(self.value(inner), type_of(inner), new)
            case "NoOp" if is_implicit or "*" not in new:
                return self.value(inner)
            case "BitCast" if is_implicit and new == "void *" and type_of(inner) in ("uint8_t *", "char *"):
                return self.value(inner)
            case "ArrayToPointerDecay" if inner["kind"] == "StringLiteral":
                return self.value(inner)
        raise Rejected(f"unknown: the cast {kind} to {new}")

    def assign(self, left: Node, value: Callable[[], Value]) -> Value:
        start = len(self.log)
        place, x = self.each(lambda: self.place(left), value)
        if any(is_write and at.overlaps(place) for at, is_write in self.log[start:]):
            raise Rejected(f"order: {place.variable.name} is written twice in one expression")
        self.store(place, x)
        return x

    def combined(self, node: Node, left: Node, right: Node) -> Value:
        """What a compound assignment assigns."""
        kind, of = type_of(left), type_of({"type": node["computeLHSType"]})
        x, y = self.each(lambda: self.load(self.place(left)), lambda: self.value(right))
        x = self.operation(node["opcode"][:-1], self.converted(x, kind, of), y, of, type_of(right))
        return self.converted(x, of, kind)

    def unary(self, node: Node, inner: Node) -> Value:
        kind = type_of(node)
        match node["opcode"]:
            case "&":
                place = self.place(inner)
                if isinstance(place, Place):
                    return place
            case "-":
                return self.binary("-", self.number(0, kind), self.value(inner), kind)
            case "++":
                place = self.place(inner)
                old = self.load(place)
                one = self.number(1, "int" if isinstance(old, Pointer) else kind)
                self.store(place, new := self.operation("+", old, one, kind, "int"))
                return old if node["isPostfix"] else new
        raise Rejected(f"unknown: the operator {node['opcode']}")

    def place(self, node: Node) -> Value:
        """The object that an expression names."""
        self.step(node["line"])
        type_of(node)
        match parts(node):
            case ["DeclRefExpr", *_] if (name := node["referencedDecl"].get("name")) in self.scope:
                return Place(self.scope[name])
            case ["MemberExpr", x] if not node["isArrow"]:
                base = self.place(x)
                if isinstance(base, Place) and base.member is None:
                    return Place(base.variable, node["name"])
            case ["UnaryOperator", x] if node["opcode"] == "*":
                base = self.value(x)
                return base if isinstance(base, Place) else self.moved(base, 0, is_access=True)
            case ["ArraySubscriptExpr", array, index]:
                pointer, x = self.values(array, index)
                return self.moved(pointer, self.index(x, type_of(index)), is_access=True)
        raise Rejected(f"unknown: the place {node['kind']} {node.get('referencedDecl', node).get('name', '')}")

    # ---- statements

    def call(self, name: str, arguments: list[Value]) -> Value:
        if name in self.summaries:
            return self.summaries[name](*arguments)
        if name in self.calls or name not in self.unit.functions:
            raise Rejected(f"unknown: a call of {name}, which calls itself or has no body")
        parameters, body = self.unit.function(name)
        outer, self.scope = self.scope, {}
        self.calls.append(name)
        for node, x in zip(parameters, arguments, strict=True):
            self.declare(node, x)
        result = None
        try:
            self.statement(body)
        except Return as end:
            result = end.args[0]
        if isinstance(result, Place) or result is None and self.unit.result(name) != "void":
            raise Rejected(f"uninitialized: the result of {name}, or the address of its variable")
        self.scope = outer
        self.calls.pop()
        return result

    def declare(self, node: Node, x: Value) -> None:
        name = node.get("name", "")
        if name in self.unit.functions or name in self.scope:
            raise Rejected(f"unknown: {name}, which is the name of something else too")
        self.scope[name] = Variable(name, x)

    def statement(self, node: Node) -> None:
        self.step(node["line"])
        match parts(node):
            case ["CompoundStmt", *inner]:
                self.block(inner)
            case ["DeclStmt", *inner]:
                for each in inner:
                    self.variable(each)
            case ["ReturnStmt", *inner]:
                raise Return(self.value(inner[0]) if inner else None)
            case ["IfStmt", test, then, *otherwise]:
                if self.truth(test):
                    self.statement(then)
                elif otherwise:
                    self.statement(otherwise[0])
            case ["WhileStmt", test, body]:
                self.loop(test, body, None)
            case ["ForStmt", start, _, test, step, body]:
                before = dict(self.scope)
                if start:
                    self.statement(start)
                self.loop(test, body, step)
                self.scope = before
            case ["BreakStmt", *_]:
                raise Break
            case ["SwitchStmt", test, body]:
                self.switch(self.value(test), body)
            case _:
                self.value(node)

    def block(self, statements: list[Node]) -> None:
        before = dict(self.scope)
        try:
            for each in statements:
                self.statement(each)
        finally:
            self.scope = before

    def variable(self, node: Node) -> None:
        values = [x for x in node.get("inner", []) if x["kind"] != "FullComment"]
        if node["kind"] != "VarDecl" or "storageClass" in node or "tls" in node or len(values) != ("init" in node):
            raise Rejected(f"unknown: static, or a declaration of another kind: {node.get('name')}")
        kind = type_of(node)
        x = dict.fromkeys(self.unit.members(kind)) if kind in self.unit.records else None
        if not x and not kind.endswith("*"):
            self.unit.width(kind)
        self.declare(node, x)
        if values:
            self.store(Place(self.scope[node["name"]]), self.value(values[0]))

    def loop(self, test: Node, body: Node, step: Node) -> None:
        while (not test or self.truth(test)) and self.turn(body):
            if step:
                self.value(step)

    def turn(self, body: Node) -> bool:
        """Whether a loop goes on after its body."""
        try:
            self.statement(body)
        except Break:
            return False
        return True

    def switch(self, x: Value, body: Node) -> None:
        otherwise = None
        for each in body.get("inner", []):
            match parts(each):
                case ["CaseStmt", label, {"kind": "ReturnStmt"} as then]:
                    if self.decide(x == self.value(label)):
                        return self.statement(then)
                case ["DefaultStmt", {"kind": "ReturnStmt"} as then]:
                    otherwise = then
                case _:
                    raise Rejected("unknown: a statement in a switch that is no label with a return")
        if otherwise:
            self.statement(otherwise)


def parts(node: Node) -> list[Any]:
    return [node["kind"], *node.get("inner", [])]


def name_of(callee: Node) -> str:
    """The name of a function that is called."""
    while callee["kind"] in ("ImplicitCastExpr", "ParenExpr"):
        callee = callee["inner"][0]
    if callee["kind"] != "DeclRefExpr" or callee["referencedDecl"]["kind"] != "FunctionDecl":
        raise Rejected("unknown: a call of a pointer")
    if callee["type"]["qualType"].endswith("()"):
        raise Rejected("unknown: a call without a prototype")
    return str(callee["referencedDecl"]["name"])
