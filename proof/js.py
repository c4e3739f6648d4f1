"""Runs a function of a module of plain JavaScript for all arguments at once, from the tree that acorn prints. It knows what
format.js uses. Everything else is rejected: what is not exact, what is not there, and what this file does not name."""
import json
import re
import subprocess
from collections import ChainMap
from collections.abc import Callable, Iterator
from dataclasses import dataclass, replace
from functools import partial
from pathlib import Path
from typing import Any

import z3
from execution import Rejected, Return
from js_values import Array, Number, Operators, Value, known, related, symbol

Node = dict[str, Any]  # of acorn's tree
GLOBALS = frozenset(["BigInt", "Math", "Number", "Uint8Array"])
MOST_DEPTH = 20  # of calls
MOST_BYTES = 1000  # of a new array


@dataclass
class Variable:
    value: Value
    is_const: bool


Scope = ChainMap[str, Variable]  # the variables of a block, and of those around it


class Run(Operators):
    """A path through functions of a program. For a function of `summaries` a call returns what that does."""

    def __init__(self, program: "Program", solver: Any, prefix: list[bool], model: Any):
        super().__init__(solver, prefix, model)
        self.program, self.depth = program, 0
        self.summaries: dict[str, Callable[..., Value]] = {}

    # ---- arrays
    def place(self, array: Value, index: Value) -> int:
        """The place of an index in an array, which has to be there."""
        x = self.number(index, "number").x
        place = Number(z3.simplify(x - array.origin.x)).known if isinstance(array, Array) else None
        if place is None:
            raise Rejected(f"unknown: an element of {getattr(array, 'name', array)}")
        self.must(z3.And(place >= 0, related("<", known(place), array.count)), f"outside {array.name}")
        return place

    def load(self, array: Value, index: Value) -> Number:
        place = self.place(array, index)
        if array.role != "input":
            raise Rejected(f"unknown: {array.name} is read")
        return symbol(z3.BitVec(f"{array.name}[{place}]", 8))

    def store(self, array: Value, index: Value, x: Value) -> Value:
        place, byte = self.place(array, index), self.number(x, "number")
        if array.role == "input":
            raise Rejected(f"unknown: {array.name} is written")
        self.must(z3.And(byte.x >= 0, byte.x <= 255), "not exact: a byte")
        array.written[place] = z3.Extract(7, 0, byte.x)
        return byte

    def copy(self, target: Value, source: Value, index: Value) -> None:
        """The method `set` of a new array, which is that of Uint8Array, for all bytes of an input."""
        roles = [each.role for each in (target, source) if isinstance(each, Array)]
        at = self.number(index, "number").known
        if roles != ["new", "input"] or at is None or at < 0:
            raise Rejected("unknown: set of other than a new array to all of an input")
        self.must(source.count.x + at <= target.count.x, f"outside {target.name}")
        target.copied.append((at, source.name, z3.Extract(63, 0, source.count.x)))

    # ---- calls
    def call_of(self, callee: Node, arguments: list[Value], scope: Scope) -> Value:
        match callee:
            case {"type": "Identifier", "name": name} if name in self.program.functions:
                return self.call(name, arguments)
            case {"type": "Identifier", "name": name}:
                return self.built_in(name, arguments)
            case {"computed": False, "object": {"name": owner}, "property": {"name": name}} if owner in GLOBALS:
                return self.built_in(f"{owner}.{name}", arguments)
            case {"computed": False, "object": {"name": _} as owner, "property": {"name": "set"}}:
                if len(arguments) == 2:
                    return self.copy(self.value(owner, scope), *arguments)
        raise Rejected("unknown: a call of something else")

    def built_in(self, name: str, arguments: list[Value]) -> Value:
        match name, arguments:
            case "BigInt", [x]:
                return replace(self.number(x), type="bigint")
            case "Number", [x]:
                return self.made(self.number(x).x, "number")
            case "Math.floor", [x]:
                return replace(self.number(x, "quotient", "number"), type="number")
            case "Math.min", [a, b]:
                a, b = self.number(a, "number"), self.number(b, "number")
                return a if self.decide(related("<=", a, b)) else b
            case "BigInt.asUintN", [Number(known=int(bits), type="number"), x] if 0 <= bits < 64:
                return self.binary("&", self.number(x, "bigint"), known(2**bits - 1, "bigint"))
            case "new Uint8Array", [Number(type="number") as count]:
                self.must(z3.And(count.x >= 0, count.x <= MOST_BYTES), "unknown: new Uint8Array of so many bytes")
                return Array("a new array", count, role="new")
        raise Rejected(f"unknown: {name} of {arguments}")

    def call(self, name: str, arguments: list[Value]) -> Value:
        """What a function of the program returns."""
        function, scope = self.program.functions[name], Scope()
        parameters, body = function["params"], function["body"]
        if len(arguments) != len(parameters):
            raise Rejected(f"unknown: a call of {name}")
        if name in self.summaries:
            return self.summaries[name](self, *arguments)
        self.depth += 1
        if self.depth > MOST_DEPTH:
            raise Rejected(f"no end: {MOST_DEPTH} calls deep")
        for parameter, x in zip(parameters, arguments):
            self.declare(parameter, x, scope, is_const=False)
        result = None
        try:
            if body["type"] == "BlockStatement":
                self.statement(body, scope)
            else:
                result = self.value(body, scope)
        except Return as end:
            result = end.args[0]
        self.depth -= 1
        return result

    # ---- expressions
    def value(self, node: Node, scope: Scope) -> Value:
        self.step(node["loc"]["start"]["line"])
        of = partial(self.value, scope=scope)
        match node:
            case {"type": "Literal", "value": str(x)}:
                return x
            case {"type": "Literal", "value": int(x)} if not isinstance(x, bool):
                return known(x)
            case {"type": "Identifier", "name": name} if name in scope:
                return scope[name].value
            case {"type": "Identifier", "name": name} if name in self.program.constants:
                return self.program.constants[name]
            case {"type": "ObjectExpression", "properties": properties}:
                return {key_of(each): of(each["value"]) for each in properties}
            case {"type": "UnaryExpression", "operator": "typeof", "argument": x}:
                return self.number(of(x)).type
            case {"type": "UnaryExpression", "operator": "-", "argument": {"value": int(x)}} if x > 0:  # -0 is not 0
                return known(-x)
            case {"type": "BinaryExpression", "operator": name, "left": left, "right": right}:
                return self.binary(name, of(left), of(right))
            case {"type": "LogicalExpression", "operator": "&&", "left": left, "right": right}:
                return self.truth(of(left)) and self.truth(of(right))
            case {"type": "LogicalExpression", "operator": "||", "left": left, "right": right}:
                return self.truth(of(left)) or self.truth(of(right))
            case {"type": "ConditionalExpression", "test": test, "consequent": one, "alternate": other}:
                return of(one) if self.truth(of(test)) else of(other)
            case {"type": "MemberExpression", "computed": True, "object": array, "property": index}:
                return self.load(of(array), of(index))
            case {"type": "MemberExpression", "object": x, "property": {"name": name}}:
                return member(of(x), name)
            case {"type": "NewExpression", "callee": {"name": name}, "arguments": arguments}:
                return self.built_in(f"new {name}", [of(each) for each in arguments])
            case {"type": "CallExpression", "callee": callee, "arguments": arguments}:
                return self.call_of(callee, [of(each) for each in arguments], scope)
            case {"type": "AssignmentExpression", "operator": "=", "left": {"computed": True} as left, "right": right}:
                return self.store(of(left["object"]), of(left["property"]), of(right))
            case {"type": "AssignmentExpression", "operator": "=", "left": left, "right": right}:
                return self.assign(left, of(right), scope)
            case {"type": "AssignmentExpression", "operator": name, "left": left, "right": right}:
                return self.assign(left, self.binary(name[:-1], of(left), of(right)), scope)
            case {"type": "UpdateExpression", "operator": name, "argument": x, "prefix": False}:
                before = of(x)
                self.assign(x, self.binary(name[0], before, known(1)), scope)
                return before
        raise Rejected(f"unknown: {node['type']} {node.get('operator', node.get('name', ''))}")

    # ---- variables and statements
    def declare(self, pattern: Node, x: Value, scope: Scope, is_const: bool) -> None:
        if pattern["type"] == "ObjectPattern":
            for each in pattern["properties"]:
                self.declare(each["value"], member(x, key_of(each)), scope, is_const)
        elif pattern["type"] == "Identifier" and x is not None:
            scope[pattern["name"]] = Variable(x, is_const)
        else:
            raise Rejected(f"unknown: {pattern.get('name')} without a value")

    def assign(self, node: Node, x: Value, scope: Scope) -> Value:
        """Gives a variable another value."""
        name = str(node.get("name", node["type"]))
        if name not in scope or scope[name].is_const:
            raise Rejected(f"unknown: an assignment to {name}")
        scope[name].value = x
        return x

    def statement(self, node: Node, scope: Scope) -> None:
        self.step(node["loc"]["start"]["line"])
        match node:
            case {"type": "BlockStatement", "body": body}:
                inner = scope.new_child()
                for each in body:
                    self.statement(each, inner)
            case {"type": "ReturnStatement", "argument": {} as x}:
                raise Return(self.value(x, scope))
            case {"type": "IfStatement", "test": test, "consequent": then, "alternate": otherwise}:
                if self.truth(self.value(test, scope)):
                    self.statement(then, scope)
                elif otherwise:
                    self.statement(otherwise, scope)
            case {"type": "VariableDeclaration", "kind": kind, "declarations": declarations}:
                for each in declarations:
                    self.declare(each["id"], each["init"] and self.value(each["init"], scope), scope, kind == "const")
            case {"type": "ForStatement", "init": init, "test": {} as test, "update": {} as update, "body": body}:
                inner = scope.new_child()
                if init:
                    self.statement(init, inner)
                self.loop(test, update, body, inner)
            case {"type": "ExpressionStatement", "expression": x}:
                self.value(x, scope)
            case _:
                raise Rejected(f"unknown: {node['type']}")

    def loop(self, test: Node, update: Node, body: Node, scope: Scope) -> None:
        while self.truth(self.value(test, scope)):
            self.statement(body, scope)
            self.value(update, scope)


def member(x: Value, name: str) -> Value:
    if not isinstance(x, dict) or name not in x:
        raise Rejected(f"unknown: the member {name}")
    return x[name]


def key_of(node: Node) -> str:
    """The name of a plain member of an object."""
    match node:
        case {"kind": "init", "computed": False, "method": False, "key": {"name": str(name)}} if name != "__proto__":
            return name
    raise Rejected(f"unknown: a member with {node.get('kind', node['type'])}")


def names_of(pattern: Node) -> list[str]:
    """The names that a pattern declares."""
    match pattern:
        case {"type": "Identifier", "name": name}:
            return [name]
        case {"type": "ObjectPattern", "properties": properties}:
            return [name for each in properties for name in names_of(each.get("value", each))]
    raise unknown(pattern, f"the declaration {pattern['type']}")


def nodes(x: Any) -> Iterator[Node]:
    """A node, and all nodes in it."""
    for each in x if isinstance(x, list) else [x]:
        if isinstance(each, dict) and "type" in each:
            yield each
            for child in each.values():
                yield from nodes(child)


def unknown(node: Node, what: str) -> Rejected:
    return Rejected(f"unknown: {what} (line {node['loc']['start']['line']})")


class Program:
    """The functions and constants of a module."""

    def __init__(self, path: Path):
        self.functions: dict[str, Node] = {}
        self.constants: dict[str, Value] = {}
        self.exports: set[str] = set()  # the functions that others can call
        text = path.read_text("utf-8")
        if found := re.search(r"[@#]__\w*", text):
            raise Rejected(f"unknown: {found[0]}, by which a bundler leaves out calls")
        command = ["acorn", "--ecma2022", "--module", "--locations", "--compact"]
        done = subprocess.run(command, input=text, capture_output=True, text=True)
        if done.returncode:
            raise Rejected(f"unknown: what acorn does not read: {done.stderr[:200]}")
        for node in json.loads(done.stdout)["body"]:
            self.top(node, path.parent)
        for function in self.functions.values():
            self.look(function)

    def top(self, node: Node, folder: Path) -> None:
        """Reads a statement of the module: a function, or constants that cannot change."""
        match node:
            case {"type": "ExportNamedDeclaration", "declaration": {} as declaration}:
                before = {*self.functions}
                self.top(declaration, folder)
                self.exports |= {*self.functions} - before
            case {"type": "FunctionDeclaration", "id": name}:
                self.add(name, node)
            case {"type": "VariableDeclaration", "kind": "const", "declarations": declarations}:
                for each in declarations:
                    self.add(each["id"], self.constant(each["init"]))
            case {"type": "ImportDeclaration", "source": {"value": "./limits.js"}, "specifiers": names}:
                limits = Program(folder / "limits.js").constants
                for each in names:
                    self.add(each["local"], limits.get(each.get("imported", {}).get("name")))
            case _:
                raise unknown(node, f"{node.get('kind', node['type'])} outside of functions")

    def constant(self, node: Node) -> Value:
        is_function = node["type"] == "ArrowFunctionExpression"
        return node if is_function else Run(self, z3.Solver(), [], None).value(node, Scope())

    def add(self, pattern: Node, x: Value) -> None:
        """Adds a function or a constant."""
        name, is_function = pattern.get("name"), isinstance(x, dict) and "params" in x
        is_plain = not x["async"] and not x["generator"] if is_function else isinstance(x, (Number, str))
        if not is_plain or name is None or name in GLOBALS:
            raise unknown(pattern, f"the constant {name}")
        if is_function:
            self.functions[name] = x
        else:
            self.constants[name] = x

    def look(self, function: Node) -> None:
        """Rejects a name that is declared twice, and what declares one elsewhere: each name is that of one thing wherever it
        is read."""
        names = [name for each in function["params"] for name in names_of(each)]
        for node in nodes([*function["params"], function["body"]]):
            if re.search("Function|Class", node["type"]) or node.get("kind") == "var":
                raise unknown(node, f"{node.get('kind', node['type'])} in a function")
            if node["type"] == "VariableDeclarator":
                names += names_of(node["id"])
        if again := [x for x in names if names.count(x) > 1 or x in GLOBALS.union(self.functions, self.constants)]:
            raise unknown(function, f"another {again[0]}")
