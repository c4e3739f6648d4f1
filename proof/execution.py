"""One path through a program whose arguments are symbols of the solver z3: what was decided on it, and what has to hold
there. A condition is a bool, or a formula of z3."""
import time
from collections.abc import Callable
from typing import Any

import z3
from definitions import Result, Rows, TwoVarints, widened

MOST_STEPS = 5_000
# what may be wrong for a result: names, and the conditions under which it is
Wrong = Callable[[Result], dict[str, Any]]


class Rejected(Exception):
    """The code does something wrong, or something that the check does not know. The kind comes first, up to a colon."""


class Return(Exception):
    """The end of a function: its argument is what that returns."""


def input_of(solver: Any, *conditions: Any) -> Any:
    """An input that meets the conditions, also those that the solver has, or None if there is none."""
    answer = solver.check(*conditions)
    if answer == z3.unknown:
        raise Rejected(f"unknown: z3 does not know: {solver.reason_unknown()}")
    return solver.model() if answer == z3.sat else None


class Execution:
    """The decisions of `prefix`, which are known to be possible, and then one way of each condition. `open` has the
    prefixes of the other ways, each with an input that goes there."""

    def __init__(self, solver: Any, prefix: list[bool], model: Any):
        self.solver, self.prefix = solver, prefix
        self.model = model  # an input that takes the path so far
        self.decisions: list[bool] = []
        self.open: list[tuple[list[bool], Any]] = []
        self.steps = self.line = 0

    def must(self, condition: Any, what: str) -> None:
        """Rejects the program if an input that takes the path does not meet the condition."""
        condition = z3.simplify(formula(condition))
        if not z3.is_true(condition) and len(self.decisions) >= len(self.prefix):  # else another path has asked
            wrong = input_of(self.solver, z3.Not(condition))
            if wrong is not None:
                raise Rejected(f"{what}: for {text_of(wrong)}")

    def decide(self, condition: Any) -> bool:
        """Which way the path goes. If an input goes the other way, another path does so."""
        condition = z3.simplify(formula(condition))
        if z3.is_true(condition) or z3.is_false(condition):
            return bool(z3.is_true(condition))
        at = len(self.decisions)
        way = self.prefix[at] if at < len(self.prefix) else is_met(condition, self.model)
        goes, other_way = (condition, z3.Not(condition)) if way else (z3.Not(condition), condition)
        other = input_of(self.solver, other_way) if at >= len(self.prefix) else None
        if other is not None:
            self.open.append(([*self.decisions, not way], other))
        self.decisions.append(way)
        self.solver.add(goes)
        return way

    def step(self, line: int) -> None:
        self.line = line
        self.steps += 1
        if self.steps > MOST_STEPS:
            raise Rejected(f"no end: a path of more than {MOST_STEPS} steps")

    def compare(self, rows: Any, wrong: Wrong, what: str) -> None:
        """Compares the end of the path with the rows of a definition that inputs of the path have."""
        model = self.model
        while model is not None:
            when, result = row_of(rows, model)
            conditions = {name: formula(condition) for name, condition in wrong(result).items()}
            found = input_of(self.solver, *when, z3.Or(list(conditions.values())))
            if found is not None:
                names = [name for name, condition in conditions.items() if is_met(condition, found)]
                raise Rejected(f"{what}: {', '.join(names)} for {text_of(found)}")
            self.solver.add(z3.Not(z3.And(when)))
            model = input_of(self.solver)


def check(
    solver: Any,
    definition: Rows | TwoVarints,
    start: Callable[[list[bool], Any], Execution],
    run: Callable[[Any], Wrong],
    what: str = "wrong result",
) -> int:
    """Compares each path with a definition. `start` makes one of a prefix and an input; `run` goes to its end, and returns what
    says what may be wrong there. Returns the number of paths."""
    rows: Any = definition
    if isinstance(definition, TwoVarints):
        rows = definition.rows
        solver.add(definition.holds())
    model = input_of(solver)
    if model is None:
        raise Rejected("unknown: no input meets the conditions of a call")
    waiting: list[tuple[list[bool], Any]] = [([], model)]
    count = 0
    while waiting:
        solver.push()
        path = start(*waiting.pop())
        try:
            path.compare(rows, run(path), what)
        except Rejected as why:
            raise Rejected(f"{why} (line {path.line})") from why
        solver.pop()
        waiting += path.open
        count += 1
    return count


def report(name: str, run: Callable[[], int]) -> str:
    """A line that says whether a check rejects a function."""
    began = time.process_time()
    try:
        count = run()
    except Rejected as why:
        return f"{name}: REJECTED: {' '.join(str(why).split())}"
    return f"{name}: all inputs, {count} paths, {time.process_time() - began:.1f} s"


def formula(condition: Any) -> Any:
    return z3.BoolVal(condition) if isinstance(condition, bool) else condition


def is_met(condition: Any, model: Any) -> bool:
    return bool(z3.is_true(model.eval(condition, True)))


def row_of(rows: Any, model: Any) -> tuple[list[Any], Result]:
    """What a definition says of an input, with the conditions under which it does."""
    when: list[Any] = []
    while not isinstance(rows, Result):
        for condition, then in rows:
            condition = formula(condition)
            if is_met(condition, model):
                break
            when.append(z3.Not(condition))
        else:
            raise Rejected(f"unknown: the definition has no row for {text_of(model)}")
        when.append(condition)
        rows = then
    return when, rows


def miswritten(written: dict[Any, Any], copied: list[tuple[int, str, Any]], result: Result) -> dict[str, Any]:
    """When a function wrote something else than a result says. `written` has bytes by their indices, `copied` the index to
    which an input was copied, its name, and how many of its bytes."""
    head, count = result.head, len(written) - len(result.head)
    if written.keys() != {*range(len(written))} or count < 0 or copied and count > 0:
        return {"the indices written": True}
    expected = head + [z3.BitVec(f"digest[{i}]", 8) for i in range(count)]
    wrong = {f"byte {i}": written[i] != byte for i, byte in enumerate(expected)}
    for at, name, count in copied:
        wrong["digest"] = at != len(head) or name != "digest" or len(copied) > 1
    return wrong | {"number of digest bytes": widened(count) != widened(result.digest)}


def text_of(model: Any) -> str:
    """An input in words, of a line at most."""
    return ", ".join(f"{name} = {model[name]}" for name in sorted(model, key=str))[:300]
