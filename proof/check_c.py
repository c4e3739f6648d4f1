#!/usr/bin/python3
"""Shows that the C source does for all inputs what definitions.py says, on machines of 32 and of 64 bits.

    check_c.py [FUNCTION]..           checks these functions of multihash.h, or all
    check_c.py --wrong [FUNCTION]..   shows that each edit in wrong_c.py is rejected
"""
import sys
from functools import cache, partial
from pathlib import Path

import cli
from c_function import Function, readers_of
from c_read_many import ReadMany
from c_tree import Unit
from execution import Rejected, report
from wrong_c import EDITS

C = Path(__file__).parents[1] / "bindings/c"
TARGETS = {"x86_64-linux-gnu": 64, "armv7-linux-gnueabi": 32}


@cache
def unit_of(target: str) -> Unit:
    return Unit(C / "src/multihash.c", C / "include", target, TARGETS[target])


def result(target: str, name: str) -> str:
    """Checks a function as a target has it."""

    def check() -> int:
        unit = unit_of(target)
        return (ReadMany(unit) if name == "read_many" else Function(unit, name)).run()

    return report(name, check)


def names() -> list[str]:
    try:
        unit = unit_of("x86_64-linux-gnu")
    except Rejected as why:
        sys.exit(f"REJECTED: {why}")
    return [name.removeprefix("multihash_") for name in unit.declared + readers_of(unit)]


if __name__ == "__main__":
    checks = {target: partial(result, target) for target in TARGETS}
    files = ["bindings/c/src/multihash.c", "bindings/c/include/multihash.h"]
    sys.exit(cli.main("check_c.py", files, checks, names, EDITS))
