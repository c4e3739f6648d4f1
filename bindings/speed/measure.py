#!/usr/bin/env python3
"""Measures the packages beside what a user would write: prints a table of docs/SPEED.md.

    bindings/speed/measure.py rust UPSTREAM    the instructions of calls, also of the Rust crate in a folder: needs Cargo and
                                               Valgrind
    bindings/speed/measure.py js               the nanoseconds of calls, also of plain JavaScript
    bindings/speed/measure.py python PYTHON    the same of the package that this interpreter has, and of plain Python
    bindings/speed/measure.py c                the nanoseconds of calls of the library for C
"""
import re
import shutil
import subprocess
import sys
import tempfile
from pathlib import Path

HOME = Path(__file__).resolve().parent
C = HOME.parent / "c"
TURNS = 64  # of package.rs
Rows = dict[str, list[float]]


def rows_of(*words: str | Path) -> Rows:
    """Returns what a program prints in each line: the name of a call, and numbers."""
    lines = subprocess.run(words, stdout=subprocess.PIPE, text=True, check=True).stdout.splitlines()
    return {name: [float(number) for number in numbers] for name, *numbers in (line.split("\t") for line in lines)}


def count_package(package: Path) -> dict[str, int]:
    """Returns the instructions of each call of package.rs over a package."""
    with tempfile.TemporaryDirectory() as work:
        Path(work, "src").mkdir()
        shutil.copy(HOME / "package.rs", f"{work}/src/main.rs")
        # run compares the results
        for words in "init --name package", f"add --path {package.resolve()}", "run", "build --release":
            subprocess.run(["cargo", "--quiet", *words.split()], cwd=work, check=True, stdout=subprocess.DEVNULL)
        tool = f"valgrind -q --tool=callgrind --callgrind-out-file={work}/out --toggle-collect=package::measured"
        command = [*tool.split(), "--dump-after=package::count", f"{work}/target/release/package"]
        names = subprocess.run(command, stdout=subprocess.PIPE, text=True, check=True).stdout.splitlines()
        dumps = [Path(work, f"out.{number}").read_text("utf-8") for number in range(1, len(names) + 1)]
    return {name: round(int(re.findall(r"(?m)^totals: (\d+)", dump)[0]) / TURNS) for name, dump in zip(names, dumps)}


def count_rust(upstream: Path) -> Rows:
    ours, theirs = (count_package(package) for package in (HOME.parent / "rust/multihash", upstream))
    return {name: [ours[name], theirs[name]] for name in ours}


def time_c() -> Rows:
    with tempfile.TemporaryDirectory() as work:
        sources = HOME / "calls.c", C / "src/multihash.c"
        subprocess.run(["cc", "-O2", "-I", C / "include", *sources, "-o", f"{work}/calls"], check=True)
        return rows_of(f"{work}/calls")


def print_table(rows: Rows, *heads: str) -> None:
    """Prints the rows, with the share of the first number in the second one."""
    shares = ["share"] * (len(heads) - 2)
    print("|", " | ".join([*heads, *shares]), "|")
    print("|---|" + "---:|" * (len(heads) - 1 + len(shares)))
    for name, (own, *other) in rows.items():
        cells = [f"{number:g}" for number in (own, *other)] + [f"{own / number:.2f}" for number in other]
        print("|", " | ".join([name, *cells]), "|")


match sys.argv[1:]:
    case ["rust", upstream]:
        print_table(count_rust(Path(upstream)), "Instructions", "this library", "the Rust crate")
    case ["js"]:
        print_table(rows_of("node", HOME / "calls.js"), "Nanoseconds", "this library", "plain JavaScript")
    case ["python", python]:
        print_table(rows_of(python, HOME / "calls.py"), "Nanoseconds", "this library", "plain Python")
    case ["c"]:
        print_table(time_c(), "Nanoseconds", "this library")
    case _:
        sys.exit(__doc__)
