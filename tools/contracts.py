#!/usr/bin/env python3
"""For `tools/generate contracts`: prints docs/CONTRACTS.md. It has the items of crates that a caller can see, with their
documentation and contracts, but without bodies and other comments; then the words of clauses, with their comments."""
import re
from collections.abc import Iterator
from itertools import takewhile
from pathlib import Path

TOP = Path(__file__).resolve().parents[1]
CRATES = ("theorems", "multihash", "form", "mh_show")
INTRODUCTION = """\
# Contracts

This page shows the public items of the crates [theorems](#theorems), [multihash](#multihash), [form](#form)
and [mh_show](#mh_show) without their bodies, and the [words](#words) of
clauses. `tools/generate contracts` writes it, and CI compares it with the sources: a difference here is a changed
promise. [What contracts see](../crates/multihash/CALLING.md#what-contracts-see) says how to read a clause.

The functions of `laws.rt` and `exposed.rt` have empty bodies, except for three of `multihash`, which return a constant, and
`through` of `form`, which writes a value and reads it back. Their clauses state laws of the definitions, and what callers
can know about the library's own readers and writers, and about the parts of `form`.
"""


def items(text: str, indent: str = "") -> Iterator[tuple[str, str]]:
    """Yields each item with that indent, after what a caller sees of the lines above it. Lines that are indented more, or
    begin with a bracket, belong to the item before."""
    form = rf"(?m)((?:^{indent}[/#].*\n)*)^{indent}(\w.*\n(?:(?:{indent}[ (){{}}\]].*)?\n)*)"
    for above, item in re.findall(form, text):
        seen = re.sub(r"(?m)^ *(//(?!/)|#\[(cold|inline|tactic)\b).*\n", "", above)
        yield seen, indent + re.sub(r"\n+", "\n", item).rstrip("\n")


def without_body(function: str) -> str:
    return re.split(r"(?m)^ *\{| \{\}?$|;\Z", function)[0].rstrip()


def members(inner: str, is_of_trait: bool, named: set[str]) -> Iterator[str]:
    """Yields what a caller sees of an impl, a trait or a struct: of a trait all but imports, else what is public or ghost, and
    the fields that a ghost member names."""
    for above, member in items(inner, "    "):
        first = member.split()[0]
        if first in ("pub", "fn") and " fn " in f" {member}":
            if is_of_trait or first == "pub":
                yield above + without_body(member)
        elif "ghost use" not in member and (is_of_trait or first in ("pub", "ghost") or first[:-1] in named):
            yield above + member


def shown(text: str) -> Iterator[str]:
    """Yields what a caller sees of each item of a source: of an impl of a private type nothing."""
    private = {*re.findall(r"(?m)^(?:struct|enum) (\w+)", text)}
    named = {*re.findall(r"\.(\w+)", "".join(re.findall(r"(?m)^    ghost \w+ = .*", text)))}
    for above, item in items(text):
        head, _, inner = item.partition("\n")
        is_public, kind = head.startswith("pub "), head.removeprefix("pub ").split()[0].partition("<")[0]
        if kind == "fn":
            if is_public or item.endswith("{}"):
                yield above + without_body(item)
        elif kind in ("struct", "trait", "impl"):
            if is_public or kind == "impl" and private.isdisjoint(re.findall(r"\w+", head)):
                lines = [*members(inner[:-1], kind == "trait" or " for " in head, named)]
                if lines:
                    yield above + "\n".join([head, *lines, "}"])
                else:
                    yield above + (f"{head} .. }}" if head.endswith("{") else head)
        elif is_public or head.startswith("mod exposed"):
            yield above + item


def section_of(path: str, text: str) -> str:
    """Returns the section of a file, which is empty if the file has no public items."""
    # an empty line precedes and follows what has several lines
    block = "\n".join(f"\n{item}\n" if "\n" in item else item for item in shown(text))
    block = re.sub(r"\n{3,}", "\n\n", block).strip("\n")
    # what a file says of itself, a paragraph or an item of a list in a line, without the links that only rustdoc follows
    lines = takewhile(lambda line: line.startswith("//!"), text.splitlines())
    description = re.sub(r"(?<!\n)\n *(?![\n-])", " ", "\n".join(line[4:] for line in lines))
    description = re.sub(r"\[(`[^`]*`)\]", r"\1", description)
    return f"\n### [{path}](../{path})\n\n{description}\n\n```text\n{block}\n```\n" if block else ""


def word_rows(definitions: str) -> Iterator[str]:
    """Yields a row for each of the words that are defined in a file, with its parameters if one line has names for them."""
    form = r"^((?:-- [^\n]*\n)+)(?:abbrev )?pub (?!mod )(record |data |)([\w-]+)([^\n]*)\n([^\n]*)"
    for comment, kind, name, rest, next_line in re.findall(form, definitions, re.M):
        equation = next_line.partition(" =")[0]
        if kind == "record " and (head := re.fullmatch(r"(.*) : Type \d+( where)?", re.sub(r" \{[^{}]*\}", "", rest))):
            name += re.sub(r" \(([^:()]*) : (?:[^()]|\([^()]*\))*\)", r" \1", head[1])
        elif re.fullmatch(re.escape(name) + r"( [a-z]\w*| [A-Z])+", equation):
            name = equation
        yield f"| `{name}` | " + " ".join(line[3:] for line in comment.splitlines()) + " |"


def sources(crate: str, pattern: str) -> Iterator[tuple[str, str]]:
    for path in sorted((TOP / "crates" / crate).glob(pattern)):
        yield str(path.relative_to(TOP)), path.read_text("utf-8")


print(INTRODUCTION, end="")
for crate in CRATES:
    print(f"\n## {crate}")
    for path, text in sources(crate, "src/**/*.rt"):
        print(section_of(path, text), end="")
print("\n## Words\n\nThe words of clauses and of definitions, by the files that define them.")
for crate in sorted(CRATES):
    for path, text in sources(crate, "specs/*.antt"):
        rows = "\n".join(word_rows(text))
        if rows and not path.endswith("/Private.antt"):
            print(f"\n### [{path}](../{path})\n\n| Word | Meaning |\n|---|---|\n{rows}")
