"""The tree that Clang prints of multihash.c for a machine, and what its text must not have: what depends on the compiler
or the machine, which the tree does not show."""
import json
import re
import subprocess
from pathlib import Path
from typing import Any

from execution import Rejected

Node = Any  # a node of the tree

# what compilers read in different ways, even in a comment or a text
TEXT = r"[^\n -~]|\\|\?\?"
# what depends on the compiler, but is the same for this library, without comments
BLOCK = r"#if __STDC_HOSTED__\s*#include <string\.h>\s*#else\s*void \*memcpy\(void \*, const void \*, size_t\);\s*"
BLOCK += r"int memcmp\(const void \*, const void \*, size_t\);\s*#endif\s"
BLOCK += r'|#ifdef __cplusplus\s*(extern "C" \{|\})\s*#endif\s'
DIRECTIVE = r'include "multihash\.h"|include <std(def|int)\.h>|endif|ifndef MULTIHASH_H|define [A-Z]\w*( [^#]*)?'
MACHINE = r"#|\b__\w+|\b_[A-Z]\w*|\[\[|\[\s*static|%:|'|\b(long|short|asm|restrict)\b|\b\d\w*[lL]\w*"
MACHINE += r"|\w*(FAST|LEAST|fast|least|PTR|ptr|wchar|WCHAR|WINT|ATOMIC|INTMAX|intmax)\w*"


def reject_machine(text: str) -> None:
    """Rejects a text that may mean something else for another compiler or machine."""
    if found := re.search(TEXT, text):
        raise Rejected(f"unknown: the character {found[0]!r}, which compilers read in different ways")
    text = re.sub(r'/\*.*?\*/|//[^\n]*|("[^"\n]*")', lambda found: found[1] or " ", text, flags=re.S)
    for line in re.sub(BLOCK, "\n", text).splitlines():
        directive = re.fullmatch(r"\s*#\s*(.*?)\s*", line)
        if directive and not re.fullmatch(DIRECTIVE, re.sub(r"\s+", " ", directive[1])):
            raise Rejected(f"unknown: the directive #{directive[1]}")
        if found := re.search(MACHINE, re.sub('"[^"]*"', " ", directive[1] if directive else line)):
            raise Rejected(f"unknown: {found[0]}, which depends on the compiler or the machine")


def type_of(node: Node) -> str:
    """The type of a node, without what is said of names and constants."""
    kind = node["type"].get("desugaredQualType", node["type"]["qualType"])
    if re.search(r"volatile|_Atomic|[\[(]", kind + node["type"]["qualType"]):
        raise Rejected(f"unknown: the type {kind}: an array, a function, volatile")
    return " ".join(re.sub(r"\b(const|struct)\b", "", kind).split())


class Unit:
    """The functions, structures and constants of a source file, for a machine with sizes of that many bits."""

    def __init__(self, source: Path, include: Path, target: str, word: int):
        for file in (source, include / "multihash.h"):
            reject_machine(file.read_bytes().decode())
        headers = {source.parent / "multihash.h", *(include / f"{x}.h" for x in ("string", "stddef", "stdint"))}
        if found := [each for each in headers if each.exists()]:
            raise Rejected(f"unknown: {found[0]}, which is read in place of another header")
        command = ["clang", f"--target={target}", "-std=c11", "-ffreestanding", "-fsyntax-only", f"-I{include}"]
        command += ["-pedantic-errors", "-Werror=initializer-overrides", "-Xclang", "-ast-dump=json", str(source)]
        run = subprocess.run(command, capture_output=True, text=True)
        if run.returncode:
            raise Rejected(f"unknown: Clang says {' '.join(re.findall('error: .*', run.stderr))[:300]}")
        self.word = word
        # the types of numbers: how many bits each has, and whether it has negative ones
        self.numbers = {"char": (8, True), "int": (32, True), "long": (word, True), "long long": (64, True)}
        self.numbers |= {f"unsigned {kind}": (width, False) for kind, (width, _) in self.numbers.items()}
        self.functions: dict[str, Node] = {}  # those with a body
        self.constants: dict[str, int] = {}
        self.records: dict[str, Node] = {}
        self.declared: list[str] = []  # the functions of multihash.h, in its order
        self.line = 0
        for node in json.loads(run.stdout, object_hook=self.with_line)["inner"]:
            self.declare(node)

    def with_line(self, node: Node) -> Node:
        """Gives a node its line. Clang prints the line of a place only if it is another one than that of the place before."""
        if "offset" in node:
            self.line = node.setdefault("line", self.line)
        if "range" in node:
            begin = node["range"]["begin"]
            node["line"] = begin.get("expansionLoc", begin).get("line", self.line)
        return node

    def declare(self, node: Node) -> None:
        kind, name, inner = node["kind"], node.get("name", ""), node.get("inner", [])
        if kind == "FunctionDecl":
            if name.startswith("multihash_") and name not in self.declared:
                self.declared.append(name)
            if any(x["kind"] == "CompoundStmt" for x in inner):
                self.functions[name] = node
                is_api = name in self.declared and not node.get("inline")
                if name in ("memcpy", "memcmp") or node.get("storageClass") != "static" and not is_api:
                    raise Rejected(f"unknown: {name}, which other files may define too")
        elif kind == "EnumDecl":
            for each in inner:
                values = [int(x["value"]) for x in each.get("inner", []) if "value" in x]
                if not values:
                    raise Rejected(f"unknown: the value of {each['name']}")
                self.constants[each["name"]] = values[0]
        elif kind == "RecordDecl":
            self.records[name] = node
        elif kind == "TypedefDecl":
            of = node["type"].get("desugaredQualType", node["type"]["qualType"])
            if of in self.numbers:
                self.numbers[name] = self.numbers[of]
        else:
            raise Rejected(f"unknown: {kind} {name} in file scope (line {node['line']})")

    def width(self, kind: str) -> int:
        """The number of bits of a type of numbers."""
        if kind not in self.numbers:
            raise Rejected(f"unknown: the type {kind}")
        return self.numbers[kind][0]

    def is_signed(self, kind: str) -> bool:
        return self.width(kind) > 0 and self.numbers[kind][1]

    def members(self, kind: str) -> dict[str, str]:
        """The members of a structure, which are numbers, with their types."""
        record = self.records.get(kind)
        if not record or record["tagUsed"] != "struct":
            raise Rejected(f"unknown: the structure {kind}")
        inner = [x for x in record["inner"] if x["kind"] != "FullComment"]
        if any(x["kind"] != "FieldDecl" or x.get("isBitfield") or x.get("inner") for x in inner):
            raise Rejected(f"unknown: an attribute or a bit-field in {kind}")
        members = {x["name"]: type_of(x) for x in inner}
        if members.values() - self.numbers.keys():
            raise Rejected(f"unknown: a member of {kind} that is no number")
        return members

    def function(self, name: str) -> tuple[list[Node], Node]:
        """The parameters and the body."""
        *parameters, body = [x for x in self.functions[name]["inner"] if x["kind"] != "FullComment"]
        if {x["kind"] for x in parameters} - {"ParmVarDecl"} or self.functions[name].get("variadic"):
            raise Rejected(f"unknown: {name} has an attribute, or any number of arguments")
        return parameters, body

    def result(self, name: str) -> str:
        """The type of what a function returns."""
        return str(self.functions[name]["type"]["qualType"]).split("(")[0].strip()
