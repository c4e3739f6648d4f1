#!/usr/bin/env python3
"""Compares the pages with the sources: links, versions, limits and output of mh_show, code of CALLING.md, and bytes of
FORMAT.md. Nothing else is compared: no sentence, size or time."""

import os
import re
import subprocess
import sys
from collections.abc import Iterator
from functools import cache
from pathlib import Path

TOP = Path(__file__).resolve().parents[2]
sys.path.append(str(TOP / "crates" / "vectors"))
import verdicts

FENCE = re.compile(r"^ *```(\S*)[^\n]*\n(.*?)^ *```$", re.M | re.S)
README, FORMAT, CALLING, MAN = "README.md", "docs/FORMAT.md", "crates/multihash/CALLING.md", "crates/mh_show/mh_show.1"
C, HEADER, RUN = "bindings/c/README.md", "bindings/c/include/multihash.h", "crates/mh_show/src/run.rt"
JS, PYTHON, RUST, SHIM = "bindings/js", "bindings/python", "bindings/rust/verified-multihash", "bindings/rust/multihash"
# pages of packages: their links lead to no other file
PACKED = (C, f"{RUST}/FORMATS.md", *(f"{package}/README.md" for package in ("bindings/c/src", JS, PYTHON, RUST, SHIM)))
# pages, a text of them, in which {} is a version or a limit, and where that is from
STATED = (
    (f"{README} {JS}/README.md", "Node.js {}", f"{JS}/package.json", r'"node": ">=(.*)"'),
    (f"{README} {PYTHON}/README.md", "CPython {}", f"{PYTHON}/pyproject.toml", r'requires-python = ">=(.*)"'),
    (f"{README} {RUST}/README.md", "Rust {}", f"{RUST}/Cargo.toml", r'rust-version = "(.*)"'),
    (f"{SHIM}/README.md", "Rust {}", f"{SHIM}/Cargo.toml", r'rust-version = "(.*)"'),
    (f"{SHIM}/README.md", "`multihash` {}", f"{SHIM}/Cargo.toml", r'\nversion = "(.*)"'),
    (f"{README} {C}", "CMake {}", "CMakeLists.txt", r"cmake_minimum_required\(VERSION (.*)\)"),
    (C, "find_package(multihash_c {} ", HEADER, r'MULTIHASH_VERSION "(\d+\.\d+)'),
    (C, "multihash-{}.tar.gz", HEADER, r'MULTIHASH_VERSION "(.*)"'),
    (C, "libmultihash_c.so.{}`", HEADER, r'MULTIHASH_VERSION "(\d+)'),
    ("CHANGES", "{}", HEADER, r'MULTIHASH_VERSION "(.*)"'),
    (README, "Version {} ", HEADER, r'MULTIHASH_VERSION "(.*)"'),
    (MAN, "status {}", RUN, r"ensures status { result ≤ (\d+) }"),
    (MAN, "digest of at most {}", "crates/mh_show/src/show.rt", r"Multihash::<(\d+)>::from_bytes"),
    (MAN, "at most {} bytes", RUN, r"MOST_INPUT: usize = (.*);"),
)


@cache
def paths() -> list[str]:
    """Returns the paths of the repository's files."""
    names = subprocess.check_output(["git", "ls-files", "-co", "--exclude-standard"], cwd=TOP, text=True)
    return [name for name in names.splitlines() if (TOP / name).exists()]


@cache
def read(path: str) -> str:
    return (TOP / path).read_bytes().decode("utf-8", "replace")


def placed(path: str, part: str) -> str:
    """Returns a path, and the number of the first line that has a part."""
    return f"{path}:{read(path).partition(part)[0].count(chr(10)) + 1}"


def anchors(path: str) -> set[str]:
    """Returns the anchors of a page's headings."""
    found: list[str] = []
    for head in re.findall(r"^#+ +(.*?) *$", FENCE.sub("", read(path)), re.M):
        words = re.sub(r"\[([^\]]*)\]\([^)]*\)", r"\1", head).lower()
        slug = re.sub(r"[^\w\- ]", "", words).replace(" ", "-")
        found.append(f"{slug}-{found.count(slug)}" if slug in found else slug)
    return {*found}


def link_errors() -> Iterator[str]:
    """Returns the links that lead to no file, folder or heading of the repository; other addresses are not followed."""
    for page in (path for path in paths() if path.endswith(".md")):
        for link in re.findall(r"\[[^\]]*\](?:\(<?|: +)(?!<?[a-z]+:)([^\s)>]+)", FENCE.sub("", read(page))):
            target, _, anchor = link.partition("#")
            to = os.path.normpath(os.path.join(os.path.dirname(page), target)) if target else page
            if page in PACKED and target:
                yield f"{placed(page, link)}: it is installed without {target}"
            if not (TOP / to).exists() or anchor and anchor not in anchors(to):
                yield f"{placed(page, link)}: a link leads nowhere: {link}"


def table_errors() -> Iterator[str]:
    """Returns the rows after an empty line that have no head: they are shown as text."""
    for page in (path for path in paths() if path.endswith(".md")):
        for row in re.findall(r"\n\n(\|.*)\n(?!\|[-:| ]+\n)", FENCE.sub("", read(page))):
            yield f"{placed(page, row)}: a row without a table: {row}"


def flat(text: str) -> str:
    return " ".join(text.split())


def source_errors() -> Iterator[str]:
    """Compares versions, limits, output and code of pages with the sources."""
    for pages, text, source, origin in STATED:
        wanted = text.format(*re.findall(origin, read(source))[:1])
        for page in pages.split():
            if wanted not in flat(read(page)).replace(",", ""):
                yield f"{page}: by {source} it has to say: {wanted}"
    for page in (README, MAN):
        if read("crates/mh_show/stdout") not in read(page):
            yield f"{page} shows another output than that of mh_show"
    known = flat("\n".join(read(path) for path in paths() if not path.endswith((".md", ".edit"))))
    blocks = [body for language, body in FENCE.findall(read(CALLING)) if language in ("rust", "text")]
    for part in "\n\n".join(blocks).split("\n\n"):
        if flat(part) not in known:
            yield f"{placed(CALLING, part.strip())}: no source has {part}"


def byte_errors() -> Iterator[str]:
    """Computes the results of the bytes in the tables of FORMAT.md by the rules of verdicts.py."""
    for head, table in re.findall(r"^(\|.*\| Consumed \|)\n\|[-:|]+\n((?:\|.*\n)+)", read(FORMAT), re.M):
        call = verdicts.read if "Verdict" in head else verdicts.scale_decode
        size = int(re.findall(r"`S` = (\d+)", head)[0])
        for row in table.splitlines():
            _, _, result, *_, inputs, consumed, _ = (cell.strip() for cell in row.split("|"))
            for data in re.findall(r"`([^`]*)`", inputs):
                found, length = verdicts.result(call, size, bytes.fromhex(data))
                name = found.split()[0].replace("unexpected_eof", "truncated").replace("_", " ")
                if name not in result or consumed != str(length or ""):
                    yield f"{placed(FORMAT, row)}: {data} is {found}, and {length} bytes are consumed"


if __name__ == "__main__":
    sys.exit("\n".join([*link_errors(), *table_errors(), *source_errors(), *byte_errors()]) or None)
