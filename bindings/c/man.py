#!/usr/bin/env python3
"""Writes the man page multihash(3) into a folder: the comments and declarations of the headers of `include`. The pages of
their functions include it. The date is SOURCE_DATE_EPOCH, or that of the headers.

    man.py FOLDER
"""

from __future__ import annotations

import os
import re
import sys
import textwrap
import time
from pathlib import Path

C = Path(__file__).parent
# multihash_ffi.h is for other languages.
HEADERS = [C / "include" / f"multihash{part}.h" for part in ("", "_message", "_names", "_cid", "_frame")]
EXAMPLE = re.findall(r"```c\n(for .*?)```", (C / "README.md").read_text("utf-8"), re.S)[0]
COMMENT = r"/\*((?:(?!\*/).)*)\*/\n"
ABOUT = COMMENT + "#ifndef"
# A type, constants, or a function, whose declaration has a parenthesis.
PART = COMMENT + r"(?:static inline )?(typedef .*?;(?=\n\n)|#define.*?(?=\n\n)|[\w *]*multihash_\w+\([^()]*\))"
STATUS = COMMENT + r" *(MULTIHASH_\w+) = \d+"


def text(words: str) -> str:
    """Returns a paragraph: each sentence starts a line, and names are in italics."""
    words = re.sub(r"`([^`]*)`", r"\\fI\1\\fP", " ".join(words.replace("\\", "\\e").split()))
    lines = textwrap.TextWrapper(79, break_long_words=False, break_on_hyphens=False)
    return "\n".join(lines.fill(sentence) for sentence in re.split(r"(?<=\.) ", words))


def paragraphs(comment: str) -> list[str]:
    """Returns the paragraphs of a comment. A line that begins with a dash, or with a word and a colon, begins one too."""
    words = re.sub(r"\n *\* ?", "\n", comment).strip()
    parts = re.split(r"\n\n|\n(?= - |Returns: |Errors: )", words)
    return [line for part in parts for line in (".Pp", text(part))]


def page(headers: dict[str, str], date: time.struct_time) -> str:
    """Returns the page of these headers, which have names."""
    everything = "".join(headers.values())
    parts = re.findall(PART, everything, re.S)
    functions = [name for _, part in parts if not part.startswith("typedef") for name in re.findall(r"(\w+)\(", part)]
    version = re.findall(r'MULTIHASH_VERSION "(.*)"', everything)[0]
    made = [time.strftime(f".Dd %B {date.tm_mday}, %Y", date), ".Dt MULTIHASH 3", ".Os", ".Sh NAME"]
    made += [*(f".Nm {name} ," for name in ["multihash", *functions[:-1]]), f".Nm {functions[-1]}"]
    made += [".Nd decode and encode multihashes", ".Sh LIBRARY", f"multihash_c, version {version}:"]
    made += [".Ql pkg-config --cflags --libs multihash_c", "prints the options for the compiler."]
    made += [".Sh SYNOPSIS", *(f".In {name}" for name in headers), ".Sh DESCRIPTION"]
    abouts = re.findall(ABOUT, everything, re.S)
    made += [line for name, about in zip(headers, abouts) for line in [f".Ss {name}", *paragraphs(about)[1:]]]
    for comment, declared in parts:
        names = re.findall(r"(\w+)\(|\} (\w+);|typedef \w+ (\w+);|#define (\w+)", declared)
        made += [f".Ss {''.join(names[0])}", ".Bd -literal", declared, ".Ed", *paragraphs(comment)]
    made += [".Sh EXAMPLES", "Decode the multihashes in a buffer:", ".Bd -literal", EXAMPLE + ".Ed"]
    made += [".Sh ERRORS", ".Bl -tag -width Ds"]
    made += [f".It Dv {name}\n{text(comment)}" for comment, name in re.findall(STATUS, everything, re.S)]
    made += [".El", ".Sh SEE ALSO", '.Lk https://multiformats.io/multihash/ "The multihash format"']
    return "\n".join(made) + "\n"


if __name__ == "__main__":
    if len(sys.argv) != 2:
        sys.exit(__doc__)
    out = Path(sys.argv[1])
    out.mkdir(parents=True, exist_ok=True)
    seconds = os.environ.get("SOURCE_DATE_EPOCH") or max(path.stat().st_mtime for path in HEADERS)
    written = page({path.name: path.read_text("utf-8") for path in HEADERS}, time.gmtime(float(seconds)))
    (out / "multihash.3").write_text(written, "utf-8")
    for function in re.findall(r"^\.Nm (multihash_\w+)", written, re.M):
        (out / f"{function}.3").write_text(".so man3/multihash.3\n", "utf-8")
