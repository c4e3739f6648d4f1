#!/usr/bin/env python3
"""Compares the Rust in src/proved and src/form of the package with the Rattle source, word by word.

    check_rust.py            prints the first word of each module that differs
    check_rust.py --wrong    shows that wrong edits are rejected, each in the function that it names

RULES rewrite the source to what Rust has in its place, which is nothing for what only proofs need. Then both have the
same words in the same order, except for comments, derives, some commas, the order of imports, and the imports of ADDED.
"""
import re
import shutil
import sys
from collections.abc import Iterable, Iterator
from pathlib import Path
from tempfile import TemporaryDirectory

TOP = Path(__file__).resolve().parents[1]
PACKAGE = TOP / "bindings/rust/verified-multihash/src"
# Each crate, its folder in the package, and its modules that have no code, or are by hand in Rust.
CRATES = {
    "multihash": (
        "proved",
        "lib error exposed json laws list no_std_io no_std_io/error no_std_io/impls no_std_io/slice_writer",
    ),
    "form": ("form", "lib exposed laws of_multihash"),
}
BY_HAND = ("form/values.rs", "proved/no_std_io.rs")  # the files of these folders that have no source

# What a rule finds in the words of the source, after each of which is a blank, and what Rust has there.
BRACES = r"\{[^{}]*\}"
for _ in range(5):
    BRACES = rf"\{{(?:[^{{}}]|{BRACES})*\}}"
RULES = (
    # A field that a ghost field names is private to the crate, since nothing else keeps its limit in Rust.
    (r"(?<=pub )(?=(\w+) : (?:[^{}]|\{[^{}]*\})*?ghost \w+ : \{ (?:[^{}]* )?\1 )", "( crate ) "),
    # Contracts, what they cite, and ghost members.
    (rf"(?:requires|ensures) (?:\w+ )?{BRACES} ", ""),
    (r"(?:pub )?ghost use [^;]*; ", ""),
    (rf"(?:pub )?ghost \w+ [:=] {BRACES} [,;] ", ""),
    # How a function is proved, and how contracts see a type.
    (r"use std :: marker :: Model ; ", ""),
    (r"# \[ tactic [^]]*\] ", ""),
    (rf"impl < const S : usize > Model for [^{{]*{BRACES} ", ""),
    # A constant and a copy that only contracts use.
    (r"const ALLOCATES : bool (?:= \w+ )?; ", ""),
    (r"let _in_range = \* self ; ", ""),
    # Rust drops every value, and its formatters have no parameter.
    (r"\+ Drop ", ""),
    (r"< W : fmt :: Write > (?=\( & self , f )", ""),
    (r"(?<=fmt :: Formatter )< W > ", ""),
    # By hand in Rust, whose vectors are other writers.
    (rf"pub fn to_bytes [^{{]*{BRACES} ", ""),
    # Rust has one allocator. Its vectors do not return the value that was not stored.
    (r"use std :: alloc :: (?:Global|\{ AllocError , AllocFailed \}) ; ", ""),
    (r"\b_?alloc : Global , |, alloc : Global (?=\) )", ""),
    (r"(?<=\( )alloc (?:, )?", ""),
    (r"(\w+ )\. push \( (\w+) \) \? ; ", r"\1. try_reserve ( 1 ) ? ; \1. push ( \2 ) ; "),
    (r"(?<=\. )reserve (?=\( \w+ \) \? ; )", "try_reserve "),
    (r"\bAllocError ", "TryReserveError "),
    (rf"impl < T : Drop > From < AllocFailed < T >> for FormError {BRACES} ", ""),
    # Rust makes the errors of readers and writers of their kinds.
    (r"(?<=\bError :: )unexpected_eof \( \) ", "from ( ErrorKind :: UnexpectedEof ) "),
    (r"(?<=\bError :: )write_zero \( \) ", "from ( ErrorKind :: WriteZero ) "),
    # Rust has this function from 1.77 on.
    (
        r"first_chunk :: < WORD_LEN > \( \) ",
        "get ( .. WORD_LEN ) . map ( | front | < & [ u8 ; WORD_LEN ] > :: try_from ( front ) . unwrap ( ) ) ",
    ),
    # Constants may call these functions. Only the parts implement these traits. Only this crate makes these values.
    (r"(?<=pub )(?=fn (?:code|size) \( & self \) )", "const "),
    (r"(pub trait (?:Cases|Form) )", r"\1: super :: values :: Part "),
    (r"(?=pub (?:struct (?:Tag|Tagged)|enum FormError) )", "# [ non_exhaustive ] "),
)
# What only Rust has: imports of what Rattle has without one.
ADDED = (r"use (?:alloc :: vec :: Vec|alloc :: collections :: TryReserveError|crate :: no_std_io :: ErrorKind) ; ", "")
# What is left out of both: derives, and commas that a formatter adds, where they change nothing.
BOTH = (
    (r"# \[ derive \( (?:(?:Clone|Copy|Debug|PartialEq|Eq|PartialOrd|Ord|Hash|Drop) (?:, )?)+\) \] ", ""),
    (r", (?=\} |\) -> )", ""),
)

WORD = re.compile(
    r'//[^\n]*|"(?:\\.|[^"\\])*"|\'(?:\\[^\']*|[^\\\'])\''  # a comment, a string, a character
    r"|&&|\|\||::|\.\.=?|[-=]>|[-=!<>+*/%&|^]=|<<|>>|\w+|\S"
)
IMPORT = re.compile(r"((?:pub (?:\( crate \) )?)?(?:use|mod) [^;]*) ; ")
Words = list[tuple[str, int]]  # each with its line


def words_of(path: Path) -> Words:
    """Returns the words of a file but its comments. Blanks in strings are written as another character."""
    # Not as text, where Python ends a line at \r too, and so a comment. Rust has plain ASCII.
    text = path.read_bytes().decode("ascii" if path.suffix == ".rs" else "utf-8")
    found = [(match[0].replace(" ", "␣"), text.count("\n", 0, match.start()) + 1) for match in WORD.finditer(text)]
    return [(word, line) for word, line in found if not word.startswith("//")]


def rewritten(words: Words, rules: Iterable[tuple[str, str]]) -> Words:
    """Returns the words after each rule in turn. What it writes gets the line of what it found."""
    for pattern, new in rules:
        text = "".join(f"{word} " for word, _ in words)
        kept: Words = []
        end = 0
        for match in re.finditer(pattern, text):
            start = text.count(" ", 0, match.start())
            kept += words[end:start] + [(word, words[start][1]) for word in match.expand(new).split()]
            end = text.count(" ", 0, match.end())
        words = kept + words[end:]
    return words


def sorted_imports(words: Words) -> Words:
    """Returns the words of a module, of which each import and `mod` at its start is one word, in alphabetical order."""
    imports: Words = []
    while match := IMPORT.match("".join(f"{word} " for word, _ in words)):
        path, _, names = match[1].partition(" {")
        imports += [(f"{path} {name}".strip(), words[0][1]) for name in names.strip(" }").split(" , ")]
        words = words[match[0].count(" ") :]
    return sorted(imports) + words


def difference(path: Path, source: Path, place: str) -> str:
    """Returns the first word of a module that differs from its source, or nothing."""
    paths = (r"\bcrate :: ", f"crate :: {place} :: "), (r"(?<!:: )\bmultihash :: ", "crate :: proved :: ")
    found = sorted_imports(rewritten(words_of(path), (ADDED, *BOTH)))
    wanted = sorted_imports(rewritten(words_of(source), (*RULES, *paths, *BOTH)))
    for words in (found, wanted):
        words.append(("the end", words[-1][1]))
    at = next((at for at, (one, other) in enumerate(zip(found, wanted)) if one[0] != other[0]), None)
    if at is None:
        return ""
    before = [word for word, _ in found[:at]]
    function = next((name for name, fn in zip(before[::-1], before[-2::-1]) if fn == "fn"), "")
    return (
        f"{path}:{found[at][1]}: fn {function}: after `{' '.join(before[-6:])}` it has `{found[at][0]}`, "
        f"and {source.relative_to(TOP)}:{wanted[at][1]} has `{wanted[at][0]}`"
    )


def errors(package: Path) -> Iterator[str]:
    """Returns where modules are not their sources, those without one, and those that Rust may take from elsewhere."""
    for crate, (place, left_out) in CRATES.items():
        folder = TOP / "crates" / crate / "src"
        known = {package / name for name in BY_HAND}
        for source in folder.rglob("*.rt"):
            module = source.relative_to(folder).with_suffix("")
            if str(module) in left_out.split():
                continue
            path = (package / place / module).with_suffix(".rs")
            known.add(path)
            if found := difference(path, source, place):
                yield found
            # An attribute before its name could give it another file, or leave it out.
            parent = path.parent.with_suffix(".rs")
            words = "".join(f"{word} " for word, _ in words_of(parent))
            if not re.search(rf"(?:^|[;{{}}] )(?:pub (?:\( crate \) )?)?mod {module.name} ; ", words):
                yield f"{parent}: no plain `mod {module.name};`"
        yield from (f"{path}: no source" for path in {*(package / place).rglob("*.rs")} - known)


# A module, a text that it has once, what replaces it, and the function whose comparison rejects that, if it is in one.
EDITS = (
    ("proved/varint", "if byte == 0 {", "if false {", "read_after"),
    ("proved/varint", "            return Err(Error::not_minimal());\n", "", "read_after"),
    ("proved/varint/word", "!word & HIGH_BITS", "word & HIGH_BITS", "read_front"),
    ("proved/binary", "return Err(Error::from_size((digest.len() - len) as u64));", "", "from_bytes"),
    ("proved/binary", "write_in_range(self.code(), w)?", "write_in_range(u64::from(self.size()), w)?", "write"),
    ("proved/scale", "size > S", "size >= S", "scale_decode"),
    ("proved/compare", "self.size != other.size", "false", "cmp"),
    ("form/counted", "for _ in 0..count {", "for _ in 0..=count {", "read_items"),
    ("form/tag", "varint::write(N, w)?;", "varint::write(N, w)?;varint::write(N, w)?;", "write"),
    # Parts that are not compiled, or are others than they seem.
    ("form/block", "if len > MAX as u64", "#[cfg(any())]\n        if len > MAX as u64", "read"),
    (
        "proved/varint/word",
        "if last >=",
        '#[cfg_attr(any(unix), cfg(any()), doc = "FORMATS")]\n    if last >=',
        "read_front",
    ),
    ("proved/multihash", "        truncated.size =", "        // less\r        truncated.size =", "truncate"),
    ("proved/varint", "use crate::proved::Error;", "use crate::proved::Error;\nuse crate::rattle::Other as Read;", ""),
    ("proved/compare", "use crate::proved::Multihash;", "use crate::Multihash;", ""),
    ("form", "mod tag;", '#[path = "number.rs"]\nmod tag;', ""),
    # Limits that nothing keeps, and a text.
    ("form/number", "pub(crate) value", "pub value", ""),
    ("form/tag", "#[non_exhaustive]\n", "", ""),
    ("form/tag", "derive(Clone, Copy", "derive(Clone, Copy, Default", ""),
    ("form/error", "too many items", "too many  items", "fmt"),
)


def accepted() -> Iterator[str]:
    """Returns the wrong edits that are not rejected."""
    for module, old, new, function in EDITS:
        with TemporaryDirectory() as work:
            package = Path(shutil.copytree(PACKAGE, Path(work, "src")))
            path = package / f"{module}.rs"
            text = path.read_text("utf-8")
            path.write_text(text.replace(old, new), "utf-8")
            found = [each for each in errors(package) if each.startswith(f"{path}:")]
            if text.count(old) != 1 or not any(not function or f" fn {function}:" in each for each in found):
                yield f"{path.name}, fn {function}: not rejected: {new!r} in place of {old!r}"


if __name__ == "__main__":
    sys.exit("\n".join(accepted() if sys.argv[1:] == ["--wrong"] else errors(PACKAGE)) or None)
