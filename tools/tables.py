#!/usr/bin/env python3
"""For `tools/generate tables`: writes the files of packages that have statuses, limits and the version of multihash.h,
texts of multihash_message.h, and names of hash functions, of hashes.tsv and codes.tsv of crates/vectors/data; and the
version in files that are written by hand otherwise.

    tools/tables.py FOLDER      writes them below a folder, by their paths in the repository
"""
import re
import sys
import textwrap
from pathlib import Path

TOP = Path(__file__).resolve().parents[1]
DATA = TOP / "crates/vectors/data"
INCLUDE = TOP / "bindings/c/include"
HEADER = (INCLUDE / "multihash.h").read_text("utf-8")
SOURCE = (TOP / "bindings/c/src/multihash.c").read_text("utf-8")
MESSAGES = (INCLUDE / "multihash_message.h").read_text("utf-8").replace('%" PRIu64 "', "%s").replace('%" PRIu64', '%s"')
VERSION = re.findall(r'#define MULTIHASH_VERSION "(.*)"', HEADER)[0]
LIMIT = r"#define MULTIHASH_(?P<name>\w+_MAX) (?P<number>\d+) +/\* of (?P<what>.*) \*/"
LIMITS = [found.groupdict() for found in re.finditer(LIMIT, HEADER)]
TEXTS = dict(re.findall(r'case MULTIHASH_(\w+):\s*return (".*");', SOURCE))
# The lines of a comment begin with asterisks.
STATUSES = [
    {"name": name, "number": number, "meaning": " ".join(comment.replace("\n     *", "").split()), "text": TEXTS[name]}
    for comment, name, number in re.findall(r"/\*((?:(?!\*/).)*)\*/\s*MULTIHASH_(\w+) = (\d+)", HEADER, re.S)
]
INCOMPLETE = re.findall(r"status == MULTIHASH_(\w+)", SOURCE)
# A function that writes a text: its name, its parameters, the format and the values for it, which a comma precedes.
TEXT = r'mh_text_(\w+)\(char \*text, size_t text_size(.*)\)\n{\s*return snprintf\(text, text_size, "([^"]*)"([^;]*)\);'
LISTS = [line.split("\t") for name in ("hashes.tsv", "codes.tsv") for line in (DATA / name).open(encoding="utf-8")]
NAMES = sorted({(int(code, 16), name.strip()) for code, name, *_ in LISTS if code != "code"})
# The names of a family end with the lengths of its digests, -8, -16, .. bits: the lists have its first and its last name.
LAST = {name.rpartition("-")[0]: code for code, name in NAMES}
FAMILIES = [(code, name[:-2], LAST[name[:-2]] - code + 1) for code, name in NAMES if name.endswith("-8")]
OTHERS = [(code, name) for code, name in NAMES if name.rpartition("-")[0] not in [stem for _, stem, _ in FAMILIES]]
CODES = [{"code": f"{code:#x}", "name": name, "constant": name.upper().replace("-", "_")} for code, name in NAMES]
JS_TEXTS = ""  # functions that return these texts
for function, given, text, values in re.findall(TEXT, MESSAGES):
    shown = re.split(r",\s+", values)[1:]
    js_name = re.sub("_(.)", lambda letter: letter[1].upper(), function)
    js_given = ", ".join(re.findall(r"(\w+)(?:,|$)", given))
    js_text = text % tuple(f"${{{value}}}".replace("==", "===").replace('"', "'") for value in shown)
    JS_TEXTS += f"export const {js_name} = ({js_given}) =>\n  `{js_text}`;\n"


def rows(*lines: str, of: list[dict[str, str]] = STATUSES) -> str:
    """Returns the lines for each row, which has what their braces name."""
    return "\n".join(line.format(**row) for row in of for line in lines)


def names(one: str, family: str) -> str:
    """Returns by their codes a line for each name that belongs to no family, and one for each family."""
    made = {code: one.format(code, name) for code, name in OTHERS}
    made |= {code: family.format(code, name, count) for code, name, count in FAMILIES}
    return "\n".join(line for _, line in sorted(made.items()))


def all_names(row: str, indent: str) -> str:
    """Returns a row for each code with its name, sorted by code, also those of each family, several in a line. ~ is a blank
    in a row."""
    table = OTHERS + [(code + i, f"{name}-{8 * i + 8}") for code, name, count in FAMILIES for i in range(count)]
    text = " ".join(row.format(code, name) for code, name in sorted(table))
    return textwrap.indent(textwrap.fill(text, 110, break_on_hyphens=False).replace("~", " "), indent)


FILES = {
    "js/limits.js": f"""// Limits and the version of multihash.h. Made by tools/generate tables.

/** The version of the library. */
export const version = '{VERSION}';
{rows("/** The maximum length of {what}, in bytes. */", "export const {name} = {number};", of=LIMITS)}
""",
    "js/limits.d.ts": f"""// Limits and the version of multihash.h. Made by tools/generate tables.

/** The version of the library: three numbers separated by dots. */
export const version: string;
{rows("/** The maximum length of {what}, in bytes. */", "export const {name}: {number};", of=LIMITS)}
""",
    "js/statuses.js": f"""// Statuses, and the texts of errors, of the headers for C. Made by tools/generate tables.

/** The statuses, by their numbers. */
export const STATUSES = [
{rows("  '{name}',").lower()}
];
/** Those of truncated input. */
export const INCOMPLETE = {[name.lower() for name in INCOMPLETE]};

{JS_TEXTS}""",
    "js/codes.js": f"""// Names of hash functions in the multicodec table. Made by tools/generate tables.

const family = (name, first, count) =>
  Object.fromEntries(Array.from({{ length: count }}, (_, index) => [`${{name}}-${{8 * (index + 1)}}`, first + index]));

/** The code of each hash function by its name. */
export const CODES = Object.freeze({{
  __proto__: null,
{names("  '{1}': {0:#x},", "  ...family('{1}', {0:#x}, {2}),")}
}});

/** The name of each code. */
export const NAMES = {{ __proto__: null }};
for (const [name, code] of Object.entries(CODES)) NAMES[code] = name;
Object.freeze(NAMES);
""",
    "js/codes.d.ts": f"""// Names of hash functions in the multicodec table. Made by tools/generate tables.

/** The codes of the hash functions, by their names: those listed here, and BLAKE2 and Skein of other lengths. */
export const CODES: Readonly<Record<string, number | undefined>> & {{
{rows("  readonly '{name}': {code};", of=CODES)}
}};
/** The names of these functions, by their codes. */
export const NAMES: Readonly<Record<number, string | undefined>>;
""",
    "python/src/verified_multihash/_status.py": f'''"""The statuses of multihash.h. Made by tools/generate tables."""

import enum


class Status(enum.IntEnum):
    """Why a call failed, with the numbers of the C library. OK and NO_ROOM are not raised.

{rows("    {name}: {meaning}", of=STATUSES[1:-1])}
    """

    __module__ = "verified_multihash"  # where pickled values find it
{rows("    {name} = {number}")}


INCOMPLETE = ({", ".join("Status." + name for name in INCOMPLETE)})

# What multihash_status_text returns.
TEXTS = {{
{rows("    Status.{name}: {text},")}
}}
''',
    "python/src/verified_multihash/_codes.py": f'''"""Names of hash functions in the multicodec table. Made by tools/generate tables."""


def _family(name: str, first: int, count: int) -> dict[str, int]:
    """The codes of a function whose digests have 8, 16, .. bits."""
    return {{f"{{name}}-{{8 * (index + 1)}}": first + index for index in range(count)}}


CODES = {{
{names('    "{1}": 0x{0:X},', '    **_family("{1}", 0x{0:X}, {2}),')}
}}
''',
    "rust/verified-multihash/src/codes.rs": f"""//! Codes of hash functions in the multicodec table, and their names. Made by tools/generate tables.
//!
//! # Examples
//!
//! ```
//! use verified_multihash::{{codes, Multihash}};
//!
//! let multihash = Multihash::<64>::wrap(codes::SHA2_256, &[0xab; 32])?;
//! assert_eq!(codes::name(multihash.code()), Some("sha2-256"));
//! assert_eq!(codes::code("blake2b-160"), Some(0xb214));
//! # Ok::<(), verified_multihash::Error>(())
//! ```

/// Returns the name of a code, or `None` if no hash function has the code.
pub fn name(code: u64) -> Option<&'static str> {{
    NAMES.binary_search_by_key(&code, |row| row.0).ok().map(|at| NAMES[at].1)
}}

/// Returns the code of a name, or `None` if no hash function has the name.
pub fn code(name: &str) -> Option<u64> {{
    NAMES.iter().find(|row| row.1 == name).map(|row| row.0)
}}

{rows("/// The code of `{name}`.", "pub const {constant}: u64 = {code};", of=CODES)}

// Sorted by code.
const NAMES: &[(u64, &str)] = &[
{all_names('({0:#x},~"{1}"),', " " * 4)}
];
""",
    "c/include/multihash_names.h": f"""/* SPDX-License-Identifier: MIT
 * Copyright (c) 2026 The Gilmekhus developers
 * Made by tools/generate tables. */

/* The names of hash functions in the multicodec table, and their codes: tested over the test vectors. */
#ifndef MULTIHASH_NAMES_H
#define MULTIHASH_NAMES_H

#include "multihash.h"

#include <string.h>

#ifdef __cplusplus
extern "C" {{
#endif

/* What multihash_code returns for a text that is not a name. It is not a valid code. */
#define MULTIHASH_NO_CODE UINT64_MAX

struct mh_name {{
    uint64_t code;
    const char *name;
}};

/* The table. Its last row has no name. */
static inline const struct mh_name *mh_names(void)
{{
    static const struct mh_name names[] = {{
{all_names('{{{0:#x},~"{1}"}},', " " * 8)}
        {{MULTIHASH_NO_CODE, NULL}},
    }};
    return names;
}}

/* Returns the name of the hash function of a code, a static string such as "sha2-256", or a null pointer if no hash
 * function has the code. */
static inline const char *multihash_name(uint64_t code)
{{
    const struct mh_name *row = mh_names();
    while (row->name != NULL && row->code != code) row++;
    return row->name;
}}

/* Returns the code of a name, a string that ends in a zero byte, or MULTIHASH_NO_CODE if no hash function has the name. */
static inline uint64_t multihash_code(const char *name)
{{
    const struct mh_name *row = mh_names();
    while (row->name != NULL && strcmp(row->name, name) != 0) row++;
    return row->code;
}}

#ifdef __cplusplus
}}
#endif

#endif
""",
}

# Files by hand, and what precedes the version in each.
STATED = {
    "js/package.json": '"version": "',
    "python/src/verified_multihash/__init__.py": '__version__ = "',
    "rust/multihash/Cargo.toml": 'verified-multihash = { version = "',
    "rust/verified-multihash/Cargo.toml": '\nversion = "',
}
for path, marker in STATED.items():
    before, _, after = (TOP / "bindings" / path).read_text("utf-8").partition(marker)
    FILES[path] = before + marker + VERSION + after[after.index('"') :]


if __name__ == "__main__":
    if len(sys.argv) != 2:
        sys.exit(__doc__)
    for path, text in FILES.items():
        made = Path(sys.argv[1], "bindings", path)
        made.parent.mkdir(parents=True, exist_ok=True)
        made.write_text(text, "utf-8")
