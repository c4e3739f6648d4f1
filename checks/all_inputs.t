#!/usr/bin/env bash
# That the C source and format.js do for all inputs what proof/definitions.py says, and that wrong edits are rejected;
# that the source for Rust is the proved one.
# shellcheck source=checks/lib/tap.sh
. "$(dirname "$0")/lib/tap.sh"

needs="clang python:z3" try "multihash.c" proof/check_c.py
needs="clang python:z3" try "wrong edits of multihash.c are rejected" proof/check_c.py --wrong
needs="acorn python:z3" try "format.js" proof/check_js.py
needs="acorn python:z3" try "wrong edits of format.js are rejected" proof/check_js.py --wrong
try "the source for Rust" proof/check_rust.py
try "wrong edits of the source for Rust are rejected" proof/check_rust.py --wrong
finish
