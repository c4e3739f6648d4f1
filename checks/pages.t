#!/usr/bin/env bash
# Compares the pages with the sources, and runs the commands and programs of README.md and of its languages' pages.
# shellcheck source=checks/lib/tap.sh
. "$(dirname "$0")/lib/tap.sh"
registry=/usr/share/cargo/registry # of Debian, for crates that the package for Rust and its page's programs need
oldest=$(sed -n 's/^rust-version = "\(.*\)"/\1/p' bindings/rust/verified-multihash/Cargo.toml)
programs() { checks/lib/page_programs.py "$work/pages" "$@"; }
source="[source.crates-io]\nreplace-with = \"here\"\n[source.here]\ndirectory = \"$registry\"\n"

# shellcheck disable=SC2016 # what the programs' shell expands
{
  try "what pages say" checks/lib/pages.py
  try "README.md" programs README.md
  needs="node=20.19+ npm" try "JavaScript" programs JavaScript 'export npm_config_cache=$PWD/npm npm_config_offline=true'
  needs="/usr/include/python3*/Python.h python:ensurepip python:setuptools python:wheel" try "Python" programs Python \
    '[ -d venv ] || /usr/bin/python3 -m venv --system-site-packages venv
    export PATH=$PWD/venv/bin:/usr/bin:/bin PIP_NO_INDEX=1 PIP_NO_BUILD_ISOLATION=0'
  needs="cargo rustc=$oldest+ $registry/serde-1* $registry/sha2-0.10* $registry/data-encoding-2*" try "Rust" programs Rust \
    "[ -d cargo ] || { mkdir cargo; printf '$source' > cargo/config.toml; cargo init --quiet --name app; }
    "'export CARGO_HOME=$PWD/cargo CARGO_NET_OFFLINE=true'
  # the shell does not read blanks that pkg-config escapes, so the root is named from the folder
  needs="cmake pkg-config /usr/include/openssl/evp.h" try "C" programs C \
    'export DESTDIR=$PWD/root PKG_CONFIG_{PATH=$PWD/root/usr/local/lib/pkgconfig,SYSROOT_DIR=root}'
  needs=rt try "Rattle" programs Rattle
}
finish
