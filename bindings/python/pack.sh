#!/usr/bin/env bash
# Writes the sdist, and the wheel of it for this machine and distributions with glibc 2.17 or later.
#
#   bindings/python/pack.sh OUT
#
# /usr/bin/python3 has build, setuptools and wheel. CC is the compiler.
set -euo pipefail
[[ $# == 1 && $1 != -* ]] || { sed -n '2,/^[^#]/s/^# \{0,1\}//p' "${BASH_SOURCE[0]}" >&2; exit 2; }
umask 022
here=$(dirname "$(readlink -f "$0")")
work=$(mktemp -d)
trap 'rm -rf "$work"' EXIT

# Warnings are errors, but not that `[tool.setuptools]` is still beta.
build() {
  CFLAGS=-g0 PYTHONWARNINGS="error::UserWarning,ignore:Support for" \
    /usr/bin/python3 -m build --no-isolation "$@" > "$work/log" 2>&1 || { cat "$work/log" >&2; exit 1; }
}

build -s -o "$work" "$here"
mkdir "$work/sdist"
tar xf "$work"/*.tar.gz -C "$work/sdist" --strip-components=1
build -w "-C--build-option=--plat-name=manylinux2014_$(uname -m)" -o "$work" "$work/sdist"
python3 -m zipfile -e "$work"/*.whl "$work/files"
glibc=$({ echo GLIBC_2.17; readelf -W --dyn-syms "$work"/files/*/_core.abi3.so; } |
  grep -o 'GLIBC_[0-9.]*' | sort -V | tail -n 1)
[ "$glibc" = GLIBC_2.17 ] || { echo "pack.sh: the module needs $glibc" >&2; exit 1; }
mkdir -p "$1"
cp "$work"/*.whl "$1"
name=$(basename "$work"/*.whl)
cp "$work"/*.tar.gz "$1/${name%%-cp*}.tar.gz" # setuptools 66 writes the name with another mark
