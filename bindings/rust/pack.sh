#!/usr/bin/env bash
# Packs the packages, with the licence, into WORK/target/package.
#
#   bindings/rust/pack.sh WORK
set -euo pipefail
[[ $# = 1 && $1 != -* ]] || { sed -n '2,/^[^#]/s/^# \{0,1\}//p' "${BASH_SOURCE[0]}" >&2; exit 2; }
target=$(readlink -f "$1")/target
cd "$(dirname "$(readlink -f "$0")")"
# Some versions of Cargo add a lock file, unless they are told not to.
lock=$(cargo package --help | grep -om1 -e --exclude-lockfile || true)
for package in verified-multihash multihash; do
  cp ../../LICENSE $package
  # shellcheck disable=SC2086 # no word or one
  env -C $package cargo --config ../offline.toml package --target-dir "$target" --allow-dirty --no-verify $lock
done
