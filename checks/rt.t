#!/usr/bin/env bash
# 'rt ci': proves every crate and its tests, rejects the edits that must fail, runs tests and programs. Each crate of
# crates.txt passes, and each edit. Then mh_show by its rows, and allocations that fail, in the programs that it built.
# shellcheck source=checks/lib/tap.sh
. "$(dirname "$0")/lib/tap.sh"

passes() {
  local all
  # Each proof has one job: a second one reads the libraries once more, which costs CPU time and saves few minutes.
  RT_JOBS=$(nproc) rt ci < /dev/null 2>&1 | tee "$work/out"
  all=$(cat <(grep '^[a-z]' crates.txt) <(ls crates/*/must-fail/*.edit) | wc -l)
  tail -n 1 "$work/out" | diff - <(echo "$all passed, 0 failed")
}

# Another kit than rattle-kit-13f proves the same, if its logic is the same.
is_same_logic() { rt version | grep -F " logic dac8208d650f15bf"; }

# Each allocation of a command fails in turn, until it makes fewer, at most `$1`. It prints a line, `$2`, and frees all.
each_fails() {
  local number asked live
  for ((number = 1; ; number++)); do
    FAIL=$number LD_PRELOAD=$work/memory.so "${@:3}" > "$work/shown" 2>&1 9> "$work/counts" || true
    read -r asked live < "$work/counts"
    [ "$live" = 0 ]
    ((number <= asked)) || break
    grep -Fx "$2" "$work/shown"
  done
  [ "$asked" -le "$1" ]
}
# The tests that are named so, and mh_show, on what it shows and what it rejects. Memory grows with the bytes that arrive,
# not with the length that is claimed: a block of 16,384 bytes is seven allocations.
memory() {
  local crate name most text
  cc -shared -fPIC checks/lib/memory.c -o "$work/memory.so"
  ulimit -t 60
  for crate in tests mh_show; do
    crates/$crate/out/${crate}_tests --list | sed -n 's/: test$//p' | grep -E 'allocating_|_no_memory' > "$work/$crate"
    while read -r name; do
      case $name in *no_memory) most=0 ;; *claimed_length) most=7 ;; *) most=99 ;; esac
      each_fails $most 'error: "an allocation failed"' "crates/$crate/out/${crate}_tests" "$name"
    done < "$work/$crate"
  done
  for text in "$(< crates/mh_show/stdin)" 0041 0; do
    each_fails 99 "mh_show: out of memory" crates/mh_show/out/mh_show <<< "$text"
  done
  each_fails 99 "mh_show: out of memory" crates/mh_show/out/mh_show < /
}

try "rt ci" passes
try "the logic" is_same_logic
try "mh_show" crates/mh_show/rows.py crates/mh_show/out/mh_show
try "failing allocations" memory
finish
