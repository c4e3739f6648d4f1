#!/usr/bin/env bash
# Checks the scripts of the repository with shellcheck, black, pyflakes, mypy and tsc, and the source in C with
# clang-format, and compares the generated files with what tools/generate makes.
# shellcheck source=checks/lib/tap.sh
. "$(dirname "$0")/lib/tap.sh"

listed() { git ls-files -co --exclude-standard "$@"; }
# Prints the paths of the scripts in a language, by their first lines.
scripts() { git grep --no-color -lIE --untracked "$1" | sort; }

shell=$(scripts '^(#! ?/.*\b(ba)?sh|# shellcheck shell=bash)$')
python=$({ listed '*.py'; scripts '^#!.*python'; } | sort -u)
# All but the tests of the package for Python have types.
typed=$(grep -v '^bindings/python/tests/' <<< "$python")

c=$(listed bindings/c bindings/python/src | grep -E '\.([ch]|[ch]pp)$' | grep -v _names) # the names are generated

# Errors of syntax, of names that are unknown or not used, and of code that is not reached: JavaScript states no types.
names() {
  { tsc --noEmit --allowJs --checkJs --target es2022 --module es2022 --moduleResolution node --noUnusedLocals \
    --noFallthroughCasesInSwitch --allowUnreachableCode false "$@" || true; } |
    sed -nE '/error TS([18][0-9]{3}|18004|230[45]|2448|2451|2552|6133|7027|7029):/p' | diff /dev/null -
}

export MYPY_CACHE_DIR=$work/mypy
# shellcheck disable=SC2046,SC2086 # no path has a blank
{
  needs=shellcheck try shellcheck shellcheck -x -o check-set-e-suppressed $shell
  needs=black try black black --check --line-length 120 $python
  needs=pyflakes3 try pyflakes3 pyflakes3 $python
  needs=mypy try mypy mypy --strict --warn-unreachable --scripts-are-modules --ignore-missing-imports $typed
  needs=clang-format try clang-format clang-format --dry-run -Werror $c
  needs=tsc try names names $(listed '*.js' '*.ts')
}
for what in contracts vectors tables chart; do try "tools/generate $what" tools/generate "$what" --check; done
finish
