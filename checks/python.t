#!/usr/bin/env bash
# Builds the sdist and the wheel of the package for Python, installs the wheel into a new virtual environment, and runs
# all tests there: with the debug allocator, and, from the sdist, under sanitizers; types. /usr/bin/python3 has headers,
# _testcapi, build, setuptools, venv and wheel.
# shellcheck source=checks/lib/tap.sh
. "$(dirname "$0")/lib/tap.sh"
here=$PWD/bindings/python python=$work/venv/bin/python
require cc /usr/bin/python3 /usr/include/python3*/Python.h python:{_testcapi,build,ensurepip,setuptools,wheel}
export MULTIHASH_VERDICTS=$PWD/crates/vectors/data/verdicts.tsv

installs() {
  "$python" -m pip install --quiet --disable-pip-version-check --no-index --no-build-isolation --force-reinstall "$1"
}
# The module has no warnings. What is installed has the licence, and is imported from the environment.
wheel() {
  CC="cc -std=c89 -Wall -Wextra -Wshadow -Wconversion -Wsign-conversion -Werror" "$here/pack.sh" "$work/dist"
  /usr/bin/python3 -m venv --system-site-packages "$work/venv"
  installs "$work"/dist/*.whl
  cmp LICENSE "$work"/venv/lib/*/site-packages/verified_multihash-*/LICENSE
  cd "$work"
  "$python" -c 'import verified_multihash as found; print(found.__file__)' | grep "^$work/venv/"
}

# The tests of a folder over what is installed, with variables. No process may take more than that CPU time.
unit_tests() {
  cd "$work"
  ulimit -t 600
  prints "Ran " env "${@:2}" "$python" -m unittest discover -s "$1"
}

# The sdist is all that is needed; the interpreter loads the sanitizers first.
sdist_under_sanitizers() {
  mkdir "$work/sdist"
  tar xf "$work"/dist/*.tar.gz -C "$work/sdist" --strip-components=1
  CFLAGS="-g -O1 -fsanitize=address,undefined -fno-sanitize-recover=all" installs "$work/sdist"
  unit_tests "$work/sdist/tests" LD_PRELOAD="$(cc -print-file-name=libasan.so) $(cc -print-file-name=libubsan.so)" \
    ASAN_OPTIONS=detect_leaks=0:allocator_may_return_null=1 PYTHONMALLOC=malloc
}

# The package is typed, and the module has the names of its stub. mypy accepts typed.py.
types() {
  local strict=(mypy --strict --cache-dir "$work/mypy" --python-executable "$python")
  cd "$work"
  "${strict[@]}" -p verified_multihash
  "${strict[@]}" --disallow-any-explicit -m verified_multihash -m verified_multihash._core
  PYTHONPATH=$(echo "$work"/venv/lib/*/site-packages) stubtest verified_multihash._core
  "${strict[@]}" "$here/tests/typed.py"
}

ONLY='' try "the wheel, installed" wheel
try "the tests" unit_tests "$here/tests" PYTHONMALLOC=debug # which sees a write after a block
needs="mypy stubtest" try "types" types
try "the sdist, under sanitizers" sdist_under_sanitizers
finish
