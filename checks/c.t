#!/usr/bin/env bash
# Tests the library for C. CMake builds it and its tests by several compilers, with sanitizers, and for other machines.
# Then come its headers, what is installed, and programs and projects that use it, also in other languages.
# shellcheck disable=SC2086 # flags are words
# shellcheck source=checks/lib/tap.sh
. "$(dirname "$0")/lib/tap.sh"
require cc cmake python3 pkg-config
top=$PWD c=$PWD/bindings/c prefix="$work/a #prefix's" # whose name is no word of a shell
warnings="-Wall -Wextra -Wpedantic -Wconversion -Wsign-conversion -Wshadow -Wcast-qual -Werror"
san="-g -O1 -fsanitize=address,undefined -fno-sanitize-recover=all"
strict="-std=c11 $warnings -Wstrict-prototypes -Wmissing-prototypes"
runtime=$(clang --rtlib=compiler-rt -print-libgcc-file-name 2> /dev/null || true) # what Clang needs for sanitizers
unset "${!CMAKE_@}"

# Builds all in a folder, with flags of the compilers and options of CMake, and runs the tests.
build() {
  cmake -S . -B "$work/$1" -DCMAKE_C_FLAGS="$strict $2" -DCMAKE_CXX_FLAGS="$warnings $2" "${@:3}"
  cmake --build "$work/$1"
  ctest --no-tests=error --output-on-failure --test-dir "$work/$1"
}
# The same for another machine: its name, the command that runs its programs, and its system.
on_machine() {
  local -x CXX=none WINEPREFIX=$work/wine WINEDEBUG=-all
  build "$1" "" -DCMAKE_C_COMPILER="$1-gcc" -DCMAKE_CROSSCOMPILING_EMULATOR="$2" -DCMAKE_SYSTEM_NAME="${3-Linux}" \
    -DMULTIHASH_C_SHARED=OFF -DCMAKE_EXE_LINKER_FLAGS=-static
  [ "$2" != wine ] || wineserver -k || true
}

# Compiles each header as C and as C++, by the oldest and the newest standard, after multihash.h, which it needs.
headers() {
  local header standard
  for header in "$c"/include/*.h; do
    for standard in "c -std=c99" "c++ -Wold-style-cast -std=c++11" "c++ -Wold-style-cast -std=c++20"; do
      "$1" -x $standard $warnings -fsyntax-only -include "$c"/include/multihash.h -include "$header" /dev/null
    done
  done
  "$1" -x c++ -Wold-style-cast -std=c++17 $warnings -fsyntax-only -include "$c/include/multihash.hpp" /dev/null
}

# A program is built as the page says, with each library. The shell reads what pkg-config escapes.
installs() {
  local option
  local -x PKG_CONFIG_PATH=$prefix/lib/pkgconfig LD_LIBRARY_PATH=$prefix/lib
  cmake --install "$work/cc"
  pkg-config --validate multihash_c
  eval "set -- $(pkg-config --cflags --libs multihash_c)"
  for option in -O2 -static; do
    cc -std=c11 $option "$prefix/share/doc/multihash_c/examples/mh_show.c" "$@" -o "$work/shows"
    "$work/shows" < crates/mh_show/stdin | diff - crates/mh_show/stdout
  done
}

# A project of CMake, which ends with the lines of the standard input. Further words are options.
in_project() {
  local to=$work/$1
  mkdir "$to"
  { grep ^cmake_minimum_required CMakeLists.txt; echo 'project(example VERSION 7 LANGUAGES C)'
    echo "add_executable(program $c/examples/mh_show.c)"; cat; } > "$to/CMakeLists.txt"
  cmake -S "$to" -B "$to/build" "${@:2}"
  cmake --build "$to/build"
  "$to/build/program" < crates/mh_show/stdin | diff - crates/mh_show/stdout
}
# As the page says, over what find_package finds, and with the repository as a part: it installs nothing unless told, and
# exports its functions even where a project hides them.
in_projects() {
  block_of bindings/c/README.md cmake | in_project finds "-DCMAKE_PREFIX_PATH=$prefix"
  sed -n '/^include(FetchContent)/,/^```/p' bindings/c/README.md |
    sed "/^\`/d; s|URL [^ )]*|SOURCE_DIR \"$top\"|; s/::static/::shared/" |
    in_project parent -DCMAKE_C_VISIBILITY_PRESET=hidden -DCMAKE_INSTALL_PREFIX="$work/parent/prefix"
  cmake --install "$work/parent/build"
  [ ! -e "$work/parent/prefix" ]
}

# The program of the page in C++, and the example in Go. cgo takes no prefix with a blank.
page_programs() {
  local -x PKG_CONFIG_PATH=$work/plain/lib/pkgconfig LD_LIBRARY_PATH=$work/plain/lib GOCACHE=$work/go.cache
  cmake --install "$work/cc" --prefix "$work/plain"
  cp "$c/examples/hello.go" "$work/plain"
  block_of bindings/c/README.md cpp > "$work/count.cpp"
  cd "$work/plain"
  # shellcheck disable=SC2046 # words
  c++ -std=c++17 $warnings ../count.cpp $(pkg-config --cflags --libs multihash_c) -o count
  printf '\22\1a\0\5hello\22\1a' | ./count | diff <(printf '%s\n' '1 identity 000568656c6c6f' '2 sha2-256 120161') -
  echo 'module example' > go.mod
  go run . | diff <(echo 'code 18, digest abc') -
}
# The examples: the reader of a file, also where a multihash is cut where a part of the file ends, and the one that hashes.
examples() {
  local hex
  cc $strict $san -I "$c/include" "$c"/{examples/lengths,src/multihash}.c -o "$work/lengths"
  { printf '\0\5hello%.0s' {1..1001}; printf '\22\1a%.0s' {1..40000}; } | "$work/lengths" | uniq -c |
    diff <(printf '%7d %s\n' 1001 'identity 5' 40000 'sha2-256 1') -
  { printf '\0\5hello\22\3ab' | "$work/lengths" 2>&1 || true; } | grep "2 of 3 bytes)$"
  cc $strict $san -I "$c/include" "$c"/{examples/verify,src/multihash}.c -lcrypto -o "$work/verify"
  hex=1220$(head -c 4097 "$c/src/multihash.c" | sha256sum | cut -c -64)
  prints "the same" "$work/verify" "$hex" < <(head -c 4097 "$c/src/multihash.c")
  { head -c 4096 "$c/src/multihash.c" | "$work/verify" "$hex" || true; } | grep "another content"
}

# The example in Ruby, over the C files.
ruby_example() {
  cc -O2 -shared -fPIC -I "$c/include" "$c"/src/*.c -o "$work/libmultihash_c.so"
  cd "$work"
  ruby "$c/examples/show.rb" | diff <(printf '%s\n' 'sha2-256, digest abc' 'the input ends inside the digest (2 of 3 bytes)') -
}

# Objects for machines without a C library, and for macOS and MSVC's mode of Clang without their headers. All that they
# need are the functions that the page names, and what linkers make.
freestanding() {
  local target file
  for target in arm64-apple-macos11 wasm32-unknown-unknown thumbv7em-none-eabi riscv32-unknown-elf \
    x86_64-pc-windows-msvc; do
    for file in multihash multihash_cid multihash_frame; do
      clang --target=$target $strict -O2 -ffreestanding -nostdlibinc -I "$c/include" -c "$c/src/$file.c" -o "$work/free.o"
      llvm-nm --undefined-only -j "$work/free.o" | sed -E 's/^_*//; /^(multihash_|stack_(chk_fail|chk_guard|pointer)$)/d' |
        sort | comm -23 - <(printf "%s\n" aeabi_memclr8 memcmp memcpy memset) | diff /dev/null -
    done
  done
}

ONLY='' try "cc" build cc "" -DCMAKE_INSTALL_PREFIX="$prefix"
try "cc, sanitizers" build cc-san "$san" -DCMAKE_BUILD_TYPE=None -DCMAKE_CXX_STANDARD=20
needs=c++ try "cc, headers" headers cc
needs="clang++ $runtime" try "clang, sanitizers" build clang-san "$san" -DCMAKE_BUILD_TYPE=None -DCMAKE_C_COMPILER=clang \
  -DCMAKE_CXX_COMPILER=clang++ -DCMAKE_CXX_STANDARD=20
CXX=none needs="clang $runtime" try "clang, memory sanitizer" build clang-memory "-g -O1 -fsanitize=memory" \
  -DCMAKE_BUILD_TYPE=None -DCMAKE_C_COMPILER=clang
needs="clang" try "clang, headers" headers clang
needs="clang llvm-nm" try "objects without a C library" freestanding
for machine in "i686-linux-gnu qemu-i386" "arm-linux-gnueabihf qemu-arm" "aarch64-linux-gnu qemu-aarch64" \
  "s390x-linux-gnu qemu-s390x"; do # the last is big-endian
  needs=${machine/ /-gcc } try "$machine" on_machine $machine
done
needs="--all riscv64-linux-gnu-gcc qemu-riscv64" try "riscv64" on_machine riscv64-linux-gnu qemu-riscv64
needs="x86_64-w64-mingw32-gcc wine" try "Windows" on_machine x86_64-w64-mingw32 wine Windows
ONLY='' try "installing" installs
needs=mandoc try "man pages" mandoc -T lint "$prefix"/share/man/man{3/multihash.3,1/mh_show.1}
try "projects of CMake" in_projects
needs="c++ go" try "programs in C++ and Go" page_programs
needs=ruby try "the example in Ruby" ruby_example
needs=luajit try "other languages" luajit "$c"/{tests/ffi.lua,include/multihash_ffi.h} "$work/cc/libmultihash_c.so"
needs=/usr/include/openssl/evp.h try "the examples" examples
finish
