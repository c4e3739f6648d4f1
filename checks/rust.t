#!/usr/bin/env bash
# The packages for Rust: their tests over the test vectors, with and without std, by other versions and
# on other targets, beside other crates; the packages as packed, and in place of upstream's; serde; lints; the format.
# shellcheck source=checks/lib/tap.sh
. "$(dirname "$0")/lib/tap.sh"
registry=/usr/share/cargo/registry
crates="$registry/serde_json-1.*"
# the version of Rust that a line of the manifest states
oldest() { sed -n "s/^$1 = \"\(.*\)\"/\1/p" bindings/rust/multihash/Cargo.toml; }
cargo="cargo rustc=$(oldest rust-version)+ $crates"
bare="$cargo rustc=$(oldest rust-version-without-std)+"
targets=$(rustc --print sysroot 2> /dev/null)/lib/rustlib || targets=/none

# Runs a command of Cargo for a package; what is set comes first. Without debug information it takes less time.
in_crate() {
  env -C "$work/bindings/rust/$1" CARGO_HOME="$work/cargo" CARGO_TARGET_DIR="$work/target" RUSTFLAGS="-D warnings" \
    RUSTDOCFLAGS="-D warnings" CARGO_PROFILE_DEV_DEBUG=0 CARGO_INCREMENTAL=0 "${@:2}"
}

# Runs tests of a package, of which there are some.
tests() { prints "test result: ok. " in_crate "$@"; }

# Runs the tests of each package; what is set comes first. In a build for debugging sums that overflow are errors.
all_tests() {
  tests verified-multihash "$@"
  tests multihash "$@"
}

# The tests pass, optimized too, and the pages have no warnings.
rust_tests() {
  in_crate verified-multihash cargo doc --no-deps --features serde
  in_crate multihash cargo doc --no-deps --features serde
  all_tests cargo test
  all_tests cargo test --features serde --release
}

# What is packed uses no repository, and the one is built over the other.
rust_packed() {
  local package packed=$work/packed
  "$work/bindings/rust/pack.sh" "$work"
  for package in verified-multihash multihash; do
    mkdir -p "$packed/$package"
    tar xf "$work/target/package/$package"-[0-9]*.crate -C "$packed/$package" --strip-components 1
    cmp LICENSE "$packed/$package/LICENSE"
    echo '[workspace]' >> "$packed/$package/Cargo.toml"
  done
  tests . cargo test --manifest-path "$packed/verified-multihash/Cargo.toml"
  printf '[patch.crates-io]\nverified-multihash = { path = "../verified-multihash" }\n' >> "$packed/multihash/Cargo.toml"
  in_crate . cargo build --manifest-path "$packed/multihash/Cargo.toml"
}

# The lines of the page replace upstream's package in the page's program. Without features the packages depend on nothing
# else.
rust_switch() {
  local page=bindings/rust/multihash/README.md program=$work/bindings/rust/program
  cargo init --quiet --vcs none "$program"
  echo 'multihash = { version = "0.19", features = ["serde-codec"] }' >> "$program/Cargo.toml"
  block_of $page toml | sed "s,path/of,$work," >> "$program/Cargo.toml"
  block_of $page rust > "$program/src/main.rs"
  in_crate program cargo run
  prints "($work/bindings/rust/multihash)" in_crate program cargo tree -i multihash
  in_crate multihash cargo tree -e no-dev --prefix none | sed 's/ v[0-9].*//' | diff - <(printf '%s\n' multihash verified-multihash)
  in_crate multihash cargo build --no-default-features --features serde-codec
}

rust_lints() {
  local package
  for package in verified-multihash multihash; do
    in_crate $package cargo clippy --all-targets --features serde
    in_crate $package cargo clippy --no-default-features --all-targets
  done
}

# The sources have the format of rustfmt.toml.
rust_format() {
  local package
  for package in verified-multihash multihash tests/neighbours; do in_crate $package cargo fmt --check; done
}

# without what Cargo made, which names other versions
tar -c --exclude=target --exclude=Cargo.lock LICENSE bindings/rust crates/vectors/data | tar -x -C "$work"
install -D bindings/rust/offline.toml "$work/cargo/config.toml"
needs=$cargo try "the tests" rust_tests
needs=$bare try "the tests without std" all_tests cargo test --no-default-features
needs=$bare try "the tests with alloc alone" all_tests cargo test --no-default-features --features alloc
needs="/usr/bin/cargo /usr/bin/rustc $crates" try "the tests with Debian's Rust" \
  all_tests PATH=/usr/bin:/bin CARGO_TARGET_DIR="$work/debian" cargo test --features serde
needs="$cargo $registry/cid-0.5* $registry/multihash-0.11*" try "beside other crates" \
  tests tests/neighbours cargo test
needs=$cargo try "the packed packages" rust_packed
needs=$bare try "the switch from upstream's package" rust_switch
needs="$bare cargo-clippy" try "lints" rust_lints
needs="$cargo cargo-fmt rustfmt" try "the format" rust_format
# with another byte order or word, by a linker and an emulator
for target in armv7-unknown-linux-gnueabihf s390x-unknown-linux-gnu; do
  system=${target/v7-unknown/} system=${system/-unknown/} variable=CARGO_TARGET_${target^^} variable=${variable//-/_}
  needs="$cargo $targets/$target/lib/libstd-*.rlib $system-gcc qemu-${system%%-*}" try "the tests on $target" \
    all_tests RUSTFLAGS="-C target-feature=+crt-static" "${variable}_LINKER=$system-gcc" \
    "${variable}_RUNNER=qemu-${system%%-*}" cargo test --target "$target" --tests
done
for target in thumbv6m-none-eabi wasm32-unknown-unknown; do
  needs="$bare $targets/$target/lib/libcore-*.rlib" try "a build for $target" \
    in_crate multihash cargo build --no-default-features --target $target
done
finish
