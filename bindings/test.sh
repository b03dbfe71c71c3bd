#!/bin/sh
# The tests of the bindings that need no more than rt, cargo, cc, g++ and python3: the Rust package's, its example that saves
# a club, the C programs, and that an archive of another layout does not link. The library is proved and built once
# (bindings/library.sh). `.ci/run` runs them.
set -eu

cd "$(dirname "$0")/.."
tools/declarations.py --check
bindings/library.sh
PRELGAMMO_STATICLIB=$PWD/target/bindings/libprelgammo.a
export PRELGAMMO_STATICLIB
cargo test -q --offline --manifest-path bindings/rust/Cargo.toml --target-dir target/bindings/cargo
cargo run -q --offline --manifest-path bindings/rust/Cargo.toml --target-dir target/bindings/cargo --example saved_club |
    diff bindings/rust/examples/saved_club.out -
bindings/c/check.sh
bindings/stale.sh
