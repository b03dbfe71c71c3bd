#!/bin/sh
# Times the Rust package beside the crate. ORACLE_SOURCE names the crate's source where it does not stand beside the
# work tree (oracle/build.sh). Nothing is written outside target/ and oracle/debs/.
set -eu

cd "$(dirname "$0")/../.."
out=target/bindings
oracle/build.sh
bindings/library.sh
rustc --edition 2021 -O --crate-type rlib --crate-name prelgammo -L "native=$out" -l static=prelgammo --out-dir "$out" \
    bindings/rust/src/lib.rs
rustc --edition 2021 -O --crate-name bench -L dependency=target/oracle --extern "prelgammo=$out/libprelgammo.rlib" \
    --extern ordered_multimap=target/oracle/libordered_multimap.rlib -o "$out/bench" bindings/bench/main.rs
"$out/bench"
