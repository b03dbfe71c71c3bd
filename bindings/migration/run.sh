#!/bin/sh
# Runs the two programs of docs/MIGRATION.md, the crate's and the package's, and shows that they print the same; and
# that the page has them as they are. Then makes calls on a map of the package and one of the crate (beside.rs).
# ORACLE_SOURCE names the crate's source where it does not stand beside the work tree (oracle/build.sh). Nothing is
# written outside target/, oracle/debs/ and bindings/rust/target/.
set -eu

cd "$(dirname "$0")/../.."
out=target/bindings
oracle/build.sh
bindings/library.sh

# The first or the second program on the page.
on_page() {
    awk -v nth="$1" '/^```rust$/ { n++; on = 1; next } /^```$/ { on = 0 } on && n == nth' docs/MIGRATION.md
}

on_page 1 | diff - bindings/migration/club.rs
on_page 2 | diff - bindings/rust/examples/club.rs

rustc --edition 2021 -O -L dependency=target/oracle --extern ordered_multimap=target/oracle/libordered_multimap.rlib \
    -o "$out/club" bindings/migration/club.rs
"$out/club" >"$out/club.crate"
PRELGAMMO_STATICLIB=$PWD/$out/libprelgammo.a cargo run -q --offline --manifest-path bindings/rust/Cargo.toml \
    --example club >"$out/club.package"
cat "$out/club.package"
diff "$out/club.crate" "$out/club.package"
echo "both programs print the same $(wc -l <"$out/club.crate") lines"

rustc --edition 2021 -O --crate-type rlib --crate-name prelgammo -L "native=$out" -l static=prelgammo --out-dir "$out" \
    bindings/rust/src/lib.rs
rustc --edition 2021 -O -L dependency=target/oracle --extern "prelgammo=$out/libprelgammo.rlib" \
    --extern ordered_multimap=target/oracle/libordered_multimap.rlib -o "$out/beside" bindings/migration/beside.rs
"$out/beside"
