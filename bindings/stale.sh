#!/bin/sh
# Shows that an archive of another layout links neither with a C program nor with the Rust package: the archive at hand with
# another symbol in the place of its own.
set -eu

cd "$(dirname "$0")/.."
bindings/library.sh
out=$PWD/target/bindings/stale
stale=$out/libprelgammo.a
mkdir -p "$out"
cp target/bindings/libprelgammo.a "$stale"
echo 'const unsigned char prelgammo_layout_0000000000000000 = 0;' >"$out/layout.c"
cc -c -o "$out/layout.o" "$out/layout.c"
ar rs "$stale" "$out/layout.o"

# Runs a command that must fail, for want of the symbol.
refused() {
    if "$@" >"$out/said" 2>&1; then
        echo "an archive of another layout links: $*" >&2
        exit 1
    fi
    grep -q 'undefined .*prelgammo_layout_' "$out/said" || {
        cat "$out/said" >&2
        exit 1
    }
}

package() {
    PRELGAMMO_STATICLIB=$stale cargo build -q --offline --manifest-path bindings/rust/Cargo.toml --target-dir "$out/cargo" \
        --example club "$@"
}

refused cc -std=c11 -O0 -o "$out/example" bindings/c/example.c "$stale"
refused cc -std=c11 -O2 -o "$out/example" bindings/c/example.c "$stale"
refused g++ -std=c++17 -O2 -x c++ -o "$out/example" bindings/c/example.c -x none "$stale"
refused package
refused package --release
echo "an archive of another layout does not link"
