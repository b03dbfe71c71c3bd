#!/bin/sh
# Puts libprelgammo.a to target/bindings: the one that PRELGAMMO_STATICLIB names, or else what `rt lib` proves and builds of the crate
# prelgammo_c, which has every exported function, and of the crates below it. What an earlier `rt check` or `rt lib` has proved of
# the same files is not proved again. The archive also defines the symbol that its layout and signatures name
# (tools/declarations.py), to which the package and the C header refer.
set -eu

cd "$(dirname "$0")/.."
out=$PWD/target/bindings
mkdir -p "$out"

if [ -n "${PRELGAMMO_STATICLIB:-}" ]; then
    cp -p "$PRELGAMMO_STATICLIB" "$out/libprelgammo.a.new"
else
    (cd crates/prelgammo_c && rt lib) >"$out/library.said" 2>&1 || {
        cat "$out/library.said" >&2
        exit 1
    }
    tail -n 1 "$out/library.said"
    symbol=$(tools/declarations.py --symbol)
    echo "const unsigned char $symbol = 0;" >"$out/layout.c"
    cc -c -o "$out/layout.o" "$out/layout.c"
    cp crates/prelgammo_c/out/libprelgammo_c.a "$out/libprelgammo.a.new"
    ar rs "$out/libprelgammo.a.new" "$out/layout.o"
fi
mv "$out/libprelgammo.a.new" "$out/libprelgammo.a"
