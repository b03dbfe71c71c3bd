#!/bin/sh
# Proves and builds a program of crates/, and puts it to target/bin: tools/program.sh NAME. It is run on the crate's stdin, if it has
# one, and must print what its stdout holds. What an earlier `rt check` or `rt run` has proved of the same files is not proved again.
set -eu

name=$1
cd "$(dirname "$0")/.."
crate=$PWD/crates/$name
out=$PWD/target/bin
mkdir -p "$out"
given=$crate/stdin
[ -f "$given" ] || given=/dev/null
(cd "$crate" && rt run <"$given") >"$out/$name.stdout" 2>"$out/$name.said" || {
    cat "$out/$name.said" >&2
    exit 1
}
cmp "$out/$name.stdout" "$crate/stdout"
cp "$crate/out/$name" "$out/$name"
echo "built target/bin/$name"
