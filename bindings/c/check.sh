#!/bin/sh
# Compiles the C example and bounds.c against the header as C11 and as C++17, runs them and compares what the example prints with
# example.out; holds the stack that calls take to what the header says (stack.c); and shows that older compilers are told what the
# header needs.
set -eu

here=$(cd "$(dirname "$0")" && pwd)
"$here/../library.sh"
out=$here/../../target/bindings
strict='-Wall -Wextra -Wpedantic -Wredundant-decls -Werror -O2'

# Compiles a program by a command and its words, and links it.
built() {
    program=$1
    shift
    # the words of $strict are options
    # shellcheck disable=SC2086
    "$@" $strict -o "$out/$program" "$here/$program.c" -x none "$out/libprelgammo.a"
}

runs() {
    built example "$@"
    "$out/example" >"$out/example.out"
    diff "$here/example.out" "$out/example.out"
    built bounds "$@"
    "$out/bounds"
}

# Compiles by a command that is too old for the header.
too_old() {
    if "$@" -fsyntax-only "$here/example.c" >"$out/said" 2>&1 || ! grep -q 'prelgammo.h needs C11' "$out/said"; then
        echo "$*: the header does not say that it needs C11" >&2
        exit 1
    fi
}

runs cc -std=c11
runs g++ -std=c++17 -x c++
built stack cc -std=c11 -pthread
"$out/stack" >"$out/stack.out" || {
    cat "$out/stack.out" >&2
    exit 1
}
too_old cc -std=c99
too_old g++ -std=c++98 -x c++
echo "the C example prints what it should, as C11 and as C++17"
