#!/bin/sh
# Builds the Rust crate that the port is compared with: list_ordered_multimap.rs of ordered-multimap 0.7.3 as published,
# over Debian's dlv-list and hashbrown, as target/oracle/libordered_multimap.rlib. Nothing is written outside target/ and
# oracle/debs/, which keeps what was fetched. ORACLE_SOURCE names the source file where it does
# not stand beside the work tree. The file may end with an attribute of something that is not in it, or without.
set -eu

root=$(cd "$(dirname "$0")/.." && pwd)
out=$root/target/oracle
debs=$root/oracle/debs
source=${ORACLE_SOURCE:-$root/../shared/docs/src/src/list_ordered_multimap.rs}
# of the file up to its last brace
source_sha256=16956dbab84f5c0683996543c31ca8f9d31fc711e8a3729bfafad5b4af1f79aa

die() {
    echo "oracle/build.sh: $*" >&2
    exit 1
}

has_sha256() {
    [ -f "$1" ] && echo "$2  $1" | sha256sum --check --status -
}

# Unpacks the package of this name, version and checksum to target/oracle/packages.
unpack() {
    deb=$debs/$1_$2_amd64.deb
    if ! has_sha256 "$deb" "$3"; then
        rm -f "$deb"
        (cd "$debs" && apt-get -q -o APT::Sandbox::User=root download "$1=$2") ||
            die "apt-get does not give version $2 of $1: has 'apt-get update' been run, and is this Debian 12 on amd64?"
        has_sha256 "$deb" "$3" || die "$1 $2 came with another sha256 than $3"
    fi
    dpkg -x "$deb" "$out/packages"
}

# The file up to its last brace: without the attribute after it, and without empty lines.
up_to_last_brace() {
    awk '{ line[NR] = $0 }
        END {
            last = NR
            if (line[last] == "#[allow(unused_results)]") last--
            while (last > 0 && line[last] == "") last--
            for (at = 1; at <= last; at++) print line[at]
        }' "$1"
}

library() {
    rustc -O --crate-type rlib --cap-lints allow --remap-path-prefix "$out/src=src" -L "dependency=$out" --out-dir "$out" "$@"
}

[ -f "$source" ] || die "$source is missing; ORACLE_SOURCE may name the file"
mkdir -p "$debs" "$out/src"
up_to_last_brace "$source" >"$out/src/list_ordered_multimap.rs"
has_sha256 "$out/src/list_ordered_multimap.rs" "$source_sha256" ||
    die "$source is not as published: up to its last brace it has another sha256 than $source_sha256"

rm -rf "$out/packages"
unpack librust-dlv-list-dev 0.3.0-1 d90f69dc27770b6651692f31e9b069dfd4e81c99fcd676258a382703285e0f9d
unpack librust-hashbrown-dev 0.12.3-1 86ca499697497d825a2e76f43648ad2d49cc65763964ff234ce32c4fc862f55f

cat >"$out/src/lib.rs" <<'END'
extern crate alloc;
pub mod list_ordered_multimap;
pub use list_ordered_multimap::ListOrderedMultimap;
END

registry=$out/packages/usr/share/cargo/registry
library --edition 2018 --crate-name dlv_list "$registry/dlv-list-0.3.0/src/lib.rs"
library --edition 2021 --crate-name hashbrown --cfg 'feature="inline-more"' "$registry/hashbrown-0.12.3/src/lib.rs"
library --edition 2021 --crate-name ordered_multimap --cfg 'feature="std"' \
    --extern "dlv_list=$out/libdlv_list.rlib" --extern "hashbrown=$out/libhashbrown.rlib" "$out/src/lib.rs"
echo "built target/oracle/libordered_multimap.rlib"
