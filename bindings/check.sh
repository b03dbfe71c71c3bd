#!/bin/sh
# All tests of the bindings: bindings/test.sh, and the package beside the crate (bindings/migration/run.sh), which needs
# the crate's source (oracle/build.sh). The library is proved and built once (bindings/library.sh).
set -eu

cd "$(dirname "$0")/.."
bindings/test.sh
PRELGAMMO_STATICLIB=$PWD/target/bindings/libprelgammo.a bindings/migration/run.sh
