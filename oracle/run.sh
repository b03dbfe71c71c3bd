#!/bin/sh
# Runs the comparison with the Rust crate, all of it from nothing: fetches by apt-get what is missing, builds the crate,
# the port's static library (bindings/library.sh), the driver and, where its argument says so, the calls program. Nothing is
# written to the repository outside target/ and oracle/debs/, save by the arguments bench and sample.
#
#   oracle/run.sh [quick|full] [SEED]    the driver's own tests, the confirmed differences, the mixes of EntryValues, the
#                                        stored sample and damaged records; then lists of calls, and images (quick without
#                                        an argument)
#   oracle/run.sh calls [SEED]           the calls program beside the same lines over the crate
#   oracle/run.sh bench                  the time of each call, with a chart to docs/benchmarks.svg; then of the calls program
#   oracle/run.sh sample                 write the sample of the crate's answers anew: its part of crates/stored_lists/stdin and stdout
#
# ORACLE_SOURCE names list_ordered_multimap.rs where it does not stand beside the work tree (oracle/build.sh).
# ORACLE_WITHOUT_PORT=1 leaves the port out, so that rt is not needed: then the documents' steps are compared with the crate
# alone, and there are no damaged records, images and times.
set -eu

root=$(cd "$(dirname "$0")/.." && pwd)
cd "$root"

missing=
command -v rustc >/dev/null || missing="$missing rustc"
command -v cc >/dev/null || missing="$missing gcc libc6-dev"
if [ -n "$missing" ] || ! ls oracle/debs/*.deb >/dev/null 2>&1; then
    apt-get -q update || echo "apt-get update failed; going on with the lists that are there"
fi
if [ -n "$missing" ]; then
    # the words of $missing are package names
    # shellcheck disable=SC2086
    apt-get -q install -y --no-install-recommends $missing
fi

oracle/build.sh

if [ -z "${ORACLE_WITHOUT_PORT:-}" ]; then
    unset ORACLE_WITHOUT_PORT
    bindings/library.sh
    port="-L native=target/bindings -l static=prelgammo"
else
    port="--cfg without_port"
fi
# the words of $port are arguments
# shellcheck disable=SC2086
rustc --edition 2021 -O --crate-name driver -L dependency=target/oracle $port \
    --extern ordered_multimap=target/oracle/libordered_multimap.rlib -o target/oracle/driver oracle/driver/main.rs

[ $# -gt 0 ] || set -- quick
case $1 in
quick | full)
    target/oracle/driver selftest
    target/oracle/driver faults
    target/oracle/driver mixes
    target/oracle/driver sample
    [ -n "${ORACLE_WITHOUT_PORT:-}" ] || target/oracle/driver damage
    target/oracle/driver "$@"
    ;;
calls)
    tools/program.sh calls
    target/oracle/driver "$@"
    ;;
bench)
    tools/program.sh calls
    rustc --version
    target/oracle/driver bench
    echo
    target/oracle/driver calls
    ;;
sample)
    target/oracle/driver sample write
    ;;
*)
    target/oracle/driver "$@"
    ;;
esac
