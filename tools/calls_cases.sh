#!/bin/sh
# Runs target/bin/calls on every case of tools/calls.py, from a file and in small chunks from a pipe, and compares what it prints with what
# tools/calls.py says. Build the program first: tools/program.sh calls.
set -eu
cd "$(dirname "$0")/.."
cases=$(mktemp -d)
trap 'rm -r "$cases"' EXIT
python3 tools/calls.py cases "$cases"
failed=0
count=0
for input in "$cases"/*.in; do
  name=$(basename "$input" .in)
  count=$((count + 1))
  target/bin/calls < "$input" > "$cases/got" || true
  cmp -s "$cases/got" "$cases/$name.out" || { echo "$name: differs"; failed=1; }
  dd if="$input" bs=7 2> /dev/null | target/bin/calls > "$cases/got" || true
  cmp -s "$cases/got" "$cases/$name.out" || { echo "$name in small chunks: differs"; failed=1; }
done
# an answer comes before the input ends
mkfifo "$cases/pipe"
target/bin/calls < "$cases/pipe" > "$cases/got" &
exec 3> "$cases/pipe"
printf 'a 7 10\nl\n' >&3
for _ in 1 2 3 4 5 6 7 8 9 10; do
  [ "$(wc -l < "$cases/got")" -eq 2 ] && break
  sleep 0.2
done
[ "$(cat "$cases/got")" = "$(printf 'new\nlist 7:10')" ] || { echo "answers wait for the end of the input"; failed=1; }
exec 3>&-
wait
[ "$failed" -eq 0 ] && echo "$count cases agree"
exit "$failed"
