#!/bin/sh
# Times look-ups in a flow table of 1,024 entries and packets through a switch with 16, beside a plain scan in C that it
# builds. Both programs run by turns; what is printed are the medians of their runs.
# Usage: bench/tables.sh [COUNT [RUNS]]
set -eu
home=$(cd "$(dirname "$0")/.." && pwd)
count=${1:-1000000}
runs=${2:-5}
folder=$(mktemp -d)
trap 'rm -rf "$folder"' EXIT
${CC:-cc} -O2 -o "$folder/flow_tables" "$home/bench/flow_tables.c"
(cd "$home/crates/sts_bench" && rt run -- tables 1 >"$folder/built" 2>&1) || { cat "$folder/built" >&2; exit 1; }
run=0
while [ "$run" -lt "$runs" ]; do
  "$home/crates/sts_bench/out/sts_bench" tables "$count" 2>>"$folder/figures" >>"$folder/sums"
  "$folder/flow_tables" "$count" 2>>"$folder/figures" >>"$folder/sums"
  run=$((run + 1))
done
# a line "PROGRAM: WHAT: NANOSECONDS ns each" of every run: one line for its median
sort -t: -k1,2 -k3,3n "$folder/figures" | awk -F': ' '
  function put() { if (runs > 0) printf "%s: %.1f ns each\n", name, (times[int((runs + 1) / 2)] + times[int((runs + 2) / 2)]) / 2 }
  $1 ": " $2 != name { put(); name = $1 ": " $2; runs = 0 }
  { times[++runs] = $3 + 0 }
  END { put() }'
# both have to find the same
sums=$(sed 's/^[^:]*: //' "$folder/sums" | sort -u)
printf '%s\n' "$sums"
[ "$(printf '%s\n' "$sums" | wc -l)" -eq 1 ] || { echo "the two programs found other entries" >&2; exit 1; }
