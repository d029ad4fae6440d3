#!/bin/sh
# Times decode, encode and View::of on FLOW_MODs of 80 bytes, beside a plain decoder and encoder in C that it builds.
# Usage: bench/messages.sh [COUNT]
set -eu
home=$(cd "$(dirname "$0")/.." && pwd)
count=${1:-1000000}
folder=$(mktemp -d)
trap 'rm -rf "$folder"' EXIT
${CC:-cc} -O2 -o "$folder/flow_mods" "$home/bench/flow_mods.c"
(cd "$home/crates/sts_bench" && rt run -- messages "$count")
"$folder/flow_mods" "$count"
