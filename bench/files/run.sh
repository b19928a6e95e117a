#!/bin/bash
# Times `Files` beside a loop in C, in one run: 4 KiB and 64 KiB writes, each synced.
# Usage: bench/files/run.sh [COUNT]. It makes its shelf in a new folder, which it removes.
set -euo pipefail
count=${1:-1000}
top=$(cd "$(dirname "$0")/../.." && pwd)
(cd "$top/crates/storage_bench" && rt run > /dev/null)
program=$top/crates/storage_bench/out/storage_bench
place=$(mktemp -d "${BENCH_FOLDER:-$top/crates/storage_bench/out}/bench.XXXXXX")
trap 'rm -rf "$place"' EXIT
cc -O2 -o "$place/loop" "$top/bench/files/loop.c"
cd "$place"
"$top/mkshelf" 11 64

milliseconds() {
    local start end
    start=$(date +%s%N)
    "$@" > /dev/null
    end=$(date +%s%N)
    echo $(((end - start) / 1000000))
}

# The requests lie ready, so that no pipe and no other process is timed.
for letter in p q; do
    head -c "$count" /dev/zero | tr '\0' "$letter" > "$letter"
done

pieces() {
    "$program" shelf < "$1"
}

for size in 4096:p 65536:q; do
    bytes=${size%:*}
    letter=${size#*:}
    in_c=0
    in_rattle=0
    for round in 1 2 3 4 5; do
        in_c=$((in_c + $(milliseconds ./loop "$bytes" "$count")))
        in_rattle=$((in_rattle + $(milliseconds pieces "$letter")))
    done
    echo "$bytes bytes, 5 times $count: C $in_c ms, Files $in_rattle ms, ratio $(awk "BEGIN { printf \"%.3f\", $in_rattle / $in_c }")"
done
