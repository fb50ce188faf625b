#!/usr/bin/env bash
# How many instructions a round of calls costs, beside the same calls of libevent, by callgrind: they are the same at any load.
# It wants valgrind and libevent's headers (Debian: valgrind, libevent-dev). Build first: cd crates/layer_bench && rt run.
# Usage: bench/calls.sh [PROGRAM]
set -u
cd "$(dirname "$0")/.." || exit 1
program=${1:-crates/layer_bench/out/layer_bench}
[ -x "$program" ] || { echo "no program at $program: cd crates/layer_bench && rt run"; exit 1; }
room=$(mktemp -d)
trap 'rm -rf "$room"' EXIT
cc -O2 -o "$room/libevent" bench/calls_of_libevent.c -levent_core || exit

# counted PROGRAM WORD: the instructions of a run
counted() {
    valgrind --tool=callgrind --callgrind-out-file=/dev/null "$@" 2>&1 >/dev/null | sed -n 's/.*Collected : *//p'
}

ours=$(counted "$program" nothing)
theirs=$(counted "$room/libevent" nothing)
echo "instructions a round, ours and libevent's"
for word in add drain exchange move reference events common; do
    awk -v w="$word" -v a="$(counted "$program" "$word")" -v b="$(counted "$room/libevent" "$word")" -v p="$ours" -v q="$theirs" \
        'BEGIN { printf "  %-10s %6.0f %6.0f\n", w, (a - p) / 65536, (b - q) / 65536 }'
done
