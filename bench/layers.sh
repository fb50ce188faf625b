#!/usr/bin/env bash
# How fast filters pass bytes beside a plain copy, what an idle bufferevent holds, what due callbacks of 10,000 owners cost, and
# what an idle link costs a turn over a script that brings nothing, where nobody listens, and what 100,000 timers cost.
# Build first: cd crates/layer_bench && rt run. Usage: bench/layers.sh [PROGRAM]
set -u
cd "$(dirname "$0")/.." || exit 1
program=${1:-crates/layer_bench/out/layer_bench}
[ -x "$program" ] || { echo "no program at $program: cd crates/layer_bench && rt run"; exit 1; }

# measured WORD: seconds of the processor, and the most memory held in KiB
measured() { /usr/bin/env time -f '%U %M' "$program" "$@" 2>&1 >/dev/null | tail -n 1; }

echo "1 GiB in pieces of 16 KiB"
for word in copy none to-crlf to-lf hex-out hex-in; do
    read -r seconds _ < <(measured "$word")
    awk -v w="$word" -v s="$seconds" 'BEGIN { printf "  %-8s %6.2f s  %7.0f MiB a second\n", w, s, (s > 0 ? 1024 / s : 0) }'
done

read -r _ little < <(measured nothing)
read -r _ much < <(measured idle)
awk -v a="$little" -v b="$much" 'BEGIN { printf "an idle bufferevent: %.0f bytes\n", (b - a) * 1024 / 65536 }'

# 4,096 rounds in which each of 10,000 owners becomes due twice and is called twice
read -r seconds _ < <(measured due)
awk -v s="$seconds" 'BEGIN { printf "due callbacks, 10,000 owners: %.0f ns a reason\n", s * 1e9 / (4096 * 20000) }'

# 65,536 turns over 1,024 links
read -r seconds _ < <(measured links)
awk -v s="$seconds" 'BEGIN { printf "an idle link: %.1f ns a turn\n", s * 1e9 / (65536 * 1024) }'

# 64 rounds in which 100,000 timers are added at random deadlines, a third is cancelled and the others fire
read -r seconds _ < <(measured timers)
awk -v s="$seconds" 'BEGIN { printf "100,000 timers: %.0f ms\n", s * 1e3 / 64 }'
