#!/usr/bin/env bash
# Prints what idle links hold that have moved bytes each way: the greatest number of bytes in blocks of at most 70,000 bytes during a
# run in which each of 256 links moves them, one after the other, less that of a run in which one link moves as many in as many
# turns. It also prints how often each run asked for memory. The port of the script keeps the room of what came in at its ends, so that
# long pieces count there. It tests nothing: read the figures. It needs a C compiler.
# Usage: bench/memory.sh [PROGRAM]; build the program first, as the README says.
set -u
cd "$(dirname "$0")/.." || exit 1
program=${1:-crates/evplay/out/evplay}
work=$(mktemp -d)
trap 'rm -rf "$work"' EXIT
cc -O2 -shared -fPIC -o "$work/live_bytes.so" bench/live_bytes.c -ldl || exit 1

# moving EACH BYTES: 256 links; in each pair of turns one of them moves so many bytes each way, every time another where EACH is 1
moving() {
    awk -v each="$1" -v bytes="$2" 'BEGIN {
        print "at 0"
        for (i = 0; i < 256; i++) print "open"
        line = ""
        for (j = 0; j < bytes; j++) line = line "6a"
        for (i = 0; i < 256; i++) {
            link = each ? i : 255
            print "at " (2 * i + 1)
            print "r " link " in " line
            print "r " link " out " line
            print "w " link " in " bytes
            print "w " link " out " bytes
            print "at " (2 * i + 2)
        }
    }'
}

# live EACH BYTES: the greatest count of such a run, and the number of its calls for memory
live() {
    moving "$1" "$2" > "$work/script"
    LD_PRELOAD="$work/live_bytes.so" "$program" relay < "$work/script" 2>&1 > /dev/null
}

for bytes in 60 4096 8000; do
    read -r one one_calls < <(live 0 "$bytes")
    read -r all all_calls < <(live 1 "$bytes")
    echo "$bytes bytes each way: $(((all - one) / 255)) bytes a link ($all less $one); calls for memory $all_calls and $one_calls"
done
