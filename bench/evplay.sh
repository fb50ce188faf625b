#!/usr/bin/env bash
# Prints how long evplay takes on growing scripts, mode by mode. It tests nothing: read the figures.
# Usage: bench/evplay.sh [PROGRAM]; build the program first, as the README says.
set -u
cd "$(dirname "$0")/.." || exit 1
program=${1:-crates/evplay/out/evplay}
work=$(mktemp -d)
trap 'rm -rf "$work"' EXIT

# links L N: a script of N turns over L links. In each turn one link reads two bytes and gives them on.
links() {
    echo 'at 0'
    for ((i = 0; i < $1; i++)); do echo 'open'; done
    awk -v l="$1" -v n="$2" 'BEGIN {
        for (i = 1; i < n; i++) {
            print "at " i
            if (i <= l) print "w " (i - 1) " out all"
            print "r " (i % l) " in 6869"
        }
    }'
}

# moved L BYTES: one turn brings so many bytes to each link, both ways, which forty more turns move.
moved() {
    awk -v l="$1" -v bytes="$2" 'BEGIN {
        print "at 0"
        for (i = 0; i < l; i++) print "open"
        print "at 1"
        line = ""
        for (j = 0; j < 4096; j++) line = line "6a"
        for (i = 0; i < l; i++) {
            for (j = 0; j < bytes / 4096; j++) { print "r " i " in " line; print "r " i " out " line }
            print "eof " i " in"; print "eof " i " out"; print "w " i " in all"; print "w " i " out all"
        }
        for (i = 2; i < 42; i++) print "at " i
    }'
}

# long N: a script of about N bytes whose lines are mostly spaces, so that reading it is the whole work
long() {
    awk -v n="$1" 'BEGIN { line = sprintf("%-1022s", "at 0"); for (i = 1; i <= int(n / 1023); i++) print line }'
}

# timers N: N additions of 256 events, each set anew, and a turn behind every thousand
timers() {
    echo 'base 4'
    for ((i = 0; i < 256; i++)); do echo "new $i persist"; done
    awk -v n="$1" 'BEGIN { for (i = 0; i < n; i++) { print "add " (i % 256) " " (i * 7919 % 5000); if (i % 1000 == 0) print "turn " i } }'
}

# pieces N: N pieces are appended to a buffer, and then drained from its front
pieces() {
    awk -v n="$1" 'BEGIN {
        for (i = 0; i < n; i++) print "add 0 6162636465666768"
        print "search 0 6768696a 0"
        for (i = 0; i < n; i++) print "drain 0 8"
    }'
}

measure() {
    local from to
    from=$(date +%s%N)
    "$program" "$1" < "$work/script" > "$work/out"
    local status=$?
    to=$(date +%s%N)
    printf '%-8s %-28s %10d bytes in %10d bytes out %8d ms status %d\n' "$1" "$2" "$(stat -c %s "$work/script")" "$(stat -c %s "$work/out")" $(((to - from) / 1000000)) "$status"
}

for l in 1 16 256; do
    for n in 1000 20000; do
        links "$l" "$n" > "$work/script"
        measure relay "$l links, $n turns"
    done
done
for l in 1 16 64; do
    moved "$l" 32768 > "$work/script"
    measure relay "$l links, 32 KiB each way"
done
for mib in 2 4 8 16; do
    long $((mib * 1048576)) > "$work/script"
    measure relay "$mib MiB of script"
done
for n in 100000 200000 400000; do
    timers "$n" > "$work/script"
    measure base "$n timers"
done
for n in 50000 100000 200000; do
    pieces "$n" > "$work/script"
    measure buffers "$n pieces"
done
