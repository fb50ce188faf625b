#!/usr/bin/env python3
"""Measures what limits let through while bytes always wait, and compares it to the byte with what they allow.

    bench/limits.py [--group] [--ticks N] [PROGRAM]

A side of rate r and burst b moves at most b + r * ticks bytes between two turns. It has r as it opens and b after a rest, and from then
on a turn each k ticks moves the lesser of b and k * r. Each run goes on for N ticks (1,000), reading at In and again writing at Out.
With --group 64 links share one limit at In: all of them together move at most its least share - 1 more. It ends with 1 where a figure
isn't as it should be."""
import argparse
import subprocess
import sys
from collections import defaultdict

TICK = 1000
RUNS = [
    # what, rate, burst, turns a tick, ticks a turn, rest in ticks
    ("bytes wait from the opening on", 100, 250, 1, 1, 0),
    ("they wait after a rest", 100, 250, 1, 1, 50),
    ("four turns a tick", 100, 250, 4, 1, 50),
    ("a turn each 2 ticks", 100, 250, 1, 2, 0),
    ("a turn each 4 ticks, more than the burst", 100, 250, 1, 4, 0),
    ("a byte a tick", 1, 1, 1, 1, 0),
    ("many bytes a tick", 4096, 8192, 1, 1, 0),
]


def pending(end, count):
    """Lines that bring so many bytes."""
    return [f"r {end} {'61' * min(32768, count - at)}" for at in range(0, count, 32768)]


def moments(turns, gap, rest, ticks):
    """When the turns are made in which bytes wait: the first a moment behind the rest, then as many as the ticks have."""
    return [rest * TICK + at * TICK // turns for at in range(0, ticks * turns + 1, gap)]


def moved(program, lines, way, side):
    """The bytes of each turn, for each link."""
    ran = subprocess.run([program, "relay"], input="\n".join(lines).encode(), capture_output=True, check=True)
    turns = []
    for words in map(str.split, ran.stdout.decode().splitlines()):
        if words[0] == "turn":
            turns.append(defaultdict(int))
        elif words[0] == way and words[2] == side and len(words) == 6:
            turns[-1][words[1]] += len(words[5]) // 2
    return turns


def script(run, way, ticks):
    _, rate, burst, turns, gap, rest = run
    when = moments(turns, gap, rest, ticks)
    count = burst + rate * (ticks + 1)
    limited = "in" if way == "read" else "out"
    lines = ["set hold 16777216", f"set rate {limited} {rate} {burst} {rate} {burst} {TICK}", "at 0", "open"]
    if way == "read":
        return [*lines, f"at {when[0]}", *pending("0 in", count), *(f"at {ms}" for ms in when[1:])]
    # what is written has to wait in the relay: it comes in as the link opens, and may be taken once the rest is over
    lines += [*pending("0 in", count), *["at 0"] * (count // 16384 + 1)]
    return [*lines, f"at {when[0]}", "w 0 out all", *(f"at {ms}" for ms in when[1:])]


def side(program, run, way, ticks):
    """Whether this run moved what its limit allows; it is printed."""
    what, rate, burst, turns, gap, rest = run
    count = len(moments(turns, gap, rest, ticks))
    went = [sum(turn.values()) for turn in moved(program, script(run, way, ticks), way, "in" if way == "read" else "out")[-count:]]
    opening = min(burst, rate * (1 + rest))
    span = (count - 1) * gap // turns
    each = min(burst, rate * gap)
    owed = opening + each * (span // gap)
    bound = burst + rate * span
    by_tick = [sum(went[at : at + turns]) for at in range(1, len(went), turns)]
    good = sum(went) == owed and owed <= bound and set(by_tick) == {each}
    figures = f"{rate:>6} {burst:>6} {span:>6} {sum(went):>9} {owed:>9} {bound:>9} {min(by_tick):>7}"
    print(f"{way:<6} {what:<42} {figures}{'' if good else '  NOT SO'}")
    return good


def group(program, ticks):
    links, rate, burst, share = 64, 1280, 2560, 16
    lines = [f"set group 0 {rate} {burst} {rate} {burst} {TICK} {share}", "set member in 0", "at 0", *["open"] * links, "at 0"]
    for link in range(links):
        lines += pending(f"{link} in", 3 * (burst + rate * ticks) // (2 * links))
    turns = moved(program, [*lines, *(f"at {at * TICK}" for at in range(1, ticks + 1))], "read", "in")[1:]
    went = [sum(turn.values()) for turn in turns]
    each = [sum(turn[str(link)] for turn in turns) for link in range(links)]
    bound = burst + rate * ticks + share - 1
    good = rate * ticks <= sum(went) <= bound
    print(f"{links} members, rate {rate}, burst {burst}, least share {share}, {ticks} ticks:")
    print(f"{sum(went)} bytes, at most {bound}; a member {min(each)} to {max(each)}{'' if good else '  NOT SO'}")
    return good


def main():
    words = argparse.ArgumentParser()
    words.add_argument("--group", action="store_true")
    words.add_argument("--ticks", type=int, default=1000)
    words.add_argument("program", nargs="?", default="crates/evplay/out/evplay")
    words = words.parse_args()
    if words.group:
        return 0 if group(words.program, words.ticks) else 1
    print(f"{'':<49} {'rate':>6} {'burst':>6} {'ticks':>6} {'moved':>9} {'owed':>9} {'at most':>9} {'a turn':>7}")
    return 0 if all([side(words.program, run, way, words.ticks) for run in RUNS for way in ("read", "write")]) else 1


sys.exit(main())
