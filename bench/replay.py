#!/usr/bin/env python3
"""Times `replay` on inputs of growing size.

    bench/replay.py [PROGRAM]

PROGRAM is the built program, crates/pct_run/out/pct_run where none is named (./pct build makes it).
"""
from timing import measure

# A script of more than 480,000 steps: 540 times a handler that emits 900 times.
HANDLERS = [("fn h x\n", 1), ("emit x\n", 900), ("end\nfn main x\n", 1), ("pthread_cleanup_push h 7\npthread_cleanup_pop 1\n", 540), ("end\n", 1)]
SMALLEST = [("fn main x\nreturn 0\nend\n", 1)]
MARKER = [("%%\n", 1)]


def schedule(entries):
    return [("schedule 1 200000 4 64\n", 1), ("1 1 1 go\n", entries), (f"end {entries}\n", 1)]


def jobs():
    for entries in (50_000, 100_000, 200_000):
        yield f"{entries} entries, all legal", HANDLERS + MARKER + schedule(entries)
    for entries in (50_000, 100_000, 200_000):
        yield f"{entries} entries, the third not legal", SMALLEST + MARKER + schedule(entries)
    for size in (4, 8, 16):
        yield f"{size} MB of lines before the header", SMALLEST + MARKER + [("1.1 emit 7\n", size * 1_000_000 // 11)] + schedule(2)
    for size in (4, 8, 16):
        yield f"{size} MB of line ends before the header", SMALLEST + MARKER + [("\n", size * 1_000_000)] + schedule(2)
    yield "16 MB without a header", SMALLEST + MARKER + [("1.1 emit 7\n", 16_000_000 // 11)]


measure(["replay"], jobs())
