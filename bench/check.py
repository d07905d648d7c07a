#!/usr/bin/env python3
"""Times `check` on texts of growing size.

    bench/check.py [PROGRAM]

PROGRAM is the built program, crates/pct_run/out/pct_run where none is named (./pct build makes it).
"""
from timing import measure

SMALLEST = [("fn main x\nreturn 0\nend\n", 1)]
COMMENT = "# a line of some length that says nothing at all\n"


def jobs():
    for size in (4, 8, 16):
        yield f"{size} MB of comments", [(COMMENT, size * 1_000_000 // len(COMMENT))] + SMALLEST
    for size in (4, 8, 16):
        yield f"{size} MB of line ends", [("\n", size * 1_000_000)] + SMALLEST
    for size in (4, 8, 16):
        yield f"{size} MB of blanks in one line", [(" ", size * 1_000_000), ("\n", 1)] + SMALLEST
    for size in (4, 8, 16):
        yield f"{size} MB of statements, too many", [("fn main x\n", 1), ("emit x\n", size * 1_000_000 // 7), ("end\n", 1)]
    for size in (4, 8, 16):
        yield f"{size} MB of blocks in one another", [("fn main x\n", 1), ("if x\n", size * 1_000_000 // 9), ("end\n", size * 1_000_000 // 9 + 1)]
    for count in (500, 1_000, 2_000):
        yield f"{count} statements", [("fn main x\n", 1), ("emit x\n", count - 1), ("end\n", 1)]
    yield "64 functions, each named by 30 calls", [(f"fn f{i} x\n" + f"do f{i} x\n" * 30 + "end\n", 1) for i in range(63)] + SMALLEST
    yield "1,900 names of plain functions", [("fn f x\nend\nfn main x\n", 1), ("atexit - f\n", 1_900), ("end\n", 1)]


measure(["check"], jobs())
