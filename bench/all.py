#!/usr/bin/env python3
"""Runs every check of the pages, one after the other.

    bench/all.py [PROGRAM]

PROGRAM is the built program, crates/pct_run/out/pct_run where none is named (./pct build builds it, and pct_inspect, which has
to be built, too). The checks are all files bench/check_*.py, bench/public_calls.py and bench/conformance.py with --check,
bench/conformance.py with --run, and bench/laws.py on a small number of runs. A check gets the program if its usage names it.

For each check its words and its last line are printed, `N passed, M failed`; above them all that it printed, if a part of it
failed. A check without such a line, or without an end in ten minutes, or that checked nothing, or whose status does not fit its
last line, counts as one part more that failed. The last line has the sums. The status is 1 if M is not 0 or N is 0.
"""
import pathlib
import re
import shlex
import subprocess
import sys

import checkout
from checkout import ROOT

SECONDS = 600
RUNS = "2000"
BENCH = ROOT / "bench"
LAST = re.compile("([0-9]+) passed, ([0-9]+) failed")


def checks(program):
    """The words of each check. The first is the name of a file of bench/."""
    for path in sorted(BENCH.glob("check_*.py")):
        takes_program = re.search(rf"^    bench/{path.name} .*\bPROGRAM\b", path.read_text(), re.M)
        yield [path.name, program] if takes_program else [path.name]
    yield ["public_calls.py", "--check"]
    yield ["conformance.py", "--check"]
    yield ["conformance.py", "--run", shlex.join([program, "replay"])]
    yield ["laws.py", program, "--runs", RUNS]


def result(words):
    """What a check prints, its last line, and how many of its parts passed and failed."""
    try:
        ran = subprocess.run([sys.executable, BENCH / words[0], *words[1:]], stdin=subprocess.DEVNULL, stdout=subprocess.PIPE, stderr=subprocess.STDOUT, timeout=SECONDS)
    except subprocess.TimeoutExpired:
        return "", f"no end in {SECONDS} seconds", 0, 1
    printed = ran.stdout.decode(errors="replace")
    last = printed.rstrip("\n").rpartition("\n")[2]
    found = LAST.fullmatch(last)
    if not found:
        return printed, f"ended with status {ran.returncode}, without a last line N passed, M failed", 0, 1
    passed, failed = int(found[1]), int(found[2])
    if not passed and not failed:
        return printed, f"{last}: it checked nothing", 0, 1
    if ran.returncode != (1 if failed else 0):
        return printed, f"{last}, and ended with status {ran.returncode}", passed, failed + 1
    return printed, last, passed, failed


def main():
    if len(sys.argv) > 2 or sys.argv[1:] and sys.argv[1].startswith("-"):
        sys.exit(__doc__)
    program = pathlib.Path(sys.argv[1] if len(sys.argv) > 1 else ROOT / checkout.BUILT).resolve()
    for built in (program, ROOT / checkout.INSPECT):
        if not built.is_file():
            sys.exit(f"there is no program {built}; ./pct build builds it")
    total_passed = total_failed = 0
    for words in checks(str(program)):
        printed, last, passed, failed = result(words)
        if failed:
            print(printed.rstrip("\n"))
        print(f"{shlex.join(words)}: {last}", flush=True)
        total_passed += passed
        total_failed += failed
    print(f"{total_passed} passed, {total_failed} failed")
    sys.exit(1 if total_failed or not total_passed else 0)


main()
