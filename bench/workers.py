#!/usr/bin/env python3
"""Runs scripts with 2 to 16 workers, and replays each report.

    bench/workers.py [--runs N] [--seed S] [PROGRAM]
    bench/workers.py --speed [PROGRAM]

Each run takes one of the examples or of the scripts of the conformance vectors, and draws the number of workers, the turns of each, the
seed and the budget. It is checked that the status is 0 to 3, that each entry has the number of a worker or 0, that no worker has more
entries than turns, that the entries of number 0 are the last ones, and that `replay` of the script, `%%` and the report writes the same
bytes with the same status. A script of five threads is run a hundred times by four workers as well: it emits one value, and an entry of
its schedule that is replaced is refused. With --speed the steps a second with 1, 2, 4 and 16 workers are measured on a long run.

PROGRAM is the built program, crates/pct_run/out/pct_run where none is named (./pct build makes it).
"""
import argparse
import pathlib
import random
import subprocess
import sys
import time

ROOT = pathlib.Path(__file__).resolve().parent.parent
# The script of `demo 88`: five threads, four rounds. Main emits the sum of their arguments.
POOL = b"".join(line + b"\n" for line in [
    b"global key", b"global total", b"global work", *(b"global t%d" % n for n in range(1, 6)), b"mutex m", b"cond c",
    b"fn unlock x", b"pthread_mutex_unlock m", b"end",
    b"fn bye x", b"pthread_mutex_lock m", b"add total x", b"pthread_mutex_unlock m", b"end",
    b"fn worker x", b"pthread_setspecific key x", b"while 1", b"pthread_mutex_lock m", b"pthread_cleanup_push unlock 0",
    b"pthread_cond_wait c m", b"add work 1", b"pthread_cleanup_pop 1", b"end", b"end",
    b"fn main x n", b"pthread_key_create - key bye", *(b"pthread_create - t%d worker %d" % (n, n) for n in range(1, 6)),
    b"set n 4", b"while n", b"pthread_mutex_lock m", b"pthread_cond_signal c", b"pthread_mutex_unlock m", b"add n 4294967295", b"end",
    *(b"pthread_cancel t%d" % n for n in range(1, 6)), *(b"pthread_join t%d -" % n for n in range(1, 6)),
    b"emit total", b"return 0", b"end",
])
LOOP = b"fn main x n\nset n 60000\nwhile n\nadd x 3\nadd n 4294967295\nend\nreturn 0\nend\n"


def call(program, words, text):
    done = subprocess.run([program, *words], input=text, capture_output=True, timeout=100)
    return done.returncode, done.stdout


def scripts(program):
    """The scripts that are accepted, and that a run leaves with a report."""
    paths = sorted((ROOT / "examples").glob("*.pct")) + sorted((ROOT / "conformance").glob("*/script.pct"))
    for path in paths:
        text = path.read_bytes()
        if call(program, ["check"], text)[0] == 0:
            yield path.name if path.parent.name == "examples" else path.parent.name, text


def faults(report, workers, turns):
    """What is wrong with the entries of a report."""
    lines = report.decode().split("\n")
    start = max(i for i, line in enumerate(lines) if line.startswith("schedule "))
    numbers = [int(line.split(" ")[0]) for line in lines[start + 1:-2]]
    if lines[-2] != f"end {len(numbers)}":
        yield "the number of entries"
    alone = numbers.index(0) if 0 in numbers else len(numbers)
    if any(numbers[alone:]):
        yield "number 0 before a worker"
    if any(not 1 <= number <= workers for number in numbers[:alone]):
        yield "a number that no worker has"
    if any(numbers.count(number) > turns for number in range(1, workers + 1)):
        yield "more entries than turns"


def check(program, runs, seed):
    draw = random.Random(seed)
    all_scripts = list(scripts(program))
    passed, failed, shared = 0, 0, 0
    for _ in range(runs):
        name, script = draw.choice(all_scripts)
        workers, turns = draw.randint(2, 16), draw.choice((1, 2, 5, 20, 1000, 200000))
        words = ["run", "--workers", str(workers), "--turns", str(turns), "--seed", str(draw.randrange(2 ** 64)), "--budget", str(draw.choice((5, 50, 500, 10000)))]
        status, report = call(program, words, script)
        wrong = []
        if status not in (0, 1, 2, 3):
            wrong.append(f"status {status}")
        else:
            wrong += faults(report, workers, turns)
            again = call(program, ["replay"], script + b"%%\n" + report)
            if again != (status, report):
                wrong.append("the replay differs")
            entries = report[report.rindex(b"\nschedule ") + 1:].split(b"\n")[1:-2]
            shared += len({entry.split(b" ")[0] for entry in entries} - {b"0"}) > 1
        if wrong:
            failed += 1
            print("FAILED", name, *words, ":", ", ".join(wrong))
        else:
            passed += 1
    pools = sum(pool(program) for _ in range(100))
    passed, failed = passed + pools, failed + 100 - pools
    print(f"{passed} passed, {failed} failed; {shared} of them have entries of several workers")
    return failed == 0


def pool(program):
    """Whether a run of the pool by four workers is as it must be, and so are its replays."""
    status, report = call(program, ["run", "--workers", "4"], POOL)
    lines = report.split(b"\n")
    start = max(i for i, line in enumerate(lines) if line.startswith(b"schedule "))
    replay = POOL + b"%%\n"
    replaced = b"\n".join([*lines[start:start + 5], b"1 1 999 go", *lines[start + 6:]])
    cut = b"\n".join([*lines[start:start + 6], b"end 5", b""])
    return (
        status == 0
        and [line for line in lines if b" emit " in line] == [b"1.1 emit 15"]
        and b"verdict complete" in lines
        and call(program, ["replay"], replay + report) == (0, report)
        and call(program, ["replay"], replay + replaced) == (7, b"refused entry 5\n")
        and call(program, ["replay"], replay + cut)[0] == 4
    )


def speed(program):
    for workers in (1, 2, 4, 16):
        best = None
        for _ in range(5):
            start = time.perf_counter()
            status, report = call(program, ["run", "--budget", "200000", "--workers", str(workers)], LOOP)
            seconds = time.perf_counter() - start
            steps = int(report.split(b"\n")[-2].split(b" ")[1])
            best = min(best or seconds, seconds)
        print(f"{workers:2} workers: {steps} steps in {best:.3f} s, {steps / best:,.0f} steps a second")


def main():
    parser = argparse.ArgumentParser()
    parser.add_argument("--runs", type=int, default=2000)
    parser.add_argument("--seed", type=int, default=1)
    parser.add_argument("--speed", action="store_true")
    parser.add_argument("program", nargs="?", default=str(ROOT / "crates/pct_run/out/pct_run"))
    options = parser.parse_args()
    if options.speed:
        speed(options.program)
        return 0
    return 0 if check(options.program, options.runs, options.seed) else 1


if __name__ == "__main__":
    sys.exit(main())
