"""Runs a command of the program on inputs of growing size, and prints the seconds, the peak memory and what came out.

Time and memory in a column should grow as the input does. Each job is run five times, and the best time counts. A peak
below that of the script that measures, some 14 MB, is shown as that.
"""
import os
import pathlib
import subprocess
import sys
import tempfile
import time

ROOT = pathlib.Path(__file__).resolve().parent.parent
RUNS = 5


# An input is a list of parts: a text, and how often it is repeated. They are written in pieces of some kilobytes, so
# that the script stays small.
def write_input(path, parts):
    with open(path, "w") as out:
        for text, times in parts:
            chunk = max(1, 8192 // len(text))
            for _ in range(times // chunk):
                out.write(text * chunk)
            out.write(text * (times % chunk))
    return path.stat().st_size


def run(program, words, path):
    with open(path, "rb") as stdin, tempfile.TemporaryFile() as stdout:
        start = time.perf_counter()
        child = subprocess.Popen([program, *words], stdin=stdin, stdout=stdout)
        _, status, usage = os.wait4(child.pid, 0)
        seconds = time.perf_counter() - start
        stdout.seek(0)
        first = stdout.readline().decode().strip()
        return seconds, usage.ru_maxrss / 1024, os.waitstatus_to_exitcode(status), first


def measure(words, jobs):
    program = sys.argv[1] if len(sys.argv) > 1 else str(ROOT / "crates/pct_run/out/pct_run")
    print(f"{'job':42}{'input MB':>9}{'seconds':>10}{'peak MB':>9}{'status':>8}  first line")
    with tempfile.TemporaryDirectory() as folder:
        for name, parts in jobs:
            path = pathlib.Path(folder) / "input"
            size = write_input(path, parts)
            seconds, peak, status, first = min(run(program, words, path) for _ in range(RUNS))
            print(f"{name:42}{size / 1e6:9.1f}{seconds:10.4f}{peak:9.1f}{status:8}  {first}")
