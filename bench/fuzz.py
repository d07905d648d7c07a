#!/usr/bin/env python3
"""Gives random and changed inputs to the built programs, and checks what their answers have to say of each other.

    bench/fuzz.py [--count N] [--seed S] [--jobs N] [--keep DIR] [--only NUMBER] [PROGRAM [INSPECT]]
    bench/fuzz.py --self-test [PROGRAM [INSPECT]]

An input is made by a grammar, of scripts, schedules, reports, rules and tallies, or it is one of examples/, conformance/ and of the kept
inputs in bench/seeds/, and most are changed: bytes, lines, words or numbers are exchanged, removed, repeated or replaced. Number K of a
seed S is always the same input; --only makes that one alone. These are the laws:

- each answer has a status of its command, and is whole: one refusal line, or a text as whole_texts.py says; nothing goes to standard error;
- `replay` of a report of `run`, of `continue` and of `replay` gives the same bytes and status, also of a run of several workers;
- `check` refuses what `run` refuses; it accepts what `run` accepts; `check` of a canonical text is this text, and its report is that of
  the script;
- `continue` of a prefix of a report's schedule begins with this prefix; each entry that `choices` lists for it is accepted by `replay`,
  with any worker, and others are refused at their number; a view has the status of `replay`, or its refusal, or the notice of its entry;
- `expect` reads each report of a run, and its answers are those that are worked out here; `survey` counts these answers;
- the report of a run keeps the laws of `audit` and `judge`; of another report an audit says what the lines of its laws say, and refuses what
  `judge` refuses;
- the sum of the tallies of two ranges is the tally of both;
- an input through a pipe in pieces has the same answer.

An input that first shows a status of a command, a refusal, a verdict or a kind of event, which no input in bench/seeds/ or DIR shows, is
shortened by lines and kept in DIR, with the words of its command as a line above it. So are inputs for which a law fails. With
--self-test the answers come from programs that do something wrong, and each has to be noticed. A run that is interrupted (by Ctrl-C) says
what it has found so far.

PROGRAM is the built program, crates/pct_run/out/pct_run where none is named, and INSPECT is crates/pct_inspect/out/pct_inspect (./pct
build makes both). The last line is `N passed, M failed`, of the inputs; the status is 1 if M is not 0 or N is 0.
"""
import argparse
import collections
import hashlib
import multiprocessing
import os
import pathlib
import signal
import stat
import sys
import tempfile
import time

import fuzz_inputs
import program
from fuzz_laws import Laws

# How many inputs a process tries before it hands back what it found.
CHUNK = 100
SHOWN = 20
SELF_TEST_COUNT = 60
# A program that answers by another one, with something wrong.
WRONG_PROGRAM = """#!{python} -ISE
import os, sys
words = sys.argv[1:]
given = sys.stdin.buffer.read()
def answer(text):
    files = [os.memfd_create("file") for _ in range(2)]
    os.pwrite(files[0], text, 0)
    started = os.posix_spawn("{program}", ["pct_run", *words], {{}}, file_actions=[(os.POSIX_SPAWN_DUP2, file, number) for number, file in enumerate(files)])
    status = os.waitstatus_to_exitcode(os.waitpid(started, 0)[1])
    return status, os.pread(files[1], os.fstat(files[1]).st_size, 0)
status, output = answer(given)
{wrong}
os.write(1, output)
os._exit(status)
"""
WRONG = {
    "nothing is wrong": "",
    "an event line of a report is left out": """
lines = output.split(b"\\n")
if words[0] == "run" and len(lines) > 4 and not lines[2].startswith(b"verdict"):
    output = b"\\n".join(lines[:1] + lines[2:])
""",
    "an entry that is not legal is accepted": """
while words[0] == "replay" and output.startswith(b"refused entry "):
    number = int(output.split()[2])
    lines = given.split(b"\\n")
    start = max(i for i, line in enumerate(lines) if line.startswith(b"schedule "))
    del lines[start + number]
    end = max(i for i, line in enumerate(lines) if line.startswith(b"end "))
    lines[end] = b"end %d" % (int(lines[end].split()[1]) - 1)
    given = b"\\n".join(lines)
    status, output = answer(given)
""",
    "check appends a blank": """
if words[0] == "check" and status == 0:
    output = output[:-1] + b" \\n"
""",
    "check appends a line": """
if words[0] == "check" and status == 0:
    output += output[:output.index(b"\\n") + 1]
""",
    "a report has another end than its replay": """
if words[0] == "replay" and status == 0:
    output = output.replace(b" process_end 0\\n", b" process_end 1\\n")
""",
    "a cut report is written": """
if words[0] == "run" and len(output) > 300:
    output = output[:300]
""",
}


def new_laws(words):
    run, inspect, seed, folders, keeps = words
    seeds = fuzz_inputs.kept_seeds(folders)
    texts = fuzz_inputs.examples() + [text for _, text in seeds]
    return Laws(run, inspect, seed, texts, seeds, keeps)


def open_laws(words, features):
    global laws
    signal.signal(signal.SIGINT, signal.SIG_IGN)
    laws = new_laws(words)
    laws.features = set(features)


def work(numbers):
    """Tries inputs, in a process of the pool. Gives how many there were, the failures of each, the kept inputs, and the starts."""
    laws.failures, laws.kept, failed, starts = [], [], [], laws.starts
    for number in numbers:
        before = len(laws.failures)
        laws.try_input(number)
        failed += [(number, *failure) for failure in laws.failures[before:]]
    return len(numbers), failed, laws.kept, laws.starts - starts


def write_input(folder, name, words, text):
    (folder / name).write_bytes(" ".join(words).encode() + b"\n" + text)


def name_of(words, text, features):
    """The name of a kept input: what it shows, and some digits of its digest."""
    shown = "_".join(min(features, key=len).split()[:5]).replace("/", "_")
    return f"{shown}.{hashlib.sha256(' '.join(words).encode() + text).hexdigest()[:6]}"


class Found:
    """What the processes found."""

    def __init__(self, folder, features, shown):
        self.folder, self.features, self.shown = folder, features, shown
        self.passed, self.failed, self.starts, self.laws, self.new = 0, 0, 0, collections.Counter(), 0

    def add(self, count, failures, kept, starts):
        numbers = {failure[0] for failure in failures}
        self.passed += count - len(numbers)
        self.failed += len(numbers)
        self.starts += starts
        for number, law, words, text, wrong in failures:
            self.laws[law] += 1
            if sum(self.laws.values()) <= self.shown:
                print(f"FAILED input {number}, {law}: {' '.join(words)}: {wrong[:1000]}")
            if self.folder:
                write_input(self.folder, f"failed_{number}_{law.replace(' ', '_')}", words, text)
        for words, text, new in kept:
            if new - self.features:
                self.features |= new
                self.new += 1
                if self.folder:
                    write_input(self.folder, name_of(words, text, new), words, text)


def shown_features(words):
    """What the kept inputs show."""
    one = new_laws((*words[:-1], False))
    for command, text in one.seeds:
        one.answer(command, text)
    return one.features, one.failures


def fuzz(words, count, jobs, folder, shown=SHOWN):
    """Tries the inputs of the numbers from 0 to a number, or those of a list."""
    begun = time.monotonic()
    numbers = list(range(count)) if isinstance(count, int) else count
    features, failures = shown_features(words)
    found = Found(folder, features, shown)
    found.add(len(failures), [("kept", *failure) for failure in failures], [], 0)
    chunks = [numbers[start:start + CHUNK] for start in range(0, len(numbers), CHUNK)]
    with multiprocessing.Pool(jobs, open_laws, (words, frozenset(features))) as pool:
        try:
            for one in pool.imap_unordered(work, chunks):
                found.add(*one)
        except KeyboardInterrupt:
            print("interrupted: these are the inputs that were tried")
    seconds = time.monotonic() - begun
    return found, seconds


def self_test(run, inspect):
    passed = failed = 0
    with tempfile.TemporaryDirectory() as name:
        for number, (what, wrong) in enumerate(WRONG.items()):
            path = pathlib.Path(name) / f"wrong_{number}"
            path.write_text(WRONG_PROGRAM.format(python=sys.executable, program=run, wrong=wrong))
            path.chmod(path.stat().st_mode | stat.S_IXUSR)
            found, _ = fuzz((str(path), inspect, "self-test", [], False), SELF_TEST_COUNT, 1, None, 0)
            right = bool(found.failed) == bool(wrong)
            passed, failed = passed + right, failed + (not right)
            print(f"{'' if right else 'FAILED '}{what}: {found.failed} of {found.failed + found.passed} inputs failed; {', '.join(found.laws)}")
    return passed, failed


def main():
    parser = argparse.ArgumentParser(description=__doc__, formatter_class=argparse.RawDescriptionHelpFormatter)
    parser.add_argument("--count", type=int, default=10000)
    parser.add_argument("--seed", default="1")
    parser.add_argument("--jobs", type=int, default=0)
    parser.add_argument("--keep", type=pathlib.Path)
    parser.add_argument("--only", type=int)
    parser.add_argument("--self-test", action="store_true")
    parser.add_argument("program", nargs="?", default=str(program.BUILT))
    parser.add_argument("inspect", nargs="?", default=str(program.INSPECT))
    options = parser.parse_args()
    run, inspect = (str(pathlib.Path(path).resolve()) for path in (options.program, options.inspect))
    for path in (run, inspect):
        if not os.access(path, os.X_OK):
            sys.exit(f"there is no program {path}; ./pct build builds it")
    if options.self_test:
        passed, failed = self_test(run, inspect)
    else:
        if options.keep:
            options.keep.mkdir(parents=True, exist_ok=True)
        jobs = program.processors(options.jobs)
        count = options.count if options.only is None else [options.only]
        found, seconds = fuzz((run, inspect, options.seed, [fuzz_inputs.SEEDS, options.keep], bool(options.keep)), count, jobs, options.keep)
        passed, failed = found.passed, found.failed
        for law, number in found.laws.most_common():
            print(f"{law}: failed {number} times")
        print(f"{passed + failed:,} inputs and {found.starts:,} starts in {seconds:.0f} seconds with {jobs} processes, {60 * (passed + failed) / seconds:,.0f} inputs a minute;")
        print(f"{len(found.features)} statuses, refusals, verdicts and kinds of events were shown, {found.new} of them by inputs that are new")
    print(f"{passed} passed, {failed} failed")
    sys.exit(1 if failed or not passed else 0)


if __name__ == "__main__":
    main()
