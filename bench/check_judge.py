#!/usr/bin/env python3
"""Compares what `judge` and `audit` say of reports with a reading of the laws in Python.

    bench/check_judge.py [--spoilt N] [--runs N] [--seed S] [--jobs N] [PROGRAM [INSPECT]]
    bench/check_judge.py --spoilt --only NUMBER [--seed S] [PROGRAM [INSPECT]]
    bench/check_judge.py --self-test [PROGRAM [INSPECT]]

judged.py says which event of a report is the first that each law does not allow. The answers of `judge` and of `audit` have to be those that
follow from it, byte for byte and with their statuses, of two sorts of reports:

- reports of runs of the scripts of random_scripts.py: each law has to be kept;
- spoilt reports: reports of such runs, made lists of events (law_lists.py) and events by their forms, in which events are dropped, repeated,
  exchanged, moved, put in or changed, or two of which are joined (spoilt_reports.py).

Number K of a seed is always the same report. With --runs N or --spoilt N there are N reports of this sort alone. Without both there are a
few hundred of each, texts that are no reports or are written in another way, and the self-test. Without N it is 20,000. They are tried by as
many processes beside each other as --jobs says, or one for each processor.

With --self-test the answers come from programs that do something wrong, such as to say that each law is kept, or to name the event after
the one that a law does not allow, and each has to be noticed.

PROGRAM is the built program, crates/pct_run/out/pct_run where none is named, and INSPECT, which has `judge`, is
crates/pct_inspect/out/pct_inspect (./pct build makes both). Of the spoilt reports it is printed how many break each law: one that none
breaks counts as failed. The last line is `N passed, M failed`, of the reports; the status is 1 if M is not 0 or N is 0.
"""
import argparse
import collections
import functools
import multiprocessing
import os
import pathlib
import random
import signal
import stat
import sys
import tempfile

import judged
import program
from fuzz import WRONG_PROGRAM
from program import Program
from random_scripts import Scripts
from spoilt_reports import Spoiler, report_of, without_run

ALL = 20_000
FEW = {"spoilt": 600, "runs": 200}
# How many reports a process tries before it hands back what it found.
CHUNK = 100
# How many runs in a row have the same script, and how many spoilt reports are made of the same run.
RUNS_OF_A_SCRIPT, SPOILT_OF_A_RUN = 4, 10
# How many failures are shown, of which each is a report that is shortened.
SHOWN = 5
SELF_TEST_COUNT = 60
WRONG = {
    "nothing is wrong": "",
    "each law is said to be kept": r"""
if words[0] == "judge" and status == 12:
    import re
    status, output = 0, re.sub(rb" event .*", b" kept", output)
""",
    "the event after the one that a law does not allow is named": r"""
if words[0] == "judge":
    import re
    lines = given.split(b"\n")
    output = re.sub(rb" event (\d+) .*", lambda found: b" event %d %s" % (int(found[1]) + 1, lines[int(found[1]) + 1]), output)
""",
    "the line of the event after is written": r"""
if words[0] == "judge":
    import re
    lines = given.split(b"\n")
    output = re.sub(rb" event (\d+) .*", lambda found: b" event %s %s" % (found[1], lines[int(found[1]) + 1]), output)
""",
    "the laws after the first that is broken are said to be kept": r"""
if words[0] == "judge" and b" event " in output:
    import re
    end = output.index(b"\n", output.index(b" event "))
    output = output[:end] + re.sub(rb" event .*", b" kept", output[end:])
""",
    "the status is 0 where a law is broken": """
if words[0] == "judge" and status == 12:
    status = 0
""",
    "a law has no line": r"""
if words[0] == "judge" and status != 13:
    output = b"".join(line for line in output.splitlines(True) if not line.startswith(b"leftover "))
""",
    "a report that is refused is judged": r"""
if words[0] == "judge" and status == 13:
    status, output = 0, b"once kept\n"
""",
}


class Checker:
    """The two programs, and the reports of a seed."""

    def __init__(self, paths, seed):
        self.run, self.inspect = (Program(path) for path in paths)
        self.seed = seed
        self.report_of_run = functools.lru_cache(maxsize=4)(self.made_run)

    def made_run(self, number):
        """The report of the run of a number."""
        text = Scripts(f"{self.seed} {number // RUNS_OF_A_SCRIPT}").text().encode()
        chosen = random.Random(f"{self.seed} {number}")
        words = ["run", "--seed", str(chosen.randrange(1 << 64)), "--budget", str(chosen.choice([40, 100, 200, 400]))]
        words += ["--passes", str(chosen.choice([4, 4, 4, 5, 16])), "--slots", str(chosen.choice([64, 4, 2, 3]))]
        status, report = self.run.answer(words, text)
        if status not in (0, 1, 2, 3):
            raise ValueError(f"{' '.join(words)} ended with status {status}")
        return report_of(report.decode())

    def spoilt_report(self, number):
        """The spoilt report of a number."""
        chosen = random.Random(f"{self.seed} spoilt {number}")
        spoiler = Spoiler(chosen)
        runs = [number // SPOILT_OF_A_RUN + more for more in (0, 1)]
        report, other = (self.report_of_run(run) if chosen.random() < 0.5 else spoiler.made() for run in runs)
        return spoiler.spoilt(report, other)

    # ---- comparing

    def difference(self, report):
        """What is wrong with the answers to a report, or nothing; and the first event that each law does not allow."""
        found = judged.first_refused(report.lines, judged.Limits(*report.limits))
        text = report.text()
        for answerer, word, wanted in ((self.inspect, "judge", judged.judged(report.lines, found)), (self.run, "audit", judged.audited(report.lines, found))):
            answer = answerer.answer([word], text)
            if answerer.stderr:
                return f"{word} writes to standard error: {answerer.stderr[:200]}", found
            if answer != wanted:
                return self.said(word, answer, wanted), found
        return None, found

    def said(self, word, answer, wanted):
        """How an answer differs from the one that is wanted."""
        if answer[1] == wanted[1]:
            return f"{word} ends with status {answer[0]} in the place of {wanted[0]}"
        lines, others = (text.decode(errors="replace").splitlines() for _, text in (answer, wanted))
        for line, other in zip(lines, others):
            if line != other:
                return f"{word} says {line!r} in the place of {other!r}"
        return f"{word} has {len(lines)} lines in the place of {len(others)}, and status {answer[0]}"

    def shortened(self, report):
        """A report with fewer events whose answers differ, too."""
        lines, size = list(report.lines), max(1, len(report.lines) // 2)
        while size:
            at = 0
            while at < len(lines):
                shorter = lines[:at] + lines[at + size:]
                if self.difference(report.with_lines(shorter))[0]:
                    lines = shorter
                else:
                    at += size
            size //= 2
        return report.with_lines(lines)

    def try_report(self, sort, number, shows):
        """Tries the report of a number. Gives what is wrong, or nothing, and the laws that are broken."""
        try:
            report = self.report_of_run(number) if sort == "runs" else self.spoilt_report(number)
        except ValueError as error:
            return str(error), ()
        wrong, found = self.difference(report)
        broken = [law for law, place in found.items() if place]
        if wrong and shows:
            short = self.shortened(report)
            wrong = f"{wrong}; of a shorter report, with the limits {short.limits}: {'; '.join(short.lines)}: {self.difference(short)[0]}"
        if sort == "runs" and broken and not wrong:
            wrong = f"the report of a run breaks {broken}"
        return wrong, broken


# ---- many reports


def open_checker(paths, seed):
    global checker
    signal.signal(signal.SIGINT, signal.SIG_IGN)
    checker = Checker(paths, seed)


def work(task):
    """Tries the reports of some numbers, in a process of the pool. Gives how many there were, the failures and the broken laws."""
    sort, numbers = task
    failures, broken = [], collections.Counter()
    for number in numbers:
        wrong, laws = checker.try_report(sort, number, len(failures) < SHOWN)
        broken.update(laws or ["no law"])
        if wrong:
            failures.append((number, wrong))
    return len(numbers), failures, broken


class Found:
    """What the processes found: how many reports were tried, those whose answers differ, and how many of the spoilt ones break each law."""

    def __init__(self):
        self.tried, self.failed, self.broken = 0, 0, collections.Counter()

    def try_all(self, sort, numbers, jobs, words, shown=SHOWN):
        tasks = [(sort, numbers[start:start + CHUNK]) for start in range(0, len(numbers), CHUNK)]
        with multiprocessing.Pool(min(jobs, len(tasks)) or 1, open_checker, words) as pool:
            for tried, failures, broken in pool.imap_unordered(work, tasks):
                for number, wrong in failures[:max(0, shown - self.failed)]:
                    print(f"failed: --{sort} --only {number}: {wrong[:2000]}")
                self.tried += tried
                self.failed += len(failures)
                if sort == "spoilt":
                    self.broken.update(broken)
        return self


def try_sort(sort, numbers, jobs, words):
    """Tries the reports of a sort. Gives how many passed and failed. A law that no spoilt report breaks is one more that failed."""
    found = Found().try_all(sort, numbers, jobs, words)
    print(f"{found.tried:,} {'spoilt reports' if sort == 'spoilt' else 'reports of runs'} were compared, {found.failed:,} differ")
    passed, failed = found.tried - found.failed, found.failed
    if sort == "spoilt":
        for law in (*judged.LAWS, "no law"):
            print(f"{found.broken[law]:9,} break {law}")
        unbroken = [law for law in judged.LAWS if not found.broken[law]] if len(numbers) > 1 else []
        for law in unbroken:
            print(f"failed: no report breaks the law {law}")
        failed += len(unbroken)
    return passed, failed


# ---- texts


def texts():
    """Texts that are no reports, and reports that are written in another way, with the lines of their events and their limits."""
    lines = ["1.1 push h 1", "1.1 create 4294967295 joinable", "1.4294967295 emit 4294967295", "1.1 request 3"]
    report = without_run(lines)
    text = report.text()
    yield "a report", text, report
    yield "CR before each LF", text.replace(b"\n", b"\r\n"), report
    yield "no LF at the end", text[:-1], report
    yield "no events", without_run([]).text(), without_run([])
    yield "no text", b"", None
    for old, new in [(b"report 2", b"report 3"), (b"report 2\n", b""), (b"push h 1", b"push h"), (b"push h 1", b"push  h 1"), (b"push h 1", b"push h 01"), (b"1.1 push", b"0.1 push"),
                     (b"1.1 push", b"1.0 push"), (b"create 4294967295", b"create 0"), (b"emit 4294967295", b"emit 4294967296"), (b"1.1 request", b"1.1 \trequest"), (b"verdict open", b"verdict closed"),
                     (b"verdict open\n", b""), (b"schedule 2", b"schedule 1"), (b" 4 64", b" 3 64"), (b" 4 64", b" 4 65"), (b"end 0", b"end 1"), (b"end 0\n", b""), (b"end 0\n", b"end 0\n\n")]:
        yield f"{old} as {new}", text.replace(old, new), None


def try_texts(paths, seed):
    """`judge` refuses what `audit` refuses, with the same line and status, and reads a report however it is written."""
    checker, passed, failed = Checker(paths, seed), 0, 0
    for name, text, report in texts():
        answer, audited = checker.inspect.answer(["judge"], text), checker.run.answer(["audit"], text)
        if report:
            wanted = judged.judged(report.lines, judged.first_refused(report.lines, judged.Limits(*report.limits)))
            right = answer == wanted
        else:
            right = answer == audited and answer[0] == 13
        passed, failed = passed + right, failed + (not right)
        if not right:
            print(f"failed: {name}: judge answers {answer}, and audit {audited}")
    return passed, failed


# ---- wrong programs


def is_noticed(paths, seed):
    """An answer to a spoilt report, or to a text, is not the right one."""
    checker = Checker(paths, seed)
    return any(checker.try_report("spoilt", number, False)[0] for number in range(SELF_TEST_COUNT)) or bool(quietly(try_texts, paths, seed)[1])


def self_test(paths, seed):
    """Each wrong program is noticed by spoilt reports, or by texts, and the right one is not."""
    passed = failed = 0
    with tempfile.TemporaryDirectory() as name:
        for number, (what, wrong) in enumerate(WRONG.items()):
            path = pathlib.Path(name) / f"wrong_{number}"
            path.write_text(WRONG_PROGRAM.format(python=sys.executable, program=paths[1], wrong=wrong))
            path.chmod(path.stat().st_mode | stat.S_IXUSR)
            noticed = is_noticed((paths[0], str(path)), seed)
            right = noticed == bool(wrong)
            passed, failed = passed + right, failed + (not right)
            print(f"{'' if right else 'failed: '}{what}: {'noticed' if noticed else 'not noticed'}")
    return passed, failed


def quietly(call, *words):
    """What a call gives, without what it prints."""
    kept, sys.stdout = sys.stdout, open(os.devnull, "w")
    try:
        return call(*words)
    finally:
        sys.stdout.close()
        sys.stdout = kept


def results(options, paths):
    """How many parts of each check passed and failed."""
    jobs, words = program.processors(options.jobs), (paths, options.seed)
    asked = {sort: getattr(options, sort) for sort in FEW if getattr(options, sort) is not None}
    for sort, count in (asked or ({} if options.self_test else FEW)).items():
        yield try_sort(sort, range(count) if options.only is None else [options.only], jobs, words)
    if not asked and not options.self_test:
        yield try_texts(*words)
    if not asked:
        yield self_test(*words)


def main():
    parser = argparse.ArgumentParser(description=__doc__, formatter_class=argparse.RawDescriptionHelpFormatter)
    parser.add_argument("--spoilt", type=int, nargs="?", const=ALL)
    parser.add_argument("--runs", type=int, nargs="?", const=ALL)
    parser.add_argument("--seed", default="1")
    parser.add_argument("--jobs", type=int, default=0)
    parser.add_argument("--only", type=int)
    parser.add_argument("--self-test", action="store_true")
    parser.add_argument("program", nargs="?", default=str(program.BUILT))
    parser.add_argument("inspect", nargs="?", default=str(program.INSPECT))
    options = parser.parse_args()
    paths = tuple(str(pathlib.Path(path).resolve()) for path in (options.program, options.inspect))
    for path in paths:
        if not os.access(path, os.X_OK):
            sys.exit(f"there is no program {path}; ./pct build builds it")
    found = list(results(options, paths))
    passed, failed = (sum(numbers) for numbers in zip(*found))
    print(f"{passed} passed, {failed} failed")
    sys.exit(1 if failed or not passed else 0)


if __name__ == "__main__":
    main()
