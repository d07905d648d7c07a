#!/usr/bin/env python3
"""Makes the calls of the built programs fail, each in turn, and cuts their inputs at every byte.

    bench/faults.py [--quick] [--jobs N] [--cuts N] [PROGRAM [INSPECT]]
    bench/faults.py --self-test [PROGRAM [INSPECT]]

Each command gets one to four inputs, most of them small, and the usual answer is computed first. Then it is started again and again with the library
of faults.c, which `cc` builds and LD_PRELOAD loads, and in each start one thing is refused, until a start comes in which nothing was:

- the K-th allocation, alone or with all that follow, and the K-th creation of a thread, alone or with all that follow; or the process
  may map so many bytes more, as `ulimit -v` says. The answer has to be the usual one, or status 11 with nothing written; without a
  thread it has to be the usual one;
- the K-th read of standard input, as it is and with reads of 7 bytes and of 1 byte: EIO and EINTR have to give status 9 with nothing
  written (a read that a signal interrupts counts as an error, as docs/DECISIONS.md says), and short reads the usual answer;
- the K-th write, as it is and with writes of 7 bytes, or of 4,096 bytes of a long answer: EIO, ENOSPC, EPIPE, EINTR and a write that
  takes nothing have to give status 10 with a prefix of the usual bytes, and short writes the usual answer; with writes of 1 byte EIO
  and ENOSPC;
- the reader of the output, a pipe, closes its end after K bytes: status 10, and the reader has the first K of the usual bytes. SIGPIPE
  has its usual effect when the program is started; the program ignores it.

Without the library there are standard streams that are closed, a folder, open for the other direction, full, or empty and not waited for.
Some 200 inputs of at most 1,500 bytes are cut at every byte: the answer has to be the same from a file and through a pipe in pieces, it
has a status of the command, and is one refusal line or a whole text, as whole_texts.py says. In no start may anything be written to
standard error, or a signal or no end come. A report of several workers may be another one in each start; then its replay has to be the same.

With --quick a part of all that is tried, in less than a minute. With --self-test the answers of pct_run are given by the programs of
wrong_streams.c, each of which does one thing wrong: each has to be noticed, and the one that does nothing wrong must pass.

PROGRAM is the built program, crates/pct_run/out/pct_run where none is named, and INSPECT is crates/pct_inspect/out/pct_inspect (./pct
build makes both). Above the last line, `N passed, M failed`, there is a table: for each command how many faults of each kind were
tried, and how many answers had each status. The status is 1 if M is not 0 or N is 0.
"""
import argparse
import collections
import dataclasses
import errno
import multiprocessing
import os
import pathlib
import random
import shutil
import subprocess
import sys
import tempfile
import time

import fault_cases
import program
import whole_texts
from program import ALLOCATION, FOREVER, READ, THREAD, WRITE

BENCH = pathlib.Path(__file__).resolve().parent
COLUMNS = ["allocations", "memory", "threads", "reads", "writes", "streams", "cuts"]
# What has to be answered.
USUAL, OR_NO_MEMORY, READ_ERROR, WRITE_ERROR = "the usual answer", "the usual answer or status 11", "status 9", "status 10"
READ_STATUS, WRITE_STATUS, MEMORY_STATUS = 9, 10, 11
MEMORY_STEP, MEMORY_MOST = 24 * 1024, 4 * 1024 * 1024
# With --quick: how many values of K a kind of fault has at most, about; and every which cut is tried of how many inputs.
QUICK_VALUES, QUICK_STEP, QUICK_CUTS = 8, 19, 36
# The bytes of an answer that is long, and how many places of it are tried, about.
LONG, LONG_VALUES = 20_000, 200
CUTS = 216
SHOWN = 20
WRONG_PROGRAMS = """RIGHT TRUNCATES_AT_READ_ERROR ALWAYS_NO_MEMORY WRITES_BEFORE_NO_MEMORY DROPS_AT_SHORT_WRITE READ_ERROR_AT_CUT
    END_AT_INTERRUPT IGNORES_WRITE_ERROR WRITES_AFTER_ERROR ENDS_BY_SIGNAL WRITES_TO_ERROR""".split()


@dataclasses.dataclass(frozen=True)
class Family:
    """A kind of fault, of which the K-th call is refused for K from 1 on."""

    name: str
    column: str
    wanted: str
    refused: int = 0
    code: int = 0
    lasts: bool = False
    read_piece: int = 0
    write_piece: int = 0


class Results:
    """What was tried and answered, by the words of a command, and what failed."""

    def __init__(self):
        self.tried, self.statuses, self.passed, self.failures = collections.Counter(), collections.Counter(), 0, []

    def add(self, case, column, status, wrong, what):
        self.tried[case.command, column] += 1
        self.statuses[case.command, status] += 1
        if wrong:
            self.failures.append(f"{case.label}, {case.name}, {what}: {wrong}")
        else:
            self.passed += 1

    def merge(self, other):
        self.tried += other.tried
        self.statuses += other.statuses
        self.passed += other.passed
        self.failures += other.failures


def families(case, counts, size, quick):
    """The kinds of faults of a case whose usual run has so many calls and writes so many bytes."""
    yield Family("an allocation", "allocations", OR_NO_MEMORY, ALLOCATION, errno.ENOMEM)
    yield Family("all allocations from one on", "allocations", OR_NO_MEMORY, ALLOCATION, errno.ENOMEM, True)
    if counts[THREAD]:
        yield Family("a thread", "threads", USUAL, THREAD, errno.EAGAIN)
        yield Family("all threads from one on", "threads", USUAL, THREAD, errno.EAGAIN, True)
    pieces = pieces_of(size, quick)
    for piece in pieces if case.reads else ():
        of = f" of {piece} bytes" if piece else ""
        yield Family(f"EIO at a read{of}", "reads", READ_ERROR, READ, errno.EIO, False, piece)
        yield Family(f"EIO at all reads{of} from one on", "reads", READ_ERROR, READ, errno.EIO, True, piece)
        yield Family(f"EINTR at a read{of}", "reads", READ_ERROR, READ, errno.EINTR, False, piece)
    for piece in pieces:
        of = f" of {piece} bytes" if piece else ""
        for name in ("EIO", "ENOSPC") if piece == 1 else ("EIO", "ENOSPC", "EPIPE", "EINTR"):
            yield Family(f"{name} at a write{of}", "writes", WRITE_ERROR, WRITE, getattr(errno, name), False, 0, piece)
        yield Family(f"EIO at all writes{of} from one on", "writes", WRITE_ERROR, WRITE, errno.EIO, True, 0, piece)
        if piece != 1:
            yield Family(f"a write{of} that takes nothing", "writes", WRITE_ERROR, WRITE, 0, False, 0, piece)


def pieces_of(size, quick):
    """How many bytes the reads and writes have, 0 for as many as are asked for. Long answers are not written byte by byte."""
    return (0, 4096) if size > LONG else (0, 7) if quick else (0, 7, 1)


class Trials:
    """The programs, in one process, and the usual answer of a case."""

    def __init__(self, paths, library, quick, makers=None):
        self.quick = quick
        self.plain = [program.Program(path) for path in paths]
        self.faulty = [program.FaultyProgram(path, library) for path in paths]
        # The programs that replay what several workers did.
        self.makers = self.plain if makers is None else [program.Program(path) for path in makers]
        self.results = Results()

    def begin(self, case):
        """Computes the usual answer, and says whether it is right and the library saw it all."""
        self.case = case
        plain, faulty = self.plain[case.inspect], self.faulty[case.inspect]
        self.usual = plain.answer(case.words, case.text)
        found = faulty.faulty(case.words, case.text)
        wrong = whole_texts.fault(case.command, *self.usual)
        if not faulty.loaded:
            wrong = f"the library of faults.c was not loaded into {faulty.path}: is it linked statically?"
        elif not wrong and self.misses(found, USUAL):
            wrong = f"{found} with the library, and without it {self.usual}"
        elif not wrong and (faulty.written != len(found[1]) or faulty.taken != (len(case.text) if case.reads else 0) or not faulty.counts[ALLOCATION]):
            wrong = f"the library saw {faulty.taken} bytes read and {faulty.written} written, and {faulty.counts[ALLOCATION]} allocations: the program has other calls"
        self.counts = faulty.counts
        if wrong:
            self.results.add(case, "reads", found[0], wrong, "nothing refused")
        return not wrong

    def misses(self, answer, wanted):
        """What is wrong with an answer, where this one is wanted."""
        case, (status, output) = self.case, answer
        if self.faulty[case.inspect].stderr or self.plain[case.inspect].stderr:
            return f"standard error has {self.faulty[case.inspect].stderr or self.plain[case.inspect].stderr!r}"
        if wanted == OR_NO_MEMORY and status == MEMORY_STATUS:
            return output and f"{output!r} is written, with status 11"
        if wanted in (USUAL, OR_NO_MEMORY):
            return self.misses_shared(answer) if case.is_shared else answer != self.usual and f"{answer} in the place of {self.usual}"
        if wanted == READ_ERROR:
            return answer != (READ_STATUS, b"") and f"{answer} after a read that failed"
        if status != WRITE_STATUS:
            return f"status {status} after a write that failed"
        expected = self.usual[1] if not case.is_shared else b"report " + output[7:]
        return not expected.startswith(output) and f"{output!r} is no prefix of {expected!r}"

    def misses_shared(self, answer):
        """What is wrong with a report of several workers."""
        status, output = answer
        wrong = whole_texts.fault(self.case.command, status, output)
        if wrong:
            return f"{answer}: {wrong}"
        if status < 4:
            replayed = self.makers[0].answer(["replay"], fault_cases.joined(self.case.text, output))
            return replayed != answer and f"{answer}, and its replay is {replayed}"
        return answer != self.usual and f"{answer} in the place of {self.usual}"

    def values(self, most):
        """The numbers from 1 to a number; of very many, and with --quick, some of them."""
        if not self.quick or most <= QUICK_VALUES:
            return range(1, most + 1, 1 + most // LONG_VALUES if most > LONG else 1)
        return [1, 2, 3, *range(4, most, 1 + most // (QUICK_VALUES - 4)), most]

    def refuse(self, family):
        """Refuses each call in turn, until one start has none that was refused. A start has other calls once one is refused."""
        case, faulty, number, values = self.case, self.faulty[self.case.inspect], 0, None
        while True:
            number += 1
            if values is not None and number not in values and number <= max(values):
                continue
            answer = faulty.faulty(case.words, case.text, family.refused, number, FOREVER if family.lasts else None, family.code, family.read_piece, family.write_piece)
            made = faulty.made
            wrong = self.misses(answer, family.wanted if made else USUAL)
            if not wrong and faulty.written != len(answer[1]):
                wrong = f"{faulty.written} bytes were taken, and {len(answer[1])} are there"
            if made or wrong:
                self.results.add(case, family.column, answer[0], wrong, f"{family.name}, number {number}")
            if not made:
                return
            # The calls of a whole run with these pieces are not known before: they are those of the usual run, or its bytes in pieces.
            if values is None:
                values = set(self.values(self.most_calls(family)))

    def most_calls(self, family):
        size = len(self.case.text) if family.refused == READ else len(self.usual[1])
        piece = family.read_piece or family.write_piece
        return size // piece + 1 if piece else self.counts[family.refused]

    def limit_memory(self):
        case, faulty = self.case, self.faulty[self.case.inspect]
        for number in self.values(MEMORY_MOST // MEMORY_STEP):
            answer = faulty.faulty(case.words, case.text, memory=number * MEMORY_STEP)
            self.results.add(case, "memory", answer[0], self.misses(answer, OR_NO_MEMORY), f"{number * MEMORY_STEP} bytes of memory")

    def shorten(self):
        """Reads and writes that are short, and do not fail."""
        case, faulty = self.case, self.faulty[self.case.inspect]
        for piece in [piece for piece in pieces_of(len(self.usual[1]), False) if piece]:
            if case.reads:
                answer = faulty.faulty(case.words, case.text, read_piece=piece)
                self.results.add(case, "reads", answer[0], self.misses(answer, USUAL), f"reads of {piece}")
            answer = faulty.faulty(case.words, case.text, write_piece=piece)
            self.results.add(case, "writes", answer[0], self.misses(answer, USUAL), f"writes of {piece}")

    def cut_off(self, piece):
        """The reader takes K bytes, and closes its end."""
        case, faulty = self.case, self.faulty[self.case.inspect]
        for takes in [0, *self.values(len(self.usual[1]) + 1)]:
            status = faulty.cut_off(case.words, case.text, takes, piece)
            wrong = self.misses_cut_off(status, takes)
            self.results.add(case, "writes", status, wrong, f"the reader takes {takes} bytes" + (f", and writes of {piece}" if piece else ""))

    def misses_cut_off(self, status, takes):
        """What is wrong where the reader takes so many bytes. A report of several workers may have another length."""
        faulty, usual = self.faulty[self.case.inspect], self.usual[1]
        is_whole = takes >= len(usual) if not self.case.is_shared else faulty.written <= takes and status != WRITE_STATUS
        if is_whole:
            return self.misses((status, faulty.held), USUAL)
        if status != WRITE_STATUS:
            return f"status {status} after a write that failed"
        expected = usual[:takes] if not self.case.is_shared else b"report " + faulty.held[7:]
        return faulty.held != expected[:takes] and f"the reader has {faulty.held!r}"

    def streams(self):
        """Standard streams that fail by themselves."""
        case, plain = self.case, self.plain[self.case.inspect]
        empty, filled = os.pipe2(os.O_NONBLOCK), os.pipe2(os.O_NONBLOCK)
        try:
            while True:
                os.write(filled[1], bytes(4096))
        except BlockingIOError:
            pass
        gone = os.pipe()
        os.close(gone[0])
        opened = [os.open(*words) for words in (("/", os.O_RDONLY), ("/dev/null", os.O_WRONLY), ("/dev/full", os.O_WRONLY), ("/dev/null", os.O_RDONLY))]
        folder, only_written, full, only_read = opened
        for name, source in (("a folder", folder), ("not open for reading", only_written), ("an empty pipe that is not waited for", empty[0])):
            self.stream(f"standard input is {name}", plain.to_memory(case.words, source), READ_ERROR if case.reads else USUAL)
        for name, sink in (("full", full), ("not open for writing", only_read), ("a full pipe that is not waited for", filled[1]), ("a pipe without a reader", gone[1])):
            program.write_text(plain.input, case.text)
            self.stream(f"standard output is {name}", (plain.between(case.words, plain.input, sink), b""), WRITE_ERROR)
        for file in (*opened, *empty, *filled, gone[1]):
            os.close(file)
        self.closed_streams(plain)

    def closed_streams(self, plain):
        case = self.case
        program.write_text(plain.input, case.text)
        program.write_text(plain.output, b"")
        self.stream("standard input is closed", (plain.status(plain.start_closed(case.words, 0)), program.held_text(plain.output)), READ_ERROR if case.reads else USUAL)
        program.write_text(plain.input, case.text)
        self.stream("standard output is closed", (plain.status(plain.start_closed(case.words, 1)), b""), WRITE_ERROR)

    def stream(self, name, answer, wanted):
        self.results.add(self.case, "streams", answer[0], self.misses(answer, wanted), name)

    def cut(self, case):
        """Cuts the input at every byte."""
        plain, chosen = self.plain[case.inspect], random.Random(case.text)
        for size in range(0, len(case.text) + 1, QUICK_STEP if self.quick else 1):
            text = case.text[:size]
            answer = plain.answer(case.words, text)
            wrong = plain.stderr or whole_texts.fault(case.command, *answer)
            places = sorted({0, size, *(chosen.randint(0, size) for _ in range(chosen.randint(1, 14)))})
            pieces = [text[start:end] for start, end in zip(places, places[1:])]
            found = plain.answer_to_pieces(case.words, pieces)
            if not wrong and found != answer:
                wrong = f"{answer} from a file, and {found} in {len(pieces)} pieces"
            self.results.add(case, "cuts", answer[0], wrong and f"{wrong}: {answer}, of the input {text!r}", f"cut after {size} bytes")


def work(task):
    """Makes the trials of one task, in a process of the pool."""
    kind, case, family = task
    trials.results = Results()
    if kind == "cut":
        trials.cut(case)
    elif trials.begin(case):
        if kind == "refuse":
            trials.refuse(family)
        elif kind == "cut_off":
            trials.cut_off(family)
        else:
            trials.limit_memory()
            trials.shorten()
            trials.streams()
    return trials.results


def open_trials(*words):
    global trials
    trials = Trials(*words)


def tasks_of(cases, cuts, opened, quick):
    """All tasks, and what failed of the usual answers."""
    tasks, results = [("cut", case, None) for case in cuts], Results()
    for case in cases:
        opened.results = Results()
        if opened.begin(case):
            tasks += [("refuse", case, family) for family in families(case, opened.counts, len(opened.usual[1]), quick)]
            tasks += [("cut_off", case, piece) for piece in pieces_of(len(opened.usual[1]), True)] + [("others", case, None)]
        results.merge(opened.results)
    return tasks, results


def run_tasks(tasks, words, jobs):
    results = Results()
    with multiprocessing.Pool(jobs, open_trials, words) as pool:
        for one in pool.imap_unordered(work, tasks):
            results.merge(one)
    return results


def print_table(results):
    commands = [command for command in whole_texts.STATUSES if any(results.tried[command, column] for column in COLUMNS)]
    print(f"{'command':10}" + "".join(f"{column:>13}" for column in COLUMNS) + "  answers by status")
    for command in commands:
        statuses = sorted(((str(status), number) for (of, status), number in results.statuses.items() if of == command), key=lambda item: (len(item[0]), item[0]))
        print(f"{command:10}" + "".join(f"{results.tried[command, column]:13,}" for column in COLUMNS) + "  " + ", ".join(f"{status}: {number:,}" for status, number in statuses))
    print(f"{'all':10}" + "".join(f"{sum(number for (_, of), number in results.tried.items() if of == column):13,}" for column in COLUMNS))


def build_library(folder):
    if not shutil.which("cc"):
        sys.exit("there is no cc, which builds the library of faults.c")
    library = pathlib.Path(folder) / "faults.so"
    subprocess.run(["cc", "-O2", "-shared", "-fPIC", "-o", library, BENCH / "faults.c"], check=True)
    return library


def try_all(paths, quick, jobs, cut_count):
    begun = time.monotonic()
    makers = [program.Program(path) for path in paths]

    def answer(inspect, words, text):
        return makers[inspect].answer(words, text)[1]

    with tempfile.TemporaryDirectory() as folder:
        library = build_library(folder)
        cases, cuts = fault_cases.fault_cases(answer), fault_cases.cut_cases(answer, cut_count)
        tasks, results = tasks_of(cases, cuts, Trials(paths, library, quick), quick)
        random.Random(1).shuffle(tasks)
        results.merge(run_tasks(tasks, (paths, library, quick), jobs))
    for failure in results.failures[:SHOWN]:
        print("FAILED", failure[:2000])
    print_table(results)
    print(f"{len(cases)} inputs with faults, {len(cuts)} that were cut, in {time.monotonic() - begun:.0f} seconds with {jobs} processes")
    return results.passed, len(results.failures)


def self_test(paths):
    """Whether each wrong program is noticed, and the right one is not."""
    passed = failed = 0
    makers = [program.Program(path) for path in paths]

    def answer(inspect, words, text):
        return makers[inspect].answer(words, text)[1]

    cases = [case for case in fault_cases.fault_cases(answer) if not case.inspect and case.name in ("smallest.pct", "race.pct", "nothing", "rules that fail")]
    cuts = [case for case in fault_cases.cut_cases(answer, QUICK_CUTS) if not case.inspect][:6]
    with tempfile.TemporaryDirectory() as folder:
        library = build_library(folder)
        for number, name in enumerate(WRONG_PROGRAMS):
            wrong = pathlib.Path(folder) / name.lower()
            subprocess.run(["cc", "-O1", f"-DWRONG={number}", f'-DPROGRAM="{paths[0]}"', "-o", wrong, BENCH / "wrong_streams.c"], check=True)
            words = ([wrong, paths[1]], library, True, paths)
            tasks, results = tasks_of(cases, cuts, Trials(*words), True)
            results.merge(run_tasks(tasks, words, 1))
            noticed = bool(results.failures)
            if noticed == (name != "RIGHT"):
                passed += 1
            else:
                failed += 1
            shown = results.failures[0][:160] if noticed else "no trial failed"
            print(f"{'' if noticed == (name != 'RIGHT') else 'FAILED '}{name}: {len(results.failures)} of {len(results.failures) + results.passed} trials failed: {shown}")
    return passed, failed


def main():
    parser = argparse.ArgumentParser(description=__doc__, formatter_class=argparse.RawDescriptionHelpFormatter)
    parser.add_argument("--quick", action="store_true")
    parser.add_argument("--self-test", action="store_true")
    parser.add_argument("--jobs", type=int, default=0)
    parser.add_argument("--cuts", type=int, default=0)
    parser.add_argument("program", nargs="?", default=str(program.BUILT))
    parser.add_argument("inspect", nargs="?", default=str(program.INSPECT))
    options = parser.parse_args()
    paths = [str(pathlib.Path(path).resolve()) for path in (options.program, options.inspect)]
    for path in paths:
        if not pathlib.Path(path).is_file():
            sys.exit(f"there is no program {path}; ./pct build builds it")
    if options.self_test:
        passed, failed = self_test(paths)
    else:
        passed, failed = try_all(paths, options.quick, program.processors(options.jobs), options.cuts or (QUICK_CUTS if options.quick else CUTS))
    print(f"{passed} passed, {failed} failed")
    sys.exit(1 if failed or not passed else 0)


if __name__ == "__main__":
    main()
