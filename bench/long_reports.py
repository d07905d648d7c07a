#!/usr/bin/env python3
"""Times `audit` and `judge` on long reports, of kinds that are to make them slow.

    bench/long_reports.py [--bytes N] [--seconds N] [--megabytes N] [--only NAME] [PROGRAM [INSPECT]]
    bench/long_reports.py --write NAME FILE [--bytes N]

A report has as many events of its kind as fit into N bytes, 16,000,000 where no number is given. For each, the seconds, the peak memory, the
status and the first line of the answers of `audit` and of `judge` are shown. An answer that takes longer than --seconds, 5, or more memory
than --megabytes, 500, or with another status than 0 and 12, counts as failed. With --write the report of one kind is written to a file, and
nothing is tried.

PROGRAM is the built program, crates/pct_run/out/pct_run where none is named, and INSPECT, which has `judge`, is
crates/pct_inspect/out/pct_inspect (./pct build makes both). The last line is `N passed, M failed`, and the status is 1 if M is not 0 or N is 0.
"""
import argparse
import os
import pathlib
import sys
import tempfile
from itertools import chain, count

import program
from timing import run

BYTES = 16_000_000
CANCELED = 4294967295


# ---- kinds: each gives groups of event lines, without an end


def chain_of_forks():
    """Each process is a child of the one before it, and inherits all open handlers."""
    return ([f"{pid}.1 push f {pid}", f"{pid}.1 fork {pid + 1}"] for pid in count(1))


def chain_of_forks_and_pops():
    """Each process of a chain pops handlers that it inherited, and then so does its parent."""
    yield [f"1.1 push f {number}" for number in range(100_000)]
    for pid in count(1):
        top = 100_000 - 2 * pid
        yield [f"{pid}.1 fork {pid + 1}", *(f"{process}.1 pop f {number} drop" for process in (pid + 1, pid) for number in (top + 1, top) if top >= 0)]


def forks_of_one_process():
    """One process forks again and again. Each child uses what it inherits, ends, and is reaped."""
    yield ["1.1 push f 1", "1.1 acquire m", "1.1 key 1", "1.1 once o call"]
    for pid in count(2):
        yield [f"1.1 fork {pid}", f"{pid}.1 pop f 1 drop", f"{pid}.1 release m", f"{pid}.1 once o done", f"{pid}.1 process_end 3", "1.1 call waitpid", f"1.1 reap {pid} 3"]


def processes_reaped_late():
    """All processes are reaped at last, the newest first."""
    for first in count(2, 100_000):
        yield from ([f"1.1 fork {pid}", f"{pid}.1 process_end {pid % 256}"] for pid in range(first, first + 100_000))
        yield from (["1.1 call waitpid", f"1.1 reap {pid} {pid % 256}"] for pid in reversed(range(first, first + 100_000)))


def threads_on_one_slot():
    """One thread after the other, on one slot."""
    return ([f"1.1 create {tid} joinable", f"1.{tid} ending exit {tid}", f"1.{tid} ended {tid}", "1.1 call pthread_join", f"1.1 joined {tid} {tid}"] for tid in count(2, 2))


def detached_threads():
    """Threads on one slot that are created detached, and some that are detached as they have ended."""
    for tid in count(2, 4):
        yield [f"1.1 create {tid} detached", f"1.{tid} ending exit 0", f"1.{tid} ended 0"]
        yield [f"1.1 create {tid + 2} joinable", f"1.{tid + 2} ending exit 0", f"1.{tid + 2} ended 0", f"1.1 detach {tid + 2}"]


def new_names():
    """Each event has a new name, of functions, mutexes, condition variables, semaphores and controls."""
    return ([f"1.1 push f{number} 1", f"1.1 acquire m{number}", f"1.1 signal c{number} 0", f"1.1 post s{number}", f"1.1 once o{number} call"] for number in count(1))


def mutexes_and_forks():
    """A mutex is acquired before each fork of a chain, and the child inherits the owners of all."""
    return ([f"{pid}.1 acquire m{pid}", f"{pid}.1 fork {pid + 1}", f"{pid + 1}.1 release m{pid}", f"{pid + 1}.1 acquire m{pid}"] for pid in count(1))


def once_controls():
    """A thread is busy with many controls as it begins to end."""
    for tid in count(2, 2):
        yield [f"1.1 create {tid} detached", *(f"1.{tid} once o{control} call" for control in range(1000)), f"1.{tid} ending exit 0", f"1.{tid} ended 0"]


def once_controls_of_children():
    """A thread is busy with many controls as it forks, and so is each of its replicas as it begins to end."""
    yield [f"1.1 once o{control} call" for control in range(200_000)]
    yield from ([f"1.1 fork {pid}", f"{pid}.1 ending exit 0", f"{pid}.1 once o1 call", f"{pid}.1 once o1 done", f"{pid}.1 ended 0", f"{pid}.1 exit 0"] for pid in count(2))


def once_controls_and_forks():
    """A child of a chain inherits the controls of all processes before it."""
    return ([f"{pid}.1 once o{pid} call", f"{pid}.1 fork {pid + 1}", f"{pid + 1}.1 once o{pid} done"] for pid in count(1))


def threads_that_begin_to_end():
    """Sixty threads begin to end with two handlers, then they run them in turns, and are joined; and so the next sixty."""
    for first in count(2, 64):
        threads = range(first, first + 60)
        yield chain(*([f"1.1 create {tid} joinable", f"1.{tid} push f {tid}", f"1.{tid} push g {tid}", f"1.{tid} ending exit {tid}"] for tid in threads))
        yield [*(f"1.{tid} handler g {tid}" for tid in threads), *(f"1.{tid} handler f {tid}" for tid in threads), *(f"1.{tid} ended {tid}" for tid in threads)]
        yield chain(*(["1.1 call pthread_join", f"1.1 joined {tid} {tid}"] for tid in threads))


def handlers_of_one_thread():
    """A thread pushes many handlers, and runs them as it ends."""
    yield [f"1.1 push f {number}" for number in range(380_000)]
    yield ["1.1 ending exit 0", *(f"1.1 handler f {number}" for number in reversed(range(380_000))), "1.1 ended 0", "1.1 exit 0"]
    yield from ([f"1.1 emit {number}"] for number in count(1))


def exits_of_ended_threads():
    """Many threads end, and then each of them exits the process; the law of processes allows the first exit alone."""
    yield chain(*([f"1.1 create {tid} detached", f"1.{tid} ending exit 0", f"1.{tid} ended 0"] for tid in range(2, 360_000, 2)))
    yield ["1.1 ending exit 0", "1.1 ended 0"]
    yield from ([f"1.{tid} exit 0"] for tid in count(2, 2))


def processes_of_many_threads():
    """Sixty threads of each process end, and the last one exits it; its child goes on."""
    for pid in count(1):
        threads = range(2, 62)
        yield [f"{pid}.1 fork {pid + 1}", *(f"{pid}.1 create {tid} joinable" for tid in threads)]
        yield [*chain(*([f"{pid}.{tid} ending exit 0", f"{pid}.{tid} ended 0"] for tid in (*threads, 1))), f"{pid}.1 exit 0", f"{pid}.1 process_end 0"]


def keys_and_forks():
    """A child of a chain inherits the keys of all processes before it, and deletes some."""
    return ([f"{pid}.1 key {2 * pid}", f"{pid}.1 key {2 * pid + 1}", f"{pid}.1 fork {pid + 1}", f"{pid + 1}.1 key_delete {2 * pid}"] for pid in count(1))


def destructors():
    """Threads end with four passes over many keys, and values are left."""
    keys = range(1, 129)
    yield [f"1.1 key {key}" for key in keys]
    for tid in count(2, 2):
        passes = chain(*([f"1.{tid} pass {number}", *(f"1.{tid} dtor {number} {key} d {tid}" for key in keys)] for number in range(1, 5)))
        yield [f"1.1 create {tid} detached", f"1.{tid} ending exit 0", *passes, f"1.{tid} leftover 128", f"1.{tid} ended 0"]


def destructors_of_one_thread():
    """A thread calls the destructors of ever more keys in its first pass."""
    yield ["1.1 ending exit 0", "1.1 pass 1"]
    yield from ([f"1.1 key {key}", f"1.1 dtor 1 {key} d 1"] for key in count(1))


def waits():
    """Threads are signalled in a wait, time out in the next one, and are canceled in the third."""
    for tid in count(2, 2):
        yield [f"1.1 create {tid} detached", f"1.{tid} acquire m", f"1.{tid} call pthread_cond_wait", f"1.{tid} release m", f"1.1 signal c {tid}", f"1.{tid} acquire m", f"1.{tid} done pthread_cond_wait"]
        yield [f"1.{tid} call pthread_cond_timedwait", f"1.{tid} release m", f"1.{tid} expire c", f"1.{tid} acquire m", f"1.{tid} answer pthread_cond_timedwait 4"]
        yield [f"1.{tid} call pthread_cond_wait", f"1.{tid} release m", f"1.1 request {tid}", f"1.{tid} cancel_wait c", f"1.{tid} handon c 1", f"1.{tid} acquire m", f"1.{tid} ending canceled c m"]
        yield [f"1.{tid} release m", f"1.{tid} ended {CANCELED}"]


def requests():
    """A thread with a request pending goes on with cancelability disabled, and acts as it is enabled again."""
    for tid in count(2, 2):
        yield [f"1.1 create {tid} detached", f"1.{tid} state disable", f"1.1 request {tid}", f"1.{tid} call read", f"1.{tid} done read", f"1.{tid} done pthread_testcancel", f"1.{tid} state enable"]
        yield [f"1.{tid} ending canceled", f"1.{tid} ended {CANCELED}"]


def states_and_forks():
    """The replicas of a chain of forks inherit that cancelability is disabled, and a request comes for each."""
    yield ["1.1 state disable"]
    yield from ([f"{pid}.1 fork {pid + 1}", f"{pid + 1}.1 request 1", f"{pid + 1}.1 call read", f"{pid + 1}.1 done read"] for pid in count(1))


def short_events():
    """As many events as there can be."""
    return (["1.1 key 1", "1.1 post s"] for _ in count())


# The kinds, and those with 2 slots, of which the threads besides the first one are on one. The others have 64.
KINDS = (
    chain_of_forks, chain_of_forks_and_pops, forks_of_one_process, processes_reaped_late, threads_on_one_slot, detached_threads, new_names, mutexes_and_forks, once_controls,
    once_controls_of_children, once_controls_and_forks, threads_that_begin_to_end, handlers_of_one_thread, exits_of_ended_threads, processes_of_many_threads, keys_and_forks,
    destructors, destructors_of_one_thread, waits, requests, states_and_forks, short_events,
)
ON_ONE_SLOT = (threads_on_one_slot, detached_threads, once_controls, exits_of_ended_threads, destructors, waits, requests)


def event_lines(kind, size):
    """The event lines of a kind, of at most this many bytes."""
    for line in chain.from_iterable(kind()):
        size -= len(line) + 1
        if size < 0:
            return
        yield line


def write_report(path, kind, size):
    rest = f"verdict open\nschedule 2 100 4 {2 if kind in ON_ONE_SLOT else 64}\nend 0\n"
    with open(path, "w") as out:
        out.write("report 2\n")
        out.writelines(line + "\n" for line in event_lines(kind, size - len(rest) - len("report 2\n")))
        out.write(rest)
    return path.stat().st_size


def try_kind(kind, options, paths):
    """How many of the two answers to the report of a kind are within the limits."""
    passed = 0
    with tempfile.TemporaryDirectory() as folder:
        path = pathlib.Path(folder) / "report"
        size = write_report(path, kind, options.bytes)
        for word, answerer in (("audit", paths[0]), ("judge", paths[1])):
            seconds, peak, status, first = run(answerer, [word], path)
            right = seconds <= options.seconds and peak <= options.megabytes and status in (0, 12)
            passed += right
            print(f"{'' if right else 'failed: '}{kind.__name__:28}{word:7}{size / 1e6:7.1f} MB{seconds:8.2f} s{peak:8.1f} MB{status:5}  {first[:60]}", flush=True)
    return passed


def main():
    parser = argparse.ArgumentParser(description=__doc__, formatter_class=argparse.RawDescriptionHelpFormatter)
    parser.add_argument("--bytes", type=int, default=BYTES)
    parser.add_argument("--seconds", type=float, default=5)
    parser.add_argument("--megabytes", type=float, default=500)
    parser.add_argument("--only", choices=[kind.__name__ for kind in KINDS])
    parser.add_argument("--write", nargs=2, metavar=("NAME", "FILE"))
    parser.add_argument("program", nargs="?", default=str(program.BUILT))
    parser.add_argument("inspect", nargs="?", default=str(program.INSPECT))
    options = parser.parse_args()
    kinds = {kind.__name__: kind for kind in KINDS}
    if options.write:
        name, path = options.write
        if name not in kinds:
            sys.exit(f"there is no kind {name}; there are {', '.join(kinds)}")
        write_report(pathlib.Path(path), kinds[name], options.bytes)
        return
    paths = [str(pathlib.Path(path).resolve()) for path in (options.program, options.inspect)]
    for path in paths:
        if not os.access(path, os.X_OK):
            sys.exit(f"there is no program {path}; ./pct build builds it")
    tried = [kind for name, kind in kinds.items() if options.only in (None, name)]
    passed = sum(try_kind(kind, options, paths) for kind in tried)
    failed = 2 * len(tried) - passed
    print(f"{passed} passed, {failed} failed")
    sys.exit(1 if failed or not passed else 0)


if __name__ == "__main__":
    main()
