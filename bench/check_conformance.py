#!/usr/bin/env python3
"""Tests bench/conformance.py with implementations that are made up.

    bench/check_conformance.py

What --run prints is compared with what conformance/README.md says that it prints, for commands that answer rightly, with
another event, with the right events in another report, without a line end, with another status, that crash, and that
hang. They run in a temporary folder that has bench/conformance.py and three folders of conformance/, and nothing else.
The parts of bench/vectors_in_c.py that compare what a program wrote are tried with made lines, without a compiler.
Vectors of another folder are run, one of them without rule.txt, and words that the runner does not have are tried. What is
made of a small vectors.txt is compared with what its top and README.md say, and marks with their sources.

The last line is `N passed, M failed`. The status is 1 if M is not 0.
"""
import os
import pathlib
import shlex
import shutil
import subprocess
import sys
import tempfile
import time

import conformance
import vectors_in_c

ROOT = pathlib.Path(__file__).resolve().parent.parent
PROGRAM = "bench/conformance.py"

# ---- three vectors, as README.md describes their folders

EMIT, LOCK, STOP = "emits_twice", "locks_its_own_mutex", "stops_at_once"
RULES = {
    EMIT: ["rule A return ends main", "mark S+P", "source S: `exit`; the step: P", "section Exit, and the end of a process"],
    LOCK: ["rule A second lock deadlocks", "mark S", "source S: `pthread_mutex_lock`", "section Mutexes"],
    STOP: ["rule A key has to exist", "mark P", "source P", "section Thread-specific data"],
}
EVENTS = {EMIT: ["1.1 emit 1", "1.1 emit 2"], LOCK: ["1.1 acquire m"], STOP: ["1.1 undefined key_id"]}
VERDICTS = {EMIT: "verdict open", LOCK: "verdict deadlock", STOP: "verdict undefined key_id"}
STATUSES = {EMIT: 4, LOCK: 1, STOP: 3}
SCHEDULE = ["schedule 1 9 4 2", "1 1 1 go", "end 1"]

# A command that is called with the name of a fault and the name of the vector that has it. It looks the input up in the
# folders, and answers rightly but for this one.
COMMAND = r'''
import os, pathlib, signal, sys, time
fault, faulty = sys.argv[1:]
given = sys.stdin.buffer.read()
for folder in pathlib.Path("conformance").iterdir():
    read = lambda name: (folder / name).read_bytes()
    if given == read("script.pct") + b"%%\n" + read("schedule.txt"):
        report, status, is_faulty = read("report.txt"), int(read("status.txt")), folder.name == faulty
        break
else:
    sys.exit("no vector has this input")
if is_faulty and fault == "event":
    report = report.replace(b"emit 2", b"emit 3")
if is_faulty and fault == "verdict":
    report = report.replace(b"verdict open", b"verdict complete")
if is_faulty and fault == "end":
    report = report[:-1]
if is_faulty and fault in ("crash", "hang"):
    report = report[:report.index(b"1.1 emit 2")]
if fault == "other report":
    report = b"\n".join([b"# a report", *report.split(b"schedule")[0].split(b"\n")[1:], b"thread 1 at 1.1", b""])
sys.stdout.buffer.write(report)
sys.stdout.flush()
if is_faulty and fault in ("crash", "late crash"):
    os.kill(os.getpid(), signal.SIGSEGV)
if is_faulty and fault == "hang":
    # Another process, which has the output open, hangs as well.
    os.fork()
    signal.pause()
if is_faulty and fault == "slow":
    time.sleep(0.5)
sys.exit(5 if is_faulty and fault == "status" else 0 if fault == "other report" else status)
'''


def text_of(lines):
    return "".join(f"{line}\n" for line in lines)


def make_folders(top):
    """The runner and the three vectors."""
    (top / "bench").mkdir()
    shutil.copy(ROOT / PROGRAM, top / PROGRAM)
    (top / "command.py").write_text(COMMAND)
    for name, rule in RULES.items():
        folder = top / "conformance" / name
        folder.mkdir(parents=True)
        files = {
            "script.pct": ["fn main x", f"    # {name}", "end"], "schedule.txt": SCHEDULE, "rule.txt": rule,
            "report.txt": ["report 1", *EVENTS[name], VERDICTS[name], *SCHEDULE], "status.txt": [str(STATUSES[name])],
        }
        for file, lines in files.items():
            (folder / file).write_text(text_of(lines))


# ---- what is printed

FIELDS = {
    "rule": "A return ends main", "mark": "S+P", "source": "S: `exit`; the step: P",
    "read": "docs/POSIX.md#exit-and-the-end-of-a-process",
    "steps": "./pct trace conformance/emits_twice/script.pct conformance/emits_twice/schedule.txt",
}
ABOUT = [f"    {field}: {text}" for field, text in FIELDS.items()]
ALL = ["3 passed, 0 failed"]


def one_fails(what, kind):
    return [f"{EMIT}: {what}", *ABOUT, f"1 vector first differs at '{kind}'", "2 passed, 1 failed"], 1


def tap(plan, *lines):
    return [f"TAP version 14", f"1..{plan}", *lines]


BLOCK = [
    "  ---", '  message: "line 3: expected \'1.1 emit 2\', written \'1.1 emit 3\'"',
    *(f'  {field}: "{text}"' for field, text in FIELDS.items()), "  ...",
]
OK = [f"ok {number} - {name}" for number, name in enumerate((EMIT, LOCK, STOP), 1)]


def other_report(name):
    """What is printed for a vector whose report has another first line, and whose status is 0."""
    rule, mark, source, section = (line.split(" ", 1)[1] for line in RULES[name])
    return [
        f"{name}: line 1: expected 'report 1', written '# a report'; expected status {STATUSES[name]}, ended with 0",
        f"    rule: {rule}", f"    mark: {mark}", f"    source: {source}",
        f"    read: docs/POSIX.md#{section.lower().replace(',', '').replace(' ', '-')}",
        f"    steps: ./pct trace conformance/{name}/script.pct conformance/{name}/schedule.txt"]


# The fault, the options, and the lines and the status that are expected.
RUNS = [
    ("none", "", ALL, 0),
    ("none", "--events", ALL, 0),
    ("event", "", *one_fails("line 3: expected '1.1 emit 2', written '1.1 emit 3'", "emit")),
    ("event", "--events", *one_fails("event 2: expected '1.1 emit 2', written '1.1 emit 3'", "emit")),
    ("verdict", "--events", *one_fails("event 3: expected 'verdict open', written 'verdict complete'", "verdict")),
    ("end", "", *one_fails("line 7: expected 'end 1', written 'end 1' without a line end", "end")),
    ("status", "", *one_fails("expected status 4, ended with 5", "status")),
    ("status", "--events", ALL, 0),
    ("crash", "", *one_fails("line 3: expected '1.1 emit 2', written no line; killed by SIGSEGV", "emit")),
    ("crash", "--events", *one_fails("event 2: expected '1.1 emit 2', written no line; killed by SIGSEGV", "emit")),
    ("late crash", "", *one_fails("killed by SIGSEGV", "the end")),
    ("late crash", "--events", *one_fails("killed by SIGSEGV", "the end")),
    ("hang", "--timeout 0.5", *one_fails("line 3: expected '1.1 emit 2', written no line; no end after 0.5 s", "emit")),
    ("other report", "--events", ALL, 0),
    ("other report", f"--filter {EMIT}", [
        f"{EMIT}: line 1: expected 'report 1', written '# a report'; expected status 4, ended with 0", *ABOUT,
        "1 vector first differs at 'report'", "0 passed, 1 failed"], 1),
    ("other report", "", [
        *(line for name in (EMIT, LOCK, STOP) for line in other_report(name)),
        "3 vectors first differ at 'report'", "0 passed, 3 failed"], 1),
    ("none", "--tap", [*tap(3, *OK), "# 3 passed, 0 failed"], 0),
    ("event", "--tap", [*tap(3, f"not {OK[0]}", *BLOCK, *OK[1:]), "# 1 vector first differs at 'emit'", "# 2 passed, 1 failed"], 1),
    ("slow", "--tap --jobs 3", [*tap(3, *OK), "# 3 passed, 0 failed"], 0),
    ("event", "--tap --only P", [*tap(1, f"ok 1 - {STOP}"), "# 1 passed, 0 failed"], 0),
    ("none", "--tap --only S", [*tap(1, f"ok 1 - {LOCK}"), "# 1 passed, 0 failed"], 0),
    ("none", "--tap --only S+P", [*tap(1, f"ok 1 - {EMIT}"), "# 1 passed, 0 failed"], 0),
    ("none", "--tap --filter mutex_lock", [*tap(1, f"ok 1 - {LOCK}"), "# 1 passed, 0 failed"], 0),
    ("none", "--tap --filter emits", [*tap(1, f"ok 1 - {EMIT}"), "# 1 passed, 0 failed"], 0),
    ("none", "--tap --filter Thread-specific", [*tap(1, f"ok 1 - {STOP}"), "# 1 passed, 0 failed"], 0),
    ("none", "--filter emits --only P", ["0 passed, 0 failed"], 1),
]


def call(top, *words):
    """What the runner prints, and its status."""
    ran = subprocess.run([sys.executable, PROGRAM, *words], cwd=top, stdout=subprocess.PIPE, stderr=subprocess.DEVNULL,
                         text=True, timeout=60)
    return ran.stdout.splitlines(), ran.returncode


def check_runs(top):
    for fault, options, lines, status in RUNS:
        command = shlex.join([sys.executable, "command.py", fault, EMIT])
        found = call(top, "--run", command, *options.split())
        yield f"{fault} {options}", found, (lines, status)


def check_jobs(top):
    """Three hanging runs at once take about as long as one."""
    start = time.monotonic()
    call(top, "--run", "sleep 60", "--timeout", "1", "--jobs", "3")
    yield "--jobs 3 runs three at once", time.monotonic() - start < 2.5, True


def check_folder(top):
    """A folder of own vectors, of which one has no rule.txt."""
    shutil.copytree(top / "conformance", top / "own")
    shutil.rmtree(top / "own" / LOCK)
    (top / "own" / EMIT / "rule.txt").unlink()
    command = shlex.join([sys.executable, "command.py", "event", EMIT])
    yield "--folder", call(top, "--run", command, "--folder", "own"), ([
        f"{EMIT}: line 3: expected '1.1 emit 2', written '1.1 emit 3'",
        f"    steps: ./pct trace own/{EMIT}/script.pct own/{EMIT}/schedule.txt",
        "1 vector first differs at 'emit'", "1 passed, 1 failed"], 1)
    marked = call(top, "--run", command, "--folder", "own", "--only", "P")
    yield "--folder with --only", marked, (["1 passed, 0 failed"], 0)
    (top / "own" / STOP / "report.txt").unlink()
    yield "a vector without a report", call(top, "--run", command, "--folder", "own"), ([], 2)


def check_misuse(top):
    """Words that the runner does not have give another status than a vector that fails."""
    for words in (["--events"], ["--check", "--write"], ["--run", "true", "--write"], ["--run", "true", "--only", "Q"],
                  ["--run", "true", "--jobs", "0"], ["--run", "./nothing"], ["--run", "true", "--folder", "nowhere"]):
        yield " ".join(words), call(top, *words), ([], 2)
    lines, status = call(top)
    yield "without a word it says what it does", (lines[0][:5], status), ("Makes", 0)


def check_reader(top):
    """A reader that goes away ends the runner without a traceback."""
    command = shlex.join([sys.executable, "command.py", "other report", EMIT])
    words = shlex.join([sys.executable, PROGRAM, "--run", command])
    line = f"{words} | sh -c 'exec <&-'"
    ran = subprocess.run(["sh", "-c", line], cwd=top, stderr=subprocess.PIPE, text=True, timeout=60)
    yield "a reader that goes away", ran.stderr, ""


# ---- what is made of vectors.txt

VECTORS = """section Fork
vector a_rule
rule One
mark S
source S: `fork`; the number: P
script
fn main x
end
schedule 1 9 4 2
1.1 go | exit 0
verdict open

vector a_stop
rule Two
mark P
source S: `fork`, undefined; the stop: P
script
fn main x
end
schedule 1 9 4 2
verdict open

vector a_freedom
rule Three
mark S+P
source S: 2.9.5.2; a choice of the schedule: P
script
fn main x
end
schedule 1 9 4 2
verdict open

vector a_choice
rule Four
mark P
source P: the standard allows both (`fork`)
script
fn main x
end
schedule 1 9 4 2
verdict open
"""
# A mark, a source, and whether the source allows the mark.
MARKS = [
    ("S", "S: `fork`; the number: P", True), ("S", "S: `fork`; the choice: P", False), ("S", "P", False),
    ("S", "S: `pthread_join`, which allows EDEADLK", False), ("S", "S: `fork`, undefined", False),
    ("S", "S: XBD `<limits.h>`, at least 32; the number: P", False), ("S+P", "S: 2.13; the choice: P", True),
    ("S+P", "S: 2.13", False), ("S+P", "P", False), ("P", "P", True), ("P", "S: `exit`, undefined; the stop: P", True),
    ("P", "S: `exit`", False),
]


def check_marks(_):
    for mark, source, is_allowed in MARKS:
        fault = conformance.Vector("Fork", "a_vector", mark=mark, source=source).mark_fault()
        yield f"mark {mark}, source {source}", fault is None, is_allowed


def check_made(top):
    (top / "conformance/vectors.txt").write_text(VECTORS.replace("mark P\n", "", 1))
    yield "a vector without a mark", call(top, "--write"), ([], 1)
    (top / "conformance/vectors.txt").write_text(VECTORS)
    (top / "conformance/README.md").write_text("## The vectors\n")
    (top / "crates/pct_cases").mkdir(parents=True)
    for name, text in (("stdin", "# Conformance vectors\n"), ("stdout", "passed a case\n")):
        (top / "crates/pct_cases" / name).write_text(text)
    yield "vectors are made", call(top, "--write"), (["4 vectors"], 0)
    yield "other folders are removed", sorted(os.listdir(top / "conformance")), [
        "README.md", "a_choice", "a_freedom", "a_rule", "a_stop", "vectors.txt"]
    rule = (top / "conformance/a_rule/rule.txt").read_text()
    yield "rule.txt", rule, "rule One\nmark S\nsource S: `fork`; the number: P\nsection Fork\n"


# ---- C programs of vectors; no compiler is called

WAITER = ["fn waiter x", "pthread_mutex_lock m", "if x", "end", "pthread_cond_wait c m", "end"]
# What creates the waiters, and whether they are alike.
CREATES = [
    (["pthread_create - - waiter 0", "pthread_create - - waiter 0"], True),
    (["pthread_create - - waiter 0", "pthread_create - - waiter 1"], False),
    (["pthread_create - a waiter 0", "pthread_create - a waiter 0"], False),
    (["pthread_create - - waiter 0"], False),
    (["pthread_create - - waiter 0", "pthread_create - - waiter 0", "pthread_cond_wait c m"], False),
]
ENDS = ["1.1 go | create 2 joinable", "1.2 go | dtor 1 1 destroy 5", "1.1 go | process_end 3"]
WANTED = ["1.1 create 2 joinable", "1.2 dtor destroy 5"]
HANGS = "thread 1 is at a call that the schedule does not have: destroy"
# What a program writes, its status, whether it was late, and the fault.
ANSWERS = [
    (WANTED, 3, False, None),
    (WANTED, 0, False, ("process_end", "expected 'process_end 3', ended with 0")),
    (WANTED[:1], 0, False, ("dtor", "expected '1.2 dtor destroy 5': ended with 0")),
    (WANTED[:1], -9, True, ("dtor", "expected '1.2 dtor destroy 5': no event for 2 s")),
    ([WANTED[0], "1.2 emit 1"], -9, False, ("dtor", "expected '1.2 dtor destroy 5', written '1.2 emit 1'")),
    ([*WANTED, "1.2 emit 1"], -9, False, ("emit", "expected no more events, written '1.2 emit 1'")),
    (WANTED, -9, True, ("process_end", "the program does not end")),
    ([*WANTED, "# 1.1 destroy"], -9, True, ("process_end", HANGS)),
    ([WANTED[0], "# 1.1 destroy"], -9, True, ("dtor", f"expected '1.2 dtor destroy 5': no event for 2 s; {HANGS}")),
    ([*WANTED, "# 2.1 destroy"], -9, True, ("process_end", HANGS.replace("1 is", "1 of process 2 is"))),
]


def check_programs(_):
    for creates, is_alike in CREATES:
        yield f"alike: {creates}", vectors_in_c.are_alike([*WAITER, "fn main x", *creates, "end"]), is_alike
    steps = [vectors_in_c.Step(*conformance.step_of(0, line)) for line in ENDS]
    case = vectors_in_c.Case(None, [], steps, "verdict complete")
    for lines, status, is_late, fault in ANSWERS:
        ran = vectors_in_c.Ran(*vectors_in_c.separated(lines), status, is_late, 2)
        yield f"written: {lines}", vectors_in_c.fault_of(case, WANTED, ran), fault


def check_expected(top):
    """Names that --expect may have. No compiler is called, since the words are wrong or no vector is chosen."""
    (top / "known").write_text(f"# known to fail\n{EMIT}  # always\n\n")
    words = ["--cc", sys.executable, "--expect", str(top / "known")]
    options = vectors_in_c.options_of([*words, "--folder", str(top / "conformance")])
    yield "--expect", vectors_in_c.expected_failures(options), {EMIT}
    (top / "known").write_text("no_such_vector\n")
    command = [sys.executable, ROOT / "bench/vectors_in_c.py", *words]
    ran = subprocess.run(command, stderr=subprocess.PIPE, text=True, timeout=60)
    wanted = (2, f"{top / 'known'} names no vector: no_such_vector\n")
    yield "--expect with another name", (ran.returncode, ran.stderr), wanted


def main():
    passed = failed = 0
    with tempfile.TemporaryDirectory() as name:
        top = pathlib.Path(name)
        make_folders(top)
        for check in (check_runs, check_jobs, check_folder, check_misuse, check_reader, check_marks, check_expected, check_made, check_programs):
            for what, found, wanted in check(top):
                passed += found == wanted
                failed += found != wanted
                if found != wanted:
                    print(f"{what}:\n  expected {wanted}\n  found    {found}")
    print(f"{passed} passed, {failed} failed")
    sys.exit(1 if failed else 0)


main()
