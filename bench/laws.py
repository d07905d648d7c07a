#!/usr/bin/env python3
"""Checks laws of the events of reports, and laws of steps, on made lists and on random runs.

    bench/laws.py [PROGRAM] [--inspect PROGRAM] [--runs N] [--views N] [--seed S]

PROGRAM is the built program, crates/pct_run/out/pct_run where none is named, and after --inspect crates/pct_inspect/out/pct_inspect
(./pct build builds both).

Laws of events, in event_laws.py: RanAll, AfterEnd, Calls, Ends, CancelLaw, ProcessLaw and OnceLaw, each a function over the list of the
events of a report, oldest first. Of Calls, Ends, CancelLaw and OnceLaw this is the part that is about events; what they say of steps, the events
alone do not show: for instance that `handler F A` comes with a call of F, that a thread ends with no key due or after all
passes, or that a thread whose cancelability is deferred acts on a request only at a cancellation point. Once, JoinLaw, CondLaw,
SlotLaw and StatementLaw are not said again here. That the last thread of a process exits it in the step of its end, a part of Ends,
stands in AfterEnd.

Laws of steps, in state_laws.py: Values, Results, Frames, NewThreads, WakeUps, Registrations, Controls and OtherThreads, each a function
over a step with the states before and after it. derived_states.py derives these from the script and the entries; each event of a report has
to be the one that they lead to, and the views `states` and `choices` have to show the same.

- Forms. A line of each form in the table of events of docs/FORMATS.md must be read, and lines that are spoilt must be
  refused.
- Made lists. Each law of events has lists of which it must refuse one event, and none before it. Other lists must be accepted by
  all seven.
- Spoilt runs. Of made runs a line of a view, or an event, is spoilt: the law that is named, and no other one, must refuse that step
  with its sentence, and of the events the first one that was changed must be refused. As it is, each run must be accepted by all
  laws, and so must be the reports of the vectors of conformance/.
- Wrong machines. Of each machine of wrong_states.py, which follows the entries of random runs, the first step that any law refuses
  must be refused by the law that is named, with its sentence.
- Random runs. N runs, 20000 where no number is given, of the scripts of random_scripts.py under random seeds, numbers of passes and
  numbers of slots. Each law must accept each run. In a deadlock no thread may be suspended in a cancellation point with
  cancelability enabled and a request pending. Of the number of runs after --views, 20 where none is given, the views of ten states
  in a row are compared with the derived ones, and the laws must accept the steps between them, too.

Before the last line come the events that the runs had, by kind. The last line is `N passed, M failed`, of forms, lines, lists,
machines, runs and views. The status is 1 if M is not 0.
"""
import argparse
import collections
import itertools
import pathlib
import random
import subprocess
import sys

from derived_runs import Underivable, Views, derived_steps, report_in
from event_laws import LAWS, asleep, refused
from events import FORMS, NAMES, NUMBERS, NoEvent, event_of, events_of, forms_of
from law_lists import FINE, NO_EVENTS, WRONG
from random_scripts import Scripts
from script_text import Script
from spoilt_lists import REPORTS, RUNS, VIEWS
from state_laws import broken
from wrong_states import MACHINES

ROOT = pathlib.Path(__file__).resolve().parent.parent
SECONDS = 60


# ---- made lists

# Marks the event of a list that is to be refused, where it is not the last one.
MARK = ">"


def listed(text):
    """The events of a list, and the place of the one that is to be refused: the marked one, or else the last."""
    lines = [line for line in text.split("; ") if line]
    marked = [place for place, line in enumerate(lines) if line.startswith(MARK)]
    return events_of(line.removeprefix(MARK) for line in lines), marked[0] if marked else len(lines) - 1


def try_lists(count):
    for law, name, text in WRONG:
        events, place = listed(text)
        found = refused(law, events)
        count(found is not None and found[0] == place, f"{law} does not refuse event {place} of the list '{name}': {found}")
    for name, text in FINE:
        for law in LAWS:
            found = refused(law, listed(text)[0])
            count(found is None, f"{law} refuses the list '{name}': {found}")


# ---- lines of events

SAMPLES = {**dict.fromkeys(NUMBERS, "3"), **dict.fromkeys(NAMES, "f_3")}


def is_event(line):
    try:
        event_of(line)
    except NoEvent:
        return False
    return True


def spoilt(form):
    """Lines that are no events: of the form, but with a word too few, a word too many, or a word that is neither a name nor
    a number in the place of one of its words."""
    words = ["1.1", *(SAMPLES.get(field, field) for field in form.split())]
    yield " ".join(words[:-1])
    yield " ".join([*words, "3"])
    for place in range(len(words)):
        yield " ".join([*words[:place], "-3", *words[place + 1:]])


def try_forms(count):
    """Each form of docs/FORMATS.md is known, and no other one; a line of it is an event, and what is spoilt of it is not."""
    page = forms_of((ROOT / "docs/FORMATS.md").read_text())
    for form in sorted({*page, *FORMS}):
        count(form in FORMS and form in page, f"the form '{form}' is not both in docs/FORMATS.md and in bench/events.py")
    for form in FORMS:
        line = " ".join(["1.1", *(SAMPLES.get(field, field) for field in form.split())])
        count(is_event(line), f"the line '{line}' is refused")
        for other in spoilt(form):
            count(not is_event(other), f"the line '{other}' is taken to be an event")
    for name, line in NO_EVENTS:
        count(not is_event(line), f"the line {line!r} is taken to be an event: {name}")


# ---- random runs

RUNS_OF_A_SCRIPT = 10


def answer_of(program, words, text):
    try:
        ran = subprocess.run([program, *words], input=text.encode(), stdout=subprocess.PIPE, timeout=SECONDS)
    except subprocess.TimeoutExpired:
        return "(no answer in time)"
    except OSError as error:
        sys.exit(f"{program} cannot be run: {error.strerror}")
    return ran.stdout.decode(errors="replace")


def random_run(program, seed, number):
    """The text of a script, the words of `run`, and its report. Some runs in a row have the same script."""
    text = Scripts(seed * 1_000_003 + number // RUNS_OF_A_SCRIPT).text()
    chosen = random.Random(seed * 1_000_003 + number)
    words = ["--seed", str(chosen.randrange(1 << 64)), "--budget", "400", "--passes", str(chosen.choice([4, 4, 4, 5, 16])), "--slots", str(chosen.choice([64, 4, 2, 3]))]
    return text, words, report_in(answer_of(program, ["run", *words], text))


KINDS_OF_TWO_WORDS = ("call", "done", "answer", "ending", "state", "type", "undefined", "profile")


def kind(event):
    if event.word == "pop":
        return f"pop {event.words[3]}"
    if event.word == "once":
        return f"once {event.words[2]}"
    if event.words[:2] == ("ending", "canceled") and len(event.words) == 4:
        return "ending canceled C M"
    return " ".join(event.words[:2]) if event.word in KINDS_OF_TWO_WORDS else event.word


def refused_steps(script, report):
    """What the laws of steps refuse of a report, and the event that its script does not lead to."""
    try:
        for number, step in enumerate(derived_steps(script, report), 1):
            yield from ((law, f"step {number}: {sentence}") for law, sentence in broken(step))
    except Underivable as error:
        yield "Derived", str(error)


def try_runs(program, runs, seed, count):
    kinds, verdicts = collections.Counter(), collections.Counter()
    for number in range(runs):
        try:
            text, words, report = random_run(program, seed, number)
        except NoEvent as error:
            count(False, f"run {number} of seed {seed}: {error}")
            continue
        kinds.update(kind(event) for event in report.events)
        verdicts[report.verdict.split(" ", 1)[1]] += 1
        found = [(law, refused(law, report.events)) for law in LAWS]
        wrong = [(law, why) for law, why in found if why is not None]
        if report.verdict == "verdict deadlock":
            wrong += [("CancelLaw", f"thread {tid} of process {pid} is not awakened") for pid, tid in asleep(report.events)]
        wrong += refused_steps(Script(text), report)
        count(not wrong, f"run {number} of seed {seed}, {' '.join(words)}: {wrong[:3]}")
    return kinds, verdicts


# ---- views

STATES_IN_A_ROW = 10


def try_views(programs, runs, seed, count):
    """The views show the derived states, and the laws accept the steps between the states that the views show."""
    for number in range(runs):
        text, _, report = random_run(programs[0], seed, number * RUNS_OF_A_SCRIPT)
        steps = list(derived_steps(Script(text), report))
        views = Views(programs[1], text, report)
        start = random.Random(seed * 1_000_003 + number).randrange(max(1, len(steps) - STATES_IN_A_ROW))
        before = views.state(start)
        for length in range(start + 1, min(start + STATES_IN_A_ROW, len(steps)) + 1):
            step, after = steps[length - 1], views.state(length)
            count(after == step.after, f"run {number * RUNS_OF_A_SCRIPT} of seed {seed}: the views after entry {length} are not the derived state")
            viewed = step.between(before, after)
            count(not broken(viewed), f"run {number * RUNS_OF_A_SCRIPT} of seed {seed}, views: entry {length}: {broken(viewed)}")
            before = after


# ---- spoilt runs


def made_run(program, name):
    """The script of a made run, and its report as a text."""
    text, entries = RUNS[name]
    lines = [f"1 1 {entry}" for entry in entries.split("; ")]
    number = 2 if "timedwait" in text or "\nonce " in f"\n{text}" else 1
    schedule = "\n".join([f"schedule {number} 100 4 3", *lines, f"end {len(lines)}", ""])
    return text, answer_of(program, ["replay"], f"{text}%%\n{schedule}")


def try_views_spoilt(programs, count):
    for law, sentence, name, run, number, old, new in VIEWS:
        text, report = made_run(programs[0], run)
        step = next(itertools.islice(derived_steps(Script(text), report_in(report)), number - 1, None))
        views = Views(programs[1], text, report_in(report))
        texts = views.texts(number)
        places = [place for place, shown in enumerate(texts) if shown.count(old) == 1]
        if len(places) != 1 or views.state(number) != step.after:
            count(False, f"the view of '{name}' has no such text, or more than one, or is not the derived state")
            continue
        texts[places[0]] = texts[places[0]].replace(old, new)
        spoilt = step.between(step.before, views.read(texts))
        count(not broken(step), f"the run of '{name}' is refused: {broken(step)}")
        found = broken(spoilt)
        only = all(other == law for other, _ in found)
        count(only and any(sentence in why for _, why in found), f"{law} alone does not refuse '{name}' by '{sentence}', but {found}")


def try_made_runs(program, count):
    """The laws accept the made runs, and the reports of the vectors of conformance/ that are of a run."""
    reports = [(name, *made_run(program, name)) for name in RUNS]
    for folder in sorted((ROOT / "conformance").iterdir()):
        report = folder / "report.txt"
        if report.is_file() and report.read_text().startswith("report "):
            reports.append((f"conformance/{folder.name}", (folder / "script.pct").read_text(), report.read_text()))
    for name, text, report in reports:
        wrong = [(law, refused(law, report_in(report).events)) for law in LAWS]
        wrong = [(law, why) for law, why in wrong if why] + list(refused_steps(Script(text), report_in(report)))
        count(not wrong, f"the run of {name} is refused: {wrong[:3]}")


def try_reports_spoilt(program, count):
    for name, run, old, new in REPORTS:
        text, report = made_run(program, run)
        if report.count(f"\n{old}") != 1:
            count(False, f"the report of '{name}' has no such events, or twice")
            continue
        events, spoilt = report_in(report).events, report_in(report.replace(f"\n{old}", f"\n{new}"))
        place = next((at for at, (one, other) in enumerate(zip(events, spoilt.events)) if one != other), min(len(events), len(spoilt.events)))
        try:
            found = [broken(step) for step in derived_steps(Script(text), spoilt)]
            count(False, f"the report of '{name}' is not refused: {found}")
        except Underivable as error:
            count(error.args[0] == place, f"of the report of '{name}' event {error.args[0]} is refused, and not {place}")


RUNS_OF_MACHINES = 500


def first_refused(runs, machine):
    """The laws and sentences of the first step of a machine that a law refuses. A machine may come to where an entry is not possible."""
    for script, report in runs:
        try:
            for step in derived_steps(script, report, machine):
                if broken(step):
                    return broken(step)
        except (AttributeError, IndexError, KeyError, StopIteration, TypeError):
            continue
    return []


def try_machines(program, count):
    runs = []
    for number in range(RUNS_OF_MACHINES):
        text, _, report = random_run(program, 1, number * RUNS_OF_A_SCRIPT)
        runs.append((Script(text), report))
    for law, sentence, machine in MACHINES:
        found = first_refused(runs, machine)
        count(any(name == law and sentence in why for name, why in found), f"{law} does not refuse {machine.__name__} by '{sentence}', but {found}")


def main():
    parser = argparse.ArgumentParser(description=__doc__, formatter_class=argparse.RawDescriptionHelpFormatter)
    parser.add_argument("program", nargs="?", default=str(ROOT / "crates/pct_run/out/pct_run"))
    parser.add_argument("--inspect", default=str(ROOT / "crates/pct_inspect/out/pct_inspect"))
    parser.add_argument("--runs", type=int, default=20_000)
    parser.add_argument("--views", type=int, default=20)
    parser.add_argument("--seed", type=int, default=1)
    args = parser.parse_args()
    results = collections.Counter()

    def count(passed, why):
        results["passed" if passed else "failed"] += 1
        if not passed and results["failed"] <= 20:
            print(f"failed: {why}")

    programs = args.program, args.inspect
    for program in programs:
        if not pathlib.Path(program).is_file():
            sys.exit(f"there is no program {program}; ./pct build builds it")
    try_forms(count)
    try_lists(count)
    try_made_runs(args.program, count)
    try_views_spoilt(programs, count)
    try_reports_spoilt(args.program, count)
    try_machines(args.program, count)
    try_views(programs, args.views, args.seed, count)
    kinds, verdicts = try_runs(args.program, args.runs, args.seed, count)
    for name, number in sorted(verdicts.items()):
        print(f"{number:9} runs with the verdict {name}")
    for name, number in sorted(kinds.items()):
        print(f"{number:9} {name}")
    print(f"{results['passed']} passed, {results['failed']} failed")
    sys.exit(1 if results["failed"] else 0)


if __name__ == "__main__":
    main()
