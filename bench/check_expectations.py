#!/usr/bin/env python3
"""Compares `survey` with rules that are judged here, run by run, and reads the suites of tests of `./pct test`.

    bench/check_expectations.py [PROGRAM [INSPECT [PAIRS]]]

PAIRS random expectations, 500 where no number is given, are made of the words of the reports of random scripts and of the examples. Each
rule is judged here of the report of `run --seed S`, for the seeds from 1 on, by its definition: for each event all others are looked at.
The text that `survey` has to write is made of that. Rules with faults have to be refused at the line that is expected here. Then
`./pct test` is run on examples/, and on folders with failures, and its results are read by `prove` of Perl, if that is installed.

PROGRAM is the built program, crates/pct_run/out/pct_run where none is named, and INSPECT is crates/pct_inspect/out/pct_inspect (./pct
build makes both). The last line is `N passed, M failed`, and the status is 1 if M is not 0 or N is 0.
"""
import pathlib
import random
import shlex
import shutil
import subprocess
import sys
import tempfile

from random_scripts import Scripts

ROOT = pathlib.Path(__file__).resolve().parent.parent
ENDINGS = """complete deadlock budget fork_child_call async_call enable_in_handler exit_in_ending thread_id join_self not_joinable join_twice
    detach_joined key_id not_owner cond_two_mutexes exit_twice fork_in_ending stack_full cleanup_full""".split()


def call(program, words, text):
    done = subprocess.run([program, *words], input=text, capture_output=True, timeout=100)
    return done.returncode, done.stdout.decode()


def matches(pattern, event):
    return len(pattern) == len(event) and all(asked in ("*", word) for asked, word in zip(pattern, event))


def holds(kind, number, first, second, events):
    """Whether a rule holds of a list of events."""
    asking = [i for i, event in enumerate(events) if matches(second if kind == "before" else first, event)]
    if kind == "never":
        return not asking
    if kind == "count":
        return len(asking) == number
    if kind == "before":
        return all(any(matches(first, earlier) for earlier in events[:i]) for i in asking)
    same = kind == "thread"
    return all(any(matches(second, later) and not (same and later[0] != events[i][0]) for later in events[i + 1:]) for i in asking)


def rule_of(line):
    """The parts of a rule that is spelled well."""
    kind, *words = line.split()
    if kind == "never":
        return kind, 0, words, []
    if kind == "count":
        return kind, int(words[0]), words[1:], []
    at = words.index("/")
    return kind, 0, words[:at], words[at + 1:]


def first(seeds):
    return f"first {seeds[0]}" if seeds else "-"


def survey_of(text, reports):
    """The text and the status of a survey of these rules over these reports."""
    lines, status, verdicts, runs = [], 0, {}, []
    for seed, report in enumerate(reports, 1):
        events, _, rest = report.partition("\nverdict ")
        runs.append([line.split() for line in events.splitlines()[1:]])
        verdicts.setdefault(rest.partition("\n")[0], []).append(seed)
    for number, line in enumerate(text.splitlines(), 1):
        if not line.strip() or line.split()[0].startswith("#"):
            continue
        rule = rule_of(line)
        held = [seed for seed, events in enumerate(runs, 1) if holds(*rule, events)]
        failed = [seed for seed in range(1, len(runs) + 1) if seed not in held]
        lines.append(f"{number}\tholds {len(held)}\tfails {len(failed)}\t{first(held)}\t{first(failed)}")
        status = 14 if failed else status
    for verdict in sorted(verdicts, key=lambda words: ENDINGS.index(words.split()[-1])):
        lines.append(f"verdict {verdict}\t{len(verdicts[verdict])}\t{first(verdicts[verdict])}")
    return status, "".join(line + "\n" for line in lines)


def random_rules(chosen, reports):
    """Rules over words that occur."""
    events = [line.split() for report in reports for line in report.partition("\nverdict ")[0].splitlines()[1:]] or [["1.1", "emit", "1"]]

    def pattern():
        words = list(chosen.choice(events))
        if chosen.random() < 0.1:
            words[chosen.randrange(len(words))] = chosen.choice(chosen.choice(events))
        often = chosen.choice([0.2, 0.5, 0.9])
        return " ".join("*" if chosen.random() < often else word for word in words)

    lines = []
    for _ in range(chosen.randint(1, 8)):
        if chosen.random() < 0.15:
            lines.append(chosen.choice(["", "# a comment", "  \t"]))
        kind = chosen.choice(["never", "count", "before", "after", "thread", "thread"])
        if kind == "never":
            lines.append(f"never {pattern()}")
        elif kind == "count":
            lines.append(f"count {chosen.choice([0, 1, 1, 2, 3, 7])} {pattern()}")
        else:
            lines.append(f"{kind} {pattern()} / {pattern()}")
    return "\n".join(lines) + "\n"


class Check:
    """The two programs, and how many comparisons passed and failed."""

    def __init__(self, program, inspect):
        self.program, self.inspect = program, inspect
        self.passed = self.failed = 0

    def equal(self, name, found, wanted):
        if found == wanted:
            self.passed += 1
        else:
            self.failed += 1
            print(f"FAILED {name}: {found} in the place of {wanted}")

    def refused(self, name, words, text, status, line):
        self.equal(name, call(self.inspect, words, text.encode()), (status, line + "\n"))


def check_surveys(check, pairs):
    chosen = random.Random(45)
    examples = sorted((ROOT / "examples").glob("*.pct"))
    for number in range(pairs):
        script = chosen.choice(examples).read_text() if chosen.random() < 0.3 else Scripts(chosen.randrange(10**9)).text()
        options = []
        if chosen.random() < 0.3:
            options += ["--budget", str(chosen.choice([1, 5, 20, 100, 3000]))]
        if chosen.random() < 0.2:
            options += ["--passes", str(chosen.randint(4, 16))]
        if chosen.random() < 0.2:
            options.append(f"--slots={chosen.choice([1, 2, 3, 64])}")
        seeds = chosen.choice([1, 2, 5, 12])
        runs = [call(check.program, ["run", "--seed", str(seed), *options], script.encode()) for seed in range(1, seeds + 1)]
        if runs[0][0] > 4:
            continue
        reports = [report for _, report in runs]
        rules = random_rules(chosen, reports)
        found = call(check.inspect, ["survey", str(seeds), *options], (script.rstrip("\n") + "\n%%\n" + rules).encode())
        check.equal(f"pair {number}, survey {seeds} {' '.join(options)} of\n{script}%%\n{rules}", found, survey_of(rules, reports))


def check_refusals(check):
    script = "fn main x\nreturn 0\nend\n"
    for words in ["survey", "survey 0", "survey 007", "survey 100001", "survey 1 2", "survey 1 --seed 2", "survey 1 --workers=2", "survey 1 --turns 2",
                  "survey 1 --budget", "survey 1 --budget x", "survey --budget 1 1", "survey 1 --slots 1 --slots 1"]:
        check.refused(words, words.split(), script + "%%\nnever * x\n", 5, "refused words")
    check.refused("the script comes before the rules", ["survey", "1"], "fn main x\nemit\nend\n%%\nnever\n", 6, "refused script 2 word_count")
    check.refused("no line %%", ["survey", "1"], script, 15, "refused expect 1 no_rule")
    check.refused("comments alone", ["survey", "1"], script + "%%\n# x\n\n", 15, "refused expect 1 no_rule")
    check.refused("65 rules", ["survey", "1"], script + "%%\n# x\n" + "never * x\n" * 65, 15, "refused expect 66 too_many")
    check.refused("a long input", ["survey", "1"], script + "%%\n#" + "x" * 16_777_216, 8, "refused input too_long")
    for rule in ["never emit", "never", "never * a b c d e f", "count x * emit 1", "count 4294967296 * x", "before * a", "before * a * b", "before * a / b",
                 "after * a /* b", "thread * a / * b / * c", "Never * a", "never * a\x01", "never * \xe9", "always * a", "count * emit 1", "never * /"]:
        check.refused(f"the rule {rule!r}", ["survey", "1"], f"{script}%%\nnever * x\n\n{rule}\nnever x\n", 15, "refused expect 3 bad_line")


def lines_of_test(folder, *words):
    done = subprocess.run([ROOT / "pct", "test", folder, *words], capture_output=True, timeout=500)
    return done.returncode, done.stdout.decode().splitlines()


def proved(folder, *words):
    """Whether `prove` says that all tests passed, or nothing where there is no `prove`."""
    if not shutil.which("prove"):
        return None
    with tempfile.TemporaryDirectory() as name:
        suite = pathlib.Path(name) / "suite.t"
        suite.write_text(shlex.join([str(ROOT / "pct"), "test", str(folder), *words]) + "\n")
        done = subprocess.run(["prove", "--exec", "sh", suite], capture_output=True, timeout=500)
    return done.returncode == 0


def check_suites(check):
    names = sorted(path.name for path in (ROOT / "examples").glob("*") if path.suffix in (".expect", ".some"))
    status, lines = lines_of_test(ROOT / "examples")
    check.equal("examples", (status, lines), (0, ["TAP version 13", *(f"ok {n} - {name}" for n, name in enumerate(names, 1)), f"1..{len(names)}"]))
    with tempfile.TemporaryDirectory() as name:
        folder = pathlib.Path(name)
        check.equal("an empty folder", lines_of_test(folder), (1, ["TAP version 13", f"not ok 1 - {folder}", "# the folder has no expectation: no file NAME.expect or NAME.some", "1..1"]))
        check.equal("no folder", lines_of_test(folder / "x")[0], 66)
        shutil.copy(ROOT / "examples/race.pct", folder / "race.pct")
        check.equal("a script without rules is no test", lines_of_test(folder)[0], 1)
        (folder / "race.some").write_text("never * emit 2\ncount 2 * emit 2\n")
        wanted = ["TAP version 13", "ok 1 - race.some", "1..1"]
        check.equal("a test that passes", lines_of_test(folder, "--seeds", "50"), (0, wanted))
        check.equal("a test that passes, by prove", proved(folder, "--seeds=50") in (True, None), True)
        (folder / "race.expect").write_text("# x\ncount 1 1.1 exit 0\nnever * emit 2\n")
        (folder / "race.some").write_text("never * emit 2\ncount 9 * emit *\n")
        (folder / "alone.expect").write_text("never * emit 2\n")
        (folder / "folder.some").mkdir()
        (folder / "it's #1.pct").write_text("fn main x\nreturn 0\nend\n")
        (folder / "it's #1.expect").write_text("never x\n")
        status, lines = lines_of_test(folder, "--seeds=50")
        seeds = [seed for seed in range(1, 51) if " emit 2\n" in call(check.program, ["run", "--seed", str(seed)], (folder / "race.pct").read_bytes())[1]]
        check.equal("tests that fail", (status, lines), (1, [
            "TAP version 13",
            "not ok 1 - alone.expect",
            f"# there is no script {folder}/alone.pct beside it",
            "not ok 2 - folder.some",
            f"# {folder}/folder.some is no file that can be read",
            "not ok 3 - it's \\#1.expect",
            "# status 15: refused expect 1 bad_line",
            f"# shown by: ./pct survey 50 '{folder}/it'\\''s #1.pct' '{folder}/it'\\''s #1.expect'",
            "not ok 4 - race.expect",
            f"# line 3, never * emit 2: fails in {len(seeds)} of 50 runs, first with seed {seeds[0]}",
            f"# shown by: ./pct run --seed {seeds[0]} {folder}/race.pct",
            "not ok 5 - race.some",
            "# line 2, count 9 * emit *: holds in none of 50 runs",
            f"# shown by: ./pct survey 50 {folder}/race.pct {folder}/race.some",
            "1..5",
        ]))
        check.equal("tests that fail, by prove", proved(folder, "--seeds=50") in (False, None), True)
        for words in [["--seeds"], ["--seeds", "0"], ["--seeds=x"], ["--seeds", "100001"], ["x"], ["--x"]]:
            check.equal(f"words {words}", lines_of_test(folder, *words)[0], 5)


def main():
    if len(sys.argv) > 4 or sys.argv[1:] and sys.argv[1].startswith("-"):
        sys.exit(__doc__)
    built = [ROOT / "crates/pct_run/out/pct_run", ROOT / "crates/pct_inspect/out/pct_inspect"]
    given = [pathlib.Path(path).resolve() for path in sys.argv[1:3]]
    check = Check(*map(str, given + built[len(given):]))
    check_refusals(check)
    check_suites(check)
    check_surveys(check, int(sys.argv[3]) if len(sys.argv) > 3 else 500)
    print(f"{check.passed} passed, {check.failed} failed")
    sys.exit(1 if check.failed or not check.passed else 0)


if __name__ == "__main__":
    main()
