#!/usr/bin/env python3
"""Compares `tally` and `sum` with tallies that are counted here of the reports of `run`.

    bench/check_tallies.py [PROGRAM [INSPECT]]

Of some examples the reports of `run --seed S` are made for the seeds of ranges, and their verdicts, joins and entries are counted. The
text that `tally FIRST LAST` has to write is made of these counts and of the SHA-256 of what `check` writes; so is that of `sum` of
tallies of ranges, in several orders. Texts that are no tallies, or have no sum, have to be refused at the line that is expected here.

PROGRAM is the built program, crates/pct_run/out/pct_run where none is named, and INSPECT is crates/pct_inspect/out/pct_inspect (./pct
build makes both). The last line is `N passed, M failed`, and the status is 1 if M is not 0 or N is 0.
"""
import functools
import hashlib
import pathlib
import random
import subprocess
import sys

ROOT = pathlib.Path(__file__).resolve().parent.parent
CANCELED = "4294967295"
STOPS = """fork_child_call async_call enable_in_handler exit_in_ending thread_id join_self not_joinable join_twice detach_joined key_id not_owner
    cond_two_mutexes exit_twice fork_in_ending stack_full cleanup_full""".split()
# Examples with several endings, with joins of canceled threads, with stops, and with an endless run; and how many seeds of each.
EXAMPLES = {"two_locks": 60, "canceled_reader": 60, "detach_joined": 60, "race": 40, "endless": 4, "deadlock": 20}
# Seeds past 32 bits, up to the last one.
LAST = 2**64 - 1


def call(program, words, text):
    done = subprocess.run([program, *words], input=text, capture_output=True, timeout=100)
    return done.returncode, done.stdout.decode()


@functools.cache
def counted(program, text, seed):
    """The verdict, the joins, those with the value of a canceled thread, and the entries of the report of a seed."""
    lines = call(program, ["run", "--seed", str(seed)], text)[1].splitlines()
    verdict = next(line for line in lines if line.startswith("verdict ")).partition(" ")[2]
    joins = [words for words in map(str.split, lines) if len(words) == 4 and words[1] == "joined"]
    return verdict, len(joins), sum(words[3] == CANCELED for words in joins), int(lines[-1].split()[1])


def tally(program, text, first, last):
    """The text of the tally of a range."""
    verdicts, joined, canceled, steps = {}, 0, 0, []
    for seed in range(first, last + 1):
        verdict, joins, joins_of_canceled, entries = counted(program, text, seed)
        verdicts.setdefault(verdict, []).append(seed)
        joined += joins
        canceled += joins_of_canceled
        steps.append(entries)
    digest = hashlib.sha256(call(program, ["check"], text)[1].encode()).hexdigest()
    lines = [f"tally {first} {last}", f"script {digest}", "limits 10000 4 64"]
    for verdict in ["complete", "deadlock", "budget"]:
        seeds = verdicts.pop(verdict, [])
        lines.append(f"{verdict} {len(seeds)} first {min(seeds)}" if seeds else f"{verdict} 0")
    for verdict, seeds in sorted(verdicts.items(), key=lambda item: STOPS.index(item[0].split()[1])):
        lines.append(f"{verdict} {len(seeds)} first {min(seeds)}")
    lines += [f"joined {joined}", f"canceled {canceled}", f"least {min(steps)}", f"most {max(steps)}"]
    return "".join(line + "\n" for line in lines)


class Check:
    """The two programs, and how many comparisons passed and failed."""

    def __init__(self, program, inspect):
        self.program, self.inspect = program, inspect
        self.passed = self.failed = 0

    def expect(self, name, words, text, status, output):
        found = call(self.inspect, words, text if isinstance(text, bytes) else text.encode())
        if found == (status, output):
            self.passed += 1
        else:
            self.failed += 1
            print(f"FAILED {name}: {' '.join(words)} gave status {found[0]} and\n{found[1]}in the place of status {status} and\n{output}")

    def refused(self, name, text, line, why):
        self.expect(name, ["sum"], text, 16, f"refused tally {line} {why}\n")


def ranges(first, last, parts):
    """A range in so many ranges, cut at random."""
    cuts = sorted(random.sample(range(first, last), parts - 1))
    return list(zip([first, *(cut + 1 for cut in cuts)], [*cuts, last]))


def check_examples(check):
    for name, most in EXAMPLES.items():
        text = (ROOT / "examples" / f"{name}.pct").read_bytes()
        whole = tally(check.program, text, 1, most)
        check.expect(name, ["tally", "1", str(most)], text, 0, whole)
        # The lines after the first one of `sample` are those after the third one of `tally`.
        sampled = call(check.program, ["sample", str(most)], text)[1].split("\n")
        check.expect(f"{name}: sample", ["tally", "1", str(most)], text, 0, "\n".join(whole.split("\n")[:3] + sampled[1:]))
        for parts in [1, 2, 3]:
            texts = [tally(check.program, text, *one) for one in ranges(1, most, parts)]
            for turn in range(3):
                check.expect(f"{name}: sum of {parts}, order {turn}", ["sum"], "".join(texts), 0, whole)
                random.shuffle(texts)
            check.expect(f"{name}: sum with CR", ["sum"], "".join(texts).replace("\n", "\r\n"), 0, whole)
            check.expect(f"{name}: sum without the last LF", ["sum"], "".join(texts)[:-1], 0, whole)
        for first, last in [(LAST - 2, LAST), (2**32 - 1, 2**32 + 1), (7, 7)]:
            check.expect(f"{name}: far seeds", ["tally", str(first), f"00{last}" if last < 10**17 else str(last)], text, 0, tally(check.program, text, first, last))


def check_words(check):
    text = (ROOT / "examples" / "race.pct").read_bytes()
    for words in ["tally", "tally 1", "tally 1 2 3", "tally 0 1", "tally 2 1", "tally 1 1000001", f"tally 1 {2**64}", "tally 1 x", "tally +1 2", "tally -1 2",
                  f"tally {'0' * 20}1 2", "tally 1 ", "sum 1", "sum x", "Sum", "tally 1 --events"]:
        check.expect("words", words.split(" "), text, 5, "refused words\n")
    check.expect("a script with a fault", ["tally", "1", "2"], b"fn main x\nemit\nend\n", 6, "refused script 2 word_count\n")
    check.expect("a script and a prefix", ["tally", "1", "2"], b"fn main x\nreturn 0\nend\n%%\n", 6, "refused script 4 unknown_word\n")
    check.expect("a long input", ["sum"], b"x" * 16_777_217, 8, "refused input too_long\n")


def with_line(text, number, line):
    """The text with another line in the place of this one, or without it."""
    lines = text.split("\n")
    lines[number - 1:number] = [] if line is None else [line]
    return "\n".join(lines)


def check_refusals(check):
    text = (ROOT / "examples" / "detach_joined.pct").read_bytes()
    other = (ROOT / "examples" / "race.pct").read_bytes()
    first, second, third = (tally(check.program, text, *one) for one in [(1, 9), (10, 19), (20, 29)])
    size = first.count("\n")
    check.refused("nothing", "", 1, "no_tally")
    check.refused("an empty line", "\n", 1, "bad_line")
    check.refused("a report", call(check.program, ["run"], other)[1], 1, "bad_line")
    check.refused("a sample", call(check.program, ["sample", "9"], text)[1], 1, "bad_line")
    check.refused("an empty line between", first + "\n" + second, size + 1, "bad_line")
    for number in range(1, size + 1):
        check.refused(f"without what comes from line {number} on", "".join(line + "\n" for line in first.splitlines()[:number - 1]), number, "bad_line" if number > 1 else "no_tally")
        line = first.splitlines()[number - 1]
        for wrong in [line + " ", " " + line, line + " 1", line.upper(), line.replace(" ", "  ", 1), line.replace(" ", "\t", 1), ""]:
            if wrong != line:
                check.refused(f"line {number} as {wrong!r}", second + with_line(first, number, wrong), second.count("\n") + number, "bad_line")
    # A stop line that is missing, or that comes twice or too early, is refused where the line after it is, or where it comes again.
    stops = [number for number, line in enumerate(first.splitlines(), 1) if line.startswith("undefined ")]
    assert len(stops) == 2
    check.refused("stops in another order", with_line(with_line(first, stops[0], first.splitlines()[stops[1] - 1]), stops[1], first.splitlines()[stops[0] - 1]), stops[1], "bad_line")
    check.refused("a stop twice", with_line(first, stops[1], first.splitlines()[stops[0] - 1]), stops[1], "bad_line")
    check.refused("a stop that ended no run", with_line(first, stops[1], "undefined detach_joined 0"), stops[1], "bad_line")
    for number, wrong in [(1, "tally 0 9"), (1, "tally 9 1"), (1, "tally 1"), (1, "tally 01 9"), (1, f"tally 1 {2**64}"), (1, "tally 1 9 9"), (1, "Tally 1 9"),
                          (2, "script " + "0" * 63), (2, "script " + "0" * 65), (2, "script " + "g" * 64), (2, "script " + "A" * 64), (3, "limits 10000 4"), (3, "limits 10000 4 64 1"),
                          (3, f"limits {2**32} 4 64"), (3, "limits 010000 4 64"), (4, "complete 00"), (4, "complete 0 first 0"), (4, "complete 0 first 1"), (4, "complete 1 first 10"),
                          (4, "complete 1 first 0"), (4, "complete 1"), (4, "complete 1 last 1"), (4, "complete -1 first 1"), (4, f"complete {2**64} first 1"), (4, "complete 1 first 1 1"),
                          (size - 3, "joined x"), (size - 3, f"joined {2**64}"), (size - 1, f"least {2**32}"), (size, "most 1 1"), (size, "most +1")]:
        check.refused(f"line {number} as {wrong!r}", with_line(first, number, wrong), number, "bad_line")
    check.refused("another script", first + tally(check.program, other, 10, 19) + third, size + 1, "other_script")
    check.refused("another script at last", first + third + tally(check.program, other, 10, 19), first.count("\n") + third.count("\n") + 1, "other_script")
    check.refused("other limits", first + with_line(second, 3, "limits 10001 4 64"), size + 1, "other_limits")
    check.refused("another script and other limits", first + with_line(with_line(second, 3, "limits 10001 4 64"), 2, "script " + "0" * 64), size + 1, "other_script")
    check.refused("a tally twice", first + first, size + 1, "overlap")
    check.refused("one seed twice", tally(check.program, text, 9, 19) + first, 1, "overlap")
    check.refused("a range in another", tally(check.program, text, 1, 19) + second, tally(check.program, text, 1, 19).count("\n") + 1, "overlap")
    check.refused("a gap", first + third, size + 1, "gap")
    check.refused("a gap, in another order", third + first, 1, "gap")
    check.refused("a gap of one seed", first + tally(check.program, text, 11, 19), size + 1, "gap")
    # A gap comes before an overlap, in the order of the seeds.
    check.refused("a gap and an overlap", third + third + first, 1, "gap")
    check.refused("a script before a range", first + first + tally(check.program, other, 10, 19), 2 * size + 1, "other_script")
    joined = size - 3
    check.expect("a sum of 64 bits", ["sum"], with_line(first, joined, f"joined {LAST}") + second, 0, "\n".join(
        with_line(call(check.inspect, ["sum"], (first + second).encode())[1], joined, f"joined {LAST}").split("\n")))
    check.refused("a sum of 65 bits", with_line(first, joined, f"joined {LAST}") + with_line(second, joined, "joined 1"), size + 1, "too_large")
    check.refused("canceled of 65 bits", with_line(first, joined + 1, f"canceled {2**63}") + with_line(second, joined + 1, f"canceled {2**63}"), size + 1, "too_large")
    check.refused("runs of 65 bits", with_line(first, 4, f"complete {LAST} first 1") + with_line(second, 4, "complete 1 first 10"), size + 1, "too_large")
    stop = with_line(first, stops[0], f"undefined not_joinable {LAST} first 5")
    check.refused("stops of 65 bits", stop + with_line(second, stops[0], "undefined not_joinable 1 first 10"), size + 1, "too_large")


def main():
    if len(sys.argv) > 3 or sys.argv[1:] and sys.argv[1].startswith("-"):
        sys.exit(__doc__)
    random.seed(44)
    built = [ROOT / "crates/pct_run/out/pct_run", ROOT / "crates/pct_inspect/out/pct_inspect"]
    given = [pathlib.Path(path).resolve() for path in sys.argv[1:]]
    check = Check(*map(str, given + built[len(given):]))
    check_words(check)
    check_examples(check)
    check_refusals(check)
    print(f"{check.passed} passed, {check.failed} failed")
    sys.exit(1 if check.failed or not check.passed else 0)


if __name__ == "__main__":
    main()
