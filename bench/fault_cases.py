"""The inputs that faults.py gives to the commands of the two programs: a few small ones for faults, and some 200 that are cut at every
byte. They are taken from examples/ and conformance/, and made by random_scripts.py.
"""
import dataclasses
import random

from random_scripts import Scripts
from program import ROOT

EXAMPLES, CONFORMANCE = ROOT / "examples", ROOT / "conformance"
# The longest input that is cut.
LONGEST = 1500
BEGUN = b"schedule 1 100 4 2\n"


@dataclasses.dataclass(frozen=True)
class Case:
    """A command, of pct_run or pct_inspect, and an input."""

    inspect: bool
    words: tuple
    name: str
    text: bytes

    @property
    def command(self):
        return self.words[0]

    @property
    def label(self):
        return " ".join(self.words)

    @property
    def is_shared(self):
        """Whether several workers make the run, so that the report may differ from one start to the next."""
        return "--workers" in self.words

    @property
    def reads(self):
        return self.command not in ("points", "demo")


def example(name):
    return (EXAMPLES / name).read_bytes()


def joined(first, second):
    return first + b"%%\n" + second


def run_case(words, name, text=None):
    return Case(False, tuple(words.split(" ")), name, example(name) if text is None else text)


def inspect_case(words, name, text=None):
    return Case(True, tuple(words.split(" ")), name, example(name) if text is None else text)


def long_script():
    """A script of 1,990 statements and long names, whose canonical text takes several writes, after comments that take several reads."""
    first, second = b"a" * 31, b"b" * 31
    comments = b"".join(b"# %d\n" % number for number in range(20000))
    return comments + b"fn main " + first + b" " + second + b"\n" + b"add %s %s\n" % (first, second) * 1990 + b"end\n"


def fault_cases(answer):
    """The commands, each with some small inputs, and three of them with a long one. `answer` gives what a command of a program writes to an input."""
    def report(name, *options):
        return answer(False, ["run", *options], example(name))

    waits = joined(example("waits.pct"), example("waits.prefix"))
    rules = example("canceled_wait.expect")
    tallies = b"".join(answer(True, ["tally", *words], example("race.pct")) for words in (["1", "5"], ["6", "20"]))
    cases = [
        run_case("run", "smallest.pct"),
        run_case("run --seed 7 --slots 8", "canceled_reader.pct"),
        run_case("run --budget 9", "endless.pct"),
        run_case("run --budget 12000", "endless.pct"),
        run_case("run", "faulty.pct"),
        run_case("run --workers 4", "canceled_reader.pct"),
        run_case("run --workers 4 --turns 3 --slots 2", "race.pct"),
        run_case("replay", "in_the_handler.replay"),
        run_case("replay", "a report", joined(example("race.pct"), report("race.pct", "--slots", "2"))),
        run_case("replay", "an entry that is not legal", waits + b"end 3\n"),
        run_case("check", "smallest.pct"),
        run_case("check", "canceled_reader.pct"),
        run_case("check", "a long script", long_script()),
        run_case("points", "nothing", b""),
        run_case("demo 5", "nothing", b""),
        run_case("sample 20", "race.pct"),
        run_case("expect", "rules that hold", joined(rules, report("canceled_wait.pct", "--seed", "5"))),
        run_case("expect", "rules that fail", joined(b"count 9 * emit *\nnever 1.1 exit *\n", report("smallest.pct"))),
        run_case("audit", "a report that keeps the laws", report("canceled_wait.pct", "--seed", "5")),
        run_case("audit", "a law that fails", b"report 1\n1.1 push h 1\n1.1 pop h 2 run\nverdict complete\nschedule 1 10 4 64\nend 0\n"),
        inspect_case("judge", "a report that keeps the laws", report("canceled_wait.pct", "--seed", "5")),
        inspect_case("judge", "laws that fail", b"report 1\n1.1 push h 1\n1.1 pop h 2 run\n2.1 ended 4\nverdict complete\nschedule 1 10 4 64\nend 0\n"),
        inspect_case("continue 7", "in_the_handler.replay"),
        inspect_case("continue 7", "a notice", waits),
        inspect_case("trace", "a long report", joined(example("endless.pct"), report("endless.pct", "--budget", "6000"))),
        inspect_case("tally 1 20", "race.pct"),
        inspect_case("sum", "two tallies", tallies),
        inspect_case("survey 20", "rules", joined(example("race.pct"), b"never * emit 2\ncount 1 1.1 exit 0\n")),
    ]
    for view in ("trace", "choices", "states", "lanes", "picture"):
        cases += [inspect_case(view, "a notice", waits), inspect_case(view, "smallest.pct")]
        cases.append(inspect_case(view, "in_the_handler.replay") if view != "picture" else inspect_case("picture --events", "smallest.pct"))
    return cases


def scripts():
    paths = sorted(EXAMPLES.glob("*.pct")) + sorted(CONFORMANCE.glob("*/script.pct"))
    return [path.read_bytes() for path in paths if path.stat().st_size <= LONGEST]


def vectors():
    """The scripts of the conformance vectors with their schedules, and their reports."""
    for path in sorted(CONFORMANCE.glob("*/script.pct")):
        script = path.read_bytes()
        schedule, report = path.with_name("schedule.txt"), path.with_name("report.txt")
        if schedule.exists():
            yield joined(script, schedule.read_bytes()), report.read_bytes() if report.exists() else b""


def cut_cases(answer, count):
    """So many inputs of at most LONGEST bytes, each for one command."""
    chosen = random.Random(47)
    texts, replays = scripts(), list(vectors())
    replays += [(path.read_bytes(), b"") for path in sorted(EXAMPLES.glob("*.replay"))]
    chosen.shuffle(texts)
    chosen.shuffle(replays)
    number = 0

    def made(kind):
        if kind == "random":
            while True:
                text = Scripts(chosen.randrange(10**9)).text().encode()
                if len(text) <= LONGEST:
                    return Case(False, ("run", "--budget", "200"), "a random script", text)
        if kind in ("run", "check"):
            return Case(False, (kind,) if kind == "check" else ("run", "--budget", "500", "--slots", "4"), "a script", texts[number % len(texts)])
        if kind in ("sample 3", "tally 4 6"):
            return Case(kind.startswith("tally"), tuple(kind.split(" ")), "a script", texts[number * 7 % len(texts)])
        if kind == "survey 3":
            return Case(True, ("survey", "3", "--budget=300"), "a script and rules", joined(texts[number * 11 % len(texts)], b"# how often\ncount 1 * emit 1\nbefore * / 1.1 exit *\n".replace(b"* /", b"* emit * /")))
        if kind == "sum":
            text = texts[number * 13 % len(texts)]
            tallies = [answer(True, ["tally", *words], text) for words in (["1", "3"], ["4", "5"])]
            return Case(True, ("sum",), "two tallies", tallies[1] + tallies[0])
        if kind == "expect":
            report = answer(False, ["run", "--slots", "4", "--budget", "60"], texts[number * 3 % len(texts)])
            rules = b"never * emit 9\nthread * call pthread_join / * joined * *\ncount 1 1.1 exit 0\n"
            return Case(False, ("expect",), "rules and a report", joined(rules, report))
        if kind in ("audit", "judge"):
            return Case(kind == "judge", (kind,), "a report", answer(False, ["run", "--slots", "4", "--budget", "60"], texts[number * 5 % len(texts)]))
        text = replays[number % len(replays)][0]
        if kind == "report":
            text = joined(text.split(b"%%\n")[0], answer(False, ["replay"], text))
            return Case(False, ("replay",), "a script and a report", text)
        return Case(kind != "replay", tuple(kind.split(" ")), "a script and a schedule", text)

    kinds = ["run", "replay", "check", "expect", "audit", "judge", "random", "report", "trace", "run", "continue 3", "choices", "sum", "states", "lanes", "survey 3", "picture", "replay", "sample 3", "tally 4 6"]
    cases = []
    while len(cases) < count:
        case = made(kinds[number % len(kinds)])
        number += 1
        if 0 < len(case.text) <= LONGEST and case not in cases:
            cases.append(case)
    return cases
