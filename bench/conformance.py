#!/usr/bin/env python3
"""Makes the folders of conformance/ from conformance/vectors.txt, compares them, or runs them.

    bench/conformance.py --run COMMAND [--folder DIR] [--filter TEXT] [--only MARK] [--events] [--tap]
                         [--timeout SECONDS] [--jobs N]
    bench/conformance.py --write
    bench/conformance.py --check

Without a word it prints this text.

--run gives each vector to COMMAND, which is split into words as a shell does: script.pct, a line %% and schedule.txt on
its standard input. What COMMAND writes to standard output must be the bytes of report.txt, and its status that of
status.txt, or 0 where there is no such file. It reads the folders, and nothing else of this repository. For a vector
that fails it prints the first difference, the signal that ended COMMAND or the time after which it was ended, the rule,
the mark and the source of the vector from rule.txt, and where to read on.

    --folder DIR       the folders of DIR in place of those of conformance/: vectors of your own, whose rule.txt may be
                       missing
    --filter TEXT      only the vectors whose name, section or source has TEXT
    --only MARK        only the vectors with this mark: S, S+P or P
    --events           compare the events, and the verdict or the refusal; the rest of the report and the status are not
                       compared
    --tap              print the results as TAP version 14
    --timeout SECONDS  end COMMAND after this time, 60 seconds where none is given
    --jobs N           run up to N vectors at once; the results are printed in order

--write writes what comes from conformance/vectors.txt: a folder for each vector, the tables of conformance/README.md,
and the cases at the end of crates/pct_cases/stdin, with their lines in crates/pct_cases/stdout. How vectors.txt is
written is explained at its top.

--check writes nothing. It compares all of these with vectors.txt, and looks for folders that have no vector, and for
marks that their source contradicts. It also compares vectors.txt with docs/POSIX.md: each row of its tables of rules
belongs to a vector, or to the rules that have none; and the sections of docs/LIBRARIES.md that vectors.txt names exist.

After failures a line for each kind of event says how many vectors first differ there. The last line is `N passed, M
failed`; with --tap these are comments. The status is 1 if M is not 0 or N is 0, and 2 if the words are not as above, or
COMMAND or DIR cannot be used.
"""
import argparse
import collections
import concurrent.futures
import dataclasses
import itertools
import json
import os
import pathlib
import re
import shlex
import shutil
import signal
import subprocess
import sys

ROOT = pathlib.Path(__file__).resolve().parent.parent
TOP = ROOT / "conformance"
SOURCE = TOP / "vectors.txt"
README = TOP / "README.md"
POSIX = ROOT / "docs/POSIX.md"
LIBRARIES = ROOT / "docs/LIBRARIES.md"
CASES = ROOT / "crates/pct_cases/stdin"
PASSED = ROOT / "crates/pct_cases/stdout"
MARK = "# Conformance vectors\n"
MADE = "# bench/conformance.py makes these cases from conformance/vectors.txt.\n\n"
TABLES = "## The vectors\n"
RULES = "| Rule | Source | Shown by | Libraries |"
# The status of a run, by the first words of its verdict or refusal.
STATUSES = {
    "verdict complete": 0, "verdict deadlock": 1, "verdict budget": 2, "verdict undefined": 3, "verdict profile": 3,
    "verdict open": 4, "refused script": 6, "refused schedule": 7, "refused entry": 7,
}
MARKS = ("S", "S+P", "P")
# Words of a source that name a case in which the standard leaves open what happens, or a limit.
OPEN = re.compile(r"undefined|unspecified|application|at least|at any time|possibly|allows|choice|EDEADLK|\broom\b|order")
# After `; ` in the source of a vector marked S: details of the report that are this host's, and change no other event.
DETAILS = re.compile(
    r"(that it acts at the call|(for 0, and )?the (first result and the )?(one )?(numbers?|steps?|argument|slot)"
    r"|that it may execute no others|that only another thread can call it|that a run is complete with its last process): P")
RULE_FIELDS = ("rule", "mark", "source", "section")
SECONDS = 60
MISUSED = 2
# The lines of a report that --events compares.
EVENT = re.compile(rb"\d+\.\d+ ")
COMPARED = re.compile(rb"\d+\.\d+ |verdict |refused ")


@dataclasses.dataclass
class Vector:
    section: str
    name: str
    rule: str = ""
    mark: str = ""
    source: str = ""
    libraries: str = ""
    rows: list = dataclasses.field(default_factory=list)
    script: list = dataclasses.field(default_factory=list)
    header: str = ""
    steps: list = dataclasses.field(default_factory=list)
    verdict: str = ""

    def entries(self):
        return [f"1 {process} {thread} {choice}" for process, thread, choice, _ in self.steps]

    def events(self):
        return [f"{process}.{thread} {event}" for process, thread, _, events in self.steps for event in events]

    def schedule(self):
        return [self.header, *self.entries(), f"end {len(self.steps)}"]

    def report(self):
        is_refused = self.verdict.startswith("refused")
        title = f"report {self.header.split()[1]}"
        return [self.verdict] if is_refused else [title, *self.events(), self.verdict, *self.schedule()]

    def status(self):
        return STATUSES.get(" ".join(self.verdict.split()[:2]))

    def mark_fault(self):
        """What in the source contradicts the mark, or nothing."""
        first, *others = self.source.split("; ")
        is_rule = first.startswith("S:")
        if self.mark == "S" and not (is_rule and all(DETAILS.fullmatch(other) for other in others)):
            return "marked S, and its source has more than a rule of the standard and details of the report"
        if self.mark == "S" and OPEN.search(first.replace("application usage", "")):
            return "marked S, and its source names what the standard leaves open"
        if self.mark == "S+P" and not (is_rule and others and others[-1].endswith(": P")):
            return "marked S+P, and its source does not end with what is a choice of this host"
        if self.mark == "P" and is_rule and not re.search("undefined|unspecified|applications", self.source):
            return "marked P, and its source is a rule of the standard"

    def rule_lines(self):
        values = (self.rule, self.mark, self.source, self.section)
        return [f"{field} {value}" for field, value in zip(RULE_FIELDS, values)]

    def files(self):
        """The text of each file of the folder, by its name."""
        texts = {"script.pct": self.script, "schedule.txt": self.schedule(), "report.txt": self.report()}
        texts["rule.txt"] = self.rule_lines()
        if self.status():
            texts["status.txt"] = [str(self.status())]
        return {name: text_of(lines) for name, lines in texts.items()}

    def case(self):
        """The vector as a case of pct_cases."""
        call = [f"case {self.case_name()}", "words replay", *self.script, "%%", *self.schedule()]
        return text_of([*call, f"exits {self.status()}", *self.report(), ""])

    def case_name(self):
        return f"conformance/{self.name}"


def text_of(lines):
    return "".join(f"{line}\n" for line in lines)


# ---- the source


def fail(number, why):
    sys.exit(f"{SOURCE.relative_to(ROOT)}:{number}: {why}")


def expanded(lines):
    """The numbered lines, with those between `repeat N` and `repeated` written N times; \\# is the number of the round."""
    block, times = None, 0
    for number, line in lines:
        word, _, rest = line.strip().partition(" ")
        if word == "repeat" and rest.isdigit():
            block, times = [], int(rest)
        elif word == "repeated":
            for round_number in range(1, times + 1):
                yield from ((at, text.replace("\\#", str(round_number))) for at, text in block)
            block = None
        elif block is not None:
            block.append((number, line))
        else:
            yield number, line


def step_of(number, line):
    """The process, the thread, the choice and the events of a line `P.T CHOICE | EVENT; EVENT`."""
    entry, _, events = line.partition("|")
    found = re.fullmatch(r"(\d+)\.(\d+) ((?:act|new|pick|dtor) \d+|go|expire)", entry.strip())
    if not found:
        fail(number, "this is no step")
    return (*found.groups(), [event.strip() for event in events.split(";") if event.strip()])


def read_source():
    """The vectors, and the rules that have none: the section, the first words of the row, what it is about, and why."""
    vectors, without, section, vector = [], [], "", None
    # What the line before was in: nothing, the head of a vector, its script, or its steps.
    place = "nothing"
    for number, line in expanded(enumerate(SOURCE.read_text().splitlines(), 1)):
        word, _, rest = line.partition(" ")
        if place == "script":
            if word == "schedule":
                vector.header, place = line, "steps"
            else:
                vector.script.append(line)
        elif place == "steps":
            if word in ("verdict", "refused"):
                vector.verdict, place = line, "nothing"
                if vector.status() is None or vector.mark not in MARKS or not (vector.rule and vector.source):
                    fail(number, "the vector is not complete")
            else:
                vector.steps.append(step_of(number, line))
        elif place == "head" and word in ("rule", "mark", "source", "libraries"):
            setattr(vector, word, rest)
        elif place == "head" and word == "row":
            vector.rows.append(rest)
        elif place == "head" and line == "script":
            place = "script"
        elif place == "nothing" and word == "section":
            section = rest
        elif place == "nothing" and word == "vector":
            vector, place = Vector(section, rest), "head"
            if not re.fullmatch("[a-z][a-z0-9_]*", rest) or rest in [other.name for other in vectors]:
                fail(number, "the name is no plain name, or a second one")
            vectors.append(vector)
        elif place == "nothing" and word == "without" and rest.count(" | ") == 2:
            without.append((section, *rest.split(" | ")))
        elif place != "nothing" or (line and word != "#"):
            fail(number, "this line is not expected here")
    return vectors, without


# ---- what is made of it


def libraries_of(vector):
    """The cell of a table: `WORDS | SECTION` of the source as a link."""
    if not vector.libraries:
        return ""
    words, anchor = vector.libraries.split(" | ")
    return f"[{words}](../docs/LIBRARIES.md#{anchor})"


def tables(vectors, without):
    """The text of README.md from the heading of the tables on."""
    counts = collections.Counter(vector.mark for vector in vectors)
    marks = ", ".join(f"{counts[mark]} marked {mark}" for mark in MARKS)
    lines = [TABLES.rstrip(), "", f"{len(vectors)} vectors: {marks}. The sections are those of [docs/POSIX.md](../docs/POSIX.md)."]
    for section in dict.fromkeys(vector.section for vector in vectors):
        lines += ["", f"### {section}", "", "| Rule | Mark | Source | Vector | Real libraries |", "|---|---|---|---|---|"]
        for vector in vectors:
            if vector.section == section:
                folder = f"[{vector.name}]({vector.name})"
                cells = (vector.rule, vector.mark, vector.source, folder, libraries_of(vector))
                lines.append(f"| {' | '.join(cells)} |")
    lines += ["", "## Rules without a vector", "", "| Section | Rule | Why there is none |", "|---|---|---|"]
    lines += [f"| {section} | {rule} | {why} |" for section, _, rule, why in without]
    return text_of(lines)


def made(vectors, without):
    """For each file that is made: its path and its text."""
    for vector in vectors:
        for name, text in vector.files().items():
            yield TOP / vector.name / name, text
    yield README, README.read_text().partition(TABLES)[0] + tables(vectors, without)
    yield CASES, CASES.read_text().partition(MARK)[0] + MARK + MADE + "".join(vector.case() for vector in vectors)
    before = [line for line in PASSED.read_text().splitlines() if not line.startswith("passed conformance/")]
    yield PASSED, text_of([*before, *(f"passed {vector.case_name()}" for vector in vectors)])


def stray(vectors):
    """What is in conformance/ and does not come from the source."""
    known = {README, SOURCE, *(TOP / vector.name for vector in vectors)}
    known |= {TOP / vector.name / name for vector in vectors for name in vector.files()}
    return sorted(path for path in TOP.rglob("*") if path not in known)


def other_cases():
    """The cases after the mark that are no vectors; there should be none, since all after the mark is made."""
    names = re.findall(r"^case (.*)$", CASES.read_text().partition(MARK)[2], re.M)
    return [name for name in names if not name.startswith("conformance/")]


def write():
    vectors, without = read_source()
    if other_cases():
        sys.exit(f"{CASES.relative_to(ROOT)} has other cases after the vectors: {', '.join(other_cases())}")
    for path, text in list(made(vectors, without)):
        path.parent.mkdir(exist_ok=True)
        # A file that is right keeps its time: ./pct compares the times of crates/ with that of the built program.
        if not path.is_file() or path.read_text() != text:
            path.write_text(text)
    for path in stray(vectors):
        shutil.rmtree(path) if path.is_dir() else path.unlink(missing_ok=True)
    print(f"{len(vectors)} vectors")


# ---- checks


def rows_of_rules():
    """The heading and the first cell of each row in the tables of rules of docs/POSIX.md."""
    heading, is_rules = "", False
    for line in POSIX.read_text().splitlines():
        if line.startswith("#"):
            heading = line.lstrip("# ")
        if not line.startswith("|"):
            is_rules = False
        elif line == RULES:
            is_rules = True
        elif is_rules and not line.startswith("|---"):
            yield heading, line.split("|")[1].strip()


def rows_of(words, section, rows):
    """The rows that begin with these words: those below the heading of the section, or if there are none, all."""
    found = [row for row in rows if row[1].startswith(words)]
    return [row for row in found if row[0] == section] or found


def anchors(page):
    """The anchors of a page's headings."""
    for line in page.read_text().splitlines():
        if line.startswith("#"):
            yield anchor_of(line.lstrip("# "))


def anchor_of(heading):
    return re.sub(r"[^a-z0-9_ -]", "", heading.lower()).replace(" ", "-")


def checks():
    """For each check: what is wrong, or nothing."""
    vectors, without = read_source()
    for path, text in made(vectors, without):
        has = path.read_text() if path.is_file() else None
        yield None if has == text else f"{path.relative_to(ROOT)} is not what conformance/vectors.txt says"
    for path in stray(vectors):
        yield f"{path.relative_to(ROOT)} is in no vector"
    known, sections = set(anchors(LIBRARIES)), set(anchors(POSIX))
    for vector in vectors:
        fault = vector.mark_fault()
        yield f"{vector.name}: {fault}" if fault else None
        is_section = anchor_of(vector.section) in sections
        yield None if is_section else f"{vector.name}: docs/POSIX.md has no section {vector.section}"
        if vector.libraries:
            anchor = vector.libraries.split(" | ")[1]
            yield None if anchor in known else f"{vector.name}: docs/LIBRARIES.md has no section {anchor}"
    rows = list(rows_of_rules())
    named = [(vector.name, vector.section, row) for vector in vectors for row in vector.rows]
    named += [("without", section, row) for section, row, _, _ in without]
    shown = []
    for name, section, words in named:
        found = rows_of(words, section, rows)
        shown += found
        yield None if len(found) == 1 else f"{name}: {len(found)} rows of docs/POSIX.md begin with: {words}"
    for heading, text in rows:
        yield None if (heading, text) in shown else f"{heading}: no vector, and no reason for having none, for: {text}"


# ---- runs


@dataclasses.dataclass
class Answer:
    written: bytes
    # What ended the command before it had ended by itself, in words, or nothing.
    cut: str
    status: int


@dataclasses.dataclass
class Folder:
    """A folder of a vector: its path as it is printed, the bytes of its files, and the fields of rule.txt."""
    path: str
    texts: dict
    fields: dict

    @property
    def name(self):
        return os.path.basename(self.path)

    def is_chosen(self, text, mark):
        words = (self.name, self.fields.get("section", ""), self.fields.get("source", ""))
        return any(text in word for word in words) and mark in (None, self.fields.get("mark"))

    def given(self):
        return self.texts["script.pct"] + b"%%\n" + self.texts["schedule.txt"]

    def faults(self, answer, is_events):
        """What is wrong with an answer: the kind of event where it is, and what, in words."""
        wanted, written = (lines_of(text, is_events) for text in (self.texts["report.txt"], answer.written))
        status = int(self.texts.get("status.txt", b"0"))
        if wanted != written:
            yield difference("event" if is_events else "line", wanted, written)
        if answer.cut:
            yield "the end", answer.cut
        elif answer.status != status and not is_events:
            yield "status", f"expected status {status}, ended with {answer.status}"

    def about(self):
        """Names and texts that are printed for a vector that fails."""
        for field in RULE_FIELDS[:3]:
            if field in self.fields:
                yield field, self.fields[field]
        if "section" in self.fields:
            yield "read", f"docs/POSIX.md#{anchor_of(self.fields['section'])}"
        yield "steps", shlex.join(["./pct", "trace", f"{self.path}/script.pct", f"{self.path}/schedule.txt"])


def folders(top, shown):
    """The vectors of a folder, which is printed as `shown`."""
    for path in sorted(path.parent for path in top.glob("*/script.pct")):
        texts = {file.name: file.read_bytes() for file in path.iterdir() if file.is_file()}
        missing = [name for name in ("schedule.txt", "report.txt") if name not in texts]
        if missing:
            misused(f"{shown}/{path.name} has no {missing[0]}")
        pairs = (line.partition(" ") for line in texts.get("rule.txt", b"").decode().splitlines())
        yield Folder(f"{shown}/{path.name}", texts, {field: text for field, _, text in pairs})


def chosen_folders(options):
    """The vectors that the options choose."""
    top, shown = (options.folder, str(options.folder)) if options.folder else (TOP, TOP.name)
    if not top.is_dir():
        misused(f"{shown} is no folder")
    return [folder for folder in folders(top, shown) if folder.is_chosen(options.filter, options.only)]


def misused(why):
    print(why, file=sys.stderr)
    sys.exit(MISUSED)


def lines_of(text, is_events):
    lines = re.findall(rb"[^\n]*\n|[^\n]+", text)
    return [line for line in lines if COMPARED.match(line)] if is_events else lines


def difference(unit, wanted, written):
    """The first line that differs, where the lists do."""
    for number, pair in enumerate(itertools.zip_longest(wanted, written), 1):
        if pair[0] != pair[1]:
            return kind_of(pair[0] or pair[1]), f"{unit} {number}: expected {quoted(pair[0])}, written {quoted(pair[1])}"


def kind_of(line):
    """The kind of a line of a report: the word of its event, or its first word."""
    words = line.decode(errors="replace").split() or [""]
    return words[1] if EVENT.match(line) and len(words) > 1 else words[0]


def counted_kinds(kinds):
    """A line for each kind of event at which vectors first differ, the most frequent one first."""
    for kind, count in sorted(collections.Counter(kinds).items(), key=lambda pair: (-pair[1], pair[0])):
        yield f"{count} {'vector first differs' if count == 1 else 'vectors first differ'} at {kind!r}"


def quoted(line):
    if line is None:
        return "no line"
    words = repr(line.removesuffix(b"\n").decode(errors="replace"))
    return words if line.endswith(b"\n") else f"{words} without a line end"


def answer_of(command, given, seconds):
    """What the command answers to this input. It and all that it started are ended after the time."""
    with subprocess.Popen(
        command, stdin=subprocess.PIPE, stdout=subprocess.PIPE, start_new_session=True
    ) as process:
        try:
            written, cut = process.communicate(given, seconds)[0], ""
        except subprocess.TimeoutExpired:
            os.killpg(process.pid, signal.SIGKILL)
            written, cut = process.communicate()[0], f"no end after {seconds:g} s"
    if not cut and process.returncode < 0:
        cut = f"killed by {signal_name(-process.returncode)}"
    return Answer(written, cut, process.returncode)


def signal_name(number):
    try:
        return signal.Signals(number).name
    except ValueError:
        return f"signal {number}"


def show(folder, faults):
    """Prints what is wrong with a vector, if anything is."""
    if faults:
        print(f"{folder.name}: {'; '.join(faults)}")
        print(*(f"    {field}: {text}" for field, text in folder.about()), sep="\n")
    sys.stdout.flush()


def show_tap(number, folder, faults):
    """Prints the result of a vector as TAP; a text in JSON is one in YAML, too."""
    print(f"{'not ok' if faults else 'ok'} {number} - {folder.name}")
    if faults:
        fields = {"message": "; ".join(faults), **dict(folder.about())}
        print("  ---", *(f"  {field}: {json.dumps(text)}" for field, text in fields.items()), "  ...", sep="\n")
    sys.stdout.flush()


def run(options):
    """Runs the vectors that are chosen, prints the results, and returns whether each passed."""
    chosen = chosen_folders(options)
    if options.tap:
        print(f"TAP version 14\n1..{len(chosen)}")
    passed, kinds = [], []
    for number, (folder, answer) in enumerate(zip(chosen, answers_of(options, chosen)), 1):
        faults = list(folder.faults(answer, options.events))
        words = [why for _, why in faults]
        show_tap(number, folder, words) if options.tap else show(folder, words)
        passed.append(not faults)
        kinds += [kind for kind, _ in faults[:1]]
    for line in counted_kinds(kinds):
        print(f"# {line}" if options.tap else line)
    return passed


def answers_of(options, chosen):
    """The answers of the command to these vectors, in order."""
    answer = lambda folder: answer_of(options.run, folder.given(), options.timeout)
    try:
        yield from in_order(options.jobs, answer, chosen)
    except OSError as error:
        misused(f"{options.run[0]} cannot be run: {error.strerror}")


def in_order(jobs, function, values):
    """What the function gives for each value, in order, with up to so many calls at once."""
    pool = concurrent.futures.ThreadPoolExecutor(jobs)
    try:
        yield from pool.map(function, values)
    finally:
        pool.shutdown(cancel_futures=True)


# ---- the command line


def positive(kind):
    """The reader of an option's number, which is above 0."""
    def number(word):
        value = kind(word)
        if not value > 0:
            raise ValueError
        return value
    number.__name__ = "number above 0"
    return number


def options_of(words):
    layout = argparse.RawDescriptionHelpFormatter
    parser = argparse.ArgumentParser(usage=argparse.SUPPRESS, description=__doc__, formatter_class=layout, allow_abbrev=False)
    parser.add_argument("--check", action="store_true", help=argparse.SUPPRESS)
    parser.add_argument("--write", action="store_true", help=argparse.SUPPRESS)
    parser.add_argument("--run", type=shlex.split, help=argparse.SUPPRESS)
    add_choice(parser)
    parser.add_argument("--events", action="store_true", help=argparse.SUPPRESS)
    parser.add_argument("--tap", action="store_true", help=argparse.SUPPRESS)
    add_limits(parser, SECONDS, 1)
    options = parser.parse_args(words)
    if words not in ([], ["--check"], ["--write"]) and (options.check or options.write or not options.run):
        parser.error("--check and --write are alone, and the other options need --run COMMAND")
    return options


def add_choice(parser):
    """The options that choose vectors."""
    parser.add_argument("--folder", type=pathlib.Path, help=argparse.SUPPRESS)
    parser.add_argument("--filter", default="", help=argparse.SUPPRESS)
    parser.add_argument("--only", choices=MARKS, help=argparse.SUPPRESS)


def add_limits(parser, seconds, jobs):
    parser.add_argument("--timeout", type=positive(float), default=seconds, help=argparse.SUPPRESS)
    parser.add_argument("--jobs", type=positive(int), default=jobs, help=argparse.SUPPRESS)


def main():
    options = options_of(sys.argv[1:])
    if options.run:
        results = run(options)
    elif options.check:
        wrongs = list(checks())
        print(*filter(None, wrongs), sep="\n", end="\n" if any(wrongs) else "")
        results = [wrong is None for wrong in wrongs]
    elif options.write:
        return write()
    else:
        return print(__doc__, end="")
    passed = sum(results)
    failed = len(results) - passed
    print(f"{'# ' if options.tap else ''}{passed} passed, {failed} failed")
    sys.exit(1 if failed or not passed else 0)


def with_reader(function):
    """Calls the function; if nobody reads its output any more, it ends quietly, as a program that SIGPIPE ends."""
    try:
        try:
            function()
        finally:
            sys.stdout.flush()
    except BrokenPipeError:
        os.dup2(os.open(os.devnull, os.O_WRONLY), sys.stdout.fileno())
        sys.exit(128 + signal.SIGPIPE)


if __name__ == "__main__":
    with_reader(main)
