"""The laws that fuzz.py checks: what the answers of the two programs to inputs that belong together have to say of each other."""
import random

import whole_texts
from check_expectations import holds, rule_of
from fuzz_inputs import MARKER_LINE, Inputs, script_of
from program import Program

VIEWS = ["trace", "choices", "states", "lanes", "picture"]
INSPECT = {*VIEWS, "continue", "tally", "sum", "survey", "judge"}
# The laws that an audit judges, in its order.
AUDITED = ["once", "slot", "join", "cond", "call_once"]
MARKER = b"%%\n"
# The most events of which rules are judged here, since each is compared with each other.
JUDGED = 80
# The longest input that is kept, with the line of its command.
KEPT = 2000


class Laws:
    """The two programs, and what was found with them: for each failure the law, the words of the command, the input and what is wrong."""

    def __init__(self, run, inspect, seed, texts, seeds, keeps):
        self.programs = [Program(run), Program(inspect)]
        self.seed, self.texts, self.seeds, self.keeps = seed, texts, seeds, keeps
        self.failures, self.features, self.kept = [], set(), []
        self.inputs = None

    @property
    def starts(self):
        return sum(program.starts for program in self.programs)

    def fail(self, law, words, text, wrong):
        self.failures.append((law, words, text, wrong))

    def raw_answer(self, words, text):
        program = self.programs[words[0] in INSPECT]
        return program.answer(words, text), program.stderr

    def answer(self, words, text):
        """An answer, of which it is checked that it is whole. An input that first shows something is kept."""
        found, stderr = self.raw_answer(words, text)
        wrong = f"standard error has {stderr!r}" if stderr else whole_texts.fault(words[0], *found)
        if wrong:
            self.fail("a whole answer", words, text, f"{wrong}: {found}")
        else:
            new = whole_texts.features(words[0], *found) - self.features
            if new:
                self.keep(words, text, new)
        return found

    def equal(self, law, words, text, wanted):
        """Whether an answer is the one that a law wants."""
        found = self.answer(words, text)
        if found != wanted:
            self.fail(law, words, text, f"{found} in the place of {wanted}")
        return found == wanted

    # ---- inputs that are kept

    def shows(self, words, text, features):
        found, _ = self.raw_answer(words, text)
        return not whole_texts.fault(words[0], *found) and features <= whole_texts.features(words[0], *found)

    def keep(self, words, text, new):
        """Keeps an input that shows something new, if inputs are kept with no more lines than it needs."""
        lines = text.splitlines(True)
        size = max(1, len(lines) // 2) if self.keeps else 0
        while size:
            at = 0
            while at < len(lines):
                shorter = lines[:at] + lines[at + size:]
                if self.shows(words, b"".join(shorter), new):
                    lines = shorter
                else:
                    at += size
            size //= 2
        text = b"".join(lines)
        if len(text) < KEPT:
            self.features |= new
            self.kept.append((words, text, new))

    # ---- one input after the other

    def try_input(self, number):
        """Makes the input of a number, and checks what holds of it."""
        self.inputs = Inputs(f"{self.seed} {number}", self.texts)
        ways = [(self.try_script, 40), (self.try_changed_script, 14), (self.try_changed_replay, 16), (self.try_view, 10), (self.try_expect, 9), (self.try_audit, 6), (self.try_seed, 8),
                (self.try_workers, 2), (self.try_tallies, 1), (self.try_changed_tallies, 2), (self.try_sample, 1), (self.try_survey, 2)]
        self.inputs.random.choices([way for way, _ in ways], [weight for _, weight in ways])[0]()

    def options(self):
        """Options of run, but for the seed."""
        inputs, words = self.inputs, []
        words += ["--budget", str(inputs.one(5, 20, 60, 200, 400, 400, 1000))]
        words += inputs.one([], [], [f"--slots={inputs.one(1, 2, 3, 8)}"], ["--slots", "4"])
        words += inputs.one([], [], [], ["--passes", str(inputs.random.randint(4, 16))])
        return words

    def seed_word(self):
        return str(self.inputs.random.randrange(self.inputs.one(100, 2**64)))

    def try_script(self):
        """A script, its canonical text, its report, and replays of it."""
        inputs = self.inputs
        text = inputs.script()
        words = ["run", "--seed", self.seed_word(), *self.options()]
        status, report = self.answer(words, text)
        if status == 6:
            self.equal("check refuses what run refuses", ["check"], text, (6, report))
        if status > 3:
            return
        canonical = self.answer(["check"], text)
        if canonical[0] != 0:
            return self.fail("check accepts what run accepts", ["check"], text, f"{canonical}")
        self.equal("check of a canonical text is the same", ["check"], canonical[1], canonical)
        self.equal("a canonical text has the report of its script", words, canonical[1], (status, report))
        self.try_report(text, status, report)

    def try_report(self, text, status, report):
        """A report of `run`: its replay, its rules, and its prefixes."""
        inputs = self.inputs
        if not text.endswith(b"\n"):
            text += b"\n"
        self.equal("a replay is the same", ["replay"], text + MARKER + report, (status, report))
        lines = report.decode().splitlines()
        at = next((i for i, line in enumerate(lines) if line.startswith("verdict ")), None)
        if at is None:
            return
        self.try_rules(lines[1:at], report)
        self.equal("the report of a run keeps the laws of an audit", ["audit"], report, (0, b"audit ok %d\n" % (at - 1)))
        self.equal("the report of a run keeps all laws of events", ["judge"], report, (0, whole_texts.ALL_KEPT.encode()))
        header, entries = lines[at + 1], lines[at + 2:-1]
        if inputs.chance(0.5):
            self.try_prefix(text, header, entries[:inputs.random.randint(0, len(entries))])

    def try_rules(self, events, report):
        """`expect` never refuses a report of a run, and its answers are those that are worked out here."""
        rules = self.inputs.rules(events, 5)
        words, text = ["expect"], rules + MARKER + report
        status, answers = self.answer(words, text)
        if status not in (0, 14):
            return self.fail("expect reads each report", words, text, f"{status, answers}")
        if len(events) > JUDGED:
            return None
        split = [event.split(" ") for event in events]
        wanted = ["yes" if holds(*rule_of(line), split) else "no" for line in rules.decode().splitlines()]
        found = [line.split(" ")[2] for line in answers.decode().splitlines()[:-1]]
        if found != wanted:
            self.fail("a rule holds by its definition", words, text, f"{found} in the place of {wanted}")
        return None

    def try_prefix(self, text, header, entries):
        """`continue` and `choices` of a prefix of a schedule."""
        begun = "".join(line + "\n" for line in [header, *entries])
        words, given = ["continue", self.seed_word()], text + MARKER + begun.encode()
        status, report = self.answer(words, given)
        if status > 3 or ("\n" + begun).encode() not in report:
            return self.fail("continue of a prefix begins with it", words, given, f"{status, report}")
        self.equal("a replay of what was continued is the same", ["replay"], text + MARKER + report, (status, report))
        status, listed = self.answer(["choices"], given)
        if status > 4:
            return self.fail("choices of a prefix of a report", ["choices"], given, f"{status, listed}")
        legal = [line for line in listed.decode().splitlines()[1:] if "\t" not in line]
        stopped = listed.startswith((b"verdict undefined", b"verdict profile"))
        if not stopped:
            for entry in self.inputs.random.sample(legal, min(3, len(legal))):
                self.try_entry(text, header, entries, entry, True)
        for entry in self.others(legal, listed.decode()):
            self.try_entry(text, header, entries, entry, False)
        return None

    def others(self, legal, listed):
        """Entries that are not listed, mostly of threads that are there."""
        threads = [line.split("\t")[0].replace(".", " ") for line in listed.splitlines() if "\t" in line] or ["1 1"]
        made = []
        for _ in range(6):
            inputs = self.inputs
            thread = inputs.one(inputs.random.choice(threads), inputs.random.choice(threads), f"{inputs.one(1, 2, 9)} {inputs.one(1, 2, 77)}")
            choice = inputs.one("go", "act 0", f"act {inputs.one(1, 2, 3)}", f"new {inputs.one(1, 2, 3, 64, 65)}", f"pick {inputs.one(1, 2, 3)}", f"dtor {inputs.one(1, 2)}")
            entry = f"1 {thread} {choice}"
            if entry not in legal and entry not in made:
                made.append(entry)
        return made[:3]

    def try_entry(self, text, header, entries, entry, is_legal):
        """`replay` of a prefix and one more entry, which is legal or not. The budget has room for it."""
        number = len(entries) + 1
        words = header.split(" ")
        words[2] = str(number)
        worker = str(self.inputs.random.randint(0, 16))
        schedule = "".join(line + "\n" for line in [" ".join(words), *entries, " ".join([worker, *entry.split(" ")[1:]]), f"end {number}"]).encode()
        given = text + MARKER + schedule
        if not is_legal:
            self.equal("an entry that choices does not list is refused", ["replay"], given, (7, f"refused entry {number}\n".encode()))
            return
        status, report = self.answer(["replay"], given)
        if status > 4 or not report.endswith(schedule):
            self.fail("an entry that choices lists is accepted", ["replay"], given, f"{status, report}")

    def try_workers(self):
        """A run of several workers, and its replay."""
        text = self.inputs.script()
        words = ["run", "--workers", str(self.inputs.random.randint(2, 5)), "--turns", str(self.inputs.one(1, 3, 50, 1000)), *self.options()]
        status, report = self.answer(words, text)
        if status <= 3:
            self.equal("a replay is the same", ["replay"], (text if text.endswith(b"\n") else text + b"\n") + MARKER + report, (status, report))

    def try_changed_script(self):
        inputs = self.inputs
        text = inputs.changed(inputs.script())
        words = ["run", *self.options()]
        answer = self.answer(words, text)
        if answer[0] == 6:
            self.equal("check refuses what run refuses", ["check"], text, answer)
        if inputs.chance(0.3):
            places = sorted({0, len(text), *(inputs.random.randint(0, len(text)) for _ in range(5))})
            pieces = [text[start:end] for start, end in zip(places, places[1:])]
            if len(text) < 4000 and (found := self.programs[0].answer_to_pieces(words, pieces)) != answer:
                self.fail("an input in pieces", words, text, f"{found} in the place of {answer}")
        if answer[0] <= 3 and inputs.chance(0.3):
            self.try_report(script_of(text), *answer)

    def base(self):
        """A script, the marker, and a schedule or a report of it, which may be changed."""
        inputs = self.inputs
        text = inputs.script()
        if inputs.chance(0.3):
            return text + MARKER + inputs.one(b"", inputs.report()) + inputs.schedule()
        status, report = self.answer(["run", "--seed", self.seed_word(), *self.options()], text)
        return (text if text.endswith(b"\n") else text + b"\n") + MARKER + (report if status <= 3 else inputs.schedule())

    def try_changed_replay(self):
        """What is not refused is replayed to the same bytes; and the views say the same of an input as `replay`."""
        inputs = self.inputs
        text = self.base()
        if inputs.chance(0.85):
            script = script_of(text)
            text = inputs.changed(text) if inputs.chance(0.3) else script + MARKER + inputs.changed(text[len(script) + len(MARKER):])
        status, output = self.answer(["replay"], text)
        if status <= 4:
            self.equal("a replay is the same", ["replay"], script_of(text) + MARKER + output, (status, output))
        if inputs.chance(0.5):
            self.compare_views(text, status, output.decode(errors="replace"))

    def compare_views(self, text, status, output):
        view = self.inputs.random.choice(VIEWS)
        found, shown = self.answer([view], text)
        if status <= 4 and found != status:
            self.fail("a view has the status of the replay", [view], text, f"{found} in the place of {status}")
        reason = output.split(" ")[-1].strip()
        if status == 6 or reason in ("bad_entry", "too_many", "trailing"):
            if (found, shown.decode()) != (status, output):
                self.fail("a view refuses what replay refuses", [view], text, f"{found, shown} in the place of {output!r}")
        if output.startswith("refused entry ") and view != "picture":
            notice = f"\nentry {reason} is not legal here\n"
            if found != 7 or not shown.decode().endswith(notice):
                self.fail("the notice of a view", [view], text, f"{found, shown} without {notice!r}")

    def try_view(self):
        inputs = self.inputs
        text = self.base()
        if inputs.chance(0.6):
            text = inputs.changed(text)
        words = [inputs.one(*VIEWS, "continue")]
        if words[0] == "continue":
            words.append(self.seed_word())
        if words[0] in ("lanes", "picture") and inputs.chance(0.4):
            words += inputs.one(["--events"], ["--steps", "2-5"], ["--threads=1.1,1.2"], ["--steps=1-1", "--events"])
        status, report = self.answer(words, text)
        if words[0] == "continue" and status <= 3 and MARKER_LINE.search(text):
            self.equal("a replay of what was continued is the same", ["replay"], script_of(text) + MARKER + report, (status, report))

    def try_expect(self):
        """Rules and reports that are made or changed."""
        inputs = self.inputs
        report = inputs.report()
        if inputs.chance(0.7):
            report = self.answer(["run", *self.options()], inputs.script())[1]
        text = inputs.rules(report.decode().splitlines()[1:4]) * inputs.one(1, 1, 1, 1, 1, 70) + MARKER + report
        self.answer(["expect"], inputs.changed(text) if inputs.chance(0.8) else text)

    def try_audit(self):
        """Reports that are made or changed: an audit names the first event that `judge` names for one of its laws, and the first such law."""
        inputs = self.inputs
        report = inputs.report()
        if inputs.chance(0.7):
            report = self.answer(["run", *self.options()], inputs.script())[1]
        if inputs.chance(0.8):
            report = inputs.changed(report)
        judged, text = self.answer(["judge"], report)
        if judged == 13:
            return self.equal("an audit refuses what judge refuses", ["audit"], report, (judged, text))
        found = [line.split(" ") for line in text.decode().splitlines()]
        named = [(int(words[2]), AUDITED.index(words[0])) for words in found if words[0] in AUDITED and words[1] == "event"]
        events = report.split(b"\nverdict ")[0].count(b"\n")
        expected = (12, b"audit event %d %s\n" % (min(named)[0], AUDITED[min(named)[1]].encode())) if named else (0, b"audit ok %d\n" % events)
        self.equal("an audit says what the lines of its laws say", ["audit"], report, expected)

    def try_tallies(self):
        """The tally of two ranges is the sum of their tallies."""
        inputs, text = self.inputs, self.inputs.script()
        first, size, more = inputs.random.randrange(1, 2**inputs.one(4, 32, 63)), inputs.random.randint(1, 3), inputs.random.randint(1, 3)
        ranges = [(first, first + size - 1), (first + size, first + size + more - 1), (first, first + size + more - 1)]
        answers = [self.answer(["tally", str(begin), str(end)], text) for begin, end in ranges]
        if answers[0][0] == 0:
            order = inputs.one([0, 1], [1, 0])
            self.equal("the sum of two tallies is the tally of both", ["sum"], b"".join(answers[i][1] for i in order), answers[2])

    def try_changed_tallies(self):
        """Tallies of ranges that may have a gap or overlap, which may be changed."""
        inputs, text = self.inputs, script_of(self.inputs.random.choice(self.texts))
        tallies = [self.answer(["tally", str(begin), str(begin + inputs.one(0, 1))], text)[1] for begin in (1, inputs.one(1, 2, 3, 5))]
        joined = inputs.one(b"", b"", tallies[0]).join(tallies)
        self.answer(["sum"], inputs.changed(joined) if inputs.chance(0.8) else joined)

    def try_sample(self):
        """The lines of a sample are those of the tally of its seeds. A table and a summary."""
        inputs = self.inputs
        text, size = inputs.script(), inputs.random.randint(1, 4)
        status, sampled = self.answer(["sample", str(size)], text)
        found, counted = self.answer(["tally", "1", str(size)], text)
        if status != found or sampled.splitlines()[1:] != counted.splitlines()[1 if status else 3:]:
            self.fail("a sample has the lines of a tally", ["sample", str(size)], text, f"{status, sampled} and {found, counted}")
        self.answer(["points"], b"")
        self.answer(["demo", str(inputs.random.randrange(2**32))], b"")

    def try_survey(self):
        """A survey counts what `expect` says of the reports of its seeds."""
        inputs, text, options = self.inputs, self.inputs.script(), self.options()
        text = text if text.endswith(b"\n") else text + b"\n"
        seeds = inputs.random.randint(1, 3)
        reports = [self.answer(["run", "--seed", str(seed), *options], text) for seed in range(1, seeds + 1)]
        events = reports[0][1].decode().partition("\nverdict ")[0].splitlines()[1:]
        rules = inputs.rules(events, 5)
        if inputs.chance(0.3):
            self.answer(["survey", str(seeds), *options], text + MARKER + inputs.changed(rules))
        words, given = ["survey", str(seeds), *options], text + MARKER + rules
        status, output = self.answer(words, given)
        if reports[0][0] > 3:
            return self.equal("a survey refuses what run refuses", words, given, reports[0])
        answers = [self.answer(["expect"], rules + MARKER + report)[1].decode().splitlines()[:-1] for _, report in reports]
        wanted = [sum(lines[i].endswith(" yes") for lines in answers) for i in range(len(answers[0]))]
        found = [int(line.split("\t")[1].split(" ")[1]) for line in output.decode().splitlines() if "\tholds " in line]
        if found != wanted:
            self.fail("a survey counts the answers of expect", words, given, f"{status, output}: {found} in the place of {wanted}")
        return None

    def try_seed(self):
        """A kept input, mostly changed, for its command."""
        inputs = self.inputs
        if not self.seeds:
            return self.try_changed_script()
        words, text = inputs.random.choice(self.seeds)
        return self.answer(words, inputs.changed(text) if inputs.chance(0.9) else text)
