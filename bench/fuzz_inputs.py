"""Random inputs for fuzz.py: scripts, schedules, reports, expectations and tallies of a grammar, and texts that are changed: bytes, lines,
words and numbers of them are exchanged, removed, repeated or replaced.
"""
import random
import re

from events import FORMS
from program import ROOT
from random_scripts import POINTS, Scripts

SEEDS = ROOT / "bench/seeds"
BLANKS = re.compile(rb"(\s+)")
MARKER_LINE = re.compile(rb"^%%\r?(?:\n|\Z)", re.M)
DIGITS = re.compile(rb"([0-9]+)")
# Numbers at the limits of docs/FORMATS.md, and beside them.
NUMBERS = [0, 1, 2, 3, 4, 8, 15, 16, 17, 31, 32, 33, 63, 64, 65, 128, 129, 200000, 200001, 32767, 32768, 4294967295, 4294967296, 2**64 - 1, 2**64]
STRANGE = [b"\0", b"\t", b"\r", b"\n", b"\r\n", b" ", b"  ", b"#", b"%%", b"\n%%\n", b"\xff", b"\xc3\xa9", b"/", b"*", b"-", b"0", b"end", b"end 0", b"schedule 1 9 4 64\n", b"report 2\n", b"_", b"+1", b"00"]
VERDICTS = """complete deadlock budget open undefined~thread_id undefined~not_owner undefined~key_id profile~stack_full undefined~nothing""".replace("~", " ").split()


def script_of(text):
    """The part of an input before its line %%."""
    found = MARKER_LINE.search(text)
    return text[:found.start()] if found else text


def forms():
    """The forms of statements, of docs/forms.txt, without those that open or close a block."""
    lines = (ROOT / "docs/forms.txt").read_text().splitlines()
    lines = lines[lines.index("fn NAME PARAM LOCAL ..") + 1:]
    return [line for line in lines[:lines.index("")] if line.split()[0] not in ("if", "else", "while", "end", "pthread_cleanup_push", "pthread_cleanup_pop")]


STATEMENTS = forms()
# What an event line of a rule or a report may have in the place of a field.
FIELDS = {"V": ["0", "1", "7", "80", "4294967295"], "A": ["0", "1", "2"], "N": ["1", "2", "3", "64"], "K": ["1", "2"], "P": ["1", "2"], "F": ["f", "h0", "u", "w0"],
          "M": ["m"], "C": ["c"], "S": ["s"], "O": ["o"], "NAME": ["read", "pause", "nothing", "sem_wait"]}


class Inputs:
    """Random inputs, of a seed. `kept` are texts that others are made of."""

    def __init__(self, seed, kept):
        self.random = random.Random(seed)
        self.kept = kept

    def one(self, *choices):
        return self.random.choice(choices)

    def chance(self, part):
        return self.random.random() < part

    # ---- scripts

    def word(self, field):
        """A word for a field of a form of statements."""
        values = {"V": ["0", "1", "2", "7", "x", "y", "g", "t"], "VAR": ["x", "y", "g", "t"], "DEST": ["-", "x", "y", "g", "t"], "FN": ["f", "h", "d", "main"],
                  "FN?": ["-", "f", "h", "d"], "M": ["m", "l"], "C": ["c", "e"], "S": ["s", "z"], "O": ["o", "i"]}
        return self.random.choice(values[field]) if field in values else field

    def statements(self, depth, count):
        lines = []
        for _ in range(count):
            way = self.random.random()
            if way < 0.12 and depth < 4:
                inner = self.statements(depth + 1, self.random.randint(0, 3))
                begin = self.one(f"if {self.word('V')}", f"while {self.word('VAR')}", f"pthread_cleanup_push {self.word('FN')} {self.word('V')}")
                lines += [begin, *inner]
                if begin.startswith("while") and self.chance(0.8):
                    lines.append(f"add {begin.split()[1]} 4294967295")
                if begin.startswith("if") and self.chance(0.4):
                    lines += ["else", *self.statements(depth + 1, self.random.randint(0, 2))]
                lines.append("end" if not begin.startswith("pthread") else f"pthread_cleanup_pop {self.word('V')}")
            elif way < 0.2:
                lines.append(self.random.choice(POINTS))
            else:
                lines.append(" ".join(self.word(field) for field in self.random.choice(STATEMENTS).split()))
        return lines

    def script(self):
        """A text that mostly is a script."""
        way = self.random.random()
        if way < 0.45:
            return Scripts(self.random.randrange(10**12)).text().encode()
        if way < 0.7:
            lines = ["global g", "mutex m", "mutex l", "cond c", "cond e", "sem s 1", "sem z 0"] + self.one([], ["once o", "once i"], ["once o", "once i"])
            for name in ("f", "h", "d"):
                lines += [f"fn {name} x y t", *self.statements(0, self.random.randint(0, 5)), "end"]
            lines += ["fn main x y t", *self.statements(0, self.random.randint(1, 9)), "end"]
            if self.chance(0.3):
                lines.insert(self.random.randrange(len(lines)), self.one("# a comment", "", "  \t", "\t# x"))
            return "".join(line + "\n" for line in lines).encode()
        return script_of(self.random.choice(self.kept))

    # ---- schedules, reports, rules, tallies

    def number(self):
        return str(self.one(self.random.randint(0, 5), self.random.randint(0, 5), self.random.choice(NUMBERS)))

    def entry(self):
        choice = self.one("go", "go", "go", "act 0", "expire", f"new {self.number()}", f"pick {self.number()}", f"dtor {self.number()}", f"act {self.number()}")
        return f"{self.one('0', '1', '1', '2', '16')} 1 {self.one('1', '1', '2', '3', self.number())} {choice}"

    def schedule(self):
        entries = [self.entry() for _ in range(self.random.randint(0, 6))]
        header = f"schedule {self.one(1, 2)} {self.one(1, 5, 100, 100)} {self.one(4, 4, 16)} {self.one(1, 2, 64)}"
        end = self.one([], [f"end {len(entries)}"], [f"end {len(entries)}"], [f"end {self.number()}"])
        return "".join(line + "\n" for line in [header, *entries, *end]).encode()

    def event(self):
        words = [self.random.choice(FIELDS[word]) if word in FIELDS else word for word in self.random.choice(FORMS).split()]
        return " ".join([self.one("1.1", "1.1", "1.2", "2.1"), *words])

    def report(self):
        lines = [self.one("report 1", "report 2"), *(self.event() for _ in range(self.random.randint(0, 8))), f"verdict {self.random.choice(VERDICTS)}"]
        return "".join(line + "\n" for line in lines).encode() + self.schedule()

    def pattern(self, events):
        words = self.random.choice(events).split()
        return " ".join("*" if self.chance(0.5) else word for word in words)

    def rules(self, events, most=None):
        """Rules over words of these event lines. If it is given, no count is above `most`."""
        events = events or [self.event() for _ in range(3)]
        lines = []
        for _ in range(self.random.choice([1, 1, 2, 3, 5, 8])):
            kind = self.one("never", "count", "before", "after", "thread")
            first, second = self.pattern(events), self.pattern(events)
            count = self.number() if most is None else self.random.randint(0, most)
            lines.append(f"never {first}" if kind == "never" else f"count {count} {first}" if kind == "count" else f"{kind} {first} / {second}")
        return "".join(line + "\n" for line in lines).encode()

    # ---- changes

    def changed(self, text):
        """A text that differs in a few places."""
        for _ in range(self.random.choice([1, 1, 1, 2, 3, 6])):
            text = self.random.choice([self.changed_bytes, self.changed_lines, self.changed_lines, self.changed_words, self.changed_words, self.changed_numbers])(text)
        return text

    def changed_bytes(self, text):
        at = self.random.randint(0, len(text))
        size = self.one(0, 1, 1, 2, self.random.randint(0, 20))
        new = self.one(b"", bytes([self.random.randrange(256)]), self.random.choice(STRANGE), text[at:at + size] * 2)
        return text[:at] + new + text[at + size:]

    def changed_list(self, parts, other):
        """A list in which a part is removed, repeated, replaced or exchanged with another, or at which it ends."""
        if not parts:
            return list(other)
        parts, first, second = list(parts), self.random.randrange(len(parts)), self.random.randrange(len(parts))
        way = self.random.randrange(6)
        if way == 0:
            del parts[first:first + self.one(1, 1, 2, 8)]
        elif way == 1:
            parts[first:first] = parts[first:first + self.one(1, 1, 3)] * self.one(1, 1, 1, 40)
        elif way == 2:
            parts[first], parts[second] = parts[second], parts[first]
        elif way == 3:
            parts[first:first + self.one(0, 1)] = other
        elif way == 4:
            parts.insert(second, parts.pop(first))
        else:
            del parts[self.one(first, len(parts) - 1):]
        return parts

    def changed_lines(self, text):
        other = self.random.choice(self.kept).splitlines(True)
        start = self.random.randrange(len(other) + 1)
        return b"".join(self.changed_list(text.splitlines(True), other[start:start + self.one(1, 1, 4)]))

    def changed_words(self, text):
        lines = text.splitlines(True)
        if not lines:
            return b"\n"
        at = self.random.randrange(len(lines))
        words = lines[at].rstrip(b"\r\n").split(b" ")
        others = [word for word in re.split(BLANKS, self.random.choice(self.kept)) if word.strip()] or [b"x"]
        end = lines[at][len(lines[at].rstrip(b"\r\n")):]
        lines[at] = self.one(b" ", b" ", b" ", b" ", b"  ", b"\t").join(self.changed_list(words, [self.random.choice(others)])) + end
        return b"".join(lines)

    def changed_numbers(self, text):
        parts = re.split(DIGITS, text)
        if len(parts) < 3:
            return text
        at = self.random.randrange(1, len(parts), 2)
        value = int(parts[at]) if len(parts[at]) < 30 else 0
        parts[at] = str(self.one(value + 1, max(value - 1, 0), self.random.choice(NUMBERS), self.random.randint(0, 70))).encode() if self.chance(0.9) else self.one(b"0", b"", b"-") + parts[at]
        return b"".join(parts)


def kept_seeds(folders):
    """The kept inputs, each with the words of its command."""
    found = []
    for folder in folders:
        for path in sorted(folder.glob("*")) if folder and folder.is_dir() else ():
            line, _, text = path.read_bytes().partition(b"\n")
            found.append((line.decode().split(" "), text))
    return found


def examples():
    """The texts of examples/ and of some conformance vectors."""
    paths = [path for path in sorted((ROOT / "examples").glob("*")) if path.suffix in (".pct", ".replay", ".expect", ".some", ".prefix")]
    paths += sorted((ROOT / "conformance").glob("*/script.pct"))[::3]
    return [path.read_bytes() for path in paths if path.stat().st_size < 4000]
