"""A script as its functions and their statements, read from its text by docs/SCRIPT.md. The text is one that passes the checks."""
import dataclasses

NUMBER = 4294967296


@dataclasses.dataclass(frozen=True)
class Function:
    """Its statements are the words of each line with the closing `end`, each with the number of its line."""
    name: str
    locals: tuple
    body: tuple
    lines: tuple

    def closes(self, pc):
        """The statement is the closing `end` of the function."""
        return pc == len(self.body) - 1

    def depth(self, pc):
        """What the statement adds to the number of open blocks."""
        word = self.body[pc][0]
        return 1 if word in ("if", "while") else -1 if word == "end" else 0

    def end_of(self, pc):
        """The `end` of the block that is open behind a statement."""
        opened = 1
        while opened:
            pc += 1
            opened += self.depth(pc)
        return pc

    def else_of(self, pc):
        """The `else` of the `if` at a statement, or None."""
        end, opened = self.end_of(pc), 0
        for place in range(pc + 1, end):
            if not opened and self.body[place][0] == "else":
                return place
            opened += self.depth(place)
        return None

    def opener(self, end):
        """The `if` or `while` that an `end` closes."""
        return next(pc for pc in range(end) if self.depth(pc) == 1 and self.end_of(pc) == end)

    def follower(self, pc, value):
        """The statement that comes after one whose value is known, in the same frame."""
        word = self.body[pc][0]
        if word == "if" and not value:
            other = self.else_of(pc)
            return (self.end_of(pc) if other is None else other) + 1
        if word == "while" and not value or word == "else":
            return self.end_of(pc) + 1
        if word == "end":
            opened = self.opener(pc)
            return opened if self.body[opened][0] == "while" else pc + 1
        return pc + 1


class Script:
    def __init__(self, text):
        self.globals, self.mutexes, self.conds, self.sems, self.onces, self.functions = [], [], [], {}, [], {}
        self.followers = {}
        body, opened = None, 0
        for number, line in enumerate(text.split("\n"), 1):
            words = tuple(line.split())
            if not words or words[0].startswith("#"):
                continue
            if body is not None:
                body.append((number, words))
                opened += {"if": 1, "while": 1, "end": -1}.get(words[0], 0)
                if not opened:
                    self.functions[head[1]] = Function(head[1], head[2:], tuple(words for _, words in body), tuple(line for line, _ in body))
                    body = None
            elif words[0] == "fn":
                head, body, opened = words, [], 1
            elif words[0] == "sem":
                self.sems[words[1]] = int(words[2])
            else:
                {"global": self.globals, "mutex": self.mutexes, "cond": self.conds, "once": self.onces}[words[0]].append(words[1])

    def follower(self, function, pc, value):
        key = (function, pc, bool(value))
        if key not in self.followers:
            self.followers[key] = self.functions[function].follower(pc, value)
        return self.followers[key]


def value_of(operand, variables, shared):
    """The value of an operand: a number, or a local, which hides a global."""
    if operand[0].isdigit():
        return int(operand)
    return variables[operand] if operand in variables else shared[operand]
