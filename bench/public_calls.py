#!/usr/bin/env python3
"""Lists the public functions of the crates, and checks the page that has their answers.

    bench/public_calls.py [CRATE ..]
    bench/public_calls.py --check

A public function is a `pub fn` that a caller of the crate can name: one of the root file or of a module, if the root file exports
it, a method of a type that the root file exports, and a function of a public trait. Functions of impls of traits are not listed: a
call of one has the clauses of the trait. Tests are not listed.

The first form prints each public function of these crates, or of all: its crate, its name, its result, the labels of its clauses
(`-` where a clause has none), and after a colon the answers that docs/CALLS.md has to have. These are `None` of an Option, each
variant of the error of a Result, `false` of a call that is lent something to change, and each variant of Status and of Turn but
those that are named in SUCCESSES.

The second form compares docs/CALLS.md with the sources.

- Answers. In the table of answers each such answer of each public function has one row, and no row is of a function that is not
  there.
- Clauses. In the last two fields of a row there is the label of an `ensures` of each of its functions, or the word `unnamed` if
  they have one without a label; every other name in backticks is defined in a folder specs/, and a name with a point is that of a
  field. `nothing lent` stands only with functions that are lent nothing to change, and `free` only with an answer that memory ran
  out. A field that no clause fills is `no clause`.
- No clause. The table of calls without a clause has each public function that ensures nothing, and no other.
- The rest. The table of other functions has for each crate the number of its public functions that have no row of an answer.

The last line is `N passed, M failed`. The status is 1 if M is not 0 or N is 0.
"""
import functools
import re
import sys

from checkout import ROOT

PAGE = ROOT / "docs/CALLS.md"
CRATES = ROOT / "crates"
ANSWERS = "## Answers"
BARE = "## Calls without a clause"
REST = "## Other functions"
MEMORY = ("NoMemory", "AllocError")
ENUMS = ("Status", "Turn")
SUCCESSES = ("Did",)
TOKEN = re.compile(
    r"""//[^\n]*|/\*.*?\*/|b?"(?:\\.|[^"\\])*"|b?'(?:\\.[^']*|[^'\\])'|'[A-Za-z_]\w*|[^\W\d]\w*|\d\w*|->|=>|::|\s+|.""", re.S
)
CLOSING = {"(": ")", "[": "]", "{": "}"}


# ---- the sources


def tokens(text):
    """The tokens of a source, without comments."""
    return [m[0] for m in TOKEN.finditer(text) if not m[0].isspace() and not m[0].startswith(("//", "/*"))]


def after_brackets(words, at):
    """The index after the brackets that open at an index."""
    depth = 0
    while True:
        depth += (words[at] in CLOSING) - (words[at] in CLOSING.values())
        at += 1
        if not depth:
            return at


def after_angles(words, at):
    """The same of `<` and `>`."""
    depth = 0
    while True:
        if words[at] in CLOSING:
            at = after_brackets(words, at)
            continue
        depth += (words[at] == "<") - (words[at] == ">")
        at += 1
        if not depth:
            return at


class Function:
    """A function: its owner, which is a type, a trait or nothing, its name, arguments and result, and its clauses. A clause is
    `requires` or `ensures`, with its label and its words."""

    def __init__(self, owner, words, at, attributes):
        self.name = (f"{owner}::" if owner else "") + words[at + 1]
        self.is_test = any(attribute.startswith("test") for attribute in attributes)
        at += 2
        at = after_angles(words, at) if words[at] == "<" else at
        end = after_brackets(words, at)
        self.arguments, self.result, self.clauses = words[at:end], "", []
        at = end
        while words[at] not in ("requires", "ensures", "{", ";"):
            end = after_brackets(words, at) if words[at] in CLOSING else at + 1
            self.result += "".join(word if word != "->" else "" for word in words[at:end])
            at = end
        while words[at] in ("requires", "ensures"):
            opening = words.index("{", at)
            end = after_brackets(words, opening)
            self.clauses.append((words[at], "".join(words[at + 1:opening]), words[opening + 1:end - 1]))
            at = end
        self.end = after_brackets(words, at) if words[at] == "{" else at + 1

    def labels(self):
        """The labels of what it ensures, the empty word for a clause without a label."""
        return [label for kind, label, _ in self.clauses if kind == "ensures"]

    def words(self):
        """The names in its clauses."""
        return {word for _, _, body in self.clauses for word in body}

    def is_lent(self):
        """It is lent something that it may change."""
        return "& mut" in re.sub(r"& '\w+ ", "& ", " ".join(self.arguments))

    def answers(self):
        """The answers that the page has to have."""
        if self.result.startswith("Option<"):
            return ["None"]
        if self.result.startswith("Result<"):
            error = re.fullmatch(r"Result<.*,(\w+)>", self.result)[1]
            return variants(error) or [error]
        if self.result == "bool":
            return ["false"] if self.is_lent() else []
        if self.result in ENUMS and self.is_lent():
            return [name for name in variants(self.result) if name not in SUCCESSES]
        return []


def functions_of(words, owner=None, is_public=None):
    """The functions in these words, with the types that own them. Public ones only, where `is_public` does not say that all are."""
    at, public, attributes = 0, False, []
    while at < len(words):
        word = words[at]
        if word == "#":
            start = at + 1 + (words[at + 1] == "!")
            at = after_brackets(words, start)
            attributes.append("".join(words[start + 1:at - 1]))
        elif word == "pub":
            public = words[at + 1] != "("
            at = at + 1 if public else after_brackets(words, at + 1)
        elif word == "fn":
            function = Function(owner, words, at, attributes)
            if (public or is_public) and not function.is_test:
                yield function
            at, public, attributes = function.end, False, []
        elif word in ("impl", "trait"):
            start = after_angles(words, at + 1) if words[at + 1] == "<" else at + 1
            opening = words.index("{", start)
            end = after_brackets(words, opening)
            if "for" not in words[start:opening]:
                yield from functions_of(words[opening + 1:end - 1], words[start], word == "trait")
            at, public, attributes = end, False, []
        elif word in CLOSING:
            at = after_brackets(words, at)
        else:
            at += 1
            if word in (";", "struct", "enum", "mod", "use", "type", "static"):
                public, attributes = False, []


def exports(root):
    """The names that a root file exports, each with its module, and the public modules, each with the name `*`."""
    found = {}
    for path in re.findall(r"^pub use (?!pct_)([^;]+);", root, re.M):
        module, _, names = re.sub(r"\s", "", path).partition("::")
        found |= {name: module for name in names.strip("{}").rstrip(",").split(",")}
    return found | {f"{module}::*": module for module in re.findall(r"^pub mod (\w+);", root, re.M)}


@functools.cache
def public_functions(crate):
    """The public functions of a crate."""
    folder, found = CRATES / crate / "src", []
    if not (folder / "lib.rt").is_file():
        return []
    exported = exports((folder / "lib.rt").read_text())
    for path in sorted(folder.glob("*.rt")):
        for function in functions_of(tokens(path.read_text())):
            first = function.name.partition("::")[0]
            is_whole = path.stem == "lib" or f"{path.stem}::*" in exported
            if is_whole or (first in exported and ("::" in function.name or exported[first] == path.stem)):
                found.append(function)
    return found


def crates():
    lines = (ROOT / "crates.txt").read_text().splitlines()
    named = [line.partition(":")[0].split()[0] for line in lines if line.strip() and not line.startswith("#")]
    return [crate for crate in named if public_functions(crate)]


@functools.cache
def variants(name):
    """The variants of a public enum of the crates. Of several the one that is no part of pct_model."""
    found = []
    for path in sorted(CRATES.glob("*/src/*.rt"), key=lambda path: path.parts[-3] != "pct_model"):
        words = tokens(path.read_text())
        for at in range(len(words) - 2):
            if words[at:at + 3] == ["enum", name, "{"]:
                found = list(named_variants(words[at + 3:after_brackets(words, at + 2) - 1]))
    return found


def named_variants(words):
    at = 0
    while at < len(words):
        if words[at] in CLOSING:
            at = after_brackets(words, at)
            continue
        if re.match("[A-Z]", words[at]):
            yield words[at]
        at += 1


# ---- the page


def definitions():
    """The names that are defined in a folder specs/, and the fields of records and the cases of data, each after its name."""
    found = set()
    for path in CRATES.glob("*/specs/*.antt"):
        owner = None
        for line in path.read_text().splitlines():
            defined = re.match(r"(?:abbrev |unfoldable )?pub (?:record |data |abbrev |unfoldable )?([^\s:(]+)", line)
            part = re.match(r"  (?:pub )?(\w+) :", line)
            if defined:
                owner = defined[1]
                found.add(owner)
            elif part and owner:
                found |= {f"{owner}.{part[1]}"}
    return found


def rows(heading, count):
    """The rows of the table below a heading: the number of the line, and the fields."""
    inside = False
    for number, line in enumerate(PAGE.read_text().splitlines(), 1):
        if line.startswith("#"):
            inside = line == heading
        elif inside and line.startswith("| `"):
            fields = [field.strip() for field in line.strip("|").split("|")]
            yield number, fields if len(fields) == count else fields + [""] * count


def names_in(field):
    """The names in a field, `Type::{a, b}` as two."""
    for code in re.findall("`([^`]+)`", field):
        owner, brace, methods = code.partition("::{")
        yield from [f"{owner}::{method.strip()}" for method in methods.rstrip("}").split(",")] if brace else [code]


def clause_fault(field, function, answer, known):
    """What is wrong with a field that names the clause of an answer of a function, or nothing."""
    if field == "no clause":
        return None
    if field == "nothing lent":
        return f"{function.name} is lent something" if function.is_lent() else None
    if field == "free":
        return None if answer in MEMORY else f"{answer} is not free"
    labels, names = function.labels(), list(names_in(field))
    for name in names:
        if name not in labels and name not in known and name not in function.words():
            return f"{function.name} has no clause {name}"
    if not any(name in labels for name in names) and not ("unnamed" in field and "" in labels):
        return f"no clause of {function.name} in the field {field!r}"
    return None


def row_faults(fields, functions, seen, known):
    """The faults of a row of the table of answers, for each of its functions and answers: none, or what is wrong."""
    crate, calls, answers, _, holds, only = fields[:6]
    for call in names_in(calls):
        function = functions.get((crate.strip("`"), call))
        for answer in names_in(answers):
            key = (crate.strip("`"), call, answer)
            if not function:
                yield f"there is no public function {call} of {crate}"
            elif key in seen:
                yield f"a second row of {answer} of {call} of {crate}"
            else:
                yield clause_fault(holds, function, answer, known) or clause_fault(only, function, answer, known)
            seen.add(key)


def faults():
    """For each answer and each crate what is wrong with the page, or nothing."""
    functions = {(crate, function.name): function for crate in crates() for function in public_functions(crate)}
    seen, known = set(), definitions()
    for number, fields in rows(ANSWERS, 6):
        for fault in row_faults(fields, functions, seen, known):
            yield fault and f"docs/CALLS.md:{number}: {fault}"
    for (crate, name), function in functions.items():
        for answer in function.answers():
            if (crate, name, answer) not in seen:
                yield f"docs/CALLS.md has no row of {answer} of {name} of {crate}"
    bare = {key for key, function in functions.items() if not function.labels()}
    listed = {(fields[0].strip("`"), call) for _, fields in rows(BARE, 3) for call in names_in(fields[1])}
    for crate, name in sorted(bare | listed):
        is_right = (crate, name) in bare & listed
        yield None if is_right else f"docs/CALLS.md is wrong on whether {name} of {crate} has a clause"
    counted = {fields[0].strip("`"): fields[1] for _, fields in rows(REST, 2)}
    named = {key[:2] for key in seen}
    for crate in sorted({*counted, *crates()}):
        count = sum(key[0] == crate and key not in named for key in functions)
        is_right = counted.get(crate, "0") == str(count)
        yield None if is_right else f"docs/CALLS.md has {counted.get(crate, '0')} other functions of {crate}, which has {count}"


def check():
    passed = failed = 0
    for fault in faults():
        passed += fault is None
        failed += fault is not None
        if fault:
            print(fault)
    print(f"{passed} passed, {failed} failed")
    sys.exit(1 if failed or not passed else 0)


def main():
    named = sys.argv[1:]
    if named == ["--check"]:
        check()
    if not {*named} <= {*crates()}:
        sys.exit(__doc__)
    for crate in named or crates():
        for function in public_functions(crate):
            labels = " ".join(label or "-" for label in function.labels())
            print(f"{crate} {function.name} -> {function.result or '()'} | {labels}: {' '.join(function.answers())}".rstrip(" :"))


main()
