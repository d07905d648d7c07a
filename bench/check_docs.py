#!/usr/bin/env python3
"""Compares README.md and docs/*.md with what the program writes, and with the definitions.

    bench/check_docs.py [PROGRAM]

PROGRAM is the built program, crates/pct_run/out/pct_run where none is named (./pct build builds it).

What is checked:

- Commands. In a fenced block a line that begins with `$ ` is a command, and the lines after it, down to the next command
  or the end of the block, are its output. The command's standard output must be these bytes; standard error is not
  compared, except where the command has 2>&1. The commands of a page are run by sh, in order, in one temporary folder,
  which has a copy of examples/ and ./pct over the program; `$?` is the status of the command before. A block marked
  ```text is not run, and neither is a command that begins with `rt `.
- Refusals in the text. Lines in backticks, separated by commas, and then `: `, ` is ` or ` | ` and a refusal in backticks
  are an example: the lines are given to `check`, or after a small script and a line %% to `replay` if the refusal is
  one of a schedule or an entry. Other forms are passed over.
- Definitions. In a block marked ```antt FILE each line is one of this file, but for the spaces around it.
- Reasons. docs/reasons.txt, from which ./pct explains a refusal, has each reason of SCRIPT.md and of FORMATS.md, with the
  same usual cause and the same way to mend it.
- Statements. The tables of SCRIPT.md have all statements that the definitions know, and no others. docs/forms.txt, from
  which ./pct explains a refused word, has their forms, the cancellation points of SCRIPT.md and the limits of FORMATS.md.
- Stops. The table of stops in FORMATS.md has all stops that the definitions know, and no others. docs/reasons.txt has
  each, with the use and the rule of the table, a usual cause and a way to mend it.
- Deadlocks. docs/reasons.txt has each wait of the table in SCRIPT.md, with the same usual cause and way to mend it.
- Laws. THEOREM.md, from which ./pct shows the sentence of a law that fails, FORMATS.md and scripts/explain.sh have all laws that `judge`
  names, in the order of its lines.
- Faults and causes. Each fault in a word and each cause in a run that the scripts of ./pct find has a mend in docs/forms.txt or
  docs/reasons.txt, and each mend there belongs to one.

The last line is `N passed, M failed`. The status is 1 if M is not 0 or N is 0.
"""
import pathlib
import re
import subprocess
import sys
import tempfile

import checkout
from checkout import ROOT

SPECS = ROOT / "crates/pct_model/specs"
SECONDS = 60
REFUSAL = re.compile(r"refused (script|schedule|entry)( [0-9]+)( [a-z_]+)?")
REPLAYED = ["fn main x", "return 0", "end", "%%"]


# ---- commands and refusals


def run(folder, command, status=0, text=""):
    """Runs a command by sh, where `$?` is the given status, and returns its status and its output."""
    ran = subprocess.run(
        ["sh", "-c", f"(exit {status})\n{command}"],
        cwd=folder,
        input=text.encode(),
        stdout=subprocess.PIPE,
        stderr=subprocess.PIPE,
        timeout=SECONDS,
    )
    return ran.returncode, ran.stdout.decode(errors="replace")


def commands(lines):
    """The commands of a page: the number of the line, the command, and the output that the page prints."""
    fence, found = None, []
    for number, line in enumerate(lines, 1):
        if line.startswith("```"):
            fence = None if fence is not None else line[3:].strip()
            command = None
        elif fence is not None and fence != "text" and line.startswith("$ "):
            command = (number, line[2:], [])
            found.append(command)
        elif fence is not None and command:
            command[2].append(line + "\n")
    return [(number, command, "".join(output)) for number, command, output in found if not command.startswith("rt ")]


def refusals(lines):
    """The refusals in the text of a page: the number of the line, the lines that are refused, and the answer."""
    is_code = False
    for number, line in enumerate(lines, 1):
        if line.startswith("```"):
            is_code = not is_code
        parts = [] if is_code else line.split("`")
        # A part in backticks has an odd index.
        for at in range(3, len(parts), 2):
            if REFUSAL.fullmatch(parts[at]) and parts[at - 1] in (": ", " is ", " | "):
                first = at - 2
                while first > 1 and parts[first - 1] == ", ":
                    first -= 2
                if parts[first - 1].endswith(("| ", ": ", ":* ")):
                    yield number, parts[first:at - 1:2], parts[at]


def results(page, program):
    """For each command and refusal of a page: its line, what is run, what the page has, and what the program writes."""
    lines = page.read_text().splitlines()
    with tempfile.TemporaryDirectory() as name:
        folder = pathlib.Path(name)
        checkout.make(folder, program)
        status = 0
        for number, command, output in commands(lines):
            status, written = run(folder, command, status)
            yield number, command, output, written
        for number, given, answer in refusals(lines):
            is_script = answer.startswith("refused script")
            text = "".join(f"{line}\n" for line in (given if is_script else REPLAYED + given))
            _, written = run(folder, f"./pct {'check' if is_script else 'replay'}", text=text)
            yield number, ", ".join(given), answer + "\n", written


# ---- definitions


def displayed(page):
    """For each line of a definition that a page displays: its number, the file, the line, and the line as the file has it, if it does."""
    source = None
    for number, line in enumerate(page.read_text().splitlines(), 1):
        if line.startswith("```"):
            is_definition = source is None and line.startswith("```antt ")
            source = ROOT / line.removeprefix("```antt ") if is_definition else None
            known = {text.strip() for text in source.read_text().splitlines()} if source else set()
        elif source and line.strip():
            yield number, source.name, line, line if line.strip() in known else "no such line"


# ---- reasons


def table_of_reasons():
    """The sentences of docs/reasons.txt, by refusal."""
    table = {}
    for line in (ROOT / "docs/reasons.txt").read_text().splitlines():
        if line.startswith(" "):
            table[refusal].append(line.strip())
        elif line and not line.startswith("#"):
            refusal = line
            table[refusal] = []
    return {refusal: " ".join(words) for refusal, words in table.items()}


def plain(text):
    """The text of a page as docs/reasons.txt has it: without links, and with quotes in place of backticks."""
    return re.sub(r"\[([^]]*)\]\([^)]*\)", r"\1", text).replace("`", "'")


# What is refused for the reasons of a section of FORMATS.md, where that is no schedule.
KINDS = {"## Tally of a range, and sums": "tally", "## Expectations": "expect", "## Reading a report": "report"}


def page_of_reasons(page, kind):
    """The sentences of a page, by refusal: each reason is a heading, and its cause and mend are items below it. Those of the
    sections on tallies, rules and reports are of these."""
    table, refusal, usual = {}, None, kind
    for line in page.read_text().splitlines():
        if line.startswith("## "):
            kind = KINDS.get(line, usual)
        heading = re.fullmatch(r"#+ (.*)", line)
        item = re.fullmatch(r"- \*(Usual cause|Mend):\* (.*)", line)
        if heading:
            name = heading[1].strip("`")
            refusal = name if name == "entry" else f"{kind} {name}"
        elif item:
            table.setdefault(refusal, []).append(f"{item[1]}: {plain(item[2])}")
    return {refusal: " ".join(words) for refusal, words in table.items()}


def reasons():
    """For each reason: its name, the sentences of the page, and those of the table."""
    table = {refusal: words for refusal, words in table_of_reasons().items() if not refusal.startswith(("stop ", "deadlock ", "cause "))}
    pages = {
        **page_of_reasons(ROOT / "docs/SCRIPT.md", "script"),
        **page_of_reasons(ROOT / "docs/FORMATS.md", "schedule"),
    }
    for refusal in sorted({*table, *pages}):
        yield f"{refusal} in docs/reasons.txt", pages.get(refusal, "none"), table.get(refusal, "none")


def stops():
    """For each stop: its name, the use and the rule of the page and the labels after them, and those of the table."""
    rows = re.findall(r"^\| `(?:undefined|profile) ([a-z_]+)` \| (.*) \| (.*) \|$", (ROOT / "docs/FORMATS.md").read_text(), re.M)
    pages = {f"stop {name}": f"Use: {plain(use)}. Rule: {plain(rule)}. Usual cause: Mend:" for name, use, rule in rows}
    table = {
        stop: re.sub(r"(Usual cause:) .*? (Mend:) .+", r"\1 \2", words)
        for stop, words in table_of_reasons().items()
        if stop.startswith("stop ")
    }
    for stop in sorted({*table, *pages}):
        yield f"{stop} in docs/reasons.txt", pages.get(stop, "none"), table.get(stop, "none")


def deadlocks():
    """For each wait of a deadlock: its name, the cause and the mend of the page, and those of the table."""
    rows = re.findall(r"^\| `waits for (\w+)[^`]*` \| (.*) \| (.*) \|$", (ROOT / "docs/SCRIPT.md").read_text(), re.M)
    pages = {f"deadlock {wait}": f"Usual cause: {plain(cause)}. Mend: {plain(mend)}." for wait, cause, mend in rows}
    table = {wait: words for wait, words in table_of_reasons().items() if wait.startswith("deadlock ")}
    for wait in sorted({*table, *pages}):
        yield f"{wait} in docs/reasons.txt", pages.get(wait, "none"), table.get(wait, "none")


# ---- statements and stops


def known_statements():
    """The keywords of all statements. POINT stands for the cancellation points."""
    text = "\n".join(path.read_text() for path in sorted(SPECS.glob("*.antt")))
    syntax = re.findall(r"^syntax_of \(?line_kind\.(\w+).*?(?:codes \"(\S+)\"|point_name)", text, re.M)
    return {word or "POINT" for kind, word in syntax if kind != "Declares"}


def known_stops():
    """The names of all stops, each with its class."""
    text = (SPECS / "StopTexts.antt").read_text() + (SPECS / "Keywords.antt").read_text()
    names = dict(re.findall(r"^name_of_stop why\.(\w+) = keyword\.(\w+)$", text, re.M))
    classes = dict(re.findall(r"^class_of_stop why\.(\w+) = keyword\.(\w+)$", text, re.M))
    words = dict(re.findall(r"^keyword_text keyword\.(\w+) = codes \"(\S+)\"$", text, re.M))
    return {f"{words[classes[why]]} {words[name]}" for why, name in names.items()}


def codes(text):
    """The first words of what is in backticks."""
    return [code.split()[0] for code in re.findall(r"`([^`]+)`", text) if code.strip()]


def forms_of(text):
    """The forms of statements and declarations in the tables of a page."""
    known = known_statements() | {"fn", "global", "mutex", "cond", "sem", "once"}
    cells = [line.split("|")[1] for line in text.splitlines() if line.startswith("| `")]
    return {form for cell in cells for form in re.findall(r"`([^`]+)`", cell) if form.split()[0] in known}


def forms():
    """For each kind of line of docs/forms.txt: where it is, what the pages have, and what the file has."""
    script, formats = (ROOT / "docs/SCRIPT.md").read_text(), (ROOT / "docs/FORMATS.md").read_text()
    lines = [line for line in (ROOT / "docs/forms.txt").read_text().splitlines() if line and not line.startswith(("#", "- "))]
    has = {line for line in lines if not line.startswith(("limit ", "point ", "mend "))}
    yield "docs/forms.txt: the forms of SCRIPT.md", names(forms_of(script)), names(has)
    listed = script.partition("### Cancellation points")[2].partition("\n## ")[0].split("```")[1::2]
    points = [word for line in lines if line.startswith("point ") for word in line.split()[1:]]
    yield "docs/forms.txt: the points of SCRIPT.md", names(" ".join(listed).split()), names(points)
    for _, word, number, *what in [line.split() for line in lines if line.startswith("limit ")]:
        rows = [row for row in formats.splitlines() if row.startswith("| ") and re.sub("mutexes|condition variables|semaphores|once controls", "globals", " ".join(what)) in row]
        limit = rows[0].split("|")[2].split()[0].replace(",", "") if rows else "none"
        yield f"docs/forms.txt: the limit of {word} in FORMATS.md", limit, number


def found():
    """For the names of faults and causes: where they are, those that the scripts of ./pct find, and those that the tables have a mend of."""
    word = "".join((ROOT / f"scripts/{name}.awk").read_text() for name in ("refused_word", "mend_word"))
    run = "".join((ROOT / f"scripts/{name}.awk").read_text() for name in ("deadlock", "budget"))
    mends = re.findall(r"^mend ([a-z_]+): .", (ROOT / "docs/forms.txt").read_text(), re.M)
    yield "docs/forms.txt: the faults that refused_word.awk and mend_word.awk do not name", "none", names({name for name in mends if not quotes(word, name)})
    named = re.findall(r'(?:known|keep)\("([a-z_]+)"', word)
    choices = (ROOT / "scripts/mend_word.awk").read_text().partition("# ---- faults")[2].partition("\n# ---- ")[0]
    named += [name for name in re.findall(r'"([a-z]+(?:_[a-z]+)+)"', choices) if not name.startswith(("pthread_cond_", "pthread_once"))]
    yield "docs/forms.txt: the faults without a mend", "none", names(set(named) - set(mends))
    causes = {name[6:]: words for name, words in table_of_reasons().items() if name.startswith("cause ")}
    yield "docs/reasons.txt: the causes that deadlock.awk and budget.awk do not name", "none", names({name for name in causes if not quotes(run, name)})
    named = re.findall(r'"((?:pending|own|waiting|ended|canceled|no)_[a-z]+)"', run)
    yield "docs/reasons.txt: the causes without a mend", "none", names({name for name in named if not causes.get(name, "").startswith("Mend: ")})


def quotes(text, name):
    """Whether the text has a name in quotes, whole or but for a beginning that ends with `_`."""
    return f'"{name}"' in text or any(f'"{name[:at + 1]}"' in text for at, byte in enumerate(name) if byte == "_")


def names(words):
    return ", ".join(sorted(words)) or "none"


def lists():
    """For each list of the pages: where it is, what is in it, and what the definitions want there."""
    known = known_statements()
    text = (ROOT / "docs/SCRIPT.md").read_text()
    listed = {code for line in text.splitlines() if line.startswith("| ") for code in codes(line.split("|")[1]) if code in known}
    listed |= {"POINT"} if "the name of a cancellation point" in text else set()
    yield "docs/SCRIPT.md: the statements in its tables", names(listed), names(known)
    rows = re.findall(r"^\| `((?:undefined|profile) [a-z_]+)` \|", (ROOT / "docs/FORMATS.md").read_text(), re.M)
    yield "docs/FORMATS.md: the stops in its tables", names(rows), names(known_stops())


def known_laws():
    """The words of the laws that `judge` names, in the order of its lines."""
    findings = (ROOT / "crates/pct_event_judge/specs/Findings.antt").read_text()
    texts = (ROOT / "crates/pct_report_judge/specs/FindingsTexts.antt").read_text()
    words = dict(re.findall(r'^law_text law\.(\w+) = codes "(\S+)"$', texts, re.M))
    return [words[law] for law in re.findall(r"law\.(\w+)", findings.partition("\nevent_laws =\n")[2].partition("\n\n")[0])]


def laws():
    """For each list of the laws that `judge` names: where it is, what is in it, and what the definitions want there."""
    wanted = ", ".join(known_laws())
    rows = (ROOT / "docs/THEOREM.md").read_text().partition("\n### The laws of events alone\n")[2].partition("\n## ")[0]
    yield "docs/THEOREM.md: the laws of events alone", ", ".join(re.findall(r"^\| `([a-z_]+)` \| `", rows, re.M)), wanted
    rows = (ROOT / "docs/FORMATS.md").read_text().partition("\n| LAW | Fails at |\n|---|---|\n| `once` | as by")[2].partition("\n\n")[0]
    listed = [code for row in rows.splitlines() if row.startswith("| `") for code in codes(row.split("|")[1])]
    yield "docs/FORMATS.md: the laws of judge", ", ".join(["once", *listed]), wanted
    subjects = (ROOT / "scripts/explain.sh").read_text().partition("\nlaw_subject() {\n")[2].partition("\n}\n")[0]
    yield "scripts/explain.sh: the laws with a subject", ", ".join(re.findall(r"^ +([a-z_]+)\) echo ", subjects, re.M)), wanted


# ---- all


def checks(program):
    """For each check: where it is, what the page has, and what it should have."""
    yield from reasons()
    yield from stops()
    yield from deadlocks()
    yield from lists()
    yield from laws()
    yield from forms()
    yield from found()
    for page in [ROOT / "README.md", *sorted((ROOT / "docs").glob("*.md"))]:
        for number, command, printed, written in results(page, program):
            yield f"{page.relative_to(ROOT)}:{number}: {command}", printed, written
        for number, source, line, has in displayed(page):
            yield f"{page.relative_to(ROOT)}:{number}: a line of {source}", line, has


def main():
    program = pathlib.Path(sys.argv[1] if len(sys.argv) > 1 else ROOT / checkout.BUILT).resolve()
    if not program.is_file():
        sys.exit(f"there is no program {program}; ./pct build builds it")
    passed = failed = 0
    for where, has, wanted in checks(program):
        if has == wanted:
            passed += 1
            continue
        failed += 1
        print(f"{where}\n--- the page has\n{has.rstrip()}\n--- it should have\n{wanted.rstrip()}\n---")
    print(f"{passed} passed, {failed} failed")
    sys.exit(1 if failed or not passed else 0)


main()
