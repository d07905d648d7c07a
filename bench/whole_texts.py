"""Says whether an answer of the program is whole: one refusal line, or a text that begins and ends as docs/FORMATS.md, docs/VIEWS.md
and docs/EXPECT.md define it, under a status that the command has.
"""
import functools
import pathlib
import re

import events

ROOT = pathlib.Path(__file__).resolve().parent.parent
VERDICTS = {"complete": 0, "deadlock": 1, "budget": 2, "open": 4}
# The statuses of each command, where no read, no write and no allocation failed, the words are accepted and the input is not too long.
VIEWS = {0, 1, 2, 3, 4, 6, 7}
STATUSES = {
    "run": {0, 1, 2, 3, 6}, "replay": {0, 1, 2, 3, 4, 6, 7}, "check": {0, 6}, "sample": {0, 6}, "expect": {0, 13, 14, 15}, "audit": {0, 12, 13}, "points": {0}, "demo": {0},
    "continue": {0, 1, 2, 3, 6, 7}, "trace": VIEWS, "choices": VIEWS, "states": VIEWS, "lanes": VIEWS, "picture": VIEWS,
    "tally": {0, 6}, "sum": {0, 16}, "survey": {0, 6, 14, 15}, "judge": {0, 12, 13},
}
# Refusals: the pattern of the line, and its status.
REFUSALS = {"words": 5, "input": 8, "script": 6, "schedule": 7, "entry": 7, "expect": 15, "report": 13, "tally": 16}
LIMIT = 4294967295
NUMBER = r"(?:0|[1-9][0-9]*)"
PLACE = rf"{NUMBER}\.{NUMBER}"
CHOICE = rf"(?:go|expire|(?:act|new|pick|dtor) {NUMBER})"
STOP = r"(?:undefined|profile) [a-z_]+"
VERDICT = re.compile(rf"verdict (complete|deadlock|budget|open|{STOP})")
EVENT = re.compile(rf"{PLACE} (.+)")
HEADER = re.compile(rf"schedule [12] {NUMBER} {NUMBER} {NUMBER}")
ENTRY = re.compile(rf"{NUMBER} {NUMBER} {NUMBER} {CHOICE}")
NOTICE = re.compile(rf"entry {NUMBER} is not legal here")
FIRST = rf"{NUMBER}(?: first {NUMBER})?"
TALLY = re.compile(
    rf"(?:sample {NUMBER}\n|tally {NUMBER} {NUMBER}\nscript [0-9a-f]{{64}}\nlimits {NUMBER} {NUMBER} {NUMBER}\n)"
    rf"complete {FIRST}\ndeadlock {FIRST}\nbudget {FIRST}\n(?:{STOP} {NUMBER} first {NUMBER}\n)*joined {NUMBER}\ncanceled {NUMBER}\nleast {NUMBER}\nmost {NUMBER}\n"
)
AUDIT = {0: re.compile(rf"audit ok {NUMBER}\n"), 12: re.compile(rf"audit event {NUMBER} (?:once|slot|join|cond|call_once)\n")}
LAWS = ("once", "ran_all", "after_end", "process", "slot", "join", "cond", "call_once", "requests", "keys", "leftover")
JUDGE = re.compile("".join(rf"{law} (?:kept|event {NUMBER} {EVENT.pattern})\n" for law in LAWS))
ALL_KEPT = "".join(f"{law} kept\n" for law in LAWS)
DEMO = re.compile(rf"demo {NUMBER}\nthreads {NUMBER}\nrounds {NUMBER}\nsteps {NUMBER}\ntotal {NUMBER}\nverdict (?:complete|{STOP})\n")
POINTS = re.compile(r"(?:[a-z_0-9]+ (?:required|optional) (?:no_wait|outside|never|inside)\n){58}")
SURVEY = re.compile(
    rf"(?:{NUMBER}\tholds {NUMBER}\tfails {NUMBER}\t(?:first {NUMBER}|-)\t(?:first {NUMBER}|-)\n)+(?:verdict (?:complete|deadlock|budget|{STOP})\t{NUMBER}\tfirst {NUMBER}\n)+"
)


def reasons():
    """The words that a refusal has after its kind and its line, by its kind."""
    found = {}
    for line in (ROOT / "docs/reasons.txt").read_text().splitlines():
        words = line.split(" ")
        if len(words) == 2 and words[0] in REFUSALS:
            found.setdefault(words[0], set()).add(words[1])
    return found


REASONS = reasons()


def refusal_status(line):
    """The status of a refusal line, or nothing if it is none."""
    words = line.split(" ")
    if words[0] != "refused" or len(words) < 2 or words[1] not in REFUSALS:
        return None
    kind, rest = words[1], words[2:]
    if kind == "words":
        fits = not rest
    elif kind == "input":
        fits = rest == ["too_long"]
    elif kind == "entry":
        fits = len(rest) == 1 and is_number(rest[0])
    else:
        fits = len(rest) == 2 and is_number(rest[0]) and rest[1] in REASONS[kind]
    return REFUSALS[kind] if fits else None


def is_number(word):
    return re.fullmatch(NUMBER, word) is not None and word != "0"


def verdict_status(line):
    """The status of the line of a verdict, or nothing if it is none."""
    found = VERDICT.fullmatch(line)
    return None if not found else VERDICTS.get(found[1], 3)


def without_notice(lines, status):
    """The lines without the notice. There is one exactly if the status is 7."""
    if status != 7:
        return lines
    return lines[:-1] if lines and NOTICE.fullmatch(lines[-1]) else None


@functools.lru_cache(maxsize=None)
def form_of(text):
    """The form of docs/FORMATS.md that the text of an event has, the one with the most words of its own, or nothing."""
    words = text.split(" ")
    forms = [form for form in events.FORMS if events.has_form(words, form)]
    return max(forms, key=lambda form: sum(word.islower() for word in form.split(" ")), default=None)


def event_form(line):
    """The form of the event of a line, or nothing if the line is no event."""
    found = EVENT.fullmatch(line)
    return form_of(found[1]) if found else None


def report_fault(lines, status):
    """What is wrong with a report, whose notice is left out."""
    if not lines or lines[0] not in ("report 1", "report 2"):
        return "no title"
    at = next((i for i, line in enumerate(lines) if line.startswith("verdict ")), None)
    if at is None:
        return "no verdict"
    found = verdict_status(lines[at])
    if found is None or status not in (found, 7):
        return f"{lines[at]!r} with this status"
    if not all(event_form(line) for line in lines[1:at]):
        return "a line before the verdict is no event"
    rest = lines[at + 1:]
    if len(rest) < 2 or not HEADER.fullmatch(rest[0]) or rest[0][9] != lines[0][7]:
        return "no header"
    if rest[-1] != f"end {len(rest) - 2}":
        return "the last line is not the number of the entries"
    if not all(ENTRY.fullmatch(line) for line in rest[1:-1]):
        return "a line of the schedule is no entry"
    return None


def check_fault(lines):
    if not lines or lines[-1] != "end" or any("\t" in line or line.startswith(" ") for line in lines):
        return "no canonical text"
    return None


def expect_fault(lines, status):
    failed = sum(re.fullmatch(rf"expect {NUMBER} no {NUMBER}", line) is not None for line in lines[:-1])
    held = sum(re.fullmatch(rf"expect {NUMBER} yes", line) is not None for line in lines[:-1])
    if failed + held != len(lines) - 1 or not held + failed:
        return "a line is no answer to a rule"
    if lines[-1] != f"failed {failed}" or status != (14 if failed else 0):
        return "the number of the rules that do not hold"
    return None


def rest_of_lanes(lines):
    """The lines of lanes if their first one is no header, or the first fields of the others are no rising numbers."""
    numbers = [int(line.split("\t")[0]) for line in lines[1:] if is_number(line.split("\t")[0])]
    rises = len(numbers) == len(lines) - 1 and all(first < second for first, second in zip(numbers, numbers[1:]))
    return [] if lines and lines[0].split("\t")[0] == "step" and rises else lines or ["no header"]


def view_fault(command, lines, status):
    """What is wrong with a view, whose notice is left out: the verdict comes first or last, and the other lines have their fields."""
    comes_first = command in ("choices", "states")
    if not lines:
        return "no line"
    verdict, rest = (lines[0], lines[1:]) if comes_first else (lines[-1], lines[:-1])
    found = verdict_status(verdict)
    if found is None or status not in (found, 7):
        return f"{verdict!r} with this status"
    if command == "trace":
        wrong = [line for number, line in enumerate(rest, 1) if len(line.split("\t")) != 6 or not line.startswith(f"{number}\t")]
    elif command == "choices":
        wrong = [line for line in rest if len(line.split("\t")) != 6 and not ENTRY.fullmatch(line)]
    elif command == "states":
        wrong = [line for line in rest if len(line.split("\t")) != (5 if "." in line.split("\t")[0] else 6)]
    else:
        count = len(rest[0].split("\t")) if rest else 0
        wrong = [line for line in rest if len(line.split("\t")) != count] or rest_of_lanes(rest)
    return f"the fields of {wrong[0]!r}" if wrong else None


def picture_fault(text, status):
    if not text.startswith('<?xml version="1.0" encoding="UTF-8"?>\n<svg ') or not text.endswith("</svg>\n") or text.count("</svg>") != 1:
        return "no whole picture"
    if "is not legal here" in text and status != 7:
        return "a notice with this status"
    return None


def body_fault(command, text, status):
    """What is wrong with an answer that is no refusal."""
    lines = text[:-1].split("\n")
    if command in ("run", "replay", "continue"):
        lines = without_notice(lines, status)
        return "no notice" if lines is None else report_fault(lines, status)
    if command in ("trace", "choices", "states", "lanes"):
        lines = without_notice(lines, status)
        return "no notice" if lines is None else view_fault(command, lines, status)
    if command == "picture":
        return picture_fault(text, status)
    if command == "check":
        return check_fault(lines)
    if command == "expect":
        return expect_fault(lines, status)
    if command == "audit":
        return None if AUDIT[status].fullmatch(text) else "no answer of this status"
    if command == "judge":
        return None if JUDGE.fullmatch(text) and (status == 0) == (text == ALL_KEPT) else "no answer of this status"
    if command == "survey":
        failed = re.search(r"\tfails [1-9]", text)
        return None if SURVEY.fullmatch(text) and (status == 14) == bool(failed) else "no whole survey"
    pattern = {"points": POINTS, "demo": DEMO}.get(command, TALLY)
    return None if pattern.fullmatch(text) else "no whole text"


def features(command, status, output):
    """What an answer shows first of all: its status, the words of a refusal, the verdict, the kinds of its events."""
    found = {f"{command} status {status}"}
    lines = output.decode(errors="replace").splitlines()
    if lines and lines[0].startswith("refused "):
        found.add(" ".join(word for word in lines[0].split(" ") if not word.isdigit()))
    elif command == "audit":
        found.add(" ".join(word for word in lines[0].split(" ") if not word.isdigit()) if lines else "no answer")
    elif command == "judge":
        found.update(" ".join(line.split(" ")[:2]) for line in lines)
    elif command in ("run", "replay", "continue"):
        at = next((i for i, line in enumerate(lines) if line.startswith("verdict ")), 0)
        found.update(f"event {event_form(line)}" for line in lines[1:at])
        found.update([lines[at], lines[0]] if lines else [])
    return found


def fault(command, status, output):
    """What is wrong with an answer of a command, or nothing."""
    if status not in STATUSES[command]:
        return f"status {status} is none of {command}"
    try:
        text = output.decode("utf-8" if command == "picture" else "ascii")
    except UnicodeDecodeError:
        return "a byte that is none of a text"
    if not text.endswith("\n") or "\r" in text or "\0" in text:
        return "an end without LF, or a CR"
    if command != "picture" and re.search(r"  |^ | $|\t\t|^\t|\t$", text, re.M):
        return "blanks"
    if text.startswith("refused "):
        found = refusal_status(text[:-1])
        return None if found == status else "a refusal that is none, or has more lines, or this status"
    if status in (6, 13, 15, 16):
        return "no refusal"
    return body_fault(command, text, status)
