#!/usr/bin/env python3
"""Gives prefixes, numbers and ranges of steps to ./pct, and compares what it writes and says with what the pages promise.

    bench/check_prefixes.py [PROGRAM]

PROGRAM is the built program, crates/pct_run/out/pct_run where none is named (./pct build builds it). The cases are as in
cases.py, with what is expected worked out from docs/FORMATS.md and docs/VIEWS.md.
"""
from cases import BEGUN, CHOICES, LANES, REPORT, SMALLEST, TRACE, USAGE, WORKER, Case, named_program, run_all

# As SMALLEST, but the process ends with 7.
SEVEN = "fn main x\nreturn 7\nend\n"
SEVEN_REPORT = REPORT.replace("exit 0", "exit 7").replace("process_end 0", "process_end 7")
SEVEN_TRACE = "1\t1.1\tmain:2\treturn 7\tgo\texit 7\n2\t1.1\texiting\t-\tgo\tprocess_end 7\nverdict complete\n"
DIFFERS = [
    "pct: the report that was given is not of this run: event 1 is '1.1 exit 0' in the report, and '1.1 exit 7' in this run\n",
    "pct: of a report only the schedule is followed",
]
OTHER = "pct: the report that was given is of another script, or of another version of this one, or was edited\n"
SHOWN, LEGAL = "pct: './pct choices ", "' shows what is legal there\n"
FILES = {"a.pct": SMALLEST, "seven.pct": SEVEN, "report": REPORT, "begun": BEGUN}


# The report of a run of SMALLEST under a schedule of format 2.
TWO = REPORT.replace("report 1", "report 2").replace("schedule 1", "schedule 2")


def given(name, command, status, stdout, says=(), **files):
    """A case with the files of FILES and these."""
    return Case(name, command, status, stdout, list(says), {**FILES, **files})


REPORTS = [
    given("trace with a report of another script", "./pct trace seven.pct report", 0, SEVEN_TRACE, DIFFERS),
    given("choices with one", "./pct choices seven.pct report", 0, "verdict complete\n", DIFFERS),
    given("lanes with one", "./pct lanes seven.pct report", 0, "step\t1.1\n1\texit 7\n2\tprocess_end 7\nverdict complete\n", DIFFERS),
    given("a picture with one", "./pct picture seven.pct report | grep -c '<svg '", 0, "1\n", DIFFERS),
    given("continue with one", "./pct continue 7 seven.pct report", 0, SEVEN_REPORT, DIFFERS),
    given("replay of one", "./pct replay a.replay", 0, SEVEN_REPORT, DIFFERS, **{"a.replay": SEVEN + "%%\n" + REPORT}),
    given("its first entry", "./pct trace seven.pct report 1 | tail -n 1", 0, "verdict open\n", DIFFERS),
    given("from standard input", "./pct trace seven.pct - < report", 0, SEVEN_TRACE, DIFFERS),
    given("one with CR LF", "./pct trace seven.pct crlf", 0, SEVEN_TRACE, DIFFERS, crlf=REPORT.replace("\n", "\r\n")),
    given("a range of it", "./pct trace seven.pct report 2-2", 0, "".join(SEVEN_TRACE.splitlines(True)[1:]), DIFFERS),
    given("the report of the script", "./pct continue 7 a.pct report", 0, REPORT),
    given("the report of the script, to replay", "./pct replay a.replay", 0, REPORT, **{"a.replay": SMALLEST + "%%\n" + REPORT}),
    given("the report with CR LF", "./pct replay a.replay", 0, REPORT, **{"a.replay": SMALLEST + "%%\n" + REPORT.replace("\n", "\r\n")}),
    given("the first entry of its report", "./pct trace a.pct report 1", 4, TRACE),
    given("its report, cut off", "./pct trace a.pct cut", 4, TRACE, cut="".join(REPORT.splitlines(True)[:6])),
    given("a report of format 2 of another script", "./pct trace seven.pct report", 0, SEVEN_TRACE, DIFFERS, report=TWO),
    given("a report of format 2", "./pct replay a.replay", 0, TWO, **{"a.replay": SMALLEST + "%%\n" + TWO}),
    given("a report of format 2, to continue", "./pct continue 7 a.pct report 1", 0, TWO, report=TWO),
    given("no entry of its report", "./pct choices a.pct report 0 | head -n 1", 0, "verdict open\n"),
    given("a schedule is no report", "./pct trace seven.pct begun | tail -n 1", 0, "verdict open\n"),
    given("no FILE", "cat seven.pct marker report | ./pct trace", 0, SEVEN_TRACE, marker="%%\n"),
    given(
        "a report without its last event", "./pct trace a.pct short | tail -n 1", 0, "verdict complete\n",
        ["pct: the report that was given is not of this run: event 2 is '1.1 process_end 0' in this run, and the report has none\n", "pct: of a report"],
        short=REPORT.replace("1.1 process_end 0\n", ""),
    ),
    given(
        "a report with an event more", "./pct trace a.pct long | tail -n 1", 0, "verdict complete\n",
        ["pct: the report that was given is not of this run: event 3 is '1.1 emit 5' in the report, and this run has none\n", "pct: of a report"],
        long=REPORT.replace("verdict", "1.1 emit 5\nverdict"),
    ),
    given("an event more than its first entry makes", "./pct trace a.pct long 1", 4, TRACE, long=REPORT.replace("verdict", "1.1 emit 5\nverdict")),
    given(
        "a report with an entry that is not legal", "./pct trace a.pct changed", 7, TRACE + "entry 2 is not legal here\n",
        ["changed:7: entry 2 is not legal\n    1 1 2 go\n", OTHER, SHOWN + "a.pct changed 1" + LEGAL],
        changed=REPORT.replace("1 1 1 go\nend", "1 1 2 go\nend"),
    ),
    given(
        "one that was cut off", "./pct trace a.pct changed", 7, TRACE + "entry 2 is not legal here\n",
        ["changed:7: entry 2 is not legal\n    1 1 2 go\n", SHOWN + "a.pct changed 1" + LEGAL],
        changed=REPORT.replace("1 1 1 go\nend 2\n", "1 1 2 go\n"),
    ),
    given(
        "a report of another script, with events that differ", "./pct lanes seven.pct changed", 7,
        "step\t1.1\n1\texit 7\nverdict open\nentry 2 is not legal here\n",
        [*DIFFERS, "changed:7: entry 2 is not legal\n    1 1 2 go\n", SHOWN + "seven.pct changed 1" + LEGAL],
        changed=REPORT.replace("1 1 1 go\nend", "1 1 2 go\nend"),
    ),
    given(
        "a report whose last line has another number", "./pct trace seven.pct changed", 7, "refused schedule 8 bad_end\n",
        ["changed:8: bad_end\n    end 1\n", "Usual cause:"], changed=REPORT.replace("end 2\n", "end 1\n"),
    ),
    given(
        "one of them to choices", "./pct choices seven.pct changed", 7, "refused schedule 8 bad_end\n",
        ["changed:8: bad_end\n    end 1\n", "Usual cause:"], changed=REPORT.replace("end 2\n", "end 1\n"),
    ),
]

ILLEGAL = BEGUN + "1 1 2 go\n"
ILLEGAL_SAYS = "begun:3: entry 2 is not legal\n    1 1 2 go\n"
NOTICES = [
    given("states", "./pct states a.pct begun | tail -n 1", 0, "entry 2 is not legal here\n", [ILLEGAL_SAYS, SHOWN + "a.pct begun 1" + LEGAL], begun=ILLEGAL),
    given("choices", "./pct choices a.pct begun", 7, CHOICES + "entry 2 is not legal here\n", [ILLEGAL_SAYS], begun=ILLEGAL),
    given("a picture", "./pct picture a.pct begun | grep -c '<svg '", 0, "1\n", [ILLEGAL_SAYS, SHOWN + "a.pct begun 1" + LEGAL], begun=ILLEGAL),
    given("lanes from standard input", "./pct lanes a.pct - < begun", 7, LANES + "entry 2 is not legal here\n", ["-:3: entry 2 is not legal\n    1 1 2 go\n", SHOWN + "a.pct - 1" + LEGAL], begun=ILLEGAL),
    given(
        "FILE alone", "./pct trace a.replay", 7, TRACE + "entry 2 is not legal here\n",
        ["a.replay:7: entry 2 is not legal\n    1 1 2 go\n", SHOWN + "a.replay a.replay 1" + LEGAL], **{"a.replay": SMALLEST + "%%\n" + ILLEGAL},
    ),
    given(
        "continue", "./pct continue 7 a.pct begun | tail -n 1", 0, "entry 2 is not legal here\n",
        [ILLEGAL_SAYS, "pct: entry 2 of the prefix is not legal, and the report is of a run without it", "pct: './pct choices' with the same files"], begun=ILLEGAL,
    ),
]

# FILE and PREFIX in the order of the views, and in the other one.
ORDERS = [
    given("replay of FILE and PREFIX", "./pct replay a.pct report", 0, REPORT),
    given("from standard input", "./pct replay a.pct - < report", 0, REPORT),
    given("of FILE with a line %%", "./pct replay a.replay report", 0, REPORT, **{"a.replay": SMALLEST + "%%\n" + BEGUN}),
    given("with comments", "./pct replay a.pct noted", 0, REPORT, noted="# all\n" + BEGUN + "1 1 1 go # the last\n\nend 2\n"),
    given("with the report of another script", "./pct replay seven.pct report", 0, SEVEN_REPORT, DIFFERS),
    given("without an end", "./pct replay a.pct begun", 7, "refused schedule 3 bad_end\n", ["begun:3: bad_end\n    (the end of the text)\n", "Usual cause:"]),
    given(
        "with an entry that is not legal", "./pct replay a.pct begun", 7, "refused entry 2\n",
        ["begun:4: entry 2 is not legal\n    1 1 2 go # thread 2\n", "Usual cause:", "pct: here each thread is, and each entry that is legal there ('./pct choices a.pct begun'):\n"],
        begun="# two\n" + BEGUN + "1 1 2 go # thread 2\nend 2\n",
    ),
    given("a prefix that is not there", "./pct replay a.pct nowhere", 66, "", ["pct: nowhere is no file that can be read\n"]),
    given("a word more", "./pct replay a.pct begun 1 2>&1", 5, "refused words\n1: a word too many for replay\nusage: pct replay [FILE [PREFIX]]\nsee './pct --help'\n"),
    given("the report first", "./pct trace report a.pct", 6, "refused script 1 unknown_word\n", ["pct: report is a report: the script comes first, './pct trace FILE PREFIX'\n"]),
    given("the report first, to continue", "./pct continue 7 report a.pct", 6, "refused script 1 unknown_word\n", ["pct: report is a report: the script comes first, './pct continue SEED FILE PREFIX'\n"]),
    given("a report alone, to replay", "./pct replay report", 6, "refused script 1 unknown_word\n", ["pct: report is a report: the script comes first, './pct replay FILE PREFIX'\n"]),
    given("a schedule with CR LF first", "./pct lanes crlf a.pct", 6, "refused script 1 unknown_word\n", ["pct: crlf is a schedule: the script comes first, './pct lanes FILE PREFIX'\n"], crlf=BEGUN.replace("\n", "\r\n")),
    given("a report of format 2 first", "./pct trace report a.pct", 6, "refused script 1 unknown_word\n", ["pct: report is a report: the script comes first, './pct trace FILE PREFIX'\n"], report=TWO),
    given("a schedule of format 2 to run", "./pct run begun", 6, "refused script 1 unknown_word\n", ["pct: begun is a schedule, and no script\n"], begun=BEGUN.replace("schedule 1", "schedule 2")),
    given("a report to run", "./pct run report", 6, "refused script 1 unknown_word\n", ["pct: report is a report, and no script\n"]),
]


def refused(name, call, *lines, **files):
    """Words that are refused: all that is written and said, but for the last line."""
    return given(name, f"./pct {call} 2>&1", 5, "refused words\n" + "".join(f"{line}\n" for line in (*lines, "see './pct --help'")), **files)


SELECT = "SELECT: --threads P.T,P.T or --events"
NAMES = "usage: " + ", ".join(f"pct {name}" for name in "run replay trace choices states lanes picture continue sample tally sum expect audit judge survey test check points demo build".split())
LONG_FORM = " [SELECT]... [FILE [PREFIX [STEPS]]]"
WORDS = [
    refused("an option of run", "trace a.pct --seed 3", "--seed is no option of trace; it has --threads and --events", "usage: pct trace" + LONG_FORM, SELECT),
    refused("an option with a letter too few", "trace --thread=1.1 a.pct begun", "--thread is no option of trace; it has --threads and --events", "usage: pct trace" + LONG_FORM, SELECT),
    refused("the same as two words", "trace --thread 1.2 a.pct begun", "--thread is no option of trace; it has --threads and --events", "usage: pct trace" + LONG_FORM, SELECT),
    refused("an option at the end", "lanes a.pct begun --event", "--event is no option of lanes; it has --threads and --events", "usage: pct lanes" + LONG_FORM, SELECT),
    refused("a short option", "picture -e a.pct begun", "-e is no option of picture; it has --threads and --events", "usage: pct picture" + LONG_FORM, SELECT),
    refused("an option of states", "states a.pct begun --threads 1.1", "--threads is no option of states; it has none", "usage: pct states [FILE [PREFIX [N]]]"),
    refused("an option in the place of N", "states a.pct begun --events", "--events is no option of states; it has none", "usage: pct states [FILE [PREFIX [N]]]"),
    refused("an option in the place of PREFIX", "choices a.pct --events", "--events is no option of choices; it has none", "usage: pct choices [FILE [PREFIX [N]]]"),
    refused("an option of continue", "continue 7 a.pct --events", "--events is no option of continue; it has none", "usage: pct continue SEED [FILE [PREFIX [N]]]"),
    refused("continue without its seed", "continue a.pct begun 1", "a.pct is no SEED: './pct continue SEED FILE [PREFIX [N]]'", "usage: pct continue SEED [FILE [PREFIX [N]]]"),
    refused("an option of run that is none", "run --steps 3 a.pct", "--steps: run has no such option", "usage: pct run [OPTION]... [FILE]", "options: --seed N, --budget N, --passes N, --slots N, --workers N, --turns N"),
    refused("a file as the command", "a.pct", "a.pct is a file, not a command: './pct run a.pct'?", NAMES),
    refused("a file as the command, with a word", "a.pct begun", "a.pct is a file, not a command: './pct run a.pct'?", NAMES),
    refused("a command with the name of a file", "points begun", "begun: a word too many for points", "usage: pct points", points=SMALLEST),
    refused("no command", "walk", "walk: no such command", NAMES),
    refused("states in capitals", "States a.pct", "States: commands are in lower case", NAMES),
    given("no word", "./pct 2>&1 | sed -n '2,3p;$p' | cut -c 1-33", 0, "a command is missing\nusage: pct run [OPTION]... [FILE]\ndocs/TUTORIAL.md is an introducti\n"),
]

NOTED = "# The first step\nschedule 1 10000 4 64\n\n# of main:\n1 1 1 go\n"
FAULT = "# one\nschedule 1 10000 4 64\n# two\n\n1 1 go\n# three\n"
FAULT_SAYS = ["begun:5: bad_entry\n", "    1 1 go\n", "Usual cause:"]
COMMENTS = [
    given("comments in a prefix", "./pct trace a.pct noted", 4, TRACE, noted=NOTED),
    given("comments with CR LF", "./pct choices a.pct noted", 4, CHOICES, noted=NOTED.replace("\n", "\r\n")),
    given("comments from standard input", "./pct lanes a.pct - < noted", 4, LANES, noted=NOTED),
    given("comments from a pipe", "mkfifo pipe; cat noted > pipe & ./pct trace a.pct pipe", 4, TRACE, noted=NOTED),
    given("comments, and go on", "./pct continue 7 a.pct noted", 0, REPORT, noted=NOTED),
    given("a comment that looks like a header", "./pct trace a.pct noted", 4, TRACE, noted="#schedule 1 1 4 1\n" + NOTED),
    given("the first entry among comments", "./pct trace a.pct noted 1", 4, TRACE, noted=NOTED + "# the last:\n1 1 1 go\n"),
    given("no entry among comments", "./pct trace a.pct noted 0", 4, "verdict open\n", noted=NOTED),
    given("a fault among comments", "./pct trace a.pct begun", 7, "refused schedule 2 bad_entry\n", FAULT_SAYS, begun=FAULT),
    given("a fault among comments, with a number", "./pct trace a.pct begun 3", 7, "refused schedule 2 bad_entry\n", FAULT_SAYS, begun=FAULT),
    given(
        "a fault among comments from standard input", "./pct trace a.pct - < begun", 7, "refused schedule 2 bad_entry\n",
        ["-:5: bad_entry\n", "    1 1 go\n", "Usual cause:"], begun=FAULT,
    ),
    given(
        "no header after comments", "./pct continue 7 a.pct begun", 7, "refused schedule 1 bad_header\n",
        ["begun:4: bad_header\n", "    1 1 1 go\n", "Usual cause:"], begun="# one\n\n# two\n1 1 1 go\n",
    ),
    given("comments alone are no prefix", "./pct continue 7 a.pct noted", 0, REPORT, noted="# one\n\n"),
    given(
        "an entry that is not legal among comments", "./pct trace a.pct noted", 7, TRACE + "entry 2 is not legal here\n",
        ["noted:7: entry 2 is not legal\n    1 1 2 go\n", SHOWN + "a.pct noted 1" + LEGAL], noted=NOTED + "# two\n1 1 2 go\n",
    ),
    given("an indented comment, and blanks alone", "./pct trace a.pct noted", 4, TRACE, noted="  # one\n \t\n" + BEGUN + "\t# two\n"),
    given("comments after an entry and the header", "./pct trace a.pct noted", 4, TRACE, noted="schedule 1 10000 4 64 # all\n1 1 1 go \t # main\n"),
    given("these with CR LF", "./pct trace a.pct noted", 4, TRACE, noted="schedule 1 10000 4 64 # all\r\n  # two\r\n \r\n1 1 1 go # main\r\n"),
    given("the first entry among these", "./pct choices a.pct noted 1", 4, CHOICES, noted=BEGUN.replace("\n", " # a\n") + " # b\n1 1 1 go # c\n"),
    given(
        "a # without a blank before it", "./pct trace a.pct noted", 7, "refused schedule 3 bad_entry\n",
        ["noted:5: bad_entry\n    1 1 1 go#\n", "Usual cause:"], noted=" # one\n" + BEGUN + "\n1 1 1 go#\n",
    ),
    given(
        "a line with a fault and a comment", "./pct trace a.pct noted", 7, "refused schedule 2 bad_entry\n",
        ["noted:2: bad_entry\n    1 1 go # no worker\n", "Usual cause:"], noted="schedule 1 10000 4 64\n1 1 go # no worker\n",
    ),
    given(
        "a blank at the end of an entry", "./pct trace a.pct noted", 7, "refused schedule 2 bad_entry\n",
        ["noted:2: bad_entry\n    1 1 1 go\\x20\n", "Usual cause:"], noted="schedule 1 10000 4 64\n1 1 1 go \n",
    ),
    given(
        "a comment in FILE, after its line %%", "./pct trace a.replay", 7, "refused schedule 2 bad_entry\n",
        ["a.replay:6: bad_entry\n", "    # two\n", "Usual cause:"], **{"a.replay": SMALLEST + "%%\nschedule 1 1 4 64\n# two\n"},
    ),
]

STEPS = ["1\t1.1\tmain:2\treturn 0\tgo\texit 0\n", "2\t1.1\texiting\t-\tgo\tprocess_end 0\n"]
COMPLETE, OPEN = "verdict complete\n", "verdict open\n"
MISSING = "pct: there is no prefix, so the run has no step: give a report of './pct run', or a schedule\n"
# Main creates thread 2, which ends; a nop has no event.
TWO = "fn w x\nnop\nend\nfn main x\npthread_create - - w 1\nend\n"
TWO_PREFIX = "schedule 1 100 4 2\n1 1 1 new 2\n1 1 2 go\n1 1 2 go\n1 1 2 go\n"
TWO_STEPS = [
    "1\t1.1\tmain:5\tpthread_create - - w 1\tnew 2\tcreate 2 joinable\n",
    "2\t1.2\tw:2\tnop\tgo\t-\n",
    "3\t1.2\tw:3\tend\tgo\tending exit 0\n",
    "4\t1.2\tending\t-\tgo\tended 0\n",
]
two = {"two.pct": TWO, "two": TWO_PREFIX}
RANGES = [
    given("one step", "./pct trace a.pct report 1-1", 0, STEPS[0] + COMPLETE),
    given("one step of lanes", "./pct lanes a.pct report 1-1", 0, "step\t1.1\n1\texit 0\n" + COMPLETE),
    given("one step of a picture", "./pct picture a.pct report 1-1 | grep '^<title>'", 0, "<title>verdict open, steps: 1</title>\n"),
    given("one step from standard input", "./pct trace a.pct - 1-1 < report", 0, STEPS[0] + COMPLETE),
    given("the last step", "./pct trace a.pct report 2-2", 0, STEPS[1] + COMPLETE),
    given("steps from one on", "./pct trace a.pct report 2-", 0, STEPS[1] + COMPLETE),
    given("steps up to one", "./pct trace a.pct report -1", 0, STEPS[0] + COMPLETE),
    given("more steps than there are", "./pct trace a.pct report 2-9", 0, STEPS[1] + COMPLETE),
    given("steps after the last", "./pct trace a.pct report 7-9", 0, COMPLETE, ["pct: the run has 2 steps\n"]),
    given("of lanes", "./pct lanes a.pct report 3-", 0, "step\t1.1\n" + COMPLETE, ["pct: the run has 2 steps\n"]),
    given("of a picture", "./pct picture a.pct report 7-9 | grep -c '<svg '", 0, "1\n", ["pct: the run has 2 steps\n"]),
    given(
        "a range, and an entry that is not legal", "./pct trace a.pct begun 2-3", 7, OPEN + "entry 2 is not legal here\n",
        [ILLEGAL_SAYS, SHOWN + "a.pct begun 1" + LEGAL, "pct: the run has 1 step\n"], begun=ILLEGAL,
    ),
    given("an entry after TO that is not legal", "./pct trace a.pct begun 1-1", 7, TRACE + "entry 2 is not legal here\n", [ILLEGAL_SAYS, SHOWN + "a.pct begun 1" + LEGAL], begun=ILLEGAL),
    given("no prefix", "./pct trace a.pct", 4, OPEN, [MISSING]),
    given("no prefix for lanes", "./pct lanes --events a.pct", 4, "step\t1.1\n" + OPEN, [MISSING]),
    given("no prefix for a picture", "./pct picture a.pct | grep -c '<svg '", 0, "1\n", [MISSING]),
    given("no prefix after a line %%", "./pct trace a.replay", 4, OPEN, [MISSING], **{"a.replay": SMALLEST + "%%\n"}),
    given("a prefix of comments", "./pct trace a.pct noted", 4, OPEN, [MISSING], noted="# one\n\n \t# two\n \n"),
    given("one with CR LF, and no line end", "./pct trace a.pct noted", 4, OPEN, [MISSING], noted="# one\r\n\r\n # two"),
    given("an empty prefix", "./pct trace a.pct empty", 4, OPEN, [MISSING], empty=""),
    given("no entry of a prefix", "./pct trace a.pct begun 0", 4, OPEN),
    given("choices without a prefix", "./pct choices a.pct", 4, "verdict open\n1.1\tmain:2\treturn 0\trunning\tenable deferred, no request\t-\n1 1 1 go\n"),
    given("a range of a prefix with a fault", "./pct trace a.pct begun 2-3", 7, "refused schedule 1 bad_header\n", ["begun:1: bad_header\n"], begun="schedule 1\n"),
    given("a step above the last", "./pct trace a.pct report 3-1", 5, "", ["pct: 3-1 is no range of steps: FROM is above TO\n"]),
    given("a word as a range", "./pct lanes a.pct report one-2", 5, "", ["pct: one-2 is no range of steps, FROM-TO\n"]),
    given("a range of three", "./pct picture a.pct report 1-2-3", 5, "", ["pct: 1-2-3 is no range of steps, FROM-TO\n"]),
    given("a range from 0", "./pct trace a.pct report 0-2", 5, "", ["pct: 0-2 is no range of steps, which are counted from 1\n"]),
    given("a sign alone", "./pct trace a.pct report -", 5, "", ["pct: - is no range of steps, FROM-TO\n"]),
    given("a range for choices", "./pct choices a.pct report 1-2", 5, "", ["pct: 1-2 is no number of entries\n"]),
    given("a range for continue", "./pct continue 1 a.pct report 1-2", 5, "", ["pct: 1-2 is no number of entries\n"]),
    given("a word as a number", "./pct lanes a.pct report one", 5, "", ["pct: one is no number of entries\n"]),
    given("a range, and a full disk", "./pct trace a.pct report 1-1 > /dev/full", 10, "", ["pct: the answer could not be written"]),
    given("the steps of a thread", "./pct trace two.pct two --threads 1.2", 4, "".join(TWO_STEPS[1:]) + OPEN, **two),
    given("of two threads", "./pct trace --threads=1.2,1.1 two.pct two", 4, "".join(TWO_STEPS) + OPEN, **two),
    given("of a thread that is not there", "./pct trace two.pct --threads 1.20 two", 4, OPEN, ["pct: no thread 1.20 in this run: 1.1 1.2\n"], **two),
    given("of one that is there, and one that is not", "./pct trace two.pct --threads 2.1,1.1 two", 4, TWO_STEPS[0] + OPEN, ["pct: no thread 2.1 in this run: 1.1 1.2\n"], **two),
    given("of two that are not there", "./pct lanes two.pct --threads 1.3,1.4 two", 4, "step\n" + OPEN, ["pct: no thread 1.3 in this run: 1.1 1.2\n", "pct: no thread 1.4 in this run: 1.1 1.2\n"], **two),
    given("two signs alone", "./pct trace -- two.pct two --threads 1.2", 5, "refused words\n", ["-- is no option of trace", USAGE + "trace"], **two),
    given("of a thread that comes later", "./pct trace two.pct two 0 --threads 1.2", 4, OPEN, ["pct: the run has 0 steps\n", "pct: no thread 1.2 in the run of these entries: 1.1\n"], **two),
    given("a step without an event", "./pct trace two.pct two 2-2 --events", 4, OPEN, ["pct: none of the steps of the run is selected\n"], **two),
    given("steps with an event", "./pct trace --events two.pct two", 4, TWO_STEPS[0] + "".join(TWO_STEPS[2:]) + OPEN, **two),
    given("all at once", "./pct trace two.pct --events two 2-3 --threads 1.2", 4, TWO_STEPS[2] + OPEN, **two),
    given("options without a prefix", "./pct trace --events a.replay", 4, TRACE, **{"a.replay": SMALLEST + "%%\n" + BEGUN}),
    given("options without FILE", "./pct trace --threads 1.1 < a.replay", 4, TRACE, **{"a.replay": SMALLEST + "%%\n" + BEGUN}),
    given("no list", "./pct trace two.pct two --threads", 5, "", ["pct: --threads has no list of threads after it"], **two),
    given("a list that is none", "./pct lanes two.pct two --threads 2", 5, "", ["pct: 2 is no list of threads, such as 1.2,1.3\n"], **two),
    given("two lists", "./pct trace a.pct --threads 1.1 --threads 1.1", 5, "", ["pct: --threads is given twice\n"]),
    given("an unknown option", "./pct trace --steps a.pct report", 5, "refused words\n", ["--steps is no option of trace; it has --threads and --events\n", USAGE + "trace"]),
]

# A program in the place of pct_inspect, which writes its words and its input, and ends with a status of which ./pct says nothing.
SHOW = "printf '#!/bin/sh\\necho \"$*\"\\ncat\\nexit 12\\n' > crates/pct_inspect/out/pct_inspect; "
INPUT = SMALLEST + "%%\n" + "".join(REPORT.splitlines(True)[:6])
WHOLE = SMALLEST + "%%\n" + REPORT
PASSED = [
    given("lanes gets a range", SHOW + "./pct lanes a.pct report 1-1", 12, "lanes --steps 1-1\n" + WHOLE),
    given("trace gets all", SHOW + "./pct trace a.pct report 1-1", 12, "trace\n" + WHOLE),
    given("a picture gets the entries up to TO", SHOW + "./pct picture a.pct report 1-1", 12, "picture --steps 1-1\n" + INPUT),
    given("picture gets all", SHOW + "./pct picture --events a.pct --threads 1.2,1.3 begun 2-", 12, "picture --steps 2-200000 --threads 1.2,1.3 --events\n" + SMALLEST + "%%\n" + BEGUN),
    given("lanes gets threads without FILE", SHOW + "./pct lanes --threads 1.2 < a.pct", 12, "lanes --threads 1.2\n" + SMALLEST),
    given("lanes with a number has no range", SHOW + "./pct lanes a.pct begun 1", 12, "lanes\n" + SMALLEST + "%%\n" + BEGUN),
    given("states", SHOW + "./pct states a.pct begun 1", 12, "states\n" + SMALLEST + "%%\n" + BEGUN),
    given("states of FILE", SHOW + "./pct states a.pct", 12, "states\n" + SMALLEST),
    given("states without FILE", SHOW + "./pct states < a.pct", 12, "states\n" + SMALLEST),
    given("states with a range", SHOW + "./pct states a.pct begun 1-2", 5, "", ["pct: 1-2 is no number of entries\n"]),
    given("states with a word too many", SHOW + "./pct states a.pct begun 1 more < begun", 12, "states a.pct begun 1 more\n" + BEGUN),
]

run_all(named_program(), [*REPORTS, *NOTICES, *ORDERS, *WORDS, *COMMENTS, *RANGES, *PASSED])
