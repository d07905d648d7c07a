#!/usr/bin/env python3
"""Makes mistakes with ./pct, and compares what it says with what the pages promise.

    bench/check_mistakes.py [PROGRAM]

PROGRAM is the built program, crates/pct_run/out/pct_run where none is named (./pct build builds it).

The cases are as in cases.py, with what is expected worked out from docs/SCRIPT.md and docs/FORMATS.md, and with the words of
docs/reasons.txt and docs/forms.txt. Those of FIRST are in first_mistakes.py and run_mistakes.py.
"""
import re
import subprocess

import first_mistakes
import run_mistakes
from cases import BEGUN, CHOICES, FAULTY, HEADER, LANES, REPORT, SECONDS, SMALLEST, TRACE, USAGE, WORKER, Case, named_program, run_all
from checkout import INSPECT, ROOT

SHOWN = "pct: here each thread is, and each entry that is legal there ('./pct choices a.replay'):\n"


def script(name, why, line, text, *says):
    """A script that is refused. `says` is the line, and words of the cause and of the mend."""
    answer = f"refused script {line} {why}\n"
    return Case(name, "./pct check a.pct", 6, answer, [f"a.pct:{line}: {why}\n", *says], {"a.pct": text})


def schedule(name, why, line, text, *says):
    """A schedule after SMALLEST that is refused, at a line of the file: its line %% is line 4."""
    answer = f"refused schedule {line - 4} {why}\n"
    files = {"a.replay": SMALLEST + text}
    return Case(name, "./pct replay a.replay", 7, answer, [f"a.replay:{line}: {why}\n", *says], files)


def ended(name, how, verdict, text, *says):
    """A run that does not end complete: of a script with options, or of a schedule with these entries."""
    if isinstance(how, str):
        file, command, content = "a.pct", f"./pct run {how} a.pct", text
    else:
        file, command = "a.replay", "./pct replay a.replay"
        content = f"{text}{HEADER}" + "".join(f"{entry}\n" for entry in how) + f"end {len(how)}\n"
    status = {"deadlock": 1, "budget": 2}.get(verdict, 3)
    answer = f"{status}\nverdict {verdict}\n"
    says = [re.sub(r"\bF:", f"{file}:", words) for words in says]
    return Case(name, f"{command} > report; echo $?; grep verdict report", 0, answer, says, {file: content})


def has_states():
    """Whether pct_inspect has the view `states`. If not, the cases that need it are left out, and this is said."""
    ran = subprocess.run([str(ROOT / INSPECT), "states"], input=f"{SMALLEST}{HEADER}".encode(), capture_output=True, timeout=SECONDS)
    if ran.returncode == 5:
        print(f"pct_inspect has no view states: {len(run_mistakes.OPERANDS)} cases are left out")
    return ran.returncode != 5


def words(name, call, says):
    """Words that are refused, with a sentence on the word before the usage."""
    return Case(name, f"./pct {call}", 5, "refused words\n", [says, USAGE], {"a.pct": SMALLEST})


def findings(*broken):
    """The lines of `judge`: these, and of each other law that it is kept."""
    lines = {line.split()[0]: line for line in broken}
    laws = "once ran_all after_end process slot join cond call_once requests keys leftover".split()
    return "".join(f"{lines.get(law, f'{law} kept')}\n" for law in laws)


SCRIPTS = [
    script(
        "a typographic dash", "not_ascii", 2, "fn main x\n    emit \u20131\nend\n", "    emit \\xE2\\x80\\x931\n",
        "typographic dash", "Mend: type the character again",
    ),
    script(
        "a byte order mark", "not_ascii", 1, "\ufefffn main x\nend\n", "\\xEF\\xBB\\xBFfn main x\n",
        "At line 1, a byte order mark", "Save the file without",
    ),
    script(
        "control characters", "not_ascii", 2, "fn main x\nemit \x00\x01\x7f\nend\n", "    emit \\x00\\x01\\x7F\n",
        "Usual cause:", "Mend:",
    ),
    script(
        "a word that is none", "unknown_word", 2, "fn main x\nwalk x\nend\n", "    walk x\n",
        "Usual cause: C syntax", "Mend: compare the line",
    ),
    script(
        "a call as in C", "unknown_word", 2, "fn main x\n\tpthread_exit(0)\nend\n", "     pthread_exit(0)\n",
        "  'pthread_exit(0)' has the syntax of C", "  Mend: write 'pthread_exit 0'.\n",
    ),
    script(
        "a comment after a statement", "word_count", 2, "fn main x\nemit 1 # one\nend\n", "    emit 1 # one\n",
        "A comment is a line of its own", "  Mend: put the comment on a line of its own.\n",
    ),
    script(
        "a hexadecimal number", "bad_number", 2, "fn main x\nemit 0x10\nend\n", "    emit 0x10\n",
        "a hexadecimal number", "in decimal digits only",
    ),
    script(
        "a negative number", "bad_name", 2, "fn main x\nemit -1\nend\n", "    emit -1\n", "a negative number",
        "  Mend: write 'emit 4294967295'.\n",
    ),
    script(
        "a missing end before a function", "misplaced", 4, "fn f x\nif x\nend\nfn main x\nend\n", "    fn main x\n",
        "closes the 'if' of line 2", "  Mend: add an 'end' above this line",
    ),
    script(
        "an end too many", "stray_end", 3, "fn main x\nend\nend\n", "    end\n", "one 'end' too many",
        "has one 'end'",
    ),
    script(
        "a pop in another block", "pop_unmatched", 4,
        "fn main x\npthread_cleanup_push main 1\nif x\npthread_cleanup_pop 1\nend\npthread_cleanup_pop 0\nend\n",
        "    pthread_cleanup_pop 1\n", "a pop inside an 'if'", "in the block of its push",
    ),
    script(
        "a push without its pop", "unclosed", 3, "fn main x\npthread_cleanup_push main 1\nend\n", "    end\n",
        "The push of line 2 is open here", "  Mend: add 'pthread_cleanup_pop 1' before this line",
    ),
    script(
        "a missing end in the last function", "unclosed", 1, "fn main x\nif x\nend\n", "    fn main x\n",
        "closes the 'if' of line 2", "  Mend: add an 'end' where it is missing",
    ),
    script(
        "nine locals", "too_many", 1, "fn main a b c d e f g h i\nend\n", "    fn main a b c d e f g h i\n",
        "more locals than", "use globals",
    ),
    script(
        "the parameter among the locals", "name_twice", 1, "fn main x x\nend\n", "    fn main x x\n",
        "the parameter listed again", "rename one of them",
    ),
    script(
        "a local that is not declared", "unknown_name", 2, "fn main x\nset v 1\nend\n", "    set v 1\n",
        "the word 'v' has to be a variable", "  Mend: add 'v' to the line 'fn main'",
    ),
    script(
        "a return between push and pop", "return_in_push", 3,
        "fn main x\npthread_cleanup_push main 1\nreturn 0\npthread_cleanup_pop 0\nend\n", "    return 0\n",
        "leaving a function early", "set a variable in place of the 'return'",
    ),
    script(
        "a nop in an exit function", "not_plain", 5, "fn bye x\nnop\nend\nfn main x\natexit - bye\nend\n",
        "    atexit - bye\n", "a 'nop'", "or register another one",
    ),
    script("an empty file", "no_main", 1, "", "    (the end of the text)\n", "an empty input", "add 'fn main x'"),
    script("Main for main", "no_main", 1, "fn Main x\nend\n", "    fn Main x\n", "upper and lower case differ", "  Mend: write 'main' in the place of 'Main'.\n"),
    script(
        "a fault in a file with CR LF", "unknown_word", 2, "fn main x\nwalk x\r\nend\n", "    walk x\n",
        "Usual cause:", "Mend:",
    ),
    script(
        "a long line", "unknown_word", 1, "a" * 300 + "\n", "    " + "a" * 200 + " ...\n", "Usual cause:", "Mend:",
    ),
]

SCHEDULES = [
    schedule(
        "no schedule", "bad_header", 5, "%%\n", "    (the end of the text)\n",
        "no line after '%%' begins with 'schedule '", "write 'schedule 1 BUDGET PASSES SLOTS'",
    ),
    schedule(
        "three passes", "bad_header", 6, "%%\nreport 1\nschedule 1 100 3 64\nend 0\n", "    schedule 1 100 3 64\n",
        "such as 3 for PASSES", "PASSES 4 to 16",
    ),
    schedule(
        "a comment in a schedule", "bad_entry", 6, HEADER + "# the first\nend 0\n", "    # the first\n", "a comment",
        "an entry is 'W P T CHOICE'",
    ),
    schedule(
        "a blank at the end of an entry", "bad_entry", 6, HEADER + "1 1 1 go \nend 1\n", "    1 1 1 go\\x20\n",
        "a space at the end of a line", "one space between words",
    ),
    schedule(
        "an empty line in a schedule", "bad_entry", 7, HEADER + "1 1 1 go\n\nend 1\n", "    (an empty line)\n",
        "an empty line", "Mend:",
    ),
    schedule(
        "an entry without its worker", "bad_entry", 6, HEADER + "1 1 go\nend 1\n", "    1 1 go\n", "such as '1 1 go'",
        "Mend:",
    ),
    schedule(
        "a format that there is not", "bad_header", 5, "%%\nschedule 3 100 4 64\nend 0\n", "    schedule 3 100 4 64\n",
        "or for the format", "or 'schedule 2 BUDGET PASSES SLOTS' for a script with timed waits",
    ),
    schedule(
        "expire under format 1", "bad_entry", 6, HEADER + "1 1 1 expire\nend 1\n", "    1 1 1 expire\n",
        "'expire' under the header 'schedule 1'", "under the header 'schedule 2' also 'expire'",
    ),
    Case(
        "a time that expires in no wait", "./pct replay a.replay", 7, "refused entry 1\n",
        ["a.replay:6: entry 1 is not legal\n", "    1 1 1 expire\n", "'expire' in a timed wait that nothing else has ended", SHOWN],
        {"a.replay": SMALLEST + "%%\nschedule 2 100 4 64\n1 1 1 expire\nend 1\n"},
    ),
    schedule(
        "more entries than the budget", "too_many", 7, "%%\nschedule 1 1 4 64\n1 1 1 go\n1 1 1 go\nend 2\n",
        "    1 1 1 go\n", "a BUDGET below the number of entries", "make the BUDGET",
    ),
    schedule(
        "the wrong number of entries", "bad_end", 7, HEADER + "1 1 1 go\nend 2\n", "    end 2\n",
        "is still the old one", "let the last line be 'end N'",
    ),
    schedule(
        "a schedule without its end", "bad_end", 7, HEADER + "1 1 1 go\n", "    (the end of the text)\n",
        "the end of the schedule", "Mend:",
    ),
    schedule(
        "an empty line after a schedule", "trailing", 7, HEADER + "end 0\n\n", "    (an empty line)\n",
        "an empty line at the end", "remove all that comes after",
    ),
    Case(
        "an entry of a thread that does not exist", "./pct replay a.replay", 7, "refused entry 2\n",
        [
            "a.replay:7: entry 2 is not legal\n", "    1 1 2 go\n", "does not exist yet", "end the schedule before", SHOWN,
            "    verdict open\n    1.1  -  -  exiting  disable deferred, no request  -\n    1 1 1 go\n    entry 2 is not legal here\n",
        ],
        {"a.replay": SMALLEST + HEADER + "1 1 1 go\n1 1 2 go\nend 2\n"},
    ),
    Case(
        "an entry of a process that does not exist", "./pct replay a.replay", 7, "refused entry 1\n",
        [
            "a.replay:6: entry 1 is not legal\n", "    1 2 1 go\n", "its process does not exist yet", "end the schedule", SHOWN,
            "    1.1  main:2  return 0  running  enable deferred, no request  -\n    1 1 1 go\n",
        ],
        {"a.replay": SMALLEST + HEADER + "1 2 1 go\nend 1\n"},
    ),
    Case(
        "go where a thread is created", "./pct replay a.replay", 7, "refused entry 1\n",
        [
            "a.replay:8: entry 1 is not legal\n", "    1 1 1 go\n", "'new N' where it creates a thread", "MACHINE.md", SHOWN,
            "    1.1  main:4  pthread_create - - w 1  running", "    1 1 1 new 2\n", "    1 1 1 new 64\n    entry 1 is not legal here\n",
        ],
        {"a.replay": WORKER + HEADER + "1 1 1 go\nend 1\n"},
    ),
    # WORKER has five lines, and %% is line 6. REPORT has five lines before its first entry.
    Case(
        "a report of another script", "./pct replay a.replay", 7, "refused entry 1\n",
        ["a.replay:12: entry 1 is not legal\n", "    1 1 1 go\n", "the script was changed and the schedule was not", SHOWN],
        {"a.replay": WORKER + "%%\r\n" + REPORT},
    ),
    Case(
        "replay of a script", "./pct replay a.pct", 7, "refused schedule 1 bad_header\n",
        ["pct: a.pct has no line %%, so all of it is the script", "'./pct run a.pct' runs a script\n"],
        {"a.pct": SMALLEST},
    ),
    Case(
        "a script without a last line end before %%", "./pct replay a.replay", 6, "refused script 3 unknown_word\n",
        ["a.replay:3: unknown_word\n", "    end%%\n  The script's last line has no line end, so %% is not a line of its own.\n", "  Mend: end the last line of the script"],
        {"a.replay": SMALLEST[:-1] + HEADER + "end 0\n"},
    ),
    Case(
        "an input of replay without a script", "./pct replay a.replay", 6, "refused script 1 no_main\n",
        ["a.replay:1: no_main\n", "    %%\n", "an empty input"], {"a.replay": HEADER + "end 0\n"},
    ),
    Case(
        "run of an input of replay", "./pct run a.replay", 6, "refused script 4 unknown_word\n",
        ["pct: line 4 of a.replay is %%, so this is an input of replay: './pct replay a.replay'\n"],
        {"a.replay": SMALLEST + HEADER + "end 0\n"},
    ),
    Case(
        "check of an input of replay, with a fault before", "./pct check a.replay", 6,
        "refused script 1 word_count\n",
        ["a.replay:1: word_count\n", "    fn main\n", "  Mend: write 'fn main x'.", "pct: line 4 of a.replay is %%"],
        {"a.replay": SMALLEST.replace(" x", "") + HEADER + "end 0\n"},
    ),
]

# A report of a thread that acts on no request and pops no handler.
MISTAKEN = "report 1\n1.1 ending canceled\n1.1 pop h 1 run\nverdict open\nschedule 1 100 4 64\nend 0\n"
TWO_MISTAKES = "once event 2 1.1 pop h 1 run", "requests event 1 1.1 ending canceled"
TWO_EXPLAINED = [
    "report:3: the law of cleanup handlers and destructors fails at this event\n    1.1 pop h 1 run\n  Law: the newest open handler is removed first",
    "report:2: the law of cancellation requests fails at this event\n    1.1 ending canceled\n  Law: a thread is canceled only by a request",
]

CALLS = [
    Case(
        "a file that is not there", "./pct run nowhere.pct", 66, "",
        ["pct: nowhere.pct is no file that can be read\n"],
    ),
    Case(
        "a folder in place of a file", "./pct run examples", 66, "", ["pct: examples is no file that can be read\n"],
    ),
    Case("an empty word in place of a file", "./pct run ''", 66, "", ["is no file that can be read\n"]),
    Case(
        "a name with a space", "./pct check 'a b.pct'", 6, "refused script 2 word_count\n",
        ["a b.pct:2: word_count\n", "    emit\n"], {"a b.pct": FAULTY},
    ),
    Case("a name with a dash, as an option", "./pct run -a.pct", 5, "refused words\n", [USAGE], {"-a.pct": SMALLEST}),
    Case("a name with a dash, as a file", "./pct run ./-a.pct", 0, REPORT, [], {"-a.pct": SMALLEST}),
    Case("a file with CR LF", "./pct run a.pct", 0, REPORT, [], {"a.pct": SMALLEST.replace("\n", "\r\n")}),
    Case(
        "a pipe as a file", "cat a.pct | ./pct check /dev/stdin", 6, "refused script 2 word_count\n",
        ["/dev/stdin:2: word_count\n", "    emit\n", "  Mend: write 'emit 0'"], {"a.pct": FAULTY},
    ),
    Case(
        "no file, a script with a fault", "./pct check < a.pct", 6, "refused script 2 word_count\n", [],
        {"a.pct": FAULTY},
    ),
    Case(
        "no file, a schedule with a fault", "./pct replay < a.replay", 7, "refused schedule 1 bad_header\n", [],
        {"a.replay": SMALLEST},
    ),
    Case(
        "an input that is too long", "./pct run a.pct", 8, "refused input too_long\n",
        ["pct: the input has more than 16,777,216 bytes"], {"a.pct": "\n" * 16_777_217},
    ),
    Case("a folder as standard input", "./pct run < .", 9, "", ["pct: the input could not be read"]),
    Case(
        "a full disk", "./pct run a.pct > /dev/full", 10, "", ["pct: the answer could not be written"],
        {"a.pct": SMALLEST},
    ),
    Case("a closed standard input", "./pct run <&-", 9, "", ["pct: the input could not be read"]),
    Case(
        "a closed standard output", "./pct run a.pct >&-", 10, "", ["pct: the answer could not be written"],
        {"a.pct": SMALLEST},
    ),
    Case(
        "a full disk, at a refusal", "./pct run a.pct > /dev/full", 10, "", ["pct: the answer could not be written"],
        {"a.pct": ""},
    ),
    Case("an unknown command", "./pct walk < a.pct", 5, "refused words\n", [USAGE, "pct build"], {"a.pct": SMALLEST}),
    Case("an unknown command with a file", "./pct walk a.pct", 5, "refused words\n", [USAGE], {"a.pct": SMALLEST}),
    Case("no words", "./pct", 5, "refused words\n", [USAGE]),
    Case("two files", "./pct run a.pct b.pct", 5, "refused words\n", [USAGE], {"a.pct": SMALLEST, "b.pct": SMALLEST}),
    Case("a seed", "./pct run --seed 2 a.pct", 0, REPORT, [], {"a.pct": SMALLEST}),
    Case(
        "a budget of one step, after the file", "./pct run a.pct --budget=1", 2,
        "report 1\n1.1 exit 0\nverdict budget\nschedule 1 1 4 64\n1 1 1 go\nend 1\n",
        ["a.pct: the budget of 1 step is used up", "a.pct:1: thread 1.1 made 1 of the last 1 steps in this function", "'--budget N'"],
        {"a.pct": SMALLEST},
    ),
    Case(
        "an option, and a script with a fault", "./pct run --slots 2 a.pct", 6, "refused script 2 word_count\n",
        ["a.pct:2: word_count\n", "    emit\n", "Mend:"], {"a.pct": FAULTY},
    ),
    Case("an option twice", "./pct run --seed 1 --seed 2 a.pct", 5, "refused words\n", [USAGE], {"a.pct": SMALLEST}),
    Case(
        "the file in place of a value", "./pct run --seed a.pct < /dev/null", 5, "refused words\n",
        [USAGE, "--seed N"], {"a.pct": SMALLEST},
    ),
    Case("an option without a value", "./pct run a.pct --seed", 5, "refused words\n", [USAGE], {"a.pct": SMALLEST}),
    Case("a budget of 0", "./pct run --budget 0 a.pct", 5, "refused words\n", [USAGE], {"a.pct": SMALLEST}),
    Case("an unknown option", "./pct run --steps 3 a.pct", 5, "refused words\n", [USAGE], {"a.pct": SMALLEST}),
    Case("an option of check", "./pct check --seed 1 a.pct", 5, "refused words\n", [USAGE], {"a.pct": SMALLEST}),
    Case(
        "a file that is not there, with an option", "./pct run --seed 1 nowhere.pct", 66, "",
        ["pct: nowhere.pct is no file that can be read\n"],
    ),
    Case("points with a file", "./pct points a.pct", 5, "refused words\n", [USAGE], {"a.pct": SMALLEST}),
    Case("demo without a number", "./pct demo", 5, "refused words\n", [USAGE, "pct demo N"]),
    Case("demo with a file", "./pct demo a.pct", 5, "refused words\n", [USAGE], {"a.pct": SMALLEST}),
    Case("demo reads nothing", "{ ./pct demo 0 | head -n 1; cat; } < a.pct", 0, "demo 0\n" + SMALLEST, [], {"a.pct": SMALLEST}),
    Case("sample with a file", "./pct sample 2 a.pct | head -n 2", 0, "sample 2\ncomplete 2 first 1\n", [], {"a.pct": SMALLEST}),
    Case("sums of files", "./pct tally 1 2 a.pct > one; ./pct tally 3 3 a.pct > two; ./pct sum two one | head -n 1; ./pct sum one two one", 16, "tally 1 3\nrefused tally 21 overlap\n", ["the files:21: overlap", "    tally 1 2", "Mend: leave one of them out"], {"a.pct": SMALLEST}),
    Case("a survey of rules in a file", "./pct survey 2 a.pct r", 14, "1\tholds 2\tfails 0\tfirst 1\t-\n3\tholds 0\tfails 2\t-\tfirst 1\nverdict complete\t2\tfirst 1\n", [], {"a.pct": SMALLEST, "r": "never * emit 1\n# x\ncount 2 * exit 0\n"}),
    Case("a survey of a line that is no rule", "./pct survey 2 --slots 1 a.pct r", 15, "refused expect 2 bad_line\n", ["r:2: bad_line", "    never emit", "Usual cause: a line that begins with none of", "Mend: compare the line"], {"a.pct": SMALLEST, "r": "\nnever emit\n"}),
    Case("a survey without rules", "./pct survey 2 a.pct", 15, "refused expect 1 no_rule\n", ["a.pct has no line %%, so it has no rules: name a file of rules after it"], {"a.pct": SMALLEST}),
    Case("a survey of rules that are missing", "./pct survey 2 a.pct r", 66, "", ["r is no file that can be read"], {"a.pct": SMALLEST}),
    Case("a survey with an option of run", "./pct survey 2 --seed 3 a.pct", 5, "refused words\n", ["--seed is no option of survey; it has --budget, --passes and --slots"], {"a.pct": SMALLEST}),
    Case("sum of a file that is missing", "./pct tally 1 2 a.pct > one; ./pct sum one two", 66, "", ["two is no file that can be read"], {"a.pct": SMALLEST}),
    Case("an expectation of a report", "./pct run a.pct | ./pct expect rules -", 14, "expect 1 yes\nexpect 2 no 1\nfailed 1\n", [], {"a.pct": SMALLEST, "rules": "count 2 * * *\nnever * exit *\n"}),
    Case("an expectation in one file", "{ cat rules; echo '%%'; ./pct run a.pct; } > both; ./pct expect both", 0, "expect 1 yes\nfailed 0\n", [], {"a.pct": SMALLEST, "rules": "count 2 * * *\n"}),
    Case("rules with a line %%", "./pct run a.pct | ./pct expect rules -", 0, "expect 1 yes\nfailed 0\n", [], {"a.pct": SMALLEST, "rules": "count 2 * * *\n%%\nreport 1\n"}),
    Case("rules without a last line end", "./pct run a.pct > report; ./pct expect rules report", 0, "expect 1 yes\nfailed 0\n", [], {"a.pct": SMALLEST, "rules": "count 2 * * *"}),
    Case("a rule that is none", "./pct run a.pct | ./pct expect rules -", 15, "refused expect 2 bad_line\n", ["rules:2: bad_line\n    always * exit *\n", "Mend: compare the line"], {"a.pct": SMALLEST, "rules": "# exits\nalways * exit *\n"}),
    Case("a report that was cut off", "./pct run a.pct | head -n 3 | ./pct expect rules -", 13, "refused report 4 bad_verdict\n", ["-:4: bad_verdict\n    (the end of the text)\n", "Mend: give the whole report"], {"a.pct": SMALLEST, "rules": "never * emit *\n"}),
    Case("a report after rules in one file", "{ cat rules; echo '%%'; ./pct run a.pct | sed 2s/0/x/; } > both; ./pct expect both", 13, "refused report 2 bad_event\n", ["both:4: bad_event\n    1.1 exit x\n"], {"a.pct": SMALLEST, "rules": "never * emit *\n"}),
    Case("rules without a report", "./pct expect rules", 13, "refused report 1 bad_header\n", ["rules has no line %%, so all of it is rules and the report is empty: './pct expect RULES REPORT'"], {"rules": "never * emit *\n"}),
    Case("rules and a report that is missing", "./pct expect rules report", 66, "", ["report is no file that can be read"], {"rules": "never * emit *\n"}),
    Case("a judgement of a report", "./pct run a.pct > report; ./pct judge report", 0, findings(), [], {"a.pct": SMALLEST}),
    Case("a judgement of a report with two mistakes", "./pct judge report", 12, findings(*TWO_MISTAKES), TWO_EXPLAINED, {"report": MISTAKEN}),
    Case("a judgement of standard input", "./pct judge < report", 12, findings(*TWO_MISTAKES), [], {"report": MISTAKEN}),
    Case("a judgement of a schedule", "./pct judge begun", 13, "refused report 1 bad_header\n", ["begun:1: bad_header\n    schedule 1", "Mend: give a report of 'run'"], {"begun": BEGUN}),
    Case("a judgement of a report that is missing", "./pct judge report", 66, "", ["report is no file that can be read"]),
    words("a judgement of two reports", "judge a.pct later", "later: a word too many for judge\n"),
    words("a judgement with an option", "judge --slots 4 a.pct", "--slots: judge has no options\n"),
    Case("sample without a number", "./pct sample a.pct", 5, "refused words\n", [USAGE, "pct sample K"], {"a.pct": SMALLEST}),
    Case("a command in upper case", "./pct RUN a.pct", 5, "refused words\n", [USAGE], {"a.pct": SMALLEST}),
    Case("build with a word more", "./pct build now", 5, "refused words\n", [USAGE]),
    Case(
        "build of programs that are up to date", "./pct build", 0, "",
        ["crates/pct_run/out/pct_run\n", "crates/pct_inspect/out/pct_inspect\n"],
    ),
]

CONTINUED = [
    Case("continue without a prefix", "./pct continue 7 a.pct", 0, REPORT, [], {"a.pct": SMALLEST}),
    Case("continue of standard input", "./pct continue 7 < a.pct", 0, REPORT, [], {"a.pct": SMALLEST}),
    Case("a prefix without an end", "./pct continue 7 a.pct begun", 0, REPORT, [], {"a.pct": SMALLEST, "begun": BEGUN}),
    Case("a script without a last line end", "./pct continue 7 a.pct begun", 0, REPORT, [], {"a.pct": SMALLEST[:-1], "begun": BEGUN}),
    Case(
        "a file with a line %% before a prefix", "./pct continue 7 a.replay begun", 0, REPORT, [],
        {"a.replay": SMALLEST + "%%\nschedule 1 1 4 64\n", "begun": BEGUN},
    ),
    Case(
        "an entry of a prefix that is not legal", "./pct continue 7 a.pct begun", 7, REPORT + "entry 2 is not legal here\n",
        ["pct: entry 2 of the prefix is not legal, and the report is of a run without it", "pct: './pct choices' with the same files"],
        {"a.pct": SMALLEST, "begun": BEGUN + "1 1 2 go\n"},
    ),
    Case(
        "a header of a prefix with a fault", "./pct continue 7 a.pct begun", 7, "refused schedule 1 bad_header\n",
        ["begun:1: bad_header\n", "    schedule 1 0 4 64\n", "Usual cause:", "Mend:"],
        {"a.pct": SMALLEST, "begun": "schedule 1 0 4 64\n"},
    ),
    Case(
        "a script with a fault before a prefix", "./pct continue 7 a.pct begun", 6, "refused script 2 word_count\n",
        ["a.pct:2: word_count\n", "    emit\n", "  Mend: write 'emit 0'"], {"a.pct": FAULTY, "begun": BEGUN},
    ),
    Case(
        "a prefix that is not there", "./pct continue 7 a.pct nowhere", 66, "",
        ["pct: nowhere is no file that can be read\n"], {"a.pct": SMALLEST},
    ),
    Case("continue without a seed", "./pct continue", 5, "refused words\n", [USAGE]),
    Case("continue with a file in the place of the seed", "./pct continue a.pct", 5, "refused words\n", [USAGE], {"a.pct": SMALLEST}),
    Case(
        "continue with a word too many", "./pct continue 7 a.pct begun 1 more", 5, "refused words\n", [USAGE],
        {"a.pct": SMALLEST, "begun": BEGUN},
    ),
    Case("trace", "./pct trace a.pct begun", 4, TRACE, [], {"a.pct": SMALLEST, "begun": BEGUN}),
    Case("choices", "./pct choices a.pct begun", 4, CHOICES, [], {"a.pct": SMALLEST, "begun": BEGUN}),
    Case("lanes", "./pct lanes a.pct begun", 4, LANES, [], {"a.pct": SMALLEST, "begun": BEGUN}),
    Case("a picture", "./pct picture a.pct begun | grep -c '<svg '", 0, "1\n", [], {"a.pct": SMALLEST, "begun": BEGUN}),
    Case("trace of one file", "./pct trace a.replay", 4, TRACE, [], {"a.replay": SMALLEST + "%%\n" + BEGUN}),
    Case("trace of standard input", "./pct trace < a.replay", 4, TRACE, [], {"a.replay": SMALLEST + "%%\n" + BEGUN}),
    Case("trace without a prefix", "./pct trace a.pct", 4, "verdict open\n", ["pct: there is no prefix, so the run has no step"], {"a.pct": SMALLEST}),
    Case("trace of a whole report", "./pct trace a.pct report | grep -c go", 0, "2\n", [], {"a.pct": SMALLEST, "report": REPORT}),
    Case(
        "trace of a prefix with an entry that is not legal", "./pct trace a.pct begun", 7, TRACE + "entry 2 is not legal here\n",
        ["begun:3: entry 2 is not legal\n    1 1 2 go\n", "pct: './pct choices a.pct begun 1' shows what is legal there\n"],
        {"a.pct": SMALLEST, "begun": BEGUN + "1 1 2 go\n"},
    ),
    Case(
        "choices of a script with a fault", "./pct choices a.pct begun", 6, "refused script 2 word_count\n",
        ["a.pct:2: word_count\n", "    emit\n", "  Mend: write 'emit 0'"], {"a.pct": FAULTY, "begun": BEGUN},
    ),
    Case(
        "lanes of a prefix with a fault", "./pct lanes a.pct begun", 7, "refused schedule 1 bad_header\n",
        ["begun:1: bad_header\n", "    schedule 1 0 4 64\n", "Usual cause:", "Mend:"],
        {"a.pct": SMALLEST, "begun": "schedule 1 0 4 64\n"},
    ),
    Case(
        "a picture of a prefix that is not there", "./pct picture a.pct nowhere", 66, "",
        ["pct: nowhere is no file that can be read\n"], {"a.pct": SMALLEST},
    ),
    Case("the first entries of a report", "./pct trace a.pct report 1", 4, TRACE, [], {"a.pct": SMALLEST, "report": REPORT}),
    Case("no entries of a report", "./pct trace a.pct report 0", 4, "verdict open\n", [], {"a.pct": SMALLEST, "report": REPORT}),
    Case(
        "more entries than a report has", "./pct trace a.pct report 9 | tail -n 1", 0, "verdict complete\n", [],
        {"a.pct": SMALLEST, "report": REPORT},
    ),
    Case("go on from the first entry of a report", "./pct continue 7 a.pct report 1", 0, REPORT, [], {"a.pct": SMALLEST, "report": REPORT}),
    Case("a prefix from standard input", "./pct trace a.pct - < begun", 4, TRACE, [], {"a.pct": SMALLEST, "begun": BEGUN}),
    Case("the first entries from standard input", "./pct run a.pct | ./pct choices a.pct - 1", 4, CHOICES, [], {"a.pct": SMALLEST}),
    Case(
        "a number of entries that is none", "./pct trace a.pct begun more", 5, "",
        ["pct: more is no number of entries\n"], {"a.pct": SMALLEST, "begun": BEGUN},
    ),
    Case("trace with a word too many", "./pct trace a.pct begun 1 more", 5, "refused words\n", [USAGE], {"a.pct": SMALLEST, "begun": BEGUN}),
]

# Scripts that end in the same way under every schedule: main locks its own mutex, joins itself, loops.
LOCKED = "mutex m\nfn main x\npthread_mutex_lock m\npthread_mutex_lock m\nend\n"
STOPPED = "fn main x\npthread_join 1 -\nend\n"
LOOP = "fn main x\nwhile 1\nend\nend\n"
UNSEEN = "rm crates/pct_inspect/out/pct_inspect; ./pct run a.pct > report"

FIRST = [
    *(script(*case) for case in first_mistakes.REFUSED),
    *(ended(*case) for case in first_mistakes.RUNS + run_mistakes.RUNS),
    *(ended(*case) for case in (run_mistakes.OPERANDS if has_states() else [])),
    *(words(*case) for case in first_mistakes.WORDS),
    Case(
        "a deadlock of a run that is continued", "./pct continue 7 a.pct begun | grep verdict", 0, "verdict deadlock\n",
        ["a.pct: deadlock after 1 step", "a.pct:4: thread 1.1 waits for mutex m, held by 1.1"], {"a.pct": LOCKED, "begun": BEGUN},
    ),
    Case(
        "a budget of a run that is continued", "./pct continue 7 a.pct begun | grep verdict", 0, "verdict budget\n",
        ["a.pct: the budget of 10000 steps", "a.pct:2: thread 1.1 made its last 10000 steps in this loop, lines 2 to 3", "BUDGET in the header"],
        {"a.pct": LOOP, "begun": BEGUN},
    ),
    Case("a trace of a deadlock", "./pct run a.pct 2> says | ./pct trace a.pct - | tail -n 1", 0, "verdict deadlock\n", [], {"a.pct": LOCKED}),
    Case("a deadlock of standard input", "./pct run < a.pct | grep verdict", 0, "verdict deadlock\n", [], {"a.pct": LOCKED}),
    Case(
        "a deadlock without the program that inspects runs", UNSEEN, 1, "",
        ["a.pct: deadlock\n", "pct: with its report in a file, './pct choices a.pct REPORT' shows what each thread waits for\n"], {"a.pct": LOCKED},
    ),
    Case(
        "a stop without the program that inspects runs", UNSEEN, 3, "",
        ["a.pct: undefined join_self\n", "pct: with its report in a file, './pct trace a.pct REPORT' shows the step that was stopped\n", "  Rule: S: undefined"],
        {"a.pct": STOPPED},
    ),
    Case(
        "a budget without the program that inspects runs", UNSEEN, 2, "",
        ["a.pct: budget\n", "pct: with its report in a file, './pct trace a.pct REPORT' shows the loop", "'--budget N' allows up to 200000.\n"],
        {"a.pct": LOOP},
    ),
]

run_all(named_program(), [*SCRIPTS, *SCHEDULES, *CALLS, *CONTINUED, *FIRST])
