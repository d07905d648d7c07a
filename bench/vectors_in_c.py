#!/usr/bin/env python3
"""Runs the vectors of conformance/ as C programs on a C library of this machine.

    bench/vectors_in_c.py [--cc COMMAND] [--libs WORDS] [--run COMMAND] [--folder DIR] [--filter TEXT] [--only MARK]
                          [--expect FILE] [--timeout SECONDS] [--jobs N] [--keep FOLDER]

For each vector a C program is made: a C function for each function of the script, the calls of the script as they are,
and before each statement a wait until it is its turn in the schedule of the vector (vectors_in_c.h). The program writes
the events that it can see, as `P.T EVENT`, and these are compared with those of report.txt, up to the stop or the end of
the schedule. conformance/README.md says which events these are, and what is not comparable.

    --cc COMMAND       the compiler, split into words as a shell does; cc where it is not given
    --libs WORDS       words that come after the source in the compiler's command, split in the same way: archives,
                       objects and shared objects of a library
    --run COMMAND      this command is put before each program, split in the same way
    --folder DIR       the folders of DIR in place of those of conformance/; ./pct trace says which events are of which
                       step
    --filter TEXT      only the vectors whose name, section or source has TEXT
    --only MARK        only the vectors with this mark: S, S+P or P
    --expect FILE      names of vectors that are known to fail, one a line; what follows a # is a comment
    --timeout SECONDS  end a program after this time, 5 seconds where none is given
    --jobs N           run up to N programs at once, 3 where it is not given; the results are printed in order
    --keep FOLDER      leave the C programs in this folder

One program is built first. If that fails, the compiler's first error is printed, and no other program is built.

For each vector that fails, and for each that is not comparable, a line says why; after a failure come the rule, the mark
and the source of the vector, and where to read on. After that a line for each kind of event says how many vectors first
differ there. The last line is `P passed, Q followed up to the stop, M failed, K not comparable`: P vectors whose events
were all as expected, and Q whose events were as expected up to a stop, which the program has no counterpart of. The
status is 1 if a vector failed that FILE does not name, or P and Q are 0, and 2 if the words are not as above, or the
compiler, a folder, FILE or the first program cannot be used.
"""
import argparse
import dataclasses
import os
import pathlib
import re
import shlex
import shutil
import signal
import subprocess
import sys
import tempfile

import conformance

ROOT = pathlib.Path(__file__).resolve().parent.parent
HEADER = ROOT / "bench/vectors_in_c.h"
OPTIONS = ["-std=c11", "-D_GNU_SOURCE", "-O1", "-pthread", "-fno-strict-aliasing"]
SECONDS = 5
JOBS = 3
# The sizes of the arrays of vectors_in_c.h.
NUMBERS, PROCESSES = 20, 10

# ---- the vector


class Step:
    """An entry of the schedule with its events."""

    def __init__(self, process, thread, choice, events):
        words = choice.split()
        self.process, self.thread, self.events = int(process), int(thread), events
        self.choice, self.number = words[0], int(words[1]) if len(words) > 1 else 0

    def who(self):
        return self.process, self.thread

    def has(self, *words):
        return any(event.split()[0] in words for event in self.events)

    def is_stop(self):
        return self.has("undefined", "profile")


# ---- what a program can see

# The calls of the library that a schedule may lack are written after this, when a program is ended.
EXTRA = "# "
SEEN = set("""emit push pop create joined detach state type done request key key_delete take post fork reap answer handler
acquire exit at_exit prepare parent child process_end once""".split())


COND_WAITS = ("pthread_cond_wait", "pthread_cond_timedwait")
SEM_WAITS = ("sem_wait", "sem_timedwait")


def seen(step, kind):
    """The events of a step that the program shows, as it shows them."""
    if kind not in ("STEP", "CALL", "ACT"):
        return
    is_wait = any(event.endswith(COND_WAITS) or event.startswith("ending canceled ") for event in step.events)
    for event in step.events:
        word, *rest = event.split()
        if word in ("signal", "broadcast"):
            shown = f"{word} {rest[0]}"
        elif word == "dtor":
            shown = f"dtor {rest[2]} {rest[3]}"
        elif word == "ending":
            shown = " ".join(["ending", *rest[:1 if rest[0] == "canceled" else 2]])
        elif word == "release":
            shown = None if is_wait else event
        else:
            shown = event if word in SEEN else None
        if shown:
            yield f"{step.process}.{step.thread} {shown}"


def kinds_of(steps):
    """What each step is to the program, as vectors_in_c.h explains."""
    exiting = set()
    for step in steps:
        if step.is_stop():
            kind = "STOP"
        elif step.has("call"):
            kind = "CALL"
        elif step.has("expire"):
            kind = "EXPIRY"
        elif step.has("cancel_wait", "pass"):
            kind = "NO_CODE"
        elif step.has("ended"):
            kind = "NO_CODE" if step.has("exit") else "END_OF_THREAD"
        elif step.has("process_end") and step.who() in exiting:
            kind = "END_OF_PROCESS"
        else:
            kind = "ACT" if step.choice == "act" else "STEP"
        if step.has("exit"):
            exiting.add(step.who())
        yield kind


# ---- what is not comparable

LIMITS = {"answer pthread_create 1", "answer pthread_key_create 1", "answer fork 1"}
POINTS = {
    "read": "read(pipes[process][thread][0], &byte, 1)", "write": "write(STDERR_FILENO, &byte, 0)", "pause": "pause()",
    "sleep": "sleep(0)", "open": 'open("/dev/null", O_RDONLY)', "close": "close(dup(STDERR_FILENO))",
}
# The words that Writer has a function of its own for, and declarations.
OWN = set("fn end if else while do return pthread_cleanup_push pthread_cleanup_pop pthread_once global mutex cond sem once".split())


def words_of(script):
    """The words of each line that has any and is no comment."""
    return [line.split() for line in script if line.split() and not line.lstrip().startswith("#")]


def no_program(script, steps, verdict):
    """Why no program is made of a vector, or nothing."""
    words = words_of(script)
    if verdict.startswith("refused"):
        return "a refusal"
    if any("asynchronous" in line[1:2] for line in words):
        return "asynchronous type: a request could act in the code of the baton"
    for line in words:
        if not any(line[0] in known for known in (OWN, POINTS, STATEMENTS)):
            return f"no C form of {line[0]}"
    if any(event in LIMITS for step in steps for event in step.events):
        return "room of this host for threads, keys or processes"
    numbers = [step.number for step in steps if step.choice == "new"]
    if max(numbers, default=0) >= NUMBERS or any(step.process >= PROCESSES for step in steps):
        return "too many threads, keys or processes"


def are_alike(script):
    """Whether all threads that come to a condition wait execute the same function with the same number, and no thread
    has their ids: then nothing can tell which of them is which, and the program lets them exchange their numbers."""
    words = words_of(script)
    functions = [line for line in words if line[0] == "fn"]
    waiting = [name for name, lines in bodies(words) if any(line[0] == "pthread_cond_wait" for line in lines)]
    if len(waiting) != 1 or sum(line[0] == "pthread_cond_wait" for line in words) != 1:
        return False
    creates = [line for line in words if line[0] == "pthread_create" and line[3] == waiting[0]]
    has_one_variable = any(line[1] == waiting[0] and len(line) == 3 for line in functions)
    return has_one_variable and len(creates) > 1 and all(line == creates[0] and line[2] == "-" for line in creates)


def bodies(words):
    """The name and the lines of each function."""
    starts = [number for number, line in enumerate(words) if line[0] == "fn"]
    for start, end in zip(starts, [*starts[1:], len(words)]):
        yield words[start][1], words[start:end]


class Threads:
    """What is known of the threads of a run, from its events."""

    def __init__(self, are_alike):
        self.are_alike = are_alike
        self.calls, self.requested, self.disabled = {}, {}, set()
        self.ended, self.posts, self.unblocked, self.timed_out = {}, {}, {}, set()

    def why_not(self, step):
        """Why the library cannot be made to do this step, or nothing."""
        who, call = step.who(), self.calls.get(step.who())
        others = [other for other in self.calls if other != who and other[0] == step.process]
        is_pending = who in self.requested and who not in self.disabled
        if call and step.choice != "act" and is_pending and not step.has("ending"):
            return "a thread with a request pending returns from its call"
        if call and step.choice == "act" and (who in self.timed_out or self.may_return(who, call)):
            return "a thread acts in a call that may return"
        waits = sum(self.calls[other] in COND_WAITS and other not in self.timed_out for other in others)
        if step.has("signal") and waits > 1 and not self.are_alike:
            return "which of several threads a signal wakes"
        if step.has("take") and any(self.calls[other] in SEM_WAITS for other in others):
            return "which of several threads takes a post"
        if step.has("reap") and any(self.calls[other] == "waitpid" for other in others):
            return "which of several threads reaps a child"
        is_alike = self.are_alike and who in self.unblocked
        if step.has("acquire") and any(other != who for other in self.unblocked) and not is_alike:
            return "which of several threads gets a mutex"
        return None

    def may_return(self, who, call):
        """Whether what the call of the thread waits for may have come before its end was requested."""
        events = self.ended if call == "pthread_join" else self.posts if call in SEM_WAITS else {}
        first = min((at for (process, _), at in events.items() if process == who[0]), default=None)
        if call == "waitpid":
            first = min((at for (_, thread), at in self.ended.items() if thread == 0), default=None)
        return first is not None and first < self.requested.get(who, 0)

    def follow(self, number, step):
        who = step.who()
        for event in step.events:
            word, *rest = event.split()
            if word == "call":
                self.calls[who] = rest[0]
            elif word in ("done", "joined", "take", "reap", "answer", "ending"):
                self.calls.pop(who, None)
                self.unblocked.pop(who, None)
                self.timed_out.discard(who)
                if word == "joined":
                    self.ended.pop((who[0], int(rest[0])), None)
            elif word == "request":
                self.requested.setdefault((who[0], int(rest[0])), number)
            elif word == "state":
                (self.disabled.add if rest[0] == "disable" else self.disabled.discard)(who)
            elif word == "ended":
                self.ended[who] = number
            elif word == "process_end":
                self.ended[(step.process, 0)] = number
            elif word == "post":
                self.posts[(who[0], rest[0])] = number
            elif word == "signal" and rest[1] != "0":
                self.unblocked[(who[0], int(rest[1]))] = True
            elif word == "broadcast":
                waiters = [other for other, call in self.calls.items() if call in COND_WAITS]
                self.unblocked.update(dict.fromkeys(waiters, True))
            elif word in ("cancel_wait", "expire"):
                self.unblocked[who] = True
                if word == "expire":
                    self.timed_out.add(who)


def not_forced(script, steps):
    """Why the steps of a vector cannot be brought about, or nothing."""
    threads, passes = Threads(are_alike(script)), {}
    for number, step in enumerate(steps, 1):
        for event in step.events:
            if event.startswith("dtor "):
                key = (step.who(), event.split()[1])
                passes[key] = passes.get(key, 0) + 1
                if passes[key] > 1:
                    return "which of several destructors is called next"
        why = threads.why_not(step)
        if why:
            return f"step {number}: {why}"
        threads.follow(number, step)


# ---- the C program


class Writer:
    """Writes the C program of a script."""

    def __init__(self, script):
        self.lines = words_of(script)
        self.functions = [line[1] for line in self.lines if line[0] == "fn"]
        self.locals, self.blocks, self.pushes, self.out = [], [], [], []

    def value(self, word):
        if word.isdigit():
            return f"{int(word)}u"
        return f"v_{word}" if word in self.locals else f"g_{word}"

    def place(self, word):
        return "sink" if word == "-" else self.value(word)

    def declarations(self):
        return (line for line in self.lines if line[0] in DECLARED)

    def controls(self):
        return [name for word, name, *_ in self.declarations() if word == "once"]

    def program(self):
        for word, name, *_ in self.declarations():
            self.out.append(f"static {DECLARED[word].format(name)};")
        self.out.append("static __thread uint32_t sink;")
        for name in self.functions:
            self.out.append(WRAPPERS.replace("NAME", name))
        for name in self.functions:
            for number, control in enumerate(self.controls()):
                self.out.append(ROUTINE.replace("NAME", name).replace("CONTROL", control).replace("NUMBER", str(number)))
        for line in self.lines:
            if line[0] not in DECLARED:
                self.out.append(getattr(self, f"do_{line[0]}", self.do_call)(*line))
        self.out.append(self.main())
        return "\n".join(self.out)

    def main(self):
        made = ["int main(void)\n{", "setup();", "pthread_mutexattr_t type;", "pthread_mutexattr_init(&type);",
                "pthread_mutexattr_settype(&type, PTHREAD_MUTEX_NORMAL);"]
        for word, name, *count in self.declarations():
            made.append(OPENED[word].format(name, *count))
        return "\n".join([*made, "return (int)fn_main(MAIN, 0);\n}"])

    def do_fn(self, _, name, *variables):
        self.locals, self.blocks = list(variables), ["fn"]
        rest = "".join(f" uint32_t v_{variable} = 0; (void)v_{variable};" for variable in variables[1:])
        return (f"static uint32_t fn_{name}(enum frame frame, uint32_t v_{variables[0]})\n"
                f"{{ char byte = 0; (void)byte; (void)v_{variables[0]};{rest}")

    def do_end(self, _):
        block = self.blocks.pop()
        if block == "fn":
            return f"take(); {self.done()} returns(frame, 0); return 0; }}"
        return "take(); pass(); } }" if block == "if" else "take(); pass(); }"

    def do_if(self, _, value):
        self.blocks.append("if")
        return f"{{ int is; take(); is = {self.value(value)} != 0; pass(); if (is) {{"

    def do_else(self, _):
        return "take(); pass(); } else {"

    def do_while(self, _, value):
        self.blocks.append("while")
        return f"for (;;) {{ int is; take(); is = {self.value(value)} != 0; pass(); if (!is) break;"

    def do_return(self, _, value):
        return f"{{ uint32_t value; take(); value = {self.value(value)}; {self.done()} returns(frame, value); return value; }}"

    def done(self):
        """What shows the return of a function, if it is one of an init routine."""
        return " ".join(f'if (frame == ROUTINE + {number}) show("once {control} done");' for number, control in enumerate(self.controls()))

    def do_do(self, _, name, value):
        return f"{{ uint32_t value; take(); value = {self.value(value)}; pass(); fn_{name}(OTHER, value); }}"

    def do_pthread_cleanup_push(self, _, name, value):
        self.pushes.append(name)
        return (f"{{ uint32_t pushed; take(); pushed = {self.value(value)}; show(\"push {name} %u\", pushed); pass();\n"
                f"pthread_cleanup_push(handler_{name}, (void *)(uintptr_t)pushed);")

    def do_pthread_cleanup_pop(self, _, value):
        name = self.pushes.pop()
        return (f"take(); is_popping = {self.value(value)} != 0;\n"
                f"show(is_popping ? \"pop {name} %u run\" : \"pop {name} %u drop\", pushed); pass();\n"
                "pthread_cleanup_pop(is_popping); }")

    def do_pthread_once(self, _, control, name):
        """The step is that of the call of the routine, if the library calls one, and else that of the statement."""
        return (f"{{ take(); is_called = 0; int error = pthread_once(&o_{control}, once_{control}_{name});\n"
                'if (error) show("error %d of pthread_once", error); if (!is_called) pass(); }')

    def do_call(self, name, *words):
        """A statement that is one call: what comes before it, the call, what comes after it."""
        if name in POINTS:
            return f"{{ POINT(if ({POINTS[name]} < 0) show(\"error of {name}\")); show(\"done {name}\"); pass(); }}"
        return f"{{ take(); {self.statement(name, *words)} pass(); }}"

    def statement(self, name, *words):
        form, kinds = STATEMENTS[name]
        made = []
        for kind, word in zip(kinds, words):
            made.append({"v": self.value, "d": self.place, "n": str}[kind](word))
        if name == "pthread_create":
            made.append("1" if words[4:] == ("detached",) else "0")
        text = form
        for number, word in enumerate(made, 1):
            text = text.replace(f"${number}", word)
        return re.sub(r"(dtor|prepare|parent|child)_-", "NULL", text)


DECLARED = {
    "global": "uint32_t g_{0}", "mutex": "pthread_mutex_t m_{0}", "cond": "pthread_cond_t c_{0}", "sem": "sem_t s_{0}",
    "once": "pthread_once_t o_{0} = PTHREAD_ONCE_INIT",
}
OPENED = {
    "global": "", "mutex": "pthread_mutex_init(&m_{0}, &type);", "cond": "pthread_cond_init(&c_{0}, NULL);",
    "sem": "sem_init(&s_{0}, 0, {1});", "once": "",
}
WRAPPERS = """static uint32_t fn_NAME(enum frame frame, uint32_t v);
static void handler_NAME(void *given)
{
    uint32_t value = (uint32_t)(uintptr_t)given;
    if (!is_popping) { take_call("NAME"); show("handler NAME %u", value); pass(); }
    is_popping = 0;
    fn_NAME(OTHER, value);
}
static void dtor_NAME(void *given)
{
    uint32_t value = (uint32_t)(uintptr_t)given;
    take_call("NAME"); show("dtor NAME %u", value); pass();
    fn_NAME(OTHER, value);
}
static void exit_NAME(void) { take_call("NAME"); show("at_exit NAME"); pass(); fn_NAME(OTHER, 0); }
static void prepare_NAME(void) { take_call("NAME"); show("prepare NAME"); pass(); fn_NAME(OTHER, 0); }
static void parent_NAME(void) { take_call("NAME"); show("parent NAME"); pass(); fn_NAME(OTHER, 0); }
static void child_NAME(void) { take_call("NAME"); show("child NAME"); pass(); fn_NAME(OTHER, 0); }
"""
# A function as an init routine of a control.
ROUTINE = """static void once_CONTROL_NAME(void)
{
    show("once CONTROL call"); pass();
    fn_NAME((enum frame)(ROUTINE + NUMBER), 0);
    is_called = 1;
}
"""
# The statement, and what its words are: v a value, d where a result goes, n a name. The step is taken before it.
STATEMENTS = {
    "emit": ('show("emit %u", $1);', "v"),
    "set": ("$1 = $2;", "dv"),
    "add": ("$1 += $2;", "dv"),
    "nop": ("", ""),
    "pthread_create": ("uint32_t id; $1 = create(fn_$3, $4, $5, &id); $2 = id;", "ddnv"),
    "pthread_join": ("uint32_t id = $1; void *value = NULL; int error; POINT(error = pthread_join(handles[id], &value)); "
                     "if (error) show(\"error %d of pthread_join\", error); "
                     "show(\"joined %u %u\", id, (uint32_t)(uintptr_t)value); $2 = (uint32_t)(uintptr_t)value;", "vd"),
    "pthread_detach": ('uint32_t id = $1; show_result(pthread_detach(handles[id]), "detach %u", id);', "v"),
    "pthread_self": ("$1 = own_number();", "d"),
    "pthread_exit": ('uint32_t value = $1; show("ending exit %u", value); pass(); '
                     "pthread_exit((void *)(uintptr_t)value);", "v"),
    "pthread_cancel": ('uint32_t id = $1; show_result(pthread_cancel(handles[id]), "request %u", id);', "v"),
    "pthread_testcancel": ('POINT(pthread_testcancel()); show("done pthread_testcancel");', ""),
    "pthread_setcancelstate": ('int old; pthread_setcancelstate(state_$1, &old); show("state $1"); '
                               "$2 = old == PTHREAD_CANCEL_DISABLE;", "nd"),
    "pthread_setcanceltype": ('int old; pthread_setcanceltype(PTHREAD_CANCEL_DEFERRED, &old); show("type $1"); '
                              "$2 = old == PTHREAD_CANCEL_ASYNCHRONOUS;", "nd"),
    "pthread_key_create": ("uint32_t key = take()->number; int error = pthread_key_create(&keys[key], dtor_$3); "
                           'show_result(error, "key %u", key); $1 = 0; $2 = key;', "ddn"),
    "pthread_key_delete": ('uint32_t key = $1; show_result(pthread_key_delete(keys[key]), "key_delete %u", key);', "v"),
    "pthread_setspecific": ("pthread_setspecific(keys[$1], (void *)(uintptr_t)$2);", "vv"),
    "pthread_getspecific": ("$1 = (uint32_t)(uintptr_t)pthread_getspecific(keys[$2]);", "dv"),
    "pthread_mutex_lock": ('show_result(pthread_mutex_lock(&m_$1), "acquire $1", 0);', "n"),
    "pthread_mutex_unlock": ('show_result(pthread_mutex_unlock(&m_$1), "release $1", 0);', "n"),
    "pthread_cond_wait": ('int error; WAIT(error = pthread_cond_wait(&c_$1, &m_$2), m_$2, "$2"); '
                          'show_result(error, "done pthread_cond_wait", 0);', "nn"),
    "pthread_cond_timedwait": ('int error; WAIT(error = pthread_cond_timedwait(&c_$2, &m_$3, until()), m_$3, "$3"); '
                               'show_timed_result(error, "pthread_cond_timedwait", "done pthread_cond_timedwait"); '
                               "$1 = error == ETIMEDOUT ? 4 : 0;", "dnn"),
    "pthread_cond_signal": ('show_result(pthread_cond_signal(&c_$1), "signal $1", 0);', "n"),
    "pthread_cond_broadcast": ('show_result(pthread_cond_broadcast(&c_$1), "broadcast $1", 0);', "n"),
    "sem_wait": ('int error; POINT(error = sem_wait(&s_$1)); show_result(error, "take $1", 0);', "n"),
    "sem_timedwait": ('int error; POINT(error = sem_timedwait(&s_$2, until()) == 0 ? 0 : errno); '
                      'show_timed_result(error, "sem_timedwait", "take $2"); $1 = error == ETIMEDOUT ? 4 : 0;', "dn"),
    "sem_post": ('show_result(sem_post(&s_$1), "post $1", 0);', "n"),
    "atexit": ('$1 = atexit(exit_$2) != 0; if ($1) show("answer atexit 1");', "dn"),
    "exit": ('uint32_t value = $1; show("exit %u", value); pass(); exit((int)value);', "v"),
    "_exit": ('uint32_t value = $1; show("process_end %u", value % 256); pass(); _exit((int)value);', "v"),
    "pthread_atfork": ('int error = pthread_atfork(prepare_$2, parent_$3, child_$4); $1 = error ? 2 : 0; '
                       'if (error) show("answer pthread_atfork 2");', "dnnn"),
    "fork": ('pass(); pid_t pid = fork(); if (pid < 0) { take(); show("answer fork 1"); pass(); } take(); '
             "$1 = pid < 0; $2 = process_made(pid);", "dd"),
    "waitpid": ("uint32_t id = $2; int status = 0; pid_t pid; POINT(pid = waitpid(pid_of(id), &status, 0)); "
                'if (pid < 0) { show("answer waitpid 3"); $1 = 3; } '
                'else { uint32_t value = WEXITSTATUS(status); show("reap %u %u", id, value); $1 = 0; $3 = value; }', "dvd"),
}


VERDICTS = {"verdict complete": "COMPLETE", "verdict deadlock": "DEADLOCK"}


def table_of(script, steps, verdict):
    """The arrays that vectors_in_c.h declares, and the lines that the program should write."""
    kinds = list(kinds_of(steps))
    lines = [line for step, kind in zip(steps, kinds) for line in seen(step, kind)]
    rows, alike = [], are_alike(script)
    for step, kind in zip(steps, kinds):
        number = step.number
        for event in step.events:
            if event.startswith("fork "):
                number = int(event.split()[1])
        is_return = step.has("done", "answer") and step.has("acquire")
        flags = ("done read" in step.events, is_return or step.has("ending") and step.has("acquire"), is_return and alike,
                 step.choice == "expire")
        rows.append(f"    {{{step.process}, {step.thread}, {kind}, {number}, {', '.join(str(int(f)) for f in flags)}}},")
    text = ["static const struct entry entries[] = {", *rows, "    {0, 0, STEP, 0, 0, 0, 0, 0}};",
            f"static const int entry_count = {len(steps)}, wanted_count = {len(lines)};",
            f"static const enum verdict verdict = {VERDICTS.get(verdict, 'OTHER_VERDICT')};",
            "static const char *const wanted[] = {", *(f'    "{line}",' for line in lines), "    NULL};"]
    return "\n".join(text), lines


def program_of(script, steps, verdict):
    table, wanted = table_of(script, steps, verdict)
    return f'#include "{HEADER}"\n\n{table}\n\n{Writer(script).program()}\n', wanted


# ---- the vectors


@dataclasses.dataclass
class Case:
    """A vector: its folder, and what is known of its run."""
    folder: conformance.Folder
    script: list
    steps: list
    verdict: str

    def is_stopped(self):
        return self.verdict.startswith(("verdict undefined", "verdict profile"))


def cases(options):
    """The vectors that the options choose."""
    vectors = {} if options.folder else {vector.name: vector for vector in conformance.read_source()[0]}
    for folder in conformance.chosen_folders(options):
        vector = vectors.get(folder.name)
        steps, verdict = (vector.steps, vector.verdict) if vector else traced(folder)
        yield Case(folder, folder.texts["script.pct"].decode().splitlines(), [Step(*step) for step in steps], verdict)


def traced(folder):
    """The steps of an own vector with their events, and its verdict, as ./pct trace shows them."""
    wanted = [line.decode().rstrip("\n") for line in conformance.lines_of(folder.texts["report.txt"], True)]
    if wanted and wanted[0].startswith("refused"):
        return [], wanted[0]
    texts = (f"{folder.path}/{name}" for name in ("script.pct", "schedule.txt"))
    ran = subprocess.run([ROOT / "pct", "trace", *texts], stdout=subprocess.PIPE, text=True)
    lines = [line.split("\t") for line in ran.stdout.splitlines()]
    steps = [(*line[1].split("."), line[4], [event for event in line[5].split(", ") if event not in ("", "-")])
             for line in lines if len(line) == 6]
    events = [f"{process}.{thread} {event}" for process, thread, _, found in steps for event in found]
    verdict = next((line[0] for line in lines if line[0].startswith("verdict")), "no verdict")
    if wanted != [*events, verdict]:
        conformance.misused(f"{folder.path}: report.txt is not what ./pct trace shows")
    return steps, verdict


# ---- runs


@dataclasses.dataclass
class Ran:
    lines: list
    # For each call that waits for a turn which the schedule does not have: its thread and its function.
    extra: list
    status: int
    is_late: bool
    seconds: float

    def at(self):
        return "".join(f"; {who} is at a call that the schedule does not have: {name}" for who, name in self.extra)


def run(command, seconds):
    """What a program wrote, and how it ended. After the time it is asked where its threads are, and ended."""
    with subprocess.Popen(
        command, stdin=subprocess.DEVNULL, stdout=subprocess.PIPE, stderr=subprocess.DEVNULL, start_new_session=True
    ) as process:
        try:
            written, is_late = process.communicate(timeout=seconds)[0], False
        except subprocess.TimeoutExpired:
            written, is_late = ended(process), True
    return Ran(*separated(written.decode().splitlines()), process.returncode, is_late, seconds)


def separated(lines):
    """The events that a program wrote, and the thread and the name of each call that the schedule does not have."""
    extra = [re.fullmatch(r"(\d+)\.(\d+) (.*)", line.removeprefix(EXTRA)).groups() for line in lines if line.startswith(EXTRA)]
    named = [(f"thread {thread}{'' if process == '1' else f' of process {process}'}", name) for process, thread, name in extra]
    return [line for line in lines if not line.startswith(EXTRA)], named


def ended(process):
    for number in (signal.SIGTERM, signal.SIGKILL):
        os.killpg(process.pid, number)
        try:
            return process.communicate(timeout=1)[0]
        except subprocess.TimeoutExpired:
            pass
    return process.communicate()[0]


def fault_of(case, wanted, ran):
    """What differs from the report: the kind of event, and what, in words; or nothing."""
    for number, line in enumerate(wanted):
        found = ran.lines[number] if number < len(ran.lines) else None
        if found is None:
            how = f"no event for {ran.seconds:g} s" if ran.is_late else f"ended with {ran.status}"
            return kind_of(line), f"expected {line!r}: {how}{ran.at()}"
        if found != line:
            return kind_of(line), f"expected {line!r}, written {found!r}"
    if len(ran.lines) > len(wanted):
        line = ran.lines[len(wanted)]
        return kind_of(line), f"expected no more events, written {line!r}"
    if case.verdict != "verdict complete":
        return None
    events = [event for step in case.steps if step.process == 1 for event in step.events]
    ends = [event for event in events if event.startswith("process_end")]
    if ran.is_late:
        return "process_end", ran.at().removeprefix("; ") or "the program does not end"
    if ends and ran.status != int(ends[0].split()[1]):
        return "process_end", f"expected {ends[0]!r}, ended with {ran.status}"


def kind_of(line):
    return conformance.kind_of(line.encode())


@dataclasses.dataclass
class Program:
    """The C program of a vector, or why there is none."""
    case: Case
    why_not: str
    text: str = ""
    wanted: list = dataclasses.field(default_factory=list)

    def build(self, options, folder):
        """Builds the program; gives its path, and the compiler's first error or nothing."""
        source, program = folder / f"{self.case.folder.name}.c", folder / self.case.folder.name
        source.write_text(self.text)
        command = [*options.cc, *OPTIONS, "-o", program, source, *options.libs]
        built = subprocess.run(command, stdout=subprocess.PIPE, stderr=subprocess.STDOUT, text=True, errors="replace")
        lines = [line for line in built.stdout.splitlines() if line]
        errors = [line for line in lines if re.search("error|undefined|cannot", line)] or lines or ["no word from the compiler"]
        return program, errors[0] if built.returncode else None

    def result(self, options, folder):
        """Whether the vector passed, was followed up to a stop, failed or is not comparable; the kind, and why."""
        if self.why_not:
            return NOT_COMPARABLE, "", self.why_not
        program, error = self.build(options, folder)
        if error:
            return FAILED, "build", f"the program cannot be built: {error}"
        fault = fault_of(self.case, self.wanted, run([*options.run, program], options.timeout))
        program.unlink()
        return (FAILED, *fault) if fault else (FOLLOWED if self.case.is_stopped() else PASSED, "", "")


def program_for(case):
    why = no_program(case.script, case.steps, case.verdict) or not_forced(case.script, case.steps)
    if why:
        return Program(case, why)
    text, wanted = program_of(case.script, case.steps, case.verdict)
    return Program(case, "" if wanted else "it has no event that a program can see", text, wanted)


# ---- the command line

PASSED, FOLLOWED, FAILED, NOT_COMPARABLE = "passed", "followed up to the stop", "failed", "not comparable"


def options_of(words):
    layout = argparse.RawDescriptionHelpFormatter
    parser = argparse.ArgumentParser(
        usage=argparse.SUPPRESS, description=__doc__, formatter_class=layout, allow_abbrev=False)
    parser.add_argument("--cc", type=shlex.split, default=["cc"], help=argparse.SUPPRESS)
    parser.add_argument("--libs", type=shlex.split, default=[], help=argparse.SUPPRESS)
    parser.add_argument("--run", type=shlex.split, default=[], help=argparse.SUPPRESS)
    parser.add_argument("--expect", type=pathlib.Path, help=argparse.SUPPRESS)
    parser.add_argument("--keep", type=pathlib.Path, help=argparse.SUPPRESS)
    conformance.add_choice(parser)
    conformance.add_limits(parser, SECONDS, JOBS)
    options = parser.parse_args(words)
    for command in (options.cc, options.run or options.cc):
        if not command or not shutil.which(command[0]):
            conformance.misused(f"{' '.join(command[:1]) or 'an empty word'} is not in the PATH")
    return options


def expected_failures(options):
    """The names in the file of --expect."""
    if not options.expect:
        return set()
    try:
        lines = options.expect.read_text().splitlines()
    except OSError as error:
        conformance.misused(f"{options.expect} cannot be read: {error.strerror}")
    names = {line.partition("#")[0].strip() for line in lines} - {""}
    top = options.folder or conformance.TOP
    unknown = sorted(name for name in names if not (top / name / "script.pct").is_file())
    if unknown:
        conformance.misused(f"{options.expect} names no vector: {', '.join(unknown)}")
    return names


def show(case, result, why, is_expected):
    name = case.folder.name
    if result == FAILED and is_expected:
        print(f"{name}: failed, as expected: {why}")
    elif result == FAILED:
        print(f"{name}: failed: {why}", *(f"    {field}: {text}" for field, text in case.folder.about()), sep="\n")
    elif is_expected:
        print(f"{name}: {result}{f': {why}' if why else ''}, and was expected to fail")
    elif why:
        print(f"{name}: {result}: {why}")
    sys.stdout.flush()


def run_all(options, folder):
    """Runs the vectors, and gives the count of each result, and how many failed unexpectedly."""
    expected = expected_failures(options)
    programs = [program_for(case) for case in cases(options)]
    first = next((program for program in programs if not program.why_not), None)
    error = first.build(options, folder)[1] if first else None
    if error:
        conformance.misused(f"{first.case.folder.name}: the program cannot be built, and no other one is tried: {error}")
    counts, kinds, wrong = dict.fromkeys((PASSED, FOLLOWED, FAILED, NOT_COMPARABLE), 0), [], 0
    results = conformance.in_order(options.jobs, lambda program: program.result(options, folder), programs)
    for program, (result, kind, why) in zip(programs, results):
        is_expected = program.case.folder.name in expected
        show(program.case, result, why, is_expected)
        counts[result] += 1
        kinds += [kind] if result == FAILED else []
        wrong += result == FAILED and not is_expected
    print(*conformance.counted_kinds(kinds), sep="\n", end="\n" if kinds else "")
    return counts, wrong


def main():
    options = options_of(sys.argv[1:])
    with tempfile.TemporaryDirectory() as name:
        folder = options.keep or pathlib.Path(name)
        folder.mkdir(parents=True, exist_ok=True)
        counts, wrong = run_all(options, folder)
    print(", ".join(f"{count} {result}" for result, count in counts.items()))
    sys.exit(1 if wrong or not counts[PASSED] + counts[FOLLOWED] else 0)


if __name__ == "__main__":
    conformance.with_reader(main)
