"""What `judge` has to say of the events of a report, by eleven laws: the first event that each law does not allow. The laws are written from
the sentences of the standard, of docs/FORMATS.md (Audit) and of docs/POSIX.md (The laws of audit), and share no code with the definitions in
crates/pct_laws/specs. Those that laws.py has, too, are in event_laws.py.

A law is a function over the list of the events, oldest first, and the limits of the report. It gives the place of each event that it
refuses, and why, in order; what it gives after the first place is of no use, since a law asks what may come after events that keep it.
"""
import collections
import dataclasses
import functools
import heapq
import re

import event_laws
from event_laws import is_own
from events import Event

CANCELED = "4294967295"
ETIMEDOUT = "4"


@dataclasses.dataclass(frozen=True)
class Limits:
    """The numbers PASSES and SLOTS of the schedule of a report."""
    passes: int
    slots: int


# ---- handlers and destructors


class Life:
    """What the events of a thread say of its handlers, its destructors and its end: its open handlers, each with its function and its
    argument; how many handlers that were open as it began to end have not run; the value with which it has to end, once it begins to; and
    its passes over destructors."""

    def __init__(self):
        self.opened, self.left = [], 0
        self.value, self.has_ended = None, False
        self.current_pass, self.destroyed = 0, set()

    @property
    def begun(self):
        return self.value is not None

    def take(self, words):
        if words[0] == "push":
            self.opened.append(words[1:3])
        elif words[0] in ("pop", "handler"):
            self.opened = self.opened[:-1]
            self.left -= words[0] == "handler" and self.left > 0
        elif words[0] == "ending":
            self.value, self.left = words[2] if words[1] == "exit" else CANCELED, len(self.opened)
        elif words[0] == "ended":
            self.has_ended = True
        elif words[0] == "pass":
            self.current_pass, self.destroyed = self.current_pass + 1, set()
        elif words[0] == "dtor":
            self.destroyed.add(words[2])


def wrong_removal(words, life):
    """XSH pthread_cleanup_pop, pthread_exit, 2.9.5.3: handlers are removed the newest first, by a pop or as the thread ends. A thread that
    begins to end calls each that is pushed; one that a handler pushes is popped in this handler."""
    if life.opened[-1:] != [words[1:3]]:
        return "it is not the newest open handler of the thread"
    if words[0] == "pop" and life.begun and len(life.opened) <= life.left:
        return "a pop of a handler that was open as the thread began to end"
    if words[0] == "handler" and not life.begun:
        return "a handler runs, and the thread has not begun to end"
    if words[0] == "handler" and len(life.opened) != life.left:
        return "a handler runs, and one is open that was pushed after the thread began to end"
    return None


def wrong_end(words, life):
    """XSH pthread_exit, 2.9.5.3: a thread begins to end once, and ends once, after all its handlers, with the value of pthread_exit or with
    PTHREAD_CANCELED."""
    if words[0] == "ending":
        return "a thread begins to end again" if life.begun else None
    if not life.begun or life.has_ended or life.opened:
        return "a thread ends that did not begin to, or has ended, or has an open handler"
    return "a thread ends with another value" if words[1] != life.value else None


def wrong_destructor(words, life, limits):
    """XSH pthread_key_create, 2.9.5.3: the destructors come after the handlers, in one pass after the other, in each at most once for a key.
    Values are left only after the last pass."""
    if words[0] == "leftover":
        return "no values are left, or passes are" if words[1] == "0" or life.current_pass != limits.passes else None
    if life.opened:
        return "a pass or a destructor, with an open handler"
    if words[0] == "pass":
        is_next = life.begun and words[1] == str(life.current_pass + 1) and life.current_pass < limits.passes
        return None if is_next else "it is not the next pass of a thread that ends"
    if words[1] == "0" or words[1] != str(life.current_pass):
        return "a destructor of another pass than the current one"
    return "a second destructor of a key in a pass" if words[2] in life.destroyed else None


def once(events, limits):
    """XSH pthread_cleanup_push, pthread_exit, pthread_key_create, 2.9.5.3: handlers and destructors, and the one end of a thread. The replica
    that a fork makes begins with the open handlers of the thread that forked."""
    lives = collections.defaultdict(Life)
    for place, event in enumerate(events):
        life = lives[event.pid, event.tid]
        why = None
        if event.word in ("pop", "handler"):
            why = wrong_removal(event.words, life)
        elif event.word in ("ending", "ended"):
            why = wrong_end(event.words, life)
        elif event.word in ("pass", "dtor", "leftover"):
            why = wrong_destructor(event.words, life, limits)
        if why:
            yield place, why
        life.take(event.words)
        if event.word == "fork":
            lives[event.number(1), event.tid].opened = list(life.opened)


# ---- threads and their ids


class Threads:
    """The threads of all processes, each as the numbers of its process and its own: which are known, have ended and with which value, were
    joined, are detached, and the newest event of each."""

    def __init__(self):
        self.known, self.values, self.joined, self.detached, self.newest = {(1, 1)}, {}, set(), set(), {}

    def take(self, event):
        pid, thread = event.pid, (event.pid, event.tid)
        if event.word == "create":
            self.known.add((pid, event.number(1)))
        if event.word == "fork":
            replica = (event.number(1), event.tid)
            self.known.add(replica)
            self.detached |= {replica} if thread in self.detached else set()
        if event.word == "detach" or event.words[0::2] == ("create", "detached"):
            self.detached.add((pid, event.number(1)))
        if event.word == "joined":
            self.joined.add((pid, event.number(1)))
        if event.word == "ended":
            self.values[thread] = event.words[1]
        self.newest[thread] = event.words

    def is_over(self, thread):
        """XSH 2.9.2: the lifetime of the id of a thread ends as the thread has terminated and was joined or is detached."""
        return thread in self.values and (thread in self.joined or thread in self.detached)


def slot(events, limits):
    """XSH 2.9.2, pthread_create: the id of a new thread is that of no thread whose lifetime goes on. That no id is given twice in a process,
    and that each thread has a slot, which no other one has as long as its lifetime goes on, is a choice of this host."""
    threads = Threads()
    for place, event in enumerate(events):
        if event.word == "create":
            new = event.number(1)
            beside = [(pid, tid) for pid, tid in threads.known if pid == event.pid and (tid - new) % limits.slots == 0]
            if (event.pid, new) in threads.known:
                yield place, "the id of the new thread is that of another one"
            elif not all(map(threads.is_over, beside)):
                yield place, "the slot of the new thread is that of another one, whose lifetime goes on"
        threads.take(event)


def join(events, limits):
    """XSH pthread_join, pthread_detach, pthread_cancel, 2.9.2: a join gives the value of a thread that has terminated, and was neither joined
    nor detached. No request and no detach names a thread after its lifetime. That none names a thread that there never was, and that a join
    is a call and a return, is a choice of this host."""
    threads = Threads()
    for place, event in enumerate(events):
        if event.word in ("joined", "request", "detach"):
            named = (event.pid, event.number(1))
        if event.word == "joined":
            if threads.values.get(named) != event.words[2]:
                yield place, "a join of a thread that has not ended, or ended with another value"
            if named in threads.joined or named in threads.detached:
                yield place, "a join of a thread that was joined, or is detached"
            if threads.newest.get((event.pid, event.tid)) != ("call", "pthread_join"):
                yield place, "a join returns that was not called"
        if event.word in ("request", "detach") and (named not in threads.known or threads.is_over(named)):
            yield place, "a request or a detach of a thread that is not known, or whose lifetime is over"
        threads.take(event)


# ---- mutexes and condition waits

WAITS = ("pthread_cond_wait", "pthread_cond_timedwait")


def ways_out(function, mutex, cond):
    """The events of a thread in a condition wait that released its mutex, in each way in which it can go on; `cond` is the condition variable.
    A word None is any word."""
    acquire, cancel, ending = ("acquire", mutex), ("cancel_wait", cond), ("ending", "canceled", cond, mutex)
    yield [acquire, ("done", function)]
    yield [cancel, acquire, ending]
    yield [cancel, ("handon", cond, None), acquire, ending]
    if function == "pthread_cond_timedwait":
        yield [("expire", cond), acquire, ("answer", function, ETIMEDOUT)]
        yield [("expire", cond), cancel, acquire, ending]


def is_like(words, pattern):
    return len(words) == len(pattern) and all(word == wanted or wanted is None for word, wanted in zip(words, pattern))


def is_way(events, function, mutex):
    """These words of events are the beginning of a way out of a condition wait. Its condition variable is that of the first event that names
    one."""
    cond = next((words[1] for words in events if words[0] in ("cancel_wait", "expire")), None)
    return any(len(events) <= len(way) and all(map(is_like, events, way)) for way in ways_out(function, mutex, cond))


class Wait:
    """The newest condition wait of a thread: its function, its mutex once that is released, and the words of its events since then."""

    def __init__(self, function):
        self.function, self.mutex, self.since = function, None, []

    def is_complete(self):
        return self.since[-1:] != [] and self.since[-1][0] in ("done", "answer", "ending")


def waits_after(event, waits):
    """Takes an event into the waits of the threads."""
    thread = (event.pid, event.tid)
    wait = waits.get(thread)
    if event.word == "call":
        waits[thread] = Wait(event.words[1]) if event.words[1] in WAITS else None
    elif wait and wait.mutex is None:
        wait.mutex = event.words[1] if event.word == "release" else None
        waits[thread] = wait if event.word == "release" else None
    elif wait:
        wait.since.append(event.words)
        waits[thread] = None if wait.is_complete() else wait


def cond(events, limits):
    """XSH pthread_mutex_lock, pthread_mutex_unlock: a mutex is locked while no thread owns it, and unlocked by its owner. XSH
    pthread_cond_wait, pthread_cond_timedwait, 2.9.5.2: a wait ends with its mutex owned again, also if its time expired, or if the thread is
    canceled, before its first handler. That the events of a wait come in one order, and that a signal is handed on in the event after
    that of the act on a request, are choices of this host. A child has the mutexes of its parent, with their owners."""
    owners, waits = collections.defaultdict(dict), {}
    for place, event in enumerate(events):
        own = owners[event.pid]
        if event.word == "acquire" and event.words[1] in own:
            yield place, "a mutex is acquired that has an owner"
        if event.word == "release" and own.get(event.words[1]) != event.tid:
            yield place, "a mutex is released by a thread that does not own it"
        wait = waits.get((event.pid, event.tid))
        if wait and wait.mutex and not is_way([*wait.since, event.words], wait.function, wait.mutex):
            yield place, "it does not come next in the condition wait of the thread"
        before = events[place - 1] if place else None
        is_directly_after = before is not None and is_own(before, event.pid, event.tid) and before.words == ("cancel_wait", event.words[1])
        if event.word == "handon" and not is_directly_after:
            yield place, "a signal is handed on, and the thread has not just acted on a request in a wait for it"
        waits_after(event, waits)
        if event.word == "acquire":
            own[event.words[1]] = event.tid
        if event.word == "release":
            own.pop(event.words[1], None)
        if event.word == "fork":
            owners[event.number(1)] = dict(own)


# ---- requests


def wait_so_far(past):
    """If the newest call of a thread is that of a condition wait: whether it has a time, and the text of the events since then."""
    calls = [place for place, words in enumerate(past) if words[0] == "call"]
    if not calls or past[calls[-1]][1] not in WAITS:
        return False, ""
    return past[calls[-1]] == ("call", "pthread_cond_timedwait"), "".join(" ".join(words) + "\n" for words in past[calls[-1] + 1:])


def returns_in_turn(event, past):
    """XSH 2.9.5.2, pthread_cond_wait, sem_wait: a thread returns only from a function that it called, and from a condition wait, or ends in
    it, only at its end. `past` are the words of the earlier events of the thread."""
    words, newest = event.words, past[-1] if past else None
    is_timed, so_far = wait_so_far(past)
    if words[:2] == ("ending", "canceled") and len(words) == 4:
        cond, mutex = map(re.escape, words[2:])
        ways = rf"cancel_wait {cond}\n(handon {cond} .*\n)?" + (rf"|expire {cond}\ncancel_wait .*\n" if is_timed else "")
        return re.fullmatch(rf"release {mutex}\n({ways})acquire .*\n", so_far) is not None
    if words[0] == "done" and words[1] in WAITS:
        return re.fullmatch(r"release .*\nacquire .*\n", so_far) is not None
    if words[:2] == ("answer", "pthread_cond_timedwait"):
        return is_timed and re.fullmatch(r"release .*\nexpire .*\nacquire .*\n", so_far) is not None
    if words[0] == "expire":
        return is_timed and re.fullmatch(r"release .*\n", so_far) is not None
    if words[0] == "cancel_wait":
        return re.fullmatch(r"release .*\n(expire .*\n)?" if is_timed else r"release .*\n", so_far) is not None
    if words[0] == "done":
        return words[1] not in event_laws.OWN_RETURN and (words[1] in (*event_laws.OPTIONAL_POINTS, "pthread_testcancel") or newest == ("call", words[1]))
    if words[0] == "take":
        return newest in (("call", "sem_wait"), ("call", "sem_timedwait"))
    if words[:2] == ("answer", "sem_timedwait"):
        return newest == ("call", "sem_timedwait")
    return words[0] != "reap" or newest == ("call", "waitpid")


def leaves_points(events):
    """XSH 2.9.5.2: a thread leaves a cancellation point only after it called it."""
    pasts = collections.defaultdict(list)
    for place, event in enumerate(events):
        past = pasts[event.pid, event.tid]
        if not returns_in_turn(event, past):
            yield place, "a thread returns from a point that it did not call, or leaves a wait that it is not in"
        past.append(event.words)


def requests(events, limits):
    """XSH 2.9.5.1, 2.9.5.2, 2.9.5.3, pthread_cancel: requests, what acts on them, and returns from cancellation points."""
    yield from heapq.merge(leaves_points(events), event_laws.acts(events))


# ---- all laws


def of_events(law):
    """A law of event_laws.py, which asks for no limits."""
    return lambda events, limits: law(events)


# The laws, in the order of their lines.
LAWS = {
    "once": once, "ran_all": of_events(event_laws.ran_all), "after_end": of_events(event_laws.follows_end),
    "process": of_events(event_laws.process_law), "slot": slot, "join": join, "cond": cond, "call_once": of_events(event_laws.once_law),
    "requests": requests, "keys": of_events(event_laws.calls), "leftover": of_events(event_laws.ends_with_leftovers),
}
# The laws of `audit`, in their order.
AUDITED = ("once", "slot", "join", "cond", "call_once")


@functools.lru_cache(maxsize=100_000)
def event_in(line):
    """The event of a line that is one."""
    thread, *words = line.split(" ")
    pid, tid = thread.split(".")
    return Event(int(pid), int(tid), tuple(words))


def first_refused(lines, limits):
    """For each law the number of the first event line that it does not allow, from 1, or None."""
    events = [event_in(line) for line in lines]
    first = {name: next(law(events, limits), None) for name, law in LAWS.items()}
    return {name: place and place[0] + 1 for name, place in first.items()}


def judged(lines, found):
    """The answer of `judge`: its status, and its text. `found` is what first_refused gives of the lines."""
    text = "".join(f"{law} event {number} {lines[number - 1]}\n" if number else f"{law} kept\n" for law, number in found.items())
    return 12 if any(found.values()) else 0, text.encode()


def audited(lines, found):
    """The answer of `audit`."""
    number, _, law = min(((found[law], order, law) for order, law in enumerate(AUDITED) if found[law]), default=(None, None, None))
    return (12, f"audit event {number} {law}\n".encode()) if number else (0, f"audit ok {len(lines)}\n".encode())
