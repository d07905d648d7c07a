"""Seven laws of the events of a report: each is a function over the list of the events, oldest first, and gives the place of each event
that it refuses, and why. They are written from the sentences of the standard, and share no code with the definitions of the same names
in crates/pct_laws/specs. Some are put together of parts, of which judged.py takes those that are laws of `judge`.
"""


# ---- what came before an event


def is_own(event, pid, tid):
    return event.pid == pid and event.tid == tid


def the_fork(events, pid, end, tid=None):
    """The place of the newest event before one that makes a process, if a number is given by a thread of this number."""
    for place in range(end - 1, -1, -1):
        event = events[place]
        if event.word == "fork" and event.number(1) == pid and event.pid != pid and tid in (None, event.tid):
            return place
    return None


def history(events, pid, tid, end):
    """The events of a thread before a place; for the replica that a fork made, those since the fork, after those of the thread that
    forked."""
    fork = the_fork(events, pid, end, tid)
    inherited = history(events, events[fork].pid, tid, fork) if fork is not None else []
    return inherited + [event for event in events[fork or 0:end] if is_own(event, pid, tid)]


def process_history(events, pid, end):
    """The events of a process before a place, since the fork that made it, after those of its parent before that."""
    fork = the_fork(events, pid, end)
    inherited = process_history(events, events[fork].pid, fork) if fork is not None else []
    return inherited + [event for event in events[fork or 0:end] if event.pid == pid]


def had(events, pid, tid, end, *words):
    """The thread itself had an event with one of these words before a place."""
    return any(is_own(event, pid, tid) and event.word in words for event in events[:end])


def is_known(events, pid, tid, end):
    """The thread is the first one, was created in its process, or is the replica that a fork made."""
    if (pid, tid) == (1, 1):
        return True
    for event in events[:end]:
        if event.pid == pid and event.word == "create" and event.number(1) == tid:
            return True
        if event.tid == tid and event.word == "fork" and event.number(1) == pid:
            return True
    return False


# ---- the laws: each gives the place of each event that it refuses, and why


def open_handlers(past):
    """The handlers that were pushed and neither popped nor run, oldest first."""
    opened = []
    for event in past:
        if event.word == "push":
            opened.append(event.words[1:3])
        elif event.word in ("pop", "handler") and opened:
            opened.pop()
    return opened


def ran_all(events):
    """XSH pthread_exit, 2.9.5.3, pthread_cleanup_push: all handlers that are pushed when a thread begins to end are called,
    the last one first, before the thread ends."""
    for place, event in enumerate(events):
        if event.word != "ended":
            continue
        own = [at for at, other in enumerate(events[:place]) if is_own(other, event.pid, event.tid)]
        begins = [at for at in own if events[at].word == "ending"]
        if not begins:
            yield place, "a thread that ended did not begin to end"
            continue
        opened = open_handlers(history(events, event.pid, event.tid, begins[0]))
        ran = [events[at].words[1:3] for at in own if events[at].word == "handler"]
        if ran != opened[::-1]:
            yield place, "the handlers that ran are not those that were open as the thread began to end, the newest first"


# What a thread does while it exits its process: its exit functions emit, and use mutexes.
OF_AN_EXIT = ("emit", "at_exit", "acquire", "release", "process_end", "undefined", "profile")

# What a thread does as it runs and as it ends, and no more when it has ended or exits its process.
OF_A_LIFE = ("push", "pop", "handler", "pass", "dtor", "leftover", "ended", "ending")


def others_alive(events, pid, end, ended):
    """A thread of the process is known before a place and has not ended."""
    known = {1} if pid == 1 else set()
    for event in events[:end]:
        if event.word == "create" and event.pid == pid:
            known.add(event.number(1))
        if event.word == "fork" and event.number(1) == pid:
            known.add(event.tid)
    return any((pid, tid) not in ended for tid in known)


def follows_end(events):
    """XSH pthread_exit, exit: a thread that has ended does nothing more, but that the last one of a process exits it with 0. A
    thread that exits its process calls neither handlers nor destructors, and no more than its exit functions do, which are
    plain by a choice of this host."""
    newest = {}
    ended, exits = set(), set()
    for place, event in enumerate(events):
        thread = (event.pid, event.tid)
        if thread in ended and event.word in OF_A_LIFE:
            yield place, "an event of the life of a thread that has ended"
        elif thread in exits and event.word in OF_A_LIFE:
            yield place, "an event of the life of a thread that exits its process"
        elif thread in exits and event.word not in OF_AN_EXIT:
            yield place, "an event that no exit makes, of a thread that exits its process"
        elif thread in ended and thread not in exits and (event.words != ("exit", "0") or newest[thread] != "ended"):
            yield place, "a thread that has ended goes on, and does not exit its process"
        elif thread in ended and thread not in exits and others_alive(events, event.pid, place, ended):
            yield place, "a thread that has ended exits its process, and another one has not ended"
        if event.word == "ended":
            ended.add(thread)
        if event.word == "exit":
            exits.add(thread)
        newest[thread] = event.word


def last_exits(events):
    """XSH pthread_exit: the last thread of a process that ends exits it with 0. That this is in the step of its end is a choice of this
    host."""
    ended = set()
    for place, event in enumerate(events):
        if event.word != "ended":
            continue
        ended.add((event.pid, event.tid))
        following = events[place + 1] if place + 1 < len(events) else None
        goes_on = following is not None and is_own(following, event.pid, event.tid) and following.words == ("exit", "0")
        if not goes_on and not others_alive(events, event.pid, place + 1, ended):
            yield place, "the last thread of a process ends, and does not exit it"


def after_end(events):
    """XSH pthread_exit, exit: what follows the end of a thread, and that the last one exits its process."""
    yield from follows_end(events)
    yield from last_exits(events)


def calls(events):
    """XSH pthread_key_create, pthread_key_delete: a destructor is called with a value that is not NULL, and for a key that
    was made and not deleted. A child has the keys of its parent."""
    for place, event in enumerate(events):
        if event.word != "dtor":
            continue
        key = event.words[2]
        made = [other.word for other in process_history(events, event.pid, place) if other.word in ("key", "key_delete") and other.words[1] == key]
        if not made or made[-1] != "key":
            yield place, "a destructor of a key that was not made, or was deleted since"
        if event.words[4] == "0":
            yield place, "a destructor is called with 0"


def ends_without_handlers(events):
    """XSH pthread_exit, 2.9.5.3: a thread ends when its handlers were called."""
    for place, event in enumerate(events):
        if event.word == "ended" and open_handlers(history(events, event.pid, event.tid, place)):
            yield place, "a thread ends with a handler"


def leaves_after_passes(events):
    """XSH pthread_key_create: values with destructors are left only after the passes over them."""
    for place, event in enumerate(events):
        if event.word == "leftover" and event.words[1] == "0":
            yield place, "0 values are left"
        if event.word == "leftover" and not had(events, event.pid, event.tid, place, "pass"):
            yield place, "values are left without a pass"


def ends_with_leftovers(events):
    """XSH pthread_key_create: values with destructors that are left are counted as the thread ends."""
    for place, event in enumerate(events):
        following = events[place + 1] if place + 1 < len(events) else None
        goes_on = following is None or not is_own(following, event.pid, event.tid) or following.word != "ended"
        if event.word == "leftover" and goes_on:
            yield place, "values are left, and the thread does not end"


def ends(events):
    """XSH pthread_exit, 2.9.5.3, pthread_key_create: a thread ends when its handlers were called, and then its destructors.
    Values with destructors that are left are counted as it ends."""
    yield from ends_without_handlers(events)
    yield from ends_with_leftovers(events)
    yield from leaves_after_passes(events)


def is_requested(events, pid, tid, end):
    """A request for the thread came in its process. That the child of a fork begins without one is a choice of this host."""
    return any(event.pid == pid and event.word == "request" and event.number(1) == tid for event in events[:end])


def is_enabled(events, pid, tid, end):
    """XSH pthread_setcancelstate, 2.9.5.3: cancelability is enabled at first, as the newest call set it later, and disabled
    for good as the thread begins to end. That it is disabled as the thread exits its process is a choice of this host."""
    states = [event.words[1] for event in history(events, pid, tid, end) if event.word == "state"]
    return (not states or states[-1] == "enable") and not had(events, pid, tid, end, "ending", "exit")


# Functions that may be cancellation points and need not be: they return in the step of their call.
OPTIONAL_POINTS = ("fclose", "fflush", "fgets", "fopen", "fprintf", "fputs", "printf", "puts", "opendir", "closedir", "readdir")

# Functions that return by an event of their own, `joined`, `take`, `answer sem_timedwait 4`, `reap` or `answer waitpid 3`.
OWN_RETURN = ("pthread_join", "sem_wait", "sem_timedwait", "waitpid")

TIMED = ("call", "pthread_cond_timedwait")
WAITS = (("call", "pthread_cond_wait"), TIMED)
SEM_WAITS = ("sem_wait", "sem_timedwait")


def returns(event, past):
    """XSH 2.9.5.2, pthread_cond_wait, pthread_cond_timedwait, sem_timedwait: a function that shall be a cancellation point returns
    only in a thread that called it, and a condition wait goes on by its stages. `past` are the words of the earlier events of the
    thread, oldest first."""
    if event.word == "done" and event.words[1] in OWN_RETURN:
        return False
    point = event.words[1] if event.word == "done" else "waitpid" if event.word == "reap" else None
    if ("call", point) in WAITS:
        return is_wait(past[:-1], ("call", point)) and past[-1:] == [("acquire", past[-2][1])]
    if point is not None and point not in OPTIONAL_POINTS and point != "pthread_testcancel":
        return past[-1:] == [("call", point)]
    if event.word == "take":
        return any(past[-1:] == [("call", name)] for name in SEM_WAITS)
    if event.words[:2] == ("answer", "sem_timedwait"):
        return past[-1:] == [("call", "sem_timedwait")]
    if event.words[:2] == ("answer", "pthread_cond_timedwait"):
        return has_expired(past[:-1]) and past[-1:] == [("acquire", past[-3][1])]
    if event.word == "expire":
        return is_wait(past, TIMED)
    if event.word == "cancel_wait":
        return is_wait(past, *WAITS) or has_expired(past) and past[-1] == ("expire", event.words[1])
    if event.word == "handon":
        return past[-1:] == [("cancel_wait", event.words[1])] and not has_expired(past[:-1])
    if event.words[:2] == ("ending", "canceled") and len(event.words) == 4:
        return ends_wait(past, *event.words[2:])
    return True


def is_wait(past, *calls):
    """The newest events are one of these calls, and the release of a mutex."""
    return len(past) > 1 and past[-2] in calls and past[-1][0] == "release"


def has_expired(past):
    """The newest event is that the time of a wait expired."""
    return past[-1:] != [] and past[-1][0] == "expire" and is_wait(past[:-1], TIMED)


def ends_wait(past, cond, mutex):
    """The newest events are those of a wait on the condition variable that a request ended: its mutex was released and is owned
    again. Its time may have expired before the act, or a signal may have been handed on in the step of the act."""
    if past[-1:] != [("acquire", mutex)]:
        return False
    past = past[:-2] if past[-2:-1] and past[-2][0] == "handon" else past[:-1]
    if past[-1:] != [("cancel_wait", cond)]:
        return False
    past = past[:-2] if has_expired(past[:-1]) else past[:-1]
    return is_wait(past, *WAITS) and past[-1] == ("release", mutex)


def unblocked_by(events, pid, tid, end):
    """The condition variables whose signals unblocked a thread after its newest own event before a place."""
    for event in reversed(events[:end]):
        if is_own(event, pid, tid):
            return
        if event.pid == pid and event.word in ("signal", "handon") and event.number(2) == tid:
            yield event.words[1]


def own_past(events, place):
    """The words of the earlier events of the thread of an event, oldest first."""
    return [other.words for other in events[:place] if is_own(other, events[place].pid, events[place].tid)]


def leaves_points(events):
    """XSH 2.9.5.2, pthread_cond_wait: a thread returns from a cancellation point that it called, and a wait ends with the mutex that it
    released."""
    for place, event in enumerate(events):
        if not returns(event, own_past(events, place)):
            yield place, "a thread returns from a point that it did not call, or leaves a wait that it is not in"


def keeps_signals(events):
    """XSH pthread_cond_signal: a signal unblocks a thread that waits on its condition variable, before its time expires."""
    for place, event in enumerate(events):
        if event.word == "cancel_wait" and any(cond != event.words[1] for cond in unblocked_by(events, event.pid, event.tid, place)):
            yield place, "a thread leaves the wait on another condition variable than that whose signal unblocked it"
        if event.word == "expire" and any(unblocked_by(events, event.pid, event.tid, place)):
            yield place, "the time of a wait expires after a signal unblocked the thread"


def acts(events):
    """XSH 2.9.5.1, 2.9.5.2, 2.9.5.3: a thread acts on a request that came, and only with cancelability enabled. With cancelability
    enabled and a request pending, a call of a function that shall be a cancellation point acts on it. A thread that has begun to
    end does not enable cancelability."""
    for place, event in enumerate(events):
        if event.words == ("state", "enable") and had(events, event.pid, event.tid, place, "ending", "exit"):
            yield place, "a thread that has begun to end, or to exit its process, enables cancelability"
        is_act = event.words[:2] == ("ending", "canceled") or event.word == "cancel_wait"
        # A call of waitpid for no child returns in its step, and makes no event `call`.
        no_child = event.words[:2] == ("answer", "waitpid")
        point = event.word == "call" or event.words == ("done", "pthread_testcancel")
        if not is_act and not point and not no_child:
            continue
        requested = is_requested(events, event.pid, event.tid, place)
        enabled = is_enabled(events, event.pid, event.tid, place)
        if is_act and not requested:
            yield place, "a thread is canceled without a request"
        if is_act and not enabled:
            yield place, "a thread is canceled with cancelability disabled, or after it began to end or to exit"
        if point and requested and enabled:
            yield place, "a thread calls a cancellation point with a request pending, and does not act on it"
        if no_child and requested and enabled and own_past(events, place)[-1:] != [("call", "waitpid")]:
            yield place, "waitpid is called with a request pending, and returns"


def cancel_law(events):
    """XSH 2.9.5.1, 2.9.5.2, 2.9.5.3, pthread_cond_wait, pthread_cond_signal: requests and what acts on them, and returns from cancellation
    points."""
    yield from leaves_points(events)
    yield from keeps_signals(events)
    yield from acts(events)


def process_law(events):
    """XSH exit, _exit, fork, pthread_join, waitpid: a process does nothing after its end; exit is called at most once in it,
    and ends it with the low 8 bits of its value; a process begins at the one fork that makes it, and a thread at its
    creation. A join returns in a thread that has not ended, for another thread that is known. waitpid gives the status of a
    child that has ended, once."""
    ended, exits, stopped = set(), {}, False
    for place, event in enumerate(events):
        if stopped:
            yield place, "an event after a stop"
        if event.pid in ended:
            yield place, "an event of a process that has ended"
        if not is_known(events, event.pid, event.tid, place):
            yield place, "an event of a thread that is not known"
        if event.word == "exit":
            if event.pid in exits:
                yield place, "exit begins twice in a process"
            exits.setdefault(event.pid, (event.tid, event.number(1)))
        if event.word == "process_end":
            tid, value = exits.get(event.pid, (None, None))
            if not 0 <= event.number(1) < 256 or tid == event.tid and event.number(1) != value % 256:
                yield place, "the status is not the exit value modulo 256"
            ended.add(event.pid)
        if event.word == "fork":
            child = event.number(1)
            if child == 1 or any(other.pid == child or other.word == "fork" and other.number(1) == child for other in events[:place]):
                yield place, "a fork makes a process that was made"
        if event.word == "joined":
            target = event.number(1)
            if target == event.tid or not is_known(events, event.pid, target, place):
                yield place, "a join of the thread itself, or of one that is not known"
            if had(events, event.pid, event.tid, place, "ended"):
                yield place, "a join by a thread that has ended"
        if event.word == "reap":
            child, past = event.number(1), events[:place]
            if not any(other.pid == event.pid and other.word == "fork" and other.number(1) == child for other in past):
                yield place, "waitpid gives the status of a process that is no child"
            if not any(other.pid == child and other.words == ("process_end", event.words[2]) for other in past):
                yield place, "waitpid gives another status than that of the end"
            if any(other.word == "reap" and other.number(1) == child for other in past):
                yield place, "a child is reaped twice"
        stopped = event.word in ("undefined", "profile")


def runner_of(control, past):
    """The thread that runs an init routine of a control after these events of its process, 0 if one has returned, or None if none has and
    no thread is in one. A thread that begins to end leaves the routine."""
    runner = None
    for event in past:
        if event.word == "once" and event.words[1] == control:
            runner = event.tid if event.words[2] == "call" else 0
        elif event.word == "ending" and event.tid == runner:
            runner = None
    return runner


def once_law(events):
    """XSH pthread_once: an init routine is called once, and again only if the thread that called it was canceled in it. It returns in the
    thread that called it. That pthread_exit in it does what a request does is a choice of this host. A child has the controls of its
    parent."""
    for place, event in enumerate(events):
        if event.word != "once":
            continue
        runner = runner_of(event.words[1], process_history(events, event.pid, place))
        if event.words[2] == "call" and runner is not None:
            yield place, "an init routine is called while a thread is in one of its control, or after one has returned"
        if event.words[2] == "done" and runner != event.tid:
            yield place, "an init routine returns in a thread that is in none of its control"


LAWS = {
    "RanAll": ran_all, "AfterEnd": after_end, "Calls": calls, "Ends": ends, "CancelLaw": cancel_law, "ProcessLaw": process_law,
    "OnceLaw": once_law,
}


def refused(law, events):
    """The first event that a law refuses, and why."""
    return min(LAWS[law](events), default=None)


def asleep(events):
    """XSH 2.9.5.2: a thread that is suspended in a cancellation point is awakened by a request. The threads that are suspended
    in one, with cancelability enabled and a request pending, at the end of a list: in a deadlock there are none."""
    newest, gone = {}, {event.pid for event in events if event.word == "process_end"}
    for event in events:
        before = newest.get((event.pid, event.tid), ((), ()))[1]
        newest[event.pid, event.tid] = (before, event.words)
    for (pid, tid), (before, last) in newest.items():
        waits = last[0] in ("call", "expire") or last[0] == "release" and before in WAITS
        if waits and pid not in gone and is_requested(events, pid, tid, len(events)) and is_enabled(events, pid, tid, len(events)):
            yield pid, tid
