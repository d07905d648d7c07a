"""Laws of a step, over the states before and after it. Each gives the sentences that the step breaks.

- Values: what pthread_setspecific sets, and which values stay.
- Results: what a call stores in the variables of the script, and which variables stay.
- Frames: which functions a thread is in, and at which statement.
- NewThreads: what a new thread and a new process begin with, and which handlers a fork calls.
- WakeUps: who is unblocked in a condition wait, and by what.
- Registrations: who owns mutexes, the counts of semaphores, the states of once controls, keys, and what is registered.
- Controls: what pthread_once shows, and the return of an init routine.
- OtherThreads: what a step leaves as it is in other threads and other processes.
"""
from script_text import NUMBER

CALLS = ("create", "key")
COND_WAITS = ("pthread_cond_wait", "pthread_cond_timedwait")
# The events by which a timed wait returns without an error, and the number of ETIMEDOUT.
RETURNS = {"sem_timedwait": "take", "pthread_cond_timedwait": "done"}
ETIMEDOUT = "4"


# ---- Values


def values(step):
    """XSH pthread_setspecific, pthread_key_create, pthread_key_delete."""
    own = dict(step.thread.values)
    sets = step.runs and step.words[0] == "pthread_setspecific"
    if sets:
        own[step.value(step.words[1])] = step.value(step.words[2])
    taken, deleted = step.event("dtor"), step.event("key_delete")
    if taken:
        own.pop(int(taken[2]), None)
    for tid, thread in step.process.threads.items():
        then = step.process_after.threads.get(tid) if step.process_after else None
        if then is None:
            continue
        wanted = own if tid == step.tid else thread.values
        wanted = {key: value for key, value in wanted.items() if value and not (deleted and key == int(deleted[1]))}
        if then.values == wanted:
            continue
        if deleted:
            yield "no thread of the process has a value of a key that was deleted, and no other value changes"
        elif tid != step.tid:
            yield "a step keeps the values of the other threads"
        elif sets:
            yield "the value of the key is that of the operand after pthread_setspecific, and no other value changes"
        elif taken:
            yield "the value of a key is NULL as its destructor is called, and no other value changes"
        else:
            yield "a step that is none of these keeps the values of its thread"


# ---- Results


def stored(step):
    """The results of the step: each DEST with its value, in the order in which they are stored."""
    words, event = step.words, step.events[0] if step.events else ("",)
    if step.acts or step.stops:
        return []
    if step.returns_from_fork:
        made = 0 if step.thread.status[1] == "child" else step.forked
        failed = made == 0 and step.thread.status[1] == "parent"
        return [(words[1], 1)] if failed else [(words[1], 0), (words[2], made)]
    if event[0] == "joined":
        return [(words[2], int(event[2]))]
    if event[0] == "reap":
        return [(words[1], 0), (words[3], int(event[2]))]
    answer = step.event("answer")
    if answer and answer[1] != "fork":
        return [(words[1], int(answer[2]))]
    if words[0] in RETURNS and step.event(RETURNS[words[0]]):
        return [(words[1], 0)]
    if not step.runs:
        return []
    if event[0] in CALLS:
        return [(words[1], 0), (words[2], int(event[1]))]
    if words[0] in ("atexit", "pthread_atfork"):
        return [(words[1], 0)]
    if words[0] == "pthread_setcancelstate":
        return [(words[2], 0 if step.thread.enabled else 1)]
    if words[0] == "pthread_setcanceltype":
        return [(words[2], 1 if step.thread.asynchronous else 0)]
    if words[0] == "pthread_self":
        return [(words[1], step.tid)]
    if words[0] == "pthread_getspecific":
        return [(words[1], step.thread.values.get(step.value(words[2]), 0))]
    if words[0] == "set":
        return [(words[1], step.value(words[2]))]
    return [(words[1], (step.value(words[1]) + step.value(words[2])) % NUMBER)] if words[0] == "add" else []


def results(step):
    """XSH pthread_create, pthread_join, fork, waitpid, sem_timedwait, pthread_getspecific and the others: the result of a call is stored."""
    if step.process_after is None:
        return
    shared = dict(step.process.variables)
    frames = [dict(variables) for _, variables in step.thread.frames]
    writes = stored(step)
    for dest, value in writes:
        if frames and dest in frames[0]:
            frames[0][dest] = value
        elif dest != "-":
            shared[dest] = value
    why = f"the DEST of {step.words[0]} holds its result after the step, and no other variable changes" if writes else "a step without a result keeps all variables"
    if step.process_after.variables != shared:
        yield why
    # The frames that are left, from the oldest one.
    left = 0 if step.then is None or step.drops_all else min(len(frames), len(step.then.frames))
    if left and [variables for _, variables in step.then.frames[-left:]] != frames[-left:]:
        yield why


# ---- Frames


def frames(step):
    """The script language; XSH pthread_cleanup_pop, pthread_exit, exit: what is called, and where the thread goes on."""
    if step.then is None:
        if step.event("ended") is None and step.event("process_end") is None:
            yield "a thread goes by its end, or with its process"
        return
    before = [function for function, _ in step.thread.frames]
    after = [function for function, _ in step.then.frames]
    called = None if step.stops else step.called
    if step.drops_all:
        if after or step.then.position is not None:
            yield "a thread that begins to end, or to exit, is in no function"
    elif step.returns:
        if after != before[1:] or step.then.position != (step.callers[0] if len(before) > 1 else None):
            yield "a return takes the frame of its function away, and the thread goes on where its caller is"
    elif called:
        function, argument = called
        if after != [function, *before] or step.then.position != (function, 0):
            yield "a call adds a frame of its function, at its first statement, and the frames below stay"
        names = step.script.functions[function].locals
        if after and step.then.frames[0][1] != {name: argument if name == names[0] else 0 for name in names}:
            yield "a new frame has the argument in its parameter, and 0 in its other locals"
    elif after != before:
        yield "a step that neither calls nor returns, ends or exits keeps the functions in which its thread is"
    elif step.stays or not before:
        if step.then.position != step.thread.position:
            yield "a thread that waits in a call, or stops, stays at its statement"
    elif step.then.position != step.follower:
        yield "a thread goes on with the next statement, or where its test leads"


# ---- NewThreads


def is_fresh(thread):
    return thread.status == ("running",) and thread.enabled and not thread.asynchronous and not thread.pending and not thread.handlers and not thread.values


def inherits(step, child):
    """XSH fork: what the child has of its parent, and of the thread that forks."""
    parent, thread = step.process, step.thread
    for name in ("variables", "owners", "counts", "onces", "keys", "exit_functions", "fork_handlers"):
        if getattr(child, name) != getattr(parent, name):
            yield f"a child has the {name} of its parent"
    if child.exiting is not None or child.restricted != (len(parent.threads) > 1):
        yield "exit has not begun in a child, and it is restricted if its parent had another thread that has not ended"
    if list(child.threads) != [step.tid]:
        yield "a child has one thread, the replica of the thread that forks"
        return
    replica = child.threads[step.tid]
    for name in ("position", "frames", "values", "detached", "enabled", "asynchronous", "handlers"):
        if getattr(replica, name) != getattr(thread, name):
            yield f"a replica has the {name} of the thread that forks"
    if replica.status != ("forking", "child") or replica.pending:
        yield "a replica is in fork, without a request"


def new_threads(step):
    """XSH pthread_create, fork, pthread_atfork."""
    created = step.event("create")
    if step.process_after is not None:
        new = set(step.process_after.threads) - set(step.process.threads)
        if new != ({int(created[1])} if created else set()):
            yield "a thread of a process is made by pthread_create alone, with the number of the event"
        elif created:
            thread, function = step.process_after.threads[int(created[1])], step.words[3]
            names = step.script.functions[function].locals
            argument = step.value(step.words[4])
            if thread.position != (function, 0) or thread.frames != ((function, {name: argument if name == names[0] else 0 for name in names}),):
                yield "a new thread is at the first statement of its function, with its argument"
            if not is_fresh(thread):
                yield "a new thread runs, is enabled and deferred, and has no request, no handlers and no values"
            if thread.detached != (len(step.words) > 5) or thread.detached != (created[2] == "detached"):
                yield "a new thread is detached as its pthread_create says"
    made = step.made_process
    if set(step.after) - set(step.before) != ({made} if made else set()):
        yield "a process is made by fork alone, with the number of the event"
    elif made:
        yield from inherits(step, step.after[made])
    if step.first in ("prepare", "parent", "child"):
        if step.due[:1] != [step.events[0][1]] or step.thread.status != ("forking", step.first):
            yield "a fork calls the handlers that were registered at its call, in their order, in their process"
    if (made is not None or step.returns_from_fork) and step.due:
        yield "a fork goes on as no handler is left to be called"


# ---- WakeUps


def unblocked(step):
    """The threads that the events of the step unblock, each with how, and the sentences that the events break."""
    waits = {tid: thread.status for tid, thread in step.process.threads.items() if thread.status[0] == "waiting"}
    woken, broken = {}, []
    for event in step.events:
        if event[0] not in ("signal", "handon", "broadcast"):
            continue
        there = {tid for tid, status in waits.items() if status[1] == event[1]}
        number = int(event[2])
        if event[0] == "broadcast":
            woken.update(dict.fromkeys(there, "broadcast"))
            if number != len(there):
                broken.append("a broadcast tells the number of the threads that wait")
        elif number:
            woken[number] = "signal"
            if number not in there:
                broken.append("a signal unblocks a thread that waits on its condition variable")
        elif there:
            broken.append("a signal unblocks nobody only if nobody waits")
    return woken, broken


def own_wait(step):
    """The status of the thread that makes the step, if it comes to a condition wait or is in one, and the sentence; or None."""
    status = step.thread.status
    if step.runs and step.words[0] in COND_WAITS:
        return ("waiting", *step.words[-2:]), "a thread that calls a condition wait waits on its operands"
    if status[0] in ("waiting", "unblocked") and step.acts:
        return ("unblocked", *status[1:3], "canceled"), "a thread that acts in a condition wait leaves it, and goes for its mutex"
    if has_expired(step):
        return ("unblocked", *status[1:3], "time"), "a thread whose time expires in a timed wait leaves it, and goes for its mutex"
    if status[0] == "unblocked":
        return ("ending",) if status[3] == "canceled" else ("running",), "a thread that was unblocked returns with its mutex, or begins to end"
    return None


def has_expired(step):
    """The step is that the time of a wait on a condition variable expires, and the wait has a time."""
    status = step.thread.status
    return status[0] == "waiting" and step.words[0] == "pthread_cond_timedwait" and ("expire", status[1]) in step.events


def time_outs(step):
    """XSH pthread_cond_timedwait, sem_timedwait."""
    status, answer = step.thread.status, step.event("answer")
    timed_out = answer is not None and answer[1] in RETURNS
    expired = status[0] == "unblocked" and status[3] == "time" and not step.acts
    if timed_out and answer[2] != ETIMEDOUT or status[0] == "unblocked" and timed_out != expired:
        yield "a condition wait gives ETIMEDOUT exactly if its time expired"
    if timed_out and answer[1] == "sem_timedwait" and (status[0] != "sem" or step.process.counts[status[1]] > 0):
        yield "sem_timedwait times out only while the count is 0"


def wake_ups(step):
    """XSH pthread_cond_wait, pthread_cond_timedwait, sem_timedwait, pthread_cond_signal, pthread_cond_broadcast."""
    if step.stops or step.process_after is None:
        return
    woken, broken = unblocked(step)
    yield from broken
    yield from time_outs(step)
    status = step.thread.status
    if status[0] == "waiting" and not step.acts and not has_expired(step):
        yield "a thread that waits makes no step but that it acts, or that the time of a timed wait expires"
    others = [tid for tid, other in step.process.threads.items() if other.status[:2] == ("waiting", *status[1:2]) and tid != step.tid]
    owes = step.acts and status[0] == "unblocked" and status[3] == "signal" and bool(others)
    if owes != (step.event("handon") is not None):
        yield "a thread that was unblocked by a signal, and acts, hands the signal on if another one waits, and no other thread does"
    wanted = own_wait(step)
    if wanted and (step.then is None or step.then.status != wanted[0]):
        yield wanted[1]
    elif not wanted and step.then is not None and step.then.status[0] in ("waiting", "unblocked"):
        yield "a thread waits by a condition wait alone"
    if status[0] == "unblocked" and not step.acts and ("acquire", status[2]) not in step.events:
        yield "a thread that was unblocked returns with its mutex, or begins to end"
    for tid, other in step.process.threads.items():
        then = step.process_after.threads.get(tid)
        if tid == step.tid or then is None:
            continue
        if tid in woken and then.status != ("unblocked", *other.status[1:3], woken[tid]):
            yield "a thread that a signal or a broadcast names is unblocked, with the mutex of its wait"
        elif tid not in woken and then.status != other.status:
            yield "a thread stays as it is without a signal, a broadcast or a step of its own"


# ---- Registrations


def with_entry(table, key, value):
    return {**table, key: value}


def registrations(step):
    """XSH pthread_mutex_lock, sem_post, pthread_once, pthread_key_create, atexit, pthread_atfork, exit: what the threads of a process
    share. That pthread_exit in an init routine does what a request does there is a choice of this host."""
    if step.process_after is None:
        return
    before = step.process
    owners, counts, onces, keys = before.owners, before.counts, before.onces, before.keys
    exits, forks, exiting = before.exit_functions, before.fork_handlers, before.exiting
    for event in step.events:
        if event[0] in ("acquire", "release"):
            owners = with_entry(owners, event[1], step.tid if event[0] == "acquire" else 0)
        elif event[0] in ("take", "post"):
            counts = with_entry(counts, event[1], (counts[event[1]] + (1 if event[0] == "post" else -1)) % NUMBER)
        elif event[0] == "once":
            onces = with_entry(onces, event[1], ("busy", step.tid) if event[2] == "call" else ("done",))
        elif event[0] == "ending":
            onces = {once: state for once, state in onces.items() if state != ("busy", step.tid)}
        elif event[0] == "key":
            keys = with_entry(keys, int(event[1]), step.words[3])
        elif event[0] == "key_delete":
            keys = {key: function for key, function in keys.items() if key != int(event[1])}
        elif event[0] == "at_exit":
            exits = exits[1:]
        elif event[0] == "exit":
            exiting = int(event[1])
    if step.runs and step.words[0] == "atexit" and not step.events:
        exits = (step.words[2], *exits)
    if step.runs and step.words[0] == "pthread_atfork" and not step.events:
        forks = (*forks, step.words[2:5])
    after = step.process_after
    if after.owners != owners or after.counts != counts:
        yield "owners and counts change by the events acquire, release, take and post alone"
    if after.onces != onces:
        yield "a once control changes by its events, and is fresh again as the thread begins to end with which it is busy"
    if after.keys != keys:
        yield "keys are made and deleted by their events alone, with the destructor of pthread_key_create"
    if after.exit_functions != exits or after.exiting != exiting:
        yield "atexit makes its function the newest one, an exit takes the newest one away, and exit begins by its event alone"
    if after.fork_handlers != forks or after.restricted != before.restricted:
        yield "pthread_atfork adds its registration as the newest, and a process is restricted for good, or never"


# ---- Controls


def controls(step):
    """XSH pthread_once: it calls the init routine, or comes after one return of it; and each return of the routine is shown."""
    if step.stops:
        return
    shown = [event for event in step.events if event[0] == "once"]
    if step.runs and step.words[0] == "pthread_once":
        control = step.words[1]
        if shown != step.events or shown not in ([], [("once", control, "call")]):
            yield "pthread_once shows the call of its control, or nothing"
        elif not shown and step.returned.count(control) != 1:
            yield "pthread_once calls nothing only after one return of an init routine of its control"
        elif shown and control in step.process.onces:
            yield "pthread_once calls an init routine only of a control that is fresh"
    elif shown != ([("once", step.routine, "done")] if step.returns and step.routine else []):
        yield "the return from an init routine, and no other step, shows that its control is done"
    elif shown and step.process.onces.get(step.routine) != ("busy", step.tid):
        yield "an init routine returns in the thread with which its control is busy"


# ---- OtherThreads


def other_threads(step):
    """What a step may change of another thread: its values, its status, a request, and whether it is detached. The first two are said
    by Values and WakeUps."""
    for pid, process in step.before.items():
        if pid != step.pid and step.after.get(pid) != process:
            yield "a step changes no other process"
    if (step.process_after is None) != (step.event("process_end") is not None):
        yield "a process goes by its end alone"
    if step.process_after is None:
        return
    requested, detached = step.event("request"), step.event("detach")
    for tid, thread in step.process.threads.items():
        then = step.process_after.threads.get(tid)
        if then is None:
            if tid != step.tid:
                yield "a thread goes by its own end, or with its process"
            continue
        pending = thread.pending or bool(requested) and int(requested[1]) == tid
        is_detached = thread.detached or bool(detached) and int(detached[1]) == tid
        if (then.pending, then.detached) != (pending, is_detached):
            yield "a request comes by pthread_cancel alone and stays, and a thread becomes detached by pthread_detach alone"
        if tid != step.tid and then != thread._replace(values=then.values, status=then.status, pending=pending, detached=is_detached):
            yield "a step keeps the functions, the handlers and the cancelability of other threads"


STATE_LAWS = {
    "Values": values, "Results": results, "Frames": frames, "NewThreads": new_threads, "WakeUps": wake_ups,
    "Registrations": registrations, "Controls": controls, "OtherThreads": other_threads,
}


def broken(step):
    """The laws that a step breaks, each with its sentence."""
    return [(name, sentence) for name, law in STATE_LAWS.items() for sentence in law(step)]
