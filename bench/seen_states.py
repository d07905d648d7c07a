"""What is seen of a state: of the processes and the threads that have not ended, what the views `states` and `choices` show.

`seen` gives it of a derived state, and `viewed` of the texts of the two views (docs/VIEWS.md). The laws of state_laws.py speak of it.
"""
import re
from typing import NamedTuple

# The caller of `fork` is at its `fork`, so its position is that of the statement. A position is a function and the index of a statement.


class SeenThread(NamedTuple):
    position: tuple
    frames: tuple
    values: dict
    detached: bool
    status: tuple
    enabled: bool
    asynchronous: bool
    pending: bool
    handlers: tuple


class SeenProcess(NamedTuple):
    variables: dict
    owners: dict
    counts: dict
    onces: dict
    keys: dict
    exiting: object
    restricted: bool
    exit_functions: tuple
    fork_handlers: tuple
    threads: dict


# ---- of a derived state


def status_of(thread):
    """The status as the views have it. Of a fork they show the phase alone."""
    return ("forking", thread.status[1]) if thread.status[0] == "forking" else thread.status


def seen_thread(thread):
    top = thread.frames[0] if thread.frames else None
    return SeenThread(
        (top.function.name, top.pc) if top else None,
        tuple((frame.function.name, dict(frame.locals)) for frame in thread.frames),
        {key: value for key, value in thread.values.items() if value},
        thread.detached, status_of(thread), thread.enabled, thread.asynchronous, thread.pending, tuple(thread.handlers))


def seen(world):
    """What is seen of each process that has not ended, and of each of its threads: the last one also while it exits the process."""
    return {
        process.pid: SeenProcess(
            dict(process.globals), dict(process.owners), dict(process.counts),
            {once: state for once, state in process.onces.items() if state != ("fresh",)}, dict(process.keys), process.exit_value, process.restricted,
            tuple(process.exit_functions), tuple(process.fork_handlers),
            {thread.tid: seen_thread(thread) for thread in process.threads.values() if thread.status[0] != "ended"})
        for process in world.processes.values() if process.ended is None
    }


# ---- of views


def phrases(field):
    return [] if field == "-" else field.split(", ")


def pairs(words):
    return {name: int(value) for name, value in zip(words[::2], words[1::2])}


STATUSES = (
    (r"running", lambda: ("running",)),
    (r"ending", lambda: ("ending",)),
    (r"exiting", lambda: ("exiting",)),
    (r"in fork, (\w+)", lambda phase: ("forking", phase)),
    (r"in pthread_join (\d+)", lambda tid: ("joining", int(tid))),
    (r"in sem_(?:timed)?wait (\w+)", lambda sem: ("sem", sem)),
    (r"in waitpid (\d+)", lambda pid: ("waitpid", int(pid))),
    (r"in pthread_cond_(?:timed)?wait (\w+) (\w+)", lambda cond, mutex: ("waiting", cond, mutex)),
    (r"in pthread_cond_(?:timed)?wait (\w+) (\w+), unblocked by a (\w+)", lambda cond, mutex, why: ("unblocked", cond, mutex, why)),
    (r"in pthread_cond_timedwait (\w+) (\w+), unblocked as its (time) expired", lambda cond, mutex, why: ("unblocked", cond, mutex, why)),
    (r"in pthread_cond_(?:timed)?wait (\w+) (\w+), acts on a request", lambda cond, mutex: ("unblocked", cond, mutex, "canceled")),
    (r"in (\w+)", lambda name: ("in", name)),
)


def status_in(field):
    text = re.sub(r"(, )?waits for .*", "", field) or "running"
    for form, status in STATUSES:
        found = re.fullmatch(form, text)
        if found:
            return status(*found.groups())
    raise ValueError(f"no status: {field!r}")


def status_at(field, statement):
    """The status in a field. A call that is not that of the statement is none."""
    call = re.match(r"in (\w+)", field)
    return status_in(field) if call is None or statement.split()[0] == call[1] else ("in another call", field)


def position_in(field, script):
    if field == "-":
        return None
    function, line = field.split(":")
    return function, script.functions[function].lines.index(int(line))


def is_row(line):
    return "\t" in line


def registered(field):
    """What field 6 of the line of a process shows: the exit value, restricted, the exit functions, the fork handlers and the once controls
    that are not fresh."""
    exiting, restricted, exits, forks, onces = None, False, [], [], {}
    for word, *rest in map(str.split, phrases(field)):
        if word == "exiting":
            exiting = int(rest[0])
        elif word == "restricted":
            restricted = True
        elif word == "atexit":
            exits.append(rest[0])
        elif word == "once":
            onces[rest[0]] = ("done",) if rest[1] == "done" else ("busy", int(rest[3].split(".")[1]))
        else:
            forks.append(tuple(rest))
    return onces, exiting, restricted, tuple(exits), tuple(forks)


def viewed(states, choices, script):
    """What is seen in the texts of the two views of one state."""
    processes, current = {}, {}
    for fields in (line.split("\t") for line in choices.splitlines() if is_row(line)):
        name, _, statement, status, mode, handlers = fields
        current[name] = (status_at(status, statement), mode, tuple((function, int(argument)) for function, argument in map(str.split, phrases(handlers))))
    for fields in (line.split("\t") for line in states.splitlines() if is_row(line)):
        if "." not in fields[0]:
            pid, variables, owners, counts, keys, others = fields
            onces, exiting, restricted, exits, forks = registered(others)
            processes[int(pid)] = SeenProcess(
                pairs(" ".join(phrases(variables)).split()),
                {words[0]: 0 if words[1] == "free" else int(words[3].split(".")[1]) for words in map(str.split, phrases(owners))},
                pairs(" ".join(phrases(counts)).split()), onces,
                {int(key): destructor for key, destructor in map(str.split, phrases(keys))},
                exiting, restricted, exits, forks, {})
            continue
        name, position, frames, values, detached = fields
        pid, tid = map(int, name.split("."))
        status, mode, handlers = current.pop(name)
        state, request = mode.split(", ")
        processes[pid].threads[tid] = SeenThread(
            position_in(position, script), tuple((words[0], pairs(words[1:])) for words in map(str.split, phrases(frames))),
            {int(key): int(value) for key, value in map(str.split, phrases(values))}, detached == "detached", status,
            state.startswith("enable"), state.endswith("asynchronous"), request == "request pending", handlers)
    if current:
        raise ValueError(f"threads in choices, and not in states: {sorted(current)}")
    return processes
