"""The states that a script, the entries of a schedule and the events before lead to, by docs/SCRIPT.md and docs/MACHINE.md.

A World makes the step of an entry, and answers the events that the step has to show. It shares no code with the program and with
the definitions. A step that stops the run is none of its steps: the event alone says so.
"""
import copy

from script_text import NUMBER, Script, value_of

PROCESSES, REGISTRATIONS, EXITS = 8, 16, 32
CANCELED = NUMBER - 1
OPTIONAL_POINTS = ("fclose", "fflush", "fgets", "fopen", "fprintf", "fputs", "printf", "puts", "opendir", "closedir", "readdir")
PHASES = {"prepare": 0, "parent": 1, "child": 2}
TIMED_WAITS = ("pthread_cond_timedwait", "sem_timedwait")
# The result of a timed wait whose time expired, ETIMEDOUT.
TIMED_OUT = 4


class Frame:
    def __init__(self, function, argument, kind):
        self.function, self.pc, self.kind = function, 0, kind
        self.locals = dict.fromkeys(function.locals, 0)
        self.locals[function.locals[0]] = argument


class Thread:
    def __init__(self, tid, frame, detached):
        self.tid, self.frames, self.detached = tid, [frame], detached
        self.status, self.joined, self.ended, self.pending = ("running",), False, False, False
        self.enabled, self.asynchronous, self.handlers, self.reason = True, False, [], None
        self.passes, self.in_pass, self.values, self.fork = 0, set(), {}, None


class Process:
    def __init__(self, pid, parent):
        self.pid, self.parent, self.restricted, self.ended, self.reaped = pid, parent, False, None, False
        self.globals, self.owners, self.counts, self.onces, self.threads, self.keys = {}, {}, {}, {}, {}, {}
        self.fork_handlers, self.exit_functions, self.exit_value = [], [], None


class World:
    def __init__(self, script, passes):
        self.script, self.passes = script, passes
        first = Process(1, 0)
        first.globals = dict.fromkeys(script.globals, 0)
        first.owners = dict.fromkeys(script.mutexes, 0)
        first.counts = dict(script.sems)
        first.onces = dict.fromkeys(script.onces, ("fresh",))
        first.threads[1] = Thread(1, Frame(script.functions["main"], 0, "main"), False)
        self.processes = {1: first}

    def step(self, pid, tid, choice, number):
        """Makes the step of an entry, and gives the words of its events."""
        process = self.processes[pid]
        thread = process.threads[tid]
        if choice == "act":
            return self.act(process, thread, number)
        if choice == "expire":
            return self.expire(process, thread)
        return getattr(self, "when_" + thread.status[0])(process, thread, number)

    # ---- what several steps do

    def write(self, process, thread, dest, value):
        if dest in thread.frames[0].locals:
            thread.frames[0].locals[dest] = value
        elif dest != "-":
            process.globals[dest] = value

    def advance(self, thread, value=1):
        frame = thread.frames[0]
        frame.pc = self.script.follower(frame.function.name, frame.pc, value)

    def returns(self, process, thread, *results):
        """A call in which the thread was returns, and stores its results in order."""
        for dest, value in results:
            self.write(process, thread, dest, value)
        thread.status = ("running",)
        self.advance(thread)

    def call(self, thread, name, argument, kind, alone=False):
        frame = Frame(self.script.functions[name], argument, kind)
        thread.frames = [frame] if alone else [frame, *thread.frames]
        thread.status = ("running",)

    def begin_end(self, process, thread, reason):
        thread.frames, thread.status, thread.reason = [], ("ending",), reason
        thread.enabled, thread.asynchronous = False, False
        self.abandon(process, thread)

    def abandon(self, process, thread):
        """The controls whose init routines the thread leaves without a return of them are fresh again."""
        for once, state in process.onces.items():
            if state == ("busy", thread.tid):
                process.onces[once] = ("fresh",)

    def begin_exit(self, process, thread, value):
        thread.frames, thread.status, process.exit_value = [], ("exiting",), value
        thread.enabled, thread.asynchronous = False, False
        return [("exit", str(value))]

    def waiters(self, process, cond):
        return [thread for thread in process.threads.values() if thread.status[:2] == ("waiting", cond)]

    def wake(self, thread, why):
        thread.status = ("unblocked", *thread.status[1:3], why)

    def is_last(self, process, thread):
        return all(other.ended or other is thread for other in process.threads.values())

    # ---- the act upon a request

    def act(self, process, thread, number):
        if thread.status[0] not in ("waiting", "unblocked"):
            self.begin_end(process, thread, "canceled")
            return [("ending", "canceled")]
        cond = thread.status[1]
        handed = thread.status[0] == "unblocked" and thread.status[3] == "signal" and self.waiters(process, cond)
        thread.status = ("unblocked", *thread.status[1:3], "canceled")
        if not handed:
            return [("cancel_wait", cond)]
        self.wake(process.threads[number], "signal")
        return [("cancel_wait", cond), ("handon", cond, str(number))]

    # ---- the time of a wait expires

    def expire(self, process, thread):
        if thread.status[0] == "sem":
            self.returns(process, thread, *self.result_of(thread, TIMED_OUT))
            return [("answer", "sem_timedwait", str(TIMED_OUT))]
        self.wake(thread, "time")
        return [("expire", thread.status[1])]

    def result_of(self, thread, number):
        """The result of the wait in which the thread is, if it has one: where it goes, and what it is."""
        words = thread.frames[0].function.body[thread.frames[0].pc]
        return [(words[1], number)] if words[0] in TIMED_WAITS else []

    # ---- a thread that is in a call, ends, or exits

    def when_in(self, process, thread, number):
        name = thread.status[1]
        self.returns(process, thread)
        return [("done", name)]

    def when_joining(self, process, thread, number):
        target = process.threads[thread.status[1]]
        value, dest = target.status[1], thread.frames[0].function.body[thread.frames[0].pc][2]
        target.joined = True
        self.returns(process, thread, (dest, value))
        return [("joined", str(target.tid), str(value))]

    def when_sem(self, process, thread, number):
        sem = thread.status[1]
        process.counts[sem] -= 1
        self.returns(process, thread, *self.result_of(thread, 0))
        return [("take", sem)]

    def when_waitpid(self, process, thread, number):
        words = thread.frames[0].function.body[thread.frames[0].pc]
        child = self.processes[thread.status[1]]
        if child.reaped:
            self.returns(process, thread, (words[1], 3))
            return [("answer", "waitpid", "3")]
        child.reaped = True
        self.returns(process, thread, (words[1], 0), (words[3], child.ended))
        return [("reap", str(child.pid), str(child.ended))]

    def when_unblocked(self, process, thread, number):
        _, cond, mutex, why = thread.status
        process.owners[mutex] = thread.tid
        if why == "canceled":
            self.begin_end(process, thread, "canceled")
            return [("acquire", mutex), ("ending", "canceled", cond, mutex)]
        name = thread.frames[0].function.body[thread.frames[0].pc][0]
        self.returns(process, thread, *self.result_of(thread, TIMED_OUT if why == "time" else 0))
        return [("acquire", mutex), ("answer", name, str(TIMED_OUT)) if why == "time" else ("done", name)]

    def due(self, process, thread):
        return [key for key, value in thread.values.items() if value and process.keys[key] != "-"]

    def when_ending(self, process, thread, number):
        if thread.handlers:
            function, argument = thread.handlers.pop(0)
            self.call(thread, function, argument, "handler", alone=True)
            return [("handler", function, str(argument))]
        due = self.due(process, thread)
        if any(key in thread.in_pass for key in due):
            value, function = thread.values.pop(number), process.keys[number]
            thread.in_pass.discard(number)
            self.call(thread, function, value, "destructor", alone=True)
            return [("dtor", str(thread.passes), str(number), function, str(value))]
        if due and thread.passes < self.passes:
            thread.passes += 1
            thread.in_pass = {key for key, value in thread.values.items() if value}
            return [("pass", str(thread.passes))]
        value = CANCELED if thread.reason == "canceled" else thread.reason
        events = [("leftover", str(len(due)))] if due else []
        events.append(("ended", str(value)))
        thread.ended = True
        if self.is_last(process, thread):
            return events + self.begin_exit(process, thread, 0)
        thread.status = ("ended", value)
        return events

    def when_exiting(self, process, thread, number):
        if process.exit_functions:
            function = process.exit_functions.pop(0)
            self.call(thread, function, 0, "exit_function", alone=True)
            return [("at_exit", function)]
        return self.end_process(process, process.exit_value)

    def end_process(self, process, value):
        process.ended = value % 256
        process.reaped = process.parent == 0
        for child in self.processes.values():
            if child.parent == process.pid and child.ended is None:
                child.parent = 0
            elif child.parent == process.pid:
                child.reaped = True
        return [("process_end", str(process.ended))]

    def when_forking(self, process, thread, number):
        _, phase, place, registered, child = thread.status
        places = reversed(range(place)) if phase == "prepare" else range(place, registered)
        for at in places:
            function = process.fork_handlers[at][PHASES[phase]]
            if function != "-":
                thread.fork = ("forking", phase, at if phase == "prepare" else at + 1, registered, child)
                self.call(thread, function, 0, "fork_handler")
                return [(phase, function)]
        result, dest = thread.frames[0].function.body[thread.frames[0].pc][1:3]
        if phase == "child":
            self.returns(process, thread, (result, 0), (dest, 0))
            return []
        if phase == "parent":
            self.returns(process, thread, *([(result, 0), (dest, child)] if child else [(result, 1)]))
            return []
        if sum(not other.reaped for other in self.processes.values()) >= PROCESSES:
            thread.status = ("forking", "parent", 0, registered, 0)
            return [("answer", "fork", "1")]
        child = 1 + len(self.processes)
        self.processes[child] = self.child_of(process, thread, child, registered)
        thread.status = ("forking", "parent", 0, registered, child)
        return [("fork", str(child))]

    def child_of(self, process, thread, pid, registered):
        child = Process(pid, process.pid)
        child.restricted = not self.is_last(process, thread)
        for name in ("globals", "owners", "counts", "onces", "keys", "fork_handlers", "exit_functions"):
            setattr(child, name, copy.copy(getattr(process, name)))
        child.threads[thread.tid] = self.replica_of(thread, registered)
        return child

    def replica_of(self, thread, registered):
        replica = copy.copy(thread)
        replica.frames = [copy.copy(frame) for frame in thread.frames]
        for frame in replica.frames:
            frame.locals = dict(frame.locals)
        replica.handlers, replica.values = list(thread.handlers), dict(thread.values)
        replica.pending, replica.joined, replica.ended, replica.reason = False, False, False, None
        replica.passes, replica.in_pass = 0, set()
        replica.status = ("forking", "child", 0, registered, 0)
        return replica

    # ---- a running thread

    def when_running(self, process, thread, number):
        frame = thread.frames[0]
        words = frame.function.body[frame.pc]
        if words[0] == "return" or words[0] == "end" and frame.function.closes(frame.pc):
            return self.leave(process, thread, self.value(process, thread, words[1]) if words[0] == "return" else 0)
        call = getattr(self, "at_" + words[0], None)
        if call is not None:
            return call(process, thread, words, number) or []
        # A cancellation point by its name alone.
        if words[0] in OPTIONAL_POINTS:
            self.advance(thread)
            return [("done", words[0])]
        thread.status = ("in", words[0])
        return [("call", words[0])]

    def value(self, process, thread, operand):
        return value_of(operand, thread.frames[0].locals, process.globals)

    def leave(self, process, thread, value):
        kind = thread.frames[0].kind
        if kind == "main":
            return self.begin_exit(process, thread, value)
        if kind == "start":
            self.begin_end(process, thread, value)
            return [("ending", "exit", str(value))]
        thread.frames = thread.frames[1:]
        if kind in ("handler", "destructor"):
            thread.status = ("ending",)
        elif kind == "fork_handler":
            thread.status = thread.fork
        elif kind == "exit_function":
            thread.status = ("exiting",)
        elif kind[0] == "routine":
            return self.leave_routine(process, kind[1])
        return []

    def leave_routine(self, process, once):
        process.onces[once] = ("done",)
        return [("once", once, "done")]

    def at_emit(self, process, thread, words, number):
        value = self.value(process, thread, words[1])
        self.advance(thread)
        return [("emit", str(value))]

    def at_set(self, process, thread, words, number):
        self.returns(process, thread, (words[1], self.value(process, thread, words[2])))

    def at_add(self, process, thread, words, number):
        self.returns(process, thread, (words[1], (self.value(process, thread, words[1]) + self.value(process, thread, words[2])) % NUMBER))

    def at_nop(self, process, thread, words, number):
        self.advance(thread)

    at_else = at_end = at_nop

    def at_if(self, process, thread, words, number):
        self.advance(thread, self.value(process, thread, words[1]))

    at_while = at_if

    def at_do(self, process, thread, words, number):
        value = self.value(process, thread, words[2])
        self.advance(thread)
        self.call(thread, words[1], value, "call")

    def at_pthread_cleanup_push(self, process, thread, words, number):
        value = self.value(process, thread, words[2])
        thread.handlers.insert(0, (words[1], value))
        self.advance(thread)
        return [("push", words[1], str(value))]

    def at_pthread_cleanup_pop(self, process, thread, words, number):
        runs = self.value(process, thread, words[1])
        function, argument = thread.handlers.pop(0)
        self.advance(thread)
        if runs:
            self.call(thread, function, argument, "popped_handler")
        return [("pop", function, str(argument), "run" if runs else "drop")]

    def at_pthread_create(self, process, thread, words, number):
        if number is None:
            self.returns(process, thread, (words[1], 1))
            return [("answer", "pthread_create", "1")]
        frame = Frame(self.script.functions[words[3]], self.value(process, thread, words[4]), "start")
        process.threads[number] = Thread(number, frame, len(words) > 5)
        self.returns(process, thread, (words[1], 0), (words[2], number))
        return [("create", str(number), "detached" if len(words) > 5 else "joinable")]

    def at_pthread_join(self, process, thread, words, number):
        thread.status = ("joining", self.value(process, thread, words[1]))
        return [("call", "pthread_join")]

    def at_pthread_detach(self, process, thread, words, number):
        target = self.value(process, thread, words[1])
        process.threads[target].detached = True
        self.advance(thread)
        return [("detach", str(target))]

    def at_pthread_cancel(self, process, thread, words, number):
        target = self.value(process, thread, words[1])
        process.threads[target].pending |= not process.threads[target].ended
        self.advance(thread)
        return [("request", str(target))]

    def at_pthread_self(self, process, thread, words, number):
        self.returns(process, thread, (words[1], thread.tid))

    def at_pthread_exit(self, process, thread, words, number):
        value = self.value(process, thread, words[1])
        self.begin_end(process, thread, value)
        return [("ending", "exit", str(value))]

    def at_pthread_testcancel(self, process, thread, words, number):
        self.advance(thread)
        return [("done", "pthread_testcancel")]

    def at_pthread_setcancelstate(self, process, thread, words, number):
        old, thread.enabled = thread.enabled, words[1] == "enable"
        self.returns(process, thread, (words[2], int(not old)))
        return [("state", words[1])]

    def at_pthread_setcanceltype(self, process, thread, words, number):
        old, thread.asynchronous = thread.asynchronous, words[1] == "asynchronous"
        self.returns(process, thread, (words[2], int(old)))
        return [("type", words[1])]

    def at_pthread_key_create(self, process, thread, words, number):
        if number is None:
            self.returns(process, thread, (words[1], 1))
            return [("answer", "pthread_key_create", "1")]
        process.keys[number] = words[3]
        self.returns(process, thread, (words[1], 0), (words[2], number))
        return [("key", str(number))]

    def at_pthread_key_delete(self, process, thread, words, number):
        key = self.value(process, thread, words[1])
        del process.keys[key]
        for other in process.threads.values():
            other.values.pop(key, None)
            other.in_pass.discard(key)
        self.advance(thread)
        return [("key_delete", str(key))]

    def at_pthread_setspecific(self, process, thread, words, number):
        key, value = self.value(process, thread, words[1]), self.value(process, thread, words[2])
        thread.values[key] = value
        self.advance(thread)

    def at_pthread_getspecific(self, process, thread, words, number):
        self.returns(process, thread, (words[1], thread.values.get(self.value(process, thread, words[2]), 0)))

    def at_pthread_mutex_lock(self, process, thread, words, number):
        process.owners[words[1]] = thread.tid
        self.advance(thread)
        return [("acquire", words[1])]

    def at_pthread_mutex_unlock(self, process, thread, words, number):
        process.owners[words[1]] = 0
        self.advance(thread)
        return [("release", words[1])]

    def at_pthread_cond_wait(self, process, thread, words, number):
        process.owners[words[2]] = 0
        thread.status = ("waiting", words[1], words[2])
        return [("call", "pthread_cond_wait"), ("release", words[2])]

    def at_pthread_cond_timedwait(self, process, thread, words, number):
        process.owners[words[3]] = 0
        thread.status = ("waiting", words[2], words[3])
        return [("call", "pthread_cond_timedwait"), ("release", words[3])]

    def at_pthread_cond_signal(self, process, thread, words, number):
        if number is not None:
            self.wake(process.threads[number], "signal")
        self.advance(thread)
        return [("signal", words[1], str(number or 0))]

    def at_pthread_cond_broadcast(self, process, thread, words, number):
        waiters = self.waiters(process, words[1])
        for other in waiters:
            self.wake(other, "broadcast")
        self.advance(thread)
        return [("broadcast", words[1], str(len(waiters)))]

    def at_sem_wait(self, process, thread, words, number):
        thread.status = ("sem", words[1])
        return [("call", "sem_wait")]

    def at_sem_timedwait(self, process, thread, words, number):
        thread.status = ("sem", words[2])
        return [("call", "sem_timedwait")]

    def at_sem_post(self, process, thread, words, number):
        process.counts[words[1]] = (process.counts[words[1]] + 1) % NUMBER
        self.advance(thread)
        return [("post", words[1])]

    def at_pthread_once(self, process, thread, words, number):
        self.advance(thread)
        if process.onces[words[1]] == ("done",):
            return []
        process.onces[words[1]] = ("busy", thread.tid)
        self.call(thread, words[2], 0, ("routine", words[1]))
        return [("once", words[1], "call")]

    def at_pthread_atfork(self, process, thread, words, number):
        if len(process.fork_handlers) >= REGISTRATIONS:
            self.returns(process, thread, (words[1], 2))
            return [("answer", "pthread_atfork", "2")]
        process.fork_handlers = [*process.fork_handlers, words[2:5]]
        self.returns(process, thread, (words[1], 0))

    def at_fork(self, process, thread, words, number):
        registered = len(process.fork_handlers)
        thread.status = ("forking", "prepare", registered, registered, 0)

    def at_waitpid(self, process, thread, words, number):
        child = self.processes.get(self.value(process, thread, words[2]))
        if child is None or child.parent != process.pid or child.reaped:
            self.returns(process, thread, (words[1], 3))
            return [("answer", "waitpid", "3")]
        thread.status = ("waitpid", child.pid)
        return [("call", "waitpid")]

    def at_atexit(self, process, thread, words, number):
        if len(process.exit_functions) >= EXITS or process.exit_value is not None:
            self.returns(process, thread, (words[1], 1))
            return [("answer", "atexit", "1")]
        process.exit_functions = [words[2], *process.exit_functions]
        self.returns(process, thread, (words[1], 0))

    def at_exit(self, process, thread, words, number):
        return self.begin_exit(process, thread, self.value(process, thread, words[1]))

    def at__exit(self, process, thread, words, number):
        return self.end_process(process, self.value(process, thread, words[1]))
