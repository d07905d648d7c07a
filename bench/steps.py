"""A step of a run: the state before it, its events, and the state after it, as seen_states.py has states; and what came before it.

What a step does is told by the statement at which its thread is, by its events, and by whether the thread acts upon a request.
"""
import copy
import dataclasses

from script_text import value_of

STOPS = ("undefined", "profile")
PHASES = ("prepare", "parent", "child")


@dataclasses.dataclass
class History:
    """Of each thread: where the callers of its functions go on, which once control each of its functions is the init routine of, what its
    newest fork made, 0 if it failed, and the functions that this fork has still to call. Of each process: how often an init routine of
    each control has returned in it, and in its parent before the fork that made it."""
    callers: dict = dataclasses.field(default_factory=dict)
    routines: dict = dataclasses.field(default_factory=dict)
    returned: dict = dataclasses.field(default_factory=dict)
    forked: dict = dataclasses.field(default_factory=dict)
    due: dict = dataclasses.field(default_factory=dict)
    registered: dict = dataclasses.field(default_factory=dict)

    def after(self, step):
        """Takes note of a step."""
        own, called = step.own, step.called
        if step.stops:
            return
        if step.drops_all:
            self.callers[own], self.routines[own] = [], []
        elif step.returns:
            self.callers[own], self.routines[own] = self.callers.get(own, [])[1:], self.routines.get(own, [])[1:]
        elif called and step.thread.frames:
            lower = step.thread.position if step.first in PHASES else step.follower
            self.callers[own] = [lower, *self.callers.get(own, [])]
        if called:
            self.routines[own] = [step.events[0][1] if step.first == "once" else None, *self.routines.get(own, [])]
        done = [event[1] for event in step.events if event[0] == "once" and event[2] == "done"]
        self.returned[step.pid] = self.returned.get(step.pid, []) + done
        if step.begins_fork:
            self.registered[own] = step.process.fork_handlers
            self.due[own] = [handlers[0] for handlers in reversed(step.process.fork_handlers) if handlers[0] != "-"]
        if step.first in PHASES:
            self.due[own] = self.due[own][1:]
        made = step.made_process
        if made is not None:
            self.forked[own] = made
            self.due[own] = [handlers[1] for handlers in self.registered[own] if handlers[1] != "-"]
        if made:
            child = (made, step.tid)
            self.callers[child], self.routines[child] = self.callers.get(own, []), self.routines.get(own, [])
            self.returned[made] = self.returned[step.pid]
            self.due[child] = [handlers[2] for handlers in self.registered[own] if handlers[2] != "-"]


class Step:
    def __init__(self, script, entry, events, states, history):
        self.script, self.events = script, events
        self.own = entry[:2]
        # Where the callers of its functions go on, what its newest fork made, and what this fork has still to call.
        self.callers, self.forked, self.due = history.callers.get(self.own, []), history.forked.get(self.own), history.due.get(self.own, [])
        self.pid, self.tid, self.choice = entry
        # The control of which its top function is the init routine, if it is one, and the controls of the returns of init routines so far.
        self.routine, self.returned = next(iter(history.routines.get(self.own, [])), None), history.returned.get(self.pid, [])
        self.first = events[0][0] if events else ""
        self.stops = bool(events) and events[-1][0] in STOPS
        self.acts = self.choice == "act"
        self.set_states(*states)

    def set_states(self, before, after):
        self.before, self.after = before, after
        self.process, self.process_after = self.before[self.pid], self.after.get(self.pid)
        self.thread = self.process.threads[self.tid]
        self.then = self.process_after.threads.get(self.tid) if self.process_after else None
        position = self.thread.position
        self.words = self.script.functions[position[0]].body[position[1]] if position else ("",)
        # The thread executes its statement: it is in no call, does not act, and does not stop the run.
        self.runs = self.thread.status == ("running",) and not self.acts and not self.stops

    def between(self, before, after):
        """The same step, with other states before and after it."""
        other = copy.copy(self)
        other.set_states(before, after)
        return other

    def value(self, operand):
        return value_of(operand, self.thread.frames[0][1], self.process.variables)

    def event(self, *words):
        """The first event of the step with one of these words, or None."""
        return next((event for event in self.events if event[0] in words), None)

    @property
    def drops_all(self):
        """The thread begins to end, or to exit its process."""
        return self.event("ending", "exit") is not None

    @property
    def returns(self):
        """The thread returns from a function, and neither ends nor exits by it."""
        closes = self.words[0] == "end" and self.script.functions[self.thread.position[0]].closes(self.thread.position[1])
        return self.runs and (self.words[0] == "return" or closes) and not self.drops_all

    @property
    def called(self):
        """The function and the argument of the frame that the step makes, or None."""
        if self.runs and self.words[0] == "do":
            return self.words[1], self.value(self.words[2])
        event = self.events[0] if self.events else ("",)
        if event[0] == "handler" or event[0] == "pop" and event[3] == "run":
            return event[1], int(event[2])
        if event[0] == "dtor":
            return event[3], int(event[4])
        if event[0] == "once" and event[2] == "call":
            return self.words[2], 0
        return (event[1], 0) if event[0] == "at_exit" or event[0] in PHASES else None

    @property
    def follower(self):
        """The position after that of the thread, by the value that its statement tests."""
        function, pc = self.thread.position
        return function, self.script.follower(function, pc, self.value(self.words[1]) if self.words[0] in ("if", "while") else 1)

    @property
    def begins_fork(self):
        return self.runs and self.words[0] == "fork"

    @property
    def made_process(self):
        """The number of the process that the step makes, 0 if fork fails, or None."""
        if self.first == "fork":
            return int(self.events[0][1])
        return 0 if self.events and self.events[0][:2] == ("answer", "fork") else None

    @property
    def returns_from_fork(self):
        return self.thread.status in (("forking", "parent"), ("forking", "child")) and not self.events

    @property
    def stays(self):
        """The thread comes to a call in which it waits, or goes on in it, and has not returned from it."""
        in_call = self.first in ("call", "cancel_wait", "expire") or self.begins_fork or self.made_process is not None
        return self.stops or in_call
