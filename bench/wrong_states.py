"""Machines that are wrong, each a World with one rule changed, the law that has to refuse it, and a part of the sentence.

A machine follows the entries of random runs, and shows its own events: so a law that refuses it does it by the states.
"""
from derived_states import World


class SetsNull(World):
    def at_pthread_setspecific(self, process, thread, words, number):
        thread.values[self.value(process, thread, words[1])] = 0
        self.advance(thread)


class SetsOfEach(World):
    def at_pthread_setspecific(self, process, thread, words, number):
        key, value = self.value(process, thread, words[1]), self.value(process, thread, words[2])
        for other in process.threads.values():
            other.values[key] = value
        self.advance(thread)


class DestructorKeepsValue(World):
    def when_ending(self, process, thread, number):
        value = thread.values.get(number)
        events = super().when_ending(process, thread, number)
        if events[0][0] == "dtor":
            thread.values[number] = value
        return events


class DeletedKeepsValues(World):
    def due(self, process, thread):
        return [key for key, value in thread.values.items() if value and process.keys.get(key, "-") != "-"]

    def at_pthread_key_delete(self, process, thread, words, number):
        key = self.value(process, thread, words[1])
        del process.keys[key]
        self.advance(thread)
        return [("key_delete", str(key))]


class PassForgetsValues(World):
    def when_ending(self, process, thread, number):
        events = super().when_ending(process, thread, number)
        if events[0][0] == "pass":
            thread.values = {}
        return events


class JoinStores0(World):
    def returns(self, process, thread, *results):
        joins = thread.status[0] == "joining"
        super().returns(process, thread, *((dest, 0 if joins else value) for dest, value in results))


class NoOldValue(World):
    def returns(self, process, thread, *results):
        word = thread.frames[0].function.body[thread.frames[0].pc][0]
        super().returns(process, thread, *(() if word.startswith("pthread_setcancel") else results))


class SelfIs0(World):
    def at_pthread_self(self, process, thread, words, number):
        self.returns(process, thread, (words[1], 0))


class ReapStoresNothing(World):
    def returns(self, process, thread, *results):
        super().returns(process, thread, *(() if thread.status[0] == "waitpid" and len(results) > 1 else results))


class NoChildIs0(World):
    def returns(self, process, thread, *results):
        word = thread.frames[0].function.body[thread.frames[0].pc][0]
        super().returns(process, thread, *(((results[0][0], 0),) if word == "waitpid" and len(results) == 1 else results))


class ForkAnswers0(World):
    def returns(self, process, thread, *results):
        super().returns(process, thread, *((dest, 0 if thread.status[0] == "forking" else value) for dest, value in results))


class CreateStoresNoNumber(World):
    def returns(self, process, thread, *results):
        word = thread.frames[0].function.body[thread.frames[0].pc][0]
        super().returns(process, thread, *(results[:1] if word == "pthread_create" else results))


class ResultsInOtherOrder(World):
    def returns(self, process, thread, *results):
        super().returns(process, thread, *reversed(results))


class GetsNothing(World):
    def at_pthread_getspecific(self, process, thread, words, number):
        self.returns(process, thread, (words[1], 0))


class WritesToGlobals(World):
    def write(self, process, thread, dest, value):
        if thread.status[0] == "joining" and dest != "-":
            process.globals["g"] = value
        else:
            super().write(process, thread, dest, value)


class HandlersReturnAtOnce(World):
    def when_running(self, process, thread, number):
        if thread.frames[0].kind == "handler":
            return self.leave(process, thread, 0)
        return super().when_running(process, thread, number)


class NoCallByDo(World):
    def at_do(self, process, thread, words, number):
        self.advance(thread)


class ReturnTakesAll(World):
    def leave(self, process, thread, value):
        kind = thread.frames[0].kind
        if kind == "call":
            thread.frames = thread.frames[1:]
            if len(thread.frames) > 1:
                thread.frames = thread.frames[1:]
            return []
        return super().leave(process, thread, value)


class CallsAgain(World):
    def at_do(self, process, thread, words, number):
        value = self.value(process, thread, words[2])
        self.call(thread, words[1], value, "call")


class ElseIsNeverTaken(World):
    def at_if(self, process, thread, words, number):
        self.advance(thread)


class TakeReturnsToItsCall(World):
    def when_sem(self, process, thread, number):
        pc = thread.frames[0].pc
        events = super().when_sem(process, thread, number)
        thread.frames[0].pc = pc
        return events


class PushIsLeftOut(World):
    def at_pthread_cleanup_push(self, process, thread, words, number):
        events = super().at_pthread_cleanup_push(process, thread, words, number)
        thread.frames[0].pc = min(thread.frames[0].pc + 1, len(thread.frames[0].function.body) - 1)
        return events


class ExitKeepsFrames(World):
    def begin_end(self, process, thread, reason):
        frames = thread.frames
        super().begin_end(process, thread, reason)
        thread.frames = frames


class HandlerGets0(World):
    def call(self, thread, name, argument, kind, alone=False):
        super().call(thread, name, 0 if kind == "handler" else argument, kind, alone)


class Creates(World):
    """A World that changes the thread which pthread_create makes."""

    def at_pthread_create(self, process, thread, words, number):
        events = super().at_pthread_create(process, thread, words, number)
        if number is not None:
            self.change(process.threads[number], thread)
        return events


class NewWithout(Creates):
    def change(self, new, thread):
        frame = new.frames[0]
        frame.locals[frame.function.locals[0]] = 0


class NewIsDisabled(Creates):
    def change(self, new, thread):
        new.enabled = False


class NewHasValues(Creates):
    def change(self, new, thread):
        new.values = {**dict.fromkeys(thread.values, 1), 1: 1}


class NewHasHandlers(Creates):
    def change(self, new, thread):
        new.handlers = list(thread.handlers)


class NewIsJoinable(Creates):
    def change(self, new, thread):
        new.detached = False


class Forks(World):
    """A World that changes the child which fork makes."""

    def child_of(self, process, thread, pid, registered):
        child = super().child_of(process, thread, pid, registered)
        self.change(child, child.threads[thread.tid], process, thread)
        return child


class ChildWithoutValues(Forks):
    def change(self, child, replica, process, thread):
        replica.values = {}


class ChildWithRequest(Forks):
    def change(self, child, replica, process, thread):
        replica.pending = thread.pending


class ChildWithoutHandlers(Forks):
    def change(self, child, replica, process, thread):
        replica.handlers = []


class ChildIsEnabled(Forks):
    def change(self, child, replica, process, thread):
        replica.enabled = True


class ChildWithOtherGlobals(Forks):
    def change(self, child, replica, process, thread):
        child.globals = dict.fromkeys(child.globals, 0)


class ChildWithFreeMutexes(Forks):
    def change(self, child, replica, process, thread):
        child.owners = dict.fromkeys(child.owners, 0)


class ChildWithoutKeys(Forks):
    def change(self, child, replica, process, thread):
        child.keys, replica.values = {}, dict(replica.values)


class ChildWithoutExits(Forks):
    def change(self, child, replica, process, thread):
        child.exit_functions = []


class ChildIsNeverRestricted(Forks):
    def change(self, child, replica, process, thread):
        child.restricted = False


class ChildWithAllThreads(Forks):
    def change(self, child, replica, process, thread):
        for tid, other in process.threads.items():
            if tid != thread.tid:
                child.threads[tid] = self.replica_of(other, 0)


class PrepareInOrder(World):
    def when_forking(self, process, thread, number):
        handlers = process.fork_handlers
        if thread.status[1] == "prepare":
            process.fork_handlers = handlers[::-1]
        events = super().when_forking(process, thread, number)
        process.fork_handlers = handlers
        for other in self.processes.values():
            if events and events[0] == ("fork", str(other.pid)):
                other.fork_handlers = handlers
        return events


class OneForkHandler(World):
    def when_forking(self, process, thread, number):
        _, phase, place, registered, child = thread.status
        if phase == "prepare" and 0 < place < registered:
            thread.status = ("forking", phase, 0, registered, child)
        if phase != "prepare" and place > 0:
            thread.status = ("forking", phase, registered, registered, child)
        return super().when_forking(process, thread, number)


class SignalUnblocksNobody(World):
    def at_pthread_cond_signal(self, process, thread, words, number):
        self.advance(thread)
        return [("signal", words[1], str(number or 0))]


class SignalIsToNobody(World):
    def at_pthread_cond_signal(self, process, thread, words, number):
        self.advance(thread)
        return [("signal", words[1], "0")]


class SignalUnblocksAll(World):
    def at_pthread_cond_signal(self, process, thread, words, number):
        for other in self.waiters(process, words[1]):
            self.wake(other, "signal")
        self.advance(thread)
        return [("signal", words[1], str(number or 0))]


class BroadcastUnblocksOne(World):
    def at_pthread_cond_broadcast(self, process, thread, words, number):
        waiters = self.waiters(process, words[1])
        for other in waiters[:1]:
            self.wake(other, "broadcast")
        self.advance(thread)
        return [("broadcast", words[1], str(len(waiters)))]


class UnlockUnblocks(World):
    def at_pthread_mutex_unlock(self, process, thread, words, number):
        for other in process.threads.values():
            if other.status[0] == "waiting":
                self.wake(other, "signal")
        return super().at_pthread_mutex_unlock(process, thread, words, number)


class SignalIsLost(World):
    def act(self, process, thread, number):
        if thread.status[0] != "unblocked":
            return super().act(process, thread, number)
        thread.status = ("unblocked", *thread.status[1:3], "canceled")
        return [("cancel_wait", thread.status[1])]


class HandedToNobody(World):
    def act(self, process, thread, number):
        status = process.threads[number].status if number else None
        events = super().act(process, thread, number)
        if len(events) > 1:
            process.threads[number].status = status
        return events


class WaitReturnsAtOnce(World):
    def at_pthread_cond_wait(self, process, thread, words, number):
        events = super().at_pthread_cond_wait(process, thread, words, number)
        self.wake(thread, "signal")
        return events


class WaitIsForgotten(World):
    def at_pthread_cond_wait(self, process, thread, words, number):
        self.advance(thread)
        return []


class ReturnsWithoutMutex(World):
    def when_unblocked(self, process, thread, number):
        mutex, owner = thread.status[2], process.owners[thread.status[2]]
        events = super().when_unblocked(process, thread, number)
        process.owners[mutex] = owner
        return events


class TimesOutWithoutMutex(World):
    def when_unblocked(self, process, thread, number):
        _, _, mutex, why = thread.status
        owner = process.owners[mutex]
        events = super().when_unblocked(process, thread, number)
        if why == "time":
            process.owners[mutex] = owner
        return events


class TimesOutAtOnce(World):
    def expire(self, process, thread):
        if thread.status[0] == "sem":
            return super().expire(process, thread)
        cond = thread.status[1]
        self.returns(process, thread, *self.result_of(thread, 4))
        return [("expire", cond), ("answer", "pthread_cond_timedwait", "4")]


class TimeOutStoresNothing(World):
    def result_of(self, thread, number):
        return [] if number else super().result_of(thread, number)


class TimedWaitStoresNo0(World):
    def result_of(self, thread, number):
        return super().result_of(thread, number or 4)


class SignalTimesOut(World):
    def when_unblocked(self, process, thread, number):
        if thread.status[3] == "signal" and self.result_of(thread, 0):
            thread.status = (*thread.status[:3], "time")
        return super().when_unblocked(process, thread, number)


class TimeOutGives0(World):
    def when_unblocked(self, process, thread, number):
        if thread.status[3] == "time":
            thread.status = (*thread.status[:3], "signal")
        return super().when_unblocked(process, thread, number)


class TimeExpiresOfAll(World):
    def expire(self, process, thread):
        others = self.waiters(process, thread.status[1])
        events = super().expire(process, thread)
        for other in others:
            if other is not thread:
                self.wake(other, "time")
        return events


class TimeExpiresForNobody(World):
    def expire(self, process, thread):
        status = thread.status
        events = super().expire(process, thread)
        if status[0] == "waiting":
            thread.status = status
        return events


class TimeOutTakes(World):
    def expire(self, process, thread):
        if thread.status[0] == "sem":
            process.counts[thread.status[1]] += 1
        return super().expire(process, thread)


class TimesOutWithACount(World):
    def when_sem(self, process, thread, number):
        if self.result_of(thread, 0):
            return self.expire(process, thread)
        return super().when_sem(process, thread, number)


class ExpiredHandsOn(World):
    """A thread whose time has expired counts as unblocked by a signal as it acts."""

    def act(self, process, thread, number):
        if thread.status[0] == "unblocked" and thread.status[3] == "time" and self.waiters(process, thread.status[1]):
            number = self.waiters(process, thread.status[1])[0].tid
            thread.status = (*thread.status[:3], "signal")
        return super().act(process, thread, number)


class OnceCallsNothing(World):
    def at_pthread_once(self, process, thread, words, number):
        self.advance(thread)
        return []


class OnceCallsAgain(World):
    def at_pthread_once(self, process, thread, words, number):
        process.onces[words[1]] = ("fresh",)
        return super().at_pthread_once(process, thread, words, number)


class OnceIsNotBusy(World):
    def at_pthread_once(self, process, thread, words, number):
        state = process.onces[words[1]]
        events = super().at_pthread_once(process, thread, words, number)
        process.onces[words[1]] = state
        return events


class RoutineGets1(World):
    def call(self, thread, name, argument, kind, alone=False):
        super().call(thread, name, 1 if kind[0] == "routine" else argument, kind, alone)


class RoutineLeavesItsControlBusy(World):
    def leave_routine(self, process, once):
        return [("once", once, "done")]


class RoutineLeavesItsControlFresh(World):
    def leave_routine(self, process, once):
        process.onces[once] = ("fresh",)
        return [("once", once, "done")]


class RoutineShowsNoReturn(World):
    def leave_routine(self, process, once):
        super().leave_routine(process, once)
        return []


class EndLeavesControlsBusy(World):
    def abandon(self, process, thread):
        pass


class EndLeavesControlsDone(World):
    def abandon(self, process, thread):
        for once, state in process.onces.items():
            if state == ("busy", thread.tid):
                process.onces[once] = ("done",)


class EndFreesAllControls(World):
    def abandon(self, process, thread):
        process.onces = dict.fromkeys(process.onces, ("fresh",))


class ChildWithFreshControls(Forks):
    def change(self, child, replica, process, thread):
        child.onces = dict.fromkeys(child.onces, ("fresh",))


class AtexitRegistersNothing(World):
    def at_atexit(self, process, thread, words, number):
        self.returns(process, thread, (words[1], 0))


class AtexitRegistersLast(World):
    def at_atexit(self, process, thread, words, number):
        process.exit_functions = [*process.exit_functions, words[2]]
        self.returns(process, thread, (words[1], 0))


class KeyWithoutDestructor(World):
    def at_pthread_key_create(self, process, thread, words, number):
        return super().at_pthread_key_create(process, thread, (*words[:3], "-"), number)


class PostAddsNothing(World):
    def at_sem_post(self, process, thread, words, number):
        self.advance(thread)
        return [("post", words[1])]


class CancelDoesNothing(World):
    def at_pthread_cancel(self, process, thread, words, number):
        self.advance(thread)
        return [("request", str(self.value(process, thread, words[1])))]


class CancelsEach(World):
    def at_pthread_cancel(self, process, thread, words, number):
        events = super().at_pthread_cancel(process, thread, words, number)
        for other in process.threads.values():
            other.pending = True
        return events


class DetachesNobody(World):
    def at_pthread_detach(self, process, thread, words, number):
        target = process.threads[self.value(process, thread, words[1])]
        detached = target.detached
        events = super().at_pthread_detach(process, thread, words, number)
        target.detached = detached
        return events


class EndTakesHandlers(World):
    def when_ending(self, process, thread, number):
        events = super().when_ending(process, thread, number)
        for other in process.threads.values():
            other.handlers = []
        return events


class ChildFollowsGlobals(World):
    def at_set(self, process, thread, words, number):
        super().at_set(process, thread, words, number)
        for other in self.processes.values():
            other.globals = dict(process.globals)


# The law, a part of the sentence that the machine breaks first, and the machine.
MACHINES = (
    ("Values", "that of the operand after pthread_setspecific", SetsNull),
    ("Values", "keeps the values of the other threads", SetsOfEach),
    ("Values", "NULL as its destructor is called", DestructorKeepsValue),
    ("Values", "of a key that was deleted", DeletedKeepsValues),
    ("Values", "none of these keeps the values", PassForgetsValues),
    ("Results", "the DEST of pthread_join", JoinStores0),
    ("Results", "the DEST of pthread_join", WritesToGlobals),
    ("Results", "the DEST of pthread_setcancel", NoOldValue),
    ("Results", "the DEST of pthread_self", SelfIs0),
    ("Results", "the DEST of waitpid", ReapStoresNothing),
    ("Results", "the DEST of waitpid", NoChildIs0),
    ("Results", "the DEST of fork", ForkAnswers0),
    ("Results", "the DEST of pthread_create", CreateStoresNoNumber),
    ("Results", "the DEST of", ResultsInOtherOrder),
    ("Results", "the DEST of pthread_getspecific", GetsNothing),
    ("Frames", "keeps the functions in which its thread is", HandlersReturnAtOnce),
    ("Frames", "a call adds a frame", NoCallByDo),
    ("Frames", "a return takes the frame", ReturnTakesAll),
    ("Frames", "where its caller is", CallsAgain),
    ("Frames", "where its test leads", ElseIsNeverTaken),
    ("Frames", "with the next statement", TakeReturnsToItsCall),
    ("Frames", "with the next statement", PushIsLeftOut),
    ("Frames", "is in no function", ExitKeepsFrames),
    ("Frames", "a new frame has the argument", HandlerGets0),
    ("NewThreads", "with its argument", NewWithout),
    ("NewThreads", "is enabled and deferred", NewIsDisabled),
    ("NewThreads", "no values", NewHasValues),
    ("NewThreads", "no handlers", NewHasHandlers),
    ("NewThreads", "is detached as its pthread_create says", NewIsJoinable),
    ("NewThreads", "a replica has the values", ChildWithoutValues),
    ("NewThreads", "without a request", ChildWithRequest),
    ("NewThreads", "a replica has the handlers", ChildWithoutHandlers),
    ("NewThreads", "a replica has the enabled", ChildIsEnabled),
    ("NewThreads", "a child has the variables", ChildWithOtherGlobals),
    ("NewThreads", "a child has the owners", ChildWithFreeMutexes),
    ("NewThreads", "a child has the keys", ChildWithoutKeys),
    ("NewThreads", "a child has the exit_functions", ChildWithoutExits),
    ("NewThreads", "it is restricted if", ChildIsNeverRestricted),
    ("NewThreads", "one thread, the replica", ChildWithAllThreads),
    ("NewThreads", "the handlers that were registered at its call", PrepareInOrder),
    ("NewThreads", "as no handler is left", OneForkHandler),
    ("WakeUps", "is unblocked, with the mutex", SignalUnblocksNobody),
    ("WakeUps", "nobody only if nobody waits", SignalIsToNobody),
    ("WakeUps", "stays as it is without a signal", SignalUnblocksAll),
    ("WakeUps", "is unblocked, with the mutex", BroadcastUnblocksOne),
    ("WakeUps", "stays as it is without a signal", UnlockUnblocks),
    ("WakeUps", "hands the signal on", SignalIsLost),
    ("WakeUps", "is unblocked, with the mutex", HandedToNobody),
    ("WakeUps", "waits on its operands", WaitReturnsAtOnce),
    ("WakeUps", "waits on its operands", WaitIsForgotten),
    ("WakeUps", "leaves it, and goes for its mutex", TimesOutAtOnce),
    ("WakeUps", "leaves it, and goes for its mutex", TimeExpiresForNobody),
    ("WakeUps", "stays as it is without a signal", TimeExpiresOfAll),
    ("WakeUps", "ETIMEDOUT exactly if", SignalTimesOut),
    ("WakeUps", "ETIMEDOUT exactly if", TimeOutGives0),
    ("WakeUps", "only while the count is 0", TimesOutWithACount),
    ("WakeUps", "hands the signal on", ExpiredHandsOn),
    ("Results", "the DEST of", TimeOutStoresNothing),
    ("Results", "the DEST of", TimedWaitStoresNo0),
    ("Registrations", "owners and counts", TimesOutWithoutMutex),
    ("Registrations", "owners and counts", TimeOutTakes),
    ("Registrations", "owners and counts", ReturnsWithoutMutex),
    ("Registrations", "a once control changes", OnceIsNotBusy),
    ("Registrations", "a once control changes", RoutineLeavesItsControlBusy),
    ("Registrations", "a once control changes", RoutineLeavesItsControlFresh),
    ("Registrations", "a once control changes", EndLeavesControlsBusy),
    ("Registrations", "a once control changes", EndLeavesControlsDone),
    ("Registrations", "a once control changes", EndFreesAllControls),
    ("Controls", "calls nothing only after one return", OnceCallsNothing),
    ("Controls", "of a control that is fresh", OnceCallsAgain),
    ("Controls", "shows that its control is done", RoutineShowsNoReturn),
    ("Frames", "a new frame has the argument", RoutineGets1),
    ("NewThreads", "a child has the onces", ChildWithFreshControls),
    ("Registrations", "atexit makes its function the newest", AtexitRegistersNothing),
    ("Registrations", "atexit makes its function the newest", AtexitRegistersLast),
    ("Registrations", "with the destructor", KeyWithoutDestructor),
    ("Registrations", "owners and counts", PostAddsNothing),
    ("OtherThreads", "a request comes by pthread_cancel", CancelDoesNothing),
    ("OtherThreads", "a request comes by pthread_cancel", CancelsEach),
    ("OtherThreads", "becomes detached by pthread_detach", DetachesNobody),
    ("OtherThreads", "keeps the functions, the handlers", EndTakesHandlers),
    ("OtherThreads", "changes no other process", ChildFollowsGlobals),
)
