"""Random scripts, with requests, asynchronous cancelability, destructors that set values again, condition waits, timed waits, once controls,
forks, fork handlers, results that are stored and shown, and exits in handlers.
"""
import random

SAFE_POINTS = ("read", "write", "sleep", "close")
POINTS = SAFE_POINTS + ("pause", "nanosleep", "printf", "fopen", "poll", "sigwait")


class Scripts:
    """Makes a random script, with a random number of workers, handlers and destructors. Besides these it has the functions p0,
    p1 and p2, which are plain and registered with atexit and pthread_atfork, q, which emits, b, which sets a value between a
    push and a pop, and u and v, which unlock the mutexes; in some scripts the once controls o0 and o1 and the init routines i0, i1 and
    i2; the keys k0 and k1, the globals g and n, which are counted, and go, which
    opens the condition waits."""

    def __init__(self, seed):
        self.random = random.Random(seed)
        self.workers = [f"w{i}" for i in range(self.random.choice([1, 2, 3, 3]))]
        self.handlers = [f"h{i}" for i in range(self.random.randint(1, 3))]
        self.destructors = ["d0", "d1"]
        self.plain = ["p0", "p1", "p2"]
        self.threads = [f"t{i}" for i in range(len(self.workers))]
        self.forks = self.random.random() < 0.45
        self.exits = self.random.random() < 0.25
        self.own = None
        # In a crowd, all workers wait on the condition variable first.
        self.crowd = self.random.random() < 0.35
        # In a script that is wild, calls are made where they may stop the run.
        self.wild = self.random.random() < 0.15
        # In a script that is timed, many waits have a time.
        self.timed = self.random.random() < 0.5
        # In some scripts there are once controls, with these init routines.
        self.routines = ["i0", "i1", "i2"] if self.chance(0.45) else []
        # In a quiet one, the parts around pushes, points and requests are rare, and ends are frequent.
        self.quick = self.random.random() < 0.3

    def one(self, *choices):
        return self.random.choice(choices)

    def chance(self, part):
        return self.random.random() < part

    def value(self):
        return self.one("0", "1", "2", "7", "x", "g")

    def asynchronous(self, out, inner=()):
        out.append("pthread_setcanceltype asynchronous -")
        for _ in range(self.random.randint(1, 4)):
            out.append(self.one("emit x", "set y 3", "add y 1", "nop", "do q 2", "pthread_self y" if self.wild else "nop", f"pthread_cancel {self.one(*self.threads)}" if self.wild else "add g 1"))
        out.extend(inner)
        out.append("pthread_setcanceltype deferred -")

    def disabled(self, out, depth, kind):
        out.append(f"pthread_setcancelstate disable {self.one('-', 'y')}")
        self.part(out, depth + 1, kind)
        if kind == "worker" or self.wild:
            if self.chance(0.85):
                out.append("pthread_setcancelstate enable -")

    def cond_wait(self, cond, mutex):
        """A wait on a condition variable. Its result, if it has one, goes to a local that is shown, or is dropped."""
        if not self.timed or self.chance(0.5):
            return [f"pthread_cond_wait {cond} {mutex}"]
        timed = f"pthread_cond_timedwait r {cond} {mutex}"
        # In a loop the thread waits again after each time-out, so that a signal may come.
        again = ["set y 12", "while y", timed, "add y 4294967295", "if r", "else", "set y 0", "end", "end", "emit r"]
        return self.one([timed, "emit r"], [f"pthread_cond_timedwait - {cond} {mutex}"], again, again)

    def sem_wait(self):
        if not self.timed or self.chance(0.4):
            return ["sem_wait s"]
        return self.one(["sem_timedwait r s", "emit r"], ["sem_timedwait - s"], ["sem_timedwait y s", "if y", "sem_post s", "end"])

    def once(self):
        return f"pthread_once {self.one('o0', 'o0', 'o1')} {self.one(*self.routines)}"

    def waits(self, out):
        guarded = self.chance(0.7)
        out.append("pthread_mutex_lock m")
        if guarded:
            out.append("pthread_cleanup_push u 0")
        if self.chance(0.5):
            out += ["set go 0", *self.cond_wait("c", "m")]
        else:
            out += ["if go", "else", *self.cond_wait("c", "m"), "end"]
        out.append("pthread_cleanup_pop 1" if guarded else "pthread_mutex_unlock m")

    def other_waits(self, out):
        """A wait on another condition variable, with another mutex."""
        out += ["pthread_mutex_lock l", "pthread_cleanup_push v 0", *self.cond_wait("d", "l"), "pthread_cleanup_pop 1"]

    def results(self, out):
        """A call whose results are stored and shown, and may go to one variable."""
        result = self.one("r", "y")
        out += self.one(
            [f"pthread_getspecific y {self.one('k0', 'k1')}"],
            [f"pthread_getspecific g {self.one('k0', 'k1')}"],
            [f"pthread_create {result} y q 7{self.one('', ' detached')}", f"emit {result}"],
            [f"pthread_key_create {result} y {self.one('d1', '-')}", f"emit {result}", "pthread_setspecific y 4"] + self.one([], ["pthread_key_delete y"]),
            [f"atexit y {self.one(*self.plain)}"],
            [f"pthread_atfork y {self.one(*self.plain)} - {self.one(*self.plain)}"],
            ["pthread_setcanceltype deferred y"],
            [f"waitpid {result} {self.one('0', '9', 'p')} y", f"emit {result}"],
            ["pthread_self y"],
        )
        out.append(f"emit {self.one('y', 'y', 'g')}")

    def pending_fork(self, out, depth):
        """A fork, with cancelability disabled, while a request may be pending for the thread."""
        out += ["pthread_setcancelstate disable -", "pthread_self y", "pthread_cancel y"]
        self.fork(out, depth, "worker")
        out.append("pthread_setcancelstate enable y")

    def fork(self, out, depth, kind):
        out += [self.one("fork r p", "fork r p", "fork r p", "fork p p"), "if r", "else", "if p"]
        if self.chance(0.6):
            out.append("waitpid - p y")
        self.part(out, depth + 1, kind)
        out.append("else")
        if self.chance(0.5):
            self.part(out, depth + 1, kind)
        else:
            out.append(self.one("read", "emit 5", "write", "nop"))
        if self.chance(0.5):
            out.append(f"_exit {self.one('3', '300', 'x')}")
        elif kind == "worker" and self.chance(0.3):
            out.append(f"pthread_exit {self.value()}")
        out += ["end", "end"]

    def pushed(self, out, depth, kind):
        out.append(f"pthread_cleanup_push {self.one(*self.handlers)} {self.value()}")
        if kind == "worker" and depth < 2 and self.chance(0.4):
            out.append(f"pthread_cleanup_push {self.one(*self.handlers)} {self.value()}")
            self.part(out, depth + 1, kind, inner=True)
            out.append("pthread_cleanup_pop 0")
        if depth < 3 and self.chance(0.3):
            self.pushed(out, depth + 1, kind)
        for _ in range(self.random.randint(0, 2)):
            self.part(out, depth + 1, kind, inner=True)
        out.append(f"pthread_cleanup_pop {self.one('0', '1', '1')}")

    def part(self, out, depth, kind, inner=False):
        """One part of a body: of a worker or of main, of a handler, or of a destructor."""
        if depth > 3:
            out.append("emit x")
            return
        ways = ["emit", "point", "point", "test", "set", "keys", "pushed", "pushed", "pushed", "sem", "signal", "locked", "results", "results"]
        if kind == "worker":
            ways += ["disabled", "disabled", "asynchronous", "asynchronous", "waits", "waits", "self", "exit_thread", "cancel", "cancel", "join", "detach", "no_child", "other_waits"]
            if self.forks:
                ways += ["fork", "fork", "pending_fork"]
        else:
            ways += ["disabled", "type", "cancel"]
            if self.wild:
                ways += ["exit_thread", "enable", "fork"]
        if self.exits:
            ways += ["exit", "_exit"]
        if self.routines:
            ways += ["once", "once", "once"]
        if self.timed:
            ways += ["sem"]
        way = self.one(*ways)
        if inner and kind == "worker" and self.chance(0.35):
            way = self.one("waits", "ends", "exit_thread", "fork" if self.forks else "waits")
        if way == "emit":
            out.append(f"emit {self.value()}")
        elif way == "ends":
            out += self.one(["pthread_self y", "pthread_cancel y", "pthread_testcancel"], [f"pthread_exit {self.value()}"], ["pause"], ["sigwait"])
        elif way == "point":
            out.append(self.one(*POINTS))
        elif way == "test":
            out.append("pthread_testcancel")
        elif way == "set":
            out.append(f"add g {self.one('1', '4294967295')}")
        elif way == "keys":
            out.append(f"pthread_setspecific {self.one('k0', 'k1')} {self.one('1', '5', 'x', '0')}")
        elif way == "pushed":
            self.pushed(out, depth, kind)
        elif way == "sem":
            out += self.one(["sem_post s"], self.sem_wait() if self.timed else ["sem_post s"], self.sem_wait())
        elif way == "signal":
            out += [self.one("pthread_cond_signal c", "pthread_cond_broadcast c", "pthread_cond_signal d"), "set go 1"]
        elif way == "results":
            self.results(out)
        elif way == "other_waits":
            self.other_waits(out)
        elif way == "pending_fork":
            self.pending_fork(out, depth)
        elif way == "locked":
            out += ["pthread_mutex_lock m", "add g 1", "pthread_mutex_unlock m"]
        elif way == "disabled":
            self.disabled(out, depth, kind)
        elif way == "asynchronous":
            self.asynchronous(out)
        elif way == "type":
            out.append(f"pthread_setcanceltype {self.one('asynchronous', 'deferred')} -")
        elif way == "waits":
            self.waits(out)
        elif way == "self":
            out += ["pthread_self y", "pthread_cancel y"]
        elif way == "exit_thread":
            if self.chance(0.5):
                out += ["if g", f"pthread_exit {self.value()}", "end"]
        elif way == "cancel":
            target = self.one(*self.threads)
            out += [f"if {target}", f"pthread_cancel {target}", "end"]
        elif way == "join":
            others = self.threads if self.wild else [thread for thread in self.threads if thread != self.own]
            if others:
                target = self.one(*others)
                out += [f"if {target}", f"pthread_join {target} y", f"set {target} 0", "end"]
        elif way == "detach":
            if self.chance(0.5):
                target = self.one(*self.threads)
                out += [f"if {target}", f"pthread_detach {target}", f"set {target} 0", "end"]
        elif way == "once":
            out.append(self.once())
        elif way == "no_child":
            out.append(f"waitpid {self.one('-', 'r')} {self.one('0', '9', '1', 'g')} y")
        elif way == "fork":
            self.fork(out, depth, kind)
        elif way == "enable":
            out.append("pthread_setcancelstate enable -")
        elif way == "exit":
            out += ["if g", f"exit {self.one('0', '3', '257', '4294967295')}", "end"]
        elif way == "_exit":
            if self.chance(0.3):
                out.append(f"_exit {self.one('0', '2', '511')}")

    def worker(self, name):
        self.own = "t" + name[1:]
        out = [f"fn {name} x y p r"]
        for _ in range(self.random.randint(0, 2)):
            out.append(f"pthread_setspecific {self.one('k0', 'k1')} {self.one('1', '5', '9')}")
        if self.routines and self.chance(0.6):
            out.append(self.once())
        if self.crowd:
            out += ["pthread_mutex_lock m", "pthread_cleanup_push u 0", *self.cond_wait("c", "m"), self.one("emit 6", "pthread_testcancel", "nop"), "pthread_cleanup_pop 1"]
        for _ in range(self.random.randint(1, 3 if self.quick else 5)):
            self.part(out, 0, "worker")
        if self.chance(0.5):
            out.append(f"return {self.value()}")
        return out + ["end"]

    def handler(self, name):
        out = [f"fn {name} x y p r", "emit x"]
        for _ in range(self.random.randint(0, 2)):
            self.part(out, 2, "handler")
        if self.chance(0.3):
            out += [self.one("do q 3", "do b 2"), "emit 4"]
        if self.exits and self.chance(0.4):
            out += ["if x", f"{self.one('exit', '_exit')} {self.one('3', '257', '4294967295')}", "end"]
        return out + ["end"]

    def routine(self, name):
        out = [f"fn {name} x y p r", self.one("emit 30", "emit x", "pthread_testcancel", "read", "pause")]
        if self.chance(0.3):
            out += ["add g 4294967295", "if g", "pthread_exit 3", "end"]
        for _ in range(self.random.randint(0, 2)):
            self.part(out, 2, "worker")
        if self.chance(0.3):
            out.append(f"return {self.value()}")
        return out + ["end"]

    def destructor(self, name, key):
        out = [f"fn {name} x y p r"]
        if self.chance(0.5):
            self.part(out, 2, "destructor")
        if self.chance(0.6):
            out += self.one([f"pthread_setspecific {key} x"], ["add n 4294967295", "if n", f"pthread_setspecific {key} 6", "end"], [f"pthread_setspecific {self.one('k0', 'k1')} 8"])
        if self.chance(0.05):
            out.append(f"pthread_key_delete {self.one('k0', 'k1')}")
        return out + ["end"]

    def main(self):
        out = ["fn main x y p r", "set g 1", f"set n {self.random.randint(1, 6)}"]
        out += ["pthread_key_create - k0 d0", f"pthread_key_create - k1 {self.one('d1', 'd1', '-')}"]
        if self.chance(0.05):
            out += ["pthread_key_delete k0", "pthread_key_create - k0 d1"]
        for _ in range(self.random.choice([0, 0, 1, 2, 3]) if self.forks else 0):
            out.append(f"pthread_atfork {self.one('-', 'y')} {self.one('-', 'p0', 'p1')} {self.one('-', 'p1', 'p0')} {self.one('-', 'p2', 'p0')}")
        for _ in range(self.random.choice([0, 1, 2])):
            out.append(f"atexit - {self.one(*self.plain)}")
        if self.chance(0.3):
            out += ["pthread_cleanup_push h0 4"]
        pushed = out[-1].startswith("pthread_cleanup_push")
        if self.forks and self.chance(0.5):
            self.fork(out, 1, "worker")
        for thread, worker in zip(self.threads, self.workers):
            out.append(f"pthread_create - {thread} {worker} {self.random.randint(0, 5)}{self.one('', '', '', ' detached')}")
            if self.chance(0.3):
                self.part(out, 1, "worker")
        for thread in self.threads:
            out += ["emit 80"] * self.random.choice([0, 2, 6, 12])
            if self.chance(0.2 if self.crowd else 0.5):
                out.append(f"pthread_cancel {thread}")
            if self.chance(0.4):
                self.part(out, 1, "worker")
        if self.routines and self.chance(0.6):
            out += [self.once(), "emit 83"]
        if self.crowd:
            for _ in range(self.random.randint(1, 2)):
                out += ["pthread_mutex_lock m", self.one("pthread_cond_signal c", "pthread_cond_signal c", "pthread_cond_broadcast c")]
                for thread in self.threads:
                    if self.chance(0.6):
                        out += [f"if {thread}", f"pthread_cancel {thread}", "end"]
                out += ["emit 81"] * self.random.choice([0, 3, 6]) + ["pthread_mutex_unlock m"]
        if self.timed and self.chance(0.6):
            out += ["set y 8", "while y", "pthread_mutex_lock m", "pthread_cond_signal c", "pthread_mutex_unlock m", "add y 4294967295", "end"]
        if self.chance(0.5):
            out += ["pthread_mutex_lock m", "set go 1", "pthread_cond_broadcast c", "pthread_mutex_unlock m"]
        for thread, worker in zip(self.threads, self.workers):
            if self.chance(0.5) and not any(line == f"pthread_create - {thread} {worker} {i} detached" for line in out for i in range(6)):
                out += [f"if {thread}", f"pthread_join {thread} y", "end"]
        if pushed:
            out.append("pthread_cleanup_pop 1")
        out.append(self.one("return 0", "return 300", "pthread_exit 6", "pthread_exit 6", "exit 259"))
        return out + ["end"]

    def text(self):
        lines = ["global g", "global n", "global go", "global k0", "global k1", *(f"global {thread}" for thread in self.threads), "mutex m", "mutex l", "cond c", "cond d", "sem s 1"]
        lines += ["once o0", "once o1"] if self.routines else []
        lines += ["fn p0 x", "emit 90", "end", "fn p1 x", "pthread_mutex_lock m", "emit 91", "pthread_mutex_unlock m", "end", "fn p2 x", "if x", "else", "emit 92", "end", "end"]
        lines += ["fn q x", "emit x", "end", "fn b x", "pthread_cleanup_push q x", "pthread_setspecific k0 x", "pthread_cleanup_pop x", "return x", "end", "fn u x", "pthread_mutex_unlock m", "end", "fn v x", "pthread_mutex_unlock l", "end"]
        for name in self.routines:
            lines += self.routine(name)
        for name in self.handlers:
            lines += self.handler(name)
        for name, key in zip(self.destructors, ("k0", "k1")):
            lines += self.destructor(name, key)
        for name in self.workers:
            lines += self.worker(name)
        return "\n".join(lines + self.main()) + "\n"
