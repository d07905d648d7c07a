"""Mistakes that a run shows, for check_mistakes.py: a request that stays pending, an owner that has ended, a use that is stopped; and
what standard error has to say of them. The cases are as RUNS of first_mistakes.py.

The words and numbers are worked out by hand from docs/SCRIPT.md, FORMATS.md, POSIX.md and VIEWS.md.
"""
from first_mistakes import JOINED, WAITER, WORKER

# Main creates thread 2, requests its end, and joins it.
CANCEL = "fn main x t\npthread_create - t w 0\npthread_cancel t\npthread_join t -\nend\n"
CANCELED_OWNER = CANCEL.replace("-\nend\n", "-\npthread_mutex_lock m\nend\n")
JOINER = "fn w x\npause\nend\nfn j x\npthread_join x -\nend\nfn main x t\npthread_create - t w 0\npthread_create - - j t\n"
HANDLER = "fn h x\n{}\nend\nfn main x\npthread_cleanup_push h 0\npthread_exit 0\npthread_cleanup_pop 0\nend\n"
# An init routine of a once control, of these statements, and two threads that call it.
ONCE = "once o\nmutex m\nsem s 0\nfn i x\n{}\nend\nfn w x\npthread_once o i\nend\nfn main x t\n{}pthread_once o i\nsem_post s\nend\n"
CREATED = "pthread_create - t w 0\n"
SECOND = WORKER + "fn main x t\npthread_create - t w 0\npthread_create - t w 0\npthread_join {0} -\npthread_join {0} -\nend\n"
# Threads 2 and 3 are created, thread 3 ends, and main joins it and comes to the next join.
SECOND_TWICE = ["1 1 1 new 2", "1 1 1 new 3"] + ["1 1 3 go"] * 2 + ["1 1 1 go"] * 3

RUNS = [
    # The header of the schedules allows 100 steps.
    (
        "an endless loop with a request pending", ["1 1 1 new 2", "1 1 1 go", "1 1 1 go"] + ["1 1 2 go"] * 97, "budget",
        "fn w x\nwhile 1\nnop\nend\nend\n" + CANCEL, "F:2: thread 1.2 made its last 97 steps in this loop, lines 2 to 4\n    while 1\n",
        "  A request is pending for thread 1.2 since step 2, F:8: it came to no cancellation point in this loop.\n  Mend: write 'pthread_testcancel' in the loop",
    ),
    (
        "an endless loop with cancelability disabled", ["1 1 1 new 2", "1 1 2 go", "1 1 1 go", "1 1 1 go"] + ["1 1 2 go"] * 96, "budget",
        "fn w x\npthread_setcancelstate disable -\nwhile 1\npthread_testcancel\nend\nend\n" + CANCEL, "F:3: thread 1.2 made its last 96 steps in this loop",
        "  A request is pending for thread 1.2 since step 3, F:9: its cancelability is disabled, since step 2, F:2.\n  Mend: set the state back",
    ),
    (
        "a lock with a request pending", ["1 1 1 go", "1 1 1 new 2", "1 1 1 go", "1 1 1 go"], "deadlock",
        "mutex m\nfn w x\npthread_mutex_lock m\nend\n" + CANCEL.replace("x t\n", "x t\npthread_mutex_lock m\n"),
        "F: deadlock after 4 steps", "F:3: thread 1.2 waits for mutex m, held by 1.1: pthread_mutex_lock m\n    thread 1.1 acquired m in step 1, F:6\n",
        "    A request is pending for thread 1.2 since step 3, F:8: pthread_mutex_lock is no cancellation point.\n  Cycle:",
        "  Mend: unlock the mutex before the join of the canceled thread",
    ),
    (
        "a condition wait with cancelability disabled", ["1 1 1 new 2", "1 1 2 go", "1 1 1 go", "1 1 2 go", "1 1 2 go", "1 1 1 go"], "deadlock",
        WAITER.replace("w x\n", "w x\npthread_setcancelstate disable -\n") + CANCEL, "F:6: thread 1.2 waits for condition variable c",
        "    no signal and no broadcast of c was made in this process\n",
        "    A request is pending for thread 1.2 since step 3, F:11: its cancelability is disabled, since step 2, F:4.\n  Mend: set the state back",
    ),
    (
        "a mutex that a canceled thread left locked",
        ["1 1 1 new 2", "1 1 2 go", "1 1 1 go", "1 1 2 act 0", "1 1 2 go", "1 1 1 go", "1 1 1 go"], "deadlock",
        "mutex m\nfn w x\npthread_mutex_lock m\npthread_testcancel\npthread_mutex_unlock m\nend\n" + CANCELED_OWNER,
        "F:11: thread 1.1 waits for mutex m, held by 1.2: pthread_mutex_lock m\n",
        "    thread 1.2 acquired m in step 2, F:3, acted on a request in step 4, F:4, and ended in step 5 without an unlock: it had pushed no handler\n",
        "  Mend: after the lock push a handler that unlocks",
    ),
    (
        "a canceled thread whose handler does not unlock",
        ["1 1 1 new 2", "1 1 2 go", "1 1 2 go", "1 1 1 go", "1 1 2 act 0"] + ["1 1 2 go"] * 3 + ["1 1 1 go"] * 2, "deadlock",
        "mutex m\nfn h x\nend\nfn w x\npthread_mutex_lock m\npthread_cleanup_push h 0\npthread_testcancel\npthread_cleanup_pop 0\nend\n" + CANCELED_OWNER,
        "acted on a request in step 5, F:7, and ended in step 8 without an unlock: no handler that it had pushed unlocks m\n",
    ),
    # The handler tests its argument, which is 0, and so does not unlock.
    (
        "a canceled thread whose handler has an unlock",
        ["1 1 1 new 2", "1 1 2 go", "1 1 2 go", "1 1 1 go", "1 1 2 act 0"] + ["1 1 2 go"] * 4 + ["1 1 1 go"] * 2, "deadlock",
        "mutex m\nfn h x\nif x\npthread_mutex_unlock m\nend\nend\nfn w x\npthread_mutex_lock m\npthread_cleanup_push h 0\npthread_testcancel\n"
        "pthread_cleanup_pop 0\nend\n" + CANCELED_OWNER, "and ended in step 9 without an unlock: its handler h has an unlock of m\n", "  Usual cause:",
    ),
    (
        "a wait for a semaphore with the mutex locked", ["1 1 1 new 2", "1 1 2 go", "1 1 2 go"], "deadlock",
        "mutex m\nsem s 0\nfn w x\npthread_mutex_lock m\nsem_wait s\nend\nfn main x\npthread_create - - w 0\npthread_mutex_lock m\nsem_post s\nend\n",
        "F:9: thread 1.1 waits for mutex m, held by 1.2", "    thread 1.2 acquired m in step 2, F:4\n", "  Mend: let the owner unlock the mutex before it waits",
    ),
    (
        "a pthread_once in its own routine", "", "deadlock", "once o\nfn i x\npthread_once o i\nend\nfn main x\npthread_once o i\nend\n",
        "F: deadlock after 1 step: no thread can go on, and 1 has not ended\nF:3: thread 1.1 waits for once control o, called by 1.1: pthread_once o i\n",
        "    thread 1.1 itself called the init routine i in step 1, F:6: pthread_once on o in its own routine waits for the return of the routine\n",
        "  Mend: leave 'pthread_once' on the control out of its init routine",
    ),
    (
        "an init routine that waits for the post of another caller", ["1 1 1 new 2", "1 1 2 go", "1 1 2 go"], "deadlock", ONCE.format("sem_wait s", CREATED),
        "F:12: thread 1.1 waits for once control o, called by 1.2: pthread_once o i\n    thread 1.2 called the init routine i in step 2, F:8, and it has not returned\n",
        "F:5: thread 1.2 waits for semaphore s: sem_wait s\n    no sem_post s was made in this process\n", "  Mend: let the init routine return without this wait.",
    ),
    (
        "an init routine that locks the mutex of another caller", ["1 1 1 new 2", "1 1 1 go", "1 1 2 go"], "deadlock",
        ONCE.format("pthread_mutex_lock m", CREATED + "pthread_mutex_lock m\n"), "F:13: thread 1.1 waits for once control o, called by 1.2",
        "  Cycle: thread 1.1 waits for 1.2, which waits for 1.1.\n  Mend: let the init routine return without this wait.",
    ),
    (
        "an init routine that pauses", ["1 1 1 new 2", "1 1 2 go", "1 1 2 go"], "deadlock", ONCE.format("pause", CREATED),
        "F:12: thread 1.1 waits for once control o, called by 1.2", "F:5: thread 1.2 waits for a signal: pause\n", "  Usual cause: 'pause' and the like",
    ),
    (
        "a pthread_once with a request pending", ["1 1 1 go", "1 1 1 new 2", "1 1 1 go", "1 1 1 go"], "deadlock",
        ONCE.replace("i x\n", "i x t\n").format(CREATED + "pthread_cancel t\npthread_join t -", ""), "F:7: thread 1.1 waits for thread 1.2: pthread_join t -\n",
        "F:10: thread 1.2 waits for once control o, called by 1.1: pthread_once o i\n    thread 1.1 called the init routine i in step 1, F:13, and it has not returned\n",
        "    A request is pending for thread 1.2 since step 3, F:6: pthread_once is no cancellation point.\n  Cycle:", "  Mend: let the init routine return before the join",
    ),
    (
        "two init routines that call each other", ["1 1 1 new 2", "1 1 1 go", "1 1 2 go"], "deadlock",
        "once a\nonce b\nfn i x\npthread_once b j\nend\nfn j x\npthread_once a i\nend\nfn w x\npthread_once b j\nend\n"
        "fn main x\npthread_create - - w 0\npthread_once a i\nend\n", "F:4: thread 1.1 waits for once control b, called by 1.2: pthread_once b j\n",
        "F:7: thread 1.2 waits for once control a, called by 1.1: pthread_once a i\n", "  Usual cause: an init routine that calls", "call 'pthread_once' on several controls in",
    ),
    # The parent returns from fork, comes to `if`, and ends; the child, whose one thread is in the routine, comes to `if`.
    (
        "a child that is in the init routine of its parent", ["1 1 1 go"] * 6 + ["1 2 1 go"] * 2, "deadlock",
        "once o\nfn i x\nfork - x\nif x\n_exit 0\nend\npthread_once o i\nend\nfn main x\npthread_once o i\nend\n",
        "F:7: thread 2.1 waits for once control o, called by 2.1: pthread_once o i\n    thread 2.1 itself called the init routine i in step 1, F:10, before the fork: ",
    ),
    # The exit function locks the mutex of the thread that waits at the control.
    (
        "a thread that exits in an init routine", ["1 1 1 go", "1 1 1 new 2", "1 1 1 go"] + ["1 1 2 go"] * 3, "deadlock",
        ONCE.replace("fn main", "fn bye x\npthread_mutex_lock m\nend\nfn main").format("exit 0", "atexit - bye\n" + CREATED + "pthread_mutex_lock m\n"),
        "F:17: thread 1.1 waits for once control o, called by 1.2: pthread_once o i\n",
        "    thread 1.2 called the init routine i in step 4, F:8, and began to exit the process in step 5, F:5\n",
    ),
    ("a join of a number of no thread", "", "undefined thread_id", "fn main x\npthread_join 7 -\nend\n", "    pthread_join 7 -\n  No thread of process 1 ever had this number.\n  Use:"),
    (
        "a number joined twice", ["1 1 1 new 2", "1 1 2 go", "1 1 2 go", "1 1 1 go", "1 1 1 go", "1 1 1 go"], "undefined thread_id",
        JOINED + "pthread_join 2 -\npthread_join 2 -\nend\n", "    pthread_join 2 -\n  Thread 1.2 was joined in step 5, thread 1.1, F:5.\n  Use:",
    ),
    (
        "another thread in place of the second one", SECOND_TWICE, "undefined thread_id", SECOND.format(3),
        "  Thread 1.3 was joined in step 6, thread 1.1, F:6; not joined: 1.2.\n",
    ),
    (
        "a number detached and joined", ["1 1 1 new 2", "1 1 1 go", "1 1 1 go"], "undefined not_joinable",
        JOINED + "pthread_detach 2\npthread_join 2 -\nend\n", "    pthread_join 2 -\n  Thread 1.2 was detached in step 2, thread 1.1, F:5.\n  Use:",
    ),
    (
        "a join of a thread that another one joins", ["1 1 1 new 2", "1 1 1 new 3", "1 1 3 go", "1 1 1 go"], "undefined join_twice",
        JOINER + "pthread_join t -\nend\n", "    pthread_join t -\n  Thread 1.3 is in this join since step 3, F:5.\n  Use:",
    ),
    (
        "a detach of a thread that another one joins", ["1 1 1 new 2", "1 1 1 new 3", "1 1 3 go", "1 1 1 go"], "undefined detach_joined",
        JOINER + "pthread_detach t\nend\n", "    pthread_detach t\n  Thread 1.3 is in this join since step 3, F:5.\n  Use:",
    ),
    (
        "a second unlock", "", "undefined not_owner", "mutex m\nfn main x\npthread_mutex_lock m\npthread_mutex_unlock m\npthread_mutex_unlock m\nend\n",
        "F:5: undefined not_owner", "  Mutex m has no owner: it was released in step 2, thread 1.1, F:4.\n  Use:",
    ),
    (
        "a wait with another mutex", ["1 1 1 new 2", "1 1 2 go", "1 1 2 go", "1 1 1 go", "1 1 1 go"], "undefined cond_two_mutexes",
        "mutex n\n" + WAITER + "fn main x\npthread_create - - w 0\npthread_mutex_lock n\npthread_cond_wait c n\nend\n",
        "  Thread 1.2 is in pthread_cond_wait c m", " since step 3.\n  Use:",
    ),
    (
        "a timed wait without its mutex", "", "undefined not_owner", "mutex m\ncond c\nfn main x\npthread_cond_timedwait - c m\nend\n",
        "F:4: undefined not_owner, step 1 of thread 1.1 in main\n", "  Mutex m has no owner: no thread of process 1 has locked it.\n  Use:",
    ),
    (
        "a timed wait with a second mutex", ["1 1 1 new 2", "1 1 2 go", "1 1 2 go", "1 1 1 go", "1 1 1 go"], "undefined cond_two_mutexes",
        "mutex n\n" + WAITER + "fn main x\npthread_create - - w 0\npthread_mutex_lock n\npthread_cond_timedwait - c n\nend\n",
        "  Thread 1.2 is in pthread_cond_wait c m", " since step 3.\n  Use:",
    ),
    (
        "a timed wait under format 1", ["1 1 1 go", "1 1 1 go"], "deadlock", "mutex m\ncond c\nfn main x\npthread_mutex_lock m\npthread_cond_timedwait - c m\nend\n",
        "F:5: thread 1.1 waits for condition variable c: pthread_cond_timedwait - c m\n    a schedule of format 1 has no 'expire': under it the time of no wait expires\n",
        "  Mend: write 'schedule 2' in the place of 'schedule 1' in the header.",
    ),
    (
        "a sem_timedwait under format 1", ["1 1 1 go"], "deadlock", "sem s 0\nfn main r\nsem_timedwait r s\nend\n",
        "F:3: thread 1.1 waits for semaphore s: sem_timedwait r s\n    a schedule of format 1 has no 'expire'", "  Mend: write 'schedule 2'",
    ),
    (
        "a handler that enables", "", "undefined enable_in_handler", HANDLER.format("pthread_setcancelstate enable -"),
        "  Thread 1.1 is in the cleanup handler h, called in step 3.\n  Use:",
    ),
    (
        "a handler that ends the thread", "", "undefined exit_in_ending", HANDLER.format("pthread_exit 1"),
        "  Thread 1.1 began to end in step 2, F:6, and is in the cleanup handler h, called in step 3.\n  Use:",
    ),
    (
        "two calls of exit", ["1 1 1 new 2", "1 1 1 go", "1 1 2 go"], "undefined exit_twice", "fn w x\nexit 1\nend\nfn main x\npthread_create - - w 0\nexit 2\nend\n",
        "F:2: undefined exit_twice", "  Exit began in process 1 in step 2, thread 1.1, F:6.\n  Use:",
    ),
]

# Stops whose operand is a variable. Its value is read from `states`, which an older pct_inspect does not have.
OPERANDS = [
    (
        "a variable that has another thread", SECOND_TWICE, "undefined thread_id", SECOND.format("t"),
        "  't' is 3: thread 1.3 was joined in step 6, thread 1.1, F:6; not joined: 1.2.\n",
    ),
    (
        "a local of the newest frame", "", "undefined thread_id", "fn f x t\npthread_join t -\nend\nfn main x t\nset t 5\ndo f 7\nend\n",
        "  't' is 0: no thread of process 1 ever had this number.\n",
    ),
    (
        "a global with the number of a deleted key", ["1 1 1 new 1", "1 1 1 go", "1 1 1 go"], "undefined key_id",
        "global k\nfn main x\npthread_key_create - k -\npthread_key_delete k\npthread_setspecific k 1\nend\n",
        "  'k' is 1: key 1 was deleted in step 2, thread 1.1, F:4.\n",
    ),
    (
        "a thread that ended detached", ["1 1 1 new 2"] + ["1 1 2 go"] * 2 + ["1 1 1 go"], "undefined thread_id",
        WORKER + "fn main x t\npthread_create - t w 0 detached\npthread_join t -\nend\n",
        "  't' is 2: thread 1.2 was created detached in step 1, thread 1.1, F:4, and ended in step 3.\n",
    ),
]
