"""Mistakes of a first afternoon, for check_mistakes.py: what they are, and what standard error has to say of them.

The words and numbers are worked out by hand from docs/SCRIPT.md, FORMATS.md, POSIX.md and VIEWS.md.
"""

WORKER = "fn w x\nend\n"
ONCE = "once o\n" + WORKER

# Scripts that are refused: the name, the reason, the line, the script, and the sentence on the word.
REFUSED = [
    ("a string", "bad_name", 2, 'fn main x\nemit "hello"\nend\n', "There are no strings: 'emit V' takes a number", "  Mend: emit a number in its place"),
    ("a string of two words", "word_count", 2, 'fn main x\nemit "hello world"\nend\n', "and 2 words are after 'emit'", "There are no strings"),
    (
        "a comparison", "word_count", 2, "fn main x\nif x == 1\nend\nend\n", "Its form is 'if V'", "'==' is an operator, and there are no expressions",
        "Mend: 'set d x' and 'add d 4294967295' (which subtracts 1), with d a further local, make d 0 if x is 1.",
    ),
    ("a comparison in brackets", "word_count", 2, "fn main v\nif (v == 3)\nend\nend\n", "'set d v' and 'add d 4294967293'"),
    ("a loop as in C", "unknown_word", 2, "fn main n\nwhile(n < 3)\nend\nend\n", "it is 'while V'", "Mend: count down to 0: 'set i 3'"),
    ("a comparison without blanks", "bad_name", 2, "fn main v\nif v==3\nend\nend\n", "'v==3' is an expression", "'set d v' and 'add d 4294967293'"),
    ("a test for 0", "word_count", 2, "fn main v\nif v == 0\nend\nend\n", "'==' is an operator", "Mend: write 'if v', and after its 'else' what is for 0."),
    ("a test for another value than 0", "word_count", 2, "fn main v\nif v != 0\nend\nend\n", "'!=' is an operator", "Mend: write 'if v'.\n"),
    ("a loop that counts up", "word_count", 2, "fn main n\nwhile n < 3\nend\nend\n", "'<' is an operator", "Mend: count down to 0: 'set i 3' before the loop, 'while i'"),
    ("a loop until a value", "word_count", 2, "fn main n\nwhile n != 3\nend\nend\n", "'add d 4294967293'", "again before its 'end'."),
    ("a loop as long as a value", "word_count", 2, "fn main n\nwhile n == 3\nend\nend\n", "'add d 4294967293'", "an 'if d' that sets w to 0."),
    ("an if with an order", "word_count", 2, "fn main n\nif n > 3\nend\nend\n", "'>' is an operator", "Mend: count a variable down to 0"),
    ("a sum", "word_count", 2, "fn main n\nemit n + 1\nend\n", "'+' is an operator", "Mend: compute it before in lines of their own"),
    ("a global with a value", "word_count", 1, "global n = 5\nfn main x\nend\n", "'=' is an operator", "write 'global n', and 'set n 5' in a function."),
    ("a set with an equals sign", "word_count", 2, "fn main n\nset n = 5\nend\n", "'=' is an operator", "Mend: write 'set n 5'.\n"),
    ("a semaphore without its count", "word_count", 1, "sem s\nfn main x\nend\n", "Its form is 'sem NAME N'", "Mend: write 'sem s 0', or another count"),
    ("a state without its result", "word_count", 2, "fn main x\npthread_setcancelstate disable\nend\n", "and 1 word is after", "Mend: write 'pthread_setcancelstate disable -', or"),
    ("a return without a value", "word_count", 2, "fn main x\nreturn\nend\n", "Its form is 'return V'", "Mend: write 'return 0', or"),
    ("a brace after an if", "word_count", 2, "fn main x\nif x {\nemit 1\n}\nend\n", "Its form is 'if V'", "There are no braces", "Mend: leave the braces out"),
    ("a brace for an end", "unknown_word", 4, "fn main x\nif x\nemit 1\n}\nend\n", "There are no braces"),
    ("a semicolon after a number", "bad_number", 2, "fn main x\nemit 1;\nend\n", "'1;' has the syntax of C", "semicolons", "Mend: write 'emit 1'.\n"),
    ("a semicolon after a name", "bad_name", 2, "fn main x\nemit x;\nend\n", "'x;' has the syntax of C", "Mend: write 'emit x'.\n"),
    ("a lock as in C", "unknown_word", 3, "mutex m\nfn main x\npthread_mutex_lock(&m);\nend\n", "it is 'pthread_mutex_lock M'", "Mend: write 'pthread_mutex_lock m'.\n"),
    ("a join as in C", "unknown_word", 2, "fn main t\npthread_join(t, NULL);\nend\n", "it is 'pthread_join V DEST'", "Mend: write 'pthread_join t -'.\n"),
    (
        "a state as in C", "unknown_word", 2, "fn main x\npthread_setcancelstate PTHREAD_CANCEL_DISABLE -\nend\n",
        "'PTHREAD_CANCEL_DISABLE' is in the place of 'enable' or 'disable'.", "Mend: write 'pthread_setcancelstate disable -'.\n",
    ),
    ("a semicolon after a word", "unknown_word", 2, "fn main x\nreturn;\nend\n", "it is 'return V'"),
    (
        "pthread_create as in C", "unknown_word", 4, WORKER + "fn main x t\npthread_create(&t, NULL, w, NULL);\nend\n",
        "has the syntax of C: it is 'pthread_create DEST DEST FN V' or", "without brackets", "Mend: write 'pthread_create - t worker 0', with your names.",
    ),
    ("an address", "bad_name", 4, WORKER + "fn main x t\npthread_create - &t w 0\nend\n", "'&t' has the '&' of C", "Mend: write 't'.\n"),
    ("an address as an argument", "bad_name", 4, WORKER + "fn main x\npthread_create - - w &x\nend\n", "'&x' has the '&' of C", "Mend: write 'x', its value."),
    (
        "pthread_create without its result", "word_count", 4, WORKER + "fn main x t\npthread_create t w 0\nend\n",
        "Its form is 'pthread_create DEST DEST FN V'", "and 3 words are after", "or '-' to drop the result", "Mend: write 'pthread_create - t w 0'. The first DEST",
    ),
    ("a join without DEST", "word_count", 2, "fn main t\npthread_join t\nend\n", "Its form is 'pthread_join V DEST', and 1 word is after", "Mend: write 'pthread_join t -', or"),
    ("a join with NULL", "unknown_name", 2, "fn main t\npthread_join t NULL\nend\n", "write '-' for a result"),
    (
        "a join of the name of a function", "unknown_name", 4, WORKER + "fn main x\npthread_join w -\nend\n",
        "the word 'w' has to be a variable", "and it is a function,", "line 1. A thread is named by the number", "Mend: write 'pthread_create - t w 0' with a local t, and 'pthread_join t'",
    ),
    (
        "a local of another function", "unknown_name", 5, "fn w x v\nset v 1\nend\nfn main x\nemit v\nend\n",
        "the word 'v' has to be a variable, a local of 'main' or a global, and it is a local of 'w', line 1.", "Mend: add 'v' to the line 'fn main'.",
    ),
    ("an undeclared variable", "unknown_name", 2, "fn main x\nemit v\nend\n", "nothing of this name is", "Mend: add 'v' to the line 'fn main', or"),
    ("an undeclared mutex", "unknown_name", 2, "fn main x\npthread_mutex_lock m\nend\n", "nothing of this name is declared", "Mend: add a line 'mutex m' outside functions."),
    ("an undeclared condition variable", "unknown_name", 2, "fn main x\npthread_cond_signal c\nend\n", "Mend: add a line 'cond c' outside functions."),
    ("an undeclared semaphore", "unknown_name", 2, "fn main x\nsem_post s\nend\n", "Mend: add a line 'sem s 0' outside functions"),
    ("an undeclared function", "unknown_name", 2, "fn main x\ndo f 1\nend\n", "Mend: add the function, as 'fn f x' with its 'end'"),
    ("a mutex declared in a function", "misplaced", 2, "fn main x\nmutex m\nend\n", "The function 'main' of line 1 is open here", "Mend: move the line out of the function"),
    (
        "a timed wait with a time", "bad_name", 4, "mutex m\ncond c\nfn main x\npthread_cond_timedwait c m 5\nend\n",
        "'5' is in the place of M, the name of a mutex.", "  Mend: write 'pthread_cond_timedwait - c m'. DEST is a variable for the result, 0 or 4 (ETIMEDOUT), or '-'. No time\n    is given",
    ),
    (
        "a timed wait without its result", "word_count", 4, "mutex m\ncond c\nfn main r\npthread_cond_timedwait c m\nend\n",
        "Its form is 'pthread_cond_timedwait DEST C M', and 2 words are after", "  Mend: write 'pthread_cond_timedwait - c m'.",
    ),
    (
        "a timed wait as in C", "unknown_word", 4, "mutex lock\ncond full\nfn main r\npthread_cond_timedwait(&full, &lock, &until);\nend\n",
        "it is 'pthread_cond_timedwait DEST C M', without brackets", "  Mend: write 'pthread_cond_timedwait - full lock'.",
    ),
    (
        "a timed wait for a mutex", "unknown_name", 4, "mutex m\ncond c\nfn main r\npthread_cond_timedwait r m c\nend\n",
        "the word 'm' has to be a condition variable, and it is a mutex, line 1.", "  Mend: write 'pthread_cond_timedwait r c m'.",
    ),
    ("sem_timedwait without its result", "word_count", 3, "sem s 0\nfn main r\nsem_timedwait s\nend\n", "Its form is 'sem_timedwait DEST S'", "  Mend: write 'sem_timedwait - s'."),
    ("sem_timedwait with a time", "unknown_name", 3, "sem s 0\nfn main t\nsem_timedwait s t\nend\n", "the word 's' has to be a variable", "  Mend: write 'sem_timedwait t s'."),
    ("sem_timedwait of an unknown semaphore", "unknown_name", 2, "fn main r\nsem_timedwait r s\nend\n", "'s' has to be a semaphore", "  Mend: add a line 'sem s 0'"),
    (
        "a mutex where a condition variable is needed", "unknown_name", 4, "mutex m\ncond c\nfn main x\npthread_cond_wait m c\nend\n",
        "In 'pthread_cond_wait C M' the word 'm' has to be a condition variable, and it is a mutex, line 1.", "Mend: write 'pthread_cond_wait c m'.\n",
    ),
    ("a mutex in another case", "unknown_name", 3, "mutex Lock\nfn main x\npthread_mutex_lock lock\nend\n", "line 1 declares 'Lock'."),
    ("pthread_mutex_trylock", "unknown_word", 3, "mutex m\nfn main x\npthread_mutex_trylock m\nend\n", "It is not in this language.\n", "  Mend: write 'pthread_mutex_lock M'"),
    ("a once control of C", "unknown_word", 1, "pthread_once_t o = PTHREAD_ONCE_INIT;\n" + WORKER, "A once control has no initializer", "by 'once NAME'.\n"),
    ("pthread_once as in C", "unknown_word", 5, ONCE + "fn main x\npthread_once(&o, w);\nend\n", "it is 'pthread_once O FN', without brackets", "Mend: write 'pthread_once o w'.\n"),
    ("pthread_once in another case", "unknown_word", 5, ONCE + "fn main x\npthread_Once o w\nend\n", "It is 'pthread_once O FN', in lower case.\n"),
    ("a misspelled pthread_once", "unknown_word", 5, ONCE + "fn main x\npthread_onec o w\nend\n", "'pthread_onec' begins no declaration and no statement.\n", "Usual cause:", "Mend: compare the line"),
    (
        "once for pthread_once", "word_count", 5, ONCE + "fn main x\nonce o w\nend\n",
        "Its form is 'once NAME', and 2 words are after 'once'.\n", "Mend: write 'pthread_once o w'. The control is declared outside functions, by 'once o'.\n",
    ),
    ("pthread_once without its init routine", "word_count", 5, ONCE + "fn main x\npthread_once o\nend\n", "Its form is 'pthread_once O FN', and 1 word is after", "Mend: write 'pthread_once o init', with"),
    ("an undeclared once control", "unknown_name", 4, WORKER + "fn main x\npthread_once o w\nend\n", "'o' has to be a once control, and nothing of this name", "Mend: add a line 'once o' outside functions.\n"),
    (
        "a mutex where a once control is needed", "unknown_name", 5, "mutex m\n" + WORKER + "fn main x\npthread_once m w\nend\n",
        "In 'pthread_once O FN' the word 'm' has to be a once control, and it is a mutex, line 1.\n",
    ),
    (
        "a once control where a mutex is needed", "unknown_name", 5, ONCE + "fn main x\npthread_mutex_lock o\nend\n",
        "In 'pthread_mutex_lock M' the word 'o' has to be a mutex, and it is a once control, line 1.\n",
    ),
    (
        "the init routine before its control", "unknown_name", 5, ONCE + "fn main x\npthread_once w o\nend\n",
        "the word 'w' has to be a once control, and it is a function, line 2.\n", "Mend: write 'pthread_once o w'.\n",
    ),
    ("a once control declared in a function", "misplaced", 2, "fn main x\nonce o\nend\n", "The function 'main' of line 1 is open here", "Mend: move the line out of the function"),
    ("a signal", "unknown_word", 2, "fn main t\npthread_kill t 9\nend\n", "Scripts have no signals"),
    ("an initialized mutex", "unknown_word", 3, "mutex m\nfn main x\npthread_mutex_init m\nend\n", "it is declared outside functions, by 'mutex NAME'"),
    ("a sleep of three seconds", "word_count", 2, "fn main x\nsleep 3\nend\n", "'sleep' is a cancellation point, called by its name alone", "Mend: write 'sleep' alone.\n"),
    ("an output as in C", "unknown_word", 2, 'fn main x\nprintf("x")\nend\n', "A value is shown by 'emit V'"),
    ("a call without do", "unknown_word", 4, WORKER + "fn main x\nw 3\nend\n", "'w' is a function of this script, line 1: 'do w 3' calls it."),
    ("a call as in C", "unknown_word", 4, WORKER + "fn main x\nw(3);\nend\n", "'w' is a function of this script, line 1: 'do w V' calls it."),
    ("an assignment", "unknown_word", 2, "fn main x\nx = 3\nend\n", "'set x V' gives x the value V", "Mend: write 'set x 3'.\n"),
    ("an increment", "unknown_word", 2, "fn main x\nx++\nend\n", "'add x V' adds V to it.", "Mend: write 'add x 1'.\n"),
    ("a type", "unknown_word", 2, "fn main x\nint i\nend\n", "There are no types."),
    ("a for", "unknown_word", 2, "fn main x\nfor x\nend\nend\n", "The one loop is 'while V'"),
    ("a short name of a call", "unknown_word", 3, "mutex m\nfn main x\nlock m\nend\n", "Is it 'pthread_mutex_lock M'?"),
    ("a state that is none", "unknown_word", 2, "fn main x\npthread_setcancelstate off -\nend\n", "'off' is in the place of 'enable' or 'disable'."),
    ("a thread created joinable", "unknown_word", 4, WORKER + "fn main x\npthread_create - - w 0 joinable\nend\n", "'joinable' is in the place of 'detached'.", "Mend: leave 'joinable' out."),
    ("a subtraction", "bad_name", 2, "fn main x\nadd x -3\nend\n", "'-3' is a negative number, and there are none: modulo 2^32 it is 4294967293.", "Mend: write 'add x 4294967293'.\n"),
    ("a count that is too large", "bad_number", 1, "sem s 32768\nfn main x\nend\n", "'32768' is above 32767"),
    ("a function without a parameter", "word_count", 1, "fn main\nend\n", "Its form is 'fn NAME PARAM LOCAL ..', and 1 word is after 'fn'.", "Mend: write 'fn main x'."),
    (
        "a forgotten end before a function", "misplaced", 4, "fn f x\nwhile x\nend\nfn main x\nend\n",
        "The function 'f' of line 1 is open here. The last 'end' before, in line 3, closes the 'while' of line 2.", "Mend: add an 'end' above this line",
    ),
    (
        "a forgotten end at the end", "unclosed", 1, "fn main x\nwhile x\nend\n",
        "No 'end' is left for this 'fn': the last one, in line 3, closes the 'while' of line 2.", "Mend: add an 'end' where it is missing, for this 'fn'",
    ),
    ("a statement after the function", "misplaced", 3, "fn main x\nend\nemit 1\n", "the last 'end', in line 2, closes the function 'main' of line 1."),
    ("an else of a while", "stray_end", 3, "fn main x\nwhile x\nelse\nend\nend\n", "The innermost open block here is the 'while' of line 2, and an 'else' belongs to an 'if'."),
    ("a second else", "stray_end", 4, "fn main x\nif x\nelse\nelse\nend\nend\n", "The 'if' of line 2 has an 'else' already, in line 3."),
    ("a pop without a push", "pop_unmatched", 2, "fn main x\npthread_cleanup_pop 1\nend\n", "and no push is open."),
    (
        "a pop in an if", "pop_unmatched", 4, "fn main x\npthread_cleanup_push main 1\nif x\npthread_cleanup_pop 1\nend\nend\n",
        "The innermost open block here is the 'if' of line 3, and the push of line 2 is outside it.",
    ),
    (
        "a push whose pop is forgotten", "unclosed", 4, "fn main x\npthread_cleanup_push main 1\nemit 1\nend\n",
        "The push of line 2 is open here: its pop has to come before this 'end'.", "Mend: add 'pthread_cleanup_pop 1' before this line",
    ),
    (
        "a return in a push", "return_in_push", 3, "fn main x\npthread_cleanup_push main 1\nreturn 0\npthread_cleanup_pop 0\nend\n",
        "The push of line 2 is open here.",
    ),
    ("a mutex and a variable of one name", "name_twice", 2, "mutex n\nglobal n\nfn main x\nend\n", "'n' is a mutex already, line 1."),
    ("a once control and a mutex of one name", "name_twice", 2, "once o\nmutex o\nfn main x\nend\n", "'o' is a once control already, line 1."),
    ("one once control too many", "too_many", 33, "".join(f"once o{n}\n" for n in range(33)) + "fn main x\nend\n", "This is once control 33 of the script, which has at most 32."),
    ("one global too many", "too_many", 33, "".join(f"global g{n}\n" for n in range(33)) + "fn main x\nend\n", "This is global 33 of the script, which has at most 32."),
    (
        "an exit function that calls another", "not_plain", 5, "fn bye x\ndo main 1\nend\nfn main x\natexit - bye\nend\n",
        "'bye' has 'do' in line 2.",
    ),
    # The once control stands between the plain function and the next one.
    (
        "an exit function that calls an init routine", "not_plain", 8, WORKER + "once o\nfn bye x\npthread_once o w\nend\nfn main x\natexit - bye\nend\n",
        "'bye' has 'pthread_once' in line 5.\n",
    ),
    (
        "a fork handler with a pause, after a once control", "not_plain", 8, WORKER + "once o\nfn h x\npause\nend\nfn main x\npthread_atfork - w h -\nend\n",
        "'h' has 'pause' in line 5.\n",
    ),
]

TWO_LOCKS = "mutex a\nmutex b\nfn w x\npthread_mutex_lock b\npthread_mutex_lock a\nend\n" \
    "fn main x\npthread_create - - w 0\npthread_mutex_lock a\npthread_mutex_lock b\nend\n"
WAITER = "mutex m\ncond c\nfn w x\npthread_mutex_lock m\npthread_cond_wait c m\npthread_mutex_unlock m\nend\n"
LEFT_LOCKED = "mutex m\nfn w x\npthread_mutex_lock m\nend\nfn main x t\npthread_create - t w 0\npthread_join t -\npthread_mutex_lock m\nend\n"
LOCKED_FORK = "mutex m\nfn main x p\npthread_mutex_lock m\nfork - p\nif p\nelse\npthread_mutex_lock m\nend\nend\n"
JOINED = WORKER + "fn main x t\npthread_create - t w 0\n"

# Runs of one schedule that do not end complete: the name, the options of run or the entries of a schedule with SLOTS 64, the
# verdict, the script, and the words of standard error. F is the file.
RUNS = [
    (
        "a lock twice", "", "deadlock", "mutex m\nfn main x\npthread_mutex_lock m\npthread_mutex_lock m\nend\n",
        "F: deadlock after 1 step: no thread can go on, and 1 has not ended\n",
        "F:4: thread 1.1 waits for mutex m, held by 1.1: pthread_mutex_lock m\n",
        "    thread 1.1 itself acquired m in step 1, F:3: a second lock waits for its own unlock\n", "  Mend: lock the mutex once",
    ),
    (
        "a lock twice, and several workers", "--workers 3", "deadlock", "mutex m\nfn main x\npthread_mutex_lock m\npthread_mutex_lock m\nend\n",
        "F: deadlock after 1 step", "F:4: thread 1.1 waits for mutex m",
    ),
    (
        "two locks in two orders", ["1 1 1 new 2", "1 1 1 go", "1 1 2 go"], "deadlock", TWO_LOCKS,
        "F: deadlock after 3 steps: no thread can go on, and 2 have not ended\n",
        "F:10: thread 1.1 waits for mutex b, held by 1.2: pthread_mutex_lock b\n    thread 1.2 acquired b in step 3, F:4\n",
        "F:5: thread 1.2 waits for mutex a, held by 1.1: pthread_mutex_lock a\n    thread 1.1 acquired a in step 2, F:9\n",
        "  Cycle: thread 1.1 waits for 1.2, which waits for 1.1.\n", "Usual cause: a thread that locks a mutex that it owns; threads that lock two",
        "Mend: lock the mutexes in the same order",
    ),
    (
        "a signal before the wait", ["1 1 1 new 2", "1 1 1 go", "1 1 1 go", "1 1 2 go", "1 1 2 go"], "deadlock",
        WAITER + "fn main x t\npthread_create - t w 0\npthread_cond_signal c\npthread_join t -\nend\n",
        "F:11: thread 1.1 waits for thread 1.2: pthread_join t -\nF:5: thread 1.2 waits for condition variable c: pthread_cond_wait c m\n",
        "    the last signal of c that found no thread: step 2, thread 1.1, F:10. This wait began in step 5\n",
        "Usual cause: a signal before the wait", "Mend: set a variable before the signal",
    ),
    (
        "a broadcast before the wait", ["1 1 1 new 2", "1 1 1 go", "1 1 1 go", "1 1 2 go", "1 1 2 go"], "deadlock",
        WAITER + "fn main x t\npthread_create - t w 0\npthread_cond_broadcast c\npthread_join t -\nend\n",
        "    the last broadcast of c that found no thread: step 2, thread 1.1, F:10. This wait began in step 5\n",
    ),
    (
        "a wait without a signal", "", "deadlock", WAITER + "fn main x\ndo w 0\nend\n",
        "F: deadlock after 3 steps", "F:5: thread 1.1 waits for condition variable c", "    no signal and no broadcast of c was made in this process\n", "  Mend: let a thread set a variable and signal",
    ),
    # Threads 2 and 3 wait, and the one signal unblocks thread 2, which ends in four steps.
    (
        "one signal for two waits",
        ["1 1 1 new 2", "1 1 1 new 3", "1 1 2 go", "1 1 2 go", "1 1 3 go", "1 1 3 go", "1 1 1 pick 2"] + ["1 1 2 go"] * 4 + ["1 1 1 go"] * 3,
        "deadlock", WAITER + "fn main x s t\npthread_create - s w 0\npthread_create - t w 0\npthread_cond_signal c\npthread_join s -\npthread_join t -\nend\n",
        "F: deadlock after 14 steps", "F:13: thread 1.1 waits for thread 1.3: pthread_join t -\n",
        "    each signal and broadcast of c unblocked another wait; the last: step 7, thread 1.1, F:11. This wait began in step 6\n",
    ),
    (
        "a semaphore without a post", "", "deadlock", "sem s 0\nfn main x\nsem_wait s\nend\n",
        "F:3: thread 1.1 waits for semaphore s: sem_wait s\n    no sem_post s was made in this process\n",
    ),
    ("a pause", "", "deadlock", "fn main x\npause\nend\n", "F:2: thread 1.1 waits for a signal: pause\n    nothing ends this wait: scripts have no signals\n"),
    (
        "a mutex that an ended thread left locked", ["1 1 1 new 2", "1 1 2 go", "1 1 2 go", "1 1 2 go", "1 1 1 go", "1 1 1 go"], "deadlock", LEFT_LOCKED,
        "F:8: thread 1.1 waits for mutex m, held by 1.2: pthread_mutex_lock m\n    thread 1.2 acquired m in step 2, F:3, and ended in step 4 without an unlock\n", "  Mend: unlock the mutex on each way",
    ),
    # The parent returns from fork, comes to `if` and `else`, and exits; the child comes to `if`.
    (
        "a child that locks the mutex of its parent", ["1 1 1 go"] * 4 + ["1 2 1 go"] + ["1 1 1 go"] * 4 + ["1 2 1 go"], "deadlock", LOCKED_FORK,
        "F:7: thread 2.1 waits for mutex m, held by 2.1: pthread_mutex_lock m\n",
        "    thread 2.1 itself acquired m in step 1, F:3, before the fork: a second lock waits for its own unlock\n",
    ),
    (
        "twelve threads that wait", "--slots 12", "deadlock",
        "mutex m\nglobal n\nfn w x\npthread_mutex_lock m\nend\nfn main x\npthread_mutex_lock m\nset n 1\n" + "pthread_create - - w 0\n" * 11 + "pthread_mutex_lock m\nend\n",
        "and 12 have not ended\n", "  and 2 more\n",
    ),
    (
        "a join of itself", "", "undefined join_self", "fn main x me\npthread_self me\npthread_join me -\nend\n",
        "F:3: undefined join_self, step 2 of thread 1.1 in main\n    pthread_join me -\n", "  'me' is the number of the calling thread, 1.1.\n  Use: a join of the calling thread.\n",
        "  Rule: S: undefined ('pthread_join'). The stop: P, a choice of this host.\n  Mend: let another thread join",
    ),
    # In each order main creates, joins in two steps and stops, and the worker ends in two.
    (
        "a join twice", "", "undefined thread_id", JOINED + "pthread_join t -\npthread_join t -\nend\n",
        "F:6: undefined thread_id, step 6 of thread 1.1 in main\n    pthread_join t -\n", "Mend: join a thread once",
    ),
    (
        "a join of a detached thread", ["1 1 1 new 2", "1 1 1 go", "1 1 1 go"], "undefined not_joinable", JOINED + "pthread_detach t\npthread_join t -\nend\n",
        "F:6: undefined not_joinable, step 3 of thread 1.1 in main\n", "Mend: join a thread or detach it, not both",
    ),
    (
        "an unlock by another thread", ["1 1 1 new 2", "1 1 1 go", "1 1 2 go"], "undefined not_owner",
        "mutex m\nfn w x\npthread_mutex_unlock m\nend\nfn main x t\npthread_create - t w 0\npthread_mutex_lock m\npthread_join t -\nend\n",
        "F:3: undefined not_owner, step 3 of thread 1.2 in w\n    pthread_mutex_unlock m\n  Mutex m is owned by thread 1.1, which acquired it in step 2, F:7.\n", "Mend: lock the mutex",
    ),
    (
        "a wait without its mutex", "", "undefined not_owner", "mutex m\ncond c\nfn main x\n  pthread_cond_wait  c m\nend\n",
        "F:4: undefined not_owner, step 1 of thread 1.1 in main\n      pthread_cond_wait  c m\n  Mutex m has no owner: no thread of process 1 has locked it.\n",
    ),
    (
        "a recursion without an end", "", "profile stack_full", "fn f x\ndo f x\nend\nfn main x\ndo f 1\nend\n",
        "F:2: profile stack_full, step 16 of thread 1.1 in f\n    do f x\n", "  Rule: P, a choice of this host.\n", "calls itself",
    ),
    (
        "a lock with asynchronous type", "", "undefined async_call", "mutex m\nfn main x\npthread_setcanceltype asynchronous -\npthread_mutex_lock m\nend\n",
        "F:4: undefined async_call, step 2 of thread 1.1 in main\n", "  The cancelability type of thread 1.1 is asynchronous since step 1, F:3.\n", "(2.9.5.4)", "Mend: set the type to deferred",
    ),
    ("a key that was not created", "", "undefined key_id", "fn main x\npthread_setspecific 1 5\nend\n", "F:2: undefined key_id, step 1 of thread 1.1 in main\n", "  No key of process 1 had this number up to here.\n", "Mend: create the key"),
    # The call of fork, the fork and the return in the child are three steps.
    (
        "a child of several threads that locks", ["1 1 1 new 2", "1 1 1 go", "1 1 1 go", "1 2 1 go", "1 2 1 go"], "profile fork_child_call",
        "mutex m\n" + WORKER + "fn main x p\npthread_create - - w 0\nfork - p\npthread_mutex_lock m\nend\n",
        "F:7: profile fork_child_call, step 5 of thread 2.1 in main\n",
        "  Process 2 was forked in step 3, thread 1.1, F:6, and of the threads of its parent had not ended: 1.2.\n", "('fork')", "Mend: fork before",
    ),
    (
        "an endless loop", "--budget 30", "budget", "fn main x\nwhile 1\nnop\nend\nend\n",
        "F: the budget of 30 steps is used up, and the run could go on\n",
        "F:2: thread 1.1 made its last 30 steps in this loop, lines 2 to 4\n    while 1\n  Mend: end the loop", "'--budget N' allows up to 200000.\n",
    ),
    (
        "an endless loop with a loop in it", "--budget=60", "budget", "fn main x\nwhile 1\nset x 3\nwhile x\nadd x 4294967295\nend\nend\nend\n",
        "F:2: thread 1.1 made its last 60 steps in this loop, lines 2 to 7\n    while 1\n",
    ),
    # Main comes to `set`, `while` and `do`.
    (
        "an endless loop in a function that a loop calls", "--budget 50", "budget",
        "fn f x\nwhile 1\nemit x\nend\nend\nfn main x\nset x 2\nwhile x\ndo f 1\nend\nend\n",
        "F:2: thread 1.1 made its last 47 steps in this loop, lines 2 to 4\n    while 1\n",
    ),
    (
        "a budget that is too small", "--budget 2", "budget", "fn main x\nemit 1\nemit 2\nend\n",
        "F: the budget of 2 steps is used up", "F:1: thread 1.1 made 1 of the last 1 steps in this function, and no loop has most of them\n    fn main x\n",
    ),
]

# Words that are refused: the name, the words after ./pct, and the sentence on the word. a.pct is a script.
WORDS = [
    ("a value above its limit", "run --budget 200001 a.pct", "--budget 200001: the value is a number from 1 to 200000\n"),
    ("a seed of 2^64", "run --seed=18446744073709551616 a.pct", "--seed 18446744073709551616: the value is a number from 0 to 18446744073709551615\n"),
    ("a value that is no number", "run --slots many a.pct", "--slots many: the value is a number from 1 to 64\n"),
    ("a misspelled option", "run --bugdet 5 a.pct", "--bugdet: run has no such option\n"),
    ("a short option", "run -s 5 a.pct", "-s: run has no such option; a FILE with this name is ./-s\n"),
    ("one option twice, in two forms", "run --seed 5 --seed=5 a.pct", "--seed: it is given twice\n"),
    ("an option at the end", "run a.pct --budget", "--budget: its value is missing, 1 to 200000\n"),
    ("a second file", "run a.pct b.pct", "b.pct: a second FILE\n"),
    ("a second file to check", "check a.pct b.pct", "b.pct: a word too many for check\n"),
    ("an option of replay", "replay --seed 5 a.pct", "--seed: replay has no options\n"),
    ("a command in capitals", "Run a.pct", "Run: commands are in lower case\n"),
    ("a command that is none", "start a.pct", "start: no such command\n"),
    ("a number past 2^32", "demo 4294967296", "4294967296: demo takes a number from 0 to 4294967295\n"),
    ("a demo without its number", "demo", "demo: its number is missing, 0 to 4294967295\n"),
    ("a sample of no seeds", "sample 0 a.pct", "0: sample takes a number from 1 to 10000\n"),
    ("a file in the place of a number of seeds", "sample a.pct", "a.pct: sample takes a number from 1 to 10000\n"),
    ("a tally from the seed 0", "tally 0 5 a.pct", "0: a seed of tally is a number from 1 to 18446744073709551615\n"),
    ("a tally whose last seed is less than the first", "tally 5 3 a.pct", "3: the last seed is less than the first\n"),
    ("a tally of too many seeds", "tally 1 1000001 a.pct", "tally takes at most 1000000 seeds at once; sum adds tallies\n"),
    ("a tally of one seed", "tally 1 a.pct", "a.pct: a seed of tally is a number from 1 to 18446744073709551615\n"),
    ("an option of tally", "tally 1 2 --seed", "--seed: tally has no options\n"),
    ("an option of sum", "sum --all", "--all: sum has no options\n"),
    ("an option of expect", "expect --strict a.pct", "--strict: expect has no options\n"),
    ("a word too many for expect", "expect a.pct a.pct a.pct", "a.pct: a word too many for expect\n"),
    ("a file in the place of a seed", "continue a.pct", "a.pct: continue takes a number from 0 to 18446744073709551615\n"),
    ("a word too many for a view", "trace a.pct a.pct 1 more", "more: a word too many for trace\n"),
]
