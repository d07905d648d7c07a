/* What a C program of bench/vectors_in_c.py is made with: a baton that goes from thread to thread as the schedule of the
 * vector says, and the lines that the program writes.
 *
 * The counter `turn` is in memory that all processes share. A thread waits in take() until the entry at `turn` is its
 * own, and goes to the next entry by pass(). Before it goes on it waits until every thread that is in a call sleeps
 * there, or has returned from it. At the end of a schedule that ends in a deadlock each thread that waits for its turn
 * makes its next call all the same: it has to block there for a second. Nothing here is a cancellation point: what
 * would be one is called by syscall().
 */
#ifndef _GNU_SOURCE
#define _GNU_SOURCE
#endif
#include <errno.h>
#include <fcntl.h>
#include <pthread.h>
#include <semaphore.h>
#include <signal.h>
#include <stdarg.h>
#include <stdint.h>
#include <stdio.h>
#include <stdlib.h>
#include <string.h>
#include <sys/mman.h>
#include <sys/syscall.h>
#include <sys/wait.h>
#include <time.h>
#include <unistd.h>

enum { PROCESSES = 10, THREADS = 20, KEYS = 20 };
#define NEVER (INT64_MAX / 2)
/* What an entry is: a step of its thread's own code; one with a call in which the thread is suspended; one at which it
 * acts; one that no code of the program makes; one at which the time of a condition wait expires; one that stops the
 * run. */
enum kind { STEP, CALL, ACT, END_OF_THREAD, END_OF_PROCESS, NO_CODE, EXPIRY, STOP };
/* From ROUTINE on: the frame of an init routine, by the number of its once control. */
enum frame { MAIN, START, OTHER, ROUTINE };
enum { state_enable = PTHREAD_CANCEL_ENABLE, state_disable = PTHREAD_CANCEL_DISABLE };

struct entry {
    int process, thread;
    enum kind kind;
    unsigned number; /* of the new thread, key or process */
    int is_event;    /* the event that a suspended thread awaits comes now */
    int is_acquired; /* a condition wait ends here, and its mutex has an event `acquire` */
    int is_alike;    /* any thread that returns from this wait may be the one of the entry */
    int is_expiry;   /* the time of the wait that the thread is in expires now */
};

static const struct entry entries[];
enum verdict { COMPLETE, DEADLOCK, OTHER_VERDICT };
static const enum verdict verdict;
static const int entry_count;
static const char *const wanted[];
static const int wanted_count;


struct place {
    volatile pid_t pid, tid;
    volatile int is_in_call;
    const char *volatile at; /* the function that the library calls and that waits for its turn */
    volatile int64_t until;  /* the time of the timed wait that the thread is in, in nanoseconds, or NEVER */
};

static struct shared {
    volatile int turn, shown, events_made, is_over, is_asked;
    volatile pid_t pids[PROCESSES];
    struct place places[PROCESSES][THREADS];
} *shared;

static int process = 1;
static __thread int thread;
static __thread int is_popping;
/* The newest pthread_once of the thread that has returned has called its init routine. */
static __thread int is_called;
/* The thread is back from a condition wait, and has not been given its turn yet. */
static __thread int is_back;
static pthread_t handles[THREADS];
/* Where each thread has its number. */
static int *numbers[THREADS];
static pthread_key_t keys[KEYS];
static int pipes[PROCESSES][THREADS][2];

static void finish(void)
{
    kill(0, SIGKILL);
}

static void finish_at(int unused)
{
    (void)unused;
    finish();
}

/* The state of a task as /proc shows it: S if it sleeps, Z or 0 if it has ended. */
static char state_of(pid_t pid, pid_t tid)
{
    char path[64], text[256];
    const char *end;
    long length;
    snprintf(path, sizeof path, "/proc/%d/task/%d/stat", (int)pid, (int)tid);
    long file = syscall(SYS_openat, AT_FDCWD, path, O_RDONLY);
    if (file < 0)
        return 0;
    length = syscall(SYS_read, file, text, sizeof text - 1);
    syscall(SYS_close, file);
    if (length <= 0)
        return 0;
    text[length] = 0;
    end = strrchr(text, ')');
    return end ? end[2] : 0;
}

static int has_ended(pid_t pid, pid_t tid)
{
    char state = state_of(pid, tid);
    return state == 0 || state == 'Z' || state == 'X';
}

/* Whether each thread that is in a call sleeps there, or has ended. */
static int all_are_settled(void)
{
    for (int i = 1; i < PROCESSES; i++)
        for (int j = 1; j < THREADS; j++) {
            struct place *place = &shared->places[i][j];
            if (place->is_in_call) {
                char state = state_of(place->pid, place->tid);
                if (state != 'S' && state != 0 && state != 'Z' && place->is_in_call)
                    return 0;
            }
        }
    return 1;
}

static void rest(void)
{
    const struct timespec a_while = {0, 20000};
    syscall(SYS_nanosleep, &a_while, NULL);
}

static int64_t now(void)
{
    struct timespec time;
    clock_gettime(CLOCK_REALTIME, &time);
    return (int64_t)time.tv_sec * 1000000000 + time.tv_nsec;
}

/* Makes the awaited event of the entry at `turn` come, and passes over entries that no code makes. */
static void progress(void)
{
    for (;;) {
        int turn = shared->turn, made = shared->events_made;
        const struct entry *entry = &entries[turn];
        if (turn == entry_count) {
            if (verdict == OTHER_VERDICT)
                finish();
            if (verdict == DEADLOCK && __sync_bool_compare_and_swap(&shared->is_over, 0, 1))
                alarm(1);
            return;
        }
        struct place *place = &shared->places[entry->process][entry->thread];
        if (entry->kind == STOP)
            finish();
        if (entry->is_event && made <= turn && __sync_bool_compare_and_swap(&shared->events_made, made, turn + 1))
            syscall(SYS_write, pipes[entry->process][entry->thread][1], "", 1);
        if (entry->kind == STEP || entry->kind == CALL || entry->kind == ACT)
            return;
        if (entry->kind == END_OF_THREAD && !has_ended(place->pid, place->tid))
            return;
        /* The thread is awake a little later, and then waits for its mutex. */
        if (entry->kind == EXPIRY && now() < place->until + 50000000)
            return;
        if (entry->kind == END_OF_PROCESS && !has_ended(place->pid, place->pid))
            return;
        __sync_bool_compare_and_swap(&shared->turn, turn, turn + 1);
    }
}

/* Threads that wait alike exchange their numbers: which of them gets the mutex first is open. The other one is in its
 * call, and reads its number only after that. */
static void exchange(int other)
{
    struct place *places = shared->places[process], place = places[thread];
    pthread_t handle = handles[thread];
    int own = thread;
    places[own] = places[other];
    places[other] = place;
    handles[own] = handles[other];
    handles[other] = handle;
    numbers[own] = numbers[other];
    numbers[other] = &thread;
    *numbers[own] = own;
    thread = other;
}

/* Waits until the entry at `turn` is one of the calling thread. */
static const struct entry *take(void)
{
    shared->places[process][thread].is_in_call = 0;
    for (;;) {
        progress();
        int turn = shared->turn;
        const struct entry *entry = &entries[turn];
        if (is_back && entry->is_alike && entry->process == process && entry->thread != thread
            && shared->places[process][entry->thread].is_in_call)
            exchange(entry->thread);
        if (turn == entry_count && verdict == DEADLOCK)
            return entry;
        if (turn < entry_count && entry->process == process && entry->thread == thread && entry->kind <= ACT
            && all_are_settled())
            return entry;
        rest();
    }
}

static void pass(void)
{
    if (shared->turn < entry_count)
        __sync_fetch_and_add(&shared->turn, 1);
    progress();
}

/* take() of a function that the library calls. */
static void take_call(const char *name)
{
    struct place *place = &shared->places[process][thread];
    place->at = name;
    take();
    place->at = NULL;
}

/* Whether the schedule has a step of this thread at `turn` or later. */
static int has_step(int number, int other)
{
    for (int turn = shared->turn; turn < entry_count; turn++)
        if (entries[turn].process == number && entries[turn].thread == other && entries[turn].kind <= ACT)
            return 1;
    return 0;
}

/* The program is late: writes which calls wait for a step that the schedule does not have. */
static void answer_where(int unused)
{
    (void)unused;
    if (__sync_bool_compare_and_swap(&shared->is_asked, 0, 1))
        for (int i = 1; i < PROCESSES; i++)
            for (int j = 1; j < THREADS; j++)
                if (shared->places[i][j].at && !has_step(i, j)) {
                    char line[160];
                    int length = snprintf(line, sizeof line, "# %d.%d %s\n", i, j, shared->places[i][j].at);
                    syscall(SYS_write, STDOUT_FILENO, line, length);
                }
    finish();
}

/* Writes the event of the calling thread. The first one that is not wanted is the last that is written. */
static void show(const char *format, ...)
{
    char line[160];
    int length = snprintf(line, sizeof line, "%d.%d ", process, thread);
    va_list values;
    va_start(values, format);
    length += vsnprintf(line + length, sizeof line - length, format, values);
    va_end(values);
    int number = __sync_fetch_and_add(&shared->shown, 1);
    int is_wanted = number < wanted_count && strcmp(line, wanted[number]) == 0;
    line[length++] = '\n';
    syscall(SYS_write, STDOUT_FILENO, line, length);
    if (!is_wanted)
        finish();
}

/* Shows the event of a call that returned 0, or its error. */
static void show_result(int error, const char *event, unsigned number)
{
    if (error != 0)
        show("error %d of %s", error, event);
    else
        show(event, number);
}

/* The step before a call. A thread that is to act at the call makes no step before it. */
static void begin_call(void)
{
    if (take()->kind == CALL) {
        shared->places[process][thread].until = NEVER;
        shared->places[process][thread].is_in_call = 1;
        pass();
    }
}

static void acted(void *unused)
{
    (void)unused;
    take();
    show("ending canceled");
    pass();
}

/* A call that may be a cancellation point, and the event after it. */
#define POINT(call) \
    pthread_cleanup_push(acted, NULL); \
    begin_call(); \
    call; \
    take(); \
    pthread_cleanup_pop(0)

/* A condition wait, as a POINT. When it has returned, and in the first handler when it was canceled, its mutex has an
 * owner: a lock that does not wait gives EBUSY, also to the owner. */
struct wait {
    pthread_mutex_t *mutex;
    const char *name;
};

static void end_wait(const struct wait *wait)
{
    is_back = 1;
    int is_acquired = take()->is_acquired;
    is_back = 0;
    if (pthread_mutex_trylock(wait->mutex) != EBUSY)
        show("no owner of %s", wait->name);
    if (is_acquired)
        show("acquire %s", wait->name);
}

static void acted_in_wait(void *given)
{
    end_wait(given);
    show("ending canceled");
    pass();
}

#define WAIT(call, the_mutex, the_name) \
    struct wait wait = {&the_mutex, the_name}; \
    pthread_cleanup_push(acted_in_wait, &wait); \
    begin_call(); \
    call; \
    end_wait(&wait); \
    pthread_cleanup_pop(0)

/* The time of a timed wait that begins now: soon, if the schedule lets it expire, and else in an hour. */
static const struct timespec *until(void)
{
    static __thread struct timespec limit;
    int64_t time = now() + 3600000000000;
    for (int turn = shared->turn; turn < entry_count; turn++)
        if (entries[turn].process == process && entries[turn].thread == thread) {
            if (entries[turn].is_expiry)
                time = now() + 200000000;
            break;
        }
    shared->places[process][thread].until = time;
    limit.tv_sec = time / 1000000000;
    limit.tv_nsec = time % 1000000000;
    return &limit;
}

/* Shows the event of a timed wait. */
static void show_timed_result(int error, const char *name, const char *event)
{
    if (error == ETIMEDOUT)
        show("answer %s 4", name);
    else
        show_result(error, event, 0);
}

static void settle(int number)
{
    struct place *place = &shared->places[process][number];
    thread = number;
    numbers[number] = &thread;
    place->pid = getpid();
    place->tid = syscall(SYS_gettid);
}

struct start {
    uint32_t (*function)(enum frame, uint32_t);
    uint32_t argument;
    int number;
};
static struct start starts[THREADS];

static void *start(void *given)
{
    struct start *own = given;
    settle(own->number);
    return (void *)(uintptr_t)own->function(START, own->argument);
}

static uint32_t create(uint32_t (*function)(enum frame, uint32_t), uint32_t argument, int is_detached, uint32_t *id)
{
    int number = take()->number;
    pthread_attr_t attributes;
    pthread_attr_init(&attributes);
    pthread_attr_setdetachstate(&attributes, is_detached ? PTHREAD_CREATE_DETACHED : PTHREAD_CREATE_JOINABLE);
    starts[number] = (struct start){function, argument, number};
    int error = pthread_create(&handles[number], &attributes, start, &starts[number]);
    pthread_attr_destroy(&attributes);
    show_result(error, is_detached ? "create %u detached" : "create %u joinable", number);
    *id = number;
    return 0;
}

static uint32_t own_number(void)
{
    for (int number = 1; number < THREADS; number++)
        if (number == thread && pthread_equal(pthread_self(), handles[number]))
            return number;
    return 0;
}

static void returns(enum frame frame, uint32_t value)
{
    if (frame == MAIN)
        show("exit %u", value);
    if (frame == START)
        show("ending exit %u", value);
    pass();
}

/* ---- fork: these three are registered first, so they are next to the fork itself. */

static int made;

static void before_fork(void)
{
    made = take()->number;
}

static void in_parent(void)
{
    show("fork %u", made);
    pass();
}

static void in_child(void)
{
    process = made;
    settle(thread);
    shared->pids[made] = getpid();
}

/* The number of the process that fork made, by what it returned. */
static uint32_t process_made(pid_t pid)
{
    int number = made;
    if (pid == 0)
        return 0;
    while (shared->pids[number] != pid)
        rest();
    return number;
}

/* A process that is none of this program has the id of the init process. */
static pid_t pid_of(uint32_t number)
{
    return number == 0 ? 0 : number < PROCESSES && shared->pids[number] ? shared->pids[number] : 1;
}

static void setup(void)
{
    shared = mmap(NULL, sizeof *shared, PROT_READ | PROT_WRITE, MAP_SHARED | MAP_ANONYMOUS, -1, 0);
    if (shared == MAP_FAILED)
        exit(99);
    handles[1] = pthread_self();
    settle(1);
    shared->pids[1] = getpid();
    for (int i = 0; i < entry_count; i++)
        if (entries[i].kind == CALL && pipes[entries[i].process][entries[i].thread][1] == 0
            && pipe(pipes[entries[i].process][entries[i].thread]) != 0)
            exit(99);
    signal(SIGALRM, finish_at);
    signal(SIGTERM, answer_where);
    pthread_atfork(before_fork, in_parent, in_child);
}
