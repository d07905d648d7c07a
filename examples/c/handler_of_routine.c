/* A thread is canceled in an init routine that has pushed a cleanup handler. Another thread waits in pthread_once. Has
 * the handler returned as that calls the routine?
 *
 * Standard: pthread_once
 * Row:      Handlers of canceled init routines
 * Script:   examples/library_handler_of_routine.pct
 * Host:     the handler has returned or not, as the schedule says
 */
#define _XOPEN_SOURCE 700
#include <pthread.h>
#include <semaphore.h>
#include <stdatomic.h>
#include <stdio.h>
#include <time.h>
#include <unistd.h>

static pthread_once_t once = PTHREAD_ONCE_INIT;
static sem_t inside;
static struct timespec moment = {0, 100000000};
static int calls; /* of the routine, by one thread after the other */
static atomic_int is_undone;

static void undo(void *unused)
{
    (void)unused;
    nanosleep(&moment, NULL);
    is_undone = 1;
}

/* The first call of it does not return. */
static void routine(void)
{
    if (++calls == 1) {
        pthread_cleanup_push(undo, NULL);
        sem_post(&inside);
        for (;;)
            pause();
        pthread_cleanup_pop(0);
    }
    printf("the handler %s\n", is_undone ? "has returned" : "has not returned");
}

static void *caller(void *unused)
{
    pthread_once(&once, routine);
    return unused;
}

int main(void)
{
    pthread_t first, second;
    sem_init(&inside, 0, 0);
    pthread_create(&first, NULL, caller, NULL);
    sem_wait(&inside);
    pthread_create(&second, NULL, caller, NULL);
    nanosleep(&moment, NULL); /* the second thread comes to its call */
    pthread_cancel(first);
    pthread_join(first, NULL);
    pthread_join(second, NULL);
    return 0;
}
