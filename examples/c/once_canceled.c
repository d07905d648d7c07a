/* A thread is canceled in an init routine. Is the routine called by a call of pthread_once that waits meanwhile, and by
 * one that comes later?
 *
 * Standard: pthread_once
 * Row:      Canceled init routines
 * Script:   examples/canceled_routine.pct
 * Host:     both call the routine
 */
#define _XOPEN_SOURCE 700
#include <pthread.h>
#include <semaphore.h>
#include <stdio.h>
#include <time.h>
#include <unistd.h>

struct control {
    pthread_once_t once;
    int calls;
};

static struct control waited = {PTHREAD_ONCE_INIT, 0}, later = {PTHREAD_ONCE_INIT, 0};
static struct control *current;
static sem_t inside;

/* The first call of it does not return. */
static void routine(void)
{
    if (++current->calls == 1) {
        sem_post(&inside);
        for (;;)
            pause();
    }
}

static void *caller(void *unused)
{
    pthread_once(&current->once, routine);
    return unused;
}

static void is_canceled(pthread_t id)
{
    pthread_cancel(id);
    pthread_join(id, NULL);
}

int main(void)
{
    struct timespec moment = {0, 100000000};
    pthread_t first, second;
    sem_init(&inside, 0, 0);
    current = &waited;
    pthread_create(&first, NULL, caller, NULL);
    sem_wait(&inside);
    pthread_create(&second, NULL, caller, NULL);
    nanosleep(&moment, NULL); /* the second thread comes to its call */
    is_canceled(first);
    pthread_join(second, NULL);
    printf("a call that waits: %s the routine\n", waited.calls == 2 ? "calls" : "does not call");
    current = &later;
    pthread_create(&first, NULL, caller, NULL);
    sem_wait(&inside);
    is_canceled(first);
    pthread_once(&later.once, routine);
    printf("a later call: %s the routine\n", later.calls == 2 ? "calls" : "does not call");
    return 0;
}
