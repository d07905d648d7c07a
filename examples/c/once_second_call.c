/* A thread calls pthread_once while another one is in the init routine, and its end is requested. Does the call wait
 * for the return of the routine, and does the thread act in it?
 *
 * Standard: pthread_once
 * Row:      Calls while the init routine runs
 * Script:   examples/library_once_second_call.replay
 * Host:     the call returns after the routine; the thread does not act in it; the routine is called once
 */
#define _XOPEN_SOURCE 700
#include <pthread.h>
#include <semaphore.h>
#include <stdatomic.h>
#include <stdio.h>
#include <time.h>

static pthread_once_t once = PTHREAD_ONCE_INIT;
static sem_t inside, leave;
static atomic_int calls, is_done;
static int was_done = -1; /* what is_done was as the second call returned */

static void routine(void)
{
    calls++;
    sem_post(&inside);
    sem_wait(&leave);
    is_done = 1;
}

static void *first(void *unused)
{
    pthread_once(&once, routine);
    return unused;
}

static void *second(void *unused)
{
    pthread_once(&once, routine);
    was_done = is_done;
    return unused;
}

int main(void)
{
    struct timespec moment = {0, 100000000};
    pthread_t ids[2];
    sem_init(&inside, 0, 0);
    sem_init(&leave, 0, 0);
    pthread_create(&ids[0], NULL, first, NULL);
    sem_wait(&inside);
    pthread_create(&ids[1], NULL, second, NULL);
    nanosleep(&moment, NULL); /* the second thread comes to its call */
    pthread_cancel(ids[1]);
    nanosleep(&moment, NULL);
    sem_post(&leave);
    pthread_join(ids[0], NULL);
    pthread_join(ids[1], NULL);
    if (was_done != -1)
        printf("the call returns %s the routine\n", was_done ? "after" : "before");
    printf("the thread %s in it\n", was_done == -1 ? "acts" : "does not act");
    printf("the routine is called %s\n", calls == 1 ? "once" : "again");
    return 0;
}
