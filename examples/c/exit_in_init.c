/* An init routine calls exit while another thread waits for the routine. An exit function sleeps for a while.
 *
 * Standard: exit, pthread_once
 * Row:      exit in init routines
 * Script:   examples/library_exit_in_init.pct
 * Host:     the other thread waits until the process ends
 */
#define _XOPEN_SOURCE 700
#include <pthread.h>
#include <semaphore.h>
#include <stdio.h>
#include <stdlib.h>
#include <time.h>

static pthread_once_t control = PTHREAD_ONCE_INIT;
static sem_t begun;
static volatile int is_back;

static void sleeps(void)
{
    const struct timespec a_while = {0, 100000000};
    nanosleep(&a_while, NULL);
    printf("the other thread %s\n", is_back ? "does not wait" : "waits until the process ends");
}

static void init(void)
{
    const struct timespec a_while = {0, 100000000};
    sem_post(&begun);
    nanosleep(&a_while, NULL); /* the other thread comes to its call */
    exit(0);
}

static void *thread(void *unused)
{
    sem_wait(&begun);
    pthread_once(&control, init);
    is_back = 1;
    return unused;
}

int main(void)
{
    pthread_t id;
    sem_init(&begun, 0, 0);
    atexit(sleeps);
    pthread_create(&id, NULL, thread, NULL);
    pthread_once(&control, init);
    return 0;
}
