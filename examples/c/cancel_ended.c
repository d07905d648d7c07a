/* The end of a thread is requested that has ended, and is neither joined nor detached.
 *
 * Standard: pthread_cancel, 2.9.2
 * Row:      Cancels of ended threads
 * Script:   examples/library_cancel_ended.replay
 * Host:     changes nothing, and the joiner gets the value
 */
#define _XOPEN_SOURCE 700
#include <errno.h>
#include <pthread.h>
#include <semaphore.h>
#include <stdio.h>
#include <time.h>

static sem_t ending;

static void *thread(void *value)
{
    sem_post(&ending);
    return value;
}

int main(void)
{
    /* Enough for a thread to end, which nothing but a join can show. */
    const struct timespec a_while = {0, 50000000};
    pthread_t id;
    void *value;
    sem_init(&ending, 0, 0);
    pthread_create(&id, NULL, thread, "value");
    sem_wait(&ending);
    nanosleep(&a_while, NULL);
    int error = pthread_cancel(id);
    pthread_join(id, &value);
    printf("%s, and the joiner gets %s\n", error == 0 ? "0" : error == ESRCH ? "ESRCH" : "another error",
           value == PTHREAD_CANCELED ? "PTHREAD_CANCELED" : "the value");
    return 0;
}
