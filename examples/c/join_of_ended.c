/* A thread with a request pending calls pthread_join, a cancellation point, for a thread that has ended. Does it
 * act?
 *
 * Standard: 2.9.5.2
 * Row:      Joins of ended threads
 * Script:   examples/library_join_of_ended.replay
 * Host:     acts, and the other thread stays joinable
 */
#define _XOPEN_SOURCE 700
#include <pthread.h>
#include <semaphore.h>
#include <stdio.h>
#include <time.h>

enum { ROUNDS = 20 };

static pthread_t ended;
static sem_t ending;

static void *thread(void *unused)
{
    sem_post(&ending);
    return unused;
}

static void *joiner(void *unused)
{
    pthread_cancel(pthread_self());
    pthread_join(ended, NULL);
    return unused;
}

int main(void)
{
    /* Enough for a thread to end, which nothing but a join can show. */
    const struct timespec a_while = {0, 20000000};
    int acted = 0;
    sem_init(&ending, 0, 0);
    for (int round = 0; round < ROUNDS; round++) {
        pthread_t id;
        void *value;
        pthread_create(&ended, NULL, thread, NULL);
        sem_wait(&ending);
        nanosleep(&a_while, NULL);
        pthread_create(&id, NULL, joiner, NULL);
        pthread_join(id, &value);
        if (value == PTHREAD_CANCELED && pthread_join(ended, NULL) == 0)
            acted++;
    }
    printf("%s\n", acted == ROUNDS ? "acts, and the other thread stays joinable"
                   : acted == 0    ? "does not act, and joins"
                                   : "acts in some rounds only");
    return 0;
}
