/* A thread waits for a semaphore. A post comes, and at about the same time the end of the thread is requested. Is the
 * post still there if the thread is canceled?
 *
 * Standard: 2.9.5.2
 * Row:      Posts of canceled waiters
 * Script:   examples/semaphore.pct
 * Host:     a post that nobody gets: never
 */
#define _XOPEN_SOURCE 700
#include <pthread.h>
#include <semaphore.h>
#include <stdio.h>

enum { ROUNDS = 300 };

static sem_t semaphore;

static void *waiter(void *unused)
{
    sem_wait(&semaphore);
    return unused;
}

int main(void)
{
    int lost = 0;
    sem_init(&semaphore, 0, 0);
    for (int round = 0; round < ROUNDS && lost == 0; round++) {
        pthread_t id;
        void *value;
        pthread_create(&id, NULL, waiter, NULL);
        for (volatile int count = 0; count < 1 << (round / 2 % 16); count++)
            continue; /* up to some ten microseconds */
        if (round % 2 == 0)
            pthread_cancel(id);
        sem_post(&semaphore);
        if (round % 2 != 0)
            pthread_cancel(id);
        pthread_join(id, &value);
        if (value == PTHREAD_CANCELED && sem_trywait(&semaphore) != 0)
            lost = round + 1;
    }
    printf("a post that nobody gets: %s\n", lost == 0 ? "never" : "seen");
    if (lost != 0)
        fprintf(stderr, "in round %d\n", lost);
    return 0;
}
