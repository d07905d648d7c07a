/* Two threads wait for one item. A signal comes, and at about the same time the end of one of them is requested. Does
 * the other one get the item if that one is canceled?
 *
 * Standard: 2.9.5.3, pthread_cond_wait
 * Row:      Signals of canceled waiters
 * Script:   examples/two_consumers.pct
 * Host:     an item that nobody takes: never
 */
#define _XOPEN_SOURCE 700
#include <pthread.h>
#include <semaphore.h>
#include <stdio.h>
#include <time.h>

enum { ROUNDS = 300 };

static pthread_mutex_t mutex = PTHREAD_MUTEX_INITIALIZER;
static pthread_cond_t condition = PTHREAD_COND_INITIALIZER;
static sem_t owned, taken;
static int empty; /* guarded by the mutex */

static void unlock(void *unused)
{
    (void)unused;
    pthread_mutex_unlock(&mutex);
}

static void *consumer(void *unused)
{
    pthread_mutex_lock(&mutex);
    pthread_cleanup_push(unlock, NULL);
    sem_post(&owned);
    while (empty)
        pthread_cond_wait(&condition, &mutex);
    empty = 1;
    sem_post(&taken);
    pthread_cleanup_pop(1);
    return unused;
}

int main(void)
{
    int lost = 0;
    sem_init(&owned, 0, 0);
    sem_init(&taken, 0, 0);
    for (int round = 0; round < ROUNDS && lost == 0; round++) {
        struct timespec limit;
        pthread_t ids[2];
        empty = 1;
        for (int i = 0; i < 2; i++)
            pthread_create(&ids[i], NULL, consumer, NULL);
        for (int i = 0; i < 2; i++)
            sem_wait(&owned);
        pthread_mutex_lock(&mutex); /* both are in pthread_cond_wait */
        empty = 0;
        if (round % 2 == 0)
            pthread_cancel(ids[round / 2 % 2]);
        pthread_cond_signal(&condition);
        pthread_mutex_unlock(&mutex);
        for (volatile int count = 0; count < 1 << (round / 4 % 16); count++)
            continue; /* up to some ten microseconds */
        if (round % 2 != 0)
            pthread_cancel(ids[round / 2 % 2]);
        clock_gettime(CLOCK_REALTIME, &limit);
        limit.tv_sec += 1;
        if (sem_timedwait(&taken, &limit) != 0)
            lost = round + 1;
        for (int i = 0; i < 2; i++)
            pthread_cancel(ids[i]);
        for (int i = 0; i < 2; i++)
            pthread_join(ids[i], NULL);
    }
    printf("an item that nobody takes: %s\n", lost == 0 ? "never" : "seen");
    if (lost != 0)
        fprintf(stderr, "in round %d\n", lost);
    return 0;
}
