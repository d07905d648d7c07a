/* Threads wait for items, half of them with a time. As many signals as there are such threads come as the time expires.
 * Do the others get the items if these time out?
 *
 * Standard: pthread_cond_timedwait
 * Row:      Signals at time-outs
 * Script:   examples/two_timed_consumers.pct
 * Host:     an item that nobody takes: never
 */
#define _XOPEN_SOURCE 700
#include <pthread.h>
#include <semaphore.h>
#include <stdio.h>
#include <time.h>

enum { SECONDS = 2, TIMED = 6, ALL = 2 * TIMED, MILLISECOND = 1000000, SECOND = 1000000000 };

static pthread_mutex_t mutex = PTHREAD_MUTEX_INITIALIZER;
static pthread_cond_t condition = PTHREAD_COND_INITIALIZER;
static sem_t owned, taken;
static struct timespec limit; /* of the waits with a time */
static int items;             /* guarded by the mutex */

static struct timespec after(struct timespec time, long nanoseconds)
{
    time.tv_nsec += nanoseconds;
    time.tv_sec += time.tv_nsec / SECOND;
    time.tv_nsec %= SECOND;
    return time;
}

static int is_before(struct timespec a, struct timespec b)
{
    return a.tv_sec < b.tv_sec || (a.tv_sec == b.tv_sec && a.tv_nsec < b.tv_nsec);
}

static void unlock(void *unused)
{
    (void)unused;
    pthread_mutex_unlock(&mutex);
}

/* Takes an item. With a time it gives up as soon as that has expired, without a look at the items. */
static void *consumer(void *has_time)
{
    int error = 0;
    pthread_mutex_lock(&mutex);
    pthread_cleanup_push(unlock, NULL);
    sem_post(&owned);
    while (items == 0 && error == 0)
        error = has_time ? pthread_cond_timedwait(&condition, &mutex, &limit) : pthread_cond_wait(&condition, &mutex);
    if (error == 0) {
        items--;
        sem_post(&taken);
    }
    pthread_cleanup_pop(1);
    return NULL;
}

int main(void)
{
    struct timespec now, end;
    int lost = 0;
    sem_init(&owned, 0, 0);
    sem_init(&taken, 0, 0);
    clock_gettime(CLOCK_REALTIME, &now);
    end = now;
    end.tv_sec += SECONDS;
    for (int round = 0; is_before(now, end) && lost == 0; round++) {
        pthread_t ids[ALL];
        items = 0;
        clock_gettime(CLOCK_REALTIME, &now);
        limit = after(now, 2 * MILLISECOND);
        for (int i = 0; i < ALL; i++)
            pthread_create(&ids[i], NULL, consumer, i < TIMED ? &limit : NULL);
        for (int i = 0; i < ALL; i++)
            sem_wait(&owned);
        do /* until 30 to 90 microseconds after the time, since a sleep may end some 50 microseconds late */
            clock_gettime(CLOCK_REALTIME, &now);
        while (is_before(now, after(limit, (30 + round % 60) * 1000L)));
        pthread_mutex_lock(&mutex);
        items = TIMED;
        for (int i = 0; i < TIMED; i++)
            pthread_cond_signal(&condition);
        pthread_mutex_unlock(&mutex);
        clock_gettime(CLOCK_REALTIME, &now);
        now = after(now, SECOND - 1);
        for (int i = 0; i < TIMED && lost == 0; i++)
            if (sem_timedwait(&taken, &now) != 0)
                lost = round + 1;
        for (int i = 0; i < ALL; i++)
            pthread_cancel(ids[i]);
        for (int i = 0; i < ALL; i++)
            pthread_join(ids[i], NULL);
    }
    printf("an item that nobody takes: %s\n", lost == 0 ? "never" : "seen");
    if (lost != 0)
        fprintf(stderr, "in round %d\n", lost);
    return 0;
}
