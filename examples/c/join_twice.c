/* Two threads join a third one, which ends only then.
 *
 * Standard: pthread_join
 * Row:      Two joins of one thread
 * Script:   examples/join_twice.pct
 * Host:     stops the run at the second join, as `undefined join_twice`
 */
#define _XOPEN_SOURCE 700
#include <pthread.h>
#include <semaphore.h>
#include <stdio.h>
#include <time.h>

static pthread_t target;
static sem_t joining, end, returned;

static void *thread(void *unused)
{
    sem_wait(&end);
    return unused;
}

static void *joiner(void *unused)
{
    sem_post(&joining);
    pthread_join(target, NULL);
    sem_post(&returned);
    return unused;
}

static int returns_within_1_s(void)
{
    struct timespec limit;
    clock_gettime(CLOCK_REALTIME, &limit);
    limit.tv_sec += 1;
    return sem_timedwait(&returned, &limit) == 0;
}

int main(void)
{
    /* Enough for both threads to be in pthread_join. */
    const struct timespec a_while = {0, 100000000};
    pthread_t ids[2];
    sem_init(&joining, 0, 0);
    sem_init(&end, 0, 0);
    sem_init(&returned, 0, 0);
    pthread_create(&target, NULL, thread, NULL);
    pthread_create(&ids[0], NULL, joiner, NULL);
    pthread_create(&ids[1], NULL, joiner, NULL);
    sem_wait(&joining);
    sem_wait(&joining);
    nanosleep(&a_while, NULL);
    sem_post(&end);
    int joins = returns_within_1_s();
    joins += returns_within_1_s();
    printf("joins that return within 1 s: %d of 2\n", joins);
    return 0;
}
