/* A thread is detached while another one joins it, and ends only then.
 *
 * Standard: pthread_detach, pthread_join
 * Row:      Detaches during a join
 * Script:   examples/detach_joined.pct
 * Host:     stops the run, as `undefined detach_joined`
 */
#define _XOPEN_SOURCE 700
#include <errno.h>
#include <pthread.h>
#include <semaphore.h>
#include <stdio.h>
#include <time.h>

static pthread_t target;
static sem_t joining, end, returned;

static void *thread(void *unused)
{
    sem_wait(&end);
    return unused;
}

static void *joiner(void *unused)
{
    sem_post(&joining);
    pthread_join(target, NULL);
    sem_post(&returned);
    return unused;
}

int main(void)
{
    /* Enough for the joiner to be in pthread_join. */
    const struct timespec a_while = {0, 100000000};
    struct timespec limit;
    pthread_t id;
    sem_init(&joining, 0, 0);
    sem_init(&end, 0, 0);
    sem_init(&returned, 0, 0);
    pthread_create(&target, NULL, thread, NULL);
    pthread_create(&id, NULL, joiner, NULL);
    sem_wait(&joining);
    nanosleep(&a_while, NULL);
    int error = pthread_detach(target);
    sem_post(&end);
    clock_gettime(CLOCK_REALTIME, &limit);
    limit.tv_sec += 1;
    printf("the detach gives %s, and the join %s\n", error == 0 ? "0" : error == EINVAL ? "EINVAL" : "another error",
           sem_timedwait(&returned, &limit) == 0 ? "returns" : "does not return within 1 s");
    return 0;
}
