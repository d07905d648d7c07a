/* A thread with asynchronous cancelability is blocked in pthread_mutex_lock, which is no cancellation point and
 * need not be async-cancel-safe. Then its end is requested.
 *
 * Standard: 2.9.5.4
 * Row:      pthread_mutex_lock with asynchronous type
 * Script:   examples/library_asynchronous_lock.pct
 * Host:     stops the run at the call, as `undefined async_call`, unless the thread acts before the call
 */
#define _XOPEN_SOURCE 700
#include <pthread.h>
#include <semaphore.h>
#include <stdio.h>
#include <time.h>

static pthread_mutex_t mutex = PTHREAD_MUTEX_INITIALIZER;
static sem_t ready, ended;

static void handler(void *unused)
{
    (void)unused;
    sem_post(&ended);
}

static void *thread(void *unused)
{
    pthread_cleanup_push(handler, NULL);
    sem_post(&ready);
    pthread_setcanceltype(PTHREAD_CANCEL_ASYNCHRONOUS, NULL);
    pthread_mutex_lock(&mutex);
    pthread_cleanup_pop(0);
    return unused;
}

int main(void)
{
    const struct timespec a_while = {0, 20000000};
    struct timespec limit;
    pthread_t id;
    sem_init(&ready, 0, 0);
    sem_init(&ended, 0, 0);
    pthread_mutex_lock(&mutex);
    pthread_create(&id, NULL, thread, NULL);
    sem_wait(&ready);
    nanosleep(&a_while, NULL);
    pthread_cancel(id);
    clock_gettime(CLOCK_REALTIME, &limit);
    limit.tv_sec += 1;
    printf("in pthread_mutex_lock: %s\n",
           sem_timedwait(&ended, &limit) == 0 ? "ended there" : "still blocked after 1 s");
    return 0;
}
