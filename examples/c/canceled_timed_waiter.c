/* A thread is canceled while it waits with a time on a condition variable. Does its first handler own the mutex?
 *
 * Standard: 2.9.5.3, pthread_cond_timedwait
 * Row:      Canceled timed waits
 * Script:   examples/canceled_timed_wait.pct
 * Host:     the handler owns the mutex
 */
#define _XOPEN_SOURCE 700
#include <pthread.h>
#include <semaphore.h>
#include <stdio.h>
#include <time.h>

static pthread_mutex_t mutex;
static pthread_cond_t condition = PTHREAD_COND_INITIALIZER;
static sem_t owned;
static int error;
static struct timespec limit; /* an hour from now */

static void handler(void *unused)
{
    (void)unused;
    error = pthread_mutex_unlock(&mutex);
}

static void *waiter(void *unused)
{
    pthread_mutex_lock(&mutex);
    pthread_cleanup_push(handler, NULL);
    sem_post(&owned);
    pthread_cond_timedwait(&condition, &mutex, &limit);
    pthread_cleanup_pop(0);
    return unused;
}

int main(void)
{
    /* Of this type a mutex reports an unlock by a thread that does not own it. */
    pthread_mutexattr_t checked;
    pthread_t id;
    pthread_mutexattr_init(&checked);
    pthread_mutexattr_settype(&checked, PTHREAD_MUTEX_ERRORCHECK);
    pthread_mutex_init(&mutex, &checked);
    sem_init(&owned, 0, 0);
    clock_gettime(CLOCK_REALTIME, &limit);
    limit.tv_sec += 3600;
    pthread_create(&id, NULL, waiter, NULL);
    sem_wait(&owned);
    pthread_mutex_lock(&mutex); /* the waiter is in pthread_cond_timedwait */
    pthread_mutex_unlock(&mutex);
    pthread_cancel(id);
    pthread_join(id, NULL);
    printf("the handler %s the mutex\n", error == 0 ? "owns" : "does not own");
    return 0;
}
