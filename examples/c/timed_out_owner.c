/* The time of a condition wait expires while another thread owns the mutex. Does the thread own the mutex when the wait
 * returns, and when does it return?
 *
 * Standard: pthread_cond_timedwait
 * Row:      Time-outs own the mutex
 * Script:   examples/timed_wait.pct
 * Host:     ETIMEDOUT, after the other thread has unlocked, and the thread owns the mutex
 */
#define _XOPEN_SOURCE 700
#include <errno.h>
#include <pthread.h>
#include <semaphore.h>
#include <stdio.h>
#include <time.h>

static pthread_mutex_t mutex;
static pthread_cond_t condition = PTHREAD_COND_INITIALIZER;
static sem_t owned;
static int is_unlocked; /* guarded by the mutex */

static void *waiter(void *unused)
{
    struct timespec limit;
    pthread_mutex_lock(&mutex);
    sem_post(&owned);
    clock_gettime(CLOCK_REALTIME, &limit);
    limit.tv_nsec += 20000000;
    limit.tv_sec += limit.tv_nsec / 1000000000;
    limit.tv_nsec %= 1000000000;
    int error = pthread_cond_timedwait(&condition, &mutex, &limit);
    int when = is_unlocked;
    int owner = pthread_mutex_unlock(&mutex);
    printf("%s, %s the other thread has unlocked, and the thread %s the mutex\n",
           error == ETIMEDOUT ? "ETIMEDOUT" : "another result", when ? "after" : "before",
           owner == 0 ? "owns" : "does not own");
    return unused;
}

int main(void)
{
    /* Of this type a mutex reports an unlock by a thread that does not own it. */
    const struct timespec a_while = {0, 100000000};
    pthread_mutexattr_t checked;
    pthread_t id;
    pthread_mutexattr_init(&checked);
    pthread_mutexattr_settype(&checked, PTHREAD_MUTEX_ERRORCHECK);
    pthread_mutex_init(&mutex, &checked);
    sem_init(&owned, 0, 0);
    pthread_create(&id, NULL, waiter, NULL);
    sem_wait(&owned);
    pthread_mutex_lock(&mutex); /* the waiter is in its wait */
    nanosleep(&a_while, NULL);  /* its time expires */
    is_unlocked = 1;
    pthread_mutex_unlock(&mutex);
    pthread_join(id, NULL);
    return 0;
}
