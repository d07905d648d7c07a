/* A thread that owns a mutex, with a request pending, calls pthread_cond_wait. Another thread waits for the mutex.
 * Can it own the mutex before the first handler of the thread that is canceled?
 *
 * Standard: 2.9.5.2, 2.9.5.3, pthread_cond_wait
 * Row:      Requests pending at condition waits
 * Script:   examples/library_wait_with_request.pct
 * Host:     the other thread is the owner first: never
 */
#define _XOPEN_SOURCE 700
#include <pthread.h>
#include <semaphore.h>
#include <stdio.h>
#include <time.h>

enum { ROUNDS = 300 };

static const struct timespec a_while = {0, 1000000};
static pthread_mutex_t mutex = PTHREAD_MUTEX_INITIALIZER;
static pthread_cond_t condition = PTHREAD_COND_INITIALIZER;
static sem_t owned;
static int other_was_owner; /* guarded by the mutex */
static int rounds;          /* rounds in which the other thread came first */

static void handler(void *unused)
{
    (void)unused;
    rounds += other_was_owner;
    pthread_mutex_unlock(&mutex);
}

static void *waiter(void *unused)
{
    pthread_mutex_lock(&mutex);
    other_was_owner = 0;
    sem_post(&owned);
    nanosleep(&a_while, NULL); /* enough for the other thread to wait for the mutex */
    pthread_cleanup_push(handler, NULL);
    pthread_cancel(pthread_self());
    pthread_cond_wait(&condition, &mutex);
    pthread_cleanup_pop(0);
    return unused;
}

static void *other(void *unused)
{
    sem_wait(&owned);
    pthread_mutex_lock(&mutex);
    other_was_owner = 1;
    pthread_mutex_unlock(&mutex);
    return unused;
}

int main(void)
{
    sem_init(&owned, 0, 0);
    for (int round = 0; round < ROUNDS; round++) {
        pthread_t ids[2];
        pthread_create(&ids[0], NULL, other, NULL);
        pthread_create(&ids[1], NULL, waiter, NULL);
        pthread_join(ids[0], NULL);
        pthread_join(ids[1], NULL);
    }
    printf("the other thread is the owner first: %s\n", rounds == 0 ? "never" : "seen");
    fprintf(stderr, "in %d of %d rounds\n", rounds, ROUNDS);
    return 0;
}
