/* A thread waits on a condition variable with a mutex that no thread owns.
 *
 * Standard: pthread_cond_wait
 * Row:      Condition waits without the mutex
 * Script:   examples/library_wait_without_mutex.pct
 * Host:     stops the run, as `undefined not_owner`
 */
#define _XOPEN_SOURCE 700
#include <pthread.h>
#include <semaphore.h>
#include <stdio.h>
#include <time.h>

static pthread_mutex_t mutex = PTHREAD_MUTEX_INITIALIZER;
static pthread_cond_t condition = PTHREAD_COND_INITIALIZER;
static sem_t returned;
static int error;

static void *thread(void *unused)
{
    error = pthread_cond_wait(&condition, &mutex);
    sem_post(&returned);
    return unused;
}

int main(void)
{
    const struct timespec a_while = {0, 50000000};
    pthread_t id;
    int signals = 0;
    sem_init(&returned, 0, 0);
    pthread_create(&id, NULL, thread, NULL);
    nanosleep(&a_while, NULL);
    /* A signal that comes before the wait unblocks nobody. So it is repeated. */
    for (; sem_trywait(&returned) != 0; signals++) {
        pthread_cond_signal(&condition);
        nanosleep(&a_while, NULL);
    }
    pthread_join(id, NULL);
    printf("%s, and gives %s\n", signals == 0 ? "returns at once" : "blocks until a signal", error == 0 ? "0" : "an error");
    return 0;
}
