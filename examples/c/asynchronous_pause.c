/* A thread with asynchronous cancelability calls a function that need not be async-cancel-safe, and blocks in it:
 * pause. Then its end is requested.
 *
 * Standard: 2.9.5.4
 * Row:      Calls with asynchronous type
 * Script:   examples/library_asynchronous_pause.pct
 * Host:     stops the run at the call, as `undefined async_call`, unless the thread acts before the call
 */
#define _XOPEN_SOURCE 700
#include <pthread.h>
#include <semaphore.h>
#include <stdio.h>
#include <time.h>
#include <unistd.h>

static sem_t ready;

static void *thread(void *unused)
{
    sem_post(&ready);
    pthread_setcanceltype(PTHREAD_CANCEL_ASYNCHRONOUS, NULL);
    pause();
    return unused;
}

int main(void)
{
    const struct timespec a_while = {0, 20000000};
    pthread_t id;
    void *value;
    sem_init(&ready, 0, 0);
    pthread_create(&id, NULL, thread, NULL);
    sem_wait(&ready);
    nanosleep(&a_while, NULL);
    pthread_cancel(id);
    pthread_join(id, &value);
    printf("in pause: %s\n", value == PTHREAD_CANCELED ? "ended there" : "not ended");
    return 0;
}
