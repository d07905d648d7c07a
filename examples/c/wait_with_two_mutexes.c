/* Two threads wait on one condition variable, with a mutex each.
 *
 * Standard: pthread_cond_wait
 * Row:      Condition waits with two mutexes
 * Script:   examples/library_wait_with_two_mutexes.pct
 * Host:     stops the run at the second wait, as `undefined cond_two_mutexes`
 */
#define _XOPEN_SOURCE 700
#include <pthread.h>
#include <semaphore.h>
#include <stdio.h>
#include <time.h>

static pthread_mutex_t mutexes[2] = {PTHREAD_MUTEX_INITIALIZER, PTHREAD_MUTEX_INITIALIZER};
static pthread_cond_t condition = PTHREAD_COND_INITIALIZER;
static sem_t owned, returned;
static int errors[2];

static void *thread(void *mutex)
{
    pthread_mutex_lock(mutex);
    sem_post(&owned);
    errors[(pthread_mutex_t *)mutex - mutexes] = pthread_cond_wait(&condition, mutex);
    sem_post(&returned);
    pthread_mutex_unlock(mutex);
    return NULL;
}

int main(void)
{
    const struct timespec a_while = {0, 50000000};
    pthread_t ids[2];
    sem_init(&owned, 0, 0);
    sem_init(&returned, 0, 0);
    for (int i = 0; i < 2; i++) {
        pthread_create(&ids[i], NULL, thread, &mutexes[i]);
        sem_wait(&owned);
        pthread_mutex_lock(&mutexes[i]); /* the thread is in pthread_cond_wait */
        pthread_mutex_unlock(&mutexes[i]);
    }
    nanosleep(&a_while, NULL);
    printf("%s", sem_trywait(&returned) == 0 ? "one returns at once" : "both block until a signal");
    pthread_cond_broadcast(&condition);
    for (int i = 0; i < 2; i++)
        pthread_join(ids[i], NULL);
    printf(", and give %s\n", errors[0] == 0 && errors[1] == 0 ? "0" : "an error");
    return 0;
}
