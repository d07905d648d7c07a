/* The time of a wait has passed at the call. What do a condition wait, a wait for a semaphore with a count of 1, and one
 * for a semaphore with a count of 0 give?
 *
 * Standard: pthread_cond_timedwait, sem_timedwait
 * Row:      Times that have passed
 * Script:   examples/library_passed_time.pct
 * Host:     condition wait: ETIMEDOUT; count 1: 0; count 0: ETIMEDOUT
 */
#define _XOPEN_SOURCE 700
#include <errno.h>
#include <pthread.h>
#include <semaphore.h>
#include <stdio.h>
#include <time.h>

static void show(const char *what, int error)
{
    printf("%s: %s\n", what, error == 0 ? "0" : error == ETIMEDOUT ? "ETIMEDOUT" : "another error");
}

int main(void)
{
    const struct timespec passed = {1, 0};
    pthread_mutex_t mutex = PTHREAD_MUTEX_INITIALIZER;
    pthread_cond_t condition = PTHREAD_COND_INITIALIZER;
    sem_t semaphore;
    pthread_mutex_lock(&mutex);
    show("condition wait", pthread_cond_timedwait(&condition, &mutex, &passed));
    pthread_mutex_unlock(&mutex);
    sem_init(&semaphore, 0, 1);
    show("count 1", sem_timedwait(&semaphore, &passed) == 0 ? 0 : errno);
    show("count 0", sem_timedwait(&semaphore, &passed) == 0 ? 0 : errno);
    return 0;
}
