/* A thread unlocks a mutex of type PTHREAD_MUTEX_NORMAL that another thread owns.
 *
 * Standard: pthread_mutex_lock
 * Row:      Unlocks by other threads
 * Script:   examples/library_unlock_of_another.pct
 * Host:     stops the run, as `undefined not_owner`
 */
#define _XOPEN_SOURCE 700
#include <pthread.h>
#include <stdio.h>

static pthread_mutex_t mutex;
static int error;

static void *thread(void *unused)
{
    error = pthread_mutex_unlock(&mutex);
    return unused;
}

int main(void)
{
    pthread_mutexattr_t normal;
    pthread_t id;
    pthread_mutexattr_init(&normal);
    pthread_mutexattr_settype(&normal, PTHREAD_MUTEX_NORMAL);
    pthread_mutex_init(&mutex, &normal);
    pthread_mutex_lock(&mutex);
    pthread_create(&id, NULL, thread, NULL);
    pthread_join(id, NULL);
    printf("%s, and the mutex is %s\n", error == 0 ? "0" : "an error",
           pthread_mutex_trylock(&mutex) == 0 ? "free" : "locked");
    return 0;
}
