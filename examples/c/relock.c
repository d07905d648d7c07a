/* A thread locks a mutex of type PTHREAD_MUTEX_NORMAL that it owns.
 *
 * Standard: pthread_mutex_lock
 * Row:      Locks of an own mutex
 * Script:   examples/relock.pct
 * Host:     `verdict deadlock`
 */
#define _XOPEN_SOURCE 700
#include <pthread.h>
#include <stdio.h>

int main(void)
{
    pthread_mutexattr_t normal;
    pthread_mutex_t mutex;
    pthread_mutexattr_init(&normal);
    pthread_mutexattr_settype(&normal, PTHREAD_MUTEX_NORMAL);
    pthread_mutex_init(&mutex, &normal);
    pthread_mutex_lock(&mutex);
    printf("the second lock gives %d\n", pthread_mutex_lock(&mutex));
    return 0;
}
