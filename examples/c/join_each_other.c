/* Two threads join each other.
 *
 * Standard: pthread_join
 * Row:      Threads that join each other
 * Script:   examples/deadlock.pct
 * Host:     `verdict deadlock`
 */
#define _XOPEN_SOURCE 700
#include <errno.h>
#include <pthread.h>
#include <stdio.h>

static void join(pthread_t other)
{
    int error = pthread_join(other, NULL);
    printf("%s\n", error == 0 ? "0" : error == EDEADLK ? "EDEADLK" : "another error");
    fflush(stdout);
}

static void *thread(void *first)
{
    join(*(pthread_t *)first);
    return NULL;
}

int main(void)
{
    pthread_t first = pthread_self(), id;
    pthread_create(&id, NULL, thread, &first);
    join(id);
    return 0;
}
