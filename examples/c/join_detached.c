/* A thread that does not end was created detached, and is joined.
 *
 * Standard: pthread_join, 2.9.2
 * Row:      Joins and detaches of detached threads
 * Script:   examples/join_detached.pct
 * Host:     stops the run, as `undefined not_joinable`
 */
#define _XOPEN_SOURCE 700
#include <errno.h>
#include <pthread.h>
#include <stdio.h>
#include <unistd.h>

static void *thread(void *unused)
{
    for (;;)
        pause();
    return unused;
}

int main(void)
{
    pthread_attr_t detached;
    pthread_t id;
    pthread_attr_init(&detached);
    pthread_attr_setdetachstate(&detached, PTHREAD_CREATE_DETACHED);
    pthread_create(&id, &detached, thread, NULL);
    int error = pthread_join(id, NULL);
    printf("%s\n", error == 0 ? "0" : error == EINVAL ? "EINVAL" : "another error");
    return 0;
}
