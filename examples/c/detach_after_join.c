/* A thread is joined, and then detached.
 *
 * Standard: pthread_detach, 2.9.2
 * Row:      Joins and detaches of joined threads
 * Script:   examples/library_detach_after_join.pct
 * Host:     stops the run, as `undefined thread_id`
 */
#define _XOPEN_SOURCE 700
#include <errno.h>
#include <pthread.h>
#include <stdio.h>

static void *thread(void *unused)
{
    return unused;
}

int main(void)
{
    pthread_t id;
    pthread_create(&id, NULL, thread, NULL);
    pthread_join(id, NULL);
    int error = pthread_detach(id);
    printf("%s\n", error == 0 ? "0" : error == ESRCH ? "ESRCH" : "another error");
    return 0;
}
