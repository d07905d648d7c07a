/* A thread is joined twice, one join after the other.
 *
 * Standard: pthread_join, 2.9.2
 * Row:      Joins and detaches of joined threads
 * Script:   examples/joined_before.pct
 * Host:     stops the run, as `undefined thread_id`
 */
#define _XOPEN_SOURCE 700
#include <errno.h>
#include <pthread.h>
#include <stdio.h>

static void *thread(void *unused)
{
    return unused;
}

int main(void)
{
    pthread_t id;
    pthread_create(&id, NULL, thread, NULL);
    pthread_join(id, NULL);
    int error = pthread_join(id, NULL);
    printf("%s\n", error == 0 ? "0" : error == ESRCH ? "ESRCH" : "another error");
    return 0;
}
