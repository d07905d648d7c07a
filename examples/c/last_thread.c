/* The initial thread ends by pthread_exit. Another thread joins it, goes on, and ends as the last one.
 *
 * Standard: pthread_exit
 * Row:      The last thread
 * Script:   examples/last_thread_exits.pct
 * Host:     the initial thread is joined, and the last thread exits the process with status 0
 */
#define _XOPEN_SOURCE 700
#include <pthread.h>
#include <stdio.h>
#include <stdlib.h>

static pthread_t initial;
static char initial_value[] = "value";

static void at_exit(void)
{
    printf(", and the last thread exits the process\n");
}

static void *thread(void *value)
{
    void *of_initial;
    int error = pthread_join(initial, &of_initial);
    printf("the initial thread is %s", error == 0 && of_initial == initial_value ? "joined" : "not joined");
    return value;
}

int main(void)
{
    pthread_t id;
    initial = pthread_self();
    atexit(at_exit);
    pthread_create(&id, NULL, thread, "another value");
    pthread_exit(initial_value);
}
