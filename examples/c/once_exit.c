/* A thread calls pthread_exit in an init routine. Does the next call of pthread_once call the routine?
 *
 * Standard: pthread_once
 * Row:      pthread_exit in init routines
 * Script:   examples/library_exit_in_routine.pct
 * Host:     the next call calls the routine
 */
#define _XOPEN_SOURCE 700
#include <pthread.h>
#include <stdio.h>

static pthread_once_t once = PTHREAD_ONCE_INIT;
static int calls;

static void routine(void)
{
    if (++calls == 1)
        pthread_exit(NULL);
}

static void *caller(void *unused)
{
    pthread_once(&once, routine);
    return unused;
}

int main(void)
{
    pthread_t id;
    pthread_create(&id, NULL, caller, NULL);
    pthread_join(id, NULL);
    pthread_once(&once, routine);
    printf("the next call %s the routine\n", calls == 2 ? "calls" : "does not call");
    return 0;
}
