/* A handler that pthread_exit called calls pthread_exit.
 *
 * Standard: pthread_exit
 * Row:      pthread_exit in handlers
 * Script:   examples/exit_in_ending.pct
 * Host:     stops the run, as `undefined exit_in_ending`
 */
#define _XOPEN_SOURCE 700
#include <pthread.h>
#include <stdio.h>
#include <unistd.h>

static int calls;

static void outer(void *unused)
{
    (void)unused;
    printf("the other handler is called, ");
}

static void handler(void *unused)
{
    (void)unused;
    if (++calls == 1000) {
        printf("the handler is called again and again\n");
        fflush(stdout);
        _exit(0);
    }
    pthread_exit("second");
}

static void *thread(void *unused)
{
    pthread_cleanup_push(outer, NULL);
    pthread_cleanup_push(handler, NULL);
    pthread_exit("first");
    pthread_cleanup_pop(0);
    pthread_cleanup_pop(0);
    return unused;
}

int main(void)
{
    pthread_t id;
    void *value;
    pthread_create(&id, NULL, thread, NULL);
    pthread_join(id, &value);
    printf("and the joiner gets the %s value\n", (char *)value);
    return 0;
}
