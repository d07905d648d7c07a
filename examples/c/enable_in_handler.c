/* A handler of a thread that acted on a request enables cancelability, and calls pthread_testcancel.
 *
 * Standard: 2.9.5.3
 * Row:      Enabling in handlers
 * Script:   examples/enable_in_handler.pct
 * Host:     stops the run, as `undefined enable_in_handler`
 */
#define _XOPEN_SOURCE 700
#include <pthread.h>
#include <stdio.h>

static void outer(void *unused)
{
    (void)unused;
    printf(", the other handler is called");
}

static void handler(void *unused)
{
    (void)unused;
    printf("the handler is called");
    pthread_setcancelstate(PTHREAD_CANCEL_ENABLE, NULL);
    pthread_testcancel();
    printf(" and returns");
}

static void *thread(void *unused)
{
    pthread_cleanup_push(outer, NULL);
    pthread_cleanup_push(handler, NULL);
    pthread_cancel(pthread_self());
    pthread_testcancel();
    pthread_cleanup_pop(0);
    pthread_cleanup_pop(0);
    return unused;
}

int main(void)
{
    pthread_t id;
    pthread_create(&id, NULL, thread, NULL);
    pthread_join(id, NULL);
    printf("\n");
    return 0;
}
