/* An init routine pushes a cleanup handler, and its thread is canceled. The handler calls pthread_once with the control.
 *
 * Standard: pthread_once
 * Row:      Handlers of init routines that call pthread_once
 * Script:   examples/library_init_handler.pct
 * Host:     the handler calls the routine
 */
#define _XOPEN_SOURCE 700
#include <pthread.h>
#include <stdio.h>
#include <unistd.h>

static pthread_once_t control = PTHREAD_ONCE_INIT;

static void second(void)
{
    printf("the handler calls the routine\n");
}

static void handler(void *unused)
{
    (void)unused;
    pthread_once(&control, second);
}

static void first(void)
{
    pthread_cleanup_push(handler, NULL);
    for (;;)
        pause();
    pthread_cleanup_pop(0);
}

static void *thread(void *unused)
{
    pthread_once(&control, first);
    return unused;
}

int main(void)
{
    pthread_t id;
    pthread_create(&id, NULL, thread, NULL);
    pthread_cancel(id);
    pthread_join(id, NULL);
    return 0;
}
