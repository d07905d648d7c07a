/* A thread has two handlers pushed and a value with a destructor. It calls pthread_exit; another one acts on a
 * request.
 *
 * Standard: 2.9.5.3, pthread_exit, pthread_cleanup_push
 * Row:      Handlers, destructors and values
 * Script:   examples/library_handlers_then_destructors.pct
 * Host:     pthread_exit: inner outer destructor, joined with the value; request: the same, with PTHREAD_CANCELED
 */
#define _XOPEN_SOURCE 700
#include <pthread.h>
#include <stdio.h>

static pthread_key_t key;

static void show(void *name)
{
    printf(" %s", (char *)name);
}

static void *thread(void *is_canceled)
{
    pthread_setspecific(key, "destructor");
    pthread_cleanup_push(show, "outer");
    pthread_cleanup_push(show, "inner");
    if (is_canceled != NULL)
        pthread_cancel(pthread_self());
    pthread_testcancel();
    pthread_exit("value");
    pthread_cleanup_pop(0);
    pthread_cleanup_pop(0);
    return NULL;
}

static void end_a_thread(const char *how, void *is_canceled)
{
    pthread_t id;
    void *value;
    printf("%s:", how);
    pthread_create(&id, NULL, thread, is_canceled);
    pthread_join(id, &value);
    printf(", joined with %s\n", value == PTHREAD_CANCELED ? "PTHREAD_CANCELED" : "the value");
}

int main(void)
{
    pthread_key_create(&key, show);
    end_a_thread("pthread_exit", NULL);
    end_a_thread("request", "yes");
    return 0;
}
