/* What do pthread_setcancelstate and pthread_setcanceltype report as the old state and type in a cleanup handler
 * and in a destructor, after the thread acted on a request or called pthread_exit?
 *
 * Standard: 2.9.5.3
 * Row:      State and type in handlers
 * Script:   examples/library_state_in_handler.pct
 * Host:     disabled and deferred in all four
 */
#define _XOPEN_SOURCE 700
#include <pthread.h>
#include <stdio.h>

static pthread_key_t key;

static void look(void *where)
{
    int state, type;
    pthread_setcancelstate(PTHREAD_CANCEL_DISABLE, &state);
    pthread_setcanceltype(PTHREAD_CANCEL_DEFERRED, &type);
    printf("%s: %s, %s\n", (char *)where, state == PTHREAD_CANCEL_DISABLE ? "disabled" : "enabled",
           type == PTHREAD_CANCEL_DEFERRED ? "deferred" : "asynchronous");
}

/* The type is asynchronous when the thread acts. */
static void act(void)
{
    pthread_setcanceltype(PTHREAD_CANCEL_ASYNCHRONOUS, NULL);
    pthread_cancel(pthread_self());
    for (;;)
        continue;
}

static void *handler_of_canceled(void *unused)
{
    pthread_cleanup_push(look, "handler after a request");
    act();
    pthread_cleanup_pop(0);
    return unused;
}

static void *destructor_of_canceled(void *unused)
{
    pthread_setspecific(key, "destructor after a request");
    act();
    return unused;
}

static void *handler_of_exit(void *unused)
{
    pthread_cleanup_push(look, "handler after pthread_exit");
    pthread_exit(NULL);
    pthread_cleanup_pop(0);
    return unused;
}

static void *destructor_of_exit(void *unused)
{
    pthread_setspecific(key, "destructor after pthread_exit");
    pthread_exit(NULL);
    return unused;
}

int main(void)
{
    void *(*const threads[])(void *) = {
        handler_of_canceled,
        destructor_of_canceled,
        handler_of_exit,
        destructor_of_exit,
    };
    pthread_key_create(&key, look);
    for (int i = 0; i < 4; i++) {
        pthread_t id;
        pthread_create(&id, NULL, threads[i], NULL);
        pthread_join(id, NULL);
    }
    return 0;
}
