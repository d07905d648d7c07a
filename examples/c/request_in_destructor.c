/* A thread ends with a request pending, and one of its destructors calls pthread_testcancel. Does it act there?
 *
 * Standard: 2.9.5.3, pthread_create, pthread_exit
 * Row:      Requests in destructors
 * Script:   examples/library_request_in_destructor.pct
 * Host:     does not act, and the joiner gets the value, after a return and after pthread_exit
 */
#define _XOPEN_SOURCE 700
#include <pthread.h>
#include <stdio.h>

static pthread_key_t key;
static int finished;

static void destructor(void *unused)
{
    (void)unused;
    pthread_testcancel();
    finished = 1;
}

static void *returns(void *value)
{
    pthread_setspecific(key, value);
    pthread_cancel(pthread_self());
    return value;
}

static void *exits(void *value)
{
    pthread_setspecific(key, value);
    pthread_cancel(pthread_self());
    pthread_exit(value);
}

static void end_a_thread(const char *how, void *(*function)(void *))
{
    pthread_t id;
    void *value;
    finished = 0;
    pthread_create(&id, NULL, function, "value");
    pthread_join(id, &value);
    printf("after %s: %s, and the joiner gets %s\n", how, finished ? "does not act" : "acts",
           value == PTHREAD_CANCELED ? "PTHREAD_CANCELED" : "the value");
}

int main(void)
{
    pthread_key_create(&key, destructor);
    end_a_thread("a return", returns);
    end_a_thread("pthread_exit", exits);
    return 0;
}
