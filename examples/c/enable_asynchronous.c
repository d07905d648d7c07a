/* A thread enables cancelability with asynchronous type and a request pending. Does it act, and what does its
 * joiner get?
 *
 * Standard: 2.9.5.1, 2.9.5.3
 * Row:      Enabling with asynchronous type
 * Script:   examples/library_enable_asynchronous.pct
 * Host:     acts at once, later or not at all, as the schedule says; the joiner gets PTHREAD_CANCELED if it acts
 */
#define _XOPEN_SOURCE 700
#include <pthread.h>
#include <stdio.h>

static volatile int goes_on;

static void *thread(void *value)
{
    pthread_setcancelstate(PTHREAD_CANCEL_DISABLE, NULL);
    pthread_setcanceltype(PTHREAD_CANCEL_ASYNCHRONOUS, NULL);
    pthread_cancel(pthread_self());
    pthread_setcancelstate(PTHREAD_CANCEL_ENABLE, NULL);
    /* No cancellation point from here on. */
    for (volatile int count = 0; count < 10000000; count++)
        continue;
    goes_on = 1;
    return value;
}

int main(void)
{
    pthread_t id;
    void *value;
    pthread_create(&id, NULL, thread, "value");
    pthread_join(id, &value);
    printf("%s, and the joiner gets %s\n", goes_on ? "does not act" : "acts",
           value == PTHREAD_CANCELED ? "PTHREAD_CANCELED" : value == NULL ? "0" : "the value");
    return 0;
}
