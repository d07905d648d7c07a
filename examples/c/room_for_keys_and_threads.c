/* How many keys and threads is there room for? The least that the standard allows is 128 keys and 64 threads.
 *
 * Standard: pthread_key_create, pthread_create, XBD <limits.h>
 * Row:      Room for keys and threads
 * Script:   examples/library_room_for_keys_and_threads.pct
 * Host:     key 129: EAGAIN; thread 65: EAGAIN
 */
#define _XOPEN_SOURCE 700
#include <errno.h>
#include <pthread.h>
#include <stdio.h>

static const char *name(int error)
{
    return error == 0 ? "made" : error == EAGAIN ? "EAGAIN" : "another error";
}

static void *thread(void *unused)
{
    return unused;
}

int main(void)
{
    pthread_key_t key;
    pthread_t id;
    int error = 0;
    for (int count = 1; count <= 129 && error == 0; count++)
        error = pthread_key_create(&key, NULL);
    printf("key 129: %s\n", name(error));
    /* The initial thread is the first one. The others end and are neither joined nor detached. */
    error = 0;
    for (int count = 2; count <= 65 && error == 0; count++)
        error = pthread_create(&id, NULL, thread, NULL);
    printf("thread 65: %s\n", name(error));
    return 0;
}
