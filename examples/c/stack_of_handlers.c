/* A thread with cancelability enabled and asynchronous acts on a request between two calls. Its cleanup handler looks
 * at its stack, which the ABI of x86-64 wants at a multiple of 16 here, and calls snprintf with a double.
 *
 * Standard: 2.9.5.3, pthread_cleanup_push
 * Row:      Handlers after asynchronous requests
 * Script:   examples/library_handler_after_asynchronous.pct
 * Host:     the handler is called as after every request
 */
#define _XOPEN_SOURCE 700
#include <pthread.h>
#include <stdint.h>
#include <stdio.h>
#include <string.h>
#include <unistd.h>

static volatile int runs;

static void say(const char *text)
{
    /* No stdio: it could need the stack as it should be. */
    if (write(STDOUT_FILENO, text, strlen(text)) < 0)
        _exit(1);
}

static void handler(void *unused)
{
    char text[32];
    (void)unused;
    say((uintptr_t)__builtin_frame_address(0) % 16 == 0 ? "stack of the handler: a multiple of 16\n"
                                                         : "stack of the handler: 8 modulo 16\n");
    snprintf(text, sizeof text, "%.1f", 0.5 * runs);
    say("snprintf returns\n");
}

static void *thread(void *unused)
{
    pthread_cleanup_push(handler, unused);
    pthread_setcanceltype(PTHREAD_CANCEL_ASYNCHRONOUS, NULL);
    runs = 1;
    for (;;)
        continue;
    pthread_cleanup_pop(0);
    return NULL;
}

int main(void)
{
    pthread_t id;
    pthread_create(&id, NULL, thread, NULL);
    while (!runs)
        continue;
    pthread_cancel(id);
    pthread_join(id, NULL);
    return 0;
}
