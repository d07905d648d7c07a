/* How many children that are not reaped, fork handlers and exit functions is there room for? The standard asks for
 * room for 32 exit functions, and names no number of fork handlers.
 *
 * Standard: fork, pthread_atfork, atexit, XBD <limits.h>
 * Row:      Room for processes and handlers
 * Script:   examples/library_room_for_processes.pct
 * Host:     child 8: EAGAIN; fork handler 17: ENOMEM; exit function 33: 1
 */
#define _XOPEN_SOURCE 700
#include <errno.h>
#include <pthread.h>
#include <stdio.h>
#include <stdlib.h>
#include <sys/wait.h>
#include <unistd.h>

static void nothing(void)
{
}

int main(void)
{
    pid_t child = 1;
    int error = 0, refused = 0;
    for (int count = 1; count <= 8 && child > 0; count++) {
        child = fork();
        if (child == 0)
            _exit(0);
    }
    printf("child 8: %s", child > 0 ? "made" : errno == EAGAIN ? "EAGAIN" : "another error");
    while (wait(NULL) > 0)
        continue;
    for (int count = 1; count <= 17 && error == 0; count++)
        error = pthread_atfork(nothing, nothing, nothing);
    printf("; fork handler 17: %s", error == 0 ? "made" : error == ENOMEM ? "ENOMEM" : "another error");
    for (int count = 1; count <= 33 && refused == 0; count++)
        refused = atexit(nothing);
    printf("; exit function 33: %s\n", refused == 0 ? "made" : "refused");
    return 0;
}
