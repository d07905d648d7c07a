/* The end of a thread in waitpid is requested at about the time at which its child ends. If the thread acts, is
 * the child still there for another waitpid?
 *
 * Standard: 2.9.5.2
 * Row:      Canceled waitpid
 * Script:   examples/library_waitpid_canceled.pct
 * Host:     a child that no waitpid returns: never
 */
#define _XOPEN_SOURCE 700
#include <pthread.h>
#include <stdio.h>
#include <sys/wait.h>
#include <time.h>
#include <unistd.h>

enum { ROUNDS = 300 };

static pid_t child;

static void *waiter(void *unused)
{
    waitpid(child, NULL, 0);
    return unused;
}

int main(void)
{
    const struct timespec a_while = {0, 100000}; /* enough for the thread to be in waitpid */
    int lost = 0;
    for (int round = 0; round < ROUNDS && lost == 0; round++) {
        pthread_t id;
        void *value;
        int ends[2];
        if (pipe(ends) != 0)
            return 1;
        child = fork();
        if (child == 0) {
            char byte;
            close(ends[1]);
            _exit(read(ends[0], &byte, 1) != 0); /* ends when the parent closes the pipe */
        }
        pthread_create(&id, NULL, waiter, NULL);
        nanosleep(&a_while, NULL);
        close(ends[1]);
        for (volatile int count = 0; count < 1 << (round % 20); count++)
            continue; /* up to some hundred microseconds */
        pthread_cancel(id);
        pthread_join(id, &value);
        close(ends[0]);
        if (value == PTHREAD_CANCELED && waitpid(child, NULL, 0) != child)
            lost = round + 1;
    }
    printf("a child that no waitpid returns: %s\n", lost == 0 ? "never" : "seen");
    if (lost != 0)
        fprintf(stderr, "in round %d\n", lost);
    return 0;
}
