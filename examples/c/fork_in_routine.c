/* An init routine forks, and returns in the parent and in the child. In each pthread_once is called again.
 *
 * Standard: fork, pthread_once
 * Row:      Forks in init routines
 * Script:   examples/library_fork_in_routine.pct
 * Host:     parent and child: the next call does not call the routine
 */
#define _XOPEN_SOURCE 700
#include <pthread.h>
#include <signal.h>
#include <stdio.h>
#include <sys/wait.h>
#include <unistd.h>

enum { CALLED = 1, NOT_CALLED = 2 };

static pthread_once_t once = PTHREAD_ONCE_INIT;
static pid_t child;
static int calls;

static void routine(void)
{
    if (++calls == 1)
        child = fork();
}

static const char *in_words(int is_called)
{
    return is_called ? "the next call calls the routine" : "the next call does not call the routine";
}

int main(void)
{
    int status = 0;
    alarm(1); /* ends a parent that hangs */
    pthread_once(&once, routine);
    if (child == 0)
        alarm(1);
    pthread_once(&once, routine);
    if (child == 0)
        _exit(calls == 2 ? CALLED : NOT_CALLED);
    waitpid(child, &status, 0);
    printf("parent: %s\n", in_words(calls == 2));
    printf("child: %s\n", WIFSIGNALED(status) ? "the next call hangs" : in_words(WEXITSTATUS(status) == CALLED));
    return 0;
}
