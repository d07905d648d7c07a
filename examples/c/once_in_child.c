/* A process forks while another thread of it is in an init routine. The child calls pthread_once on the control.
 *
 * Standard: fork, pthread_once
 * Row:      pthread_once in forked children
 * Script:   examples/library_once_in_child.pct
 * Host:     stops the run
 */
#define _XOPEN_SOURCE 700
#include <pthread.h>
#include <semaphore.h>
#include <signal.h>
#include <stdio.h>
#include <sys/wait.h>
#include <unistd.h>

enum { CALLED = 1, NOT_CALLED = 2 };

static pthread_once_t once = PTHREAD_ONCE_INIT;
static sem_t inside;
static int calls;

/* The first call of it does not return. */
static void routine(void)
{
    if (++calls == 1) {
        sem_post(&inside);
        for (;;)
            pause();
    }
}

static void *caller(void *unused)
{
    pthread_once(&once, routine);
    return unused;
}

int main(void)
{
    pthread_t id;
    int status = 0;
    sem_init(&inside, 0, 0);
    pthread_create(&id, NULL, caller, NULL);
    sem_wait(&inside);
    pid_t child = fork();
    if (child == 0) {
        alarm(1); /* ends a child that hangs */
        pthread_once(&once, routine);
        _exit(calls == 2 ? CALLED : NOT_CALLED);
    }
    waitpid(child, &status, 0);
    printf("the call in the child %s\n", WIFSIGNALED(status) && WTERMSIG(status) == SIGALRM ? "hangs"
                                         : WEXITSTATUS(status) == CALLED ? "calls the routine"
                                                                         : "does not call the routine");
    return 0;
}
