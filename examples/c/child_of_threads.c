/* A process with two threads forks. One child calls pthread_create, pthread_join and exit, another one
 * pthread_exit.
 *
 * Standard: fork
 * Row:      Children of processes with threads
 * Script:   examples/library_child_of_threads.pct
 * Host:     stops the run at the first of these calls, as `profile fork_child_call`
 */
#define _XOPEN_SOURCE 700
#include <pthread.h>
#include <stdio.h>
#include <stdlib.h>
#include <sys/wait.h>
#include <unistd.h>

static void *pauses(void *unused)
{
    for (;;)
        pause();
    return unused;
}

static void *returns(void *value)
{
    return value;
}

static int status_of_child(int calls_pthread_exit)
{
    int status = 0;
    pid_t child = fork();
    if (child == 0) {
        pthread_t id;
        void *value;
        alarm(1); /* ends a child that hangs */
        if (calls_pthread_exit)
            pthread_exit(NULL);
        if (pthread_create(&id, NULL, returns, "value") != 0 || pthread_join(id, &value) != 0)
            _exit(1);
        exit(0);
    }
    waitpid(child, &status, 0);
    return status;
}

int main(void)
{
    pthread_t id;
    pthread_create(&id, NULL, pauses, NULL);
    printf("pthread_create, pthread_join, exit: %s", status_of_child(0) == 0 ? "work" : "do not work");
    fflush(stdout);
    printf("; pthread_exit: %s\n", status_of_child(1) == 0 ? "works" : "does not work");
    return 0;
}
