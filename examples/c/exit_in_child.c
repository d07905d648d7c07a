/* The initial thread of a forked child creates a thread, and calls pthread_exit. The new thread joins it.
 *
 * Standard: fork, pthread_join
 * Row:      pthread_exit in a forked child
 * Script:   examples/library_exit_in_child.pct
 * Host:     the join gets the value
 */
#define _XOPEN_SOURCE 700
#include <pthread.h>
#include <signal.h>
#include <stdio.h>
#include <sys/wait.h>
#include <unistd.h>

static pthread_t initial;

static void *joiner(void *value)
{
    void *of_initial;
    pthread_join(initial, &of_initial);
    _exit(of_initial == value ? 0 : 1);
}

int main(void)
{
    static char value[] = "value";
    int status = 0;
    pid_t child = fork();
    if (child == 0) {
        pthread_t id;
        alarm(1); /* ends a child that hangs */
        initial = pthread_self();
        pthread_create(&id, NULL, joiner, value);
        pthread_exit(value);
    }
    waitpid(child, &status, 0);
    printf("the join %s\n", WIFSIGNALED(status) && WTERMSIG(status) == SIGALRM ? "hangs"
                            : status == 0                                     ? "gets the value"
                                                                              : "does not get the value");
    return 0;
}
