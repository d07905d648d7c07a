/* A thread with cancelability disabled and a request pending forks. Is the request pending in the child, too?
 *
 * Standard: fork
 * Row:      Requests pending at fork
 * Script:   examples/library_fork_pending.pct
 * Host:     not pending in the child
 */
#define _XOPEN_SOURCE 700
#include <pthread.h>
#include <stdio.h>
#include <sys/wait.h>
#include <unistd.h>

enum { ACTED = 1, WENT_ON = 2 };

static void handler(void *unused)
{
    (void)unused;
    _exit(ACTED);
}

int main(void)
{
    int status = 0;
    pthread_setcancelstate(PTHREAD_CANCEL_DISABLE, NULL);
    pthread_cancel(pthread_self());
    pid_t child = fork();
    if (child == 0) {
        pthread_cleanup_push(handler, NULL);
        pthread_setcancelstate(PTHREAD_CANCEL_ENABLE, NULL);
        pthread_testcancel();
        pthread_cleanup_pop(0);
        _exit(WENT_ON);
    }
    waitpid(child, &status, 0);
    printf("%s\n", WEXITSTATUS(status) == ACTED ? "pending in the child, which acts at its first point"
                                                : "not pending in the child");
    return 0;
}
