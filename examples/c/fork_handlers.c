/* Two registrations of fork handlers, and a fork.
 *
 * Standard: pthread_atfork
 * Row:      Fork handlers
 * Script:   examples/library_fork_handlers.pct
 * Host:     prepare 2, prepare 1, then in the child child 1, child 2 and in the parent parent 1, parent 2
 */
#define _XOPEN_SOURCE 700
#include <pthread.h>
#include <stdio.h>
#include <sys/wait.h>
#include <unistd.h>

static void prepare_1(void) { printf(" prepare 1"); }
static void prepare_2(void) { printf(" prepare 2"); }
static void parent_1(void) { printf(" parent 1"); }
static void parent_2(void) { printf(" parent 2"); }
static void child_1(void) { printf(" child 1"); }
static void child_2(void) { printf(" child 2"); }

int main(void)
{
    pthread_atfork(prepare_1, parent_1, child_1);
    pthread_atfork(prepare_2, parent_2, child_2);
    pid_t child = fork();
    /* Each process has what prepare handlers printed in its buffer. The child prints its line first. */
    if (child != 0)
        waitpid(child, NULL, 0);
    printf("%s\n", child == 0 ? " (in the child)" : " (in the parent)");
    fflush(stdout);
    if (child == 0)
        _exit(0);
    return 0;
}
