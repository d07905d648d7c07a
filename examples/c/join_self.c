/* A thread joins itself.
 *
 * Standard: pthread_join
 * Row:      Joins of the calling thread
 * Script:   examples/join_self.pct
 * Host:     stops the run, as `undefined join_self`
 */
#define _XOPEN_SOURCE 700
#include <errno.h>
#include <pthread.h>
#include <stdio.h>

int main(void)
{
    int error = pthread_join(pthread_self(), NULL);
    printf("%s\n", error == 0 ? "0" : error == EDEADLK ? "EDEADLK" : "another error");
    return 0;
}
