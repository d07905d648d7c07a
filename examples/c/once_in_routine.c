/* An init routine calls pthread_once on its own control.
 *
 * Standard: pthread_once
 * Row:      pthread_once in its own init routine
 * Script:   examples/once_in_its_routine.pct
 * Host:     `verdict deadlock`
 */
#define _XOPEN_SOURCE 700
#include <pthread.h>
#include <stdio.h>

static pthread_once_t once = PTHREAD_ONCE_INIT;

static void routine(void)
{
    printf("the call in the routine gives %d\n", pthread_once(&once, routine));
}

int main(void)
{
    pthread_once(&once, routine);
    return 0;
}
