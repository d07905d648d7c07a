/* A thread calls atexit while another one is in exit, which has called the first function.
 *
 * Standard: atexit, exit
 * Row:      atexit during exit
 * Script:   examples/library_atexit_in_exit.pct
 * Host:     atexit gives 1, and the function is not called
 */
#define _XOPEN_SOURCE 700
#include <pthread.h>
#include <semaphore.h>
#include <stdio.h>
#include <stdlib.h>

static sem_t exiting, registered;

static void first(void)
{
    sem_post(&exiting);
    sem_wait(&registered);
}

static void late(void)
{
    printf(", and the function is called");
}

static void at_end(void)
{
    printf("\n");
}

static void *thread(void *unused)
{
    sem_wait(&exiting);
    printf("atexit gives %s", atexit(late) == 0 ? "0" : "another number");
    sem_post(&registered);
    return unused;
}

int main(void)
{
    pthread_t id;
    sem_init(&exiting, 0, 0);
    sem_init(&registered, 0, 0);
    pthread_create(&id, NULL, thread, NULL);
    atexit(at_end);
    atexit(first);
    exit(0);
}
