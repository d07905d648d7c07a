/* A thread is canceled while it joins another one. The other one stays joinable.
 *
 * Standard: pthread_join
 * Row:      Canceled joiners
 * Script:   examples/canceled_joiner.replay
 * Host:     the joiner is canceled, and the other thread is joined later
 */
#define _XOPEN_SOURCE 700
#include <pthread.h>
#include <semaphore.h>
#include <stdio.h>

static pthread_t target;
static sem_t end;

static void *thread(void *value)
{
    sem_wait(&end);
    return value;
}

static void *joiner(void *unused)
{
    pthread_join(target, NULL);
    return unused;
}

int main(void)
{
    pthread_t id;
    void *value;
    sem_init(&end, 0, 0);
    pthread_create(&target, NULL, thread, "value");
    pthread_create(&id, NULL, joiner, NULL);
    pthread_cancel(id);
    pthread_join(id, &value);
    printf("the joiner is %s", value == PTHREAD_CANCELED ? "canceled" : "not canceled");
    sem_post(&end);
    printf(", and the other thread is %s\n", pthread_join(target, &value) == 0 ? "joined later" : "not joined later");
    return 0;
}
