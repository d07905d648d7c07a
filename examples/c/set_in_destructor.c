/* A destructor sets the value of another key while the destructors of its thread are called. Is the destructor of
 * that key called after it in the same pass over the keys, or in the next pass?
 *
 * Standard: pthread_key_create
 * Row:      Keys set by destructors
 * Script:   examples/library_set_in_destructor.pct
 * Host:     a sets b: b is last; c sets b: b is last
 */
#define _XOPEN_SOURCE 700
#include <pthread.h>
#include <stdio.h>

static pthread_key_t a, b, c;
static char setter; /* the key whose destructor sets b */

static void destructor(void *name)
{
    printf(" %c", *(char *)name);
    if (*(char *)name == setter)
        pthread_setspecific(b, "b");
}

static void *thread(void *unused)
{
    pthread_setspecific(a, "a");
    pthread_setspecific(c, "c");
    return unused;
}

static void end_a_thread(char name)
{
    pthread_t id;
    setter = name;
    printf("%c sets b:", name);
    pthread_create(&id, NULL, thread, NULL);
    pthread_join(id, NULL);
    printf("\n");
}

int main(void)
{
    pthread_key_create(&a, destructor);
    pthread_key_create(&b, destructor);
    pthread_key_create(&c, destructor);
    end_a_thread('a');
    end_a_thread('c');
    return 0;
}
