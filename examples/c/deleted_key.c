/* A key is used after it was deleted.
 *
 * Standard: pthread_key_delete, pthread_getspecific
 * Row:      Deleted keys
 * Script:   examples/deleted_key.pct
 * Host:     stops the run, as `undefined key_id`
 */
#define _XOPEN_SOURCE 700
#include <errno.h>
#include <pthread.h>
#include <stdio.h>

static const char *name(int error)
{
    return error == 0 ? "0" : error == EINVAL ? "EINVAL" : "another error";
}

int main(void)
{
    pthread_key_t key;
    pthread_key_create(&key, NULL);
    pthread_setspecific(key, "value");
    pthread_key_delete(key);
    printf("get: %s", pthread_getspecific(key) == NULL ? "NULL" : "a value");
    printf("; set: %s", name(pthread_setspecific(key, "value")));
    printf("; get: %s", pthread_getspecific(key) == NULL ? "NULL" : "a value");
    printf("; delete: %s\n", name(pthread_key_delete(key)));
    return 0;
}
