/* The end of a thread in read is requested at about the time at which a byte arrives. If the thread acts, is the byte
 * still there for another read?
 *
 * Standard: 2.9.5.2
 * Row:      Canceled read
 * Script:   examples/canceled_reader.pct
 * Host:     a byte that no read returns: never
 */
#define _XOPEN_SOURCE 700
#include <fcntl.h>
#include <pthread.h>
#include <stdio.h>
#include <time.h>
#include <unistd.h>

enum { ROUNDS = 600 };

static int ends[2];
static volatile int taken;

static void *reader(void *unused)
{
    char byte;
    taken = read(ends[0], &byte, 1) == 1;
    return unused;
}

int main(void)
{
    const struct timespec a_while = {0, 100000}; /* enough for the thread to be in read */
    int canceled = 0, lost = 0;
    for (int round = 0; round < ROUNDS; round++) {
        pthread_t id;
        char byte = 1;
        if (pipe(ends) != 0)
            return 1;
        taken = 0;
        pthread_create(&id, NULL, reader, NULL);
        nanosleep(&a_while, NULL);
        if (write(ends[1], &byte, 1) != 1)
            return 1;
        for (volatile int count = 0; count < 1 << (round % 14); count++)
            continue; /* up to some ten microseconds */
        pthread_cancel(id);
        pthread_join(id, NULL);
        fcntl(ends[0], F_SETFL, O_NONBLOCK);
        if (!taken) {
            canceled++;
            lost += read(ends[0], &byte, 1) != 1;
        }
        close(ends[0]);
        close(ends[1]);
    }
    printf("a byte that no read returns: %s\n", lost != 0 ? "seen" : canceled != 0 ? "never" : "not tried");
    fprintf(stderr, "%d of %d canceled reads lost it\n", lost, canceled);
    return 0;
}
