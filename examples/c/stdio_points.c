/* A thread with a request pending calls a function of stdio, or one for directories, that may be a cancellation
 * point. Does it act in the call? Each call has something to read or to write. printf and puts are fprintf and
 * fputs to stdout.
 *
 * Standard: 2.9.5.2
 * Row:      Optional points
 * Script:   examples/optional_point.pct
 * Host:     acts or goes on at each, as the schedule says
 */
#define _XOPEN_SOURCE 700
#include <dirent.h>
#include <pthread.h>
#include <stdio.h>

/* A thread that acts leaves these open. Each call has new ones. */
static FILE *input, *buffered, *unbuffered;
static DIR *directory;
static char line[8];

static void call_fopen(void) { fopen("/dev/null", "r"); }
static void call_fprintf(void) { fprintf(unbuffered, "text"); }
static void call_fputs(void) { fputs("text", unbuffered); }
static void call_fgets(void) { fgets(line, sizeof line, input); }
static void call_fflush(void) { fflush(buffered); }
static void call_fclose(void) { fclose(buffered); }
static void call_opendir(void) { opendir("/dev"); }
static void call_readdir(void) { readdir(directory); }
static void call_closedir(void) { closedir(directory); }

static const struct point {
    const char *name;
    void (*call)(void);
} points[] = {
    {"fopen", call_fopen},     {"fprintf", call_fprintf}, {"fputs", call_fputs},
    {"fgets", call_fgets},     {"fflush", call_fflush},   {"fclose", call_fclose},
    {"opendir", call_opendir}, {"readdir", call_readdir}, {"closedir", call_closedir},
};
enum { COUNT = sizeof points / sizeof points[0] };

static void *thread(void *point)
{
    pthread_cancel(pthread_self());
    ((const struct point *)point)->call();
    return NULL;
}

static int acts(const struct point *point)
{
    pthread_t id;
    void *value;
    input = fopen("/dev/zero", "r");
    buffered = fopen("/dev/null", "w");
    fputs("text", buffered);
    unbuffered = fopen("/dev/null", "w");
    setvbuf(unbuffered, NULL, _IONBF, 0);
    directory = opendir("/dev");
    pthread_create(&id, NULL, thread, (void *)point);
    pthread_join(id, &value);
    return value == PTHREAD_CANCELED;
}

int main(void)
{
    int acted[COUNT];
    for (int i = 0; i < COUNT; i++)
        acted[i] = acts(&points[i]);
    for (int side = 1; side >= 0; side--) {
        printf(side ? "acts:" : "; goes on:");
        for (int i = 0; i < COUNT; i++)
            if (acted[i] == side)
                printf(" %s", points[i].name);
    }
    printf("\n");
    return 0;
}
