/* A program that answers as another one, and does one thing wrong with its streams or its memory, which faults.py has to notice. What
   it does wrong is the number WRONG, and the other program is PROGRAM; faults.py gives both to the compiler. With WRONG 0 it does
   nothing wrong. */
#define _GNU_SOURCE
#include <errno.h>
#include <fcntl.h>
#include <signal.h>
#include <stdlib.h>
#include <string.h>
#include <sys/mman.h>
#include <sys/wait.h>
#include <unistd.h>

enum {
    RIGHT,
    TRUNCATES_AT_READ_ERROR, /* a read fails: a truncated answer, with status 0 */
    ALWAYS_NO_MEMORY,        /* each answer is status 11 */
    WRITES_BEFORE_NO_MEMORY, /* memory is refused: something is written before status 11 */
    DROPS_AT_SHORT_WRITE,    /* a write is short: the next byte is left out */
    READ_ERROR_AT_CUT,       /* the input does not end with LF: status 9 */
    END_AT_INTERRUPT,        /* a read is interrupted: it is taken for the end of the input */
    IGNORES_WRITE_ERROR,     /* a write fails: the status is the usual one */
    WRITES_AFTER_ERROR,      /* a write fails: the rest is written, and then comes status 10 */
    ENDS_BY_SIGNAL,          /* SIGPIPE is not ignored */
    WRITES_TO_ERROR,         /* something is written to standard error */
};

enum { MOST = 1 << 20, READ_ERROR = 9, WRITE_ERROR = 10, NO_MEMORY = 11, BROKEN = 99 };

static char input[MOST], output[MOST];

static ssize_t all_input(void) {
    ssize_t size = 0;
    for (;;) {
        ssize_t got = read(0, input + size, MOST - size);
        if (got < 0 && errno == EINTR && WRONG == END_AT_INTERRUPT) return size;
        if (got < 0) return -1;
        if (got == 0) return size;
        size += got;
    }
}

/* A file in memory, which is none of the standard streams, also if one of them is closed. */
static int memory_file(void) {
    int file = memfd_create("answer", 0), moved = fcntl(file, F_DUPFD, 3);
    close(file);
    return moved;
}

/* The size of the answer of the other program, without the library of faults, and its status. */
static ssize_t other_answer(char **words, ssize_t size, int *status) {
    int in = memory_file(), out = memory_file();
    if (pwrite(in, input, size, 0) != size) _exit(BROKEN);
    pid_t child = fork();
    if (child == 0) {
        dup2(in, 0);
        dup2(out, 1);
        unsetenv("LD_PRELOAD");
        unsetenv("FAULTS_PAGE");
        execv(PROGRAM, words);
        _exit(BROKEN);
    }
    int ended;
    if (waitpid(child, &ended, 0) != child || !WIFEXITED(ended)) _exit(BROKEN);
    *status = WEXITSTATUS(ended);
    return pread(out, output, MOST, 0);
}

static int written(ssize_t size) {
    int failed = 0;
    for (ssize_t at = 0; at < size;) {
        ssize_t taken = write(1, output + at, size - at);
        if (taken <= 0) {
            if (WRONG != WRITES_AFTER_ERROR || failed) return 0;
            failed = 1;
            at += 1;
            continue;
        }
        if (WRONG == DROPS_AT_SHORT_WRITE && taken < size - at) at += 1;
        at += taken;
    }
    return !failed;
}

int main(int count, char **words) {
    if (WRONG != ENDS_BY_SIGNAL) signal(SIGPIPE, SIG_IGN);
    if (WRONG == ALWAYS_NO_MEMORY) return NO_MEMORY;
    if (WRONG == WRITES_TO_ERROR && write(2, "?\n", 2) != 2) return BROKEN;
    int reads = count > 1 && strcmp(words[1], "points") && strcmp(words[1], "demo"), status = BROKEN;
    ssize_t size = reads ? all_input() : 0;
    if (size < 0 || (WRONG == READ_ERROR_AT_CUT && size > 0 && input[size - 1] != '\n')) {
        if (WRONG != TRUNCATES_AT_READ_ERROR) return READ_ERROR;
        return write(1, "report 1\n", 9) == 9 ? 0 : WRITE_ERROR;
    }
    /* The compiler must not leave out memory that is not used. */
    char *volatile memory = malloc(64);
    if (!memory) {
        if (WRONG == WRITES_BEFORE_NO_MEMORY && write(1, "report 1\n", 9) != 9) return WRITE_ERROR;
        return NO_MEMORY;
    }
    free(memory);
    if (!written(other_answer(words, size, &status))) return WRONG == IGNORES_WRITE_ERROR ? status : WRITE_ERROR;
    return status;
}
