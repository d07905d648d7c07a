/* Counts what a program asks of the C library, and refuses some of it: allocations, threads, and reads and writes of the two standard
   streams. faults.py builds this as a library that LD_PRELOAD loads, and writes which call is refused to a page that both share.

   Each call comes through the name by which the program, or the C library for it (as in pthread_create), calls the C library. What comes
   before the constructor of this library, which is what the dynamic linker does, is passed on and not counted. */
#define _GNU_SOURCE
#include <dlfcn.h>
#include <errno.h>
#include <fcntl.h>
#include <pthread.h>
#include <stdint.h>
#include <stdio.h>
#include <stdlib.h>
#include <string.h>
#include <sys/ioctl.h>
#include <sys/mman.h>
#include <sys/resource.h>
#include <sys/syscall.h>
#include <sys/uio.h>
#include <unistd.h>

/* The classes of calls that are counted. */
enum { ALLOCATION = 1, THREAD, READ, WRITE, CLASSES };

/* The page: faults.py writes what comes before `loaded`, and reads the rest. */
struct page {
    int64_t refused;      /* the class of the calls that are refused, 0 for none */
    int64_t first;        /* the number of the first such call that is refused */
    int64_t last;         /* and of the last one */
    int64_t code;         /* the error number; 0: the call returns 0 */
    int64_t read_piece;   /* how many bytes a read gives at most, 0: as many as are asked for */
    int64_t write_piece;  /* how many bytes a write takes at most */
    int64_t reader;       /* the reading end of the pipe that is standard output, or -1 */
    int64_t reader_takes; /* how many bytes the reader takes before it closes its end */
    int64_t memory;       /* how many bytes the process may map further, 0: no limit */
    int64_t is_alone;     /* 1 once no other process has the reading end */
    int64_t loaded;       /* LOADED once the library is there */
    int64_t counts[CLASSES];
    int64_t made;         /* how many calls were refused */
    int64_t bytes_read;
    int64_t bytes_written;
    int64_t held;         /* how many bytes the reader took */
    char bytes[];
};

enum { PIPE = 1 << 14, PAGE = 1 << 20, LOADED = 0x6661756c74 };

extern void *__libc_malloc(size_t);
extern void *__libc_calloc(size_t, size_t);
extern void *__libc_realloc(void *, size_t);
extern void *__libc_memalign(size_t, size_t);

static struct page *page;
static int (*create_thread)(pthread_t *, const pthread_attr_t *, void *(*)(void *), void *);

static void limit_memory(int64_t more) {
    char text[64];
    int file = open("/proc/self/statm", O_RDONLY);
    ssize_t size = syscall(SYS_read, file, text, sizeof text - 1);
    close(file);
    if (size <= 0) abort();
    text[size] = 0;
    struct rlimit limit;
    limit.rlim_cur = limit.rlim_max = strtoull(text, NULL, 10) * sysconf(_SC_PAGESIZE) + more;
    if (setrlimit(RLIMIT_AS, &limit)) abort();
}

__attribute__((constructor)) static void load(void) {
    const char *shared = getenv("FAULTS_PAGE");
    if (!shared) return;
    void *found = mmap(NULL, PAGE, PROT_READ | PROT_WRITE, MAP_SHARED, atoi(shared), 0);
    if (found == MAP_FAILED) abort();
    create_thread = dlsym(RTLD_NEXT, "pthread_create");
    if (((struct page *)found)->memory) limit_memory(((struct page *)found)->memory);
    page = found;
    page->loaded = LOADED;
}

/* Counts a call, and says whether it is refused. */
static int refuses(int class) {
    if (!page) return 0;
    int64_t number = __atomic_add_fetch(&page->counts[class], 1, __ATOMIC_SEQ_CST);
    if (page->refused != class || number < page->first || number > page->last) return 0;
    __atomic_add_fetch(&page->made, 1, __ATOMIC_SEQ_CST);
    errno = page->code;
    return 1;
}

void *malloc(size_t size) {
    return refuses(ALLOCATION) ? NULL : __libc_malloc(size);
}

void *calloc(size_t count, size_t size) {
    return refuses(ALLOCATION) ? NULL : __libc_calloc(count, size);
}

void *realloc(void *old, size_t size) {
    return refuses(ALLOCATION) ? NULL : __libc_realloc(old, size);
}

void *memalign(size_t alignment, size_t size) {
    return refuses(ALLOCATION) ? NULL : __libc_memalign(alignment, size);
}

void *aligned_alloc(size_t alignment, size_t size) {
    return refuses(ALLOCATION) ? NULL : __libc_memalign(alignment, size);
}

int posix_memalign(void **to, size_t alignment, size_t size) {
    void *made = refuses(ALLOCATION) ? NULL : __libc_memalign(alignment, size);
    if (!made) return ENOMEM;
    *to = made;
    return 0;
}

void *mmap(void *at, size_t size, int protection, int flags, int file, off_t offset) {
    if (file < 0 && refuses(ALLOCATION)) return MAP_FAILED;
    return (void *)syscall(SYS_mmap, at, size, protection, flags, file, offset);
}

int pthread_create(pthread_t *thread, const pthread_attr_t *attributes, void *(*start)(void *), void *given) {
    if (refuses(THREAD)) return (int)page->code;
    return create_thread(thread, attributes, start, given);
}

static ssize_t piece_read(int file, void *to, size_t size) {
    if (refuses(READ)) return page->code ? -1 : 0;
    if (page->read_piece && size > (size_t)page->read_piece) size = page->read_piece;
    ssize_t got = syscall(SYS_read, file, to, size);
    if (got > 0) page->bytes_read += got;
    return got;
}

ssize_t read(int file, void *to, size_t size) {
    return page && file == 0 ? piece_read(file, to, size) : syscall(SYS_read, file, to, size);
}

/* The reader of the pipe takes what is there. */
static void take(void) {
    int size;
    while (!ioctl(page->reader, FIONREAD, &size) && size > 0) {
        ssize_t got = syscall(SYS_read, page->reader, page->bytes + page->held, PAGE - sizeof *page - page->held);
        if (got <= 0) abort();
        page->held += got;
    }
}

static void close_reader(void) {
    while (!__atomic_load_n(&page->is_alone, __ATOMIC_SEQ_CST)) usleep(20);
    close(page->reader);
    page->reader = -1;
}

static ssize_t piece_written(int file, const void *from, size_t size) {
    if (refuses(WRITE)) return page->code ? -1 : 0;
    if (page->write_piece && size > (size_t)page->write_piece) size = page->write_piece;
    if (page->reader >= 0) {
        int64_t left = page->reader_takes - page->bytes_written;
        if (left <= 0) close_reader();
        else if (size > (size_t)left) size = left;
        if (size > PIPE) size = PIPE;
    }
    ssize_t taken = syscall(SYS_write, file, from, size);
    if (taken > 0) page->bytes_written += taken;
    if (page->reader >= 0) take();
    return taken;
}

ssize_t write(int file, const void *from, size_t size) {
    return page && file == 1 ? piece_written(file, from, size) : syscall(SYS_write, file, from, size);
}

/* Streams in several parts: the first part alone is read or written, as a short call may. */
ssize_t readv(int file, const struct iovec *parts, int count) {
    if (!page || file != 0 || count < 1) return syscall(SYS_readv, file, parts, count);
    return piece_read(file, parts->iov_base, parts->iov_len);
}

ssize_t writev(int file, const struct iovec *parts, int count) {
    if (!page || file != 1 || count < 1) return syscall(SYS_writev, file, parts, count);
    return piece_written(file, parts->iov_base, parts->iov_len);
}
