// Put before a program (LD_PRELOAD), it refuses one call: of memory (malloc and its like), of reading or of writing; or all
// requests for memory that the second thread makes, from one on.
// REFUSE names the kind (memory, read, write, thread), REFUSE_AT the number of the call from 1 on, 0 for none, REFUSE_HOW how:
// `fail`, or `short` for a read or a write of one byte. At the end the number of calls of each kind is written to REFUSE_COUNTS.
#define _GNU_SOURCE
#include <dlfcn.h>
#include <errno.h>
#include <fcntl.h>
#include <stdatomic.h>
#include <stdio.h>
#include <stdlib.h>
#include <string.h>
#include <sys/syscall.h>
#include <sys/uio.h>
#include <unistd.h>

// THREAD counts the second thread's requests for memory.
enum kind { MEMORY, READ, WRITE, THREAD, KINDS };

static const char *const NAMES[KINDS] = {"memory", "read", "write", "thread"};
static atomic_long counts[KINDS];
static atomic_int threads;
static __thread int number __attribute__((tls_model("initial-exec")));
static long refused_at[KINDS];
static int cuts_short;
static int is_ready;

void *__libc_malloc(size_t);
void *__libc_calloc(size_t, size_t);
void *__libc_realloc(void *, size_t);
void *__libc_memalign(size_t, size_t);

__attribute__((constructor)) static void begin(void) {
    const char *kind = getenv("REFUSE"), *at = getenv("REFUSE_AT"), *how = getenv("REFUSE_HOW");
    for (int it = 0; it < KINDS; it++)
        if (kind && at && !strcmp(kind, NAMES[it]))
            refused_at[it] = atol(at);
    cuts_short = how && !strcmp(how, "short");
    is_ready = 1;
}

__attribute__((destructor)) static void end(void) {
    is_ready = 0;
    const char *path = getenv("REFUSE_COUNTS");
    int file = path ? open(path, O_WRONLY | O_CREAT | O_TRUNC, 0600) : -1;
    if (file >= 0)
        dprintf(file, "%ld %ld %ld %ld\n", counts[MEMORY], counts[READ], counts[WRITE], counts[THREAD]);
}

// A program that ends by `_exit` runs no destructor.
void _exit(int status) {
    end();
    for (;;)
        syscall(SYS_exit_group, status);
}

// Whether this call is the one to refuse.
static int is_refused(enum kind kind) {
    return is_ready && atomic_fetch_add(&counts[kind], 1) + 1 == refused_at[kind];
}

// Threads are numbered from 1 on as they first ask for memory.
static int of_second_thread(void) {
    if (!number)
        number = atomic_fetch_add(&threads, 1) + 1;
    return number == 2;
}

static int is_without_memory(void) {
    if (!is_ready)
        return 0;
    int is_cut_off = of_second_thread() && atomic_fetch_add(&counts[THREAD], 1) + 1 >= refused_at[THREAD] && refused_at[THREAD];
    return is_refused(MEMORY) || is_cut_off;
}

#define OF_MEMORY(call) (is_without_memory() ? (errno = ENOMEM, NULL) : (call))

void *malloc(size_t size) { return OF_MEMORY(__libc_malloc(size)); }
void *calloc(size_t count, size_t size) { return OF_MEMORY(__libc_calloc(count, size)); }
void *realloc(void *old, size_t size) { return OF_MEMORY(__libc_realloc(old, size)); }
void *memalign(size_t to, size_t size) { return OF_MEMORY(__libc_memalign(to, size)); }
void *aligned_alloc(size_t to, size_t size) { return OF_MEMORY(__libc_memalign(to, size)); }

int posix_memalign(void **made, size_t to, size_t size) {
    void *found = OF_MEMORY(__libc_memalign(to, size));
    if (!found)
        return ENOMEM;
    *made = found;
    return 0;
}

#define NEXT(name) ((__typeof__(&name))dlsym(RTLD_NEXT, #name))

// A refused call fails, or moves one byte alone.
#define OF_BYTES(kind, call, one)                  \
    do {                                           \
        if (is_refused(kind)) {                    \
            if (cuts_short)                        \
                return one;                        \
            errno = EIO;                           \
            return -1;                             \
        }                                          \
        return call;                               \
    } while (0)

ssize_t read(int file, void *to, size_t size) {
    OF_BYTES(READ, NEXT(read)(file, to, size), NEXT(read)(file, to, size ? 1 : 0));
}

ssize_t readv(int file, const struct iovec *to, int count) {
    OF_BYTES(READ, NEXT(readv)(file, to, count), NEXT(read)(file, to[0].iov_base, count && to[0].iov_len ? 1 : 0));
}

ssize_t write(int file, const void *from, size_t size) {
    OF_BYTES(WRITE, NEXT(write)(file, from, size), NEXT(write)(file, from, size ? 1 : 0));
}

ssize_t writev(int file, const struct iovec *from, int count) {
    OF_BYTES(WRITE, NEXT(writev)(file, from, count), NEXT(write)(file, from[0].iov_base, count && from[0].iov_len ? 1 : 0));
}

ssize_t __write(int file, const void *from, size_t size) { return write(file, from, size); }
