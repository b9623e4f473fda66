/* Preloaded over a program, it refuses memory or threads, or fails reads of standard input or writes of
   standard output: of these calls, counted from 1, those from FAIL_FIRST to FAIL_LAST. FAIL_WHAT is
   "memory", "threads", "reads" or "writes". At the first call that it refuses it writes an octet to the
   file descriptor FAIL_TELL. One read takes READ_PIECE octets at the most, and one write WRITE_PIECE,
   where these are given. */
#define _GNU_SOURCE
#include <dlfcn.h>
#include <errno.h>
#include <pthread.h>
#include <stdatomic.h>
#include <stdlib.h>
#include <string.h>
#include <sys/syscall.h>
#include <unistd.h>

extern void *__libc_malloc(size_t size);
extern void *__libc_calloc(size_t count, size_t size);
extern void *__libc_realloc(void *block, size_t size);
extern void *__libc_memalign(size_t alignment, size_t size);

static const char *what = "memory";
static unsigned long first, last, read_piece, write_piece;
static int tell = -1;
static atomic_ulong calls;
static atomic_int is_told;

static unsigned long number_in(const char *name) {
    const char *text = getenv(name);
    return text ? strtoul(text, NULL, 10) : 0;
}

__attribute__((constructor)) static void begin(void) {
    const char *given = getenv("FAIL_WHAT");
    if (given) what = given;
    read_piece = number_in("READ_PIECE");
    write_piece = number_in("WRITE_PIECE");
    tell = getenv("FAIL_TELL") ? (int)number_in("FAIL_TELL") : -1;
    last = number_in("FAIL_LAST");
    first = number_in("FAIL_FIRST");
}

/* Whether this call, of a kind, is one to refuse. Before the constructor ran, none is. */
static int is_refused(const char *kind) {
    if (first == 0 || strcmp(what, kind) != 0) return 0;
    unsigned long call = atomic_fetch_add(&calls, 1) + 1;
    if (call < first || call > last) return 0;
    if (tell >= 0 && !atomic_exchange(&is_told, 1) && write(tell, "x", 1) != 1) abort();
    return 1;
}

static int lacks_memory(void) {
    if (!is_refused("memory")) return 0;
    errno = ENOMEM;
    return 1;
}

void *malloc(size_t size) { return lacks_memory() ? NULL : __libc_malloc(size); }

void *calloc(size_t count, size_t size) { return lacks_memory() ? NULL : __libc_calloc(count, size); }

void *realloc(void *block, size_t size) { return lacks_memory() ? NULL : __libc_realloc(block, size); }

void *memalign(size_t alignment, size_t size) { return lacks_memory() ? NULL : __libc_memalign(alignment, size); }

void *aligned_alloc(size_t alignment, size_t size) { return memalign(alignment, size); }

int posix_memalign(void **block, size_t alignment, size_t size) {
    if (lacks_memory()) return ENOMEM;
    *block = __libc_memalign(alignment, size);
    return *block ? 0 : ENOMEM;
}

int pthread_create(pthread_t *thread, const pthread_attr_t *attributes, void *(*start)(void *), void *argument) {
    int (*create)(pthread_t *, const pthread_attr_t *, void *(*)(void *), void *) =
        (int (*)(pthread_t *, const pthread_attr_t *, void *(*)(void *), void *))dlsym(RTLD_NEXT, "pthread_create");
    if (is_refused("threads")) return EAGAIN;
    return create ? create(thread, attributes, start, argument) : EAGAIN;
}

static size_t at_most(unsigned long piece, size_t count) { return piece != 0 && piece < count ? piece : count; }

ssize_t read(int file, void *octets, size_t count) {
    if (file != STDIN_FILENO) return syscall(SYS_read, file, octets, count);
    if (is_refused("reads")) {
        errno = EIO;
        return -1;
    }
    return syscall(SYS_read, file, octets, at_most(read_piece, count));
}

ssize_t write(int file, const void *octets, size_t count) {
    if (file != STDOUT_FILENO) return syscall(SYS_write, file, octets, count);
    if (is_refused("writes")) {
        errno = EIO;
        return -1;
    }
    return syscall(SYS_write, file, octets, at_most(write_piece, count));
}
