/* Loaded before a program (LD_PRELOAD), refuses one of its calls: SCR_REFUSE="KIND NUMBER", where KIND is one of memory,
 * thread, read and write, and the calls of each kind are counted from 1. "memory" counts what asks for room in the heap. Where
 * the number isn't reached nothing is refused. SCR_SINGLE=1 has each read and write take one byte.
 *
 * For the tests alone: it shows what the program does where the system refuses.
 */
#define _GNU_SOURCE
#include <dlfcn.h>
#include <errno.h>
#include <pthread.h>
#include <stdatomic.h>
#include <stdlib.h>
#include <string.h>
#include <sys/uio.h>
#include <unistd.h>

enum kind { MEMORY, THREAD, READ, WRITE, KINDS };

static const char *const names[KINDS] = {"memory", "thread", "read", "write"};
static atomic_long counts[KINDS];
static long refused[KINDS];
static int single;

__attribute__((constructor)) static void begin(void)
{
    const char *wanted = getenv("SCR_REFUSE");
    for (int kind = 0; wanted && kind < KINDS; kind++) {
        size_t length = strlen(names[kind]);
        if (!strncmp(wanted, names[kind], length) && wanted[length] == ' ')
            refused[kind] = atol(wanted + length + 1);
    }
    single = getenv("SCR_SINGLE") != NULL;
}

/* Whether this call is the one to be refused. */
static int refuses(enum kind kind)
{
    return refused[kind] && atomic_fetch_add(&counts[kind], 1) + 1 == refused[kind];
}

extern void *__libc_malloc(size_t);
extern void *__libc_calloc(size_t, size_t);
extern void *__libc_realloc(void *, size_t);
extern void *__libc_memalign(size_t, size_t);

static void *no_memory(void)
{
    errno = ENOMEM;
    return NULL;
}

void *malloc(size_t size)
{
    return refuses(MEMORY) ? no_memory() : __libc_malloc(size);
}

void *calloc(size_t count, size_t size)
{
    return refuses(MEMORY) ? no_memory() : __libc_calloc(count, size);
}

void *realloc(void *old, size_t size)
{
    return refuses(MEMORY) ? no_memory() : __libc_realloc(old, size);
}

void *aligned_alloc(size_t alignment, size_t size)
{
    return refuses(MEMORY) ? no_memory() : __libc_memalign(alignment, size);
}

int posix_memalign(void **place, size_t alignment, size_t size)
{
    void *found = refuses(MEMORY) ? NULL : __libc_memalign(alignment, size);
    if (!found)
        return ENOMEM;
    *place = found;
    return 0;
}

int pthread_create(pthread_t *thread, const pthread_attr_t *attributes, void *(*start)(void *), void *argument)
{
    static int (*real)(pthread_t *, const pthread_attr_t *, void *(*)(void *), void *);
    if (!real)
        real = dlsym(RTLD_NEXT, "pthread_create");
    return refuses(THREAD) ? EAGAIN : real(thread, attributes, start, argument);
}

ssize_t read(int file, void *place, size_t size)
{
    static ssize_t (*real)(int, void *, size_t);
    if (!real)
        real = dlsym(RTLD_NEXT, "read");
    if (file == STDIN_FILENO && refuses(READ)) {
        errno = EIO;
        return -1;
    }
    return real(file, place, single && size ? 1 : size);
}

ssize_t write(int file, const void *place, size_t size)
{
    static ssize_t (*real)(int, const void *, size_t);
    if (!real)
        real = dlsym(RTLD_NEXT, "write");
    if (file == STDOUT_FILENO && refuses(WRITE)) {
        errno = EIO;
        return -1;
    }
    return real(file, place, single && size ? 1 : size);
}
