/* Refuses what the program that it is loaded into asks of the system, and counts it.
 *
 * REFUSE is `memory` or `threads`. Of those calls that with the number FIRST, counted from 1, is refused, and where ALL is
 * set each later one too. How many there were goes into the file COUNT, which has eight bytes, so that it is known however
 * the program ends. */
#define _GNU_SOURCE
#include <dlfcn.h>
#include <errno.h>
#include <fcntl.h>
#include <pthread.h>
#include <stdatomic.h>
#include <stdlib.h>
#include <string.h>
#include <sys/mman.h>
#include <sys/syscall.h>
#include <unistd.h>

extern void *__libc_malloc(size_t);
extern void *__libc_calloc(size_t, size_t);
extern void *__libc_realloc(void *, size_t);
extern void *__libc_memalign(size_t, size_t);

static atomic_ulong *count;
static unsigned long first;
static int all, threads;

static void __attribute__((constructor)) begin(void) {
    const char *at = getenv("FIRST"), *what = getenv("REFUSE"), *file = getenv("COUNT");
    int open_file = file ? open(file, O_RDWR) : -1;
    first = at ? strtoul(at, NULL, 10) : 0;
    all = getenv("ALL") != NULL;
    threads = what && !strcmp(what, "threads");
    if (open_file < 0)
        _exit(99);
    count = (atomic_ulong *)syscall(SYS_mmap, NULL, sizeof *count, PROT_READ | PROT_WRITE, MAP_SHARED, open_file, 0);
    if (count == MAP_FAILED)
        _exit(99);
    close(open_file);
}

static int refused(int is_thread) {
    if (!count || is_thread != threads)
        return 0;
    unsigned long number = atomic_fetch_add(count, 1) + 1;
    return first && (number == first || (all && number > first));
}

static void *none(void) {
    errno = ENOMEM;
    return NULL;
}

void *malloc(size_t size) { return refused(0) ? none() : __libc_malloc(size); }

void *calloc(size_t items, size_t size) { return refused(0) ? none() : __libc_calloc(items, size); }

void *realloc(void *old, size_t size) { return refused(0) ? none() : __libc_realloc(old, size); }

void *memalign(size_t alignment, size_t size) { return refused(0) ? none() : __libc_memalign(alignment, size); }

void *aligned_alloc(size_t alignment, size_t size) { return memalign(alignment, size); }

int posix_memalign(void **made, size_t alignment, size_t size) {
    void *found = memalign(alignment, size);
    if (found)
        *made = found;
    return found ? 0 : ENOMEM;
}

void *mmap(void *at, size_t size, int may, int how, int file, off_t from) {
    if (!refused(0))
        return (void *)syscall(SYS_mmap, at, size, may, how, file, from);
    errno = ENOMEM;
    return MAP_FAILED;
}

int pthread_create(pthread_t *made, const pthread_attr_t *how, void *(*work)(void *), void *with) {
    static int (*next)(pthread_t *, const pthread_attr_t *, void *(*)(void *), void *);
    if (refused(1))
        return EAGAIN;
    if (!next)
        next = (int (*)(pthread_t *, const pthread_attr_t *, void *(*)(void *), void *))dlsym(RTLD_NEXT, "pthread_create");
    return next(made, how, work, with);
}
