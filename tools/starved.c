// Lets one request for memory of a program fail: that of the number in STARVED, counted from 1; none where it is 0. To be
// loaded before the C library (LD_PRELOAD). Where STARVED_MARKS is set, requests are counted only between a write of `begin`
// and a write of `end` on standard error, which are left out of it. Where a request failed, the file STARVED_MET is made.
#define _GNU_SOURCE
#include <dlfcn.h>
#include <errno.h>
#include <fcntl.h>
#include <stdatomic.h>
#include <stdlib.h>
#include <string.h>
#include <unistd.h>

extern void *__libc_malloc(size_t);
extern void *__libc_calloc(size_t, size_t);
extern void *__libc_realloc(void *, size_t);
extern void *__libc_memalign(size_t, size_t);

static atomic_long requests;
static atomic_int counts;
static long wanted = -1;

static void settle(void) {
    if (wanted >= 0) return;
    const char *number = getenv("STARVED");
    wanted = number ? atol(number) : 0;
    atomic_store(&counts, !getenv("STARVED_MARKS"));
}

// Whether this request is the one that fails.
static int fails(void) {
    settle();
    if (!atomic_load(&counts) || atomic_fetch_add(&requests, 1) + 1 != wanted) return 0;
    const char *name = getenv("STARVED_MET");
    if (name) close(open(name, O_WRONLY | O_CREAT, 0666));
    return 1;
}

static void *none(void) {
    errno = ENOMEM;
    return NULL;
}

void *malloc(size_t size) { return fails() ? none() : __libc_malloc(size); }
void *calloc(size_t count, size_t size) { return fails() ? none() : __libc_calloc(count, size); }
void *realloc(void *old, size_t size) { return fails() ? none() : __libc_realloc(old, size); }
void *memalign(size_t align, size_t size) { return fails() ? none() : __libc_memalign(align, size); }
void *aligned_alloc(size_t align, size_t size) { return fails() ? none() : __libc_memalign(align, size); }

int posix_memalign(void **at, size_t align, size_t size) {
    if (fails()) return ENOMEM;
    *at = __libc_memalign(align, size);
    return *at ? 0 : ENOMEM;
}

// Whether a write is one of the two marks, which are taken here.
static int is_mark(int file, const void *bytes, size_t count) {
    settle();
    if (file != 2 || !getenv("STARVED_MARKS")) return 0;
    if (count == 6 && !memcmp(bytes, "begin\n", 6)) atomic_store(&counts, 1);
    else if (count == 4 && !memcmp(bytes, "end\n", 4)) atomic_store(&counts, 0);
    else return 0;
    return 1;
}

ssize_t write(int file, const void *bytes, size_t count) {
    static ssize_t (*next)(int, const void *, size_t);
    if (is_mark(file, bytes, count)) return (ssize_t)count;
    if (!next) next = (ssize_t (*)(int, const void *, size_t))dlsym(RTLD_NEXT, "write");
    return next(file, bytes, count);
}
