/* Refuses one call of the allocator, or each from one on, in the process that it is loaded into (LD_PRELOAD).
 *
 * REFUSE=N refuses the Nth call that asks for memory; REFUSE=N+ that one and all behind it. Calls count from 1, from the
 * program's first one on; REFUSE_SKIP=M leaves out the first M (the start of the process). At the end the count of calls is
 * written to the file that REFUSE_COUNT names. */
#define _GNU_SOURCE
#include <dlfcn.h>
#include <errno.h>
#include <fcntl.h>
#include <stdatomic.h>
#include <stdio.h>
#include <stdlib.h>
#include <string.h>
#include <sys/syscall.h>
#include <unistd.h>

extern void *__libc_malloc(size_t);
extern void *__libc_calloc(size_t, size_t);
extern void *__libc_realloc(void *, size_t);
extern void *__libc_memalign(size_t, size_t);

static atomic_long calls;
static long refused_from = -1, refused_to = -1, skipped = 0;
static atomic_int is_ready;

__attribute__((constructor)) static void begin(void) {
    const char *words = getenv("REFUSE"), *skip = getenv("REFUSE_SKIP");
    if (skip) skipped = atol(skip);
    if (words) {
        refused_from = refused_to = atol(words);
        if (words[0] && words[strlen(words) - 1] == '+') refused_to = 1L << 62;
    }
    atomic_store(&calls, 0);
    atomic_store(&is_ready, 1);
}

static void end(void) {
    const char *name = getenv("REFUSE_COUNT");
    if (!name) return;
    char text[32];
    int length = snprintf(text, sizeof text, "%ld\n", atomic_load(&calls) - skipped);
    int file = open(name, O_WRONLY | O_CREAT | O_TRUNC, 0666);
    if (file >= 0) { if (write(file, text, length) < 0) {} close(file); }
}

/* The program ends by this call, and so without any destructor. */
void _exit(int status) {
    end();
    for (;;) syscall(SYS_exit_group, status);
}

static int is_refused(void) {
    if (!atomic_load(&is_ready)) return 0;
    long call = atomic_fetch_add(&calls, 1) + 1 - skipped;
    if (call >= 1 && refused_from >= 1 && call >= refused_from && call <= refused_to) { errno = ENOMEM; return 1; }
    return 0;
}

void *malloc(size_t size) { return is_refused() ? NULL : __libc_malloc(size); }
void *calloc(size_t count, size_t size) { return is_refused() ? NULL : __libc_calloc(count, size); }
void *realloc(void *old, size_t size) { return is_refused() ? NULL : __libc_realloc(old, size); }
void *memalign(size_t align, size_t size) { return is_refused() ? NULL : __libc_memalign(align, size); }
void *aligned_alloc(size_t align, size_t size) { return is_refused() ? NULL : __libc_memalign(align, size); }
int posix_memalign(void **out, size_t align, size_t size) {
    if (is_refused()) return ENOMEM;
    *out = __libc_memalign(align, size);
    return *out ? 0 : ENOMEM;
}
