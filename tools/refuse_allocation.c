/* A malloc in front of the C library's that refuses the N-th allocation of a process, N being in REFUSED, and at the
   end writes the number of allocations into the file named by COUNTED. Loaded by LD_PRELOAD. */
#define _GNU_SOURCE
#include <dlfcn.h>
#include <errno.h>
#include <fcntl.h>
#include <stdio.h>
#include <stdlib.h>
#include <string.h>
#include <unistd.h>

static void *(*real_malloc)(size_t);
static void *(*real_calloc)(size_t, size_t);
static void *(*real_realloc)(void *, size_t);
static int (*real_memalign)(void **, size_t, size_t);
static enum { NEW, LOOKING, READY } state = NEW;
static long count = 0, refused = -1;

/* What is asked for while the real functions are looked up. It is never given back. */
static char early[65536];
static size_t used = 0;

static void *from_early(size_t size) {
    void *place = early + used;
    used += (size + 31) & ~(size_t)15;
    return place;
}

static void look_up(void) {
    state = LOOKING;
    real_malloc = dlsym(RTLD_NEXT, "malloc");
    real_calloc = dlsym(RTLD_NEXT, "calloc");
    real_realloc = dlsym(RTLD_NEXT, "realloc");
    real_memalign = dlsym(RTLD_NEXT, "posix_memalign");
    state = READY;
    const char *text = getenv("REFUSED");
    if (text) refused = atol(text);
}

static int is_refused(void) {
    count++;
    if (count != refused) return 0;
    errno = ENOMEM;
    return 1;
}

void *malloc(size_t size) {
    if (state == NEW) look_up();
    if (state == LOOKING) return from_early(size);
    return is_refused() ? NULL : real_malloc(size);
}

void *calloc(size_t number, size_t size) {
    if (state == NEW) look_up();
    if (state == LOOKING) return memset(from_early(number * size), 0, number * size);
    return is_refused() ? NULL : real_calloc(number, size);
}

void *realloc(void *place, size_t size) {
    if (state == NEW) look_up();
    return is_refused() ? NULL : real_realloc(place, size);
}

int posix_memalign(void **place, size_t alignment, size_t size) {
    if (state == NEW) look_up();
    return is_refused() ? ENOMEM : real_memalign(place, alignment, size);
}

__attribute__((destructor)) static void write_count(void) {
    const char *name = getenv("COUNTED");
    if (!name) return;
    int file = open(name, O_WRONLY | O_CREAT | O_TRUNC, 0644);
    if (file < 0) return;
    dprintf(file, "%ld\n", count);
    close(file);
}
