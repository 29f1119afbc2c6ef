/* A malloc in front of the C library's that counts the allocations of a process, and times laps of so many of them. A
   program that does the same work again and again makes the same number of allocations each time, so that a lap of this
   number is the work once. Loaded by LD_PRELOAD. Settings: LAP, the allocations of a lap, none or 0 for no laps; AFTER,
   the allocations before the first lap; REPORT, the file that gets the number of all allocations and then the
   nanoseconds of each lap, one a line. */
#define _GNU_SOURCE
#include <dlfcn.h>
#include <stdio.h>
#include <stdlib.h>
#include <time.h>

enum { MOST_LAPS = 1000000 };

static void *(*real_malloc)(size_t);
static enum { NEW, LOOKING, READY } state = NEW;
static long count = 0, lap = 0, after = 0, laps = 0;
static long long last = 0, times[MOST_LAPS];

/* What is asked for while the real function is looked up. It is never given back. */
static char early[65536];
static size_t used = 0;

static long setting(const char *name) {
    const char *text = getenv(name);
    return text ? atol(text) : 0;
}

static void look_up(void) {
    state = LOOKING;
    real_malloc = dlsym(RTLD_NEXT, "malloc");
    lap = setting("LAP");
    after = setting("AFTER");
    state = READY;
}

static void end_lap(void) {
    struct timespec time;
    clock_gettime(CLOCK_MONOTONIC, &time);
    long long now = time.tv_sec * 1000000000LL + time.tv_nsec;
    if (last && laps < MOST_LAPS) times[laps++] = now - last;
    last = now;
}

void *malloc(size_t size) {
    if (state == NEW) look_up();
    if (state == LOOKING) {
        void *place = early + used;
        used += (size + 31) & ~(size_t)15;
        return place;
    }
    count++;
    if (lap > 0 && count > after && (count - after) % lap == 0) end_lap();
    return real_malloc(size);
}

__attribute__((destructor)) static void report(void) {
    const char *name = getenv("REPORT");
    FILE *file = name ? fopen(name, "w") : NULL;
    if (!file) return;
    long all = count;
    fprintf(file, "%ld\n", all);
    for (long i = 0; i < laps; i++) fprintf(file, "%lld\n", times[i]);
    fclose(file);
}
