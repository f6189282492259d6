// watch: a library that LD_PRELOAD puts before a program, to see what a run of it copies and how much room it takes.
// Once main has returned it writes a line to standard error:
//
//     COPIES BYTES STACK PEAK
//
// COPIES    calls of memcpy and memmove for LEAST bytes or more; compilers write shorter copies out, and call for these
// BYTES     what those moved
// STACK     the most bytes of stack that main and all that it calls had in use; 0 unless WATCH_STACK is set
// PEAK      the most memory that was resident, in KB. With WATCH_STACK, what was painted is among it
//
// Compile it with -fno-builtin -fno-tree-loop-distribute-patterns, so that the loop here does not become a call of the
// function that it stands in.
#define _GNU_SOURCE
#include <dlfcn.h>
#include <stddef.h>
#include <stdint.h>
#include <stdio.h>
#include <stdlib.h>
#include <string.h>
#include <unistd.h>

enum { LEAST = 1000, ROOM = 2 << 20, PAINT = 0x5a };

typedef int Main(int, char **, char **);
typedef void *Move(void *, const void *, size_t);

static unsigned long copies, bytes;
static Main *watched;
static Move *library_move;
static uintptr_t painted;

// Until the C library's own is found, which may take copies itself.
static void *slow_move(void *to, const void *from, size_t n) {
    unsigned char *t = to;
    const unsigned char *f = from;
    if ((uintptr_t)t - (uintptr_t)f >= n)
        for (size_t i = 0; i < n; i++) t[i] = f[i];
    else
        while (n-- > 0) t[n] = f[n];
    return to;
}

void *memmove(void *to, const void *from, size_t n) {
    if (n >= LEAST) {
        copies++;
        bytes += n;
    }
    return (library_move ? library_move : slow_move)(to, from, n);
}

void *memcpy(void *restrict to, const void *restrict from, size_t n) { return memmove(to, from, n); }

// Fills the stack below the caller.
static __attribute__((noinline)) void paint(void) {
    volatile unsigned char room[ROOM];
    for (size_t i = 0; i < ROOM; i++) room[i] = PAINT;
    painted = (uintptr_t)room;
}

// How far below `top` the paint is gone.
static long used(const unsigned char *top) {
    const unsigned char *at = (const unsigned char *)painted;
    while (at < top && *at == PAINT) at++;
    return top - at;
}

static long peak(void) {
    char line[256];
    long most = 0;
    FILE *status = fopen("/proc/self/status", "r");
    while (status && fgets(line, sizeof line, status)) sscanf(line, "VmHWM: %ld", &most);
    if (status) fclose(status);
    return most;
}

static int watching_main(int count, char **words, char **environment) {
    int stack = getenv("WATCH_STACK") != NULL;
    if (stack) paint();
    int status = watched(count, words, environment);
    long deep = stack ? used(__builtin_frame_address(0)) : 0;
    unsigned long seen = copies, moved = bytes;
    dprintf(STDERR_FILENO, "%lu %lu %ld %ld\n", seen, moved, deep, peak());
    return status;
}

// What a program's first instructions call: main goes on behind the one above.
int __libc_start_main(Main *main, int count, char **words, void (*init)(void), void (*fini)(void),
                      void (*loader_fini)(void), void *stack_end) {
    __typeof__(&__libc_start_main) next = (__typeof__(next))dlsym(RTLD_NEXT, "__libc_start_main");
    library_move = (Move *)dlsym(RTLD_NEXT, "memmove");
    watched = main;
    return next(watching_main, count, words, init, fini, loader_fini, stack_end);
}
