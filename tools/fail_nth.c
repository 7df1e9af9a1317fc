/* Refuses one allocation of a program: preloaded, the call of malloc, calloc, realloc or aligned_alloc that has the
   number FAIL_NTH (from 1) answers null, and all others are served. With FAIL_COUNT the number of calls is
   written to that file when the program ends. Calls before main, as those of the loader, aren't counted. With
   FAIL_PROGRAM only the program of that name counts, and not one that starts it, as valgrind does.

   cc -shared -fPIC -O2 -o fail_nth.so fail_nth.c -ldl */
#define _GNU_SOURCE
#include <dlfcn.h>
#include <errno.h>
#include <fcntl.h>
#include <stdio.h>
#include <stdlib.h>
#include <string.h>
#include <unistd.h>

static unsigned long refused = 0, asked = 0;
static int counting = 0;

static void *(*next_malloc)(size_t);
static void *(*next_realloc)(void *, size_t);
static void *(*next_calloc)(size_t, size_t);
static void *(*next_aligned)(size_t, size_t);
static int (*next_memalign)(void **, size_t, size_t);

static int is_refused(void) { return counting && ++asked == refused; }

static void begin(void) {
    const char *nth = getenv("FAIL_NTH"), *name = getenv("FAIL_PROGRAM");
    refused = nth ? strtoul(nth, NULL, 10) : 0;
    counting = name == NULL || strcmp(name, program_invocation_short_name) == 0;
}

static void report(void) {
    const char *path = counting ? getenv("FAIL_COUNT") : NULL;
    counting = 0;
    if (path != NULL) {
        char text[32];
        int fd = open(path, O_WRONLY | O_CREAT | O_TRUNC, 0644);
        int len = snprintf(text, sizeof text, "%lu\n", asked);
        if (fd >= 0) {
            ssize_t put = write(fd, text, (size_t)len);
            (void)put;
            close(fd);
        }
    }
}

void *malloc(size_t size) {
    if (next_malloc == NULL) next_malloc = dlsym(RTLD_NEXT, "malloc");
    if (is_refused()) { errno = ENOMEM; return NULL; }
    return next_malloc(size);
}

void *realloc(void *old, size_t size) {
    if (next_realloc == NULL) next_realloc = dlsym(RTLD_NEXT, "realloc");
    if (is_refused()) { errno = ENOMEM; return NULL; }
    return next_realloc(old, size);
}

void *calloc(size_t count, size_t size) {
    /* dlsym itself may ask for memory before the real function is known */
    static char early[4096];
    static size_t used = 0;
    static int looking = 0;
    if (next_calloc == NULL) {
        if (looking) {
            size_t len = (count * size + 15) & ~(size_t)15;
            if (len > sizeof early - used) return NULL;
            used += len;
            return early + used - len;
        }
        looking = 1;
        next_calloc = dlsym(RTLD_NEXT, "calloc");
        looking = 0;
    }
    if (is_refused()) { errno = ENOMEM; return NULL; }
    return next_calloc(count, size);
}

void *aligned_alloc(size_t align, size_t size) {
    if (next_aligned == NULL) next_aligned = dlsym(RTLD_NEXT, "aligned_alloc");
    if (is_refused()) { errno = ENOMEM; return NULL; }
    return next_aligned(align, size);
}

int posix_memalign(void **out, size_t align, size_t size) {
    if (next_memalign == NULL) next_memalign = dlsym(RTLD_NEXT, "posix_memalign");
    if (is_refused()) return ENOMEM;
    return next_memalign(out, align, size);
}

/* counting begins with main */
typedef int (*main_fn)(int, char **, char **);
static main_fn program;

static int counted_main(int argc, char **argv, char **envp) {
    int status;
    begin();
    status = program(argc, argv, envp);
    report();
    return status;
}

int __libc_start_main(main_fn main, int argc, char **argv, main_fn init, void (*fini)(void), void (*end)(void), void *stack) {
    int (*next)(main_fn, int, char **, main_fn, void (*)(void), void (*)(void), void *) = dlsym(RTLD_NEXT, "__libc_start_main");
    program = main;
    return next(counted_main, argc, argv, init, fini, end, stack);
}
