/* Makes a machine call of a program fail: preloaded, of the calls of read, pread, write, lseek, statx, open and openat
   that begin with main, the one that has the number FAIL_NTH (from 1) fails with the error number FAIL_ERROR (EIO if
   it isn't set), and all others are served. With FAIL_SHORT each read and write moves one byte at most. With
   FAIL_COUNT the number of calls is written to that file when the program ends, and with it the name of the call that
   failed.

   cc -shared -fPIC -O2 -o fail_call.so fail_call.c -ldl */
#define _GNU_SOURCE
#include <dlfcn.h>
#include <errno.h>
#include <fcntl.h>
#include <stdarg.h>
#include <stdio.h>
#include <stdlib.h>
#include <sys/stat.h>
#include <sys/types.h>
#include <unistd.h>

static unsigned long failing = 0, asked = 0;
static int counting = 0, error_number = EIO, is_short = 0;
static const char *failed = "none";

static int fails(const char *name) {
    if (!counting || ++asked != failing) return 0;
    failed = name;
    errno = error_number;
    return 1;
}

static size_t bytes(size_t count) { return counting && is_short && count > 1 ? 1 : count; }

#define FIND(name) if (next == NULL) next = dlsym(RTLD_NEXT, name)

ssize_t read(int fd, void *to, size_t count) {
    static ssize_t (*next)(int, void *, size_t);
    FIND("read");
    return fails("read") ? -1 : next(fd, to, bytes(count));
}

ssize_t pread(int fd, void *to, size_t count, off_t at) {
    static ssize_t (*next)(int, void *, size_t, off_t);
    FIND("pread");
    return fails("pread") ? -1 : next(fd, to, bytes(count), at);
}

ssize_t pread64(int fd, void *to, size_t count, off64_t at) {
    static ssize_t (*next)(int, void *, size_t, off64_t);
    FIND("pread64");
    return fails("pread") ? -1 : next(fd, to, bytes(count), at);
}

ssize_t write(int fd, const void *from, size_t count) {
    static ssize_t (*next)(int, const void *, size_t);
    FIND("write");
    return fails(fd == 2 ? "write of errors" : "write") ? -1 : next(fd, from, bytes(count));
}

off_t lseek(int fd, off_t to, int whence) {
    static off_t (*next)(int, off_t, int);
    FIND("lseek");
    return fails("lseek") ? -1 : next(fd, to, whence);
}

off64_t lseek64(int fd, off64_t to, int whence) {
    static off64_t (*next)(int, off64_t, int);
    FIND("lseek64");
    return fails("lseek") ? -1 : next(fd, to, whence);
}

int statx(int directory, const char *path, int flags, unsigned mask, struct statx *to) {
    static int (*next)(int, const char *, int, unsigned, struct statx *);
    FIND("statx");
    return fails("statx") ? -1 : next(directory, path, flags, mask, to);
}

static mode_t mode_of(int flags, va_list rest) { return flags & (O_CREAT | O_TMPFILE) ? va_arg(rest, mode_t) : 0; }

#define OPENS(name) \
    int name(const char *path, int flags, ...) { \
        static int (*next)(const char *, int, ...); \
        va_list rest; \
        va_start(rest, flags); \
        mode_t mode = mode_of(flags, rest); \
        va_end(rest); \
        FIND(#name); \
        return fails("open") ? -1 : next(path, flags, mode); \
    }

#define OPENS_AT(name) \
    int name(int directory, const char *path, int flags, ...) { \
        static int (*next)(int, const char *, int, ...); \
        va_list rest; \
        va_start(rest, flags); \
        mode_t mode = mode_of(flags, rest); \
        va_end(rest); \
        FIND(#name); \
        return fails("open") ? -1 : next(directory, path, flags, mode); \
    }

OPENS(open)
OPENS(open64)
OPENS_AT(openat)
OPENS_AT(openat64)

/* counting begins with main */
typedef int (*main_fn)(int, char **, char **);
static main_fn program;

static void report(void) {
    const char *path = getenv("FAIL_COUNT");
    FILE *file;
    counting = 0;
    if (path != NULL && (file = fopen(path, "w")) != NULL) {
        fprintf(file, "%lu %s\n", asked, failed);
        fclose(file);
    }
}

static int counted_main(int argc, char **argv, char **envp) {
    const char *nth = getenv("FAIL_NTH"), *number = getenv("FAIL_ERROR");
    int status;
    failing = nth ? strtoul(nth, NULL, 10) : 0;
    error_number = number ? atoi(number) : EIO;
    is_short = getenv("FAIL_SHORT") != NULL;
    counting = 1;
    status = program(argc, argv, envp);
    report();
    return status;
}

typedef void (*ending)(void);
typedef int (*start_fn)(main_fn, int, char **, main_fn, ending, ending, void *);

int __libc_start_main(main_fn main, int argc, char **argv, main_fn init, ending fini, ending end, void *stack) {
    start_fn next = dlsym(RTLD_NEXT, "__libc_start_main");
    program = main;
    return next(counted_main, argc, argv, init, fini, end, stack);
}
