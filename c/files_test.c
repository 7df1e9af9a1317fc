/* Tests of what reads and writes descriptors, by rows as testing.h says: offsets and forks, reads and writes that
 * stop part of the way, and which files stay open. */
#define _GNU_SOURCE
#include "testing.h"
#include <dirent.h>
#include <errno.h>
#include <fcntl.h>
#include <signal.h>
#include <string.h>
#include <sys/mman.h>
#include <sys/stat.h>
#include <sys/wait.h>
#include <unistd.h>

enum { NUMBERS = 65536, PAGE = 4096 };

/* Whether a cord has these bytes. */
static int has_text(zc_cord *x, const char *bytes, size_t count) {
    char *copy = malloc(count + 1);
    if (copy == NULL && may_want) copy = malloc(count + 1);
    EXPECT(copy != NULL);
    int is_same = zc_len(x) == count && zc_to_bytes(x, 0, copy, count) == ZC_OK && memcmp(copy, bytes, count) == 0;
    free(copy);
    return is_same;
}

static void make_file(char *path, const void *bytes, size_t count) {
    strcpy(path, "/tmp/zomtsje_XXXXXX");
    int fd = mkstemp(path);
    EXPECT(fd >= 0 && write(fd, bytes, count) == (ssize_t)count && close(fd) == 0);
}

/* A file of so many numbers, each at its own place. */
static void make_numbers(char *path) {
    static uint32_t numbers[NUMBERS];
    for (uint32_t i = 0; i < NUMBERS; i++) numbers[i] = i;
    make_file(path, numbers, sizeof numbers);
}

/* How many of so many reads at places all over the file gave other numbers. */
static int wrong_reads(zc_files *files, zc_lazy *x, uint32_t seed) {
    int wrong = 0;
    for (int i = 0; i < 20000; i++) {
        uint32_t found[16], first;
        size_t got = 0;
        seed = seed * 1664525 + 1013904223;
        first = (seed >> 8) % (NUMBERS - 16);
        if (zc_lazy_read(files, x, (uint64_t)first * 4, found, sizeof found, &got) != ZC_OK || got != sizeof found) return -1;
        for (uint32_t j = 0; j < 16; j++) wrong += found[j] != first + j;
    }
    return wrong;
}

/* A child that was forked reads the same files at the same time: it shares their offsets. */
static void reads_after_a_fork(void) {
    char path[24];
    zc_files files = ZC_FILES_NONE;
    zc_lazy x = ZC_LAZY_EMPTY;
    int status = 0;
    make_numbers(path);
    DO(zc_lazy_from_path(&files, path, &x));
    pid_t child = fork();
    EXPECT(child >= 0);
    if (child == 0) {
        int wrong = wrong_reads(&files, &x, 1);
        zc_lazy_free(&x);
        zc_files_free(&files);
        _exit(wrong != 0);
    }
    EXPECT(wrong_reads(&files, &x, 2) == 0);
    EXPECT(waitpid(child, &status, 0) == child && status == 0);
    EXPECT(unlink(path) == 0);
    zc_lazy_free(&x);
    zc_files_free(&files);
}

/* No read moves the offset of a descriptor. */
static void reads_move_no_offset(void) {
    char path[24];
    zc_files files = ZC_FILES_NONE;
    zc_lazy x = ZC_LAZY_EMPTY;
    uint32_t found = 0;
    size_t got = 0;
    make_numbers(path);
    DO(zc_lazy_from_path(&files, path, &x));
    EXPECT(lseek(files.fds[0], 12, SEEK_SET) == 12);
    EXPECT(zc_lazy_read(&files, &x, 400, &found, 4, &got) == ZC_OK && got == 4 && found == 100);
    EXPECT(lseek(files.fds[0], 0, SEEK_CUR) == 12);
    EXPECT(unlink(path) == 0);
    zc_lazy_free(&x);
    zc_files_free(&files);
}

/* A pipe whose two ends don't wait. */
static void open_pipe(int ends[2]) {
    EXPECT(pipe2(ends, O_NONBLOCK | O_CLOEXEC) == 0);
}

static void close_pipe(int ends[2]) {
    EXPECT(close(ends[0]) == 0 && close(ends[1]) == 0);
}

/* A null pointer is answered before anything is read. */
static void null_reads_nothing(void) {
    int ends[2];
    char bytes[8] = "";
    open_pipe(ends);
    EXPECT(write(ends[1], "abc", 3) == 3);
    EXPECT(zc_from_fd(ends[0], NULL) == ZC_NULL);
    EXPECT(read(ends[0], bytes, sizeof bytes) == 3 && memcmp(bytes, "abc", 3) == 0);
    close_pipe(ends);
}

/* Where no bytes are there yet, what came before them is given. */
static void gives_what_came_before_it_would_block(void) {
    int ends[2];
    zc_cord x = ZC_EMPTY;
    open_pipe(ends);
    EXPECT(write(ends[1], "abc", 3) == 3);
    int code = zc_from_fd(ends[0], &x);
    if (may_want && code == ZC_NO_MEMORY) {
        wants++;
        EXPECT(write(ends[1], "abc", 3) == 3);
        code = zc_from_fd(ends[0], &x);
    }
    EXPECT(code == ZC_WOULD_BLOCK && errno == EAGAIN && has_text(&x, "abc", 3));
    close(ends[1]);
    DO(zc_from_fd(ends[0], &x));
    EXPECT(zc_len(&x) == 0);
    close(ends[0]);
    zc_free(&x);
}

/* The same where a read fails: of the memory of this process, of which one page is there and the next one isn't. */
static void gives_what_came_before_a_fault(void) {
    char *pages = mmap(NULL, 2 * PAGE, PROT_READ | PROT_WRITE, MAP_PRIVATE | MAP_ANONYMOUS, -1, 0);
    zc_cord x = ZC_EMPTY;
    int fd = open("/proc/self/mem", O_RDONLY | O_CLOEXEC), code;
    EXPECT(pages != MAP_FAILED && fd >= 0);
    memset(pages, 'm', PAGE);
    EXPECT(munmap(pages + PAGE, PAGE) == 0);
    do {
        EXPECT(lseek(fd, (off_t)(uintptr_t)pages, SEEK_SET) == (off_t)(uintptr_t)pages);
        code = zc_from_fd(fd, &x);
    } while (code == ZC_NO_MEMORY && may_want && wants++ < 100);
    EXPECT(code == ZC_READ_FAILED && errno == EIO && has_text(&x, pages, PAGE));
    EXPECT(munmap(pages, PAGE) == 0 && close(fd) == 0);
    EXPECT(zc_from_path("/tmp", &x) == ZC_READ_FAILED && errno == EISDIR && zc_len(&x) == PAGE);
    zc_free(&x);
}

/* Reads so many bytes from a pipe, which have to be numbers from this one on. */
static void take_numbers(int fd, uint64_t *place, uint64_t count) {
    unsigned char bytes[8192];
    while (count > 0) {
        ssize_t got = read(fd, bytes, count < sizeof bytes ? count : sizeof bytes);
        EXPECT(got > 0);
        for (ssize_t i = 0; i < got; i++, ++*place) EXPECT(bytes[i] == (unsigned char)(*place / 4 >> *place % 4 * 8));
        count -= (uint64_t)got;
    }
}

/* Puts that a full pipe stops part of the way, and in a block, say how far they came, and go on from there. */
static void puts_say_how_much_went_out(zc_files *files, zc_lazy *lazy, zc_cord *x) {
    uint64_t from = 0, place = 0, done = 0, stops = 0;
    int ends[2], code;
    char before = 0;
    open_pipe(ends);
    EXPECT(write(ends[1], "x", 1) == 1);
    do {
        code = lazy != NULL ? zc_lazy_put_range(files, lazy, from, UINT64_MAX, ends[1], &done)
                            : zc_put_range(x, from, UINT64_MAX, ends[1], &done);
        EXPECT(code == ZC_OK || (code == ZC_WOULD_BLOCK && done > 0));
        EXPECT(from > 0 || read(ends[0], &before, 1) == 1);
        take_numbers(ends[0], &place, done);
        from += done;
        stops += code == ZC_WOULD_BLOCK;
    } while (code != ZC_OK);
    EXPECT(from == NUMBERS * 4 && place == from && stops > 0);
    close_pipe(ends);
}

/* Ranges, and what a full disk and a pipe that nobody reads take. */
static void puts_of_ranges(void) {
    zc_cord x = ZC_EMPTY;
    uint64_t done = 7;
    int ends[2], full = open("/dev/full", O_WRONLY | O_CLOEXEC);
    char bytes[8] = "";
    EXPECT(full >= 0);
    DO(zc_from_bytes("abcdef", 6, &x));
    open_pipe(ends);
    EXPECT(zc_put_range(&x, 1, 3, ends[1], &done) == ZC_OK && done == 2);
    EXPECT(zc_put_range(&x, 3, 3, ends[1], &done) == ZC_OK && done == 0);
    EXPECT(zc_put_range(&x, 5, 2, ends[1], &done) == ZC_OK && done == 0);
    EXPECT(zc_put_range(&x, 4, 99, ends[1], &done) == ZC_OK && done == 2);
    EXPECT(zc_put_range(&x, 99, UINT64_MAX, ends[1], &done) == ZC_OK && done == 0);
    EXPECT(read(ends[0], bytes, sizeof bytes) == 4 && memcmp(bytes, "bcef", 4) == 0);
    EXPECT(zc_put_range(&x, 0, 6, ends[1], NULL) == ZC_NULL);
    EXPECT(zc_put_range(NULL, 0, 6, ends[1], &done) == ZC_NULL);
    EXPECT(zc_put_range(&x, 0, 6, full, &done) == ZC_WRITE_FAILED && errno == ENOSPC && done == 0);
    EXPECT(close(ends[0]) == 0);
    EXPECT(zc_put_range(&x, 0, 6, ends[1], &done) == ZC_WRITE_FAILED && errno == EPIPE && done == 0);
    EXPECT(close(ends[1]) == 0 && close(full) == 0);
    zc_free(&x);
}

static void puts_that_stop(void) {
    char path[24];
    zc_files files = ZC_FILES_NONE;
    zc_lazy lazy = ZC_LAZY_EMPTY;
    zc_cord x = ZC_EMPTY;
    make_numbers(path);
    DO(zc_from_path(path, &x));
    DO(zc_lazy_from_path(&files, path, &lazy));
    puts_say_how_much_went_out(NULL, NULL, &x);
    puts_say_how_much_went_out(&files, &lazy, NULL);
    EXPECT(unlink(path) == 0);
    zc_free(&x);
    zc_lazy_free(&lazy);
    zc_files_free(&files);
}

/* How many descriptors this process has open. */
static int open_descriptors(void) {
    int count = 0;
    for (int fd = 0; fd < 256; fd++) count += fcntl(fd, F_GETFD) >= 0;
    return count;
}

static int reads_as(zc_files *files, zc_lazy *x, const char *text) {
    char bytes[32];
    size_t got = 0;
    int code = zc_lazy_read(files, x, 0, bytes, sizeof bytes, &got);
    return code == ZC_OK && got == strlen(text) && memcmp(bytes, text, got) == 0;
}

/* One file has one slot, whatever paths lead to it; a file that takes its name is another. */
static void one_slot_for_a_file(void) {
    char path[24], other[24], linked[32];
    zc_files files = ZC_FILES_NONE;
    zc_lazy old = ZC_LAZY_EMPTY, new = ZC_LAZY_EMPTY;
    int before = open_descriptors();
    make_file(path, "old", 3);
    make_file(other, "new!", 4);
    snprintf(linked, sizeof linked, "%s_link", path);
    EXPECT(link(path, linked) == 0);
    for (int i = 0; i < 100; i++) DO(zc_lazy_from_path(&files, i % 2 ? path : linked, &old));
    EXPECT(files.count == 1 && open_descriptors() == before + 1);
    EXPECT(fcntl(files.fds[0], F_GETFD) == FD_CLOEXEC);
    EXPECT(rename(other, path) == 0);
    DO(zc_lazy_from_path(&files, path, &new));
    EXPECT(files.count == 2 && reads_as(&files, &old, "old") && reads_as(&files, &new, "new!"));
    EXPECT(unlink(path) == 0 && unlink(linked) == 0);
    zc_lazy_free(&old);
    zc_lazy_free(&new);
    zc_files_free(&files);
    EXPECT(open_descriptors() == before);
}

/* A short file is read and closed, as often as it is asked for, and takes no slot. */
static void short_files_are_closed(void) {
    char path[24];
    zc_files files = ZC_FILES_NONE;
    zc_lazy x = ZC_LAZY_EMPTY;
    int before = open_descriptors();
    make_file(path, "abc", 3);
    for (int i = 0; i < 100; i++) DO(zc_lazy_by_length(&files, path, &x));
    EXPECT(files.count == 0 && open_descriptors() == before && reads_as(&files, &x, "abc"));
    EXPECT(unlink(path) == 0);
    zc_lazy_free(&x);
}

/* A file that is closed can't be read, and no other gets its number. */
static void closed_files(void) {
    char path[24], other[24];
    zc_files files = ZC_FILES_NONE;
    zc_lazy x = ZC_LAZY_EMPTY, y = ZC_LAZY_EMPTY, z = ZC_LAZY_EMPTY;
    uint32_t file = 77, third = 77;
    uint64_t length = 7;
    make_file(path, "first", 5);
    make_file(other, "second", 6);
    EXPECT(zc_files_open(&files, path, &file, &length) == ZC_OK && length == 5);
    DO(zc_lazy_of_file(file, length, &x));
    DO(zc_lazy_from_path(&files, other, &y));
    EXPECT(reads_as(&files, &x, "first") && reads_as(&files, &y, "second"));
    zc_files_close(&files, file);
    zc_files_close(&files, 9999);
    zc_files_close(NULL, file);
    EXPECT(files.count == 1 && reads_as(&files, &y, "second"));
    EXPECT(zc_files_open(&files, path, &third, &length) == ZC_OK && third != file && files.count == 2);
    DO(zc_lazy_of_file(third, length, &z));
    EXPECT(zc_lazy_read(&files, &x, 0, &length, 1, &(size_t){0}) == ZC_READ_FAILED && reads_as(&files, &z, "first"));
    EXPECT(unlink(path) == 0 && unlink(other) == 0);
    zc_lazy_free(&x);
    zc_lazy_free(&y);
    zc_lazy_free(&z);
    zc_files_free(&files);
}

/* What can't be opened: a pipe with a name, which nobody writes, holds nothing up. */
static void files_refused(void) {
    char path[24];
    zc_files files = ZC_FILES_NONE;
    zc_lazy x = ZC_LAZY_EMPTY;
    uint32_t file = 7;
    uint64_t length = 7;
    make_file(path, "", 0);
    EXPECT(unlink(path) == 0 && mkfifo(path, 0600) == 0);
    alarm(10);
    EXPECT(zc_lazy_from_path(&files, path, &x) == ZC_READ_FAILED);
    EXPECT(zc_lazy_by_length(&files, path, &x) == ZC_READ_FAILED);
    EXPECT(zc_files_open(&files, path, &file, &length) == ZC_READ_FAILED);
    alarm(0);
    EXPECT(unlink(path) == 0);
    EXPECT(zc_files_open(&files, path, &file, &length) == ZC_READ_FAILED && errno == ENOENT);
    EXPECT(zc_files_open(NULL, path, &file, &length) == ZC_NULL);
    EXPECT(zc_files_open(&files, NULL, &file, &length) == ZC_NULL);
    EXPECT(zc_files_open(&files, path, NULL, &length) == ZC_NULL);
    EXPECT(zc_files_open(&files, path, &file, NULL) == ZC_NULL);
    EXPECT(file == 7 && length == 7 && files.count == 0);
}

int main(int count, char **words) {
    (void)words;
    may_want = count > 1;
    signal(SIGPIPE, SIG_IGN);
    reads_move_no_offset();
    if (!may_want) reads_after_a_fork();
    null_reads_nothing();
    gives_what_came_before_it_would_block();
    gives_what_came_before_a_fault();
    puts_of_ranges();
    puts_that_stop();
    one_slot_for_a_file();
    short_files_are_closed();
    closed_files();
    files_refused();
    printf("%lu rows, %lu refused\n", rows, wants);
    return 0;
}
