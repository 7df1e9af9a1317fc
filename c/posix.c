/* What the library has in C: its version, codes in words, and files by the descriptors of POSIX. It stands on the
 * proved calls, and no proof speaks of it. tools/c-library compiles it beside them; zomtsje.h says what each call
 * does. */
#define _POSIX_C_SOURCE 200809L
#include "zomtsje.h"

#include <errno.h>
#include <fcntl.h>
#include <string.h>
#include <sys/stat.h>
#include <unistd.h>

/* the bytes that are read or written at once */
enum { BLOCK = 16384, HALF_BLOCK = 8192, WINDOW = 65536 };

const char *zc_version(void) {
    return ZC_VERSION;
}

const char *zc_message(int code) {
    switch (code) {
    case ZC_OK: return "done";
    case ZC_TOO_LONG: return "too long";
    case ZC_NO_MEMORY: return "no memory";
    case ZC_READ_FAILED: return "read failed";
    case ZC_WRITE_FAILED: return "write failed";
    case ZC_PAST_END: return "past the end";
    case ZC_IN_FILE: return "in a file";
    case ZC_TOO_MANY_FILES: return "too many files";
    case ZC_WOULD_BLOCK: return "would block";
    case ZC_NULL: return "null pointer";
    case ZC_BAD_FORMAT: return "bad format";
    case ZC_WRONG_ARGUMENTS: return "wrong arguments";
    case ZC_BAD_VALUE: return "bad value";
    case ZC_BAD_ARGUMENT: return "bad argument";
    default: return "unknown code";
    }
}

/* ---- descriptors ---- */

/* The code of a call of the system that failed. */
static int code_of_errno(int otherwise) {
    return errno == EAGAIN || errno == EWOULDBLOCK ? ZC_WOULD_BLOCK : otherwise;
}

static uint64_t smaller(uint64_t x, uint64_t y) {
    return x < y ? x : y;
}

/* Writes bytes, and adds to *done how many of them were written. */
static int write_bytes(int fd, const unsigned char *bytes, size_t count, uint64_t *done) {
    size_t written = 0;
    while (written < count) {
        ssize_t more = write(fd, bytes + written, count - written);
        if (more < 0 && errno == EINTR) continue;
        if (more < 0) return code_of_errno(ZC_WRITE_FAILED);
        if (more == 0) return ZC_WRITE_FAILED;
        written += (size_t)more;
        *done += (uint64_t)more;
    }
    return ZC_OK;
}

/* What a put reads: a cord, or else a lazy one over files. */
typedef struct source {
    const zc_cord *cord;
    const zc_lazy *lazy;
    zc_files *files;
} source;

static int read_source(const source *from, uint64_t start, void *bytes, size_t count, size_t *got) {
    if (from->cord != NULL) return zc_read(from->cord, start, bytes, count, got);
    return zc_lazy_read(from->files, from->lazy, start, bytes, count, got);
}

static int put(const source *x, uint64_t from, uint64_t to, int fd, uint64_t *done) {
    unsigned char bytes[BLOCK];
    if (done == NULL) return ZC_NULL;
    *done = 0;
    while (from + *done < to) {
        size_t got = 0;
        int code = read_source(x, from + *done, bytes, (size_t)smaller(to - from - *done, sizeof bytes), &got);
        if (code == ZC_OK) code = write_bytes(fd, bytes, got, done);
        if (code != ZC_OK || got == 0) return code;
    }
    return ZC_OK;
}

int zc_put_range(const zc_cord *x, uint64_t from, uint64_t to, int fd, uint64_t *done) {
    source read = {x, NULL, NULL};
    return x == NULL ? ZC_NULL : put(&read, from, to, fd, done);
}

int zc_put(const zc_cord *x, int fd) {
    uint64_t done = 0;
    return zc_put_range(x, 0, ZC_MAX_LEN, fd, &done);
}

int zc_lazy_put_range(zc_files *files, const zc_lazy *x, uint64_t from, uint64_t to, int fd, uint64_t *done) {
    source read = {NULL, x, files};
    return files == NULL || x == NULL ? ZC_NULL : put(&read, from, to, fd, done);
}

int zc_lazy_put(zc_files *files, const zc_lazy *x, int fd) {
    uint64_t done = 0;
    return zc_lazy_put_range(files, x, 0, ZC_MAX_LEN, fd, &done);
}

/* Adds what the descriptor gives to its end, and writes to *ended how it ended: ZC_OK at the end, or the code of a
   fault. */
static int read_to_end(int fd, zc_ext *all, int *ended) {
    unsigned char bytes[BLOCK];
    for (;;) {
        ssize_t count = read(fd, bytes, sizeof bytes);
        if (count < 0 && errno == EINTR) continue;
        *ended = count < 0 ? code_of_errno(ZC_READ_FAILED) : ZC_OK;
        if (count <= 0) return ZC_OK;
        int code = zc_ext_bytes(all, bytes, (size_t)count);
        if (code != ZC_OK) return code;
    }
}

/* Reads a descriptor to its end. What came before a fault goes to *out where it is to be kept. */
static int take(int fd, int is_part_kept, zc_cord *out) {
    zc_ext all = ZC_EXT_EMPTY;
    int ended = ZC_OK, code = read_to_end(fd, &all, &ended), cause = errno;
    if (code == ZC_OK && (ended == ZC_OK || is_part_kept)) code = zc_ext_to_cord(&all, out);
    zc_ext_free(&all);
    errno = cause;
    return code == ZC_OK ? ended : code;
}

int zc_from_fd(int fd, zc_cord *out) {
    return out == NULL ? ZC_NULL : take(fd, 1, out);
}

/* Opens a file to be read, which a program that is started doesn't inherit: its descriptor, or -1. */
static int open_to_read(const char *path, int more) {
    int fd;
    do fd = open(path, O_RDONLY | O_CLOEXEC | more);
    while (fd < 0 && errno == EINTR);
    return fd;
}

/* Closes a descriptor and keeps errno. */
static void close_after(int fd) {
    int cause = errno;
    close(fd);
    errno = cause;
}

/* Reads the file of a descriptor to its end, and closes it. */
static int take_whole(int fd, zc_cord *out) {
    int code = take(fd, 0, out);
    close_after(fd);
    return code;
}

int zc_from_path(const char *path, zc_cord *out) {
    int fd;
    if (path == NULL || out == NULL) return ZC_NULL;
    fd = open_to_read(path, 0);
    return fd < 0 ? ZC_READ_FAILED : take_whole(fd, out);
}

/* ---- the files of lazy cords ---- */

/* Opens a regular file and asks for what the system reports of it: its descriptor, or -1. A pipe with no writer doesn't
   hold it up. */
static int open_regular(const char *path, struct stat *status) {
    int fd = open_to_read(path, O_NONBLOCK | O_NOCTTY);
    if (fd >= 0 && (fstat(fd, status) != 0 || !S_ISREG(status->st_mode))) {
        close_after(fd);
        return -1;
    }
    return fd;
}

/* The slot that has the file of this number: the count of the slots where it isn't open. */
static uint32_t slot_of(const zc_files *files, uint32_t file) {
    uint32_t slot = 0;
    while (slot < files->count && files->numbers[slot] != file) slot++;
    return slot;
}

/* The slot that has the same file open: the count of the slots where none has. */
static uint32_t slot_of_same(const zc_files *files, const struct stat *status) {
    struct stat own;
    uint32_t slot = 0;
    for (; slot < files->count; slot++)
        if (fstat(files->fds[slot], &own) == 0 && own.st_dev == status->st_dev && own.st_ino == status->st_ino) break;
    return slot;
}

/* Keeps an open file and writes its number to *file; where it was open before, or there is no room, it is closed. */
static int keep(zc_files *files, int fd, const struct stat *status, uint32_t *file) {
    uint32_t slot = slot_of_same(files, status);
    if (slot < files->count) {
        close(fd);
    } else if (slot < ZC_MOST_FILES && files->next < UINT32_MAX) {
        files->fds[slot] = fd;
        files->numbers[slot] = files->next++;
        files->count++;
    } else {
        close(fd);
        return ZC_TOO_MANY_FILES;
    }
    *file = files->numbers[slot];
    return ZC_OK;
}

int zc_files_open(zc_files *files, const char *path, uint32_t *file, uint64_t *length) {
    struct stat status;
    int fd, code;
    if (files == NULL || path == NULL || file == NULL || length == NULL) return ZC_NULL;
    fd = open_regular(path, &status);
    if (fd < 0) return ZC_READ_FAILED;
    code = keep(files, fd, &status, file);
    if (code == ZC_OK) *length = (uint64_t)status.st_size;
    return code;
}

void zc_files_close(zc_files *files, uint32_t file) {
    uint32_t slot;
    if (files == NULL) return;
    slot = slot_of(files, file);
    if (slot == files->count) return;
    close(files->fds[slot]);
    files->count--;
    files->fds[slot] = files->fds[files->count];
    files->numbers[slot] = files->numbers[files->count];
}

void zc_files_free(zc_files *files) {
    while (files != NULL && files->count > 0) close(files->fds[--files->count]);
}

/* The cord of an open file, which is kept if there is memory. */
static int lazy_of(zc_files *files, int fd, const struct stat *status, zc_lazy *out) {
    uint32_t file = 0, before = files->count;
    int code = keep(files, fd, status, &file);
    if (code == ZC_OK) code = zc_lazy_of_file(file, (uint64_t)status->st_size, out);
    if (code != ZC_OK && files->count > before) {
        zc_files_close(files, file);
        files->next = file; /* nobody knows the number */
    }
    return code;
}

int zc_lazy_from_path(zc_files *files, const char *path, zc_lazy *out) {
    struct stat status;
    int fd;
    if (files == NULL || path == NULL || out == NULL) return ZC_NULL;
    fd = open_regular(path, &status);
    return fd < 0 ? ZC_READ_FAILED : lazy_of(files, fd, &status, out);
}

int zc_lazy_by_length(zc_files *files, const char *path, zc_lazy *out) {
    zc_cord whole = ZC_EMPTY;
    struct stat status;
    int fd, code;
    if (files == NULL || path == NULL || out == NULL) return ZC_NULL;
    fd = open_regular(path, &status);
    if (fd < 0) return ZC_READ_FAILED;
    if (status.st_size > ZC_SHORT_FILE) return lazy_of(files, fd, &status, out);
    code = take_whole(fd, &whole);
    if (code == ZC_OK) code = zc_lazy_from_cord(&whole, out);
    zc_free(&whole);
    return code;
}

/* ---- reads of lazy cords ---- */

/* Reads bytes of a file, at least one: how many, or -1. It moves no offset, which a process that was forked shares. */
static ssize_t read_at(const zc_files *files, uint32_t file, uint64_t place, void *bytes, size_t count) {
    uint32_t slot = slot_of(files, file);
    ssize_t got;
    if (slot == files->count) {
        errno = EBADF;
        return -1;
    }
    do got = pread(files->fds[slot], bytes, count, (off_t)place);
    while (got < 0 && errno == EINTR);
    if (got == 0) errno = EIO; /* the file became shorter */
    return got == 0 ? -1 : got;
}

int zc_lazy_read(zc_files *files, const zc_lazy *x, uint64_t start, void *bytes, size_t count, size_t *got) {
    unsigned char *to = (unsigned char *)bytes;
    size_t done = 0, part = 0;
    if (files == NULL || x == NULL || got == NULL) return ZC_NULL;
    while (done < count) {
        uint32_t file = 0;
        uint64_t place = 0;
        if (zc_lazy_part(x, start + done, to + done, count - done, &part, &file, &place) == ZC_IN_FILE) {
            ssize_t more = read_at(files, file, place, to + done, part);
            if (more < 0) return ZC_READ_FAILED;
            part = (size_t)more;
        }
        if (part == 0) break;
        done += part;
    }
    *got = done;
    return ZC_OK;
}

int zc_lazy_fetch(zc_files *files, const zc_lazy *x, uint64_t place, unsigned char *byte) {
    unsigned char found = 0;
    size_t got = 0;
    int code = byte == NULL ? ZC_NULL : zc_lazy_read(files, x, place, &found, 1, &got);
    if (code == ZC_OK && got == 0) code = ZC_PAST_END;
    if (code == ZC_OK) *byte = found;
    return code;
}

int zc_lazy_chr(zc_files *files, const zc_lazy *x, uint64_t start, unsigned char byte, uint64_t *place) {
    unsigned char bytes[BLOCK], *found = NULL;
    size_t got = 0;
    if (place == NULL) return ZC_NULL;
    for (; found == NULL; start += got) {
        int code = zc_lazy_read(files, x, start, bytes, sizeof bytes, &got);
        if (code != ZC_OK) return code;
        if (got == 0) break;
        found = (unsigned char *)memchr(bytes, byte, got);
        if (found != NULL) got = (size_t)(found - bytes);
    }
    *place = found == NULL ? ZC_NOT_FOUND : start;
    return ZC_OK;
}

int zc_lazy_rchr(zc_files *files, const zc_lazy *x, uint64_t end, unsigned char byte, uint64_t *place) {
    unsigned char bytes[BLOCK];
    uint64_t at = smaller(zc_lazy_len(x), end), from = at;
    if (files == NULL || x == NULL || place == NULL) return ZC_NULL;
    for (; at > 0; at--) {
        if (at == from) {
            size_t count = (size_t)smaller(at, sizeof bytes);
            int code = zc_lazy_read(files, x, at - count, bytes, count, &count);
            if (code != ZC_OK) return code;
            from = at - count;
        }
        if (bytes[at - 1 - from] == byte) break;
    }
    *place = at == 0 ? ZC_NOT_FOUND : at - 1;
    return ZC_OK;
}

int zc_lazy_cmp(zc_files *files, const zc_lazy *x, const zc_lazy *y, int32_t *order) {
    unsigned char own[HALF_BLOCK], others[HALF_BLOCK];
    uint64_t start = 0;
    size_t got = 0, other = 0;
    int found = 0;
    if (order == NULL) return ZC_NULL;
    do {
        int code = zc_lazy_read(files, x, start, own, sizeof own, &got);
        if (code == ZC_OK) code = zc_lazy_read(files, y, start, others, sizeof others, &other);
        if (code != ZC_OK) return code;
        found = memcmp(own, others, (size_t)smaller(got, other));
        if (found == 0) found = (got > other) - (got < other);
        start += got;
    } while (found == 0 && got > 0);
    *order = (found > 0) - (found < 0);
    return ZC_OK;
}

int zc_lazy_to_cord(zc_files *files, const zc_lazy *x, zc_cord *out) {
    unsigned char bytes[BLOCK];
    zc_ext all = ZC_EXT_EMPTY;
    size_t got = 0;
    uint64_t start = 0;
    int code;
    do {
        code = zc_lazy_read(files, x, start, bytes, sizeof bytes, &got);
        if (code == ZC_OK) code = zc_ext_bytes(&all, bytes, got);
        start += got;
    } while (code == ZC_OK && got > 0);
    if (code == ZC_OK) code = zc_ext_to_cord(&all, out);
    zc_ext_free(&all);
    return code;
}

/* Finds bytes, at least one, in one copy after the other of a part of the cord. */
static int find_in_windows(zc_files *files, const zc_lazy *x, uint64_t start, const void *bytes, size_t count,
                           uint64_t *place) {
    zc_lazy window = ZC_LAZY_EMPTY;
    zc_cord copy = ZC_EMPTY;
    uint64_t found = ZC_NOT_FOUND, whole = WINDOW + (uint64_t)count, left = whole;
    int code = ZC_OK;
    while (code == ZC_OK && found == ZC_NOT_FOUND && left == whole) {
        code = zc_lazy_substr(x, start, whole, &window);
        if (code == ZC_OK) code = zc_lazy_to_cord(files, &window, &copy);
        if (code == ZC_OK) code = zc_find(&copy, 0, bytes, count, &found);
        left = zc_len(&copy);
        if (found == ZC_NOT_FOUND) start += WINDOW;
    }
    if (code == ZC_OK) *place = found == ZC_NOT_FOUND ? found : start + found;
    zc_free(&copy);
    zc_lazy_free(&window);
    return code;
}

int zc_lazy_find(zc_files *files, const zc_lazy *x, uint64_t start, const void *bytes, size_t count, uint64_t *place) {
    if (files == NULL || x == NULL || place == NULL) return ZC_NULL;
    if (count > 0) return find_in_windows(files, x, start, bytes, count, place);
    *place = start <= zc_lazy_len(x) ? start : ZC_NOT_FOUND;
    return ZC_OK;
}
