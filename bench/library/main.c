/* Times the calls of four libraries, each in a process of its own, and prints a table:

       calls TURNS SIZE..              (each row at each size in bytes; the least of so many turns)
       calls --one ROW LIBRARY SIZE    (one turn in this process, for a profiler)

   A row that a library answers otherwise than the first one ends the program. Times are those of a processor. */
#define _POSIX_C_SOURCE 200809L
#include "library.h"
#include <inttypes.h>
#include <stdio.h>
#include <stdlib.h>
#include <string.h>
#include <sys/wait.h>
#include <time.h>
#include <unistd.h>

#define MIB ((uint64_t)1 << 20)
#define PART 100 /* the bytes of a part of a text that is worked on */
#define OTHER_PART 70
#define MOST_PARTS ((uint64_t)1000000)
#define MOST_LEN ((uint64_t)100000000) /* of a text that is made by cat of short parts */
#define CALLS ((uint64_t)100000)

char source[2 * SOURCE_LEN];

static const struct library *const LIBRARIES[] = {&zomtsje, &libcord, &abseil, &libstdcxx};
enum { LIBRARY_COUNT = sizeof LIBRARIES / sizeof LIBRARIES[0] };

/* What a turn came to: a figure, and an answer that is the same of each library. */
struct sample {
    int is_there;
    double figure;
    uint64_t answer;
};

static void fill_source(void) {
    uint64_t state = 7;
    for (uint64_t i = 0; i < SOURCE_LEN; i++) {
        uint64_t place = next_place(&state, 26 * 60);
        source[i] = place < 26 ? '\n' : (char)('a' + place % 26);
    }
    memcpy(source + SOURCE_LEN, source, SOURCE_LEN);
}

static double nanoseconds(void) {
    struct timespec it;
    clock_gettime(CLOCK_PROCESS_CPUTIME_ID, &it);
    return (double)it.tv_sec * 1e9 + (double)it.tv_nsec;
}

static struct sample sample_since(double start, uint64_t count, uint64_t answer) {
    return (struct sample){1, (nanoseconds() - start) / (double)count, answer};
}

static const struct sample NONE = {0, 0, 0};

/* ---- appends ---- */

static struct sample appended(const struct library *by, int is_growing, uint64_t size, size_t part) {
    if (by->by_growing == NULL) return NONE;
    double start = nanoseconds();
    void *text = is_growing ? by->by_growing(size, part) : by->by_cat(size, part);
    struct sample it = sample_since(start, (size + part - 1) / part, 0);
    it.answer = by->read(text);
    return it;
}

static struct sample append_10(const struct library *by, uint64_t size) {
    return appended(by, 0, size, 10);
}

static struct sample append_100(const struct library *by, uint64_t size) {
    return appended(by, 0, size, 100);
}

static struct sample grow_10(const struct library *by, uint64_t size) {
    return appended(by, 1, size, 10);
}

static struct sample grow_100(const struct library *by, uint64_t size) {
    return appended(by, 1, size, 100);
}

static struct sample memory(const struct library *by, int is_growing, uint64_t size) {
    if (by->in_use == NULL) return NONE;
    uint64_t before = by->in_use();
    void *text = is_growing ? by->by_growing(size, 10) : by->by_cat(size, 10);
    struct sample it = {1, (double)(by->in_use() - before) / (double)size, 0};
    it.answer = by->read(text);
    return it;
}

static struct sample memory_by_cat(const struct library *by, uint64_t size) {
    return memory(by, 0, size);
}

static struct sample memory_by_growing(const struct library *by, uint64_t size) {
    return memory(by, 1, size);
}

/* ---- texts of parts ---- */

/* A text as many appends leave it: of parts of so many bytes, or of greater ones where they would be too many. */
static void *grown(const struct library *by, uint64_t size, size_t part) {
    return by->by_cat(size, size / part <= MOST_PARTS ? part : 40 * part);
}

static void *balanced(const struct library *by, uint64_t size) {
    void *text = grown(by, size, PART);
    return by->balanced != NULL ? by->balanced(text) : text;
}

static struct sample cut(const struct library *by, void *text, uint64_t size, uint64_t length) {
    if (by->cut == NULL) return NONE;
    double start = nanoseconds();
    uint64_t answer = by->cut(text, size, CALLS, length);
    return sample_since(start, CALLS, answer);
}

static struct sample cut_grown(const struct library *by, uint64_t size) {
    return cut(by, grown(by, size, PART), size, 100);
}

static struct sample cut_balanced(const struct library *by, uint64_t size) {
    return cut(by, balanced(by, size), size, 100);
}

static struct sample cut_long(const struct library *by, uint64_t size) {
    return size > MIB ? cut(by, balanced(by, size), size, MIB) : NONE;
}

static struct sample fetch(const struct library *by, void *text, uint64_t size) {
    double start = nanoseconds();
    uint64_t answer = by->fetch(text, size, CALLS);
    return sample_since(start, CALLS, answer);
}

static struct sample fetch_grown(const struct library *by, uint64_t size) {
    return fetch(by, grown(by, size, PART), size);
}

static struct sample fetch_balanced(const struct library *by, uint64_t size) {
    return fetch(by, balanced(by, size), size);
}

static struct sample over_all(const struct library *by, uint64_t size, uint64_t (*work)(void *), uint64_t count) {
    if (work == NULL) return NONE;
    void *text = grown(by, size, PART);
    double start = nanoseconds();
    uint64_t answer = work(text);
    return sample_since(start, count, answer);
}

static struct sample walk(const struct library *by, uint64_t size) {
    return over_all(by, size, by->walk, size);
}

static struct sample lines(const struct library *by, uint64_t size) {
    uint64_t count = 0;
    for (uint64_t i = 0; i < size; i++) count += *source_at(i) == '\n';
    return over_all(by, size, by->lines, count);
}

static struct sample absent(const struct library *by, uint64_t size) {
    return over_all(by, size, by->absent, size / 1024);
}

static struct sample chunks(const struct library *by, uint64_t size) {
    return over_all(by, size, by->chunks, size / 1024);
}

static struct sample read_all(const struct library *by, uint64_t size) {
    return over_all(by, size, by->read, size / 1024);
}

static struct sample compare(const struct library *by, uint64_t size) {
    if (by->compare == NULL) return NONE;
    void *text = grown(by, size, PART), *other = grown(by, size, OTHER_PART);
    double start = nanoseconds();
    uint64_t answer = by->compare(text, other);
    return sample_since(start, size / 1024, answer);
}

/* ---- edits ---- */

static struct sample edited(const struct library *by, const struct edits *edits) {
    void *text = balanced(by, edits->size);
    double start = nanoseconds();
    void *made = by->edited(text, edits);
    struct sample it = sample_since(start, edits->count, 0);
    it.answer = by->fetch(made, edits->size + edits->count, 1000);
    return it;
}

static struct sample type(const struct library *by, uint64_t size) {
    return edited(by, &(struct edits){size, 10 * CALLS, 0, 0});
}

static struct sample type_at_random(const struct library *by, uint64_t size) {
    return edited(by, &(struct edits){size, CALLS, 1, 0});
}

static struct sample versions(const struct library *by, uint64_t size) {
    return edited(by, &(struct edits){size, CALLS, 0, 1});
}

static struct sample versions_at_random(const struct library *by, uint64_t size) {
    return edited(by, &(struct edits){size, CALLS, 1, 1});
}

/* ---- making and freeing ---- */

static struct sample make(const struct library *by, uint64_t size) {
    (void)size;
    if (by->make == NULL) return NONE;
    double start = nanoseconds();
    uint64_t answer = by->make(10 * CALLS);
    return sample_since(start, 10 * CALLS, answer);
}

static struct sample share(const struct library *by, uint64_t size) {
    if (by->share == NULL) return NONE;
    void *text = grown(by, size, PART);
    double start = nanoseconds();
    uint64_t answer = by->share(text, 10 * CALLS);
    return sample_since(start, 10 * CALLS, answer);
}

static struct sample release(const struct library *by, uint64_t size) {
    if (by->release == NULL) return NONE;
    void *text = by->by_cat(size, 4000);
    uint64_t answer = by->read(text);
    double start = nanoseconds();
    by->release(text);
    return sample_since(start, size / 4000, answer);
}

/* ---- the table ---- */

struct row {
    const char *name;
    const char *what;
    uint64_t size; /* 0: each size that is given */
    uint64_t most; /* a greater text would take too much memory */
    struct sample (*measure)(const struct library *, uint64_t);
};

static const struct row ROWS[] = {
    {"append_10", "append 10 bytes by cat, an append", 0, MOST_LEN, append_10},
    {"append_100", "append 100 bytes by cat, an append", 0, MOST_LEN, append_100},
    {"grow_10", "append 10 bytes to a text that grows, an append", 0, UINT64_MAX, grow_10},
    {"grow_100", "append 100 bytes to one, an append", 0, UINT64_MAX, grow_100},
    {"cut_grown", "cut 100 bytes out of a grown text, a cut", 0, UINT64_MAX, cut_grown},
    {"cut_balanced", "the same of a balanced text, a cut", 0, UINT64_MAX, cut_balanced},
    {"cut_long", "cut 1 MiB out of a balanced text, a cut", 0, UINT64_MAX, cut_long},
    {"fetch_grown", "fetch a byte at random of a grown text, a byte", 0, UINT64_MAX, fetch_grown},
    {"fetch_balanced", "the same of a balanced text, a byte", 0, UINT64_MAX, fetch_balanced},
    {"walk", "walk byte by byte, a byte", 0, UINT64_MAX, walk},
    {"lines", "ends of lines, one by one, a line", 0, UINT64_MAX, lines},
    {"absent", "find a byte that isn't there, a KiB", 0, UINT64_MAX, absent},
    {"chunks", "go over chunks, a KiB", 0, UINT64_MAX, chunks},
    {"read", "read by 64 KiB, a KiB", 0, UINT64_MAX, read_all},
    {"compare", "compare equal texts that are cut otherwise, a KiB", 0, UINT64_MAX, compare},
    {"type", "put in a byte after the last one, a byte", 0, MOST_LEN, type},
    {"type_at_random", "the same at random places, a byte", 0, MOST_LEN, type_at_random},
    {"versions", "put in a byte after the last one, each text kept, a byte", 0, MOST_LEN, versions},
    {"versions_at_random", "the same at random places, a byte", 0, MOST_LEN, versions_at_random},
    {"share", "copy a handle and free it, a copy", 100000, UINT64_MAX, share},
    {"make", "make and free a cord of 10 bytes, a cord", 10, UINT64_MAX, make},
    {"release", "free leaves of 4,000 bytes, a leaf", 32 * MIB, UINT64_MAX, release},
    {"memory", "bytes in use for a byte, by appends of 10 by cat", MIB, UINT64_MAX, memory_by_cat},
    {"memory_grown", "the same of a text that grows", MIB, UINT64_MAX, memory_by_growing},
};
enum { ROW_COUNT = sizeof ROWS / sizeof ROWS[0] };

static void fail(const struct row *row, const struct library *by, const char *why) {
    fprintf(stderr, "%s of %s: %s\n", row->name, by->name, why);
    exit(1);
}

/* One turn, in a process of its own, so that no library finds what another one left. */
static struct sample turn(const struct row *row, const struct library *by, uint64_t size) {
    int ends[2], status;
    struct sample it = NONE;
    pid_t child;
    if (pipe(ends) != 0 || (child = fork()) < 0) fail(row, by, "no process");
    if (child == 0) {
        by->begin();
        it = row->measure(by, size);
        _exit(write(ends[1], &it, sizeof it) != sizeof it);
    }
    close(ends[1]);
    ssize_t got = read(ends[0], &it, sizeof it);
    close(ends[0]);
    if (waitpid(child, &status, 0) != child || status != 0 || got != sizeof it) fail(row, by, "the process failed");
    return it;
}

static void show(const struct row *row, uint64_t size, const struct sample *least) {
    double best = 0;
    printf("| %s | %" PRIu64 " |", row->what, size);
    for (int i = 0; i < LIBRARY_COUNT; i++) {
        if (!least[i].is_there) {
            printf(" |");
            continue;
        }
        printf(least[i].figure < 10 ? " %.2f |" : " %.0f |", least[i].figure);
        if (i > 0 && (best == 0 || least[i].figure < best)) best = least[i].figure;
    }
    if (best > 0) printf(" %.2f |\n", least[0].figure / best);
    else printf(" |\n");
    fflush(stdout);
}

static void measure(const struct row *row, uint64_t size, int turns) {
    struct sample least[LIBRARY_COUNT] = {{0, 0, 0}};
    for (int i = 0; i < turns * LIBRARY_COUNT; i++) {
        int which = i % LIBRARY_COUNT;
        struct sample it = turn(row, LIBRARIES[which], size);
        if (it.is_there && it.answer != least[0].answer && i > 0) fail(row, LIBRARIES[which], "another answer");
        if (!least[which].is_there || it.figure < least[which].figure) least[which] = it;
    }
    if (least[0].is_there) show(row, size, least);
}

static int run_one(const char *name, const char *library, uint64_t size) {
    for (int i = 0; i < ROW_COUNT * LIBRARY_COUNT; i++) {
        const struct row *row = &ROWS[i / LIBRARY_COUNT];
        const struct library *by = LIBRARIES[i % LIBRARY_COUNT];
        if (strcmp(row->name, name) != 0 || strcmp(by->name, library) != 0) continue;
        by->begin();
        return !row->measure(by, row->size != 0 ? row->size : size).is_there;
    }
    return 2;
}

int main(int words, char **given) {
    fill_source();
    if (words == 5 && strcmp(given[1], "--one") == 0)
        return run_one(given[2], given[3], strtoull(given[4], NULL, 10));
    if (words < 3) return 2;
    printf("| call | bytes |");
    for (int i = 0; i < LIBRARY_COUNT; i++) printf(" %s |", LIBRARIES[i]->name);
    printf(" ratio |\n|---|---|---|---|---|---|\n");
    for (int i = 0; i < ROW_COUNT; i++) {
        if (ROWS[i].size != 0) measure(&ROWS[i], ROWS[i].size, atoi(given[1]));
        for (int j = 2; ROWS[i].size == 0 && j < words; j++) {
            uint64_t size = strtoull(given[j], NULL, 10);
            if (size <= ROWS[i].most) measure(&ROWS[i], size, atoi(given[1]));
        }
    }
    return 0;
}
