/* Times the index of the lines of a text: lines SIZE..
 *
 * The text has lines of 20 to 99 bytes in leaves of 4,096 bytes. Prints a row a size in bytes: how fast the index is
 * made, its part of the memory, and nanoseconds: of a look-up by number and by place, of the search in a block that is
 * a part of each, without the index, of what an edit of up to 40 bytes costs the index, of the two look-ups of its line
 * and of where that begins, and of both together. Answers are compared with a count of all bytes. Times are those of a
 * processor, less what it takes to ask for them. */
#define _POSIX_C_SOURCE 200809L
#include <inttypes.h>
#include <malloc.h>
#include <stdio.h>
#include <stdlib.h>
#include <string.h>
#include <time.h>
#include <zomtsje.h>

enum { LOOKUPS = 1000000, EDITS = 100000, LONGEST = 40, BLOCK = 8192 };

static uint64_t state = 88172645463325252u;

static uint64_t below(uint64_t count) {
    state ^= state << 13;
    state ^= state >> 7;
    state ^= state << 17;
    return state % count;
}

static double nanoseconds(void) {
    struct timespec it;
    clock_gettime(CLOCK_PROCESS_CPUTIME_ID, &it);
    return (double)it.tv_sec * 1e9 + (double)it.tv_nsec;
}

/* What one more question for the time adds to a difference of two. */
static double question(void) {
    double start = nanoseconds();
    for (size_t i = 0; i < LOOKUPS / 10; i++) nanoseconds();
    return (nanoseconds() - start) / (LOOKUPS / 10);
}

static void must(int holds, const char *what) {
    if (holds) return;
    fprintf(stderr, "lines: %s\n", what);
    exit(1);
}
#define MUST(holds) must((holds), #holds)

static void fill(uint64_t size, zc_cord *x) {
    static zc_ext grown;
    char line[100];
    memset(line, 'x', sizeof line);
    while (zc_ext_len(&grown) < size) {
        uint64_t left = size - zc_ext_len(&grown), count = 20 + below(80);
        if (count > left) count = left;
        line[count - 1] = '\n';
        MUST(zc_ext_bytes(&grown, line, count) == ZC_OK);
        line[count - 1] = 'x';
    }
    MUST(zc_ext_to_cord(&grown, x) == ZC_OK);
    zc_ext_free(&grown);
}

static uint64_t lines_before(const zc_cord *x, uint64_t place) {
    zc_cord front = ZC_EMPTY;
    MUST(zc_substr(x, 0, place, &front) == ZC_OK);
    uint64_t count = zc_count(&front, '\n');
    zc_free(&front);
    return count;
}

/* Edits at random places: the index's part of an edit, then the line of its place and where that begins. */
static void edit(zc_cord *x, zc_lines *lines, double *kept, double *asked) {
    char bytes[LONGEST];
    double asking = question();
    *kept = *asked = 0;
    for (size_t i = 0; i < EDITS; i++) {
        uint64_t len = zc_len(x), start = below(len + 1), removed = below(LONGEST), inserted = below(LONGEST);
        uint64_t number, place;
        zc_cord piece = ZC_EMPTY, before = ZC_EMPTY;
        if (removed > len - start) removed = len - start;
        for (size_t j = 0; j < inserted; j++) bytes[j] = below(40) == 0 ? '\n' : 'y';
        MUST(zc_share(x, &before) == ZC_OK && zc_from_bytes(bytes, inserted, &piece) == ZC_OK);
        MUST(zc_splice(x, start, removed, &piece) == ZC_OK);
        zc_free(&piece);
        double begin = nanoseconds();
        MUST(zc_lines_edited_from(lines, &before, x, start, removed, inserted) == ZC_OK);
        double edited = nanoseconds();
        MUST(zc_lines_of(lines, x, start, &number) == ZC_OK);
        int code = zc_lines_start(lines, x, number, &place); /* no line begins at the end, after the last line's */
        MUST(code == ZC_OK || code == ZC_PAST_END);
        *kept += edited - begin;
        *asked += nanoseconds() - edited;
        zc_free(&before);
        if (i % (EDITS / 10) == 0) {
            place = below(zc_len(x));
            MUST(zc_lines_of(lines, x, place, &number) == ZC_OK && number == lines_before(x, place));
        }
    }
    *kept = *kept / EDITS - asking;
    *asked = *asked / EDITS - asking;
}

static size_t memory_in_use(void) {
    return mallinfo2().uordblks + mallinfo2().hblkhd;
}

/* Nanoseconds of a search from random places to the nearer end of their blocks, without the index: what a look-up does
 * in the text. The byte that is looked for isn't there. */
static double search_blocks(const zc_cord *x, uint64_t size) {
    double start = nanoseconds();
    for (size_t i = 0; i < LOOKUPS; i++) {
        uint64_t place = below(size), inside = place % BLOCK, found;
        uint64_t begin = place - inside, end = begin + BLOCK < size ? begin + BLOCK : size;
        if (end - place < inside) begin = place;
        else end = place;
        MUST(zc_find_in(x, begin, end, "\1", 1, &found) == ZC_OK && found == ZC_NOT_FOUND);
    }
    return (nanoseconds() - start) / LOOKUPS;
}

static void measure(uint64_t size) {
    zc_cord x = ZC_EMPTY;
    zc_lines lines = ZC_LINES_EMPTY;
    uint64_t place = 0, sum = 0;
    double start, made, by_number, by_place, kept, asked;
    fill(size, &x);
    size_t memory = memory_in_use();
    start = nanoseconds();
    MUST(zc_lines_set(&x, &lines) == ZC_OK);
    made = nanoseconds() - start;
    memory = memory_in_use() - memory;
    uint64_t count = zc_lines_count(&lines);
    MUST(count == zc_count(&x, '\n'));
    start = nanoseconds();
    for (size_t i = 0; i < LOOKUPS; i++) MUST(zc_lines_start(&lines, &x, below(count), &place) == ZC_OK), sum += place;
    by_number = (nanoseconds() - start) / LOOKUPS;
    start = nanoseconds();
    for (size_t i = 0; i < LOOKUPS; i++) MUST(zc_lines_of(&lines, &x, below(size), &place) == ZC_OK), sum += place;
    by_place = (nanoseconds() - start) / LOOKUPS;
    MUST(sum > 0);
    double searched = search_blocks(&x, size);
    edit(&x, &lines, &kept, &asked);
    printf("%" PRIu64 " bytes: made at %.2f GB/s, %.4f %% of the memory, ", size, (double)size / made,
           100.0 * (double)memory / (double)size);
    printf("by number %.0f, by place %.0f, a search alone %.0f, ", by_number, by_place, searched);
    printf("an edit %.0f, its two look-ups %.0f, together %.0f\n", kept, asked, kept + asked);
    zc_lines_free(&lines);
    zc_free(&x);
}

int main(int count, char **words) {
    for (int i = 1; i < count; i++) measure(strtoull(words[i], NULL, 10));
    return count < 2;
}
