/* Work over a cord of so many short leaves, of a line each, whose instructions are counted:
 *
 *     growth WORK LEAVES
 *
 * Prints what the work answers; "nothing" only makes the cord. */
#include "zomtsje.h"
#include <stdio.h>
#include <stdlib.h>
#include <string.h>

enum { LINE = 80 };

static uint64_t last_line(zc_cord *x, uint64_t leaves) {
    zc_cord line = ZC_EMPTY;
    uint64_t length = zc_nth_line(x, leaves - 1, &line) == ZC_OK ? zc_len(&line) : 0;
    zc_free(&line);
    return length;
}

static uint64_t each_line(zc_cord *x) {
    zc_cord line = ZC_EMPTY;
    uint64_t start = 0, end, lengths = 0;
    while (zc_chr(x, start, '\n', &end) == ZC_OK && end != ZC_NOT_FOUND) {
        if (zc_substr(x, start, end - start, &line) != ZC_OK) return 0;
        lengths += zc_len(&line);
        start = end + 1;
    }
    zc_free(&line);
    return lengths;
}

static uint64_t back(zc_cord *x) {
    static zc_chunks chunks = ZC_CHUNKS_EMPTY;
    uint64_t lengths = 0;
    if (zc_chunks_set(x, ZC_MAX_LEN, &chunks) != ZC_OK) return 0;
    while (zc_chunks_prev(&chunks) != 0) lengths += chunks.count;
    zc_chunks_free(&chunks);
    return lengths;
}

int main(int count, char **words) {
    zc_cord all = ZC_EMPTY, leaf = ZC_EMPTY;
    char line[LINE];
    if (count != 3) return 2;
    uint64_t leaves = strtoull(words[2], NULL, 10), answer = 0;
    memset(line, 'x', LINE - 1);
    line[LINE - 1] = '\n';
    for (uint64_t i = 0; i < leaves; i++)
        if (zc_from_bytes(line, LINE, &leaf) != ZC_OK || zc_append(&all, &leaf) != ZC_OK) return 1;
    if (zc_balance(&all, &all) != ZC_OK) return 1;
    if (strcmp(words[1], "count") == 0) answer = zc_count(&all, '\n');
    if (strcmp(words[1], "last_line") == 0) answer = last_line(&all, leaves);
    if (strcmp(words[1], "each_line") == 0) answer = each_line(&all);
    if (strcmp(words[1], "back") == 0) answer = back(&all);
    if (strcmp(words[1], "hash") == 0) answer = zc_hash(&all);
    printf("%llu\n", (unsigned long long)answer);
    zc_free(&all);
    zc_free(&leaf);
    return 0;
}
