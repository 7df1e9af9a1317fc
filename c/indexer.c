/* Finds a word in a log: the place and the text of each line that has it. The log is opened lazily, so it may be
 * greater than the memory.
 *
 *     indexer LOG WORD */
#include <inttypes.h>
#include <stdio.h>
#include <stdlib.h>
#include <string.h>
#include <zomtsje.h>

static zc_files files;
static zc_lazy opened;

static void must(int code) {
    if (code != ZC_OK) {
        fprintf(stderr, "indexer: %s\n", zc_message(code));
        exit(1);
    }
}

/* Where the line that has a place begins, and where it ends. */
static void line_around(uint64_t place, uint64_t *begin, uint64_t *end) {
    must(zc_lazy_rchr(&files, &opened, place, '\n', begin));
    must(zc_lazy_chr(&files, &opened, place, '\n', end));
    *begin = *begin == ZC_NOT_FOUND ? 0 : *begin + 1;
    if (*end == ZC_NOT_FOUND) *end = zc_lazy_len(&opened);
}

int main(int words, char **word) {
    uint64_t place = 0, begin = 0, end = 0, written = 0, lines = 0;
    if (words != 3) {
        fprintf(stderr, "usage: indexer LOG WORD\n");
        return 2;
    }
    must(zc_lazy_from_path(&files, word[1], &opened));
    for (;; lines++) {
        must(zc_lazy_find(&files, &opened, end, word[2], strlen(word[2]), &place));
        if (place == ZC_NOT_FOUND) break;
        line_around(place, &begin, &end);
        printf("%" PRIu64 " ", begin);
        fflush(stdout);
        must(zc_lazy_put_range(&files, &opened, begin, end, 1, &written));
        printf("\n");
    }
    printf("%" PRIu64 " lines\n", lines);
    zc_lazy_free(&opened);
    zc_files_free(&files);
    return 0;
}
