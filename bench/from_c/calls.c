/* Times the calls of main.txt through the header: calls N. What is put goes to standard output, the times to standard
   error. */
#define _POSIX_C_SOURCE 200809L
#include <inttypes.h>
#include <stdio.h>
#include <stdlib.h>
#include <string.h>
#include <time.h>
#include <zomtsje.h>

static void must(int code) {
    if (code != ZC_OK) {
        fprintf(stderr, "%s\n", zc_message(code));
        exit(1);
    }
}

static double now(void) {
    struct timespec t;
    clock_gettime(CLOCK_MONOTONIC, &t);
    return (double)t.tv_sec * 1e6 + (double)t.tv_nsec / 1e3;
}

static void append(zc_cord *all, uint64_t count) {
    zc_cord longer = ZC_EMPTY;
    char bytes[65];
    memset(bytes, 'a', sizeof bytes);
    for (uint64_t i = 0; i < count; i++) {
        must(zc_cat_bytes(all, bytes, sizeof bytes, &longer));
        zc_cord old = *all;
        *all = longer, longer = old; /* the two handles change places */
    }
    zc_free(&longer);
}

static void gather(zc_cord *all, uint64_t count) {
    zc_ext grown = ZC_EXT_EMPTY;
    for (uint64_t i = 0; i < count; i++) must(zc_ext_char(&grown, 'g'));
    must(zc_ext_to_cord(&grown, all));
    zc_ext_free(&grown);
}

static uint64_t cut(zc_cord *text, uint64_t count) {
    zc_cord part = ZC_EMPTY;
    uint64_t total = 0;
    for (uint64_t i = 0; i < count; i++) {
        must(zc_substr(text, i % 4096 * 37, 100, &part));
        total += zc_len(&part);
    }
    zc_free(&part);
    return total;
}

static void say(const char *what, double start, uint64_t came) {
    fprintf(stderr, "%s: %.0f us, %" PRIu64 "\n", what, now() - start, came);
}

int main(int words, char **given) {
    uint64_t count = words > 1 ? strtoull(given[1], NULL, 10) : 1, total = 0, found = 0;
    zc_cord text = ZC_EMPTY, grown = ZC_EMPTY;
    double start = now();
    append(&text, count);
    say("append", start, zc_len(&text));
    start = now();
    gather(&grown, count);
    say("gather", start, zc_len(&grown));
    zc_free(&grown);
    start = now();
    total = cut(&text, count);
    say("cut", start, total);
    start = now();
    for (int i = 0; i < 10; i++) {
        uint64_t place = 0;
        must(zc_chr(&text, 0, 'z', &place));
        found += place != ZC_NOT_FOUND;
    }
    say("search", start, found);
    start = now();
    must(zc_put(&text, 1));
    say("put", start, 1);
    zc_free(&text);
    return 0;
}
