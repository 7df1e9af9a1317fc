/* Tests of the library through its header, by rows as testing.h says. Those of descriptors are in files_test.c. */
#define _POSIX_C_SOURCE 200809L
#include "testing.h"
#include <string.h>
#include <sys/stat.h>
#include <unistd.h>

static void expect_text(zc_cord *x, const char *bytes, size_t count, int line) {
    char *copy = malloc(count + 1);
    if (copy == NULL && may_want) copy = malloc(count + 1);
    expect(copy != NULL, "memory for a copy", line);
    expect(zc_len(x) == count, "the length", line);
    DO(zc_to_bytes(x, 0, copy, count));
    expect(memcmp(copy, bytes, count) == 0, "the bytes", line);
    for (size_t i = 0; i < count; i++) {
        unsigned char byte = 0;
        expect(zc_fetch(x, i, &byte) == ZC_OK && byte == (unsigned char)bytes[i], "a byte", line);
    }
    free(copy);
}
#define EXPECT_TEXT(x, text) expect_text((x), (text), sizeof(text) - 1, __LINE__)

static uint64_t byte_place(zc_cord *x, uint64_t start, char byte) {
    uint64_t place = 12345;
    DO(zc_chr(x, start, (unsigned char)byte, &place));
    return place;
}

static uint64_t last_byte_place(zc_cord *x, uint64_t end, char byte) {
    uint64_t place = 12345;
    DO(zc_rchr(x, end, (unsigned char)byte, &place));
    return place;
}

static uint64_t place_of(zc_cord *x, uint64_t start, zc_cord *y) {
    uint64_t place = 12345;
    DO(zc_str(x, start, y, &place));
    return place;
}

static uint64_t place_before(zc_cord *x, uint64_t start, uint64_t end, zc_cord *y) {
    uint64_t place = 12345;
    DO(zc_str_in(x, start, end, y, &place));
    return place;
}

static uint64_t last_place_of(zc_cord *x, uint64_t end, zc_cord *y) {
    uint64_t place = 12345;
    DO(zc_rstr(x, end, y, &place));
    return place;
}

static uint64_t last_place_of_bytes(zc_cord *x, uint64_t end, const char *bytes) {
    uint64_t place = 12345;
    DO(zc_rfind(x, end, bytes, strlen(bytes), &place));
    return place;
}

static uint64_t place_of_bytes(zc_cord *x, uint64_t start, const char *bytes) {
    uint64_t place = 12345;
    DO(zc_find(x, start, bytes, strlen(bytes), &place));
    return place;
}

static uint64_t place_of_bytes_before(zc_cord *x, uint64_t start, uint64_t end, const char *bytes) {
    uint64_t place = 12345;
    DO(zc_find_in(x, start, end, bytes, strlen(bytes), &place));
    return place;
}

static int32_t order_of(zc_cord *x, zc_cord *y) {
    int32_t order = 12345;
    DO(zc_cmp(x, y, &order));
    return order;
}

static void makes(void) {
    zc_cord a = ZC_EMPTY, b = ZC_EMPTY, c = ZC_EMPTY;
    EXPECT_TEXT(&a, "");
    EXPECT(zc_depth(&a) == 0);
    DO(zc_from_bytes("", 0, &a));
    EXPECT_TEXT(&a, "");
    DO(zc_from_bytes(NULL, 0, &a));
    EXPECT_TEXT(&a, "");
    DO(zc_from_bytes("a\0b", 3, &a));
    EXPECT_TEXT(&a, "a\0b");
    DO(zc_chars('x', 5, &b));
    EXPECT_TEXT(&b, "xxxxx");
    DO(zc_chars('x', 0, &c));
    EXPECT_TEXT(&c, "");
    DO(zc_cat(&a, &b, &c));
    EXPECT_TEXT(&c, "a\0bxxxxx");
    DO(zc_cat(&b, &c, &a)); /* the old text of a goes */
    EXPECT_TEXT(&a, "xxxxxa\0bxxxxx");
    EXPECT_TEXT(&b, "xxxxx");
    EXPECT_TEXT(&c, "a\0bxxxxx");
    DO(zc_cat_bytes(&b, "yz", 2, &a));
    EXPECT_TEXT(&a, "xxxxxyz");
    DO(zc_cat_bytes(&b, NULL, 0, &a));
    EXPECT_TEXT(&a, "xxxxx");
    DO(zc_cat_char(&b, 0, &a));
    EXPECT_TEXT(&a, "xxxxx\0");
    DO(zc_cat_char(&b, 255, &a));
    EXPECT_TEXT(&a, "xxxxx\377");
    DO(zc_share(&a, &c));
    zc_free(&a);
    EXPECT_TEXT(&c, "xxxxx\377");
    EXPECT_TEXT(&a, "");
    zc_free(&a);
    zc_free(&b);
    zc_free(&c);
}

static void joins(void) {
    zc_cord parts[3] = {ZC_EMPTY, ZC_EMPTY, ZC_EMPTY}, out = ZC_EMPTY;
    DO(zc_catn(parts, 3, &out));
    EXPECT_TEXT(&out, "");
    DO(zc_from_bytes("one ", 4, &parts[0]));
    DO(zc_from_bytes("two ", 4, &parts[1]));
    DO(zc_chars('3', 3, &parts[2]));
    DO(zc_catn(parts, 3, &out));
    EXPECT_TEXT(&out, "one two 333");
    DO(zc_catn(parts + 1, 2, &out));
    EXPECT_TEXT(&out, "two 333");
    DO(zc_catn(parts, 1, &out));
    EXPECT_TEXT(&out, "one ");
    EXPECT_TEXT(&parts[1], "two ");
    EXPECT_TEXT(&parts[2], "333");
    zc_free(&parts[1]);
    DO(zc_catn(parts, 3, &out));
    EXPECT_TEXT(&out, "one 333");
    DO(zc_chars('m', ZC_MAX_LEN, &parts[1]));
    EXPECT(zc_catn(parts, 3, &out) == ZC_TOO_LONG || may_want);
    EXPECT_TEXT(&out, "one 333");
    DO(zc_catn(NULL, 0, &out));
    EXPECT_TEXT(&out, "");
    for (int i = 0; i < 3; i++) zc_free(&parts[i]);
    zc_free(&out);
}

static uint64_t format_at;

static int format(const char *text, zc_arg *args, size_t count, zc_cord *out) {
    format_at = 77;
    return zc_sprintf(text, strlen(text), args, count, out, &format_at);
}

static void formats(void) {
    zc_arg args[3] = {ZC_TEXT, ZC_NUMBER(-7), ZC_NUMBER(65)}, one = ZC_NUMBER(255);
    zc_cord out = ZC_EMPTY;
    DO(format("no argument", NULL, 0, &out));
    EXPECT_TEXT(&out, "no argument");
    DO(format("%%", args, 0, &out));
    EXPECT_TEXT(&out, "%");
    DO(format("[%s]|%03d|%c\n", args, 3, &out));
    EXPECT_TEXT(&out, "[]|-07|A\n");
    DO(zc_from_bytes("he\0lo", 5, &args[0].text));
    DO(format("%-8s|%+d|%c", args, 3, &out));
    EXPECT_TEXT(&out, "he\0lo   |-7|A");
    DO(format("%7.4s|%.3ld|%3c", args, 3, &out));
    EXPECT_TEXT(&out, "   he\0l|-007|  A");
    EXPECT_TEXT(&args[0].text, "he\0lo");
    DO(format("%x", &one, 1, &out));
    EXPECT_TEXT(&out, "ff");
    DO(format("%08o", &one, 1, &out));
    EXPECT_TEXT(&out, "00000377");
    one.number = INT64_MIN;
    DO(format("%d", &one, 1, &out));
    EXPECT_TEXT(&out, "-9223372036854775808");
    zc_free(&args[0].text);
    zc_free(&out);
}

/* Each is refused and leaves the result as it was; where memory is wanted, that may be said first. */
static void formats_refused(void) {
    zc_arg args[2] = {ZC_TEXT, ZC_NUMBER(-1)}, many[2] = {ZC_TEXT, ZC_TEXT};
    zc_cord out = ZC_EMPTY;
    DO(zc_from_bytes("old", 3, &out));
    if (!may_want) {
        EXPECT(format("%", args, 0, &out) == ZC_BAD_FORMAT && format_at == 0);
        EXPECT(format("ab%f", args + 1, 1, &out) == ZC_BAD_FORMAT && format_at == 2);
        EXPECT(format("%d %%%+s", args, 1, &out) == ZC_BAD_FORMAT && format_at == 5);
        EXPECT(format("%s", args, 0, &out) == ZC_WRONG_ARGUMENTS && format_at == 77);
        EXPECT(format("%s", args, 2, &out) == ZC_WRONG_ARGUMENTS && format_at == 77);
        EXPECT(format("%d", args, 1, &out) == ZC_WRONG_ARGUMENTS && format_at == 77);
        EXPECT(format("%s", args + 1, 1, &out) == ZC_WRONG_ARGUMENTS && format_at == 77);
        EXPECT(format("%u", args + 1, 1, &out) == ZC_BAD_VALUE && format_at == 0);
        EXPECT(format("%s%c", args, 2, &out) == ZC_BAD_VALUE && format_at == 1);
        args[1].number = 256;
        EXPECT(format("%s%c", args, 2, &out) == ZC_BAD_VALUE && format_at == 1);
    }
    DO(zc_chars('m', ZC_MAX_LEN, &many[0].text));
    DO(zc_chars('m', 1, &many[1].text));
    EXPECT(format("%s%s", many, 2, &out) == ZC_TOO_LONG || may_want);
    EXPECT_TEXT(&out, "old");
    zc_free(&many[0].text);
    zc_free(&many[1].text);
    zc_free(&out);
}

static void cuts(void) {
    zc_cord a = ZC_EMPTY, b = ZC_EMPTY, c = ZC_EMPTY;
    DO(zc_from_bytes("the quick brown fox", 19, &a));
    DO(zc_substr(&a, 4, 5, &b));
    EXPECT_TEXT(&b, "quick");
    DO(zc_substr(&a, 16, 100, &b));
    EXPECT_TEXT(&b, "fox");
    DO(zc_substr(&a, 19, 1, &b));
    EXPECT_TEXT(&b, "");
    DO(zc_substr(&a, UINT64_MAX, UINT64_MAX, &b));
    EXPECT_TEXT(&b, "");
    DO(zc_from_bytes("very ", 5, &b));
    DO(zc_insert(&a, 4, &b, &c));
    EXPECT_TEXT(&c, "the very quick brown fox");
    DO(zc_insert(&a, 99, &b, &c));
    EXPECT_TEXT(&c, "the quick brown foxvery ");
    DO(zc_remove(&a, 3, 6, &c));
    EXPECT_TEXT(&c, "the brown fox");
    DO(zc_remove(&a, 3, UINT64_MAX, &c));
    EXPECT_TEXT(&c, "the");
    DO(zc_remove(&a, 19, 1, &c));
    EXPECT_TEXT(&c, "the quick brown fox");
    DO(zc_replace(&a, 4, 5, &b, &c));
    EXPECT_TEXT(&c, "the very  brown fox");
    DO(zc_replace(&a, 99, UINT64_MAX, &b, &c));
    EXPECT_TEXT(&c, "the quick brown foxvery ");
    zc_free(&a);
    zc_free(&b);
    zc_free(&c);
}

/* Cords that change in place, and repeats. */
static void changes(void) {
    zc_cord a = ZC_EMPTY, b = ZC_EMPTY, most = ZC_EMPTY;
    DO(zc_from_bytes("ab", 2, &a));
    DO(zc_append(&b, &a));
    EXPECT_TEXT(&b, "ab");
    DO(zc_append(&b, &a));
    DO(zc_append(&b, &b));
    EXPECT_TEXT(&b, "abababab");
    DO(zc_splice(&b, 1, 5, &a));
    EXPECT_TEXT(&b, "aabab");
    DO(zc_splice(&b, 99, UINT64_MAX, &a));
    EXPECT_TEXT(&b, "aababab");
    DO(zc_splice(&b, 0, 5, &b));
    EXPECT_TEXT(&b, "aabababab");
    DO(zc_repeat(&a, 3, &b));
    EXPECT_TEXT(&b, "ababab");
    DO(zc_repeat(&b, 0, &b));
    EXPECT_TEXT(&b, "");
    DO(zc_repeat(&a, ZC_MAX_LEN / 2, &most));
    EXPECT(zc_len(&most) == ZC_MAX_LEN - 1);
    EXPECT(zc_append(&most, &a) == ZC_TOO_LONG || may_want);
    EXPECT(zc_splice(&most, 5, 0, &a) == ZC_TOO_LONG || may_want);
    EXPECT(zc_repeat(&most, 2, &a) == ZC_TOO_LONG || may_want);
    EXPECT(zc_len(&most) == ZC_MAX_LEN - 1);
    EXPECT_TEXT(&a, "ab");
    zc_free(&a);
    zc_free(&b);
    zc_free(&most);
}

static int32_t is_equal(zc_cord *x, zc_cord *y) {
    int32_t equal = 12345;
    DO(zc_equal(x, y, &equal));
    return equal;
}

/* Beginnings and ends, and cords that are equal. */
static void beginnings(void) {
    zc_cord a = ZC_EMPTY, b = ZC_EMPTY;
    EXPECT(is_equal(&a, &b) == 1 && zc_starts_with(&a, NULL, 0) == 1 && zc_ends_with(&a, NULL, 0) == 1);
    EXPECT(zc_starts_with(&a, "a", 1) == 0 && zc_ends_with(&a, "a", 1) == 0);
    DO(zc_from_bytes("a\0bc", 4, &a));
    EXPECT(zc_starts_with(&a, "a\0b", 3) == 1 && zc_starts_with(&a, "a\0c", 3) == 0 && zc_starts_with(&a, "b", 1) == 0);
    EXPECT(zc_ends_with(&a, "\0bc", 3) == 1 && zc_ends_with(&a, "a", 1) == 0 && zc_ends_with(&a, "a\0bc", 4) == 1);
    EXPECT(zc_starts_with(&a, "a\0bcd", 5) == 0 && zc_ends_with(&a, "xa\0bc", 5) == 0);
    EXPECT(is_equal(&a, &b) == 0 && is_equal(&b, &a) == 0 && is_equal(&a, &a) == 1);
    DO(zc_from_bytes("a\0b", 3, &b));
    EXPECT(is_equal(&a, &b) == 0);
    DO(zc_cat_char(&b, 'c', &b));
    EXPECT(is_equal(&a, &b) == 1);
    zc_free(&a);
    zc_free(&b);
}

static void lines(void) {
    zc_cord a = ZC_EMPTY, line = ZC_EMPTY;
    DO(zc_from_bytes("one\n\nthree", 10, &a));
    DO(zc_nth_line(&a, 0, &line));
    EXPECT_TEXT(&line, "one");
    DO(zc_nth_line(&a, 1, &line));
    EXPECT_TEXT(&line, "");
    DO(zc_nth_line(&a, 2, &line));
    EXPECT_TEXT(&line, "three");
    if (!may_want) {
        EXPECT(zc_nth_line(&a, 3, &line) == ZC_PAST_END);
        EXPECT(zc_nth_line(&a, UINT64_MAX, &line) == ZC_PAST_END);
    }
    EXPECT_TEXT(&line, "three");
    zc_free(&a);
    EXPECT(zc_nth_line(&a, 0, &line) == ZC_PAST_END);
    zc_free(&line);
}

static void limits(void) {
    zc_cord most = ZC_EMPTY, one = ZC_EMPTY, out = ZC_EMPTY;
    unsigned char byte = 7;
    DO(zc_chars('m', ZC_MAX_LEN, &most));
    DO(zc_from_bytes("1", 1, &one));
    DO(zc_from_bytes("old", 3, &out));
    EXPECT(zc_len(&most) == ZC_MAX_LEN);
    EXPECT(zc_chars('m', ZC_MAX_LEN + 1, &out) == ZC_TOO_LONG);
    EXPECT(zc_cat(&most, &one, &out) == ZC_TOO_LONG);
    EXPECT(zc_cat_char(&most, 'x', &out) == ZC_TOO_LONG || may_want);
    EXPECT(zc_insert(&most, 5, &one, &out) == ZC_TOO_LONG || may_want);
    EXPECT_TEXT(&out, "old");
    EXPECT(zc_fetch(&most, ZC_MAX_LEN, &byte) == ZC_PAST_END);
    EXPECT(byte == 7);
    EXPECT(zc_fetch(&most, ZC_MAX_LEN - 1, &byte) == ZC_OK);
    EXPECT(byte == 'm');
    zc_free(&most);
    zc_free(&one);
    zc_free(&out);
}

static void trees(void) {
    zc_cord grown = ZC_EMPTY, longer = ZC_EMPTY, flat = ZC_EMPTY;
    for (int i = 0; i < 3000; i++) {
        unsigned char byte;
        DO(zc_cat_char(&grown, (unsigned char)i, &longer));
        EXPECT(zc_depth(&longer) <= ZC_MAX_DEPTH);
        zc_cord kept = grown;
        grown = longer, longer = kept; /* the two handles change places */
        EXPECT(zc_fetch(&grown, (uint64_t)i, &byte) == ZC_OK);
        EXPECT(byte == (unsigned char)i);
    }
    EXPECT(zc_len(&grown) == 3000);
    DO(zc_balance(&grown, &flat));
    EXPECT(zc_depth(&flat) <= 18);
    EXPECT(order_of(&grown, &flat) == 0);
    zc_free(&grown);
    zc_free(&longer);
    zc_free(&flat);
}

/* The last place among many, near the end or far from it, and over seams of parts. */
static void searches_from_the_back(void) {
    zc_cord word = ZC_EMPTY, many = ZC_EMPTY, run = ZC_EMPTY, both = ZC_EMPTY, long_run = ZC_EMPTY;
    DO(zc_from_bytes("one two ", 8, &word));
    DO(zc_repeat(&word, 100000, &many));
    DO(zc_chars('x', UINT64_C(1) << 39, &run));
    DO(zc_cat(&many, &run, &both));
    EXPECT(last_place_of(&many, 800000, &word) == 799992);
    EXPECT(last_place_of(&many, 799999, &word) == 799984);
    EXPECT(last_place_of_bytes(&many, 799999, "o one t") == 799990);
    EXPECT(last_place_of(&many, 7, &word) == ZC_NOT_FOUND);
    EXPECT(last_place_of_bytes(&both, UINT64_MAX, "two x") == 799996);
    EXPECT(last_place_of_bytes(&both, 800000, "two x") == ZC_NOT_FOUND);
    EXPECT(last_place_of_bytes(&run, 5000, "xx") == 4998);
    EXPECT(last_place_of_bytes(&both, UINT64_MAX, "xo") == ZC_NOT_FOUND);
    DO(zc_chars('x', 20000, &long_run));
    EXPECT(last_place_of(&both, 900000, &long_run) == 880000);
    EXPECT(last_place_of(&both, 819999, &long_run) == ZC_NOT_FOUND);
    EXPECT(place_before(&both, 0, 819999, &long_run) == ZC_NOT_FOUND);
    EXPECT(place_before(&both, 0, 820000, &long_run) == 800000);
    zc_free(&word);
    zc_free(&many);
    zc_free(&run);
    zc_free(&both);
    zc_free(&long_run);
}

static void searches(void) {
    zc_cord a = ZC_EMPTY, b = ZC_EMPTY;
    DO(zc_from_bytes("abcabcabd", 9, &a));
    EXPECT(byte_place(&a, 0, 'c') == 2);
    EXPECT(byte_place(&a, 3, 'c') == 5);
    EXPECT(byte_place(&a, 6, 'c') == ZC_NOT_FOUND);
    EXPECT(byte_place(&a, 99, 'c') == ZC_NOT_FOUND);
    EXPECT(last_byte_place(&a, 9, 'c') == 5);
    EXPECT(last_byte_place(&a, 5, 'c') == 2);
    EXPECT(last_byte_place(&a, 2, 'c') == ZC_NOT_FOUND);
    EXPECT(last_byte_place(&a, UINT64_MAX, 'd') == 8);
    EXPECT(place_of(&a, 0, &b) == 0);
    EXPECT(place_of(&a, 9, &b) == 9);
    EXPECT(place_of(&a, 10, &b) == ZC_NOT_FOUND);
    EXPECT(place_before(&a, 4, 4, &b) == 4);
    EXPECT(place_before(&a, 5, 4, &b) == ZC_NOT_FOUND);
    EXPECT(last_place_of(&a, 4, &b) == 4);
    EXPECT(last_place_of(&a, UINT64_MAX, &b) == 9);
    DO(zc_from_bytes("abd", 3, &b));
    EXPECT(place_of(&a, 0, &b) == 6);
    EXPECT(place_of(&a, 7, &b) == ZC_NOT_FOUND);
    EXPECT(place_before(&a, 0, 9, &b) == 6);
    EXPECT(place_before(&a, 0, 8, &b) == ZC_NOT_FOUND);
    EXPECT(place_before(&a, 6, UINT64_MAX, &b) == 6);
    EXPECT(place_of_bytes_before(&a, 0, 9, "abd") == 6 && place_of_bytes_before(&a, 0, 8, "abd") == ZC_NOT_FOUND);
    EXPECT(place_of_bytes_before(&a, 1, UINT64_MAX, "abc") == 3 && place_of_bytes_before(&a, 4, 4, "") == 4);
    EXPECT(place_of_bytes_before(&a, 5, 4, "") == ZC_NOT_FOUND && place_of_bytes_before(&a, 3, 5, "abc") == ZC_NOT_FOUND);
    EXPECT(last_place_of(&a, 9, &b) == 6);
    EXPECT(last_place_of(&a, 8, &b) == ZC_NOT_FOUND);
    EXPECT(last_place_of_bytes(&a, 9, "abc") == 3);
    EXPECT(last_place_of_bytes(&a, 5, "abc") == 0);
    EXPECT(last_place_of_bytes(&a, 2, "abc") == ZC_NOT_FOUND);
    EXPECT(last_place_of_bytes(&a, 9, "abcabcabdx") == ZC_NOT_FOUND);
    EXPECT(last_place_of_bytes(&a, 9, "") == 9);
    searches_from_the_back();
    EXPECT(place_of_bytes(&a, 0, "abd") == 6);
    EXPECT(place_of_bytes(&a, 2, "bca") == 4);
    EXPECT(place_of_bytes(&a, 7, "abd") == ZC_NOT_FOUND);
    EXPECT(place_of_bytes(&a, 9, "") == 9);
    EXPECT(place_of_bytes(&a, 10, "") == ZC_NOT_FOUND);
    EXPECT(order_of(&a, &b) == -1);
    EXPECT(order_of(&b, &a) == 1);
    DO(zc_from_bytes("abcabcabdx", 10, &b));
    EXPECT(order_of(&a, &b) == -1);
    EXPECT(order_of(&b, &a) == 1);
    zc_free(&a);
    zc_free(&b);
    EXPECT(order_of(&a, &b) == 0);
}

static int32_t order_within(zc_cord *x, uint64_t i, zc_cord *y, uint64_t j, uint64_t count) {
    int32_t order = 12345;
    DO(zc_ncmp(x, i, y, j, count, &order));
    return order;
}

static void parts_in_order(void) {
    zc_cord a = ZC_EMPTY, b = ZC_EMPTY;
    DO(zc_from_bytes("abcabd", 6, &a));
    DO(zc_share(&a, &b));
    EXPECT(order_within(&a, 0, &b, 3, 2) == 0);
    EXPECT(order_within(&a, 0, &b, 3, 3) == -1);
    EXPECT(order_within(&a, 3, &b, 0, 3) == 1);
    EXPECT(order_within(&a, 3, &b, 0, UINT64_MAX) == 1);
    EXPECT(order_within(&a, 6, &b, 0, 1) == -1);
    EXPECT(order_within(&a, 6, &b, UINT64_MAX, 9) == 0);
    EXPECT(order_within(&a, 0, &b, 5, 0) == 0);
    EXPECT(zc_count(&a, 'a') == 2);
    EXPECT(zc_count(&a, 'c') == 1);
    EXPECT(zc_count(&a, 'x') == 0);
    DO(zc_chars('x', ZC_MAX_LEN, &a));
    EXPECT(zc_count(&a, 'x') == ZC_MAX_LEN);
    zc_free(&a);
    EXPECT(zc_count(&a, 'x') == 0);
    zc_free(&b);
}

/* A run beside a leaf, which are compared by pieces that grow: the first difference decides, wherever it lies. */
static void compares_long_parts(void) {
    static const size_t places[] = {0, 511, 512, 1023, 2047, 2048, 32767, 32768, 65535, 65536, 69999};
    static unsigned char bytes[70000];
    zc_cord run = ZC_EMPTY, leaf = ZC_EMPTY;
    int32_t order = 7;
    memset(bytes, 'a', sizeof bytes);
    DO(zc_chars('a', sizeof bytes, &run));
    DO(zc_from_bytes(bytes, sizeof bytes, &leaf));
    DO(zc_cmp(&run, &leaf, &order));
    EXPECT(order == 0);
    for (size_t it = 0; it < sizeof places / sizeof *places; it++) {
        bytes[places[it]] = 'b';
        DO(zc_from_bytes(bytes, sizeof bytes, &leaf));
        bytes[places[it]] = 'a';
        DO(zc_cmp(&run, &leaf, &order));
        EXPECT(order == -1);
        DO(zc_cmp(&leaf, &run, &order));
        EXPECT(order == 1);
        DO(zc_ncmp(&run, 0, &leaf, 0, places[it], &order));
        EXPECT(order == 0);
    }
    zc_free(&run);
    zc_free(&leaf);
}

/* The hashes of "", "a" and "foobar" are those that the inventors of FNV-1a list. */
static void hashes(void) {
    zc_cord a = ZC_EMPTY, b = ZC_EMPTY;
    EXPECT(zc_hash(&a) == UINT64_C(0xcbf29ce484222325) && zc_hash(NULL) == zc_hash(&a));
    DO(zc_from_bytes("a", 1, &a));
    EXPECT(zc_hash(&a) == UINT64_C(0xaf63dc4c8601ec8c));
    DO(zc_from_bytes("f", 1, &a));
    DO(zc_chars('o', 2, &b));
    DO(zc_append(&a, &b));
    DO(zc_cat_bytes(&a, "bar", 3, &a));
    EXPECT(zc_hash(&a) == UINT64_C(0x85944171f73967e8));
    zc_free(&a);
    zc_free(&b);
}

/* The last line is found after leaves without an end of a line, and after ends without a line. */
static void lines_in_many_leaves(void) {
    zc_cord a = ZC_EMPTY, part = ZC_EMPTY, line = ZC_EMPTY;
    DO(zc_chars('-', 100, &part));
    for (int i = 0; i < 300; i++) {
        DO(zc_append(&a, &part));
        DO(zc_cat_bytes(&a, i % 3 == 2 ? "\nx" : "yz", 2, &a));
    }
    DO(zc_nth_line(&a, 0, &line));
    EXPECT(zc_len(&line) == 304);
    DO(zc_nth_line(&a, 99, &line));
    EXPECT(zc_len(&line) == 305);
    DO(zc_nth_line(&a, 100, &line));
    EXPECT_TEXT(&line, "x");
    EXPECT(zc_nth_line(&a, 101, &line) == ZC_PAST_END && zc_nth_line(&a, UINT64_MAX, &line) == ZC_PAST_END);
    DO(zc_chars('\n', ZC_MAX_LEN, &a));
    DO(zc_nth_line(&a, ZC_MAX_LEN - 1, &line));
    EXPECT(zc_len(&line) == 0 && zc_nth_line(&a, ZC_MAX_LEN, &line) == ZC_PAST_END);
    zc_free(&a);
    zc_free(&part);
    zc_free(&line);
}

static void reads(void) {
    zc_cord a = ZC_EMPTY;
    char bytes[5] = "....";
    size_t got = 9;
    DO(zc_from_bytes("abcdef", 6, &a));
    DO(zc_read(&a, 1, bytes, 3, &got));
    EXPECT(got == 3 && memcmp(bytes, "bcd.", 5) == 0);
    DO(zc_read(&a, 4, bytes, 4, &got));
    EXPECT(got == 2 && memcmp(bytes, "efd.", 5) == 0);
    DO(zc_read(&a, 6, bytes, 4, &got));
    EXPECT(got == 0 && memcmp(bytes, "efd.", 5) == 0);
    DO(zc_read(&a, UINT64_MAX, bytes, 4, &got));
    EXPECT(got == 0);
    DO(zc_read(&a, 2, NULL, 0, &got));
    EXPECT(got == 0);
    zc_free(&a);
}

static void copies(void) {
    zc_cord a = ZC_EMPTY;
    char bytes[4] = "...";
    DO(zc_from_bytes("abcdef", 6, &a));
    DO(zc_to_bytes(&a, 2, bytes, 3));
    EXPECT(memcmp(bytes, "cde", 4) == 0);
    DO(zc_to_bytes(&a, 3, bytes, 3));
    EXPECT(memcmp(bytes, "def", 4) == 0);
    if (!may_want) {
        EXPECT(zc_to_bytes(&a, 4, bytes, 3) == ZC_PAST_END);
        EXPECT(zc_to_bytes(&a, UINT64_MAX, bytes, 3) == ZC_PAST_END);
    }
    EXPECT(memcmp(bytes, "def", 4) == 0);
    DO(zc_to_bytes(&a, 99, NULL, 0));
    zc_free(&a);
}

static void nulls_of_others(zc_cord *a) {
    zc_cord *volatile none = NULL;
    unsigned char byte = 7;
    size_t *volatile no_number = NULL, got = 7;
    int32_t *volatile no_order = NULL, order = 7;
    zc_cord b = ZC_EMPTY;
    EXPECT(zc_nth_line(none, 0, &b) == ZC_NULL);
    EXPECT(zc_nth_line(a, 0, none) == ZC_NULL);
    EXPECT(zc_ncmp(none, 0, a, 0, 1, &order) == ZC_NULL);
    EXPECT(zc_ncmp(a, 0, none, 0, 1, &order) == ZC_NULL);
    EXPECT(zc_ncmp(a, 0, &b, 0, 1, no_order) == ZC_NULL);
    EXPECT(zc_count(none, 'a') == 0);
    EXPECT(zc_read(none, 0, &byte, 1, &got) == ZC_NULL);
    EXPECT(zc_read(a, 0, &byte, 1, no_number) == ZC_NULL);
    EXPECT(byte == 7 && got == 7 && order == 7);
    EXPECT(zc_len(&b) == 0);
}

/* The pointers are volatile, so that this compiler knows nothing of them. */
static void nulls(void) {
    zc_cord *volatile none = NULL;
    unsigned char *volatile no_byte = NULL, byte = 7;
    uint64_t *volatile no_place = NULL, place = 7;
    int32_t *volatile no_order = NULL, order = 7;
    zc_cord a = ZC_EMPTY, b = ZC_EMPTY, c = ZC_EMPTY;
    DO(zc_from_bytes("abc", 3, &a));
    EXPECT(zc_from_bytes("abc", 3, none) == ZC_NULL);
    EXPECT(zc_chars('a', 3, none) == ZC_NULL);
    EXPECT(zc_cat(none, &a, &b) == ZC_NULL);
    EXPECT(zc_cat(&a, none, &b) == ZC_NULL);
    EXPECT(zc_cat(&a, &c, none) == ZC_NULL);
    EXPECT(zc_cat_bytes(none, "abc", 3, &b) == ZC_NULL);
    EXPECT(zc_cat_bytes(&a, "abc", 3, none) == ZC_NULL);
    EXPECT(zc_cat_char(none, 'a', &b) == ZC_NULL);
    EXPECT(zc_cat_char(&a, 'a', none) == ZC_NULL);
    EXPECT(zc_substr(none, 0, 1, &b) == ZC_NULL);
    EXPECT(zc_substr(&a, 0, 1, none) == ZC_NULL);
    EXPECT(zc_insert(none, 0, &a, &b) == ZC_NULL);
    EXPECT(zc_insert(&a, 0, none, &b) == ZC_NULL);
    EXPECT(zc_insert(&a, 0, &c, none) == ZC_NULL);
    EXPECT(zc_remove(none, 0, 1, &b) == ZC_NULL);
    EXPECT(zc_remove(&a, 0, 1, none) == ZC_NULL);
    EXPECT(zc_replace(none, 0, 1, &a, &b) == ZC_NULL);
    EXPECT(zc_replace(&a, 0, 1, none, &b) == ZC_NULL);
    EXPECT(zc_replace(&a, 0, 1, &c, none) == ZC_NULL);
    EXPECT(zc_balance(none, &b) == ZC_NULL);
    EXPECT(zc_balance(&a, none) == ZC_NULL);
    EXPECT(zc_share(none, &b) == ZC_NULL);
    EXPECT(zc_share(&a, none) == ZC_NULL);
    EXPECT(zc_fetch(none, 0, &byte) == ZC_NULL);
    EXPECT(zc_fetch(&a, 0, no_byte) == ZC_NULL);
    EXPECT(zc_to_bytes(none, 0, &b, 0) == ZC_NULL);
    EXPECT(zc_len(none) == 0);
    EXPECT(zc_depth(none) == 0);
    EXPECT(zc_chr(none, 0, 'a', &place) == ZC_NULL && zc_chr(&a, 0, 'a', no_place) == ZC_NULL);
    EXPECT(zc_rchr(none, 9, 'a', &place) == ZC_NULL && zc_rchr(&a, 9, 'a', no_place) == ZC_NULL);
    EXPECT(zc_starts_with(none, "a", 1) == 0 && zc_ends_with(none, "a", 1) == 0);
    EXPECT(zc_equal(none, &a, &order) == ZC_NULL && zc_equal(&a, none, &order) == ZC_NULL);
    EXPECT(zc_equal(&a, &b, no_order) == ZC_NULL);
    EXPECT(zc_append(none, &a) == ZC_NULL && zc_append(&a, none) == ZC_NULL);
    EXPECT(zc_splice(none, 0, 0, &a) == ZC_NULL && zc_splice(&a, 0, 0, none) == ZC_NULL);
    EXPECT(zc_repeat(none, 2, &b) == ZC_NULL && zc_repeat(&a, 2, none) == ZC_NULL);
    EXPECT(zc_str(none, 0, &a, &place) == ZC_NULL);
    EXPECT(zc_str(&a, 0, none, &place) == ZC_NULL);
    EXPECT(zc_str(&a, 0, &b, no_place) == ZC_NULL);
    EXPECT(zc_str_in(none, 0, 9, &a, &place) == ZC_NULL && zc_str_in(&a, 0, 9, none, &place) == ZC_NULL);
    EXPECT(zc_str_in(&a, 0, 9, &b, no_place) == ZC_NULL && zc_rstr(&a, 9, &b, no_place) == ZC_NULL);
    EXPECT(zc_rstr(none, 9, &a, &place) == ZC_NULL && zc_rstr(&a, 9, none, &place) == ZC_NULL);
    EXPECT(zc_rfind(none, 9, "a", 1, &place) == ZC_NULL && zc_rfind(&a, 9, "a", 1, no_place) == ZC_NULL);
    EXPECT(zc_find(none, 0, "a", 1, &place) == ZC_NULL);
    EXPECT(zc_find(&a, 0, "a", 1, no_place) == ZC_NULL);
    EXPECT(zc_find_in(none, 0, 9, "a", 1, &place) == ZC_NULL && zc_find_in(&a, 0, 9, "a", 1, no_place) == ZC_NULL);
    EXPECT(zc_cmp(none, &a, &order) == ZC_NULL);
    EXPECT(zc_cmp(&a, none, &order) == ZC_NULL);
    EXPECT(zc_cmp(&a, &b, no_order) == ZC_NULL);
    EXPECT(place == 7);
    EXPECT(order == 7);
    zc_free(none);
    nulls_of_others(&a);
    EXPECT(byte == 7);
    EXPECT(zc_len(&b) == 0);
    zc_free(&a);
}

static void grows(void) {
    zc_ext grown = ZC_EXT_EMPTY;
    zc_cord a = ZC_EMPTY, out = ZC_EMPTY;
    EXPECT(zc_ext_len(&grown) == 0);
    DO(zc_ext_to_cord(&grown, &out));
    EXPECT_TEXT(&out, "");
    DO(zc_ext_char(&grown, 'a'));
    DO(zc_ext_bytes(&grown, "bc", 2));
    DO(zc_from_bytes("de", 2, &a));
    DO(zc_ext_cord(&grown, &a));
    EXPECT(zc_ext_len(&grown) == 5);
    DO(zc_ext_to_cord(&grown, &out));
    EXPECT_TEXT(&out, "abcde");
    DO(zc_ext_bytes(&grown, NULL, 0));
    DO(zc_ext_char(&grown, 'f'));
    DO(zc_ext_to_cord(&grown, &a));
    EXPECT_TEXT(&a, "abcdef");
    EXPECT_TEXT(&out, "abcde");
    EXPECT(zc_ext_len(&grown) == 6);
    zc_ext_free(&grown);
    EXPECT(zc_ext_len(&grown) == 0);
    DO(zc_ext_char(&grown, 0));
    DO(zc_ext_to_cord(&grown, &out));
    EXPECT_TEXT(&out, "\0");
    zc_ext_free(&grown);
    zc_ext_free(&grown);
    zc_free(&a);
    zc_free(&out);
}

/* The leaves of an extensible cord have 4,096 bytes: one is no tree, and one byte more is. */
static void grows_by_leaves(void) {
    zc_ext grown = ZC_EXT_EMPTY;
    zc_cord out = ZC_EMPTY;
    char many[5000];
    memset(many, 'm', sizeof many);
    for (int i = 0; i < 4096; i++) DO(zc_ext_char(&grown, (unsigned char)i));
    DO(zc_ext_to_cord(&grown, &out));
    EXPECT(zc_depth(&out) == 0);
    DO(zc_ext_char(&grown, 'z'));
    DO(zc_ext_to_cord(&grown, &out));
    EXPECT(zc_depth(&out) == 1);
    EXPECT(zc_len(&out) == 4097);
    EXPECT(zc_count(&out, 7) == 16);
    EXPECT(byte_place(&out, 4096, 'z') == 4096);
    DO(zc_ext_bytes(&grown, many, 4095));
    EXPECT(zc_ext_len(&grown) == 8192);
    DO(zc_ext_bytes(&grown, many, 5000));
    DO(zc_ext_bytes(&grown, many, 4096));
    DO(zc_ext_bytes(&grown, "e", 1));
    EXPECT(zc_ext_len(&grown) == 17289);
    DO(zc_ext_to_cord(&grown, &out));
    EXPECT(zc_len(&out) == 17289);
    EXPECT(zc_count(&out, 'm') == 13207); /* 4,095 and 5,000 and 4,096, and 16 among the first bytes */
    EXPECT(byte_place(&out, 4097, 'e') == 17288);
    zc_ext_free(&grown);
    zc_free(&out);
}

static void grows_no_longer(void) {
    zc_ext grown = ZC_EXT_EMPTY;
    zc_cord most = ZC_EMPTY, out = ZC_EMPTY;
    DO(zc_chars('m', ZC_MAX_LEN - 1, &most));
    DO(zc_ext_cord(&grown, &most));
    EXPECT(zc_ext_bytes(&grown, "xy", 2) == ZC_TOO_LONG);
    if (!may_want) EXPECT(zc_ext_cord(&grown, &most) == ZC_TOO_LONG);
    DO(zc_ext_char(&grown, 'x'));
    EXPECT(zc_ext_char(&grown, 'y') == ZC_TOO_LONG);
    DO(zc_ext_bytes(&grown, "", 0));
    EXPECT(zc_ext_len(&grown) == ZC_MAX_LEN);
    DO(zc_ext_to_cord(&grown, &out));
    EXPECT(zc_len(&out) == ZC_MAX_LEN);
    EXPECT(last_byte_place(&out, ZC_MAX_LEN, 'x') == ZC_MAX_LEN - 1);
    zc_ext_free(&grown);
    zc_free(&most);
    zc_free(&out);
}

static void expect_edited(zc_edit *edit, const char *bytes, size_t count, int line) {
    zc_cord whole = ZC_EMPTY;
    expect(zc_edit_len(edit) == count, "the length of an edited text", line);
    DO(zc_edit_to_cord(edit, &whole));
    expect_text(&whole, bytes, count, line);
    expect(zc_edit_len(edit) == count, "the length after it", line);
    zc_free(&whole);
}
#define EXPECT_EDITED(edit, text) expect_edited((edit), (text), sizeof(text) - 1, __LINE__)

static void edits(void) {
    zc_edit edit = ZC_EDIT_EMPTY;
    zc_cord a = ZC_EMPTY, b = ZC_EMPTY;
    EXPECT_EDITED(&edit, "");
    zc_edit_free(&edit);
    EXPECT(zc_edit_len(&edit) == 0);
    DO(zc_edit_bytes(&edit, 7, "b\0e", 3));
    DO(zc_edit_bytes(&edit, 2, "cd", 2));
    EXPECT_EDITED(&edit, "b\0cde");
    DO(zc_edit_remove(&edit, 1, 1));
    DO(zc_edit_bytes(&edit, 0, "a", 1));
    DO(zc_edit_bytes(&edit, 3, NULL, 0));
    EXPECT_EDITED(&edit, "abcde");
    DO(zc_edit_remove(&edit, 5, 9));
    DO(zc_edit_remove(&edit, 3, UINT64_MAX));
    EXPECT_EDITED(&edit, "abc");
    DO(zc_from_bytes("xyz", 3, &a));
    DO(zc_edit_cord(&edit, 1, 1, &a));
    DO(zc_edit_cord(&edit, 99, UINT64_MAX, &a));
    EXPECT_EDITED(&edit, "axyzcxyz");
    DO(zc_edit_to_cord(&edit, &b));
    DO(zc_edit_set(&a, &edit));
    DO(zc_edit_bytes(&edit, 2, "!", 1));
    EXPECT_EDITED(&edit, "xy!z");
    EXPECT_TEXT(&a, "xyz");
    EXPECT_TEXT(&b, "axyzcxyz");
    zc_edit_free(&edit);
    EXPECT_EDITED(&edit, "");
    zc_edit_free(&edit);
    zc_edit_free(&edit);
    zc_free(&a);
    zc_free(&b);
}

/* Bytes that are typed one after another are one leaf, up to 4,096 of them. */
static void edits_by_leaves(void) {
    zc_edit edit = ZC_EDIT_EMPTY;
    zc_cord a = ZC_EMPTY, out = ZC_EMPTY;
    DO(zc_chars('m', 10, &a));
    DO(zc_edit_set(&a, &edit));
    for (uint64_t i = 0; i < 4096; i++) DO(zc_edit_bytes(&edit, 5 + i, "t", 1));
    DO(zc_edit_to_cord(&edit, &a));
    EXPECT(zc_len(&a) == 4106 && zc_depth(&a) == 2 && zc_count(&a, 't') == 4096);
    DO(zc_substr(&a, 5, 4096, &out));
    EXPECT(zc_depth(&out) == 0 && zc_count(&out, 't') == 4096);
    zc_edit_free(&edit);
    zc_free(&a);
    zc_free(&out);
}

static void edits_no_longer(void) {
    zc_edit edit = ZC_EDIT_EMPTY;
    zc_cord most = ZC_EMPTY;
    DO(zc_chars('m', ZC_MAX_LEN - 1, &most));
    DO(zc_edit_set(&most, &edit));
    EXPECT(zc_edit_bytes(&edit, 5, "xy", 2) == ZC_TOO_LONG);
    if (!may_want) EXPECT(zc_edit_cord(&edit, 5, 3, &most) == ZC_TOO_LONG);
    DO(zc_edit_bytes(&edit, 5, "x", 1));
    EXPECT(zc_edit_bytes(&edit, 5, "y", 1) == ZC_TOO_LONG);
    EXPECT(zc_edit_len(&edit) == ZC_MAX_LEN);
    DO(zc_edit_to_cord(&edit, &most));
    EXPECT(zc_len(&most) == ZC_MAX_LEN && byte_place(&most, 0, 'x') == 5);
    zc_edit_free(&edit);
    zc_free(&most);
}

static void nulls_of_edits(void) {
    zc_cord *volatile none = NULL;
    zc_edit *volatile no_edit = NULL;
    zc_edit edit = ZC_EDIT_EMPTY;
    zc_cord a = ZC_EMPTY;
    EXPECT(zc_edit_set(none, &edit) == ZC_NULL && zc_edit_set(&a, no_edit) == ZC_NULL);
    EXPECT(zc_edit_bytes(no_edit, 0, "a", 1) == ZC_NULL);
    EXPECT(zc_edit_cord(no_edit, 0, 1, &a) == ZC_NULL && zc_edit_cord(&edit, 0, 1, none) == ZC_NULL);
    EXPECT(zc_edit_remove(no_edit, 0, 1) == ZC_NULL);
    EXPECT(zc_edit_to_cord(no_edit, &a) == ZC_NULL && zc_edit_to_cord(&edit, none) == ZC_NULL);
    EXPECT(zc_edit_len(no_edit) == 0 && zc_edit_len(&edit) == 0);
    zc_edit_free(no_edit);
}

/* A text of 5,000 lines of ten characters in eleven bytes, whose last one lacks its end. */
static void lines_by_number(void) {
    zc_cord x = ZC_EMPTY, line = ZC_EMPTY, out = ZC_EMPTY;
    zc_lines lines = ZC_LINES_EMPTY;
    uint64_t at = 7;
    DO(zc_from_bytes("a l\303\255ne: 12\n", 12, &line));
    DO(zc_repeat(&line, 4999, &x));
    DO(zc_cat_bytes(&x, "the last", 8, &x));
    EXPECT(zc_lines_count(&lines) == 0);
    DO(zc_lines_set(&x, &lines));
    EXPECT(zc_lines_count(&lines) == 5000);
    EXPECT(zc_lines_start(&lines, &x, 4999, &at) == ZC_OK && at == 59988);
    EXPECT(zc_lines_start(&lines, &x, 5000, &at) == ZC_PAST_END && at == 59988);
    EXPECT(zc_lines_of(&lines, &x, 59987, &at) == ZC_OK && at == 4998);
    EXPECT(zc_lines_of(&lines, &x, UINT64_MAX, &at) == ZC_OK && at == 4999);
    EXPECT(zc_lines_utf8(&lines, &x, 12, 36, &at) == ZC_OK && at == 33);
    EXPECT(zc_lines_utf8(&lines, &x, 59990, UINT64_MAX, &at) == ZC_OK && at == 6);
    DO(zc_lines_line(&lines, &x, 4998, &out));
    EXPECT_TEXT(&out, "a l\303\255ne: 12");
    DO(zc_lines_line(&lines, &x, 4999, &out));
    EXPECT_TEXT(&out, "the last");
    if (!may_want) EXPECT(zc_lines_line(&lines, &x, 5000, &out) == ZC_PAST_END);
    EXPECT_TEXT(&out, "the last");
    zc_lines_free(&lines);
    EXPECT(zc_lines_count(&lines) == 0);
    zc_lines_free(&lines);
    zc_free(&x);
    zc_free(&line);
    zc_free(&out);
}

/* An index stays that of a text along its edits. */
static void lines_along_edits(void) {
    zc_cord x = ZC_EMPTY, line = ZC_EMPTY, after = ZC_EMPTY;
    zc_lines lines = ZC_LINES_EMPTY;
    uint64_t at = 7;
    DO(zc_from_bytes("nine more\n", 10, &line));
    DO(zc_repeat(&line, 10000, &x));
    DO(zc_lines_edited(&lines, &x, 0, 0, 100000));
    EXPECT(zc_lines_count(&lines) == 10000);
    DO(zc_splice(&x, 50005, 0, &line));
    DO(zc_lines_edited(&lines, &x, 50005, 0, 10));
    EXPECT(zc_lines_count(&lines) == 10001);
    EXPECT(zc_lines_start(&lines, &x, 5001, &at) == ZC_OK && at == 50015);
    DO(zc_replace(&x, 50000, 20, &line, &after)); /* back to lines of "nine more" alone */
    DO(zc_lines_edited_from(&lines, &x, &after, 50000, 20, 10));
    EXPECT(zc_lines_count(&lines) == 10000);
    EXPECT(zc_lines_of(&lines, &after, 50010, &at) == ZC_OK && at == 5001);
    DO(zc_lines_edited_from(&lines, &after, &x, 50000, 10, 20));
    EXPECT(zc_lines_count(&lines) == 10001);
    DO(zc_lines_edited_from(&lines, &line, &after, 50000, 20, 10)); /* of another text its answers mean nothing */
    DO(zc_lines_set(&x, &lines));
    DO(zc_remove(&x, 9, 90001, &x));
    DO(zc_lines_edited(&lines, &x, 9, 90001, 0));
    EXPECT(zc_lines_count(&lines) == 1000);
    EXPECT(zc_lines_start(&lines, &x, 999, &at) == ZC_OK && at == 9999);
    DO(zc_lines_edited(&lines, &line, 5, UINT64_MAX, UINT64_MAX)); /* no edit of x: all is counted */
    EXPECT(zc_lines_count(&lines) == 1);
    zc_lines_free(&lines);
    zc_free(&x);
    zc_free(&line);
    zc_free(&after);
}

static void nulls_of_lines(void) {
    zc_cord *volatile none = NULL;
    zc_lines *volatile no_lines = NULL;
    uint64_t *volatile nowhere = NULL;
    zc_cord a = ZC_EMPTY;
    zc_lines lines = ZC_LINES_EMPTY;
    uint64_t at = 7;
    EXPECT(zc_lines_set(none, &lines) == ZC_NULL && zc_lines_set(&a, no_lines) == ZC_NULL);
    EXPECT(zc_lines_count(no_lines) == 0);
    EXPECT(zc_lines_start(no_lines, &a, 0, &at) == ZC_NULL && zc_lines_start(&lines, none, 0, &at) == ZC_NULL);
    EXPECT(zc_lines_start(&lines, &a, 0, nowhere) == ZC_NULL);
    EXPECT(zc_lines_of(no_lines, &a, 0, &at) == ZC_NULL && zc_lines_of(&lines, none, 0, &at) == ZC_NULL);
    EXPECT(zc_lines_of(&lines, &a, 0, nowhere) == ZC_NULL);
    EXPECT(zc_lines_utf8(no_lines, &a, 0, 1, &at) == ZC_NULL && zc_lines_utf8(&lines, none, 0, 1, &at) == ZC_NULL);
    EXPECT(zc_lines_utf8(&lines, &a, 0, 1, nowhere) == ZC_NULL);
    EXPECT(zc_lines_line(no_lines, &a, 0, &a) == ZC_NULL && zc_lines_line(&lines, none, 0, &a) == ZC_NULL);
    EXPECT(zc_lines_line(&lines, &a, 0, none) == ZC_NULL);
    EXPECT(zc_lines_edited(no_lines, &a, 0, 0, 0) == ZC_NULL && zc_lines_edited(&lines, none, 0, 0, 0) == ZC_NULL);
    EXPECT(zc_lines_edited_from(no_lines, &a, &a, 0, 0, 0) == ZC_NULL);
    EXPECT(zc_lines_edited_from(&lines, none, &a, 0, 0, 0) == ZC_NULL);
    EXPECT(zc_lines_edited_from(&lines, &a, none, 0, 0, 0) == ZC_NULL);
    EXPECT(at == 7);
    zc_lines_free(no_lines);
}

static int byte_at(zc_pos *position) {
    unsigned char byte = 7;
    int code = zc_pos_fetch(position, &byte);
    EXPECT(code == ZC_OK || (code == ZC_PAST_END && byte == 7));
    return code == ZC_OK ? byte : -1;
}

static void walks(void) {
    zc_cord a = ZC_EMPTY;
    zc_pos position = ZC_POS_NOWHERE;
    EXPECT(zc_pos_index(&position) == ZC_NOT_FOUND);
    EXPECT(byte_at(&position) == -1);
    DO(zc_from_bytes("abc", 3, &a));
    DO(zc_pos_set(&a, 1, &position));
    EXPECT(byte_at(&position) == 'b' && zc_pos_index(&position) == 1);
    zc_pos_next(&position);
    EXPECT(byte_at(&position) == 'c' && zc_pos_index(&position) == 2);
    zc_pos_next(&position);
    EXPECT(byte_at(&position) == -1 && zc_pos_index(&position) == ZC_NOT_FOUND);
    zc_pos_prev(&position);
    EXPECT(zc_pos_index(&position) == ZC_NOT_FOUND);
    zc_pos_next(&position);
    EXPECT(zc_pos_index(&position) == ZC_NOT_FOUND);
    DO(zc_pos_set(&a, 1, &position));
    zc_pos_prev(&position);
    EXPECT(byte_at(&position) == 'a' && zc_pos_index(&position) == 0);
    zc_pos_prev(&position);
    EXPECT(byte_at(&position) == -1 && zc_pos_index(&position) == ZC_NOT_FOUND);
    zc_pos_next(&position);
    EXPECT(zc_pos_index(&position) == ZC_NOT_FOUND);
    DO(zc_pos_set(&a, 3, &position));
    EXPECT(zc_pos_index(&position) == ZC_NOT_FOUND);
    DO(zc_pos_set(&a, UINT64_MAX, &position));
    EXPECT(zc_pos_index(&position) == ZC_NOT_FOUND);
    DO(zc_pos_set(&a, 2, &position));
    zc_free(&a); /* the position has a share of its own */
    EXPECT(byte_at(&position) == 'c');
    zc_pos_free(&position);
    EXPECT(zc_pos_index(&position) == ZC_NOT_FOUND && byte_at(&position) == -1);
    zc_pos_free(&position);
}

/* The byte at a place of 150 bytes '0' to '9', 600 times 'r', and 150 bytes 'a' to 'z'. */
static int wide_at(uint64_t place) {
    if (place >= 900) return -1;
    if (place >= 750) return 'a' + (int)(place % 26);
    return place >= 150 ? 'r' : '0' + (int)(place % 10);
}

static void make_wide(zc_cord *x) {
    zc_cord part = ZC_EMPTY;
    char front[150], back[150];
    for (int i = 0; i < 150; i++) front[i] = (char)wide_at((uint64_t)i), back[i] = (char)wide_at(750 + (uint64_t)i);
    DO(zc_from_bytes(front, 150, x));
    DO(zc_chars('r', 600, &part));
    DO(zc_append(x, &part));
    DO(zc_from_bytes(back, 150, &part));
    DO(zc_append(x, &part));
    zc_free(&part);
}

static void expect_wide(zc_pos *position, uint64_t place) {
    EXPECT(byte_at(position) == wide_at(place));
    EXPECT(zc_pos_index(position) == (place < 900 ? place : ZC_NOT_FOUND));
}

/* Walks over three parts, more bytes than a position copies, from both ends and there and back. */
static void walks_far(void) {
    zc_cord x = ZC_EMPTY;
    zc_pos position = ZC_POS_NOWHERE;
    uint64_t place = 0;
    make_wide(&x);
    DO(zc_pos_set(&x, 0, &position));
    for (; place < 900; place++, zc_pos_next(&position)) expect_wide(&position, place);
    expect_wide(&position, 900);
    DO(zc_pos_set(&x, 899, &position));
    for (; place > 0; place--, zc_pos_prev(&position)) expect_wide(&position, place - 1);
    EXPECT(byte_at(&position) == -1 && zc_pos_index(&position) == ZC_NOT_FOUND);
    DO(zc_pos_set(&x, 500, &position));
    DO(zc_remove(&x, 0, 700, &x)); /* an edit of the text leaves the position's share */
    zc_free(&x);
    for (place = 500; place < 800; place++, zc_pos_next(&position)) expect_wide(&position, place);
    for (; place > 300; place--, zc_pos_prev(&position)) expect_wide(&position, place);
    for (; place < 900; place++, (zc_pos_next)(&position)) expect_wide(&position, place);
    expect_wide(&position, 900);
    zc_pos_free(&position);
}

/* Goes to the next chunk, which has to have these bytes. */
static void expect_chunk(zc_chunks *chunks, const char *bytes, size_t count, int line) {
    expect(zc_chunks_next(chunks) == count, "the number that the call gives", line);
    expect(chunks->count == count, "the number of the chunk's bytes", line);
    expect(count == 0 || memcmp(chunks->bytes, bytes, count) == 0, "the chunk's bytes", line);
}
#define EXPECT_CHUNK(chunks, text) expect_chunk((chunks), (text), sizeof(text) - 1, __LINE__)

static void chunks_in_order(void) {
    zc_cord a = ZC_EMPTY, b = ZC_EMPTY, both = ZC_EMPTY;
    zc_chunks chunks = ZC_CHUNKS_EMPTY;
    EXPECT_CHUNK(&chunks, "");
    DO(zc_from_bytes("abc", 3, &a));
    DO(zc_chars('y', 2, &b));
    DO(zc_cat(&a, &b, &both));
    DO(zc_chunks_set(&both, 0, &chunks));
    EXPECT(chunks.count == 0);
    EXPECT_CHUNK(&chunks, "abcyy");
    EXPECT_CHUNK(&chunks, "");
    EXPECT_CHUNK(&chunks, "");
    DO(zc_chunks_set(&both, 2, &chunks));
    zc_free(&both); /* the chunks have a share of their own */
    EXPECT_CHUNK(&chunks, "cyy");
    DO(zc_chunks_set(&a, 3, &chunks));
    EXPECT_CHUNK(&chunks, "");
    DO(zc_chunks_set(&a, UINT64_MAX, &chunks));
    EXPECT_CHUNK(&chunks, "");
    DO(zc_chunks_set(&a, 1, &chunks));
    zc_chunks_free(&chunks);
    EXPECT(chunks.count == 0);
    EXPECT_CHUNK(&chunks, "");
    zc_chunks_free(&chunks);
    zc_free(&a);
    zc_free(&b);
}

/* Goes to the chunk before, which has to have these bytes. */
static void expect_chunk_before(zc_chunks *chunks, const char *bytes, size_t count, int line) {
    expect(zc_chunks_prev(chunks) == count, "the number that the call gives", line);
    expect(chunks->count == count, "the number of the chunk's bytes", line);
    expect(count == 0 || memcmp(chunks->bytes, bytes, count) == 0, "the chunk's bytes", line);
}
#define EXPECT_CHUNK_BEFORE(chunks, text) expect_chunk_before((chunks), (text), sizeof(text) - 1, __LINE__)

static void chunks_from_the_back(void) {
    zc_cord a = ZC_EMPTY, b = ZC_EMPTY;
    zc_chunks chunks = ZC_CHUNKS_EMPTY;
    EXPECT_CHUNK_BEFORE(&chunks, "");
    zc_chunks_move(&chunks, 5);
    EXPECT_CHUNK_BEFORE(&chunks, "");
    DO(zc_from_bytes("abc", 3, &a));
    DO(zc_chars('y', 5000, &b));
    DO(zc_append(&a, &b));
    DO(zc_chunks_set(&a, UINT64_MAX, &chunks));
    EXPECT(zc_chunks_prev(&chunks) == 4096 && chunks.count == 4096);
    EXPECT(chunks.bytes[0] == 'y' && chunks.bytes[4095] == 'y');
    EXPECT(zc_chunks_prev(&chunks) == 907 && memcmp(chunks.bytes, "abcyy", 5) == 0 && chunks.bytes[906] == 'y');
    EXPECT_CHUNK_BEFORE(&chunks, "");
    EXPECT_CHUNK_BEFORE(&chunks, "");
    EXPECT(zc_chunks_next(&chunks) == 4096 && memcmp(chunks.bytes, "abcy", 4) == 0);
    EXPECT_CHUNK_BEFORE(&chunks, "");
    zc_chunks_move(&chunks, 2);
    EXPECT(chunks.count == 0);
    EXPECT_CHUNK_BEFORE(&chunks, "ab");
    zc_chunks_move(&chunks, 2);
    EXPECT(zc_chunks_next(&chunks) == 4096 && memcmp(chunks.bytes, "cyy", 3) == 0);
    EXPECT_CHUNK_BEFORE(&chunks, "ab");
    zc_chunks_move(&chunks, UINT64_MAX);
    EXPECT_CHUNK(&chunks, "");
    EXPECT(zc_chunks_prev(&chunks) == 4096);
    zc_chunks_free(&chunks);
    EXPECT_CHUNK_BEFORE(&chunks, "");
    zc_free(&a);
    zc_free(&b);
}

/* Each chunk but the last one has 4,096 bytes. */
static void long_chunks(void) {
    zc_cord a = ZC_EMPTY, b = ZC_EMPTY;
    zc_chunks chunks = ZC_CHUNKS_EMPTY;
    DO(zc_chars('y', 5000, &a));
    DO(zc_cat_char(&a, 'z', &b));
    DO(zc_chunks_set(&b, 1, &chunks));
    EXPECT(zc_chunks_next(&chunks) == 4096 && chunks.count == 4096);
    EXPECT(chunks.bytes[0] == 'y' && chunks.bytes[4095] == 'y');
    EXPECT(zc_chunks_next(&chunks) == 904 && chunks.count == 904);
    EXPECT(chunks.bytes[902] == 'y' && chunks.bytes[903] == 'z');
    EXPECT(zc_chunks_next(&chunks) == 0);
    DO(zc_chars('x', ZC_MAX_LEN, &a));
    DO(zc_chunks_set(&a, ZC_MAX_LEN - 4097, &chunks));
    EXPECT(zc_chunks_next(&chunks) == 4096);
    EXPECT_CHUNK(&chunks, "x");
    EXPECT_CHUNK(&chunks, "");
    zc_chunks_free(&chunks);
    zc_free(&a);
    zc_free(&b);
}

/* A long leaf is one chunk, which stays where the cord was freed; a leaf of fewer than 512 bytes is copied with more. */
static void lent_chunks(void) {
    char bytes[5000];
    zc_cord a = ZC_EMPTY;
    zc_chunks chunks = ZC_CHUNKS_EMPTY;
    for (size_t i = 0; i < sizeof bytes; i++) bytes[i] = (char)('a' + i % 26);
    DO(zc_from_bytes(bytes, sizeof bytes, &a));
    DO(zc_cat_bytes(&a, bytes, 511, &a));
    DO(zc_cat_bytes(&a, bytes, 512, &a));
    DO(zc_chunks_set(&a, 0, &chunks));
    zc_free(&a);
    EXPECT(zc_chunks_next(&chunks) == 5000 && memcmp(chunks.bytes, bytes, 5000) == 0);
    EXPECT(chunks.bytes != chunks.room);
    EXPECT(zc_chunks_next(&chunks) == 1023 && memcmp(chunks.bytes + 511, bytes, 512) == 0);
    EXPECT(chunks.bytes == chunks.room);
    EXPECT(zc_chunks_next(&chunks) == 0);
    zc_chunks_move(&chunks, 5511);
    EXPECT(zc_chunks_next(&chunks) == 512 && chunks.bytes != chunks.room && memcmp(chunks.bytes, bytes, 512) == 0);
    EXPECT(zc_chunks_prev(&chunks) == 4096 && chunks.bytes == chunks.room && chunks.bytes[0] == bytes[1415]);
    zc_chunks_move(&chunks, 4488);
    EXPECT(zc_chunks_next(&chunks) == 512 && chunks.bytes != chunks.room && chunks.bytes[0] == bytes[4488]);
    zc_chunks_move(&chunks, 4489);
    EXPECT(zc_chunks_next(&chunks) == 1534 && chunks.bytes == chunks.room && chunks.bytes[511] == 'a');
    zc_chunks_free(&chunks);
}

/* Puts bytes to a file, from this place on. */
static void put_at(zc_cord *x, int fd, off_t place) {
    int code = zc_put(x, fd);
    if (code == ZC_NO_MEMORY && may_want) {
        wants++;
        EXPECT(ftruncate(fd, place) == 0 && lseek(fd, place, SEEK_SET) == place);
        code = zc_put(x, fd);
    }
    EXPECT(code == ZC_OK);
}

static void read_all(int fd, zc_cord *out) {
    EXPECT(lseek(fd, 0, SEEK_SET) == 0);
    int code = zc_from_fd(fd, out);
    if (code == ZC_NO_MEMORY && may_want) {
        wants++;
        EXPECT(lseek(fd, 0, SEEK_SET) == 0);
        code = zc_from_fd(fd, out);
    }
    EXPECT(code == ZC_OK);
}

static void files(void) {
    zc_cord a = ZC_EMPTY, b = ZC_EMPTY, c = ZC_EMPTY;
    char bytes[20] = "";
    FILE *file = tmpfile();
    if (file == NULL && may_want) file = tmpfile();
    EXPECT(file != NULL);
    int fd = fileno(file);
    read_all(fd, &c);
    EXPECT_TEXT(&c, "");
    DO(zc_from_bytes("a\0b", 3, &a));
    DO(zc_chars('x', 5, &b));
    DO(zc_cat(&a, &b, &c));
    put_at(&c, fd, 0);
    zc_free(&c);
    put_at(&c, fd, 8);
    put_at(&a, fd, 8);
    EXPECT(pread(fd, bytes, sizeof bytes, 0) == 11);
    EXPECT(memcmp(bytes, "a\0bxxxxxa\0b", 11) == 0);
    read_all(fd, &c);
    EXPECT_TEXT(&c, "a\0bxxxxxa\0b");
    DO(zc_chars('y', 50000, &b));
    put_at(&b, fd, 11);
    read_all(fd, &c);
    EXPECT(zc_len(&c) == 50011);
    EXPECT(zc_count(&c, 'y') == 50000);
    if (!may_want) {
        EXPECT(zc_put(&a, -1) == ZC_WRITE_FAILED);
        EXPECT(zc_from_fd(-1, &c) == ZC_READ_FAILED && zc_len(&c) == 0);
    }
    fclose(file);
    zc_free(&a);
    zc_free(&b);
    zc_free(&c);
}

static void read_path(const char *path, zc_cord *out) {
    int code = zc_from_path(path, out);
    if (code == ZC_NO_MEMORY && may_want) {
        wants++;
        code = zc_from_path(path, out);
    }
    EXPECT(code == ZC_OK);
}

static void paths(void) {
    char path[] = "/tmp/zomtsje_XXXXXX";
    zc_cord a = ZC_EMPTY, b = ZC_EMPTY;
    int fd = mkstemp(path);
    EXPECT(fd >= 0);
    read_path(path, &b);
    EXPECT_TEXT(&b, "");
    EXPECT(write(fd, "a\0b\n", 4) == 4);
    read_path(path, &b);
    EXPECT_TEXT(&b, "a\0b\n");
    DO(zc_chars('y', 70000, &a));
    put_at(&a, fd, 4);
    read_path(path, &b);
    EXPECT(zc_len(&b) == 70004 && zc_count(&b, 'y') == 70000);
    EXPECT(close(fd) == 0 && unlink(path) == 0);
    EXPECT(zc_from_path(path, &b) == ZC_READ_FAILED);
    EXPECT(zc_from_path("/", &b) == ZC_READ_FAILED);
    EXPECT(zc_from_path(NULL, &b) == ZC_NULL);
    EXPECT(zc_from_path("/dev/null", NULL) == ZC_NULL);
    EXPECT(zc_len(&b) == 70004);
    zc_free(&a);
    zc_free(&b);
}

static void nulls_of_the_rest(void) {
    zc_cord *volatile none = NULL;
    zc_ext *volatile no_ext = NULL;
    zc_pos *volatile no_pos = NULL;
    zc_chunks *volatile no_chunks = NULL;
    uint64_t *volatile no_at = NULL, at = 7;
    unsigned char *volatile no_byte = NULL, byte = 7;
    zc_ext grown = ZC_EXT_EMPTY;
    zc_pos position = ZC_POS_NOWHERE;
    zc_chunks chunks = ZC_CHUNKS_EMPTY;
    zc_cord a = ZC_EMPTY;
    EXPECT(zc_catn(&a, 1, none) == ZC_NULL);
    EXPECT(zc_sprintf("", 0, NULL, 0, none, &at) == ZC_NULL && zc_sprintf("", 0, NULL, 0, &a, no_at) == ZC_NULL);
    EXPECT(zc_put(none, 1) == ZC_NULL);
    EXPECT(zc_ext_char(no_ext, 'a') == ZC_NULL);
    EXPECT(zc_ext_bytes(no_ext, "a", 1) == ZC_NULL);
    EXPECT(zc_ext_cord(no_ext, &a) == ZC_NULL);
    EXPECT(zc_ext_cord(&grown, none) == ZC_NULL);
    EXPECT(zc_ext_to_cord(no_ext, &a) == ZC_NULL);
    EXPECT(zc_ext_to_cord(&grown, none) == ZC_NULL);
    EXPECT(zc_ext_len(no_ext) == 0);
    zc_ext_free(no_ext);
    EXPECT(zc_pos_set(none, 0, &position) == ZC_NULL);
    EXPECT(zc_pos_set(&a, 0, no_pos) == ZC_NULL);
    EXPECT(zc_pos_fetch(no_pos, &byte) == ZC_NULL);
    EXPECT(zc_pos_fetch(&position, no_byte) == ZC_NULL);
    EXPECT(zc_pos_index(no_pos) == ZC_NOT_FOUND);
    zc_pos_next(no_pos);
    zc_pos_prev(no_pos);
    zc_pos_free(no_pos);
    EXPECT(zc_chunks_set(none, 0, &chunks) == ZC_NULL);
    EXPECT(zc_chunks_set(&a, 0, no_chunks) == ZC_NULL);
    EXPECT(zc_chunks_next(no_chunks) == 0 && zc_chunks_prev(no_chunks) == 0);
    zc_chunks_move(no_chunks, 1);
    zc_chunks_free(no_chunks);
    EXPECT(byte == 7);
}

/* A file of this text, "0123456789" so many times, and this end: its path is written to path. */
static void write_file(char *path, unsigned long tens, const char *end) {
    int fd = mkstemp(path);
    FILE *file = fd < 0 ? NULL : fdopen(fd, "wb");
    if (file == NULL && may_want) file = fdopen(fd, "wb");
    EXPECT(file != NULL);
    for (unsigned long i = 0; i < tens; i++) EXPECT(fputs("0123456789", file) >= 0);
    EXPECT(fputs(end, file) >= 0 && fclose(file) == 0);
}

static void open_lazily(zc_files *files, const char *path, zc_lazy *out) {
    DO(zc_lazy_from_path(files, path, out));
}

static void expect_lazy(zc_files *files, zc_lazy *x, uint64_t start, const char *bytes, size_t count, int line) {
    char copy[64];
    size_t got = 99;
    memset(copy, '#', sizeof copy);
    expect(zc_lazy_read(files, x, start, copy, count, &got) == ZC_OK, "a read", line);
    expect(got == count && memcmp(copy, bytes, count) == 0, "the bytes", line);
    expect(copy[count] == '#', "the rest", line);
}
#define EXPECT_LAZY(files, x, start, text) expect_lazy((files), (x), (start), (text), sizeof(text) - 1, __LINE__)

static uint64_t lazy_place(zc_files *files, zc_lazy *x, uint64_t start, const char *bytes) {
    uint64_t place = 12345;
    DO(zc_lazy_find(files, x, start, bytes, strlen(bytes), &place));
    return place;
}

static uint64_t lazy_byte_place(zc_files *files, zc_lazy *x, uint64_t start, char byte) {
    uint64_t place = 12345;
    EXPECT(zc_lazy_chr(files, x, start, (unsigned char)byte, &place) == ZC_OK);
    return place;
}

static void lazy_of(const char *text, zc_lazy *out) {
    zc_cord plain = ZC_EMPTY;
    DO(zc_from_bytes(text, strlen(text), &plain));
    DO(zc_lazy_from_cord(&plain, out));
    zc_free(&plain);
}

/* A file that is opened, cut, joined with a cord in memory, read and searched. */
static void lazies(void) {
    char path[] = "/tmp/zomtsje_XXXXXX", bytes[8] = "";
    zc_files files = ZC_FILES_NONE;
    zc_lazy a = ZC_LAZY_EMPTY, b = ZC_LAZY_EMPTY, c = ZC_LAZY_EMPTY, word = ZC_LAZY_EMPTY;
    size_t got = 99;
    write_file(path, 20000, "end\n");
    open_lazily(&files, path, &a);
    EXPECT(zc_lazy_len(&a) == 200004);
    EXPECT_LAZY(&files, &a, 0, "0123");
    EXPECT_LAZY(&files, &a, 199998, "89end\n");
    EXPECT(zc_lazy_read(&files, &a, 200002, bytes, sizeof bytes, &got) == ZC_OK && got == 2);
    EXPECT(memcmp(bytes, "d\n\0", 3) == 0);
    EXPECT(zc_lazy_read(&files, &a, 200004, bytes, sizeof bytes, &got) == ZC_OK && got == 0);
    DO(zc_lazy_substr(&a, 199995, 8, &b));
    lazy_of("<in memory>", &word);
    DO(zc_lazy_cat(&b, &word, &c));
    EXPECT(zc_lazy_len(&c) == 19);
    EXPECT_LAZY(&files, &c, 0, "56789end<in memory>");
    DO(zc_lazy_insert(&c, 5, &word, &b));
    EXPECT_LAZY(&files, &b, 0, "56789<in memory>end<in memory>");
    DO(zc_lazy_remove(&b, 5, 11, &b));
    EXPECT_LAZY(&files, &b, 0, "56789end<in memory>");
    DO(zc_lazy_replace(&c, 3, 6, &word, &b));
    EXPECT_LAZY(&files, &b, 0, "567<in memory>in memory>");
    DO(zc_lazy_remove(&c, 30, 5, &b));
    EXPECT_LAZY(&files, &b, 0, "56789end<in memory>");
    DO(zc_lazy_cat(&a, &c, &b));
    EXPECT_LAZY(&files, &b, 200001, "nd\n56789end<in memory>");
    EXPECT(lazy_byte_place(&files, &b, 0, 'e') == 200000);
    EXPECT(lazy_byte_place(&files, &b, 200001, 'e') == 200009);
    EXPECT(lazy_byte_place(&files, &b, 0, '!') == ZC_NOT_FOUND);
    EXPECT(lazy_place(&files, &b, 0, "end<") == 200009);
    EXPECT(lazy_place(&files, &a, 0, "end<") == ZC_NOT_FOUND);
    EXPECT(lazy_place(&files, &a, 65530, "9012345") == 65539);
    EXPECT(lazy_place(&files, &a, 200004, "") == 200004 && lazy_place(&files, &a, 200005, "") == ZC_NOT_FOUND);
    DO(zc_lazy_share(&b, &word));
    zc_lazy_free(&a);
    zc_lazy_free(&b);
    EXPECT_LAZY(&files, &word, 199998, "89end\n56789end<in memory>");
    EXPECT(unlink(path) == 0);
    zc_lazy_free(&c);
    zc_lazy_free(&word);
    zc_files_free(&files);
    EXPECT(files.count == 0);
}

static void copy_lazily(zc_files *files, zc_lazy *x, zc_cord *out) {
    int code = zc_lazy_to_cord(files, x, out);
    while (code == ZC_NO_MEMORY && may_want && wants++ < 100) code = zc_lazy_to_cord(files, x, out);
    EXPECT(code == ZC_OK);
}

/* A file and one more byte, balanced, and copied into memory. */
static void lazies_balanced(void) {
    char path[] = "/tmp/zomtsje_XXXXXX";
    zc_files files = ZC_FILES_NONE;
    zc_lazy a = ZC_LAZY_EMPTY, b = ZC_LAZY_EMPTY, byte = ZC_LAZY_EMPTY;
    zc_cord plain = ZC_EMPTY;
    write_file(path, 2, "z");
    open_lazily(&files, path, &a);
    EXPECT(zc_lazy_depth(&a) == 0);
    lazy_of("x", &byte);
    DO(zc_lazy_cat(&a, &byte, &b));
    EXPECT(zc_lazy_depth(&b) == 1);
    DO(zc_lazy_balance(&b, &a));
    EXPECT_LAZY(&files, &a, 0, "01234567890123456789zx");
    copy_lazily(&files, &b, &plain);
    EXPECT(unlink(path) == 0);
    zc_lazy_free(&a);
    zc_lazy_free(&b);
    zc_lazy_free(&byte);
    zc_files_free(&files);
    EXPECT_TEXT(&plain, "01234567890123456789zx");
    zc_free(&plain);
}

/* Where a file can't be opened or read, and cords over other files. */
static void lazies_refused(void) {
    char path[] = "/tmp/zomtsje_XXXXXX", other[] = "/tmp/zomtsje_XXXXXX";
    zc_files files = ZC_FILES_NONE, others = ZC_FILES_NONE;
    zc_lazy a = ZC_LAZY_EMPTY, b = ZC_LAZY_EMPTY;
    zc_cord plain = ZC_EMPTY;
    unsigned char byte = 7;
    uint64_t place = 7;
    int32_t order = 7;
    size_t got = 7;
    write_file(path, 3, "");
    write_file(other, 1, "");
    open_lazily(&files, path, &a);
    EXPECT(zc_lazy_from_path(&files, "/tmp/zomtsje_none", &a) == ZC_READ_FAILED);
    EXPECT(zc_lazy_from_path(&files, "/tmp", &a) == ZC_READ_FAILED);
    EXPECT(zc_lazy_of_file(0, ZC_MAX_LEN + 1, &a) == ZC_TOO_LONG);
    EXPECT_LAZY(&files, &a, 25, "56789");
    EXPECT(zc_lazy_read(&others, &a, 0, &byte, 1, &got) == ZC_READ_FAILED && got == 7);
    open_lazily(&others, other, &b);
    EXPECT_LAZY(&others, &a, 5, "56789");
    EXPECT(zc_lazy_read(&others, &a, 10, &byte, 1, &got) == ZC_READ_FAILED && got == 7);
    EXPECT(zc_lazy_chr(&others, &a, 0, 'x', &place) == ZC_READ_FAILED && place == 7);
    EXPECT(zc_lazy_rchr(&others, &a, 30, 'x', &place) == ZC_READ_FAILED && place == 7);
    EXPECT(zc_lazy_fetch(&others, &a, 10, &byte) == ZC_READ_FAILED);
    EXPECT(zc_lazy_cmp(&others, &a, &b, &order) == ZC_READ_FAILED && order == 7);
    EXPECT(zc_lazy_cmp(&others, &b, &a, &order) == ZC_READ_FAILED && order == 7);
    EXPECT(zc_lazy_to_cord(&others, &a, &plain) == ZC_READ_FAILED || may_want);
    EXPECT(zc_len(&plain) == 0 && byte == 7);
    EXPECT(unlink(path) == 0 && unlink(other) == 0);
    zc_lazy_free(&a);
    zc_lazy_free(&b);
    zc_files_free(&files);
    zc_files_free(&others);
}

static uint64_t lazy_last_place(zc_files *files, zc_lazy *x, uint64_t end, char byte) {
    uint64_t place = 12345;
    EXPECT(zc_lazy_rchr(files, x, end, (unsigned char)byte, &place) == ZC_OK);
    return place;
}

static int32_t lazy_order(zc_files *files, zc_lazy *x, zc_lazy *y) {
    int32_t order = 12345;
    EXPECT(zc_lazy_cmp(files, x, y, &order) == ZC_OK);
    return order;
}

/* A cord with the byte ? in front of its byte at a place. */
static void mark_lazily(zc_lazy *x, uint64_t place, zc_lazy *out) {
    zc_lazy front = ZC_LAZY_EMPTY, mark = ZC_LAZY_EMPTY, both = ZC_LAZY_EMPTY, back = ZC_LAZY_EMPTY;
    DO(zc_lazy_substr(x, 0, place, &front));
    DO(zc_lazy_substr(x, place, ZC_MAX_LEN, &back));
    lazy_of("?", &mark);
    DO(zc_lazy_cat(&front, &mark, &both));
    DO(zc_lazy_cat(&both, &back, out));
    zc_lazy_free(&front);
    zc_lazy_free(&mark);
    zc_lazy_free(&both);
    zc_lazy_free(&back);
}

/* The last places and the bytes of a file, and of one with a byte at each side of the end of a block of 16,384. */
static void lazies_from_the_end(void) {
    char path[] = "/tmp/zomtsje_XXXXXX";
    zc_files files = ZC_FILES_NONE;
    zc_lazy a = ZC_LAZY_EMPTY, b = ZC_LAZY_EMPTY;
    unsigned char byte = 7;
    write_file(path, 5000, "!");
    open_lazily(&files, path, &a);
    EXPECT(lazy_last_place(&files, &a, UINT64_MAX, '!') == 50000 && lazy_last_place(&files, &a, 50001, '!') == 50000);
    EXPECT(lazy_last_place(&files, &a, 50000, '!') == ZC_NOT_FOUND);
    EXPECT(lazy_last_place(&files, &a, 50001, '0') == 49990 && lazy_last_place(&files, &a, 49990, '0') == 49980);
    EXPECT(lazy_last_place(&files, &a, 7, '6') == 6 && lazy_last_place(&files, &a, 6, '6') == ZC_NOT_FOUND);
    EXPECT(lazy_last_place(&files, &b, 1, '0') == ZC_NOT_FOUND);
    mark_lazily(&a, 0, &b);
    EXPECT(lazy_last_place(&files, &b, UINT64_MAX, '?') == 0);
    mark_lazily(&a, 33617, &b);
    EXPECT(zc_lazy_len(&b) == 50002 && lazy_last_place(&files, &b, 50002, '?') == 33617);
    mark_lazily(&a, 33618, &b);
    EXPECT(lazy_last_place(&files, &b, 50002, '?') == 33618);
    EXPECT(zc_lazy_fetch(&files, &b, 33618, &byte) == ZC_OK && byte == '?');
    EXPECT(zc_lazy_fetch(&files, &b, 33617, &byte) == ZC_OK && byte == '7');
    EXPECT(zc_lazy_fetch(&files, &b, 33619, &byte) == ZC_OK && byte == '8');
    EXPECT(zc_lazy_fetch(&files, &a, 50000, &byte) == ZC_OK && byte == '!');
    EXPECT(zc_lazy_fetch(&files, &a, 50001, &byte) == ZC_PAST_END && byte == '!');
    EXPECT(zc_lazy_fetch(&files, &a, UINT64_MAX, &byte) == ZC_PAST_END && byte == '!');
    EXPECT(unlink(path) == 0);
    zc_lazy_free(&a);
    zc_lazy_free(&b);
    zc_files_free(&files);
}

/* The orders of cords over a file. */
static void lazies_in_order(void) {
    char path[] = "/tmp/zomtsje_XXXXXX";
    zc_files files = ZC_FILES_NONE;
    zc_lazy a = ZC_LAZY_EMPTY, b = ZC_LAZY_EMPTY, c = ZC_LAZY_EMPTY, none = ZC_LAZY_EMPTY;
    write_file(path, 5000, "!");
    open_lazily(&files, path, &a);
    EXPECT(lazy_order(&files, &none, &b) == 0);
    EXPECT(lazy_order(&files, &none, &a) == -1 && lazy_order(&files, &a, &none) == 1);
    DO(zc_lazy_share(&a, &b));
    EXPECT(lazy_order(&files, &a, &b) == 0);
    DO(zc_lazy_substr(&a, 0, 50000, &b));
    EXPECT(lazy_order(&files, &a, &b) == 1 && lazy_order(&files, &b, &a) == -1);
    DO(zc_lazy_substr(&a, 0, 8192, &b));
    DO(zc_lazy_substr(&a, 0, 16384, &c));
    EXPECT(lazy_order(&files, &b, &c) == -1 && lazy_order(&files, &c, &b) == 1);
    mark_lazily(&a, 33617, &b);
    mark_lazily(&a, 33618, &c);
    EXPECT(lazy_order(&files, &b, &c) == 1 && lazy_order(&files, &c, &b) == -1);
    mark_lazily(&a, 33617, &c);
    EXPECT(lazy_order(&files, &b, &c) == 0);
    lazy_of("\x80", &b);
    lazy_of("a", &c);
    EXPECT(lazy_order(&files, &b, &c) == 1 && lazy_order(&files, &c, &b) == -1);
    EXPECT(unlink(path) == 0);
    zc_lazy_free(&a);
    zc_lazy_free(&b);
    zc_lazy_free(&c);
    zc_lazy_free(&none);
    zc_files_free(&files);
}

/* Whether the byte at a place lies in a file. */
static int lies_in_file(zc_lazy *x, uint64_t start) {
    unsigned char byte = 7;
    size_t got = 0;
    uint32_t file = 0;
    uint64_t place = 0;
    return zc_lazy_part(x, start, &byte, 1, &got, &file, &place) == ZC_IN_FILE;
}

/* A short file is read at once, and one that is a byte longer isn't. */
static void lazies_by_length(void) {
    char path[] = "/tmp/zomtsje_XXXXXX", longer[] = "/tmp/zomtsje_XXXXXX";
    zc_files files = ZC_FILES_NONE;
    zc_lazy a = ZC_LAZY_EMPTY, b = ZC_LAZY_EMPTY;
    write_file(path, 13107, "xx");
    write_file(longer, 13107, "xxx");
    DO(zc_lazy_by_length(&files, path, &a));
    DO(zc_lazy_by_length(&files, longer, &b));
    EXPECT(zc_lazy_len(&a) == ZC_SHORT_FILE && zc_lazy_len(&b) == ZC_SHORT_FILE + 1);
    EXPECT(!lies_in_file(&a, 0) && lies_in_file(&b, 0));
    EXPECT_LAZY(&files, &a, 131069, "9xx");
    EXPECT_LAZY(&files, &b, 131069, "9xxx");
    EXPECT(unlink(path) == 0 && unlink(longer) == 0);
    EXPECT(zc_lazy_by_length(&files, path, &a) == ZC_READ_FAILED);
    EXPECT(zc_lazy_by_length(&files, path, NULL) == ZC_NULL);
    EXPECT(zc_lazy_len(&a) == ZC_SHORT_FILE);
    zc_lazy_free(&a);
    zc_lazy_free(&b);
    zc_files_free(&files);
}

/* A file of five gigabytes, of which a few bytes are read. */
static void lazies_are_long(void) {
    char path[] = "/tmp/zomtsje_XXXXXX";
    zc_files files = ZC_FILES_NONE;
    zc_lazy a = ZC_LAZY_EMPTY, end = ZC_LAZY_EMPTY, both = ZC_LAZY_EMPTY;
    int fd = mkstemp(path);
    EXPECT(fd >= 0 && pwrite(fd, "last", 4, 4999999996) == 4 && close(fd) == 0);
    open_lazily(&files, path, &a);
    EXPECT(zc_lazy_len(&a) == 5000000000);
    DO(zc_lazy_substr(&a, 4999999990, 100, &end));
    DO(zc_lazy_cat(&end, &a, &both));
    EXPECT(zc_lazy_len(&both) == 5000000010);
    EXPECT_LAZY(&files, &both, 6, "last\0\0\0");
    EXPECT_LAZY(&files, &both, 5000000006, "last");
    EXPECT(lazy_byte_place(&files, &both, 5000000000, 't') == 5000000009);
    EXPECT(unlink(path) == 0);
    zc_lazy_free(&a);
    zc_lazy_free(&end);
    zc_lazy_free(&both);
    zc_files_free(&files);
}

/* As many files as can be open: one more is refused, and one that is open isn't. */
static void lazies_at_most(void) {
    char paths[65][24];
    zc_files files = ZC_FILES_NONE;
    zc_lazy a = ZC_LAZY_EMPTY;
    for (int i = 0; i < 65; i++) {
        strcpy(paths[i], "/tmp/zomtsje_XXXXXX");
        write_file(paths[i], 1, "");
        if (i < 64) open_lazily(&files, paths[i], &a);
    }
    EXPECT(zc_lazy_from_path(&files, paths[64], &a) == ZC_TOO_MANY_FILES);
    EXPECT_LAZY(&files, &a, 0, "0123456789");
    open_lazily(&files, paths[0], &a);
    EXPECT_LAZY(&files, &a, 0, "0123456789");
    for (int i = 0; i < 65; i++) EXPECT(unlink(paths[i]) == 0);
    zc_lazy_free(&a);
    zc_files_free(&files);
}

static void put_lazily(void) {
    char path[] = "/tmp/zomtsje_XXXXXX";
    zc_files files = ZC_FILES_NONE;
    zc_lazy a = ZC_LAZY_EMPTY, word = ZC_LAZY_EMPTY, both = ZC_LAZY_EMPTY;
    zc_cord read = ZC_EMPTY;
    FILE *file = tmpfile();
    if (file == NULL && may_want) file = tmpfile();
    EXPECT(file != NULL);
    write_file(path, 10000, "");
    open_lazily(&files, path, &a);
    lazy_of("!", &word);
    DO(zc_lazy_cat(&a, &word, &both));
    EXPECT(zc_lazy_put(&files, &both, fileno(file)) == ZC_OK);
    read_all(fileno(file), &read);
    EXPECT(zc_len(&read) == 100001 && zc_count(&read, '7') == 10000 && byte_place(&read, 0, '!') == 100000);
    if (!may_want) EXPECT(zc_lazy_put(&files, &both, -1) == ZC_WRITE_FAILED);
    EXPECT(fclose(file) == 0 && unlink(path) == 0);
    zc_free(&read);
    zc_lazy_free(&a);
    zc_lazy_free(&word);
    zc_lazy_free(&both);
    zc_files_free(&files);
}

static void nulls_of_lazies(void) {
    zc_lazy *volatile none = NULL;
    zc_cord *volatile no_cord = NULL;
    uint64_t *volatile no_place = NULL, place = 7;
    uint32_t *volatile no_file = NULL, file = 7;
    size_t *volatile no_count = NULL, got = 7;
    unsigned char byte = 7;
    zc_cord plain = ZC_EMPTY;
    zc_lazy a = ZC_LAZY_EMPTY, b = ZC_LAZY_EMPTY;
    EXPECT(zc_lazy_of_file(0, 1, none) == ZC_NULL);
    EXPECT(zc_lazy_from_cord(no_cord, &a) == ZC_NULL && zc_lazy_from_cord(&plain, none) == ZC_NULL);
    EXPECT(zc_lazy_cat(none, &a, &b) == ZC_NULL && zc_lazy_cat(&a, none, &b) == ZC_NULL);
    EXPECT(zc_lazy_cat(&a, &b, none) == ZC_NULL);
    EXPECT(zc_lazy_substr(none, 0, 1, &a) == ZC_NULL && zc_lazy_substr(&a, 0, 1, none) == ZC_NULL);
    EXPECT(zc_lazy_insert(none, 0, &a, &b) == ZC_NULL && zc_lazy_insert(&a, 0, none, &b) == ZC_NULL);
    EXPECT(zc_lazy_insert(&a, 0, &b, none) == ZC_NULL && zc_lazy_remove(&a, 0, 1, none) == ZC_NULL);
    EXPECT(zc_lazy_remove(none, 0, 1, &a) == ZC_NULL && zc_lazy_replace(none, 0, 1, &a, &b) == ZC_NULL);
    EXPECT(zc_lazy_replace(&a, 0, 1, none, &b) == ZC_NULL && zc_lazy_replace(&a, 0, 1, &b, none) == ZC_NULL);
    EXPECT(zc_lazy_balance(none, &a) == ZC_NULL && zc_lazy_balance(&a, none) == ZC_NULL);
    EXPECT(zc_lazy_share(none, &a) == ZC_NULL && zc_lazy_share(&a, none) == ZC_NULL);
    EXPECT(zc_lazy_len(none) == 0 && zc_lazy_depth(none) == 0);
    EXPECT(zc_lazy_part(none, 0, &byte, 1, &got, &file, &place) == ZC_NULL);
    EXPECT(zc_lazy_part(&a, 0, &byte, 1, no_count, &file, &place) == ZC_NULL);
    EXPECT(zc_lazy_part(&a, 0, &byte, 1, &got, no_file, &place) == ZC_NULL);
    EXPECT(zc_lazy_part(&a, 0, &byte, 1, &got, &file, no_place) == ZC_NULL);
    zc_lazy_free(none);
    zc_files_free(NULL);
    EXPECT(byte == 7 && place == 7 && got == 7 && file == 7);
}

static void messages(void) {
    EXPECT(strcmp(zc_message(ZC_OK), "done") == 0);
    EXPECT(strcmp(zc_message(ZC_TOO_LONG), "too long") == 0);
    EXPECT(strcmp(zc_message(ZC_NO_MEMORY), "no memory") == 0);
    EXPECT(strcmp(zc_message(ZC_READ_FAILED), "read failed") == 0);
    EXPECT(strcmp(zc_message(ZC_WRITE_FAILED), "write failed") == 0);
    EXPECT(strcmp(zc_message(ZC_PAST_END), "past the end") == 0);
    EXPECT(strcmp(zc_message(ZC_NULL), "null pointer") == 0);
    EXPECT(strcmp(zc_message(ZC_BAD_FORMAT), "bad format") == 0);
    EXPECT(strcmp(zc_message(ZC_WRONG_ARGUMENTS), "wrong arguments") == 0);
    EXPECT(strcmp(zc_message(ZC_BAD_VALUE), "bad value") == 0);
    EXPECT(strcmp(zc_message(ZC_BAD_ARGUMENT), "bad argument") == 0);
    EXPECT(strcmp(zc_message(ZC_IN_FILE), "in a file") == 0);
    EXPECT(strcmp(zc_message(ZC_TOO_MANY_FILES), "too many files") == 0);
    EXPECT(strcmp(zc_message(ZC_WOULD_BLOCK), "would block") == 0);
    EXPECT(strcmp(zc_message(-1), "unknown code") == 0);
    EXPECT(strcmp(zc_version(), ZC_VERSION) == 0);
}

static void nulls_of_lazy_reads(void) {
    zc_files *volatile no_files = NULL;
    zc_lazy *volatile none = NULL;
    uint64_t *volatile no_place = NULL, place = 7;
    unsigned char *volatile no_byte = NULL, byte = 7;
    int32_t *volatile no_order = NULL, order = 7;
    zc_files files = ZC_FILES_NONE;
    zc_lazy a = ZC_LAZY_EMPTY, b = ZC_LAZY_EMPTY;
    EXPECT(zc_lazy_rchr(no_files, &a, 1, 'x', &place) == ZC_NULL);
    EXPECT(zc_lazy_rchr(&files, none, 1, 'x', &place) == ZC_NULL);
    EXPECT(zc_lazy_rchr(&files, &a, 1, 'x', no_place) == ZC_NULL);
    EXPECT(zc_lazy_fetch(no_files, &a, 0, &byte) == ZC_NULL);
    EXPECT(zc_lazy_fetch(&files, none, 0, &byte) == ZC_NULL);
    EXPECT(zc_lazy_fetch(&files, &a, 0, no_byte) == ZC_NULL);
    EXPECT(zc_lazy_fetch(&files, &a, 0, &byte) == ZC_PAST_END);
    EXPECT(zc_lazy_cmp(no_files, &a, &b, &order) == ZC_NULL);
    EXPECT(zc_lazy_cmp(&files, none, &b, &order) == ZC_NULL);
    EXPECT(zc_lazy_cmp(&files, &a, none, &order) == ZC_NULL);
    EXPECT(zc_lazy_cmp(&files, &a, &b, no_order) == ZC_NULL);
    EXPECT(place == 7 && byte == 7 && order == 7);
}

/* A text, and then the same once more. */
static void twice(zc_cord *x) {
    zc_cord copy = ZC_EMPTY, both = ZC_EMPTY;
    DO(zc_share(x, &copy));
    DO(zc_cat(x, &copy, &both));
    zc_free(x);
    zc_free(&copy);
    *x = both;
}

/* The byte at a place of "ab", 65,536 times, and a "c". */
static unsigned char pattern_at(uint64_t place) {
    if (place == 131072) return 'c';
    return place % 2 == 0 ? 'a' : 'b';
}

/* Goes over that text from a place to its end, by chunks and byte by byte. */
static void expect_pattern(zc_cord *x) {
    zc_chunks chunks = ZC_CHUNKS_EMPTY;
    zc_pos position = ZC_POS_NOWHERE;
    uint64_t start = may_want ? 131000 : 65535, place = start;
    unsigned char byte = 0;
    EXPECT(zc_len(x) == 131073);
    DO(zc_chunks_set(x, start, &chunks));
    while (zc_chunks_next(&chunks) != 0)
        for (size_t i = 0; i < chunks.count; i++, place++) EXPECT(chunks.bytes[i] == pattern_at(place));
    EXPECT(place == 131073);
    DO(zc_pos_set(x, start, &position));
    for (place = start; zc_pos_fetch(&position, &byte) == ZC_OK; place++) {
        EXPECT(byte == pattern_at(place));
        zc_pos_next(&position);
    }
    EXPECT(place == 131073);
    zc_chunks_free(&chunks);
    zc_pos_free(&position);
}

/* A text that is doubled again and again, gone over and cut, and the same of it balanced. */
static void doubles(void) {
    zc_cord x = ZC_EMPTY, y = ZC_EMPTY, part = ZC_EMPTY;
    DO(zc_from_bytes("ab", 2, &y));
    twice(&y);
    EXPECT_TEXT(&y, "abab");
    for (int i = 1; i < 16; i++) twice(&y);
    DO(zc_cat_char(&y, 'c', &x));
    expect_pattern(&x);
    DO(zc_substr(&x, 1023, 5, &part));
    EXPECT_TEXT(&part, "babab");
    DO(zc_substr(&x, 1024, 8, &part));
    EXPECT_TEXT(&part, "abababab");
    DO(zc_substr(&x, 131071, 8, &part));
    EXPECT_TEXT(&part, "bc");
    DO(zc_balance(&x, &y));
    expect_pattern(&y);
    DO(zc_substr(&y, 1023, 5, &part));
    EXPECT_TEXT(&part, "babab");
    zc_free(&x);
    zc_free(&y);
    zc_free(&part);
}

#define LETTERS "abcdefghijklmnopqrstuvwxyz0123456789"

/* Texts of many letters: joined in two ways, balanced, and longer ones in order. */
static void orders(zc_cord *letters, zc_cord *out) {
    zc_cord parts[3] = {ZC_EMPTY, ZC_EMPTY, ZC_EMPTY}, x = ZC_EMPTY, y = ZC_EMPTY, end = ZC_EMPTY;
    for (int i = 0; i < 3; i++) DO(zc_share(letters, &parts[i]));
    DO(zc_catn(parts, 3, &x));
    DO(zc_cat(&parts[0], &parts[1], &y));
    DO(zc_cat(&y, &parts[2], &end));
    EXPECT(order_of(&x, &end) == 0);
    DO(zc_from_bytes("{}", 2, &x));
    for (int i = 1; i < 100; i++) {
        DO(zc_cat(&x, letters, &y));
        zc_cord longer = y;
        y = x, x = longer; /* the two handles change places */
    }
    DO(zc_balance(&x, out));
    EXPECT(zc_len(out) == 3566 && order_of(&x, out) == 0);
    DO(zc_chars(0, 13, &end));
    DO(zc_cat(out, &end, &y));
    EXPECT(order_of(&x, &y) < 0);
    DO(zc_cat(&x, &end, &y));
    EXPECT(order_of(&y, out) > 0);
    DO(zc_from_bytes("13", 2, &end));
    DO(zc_cat(out, &end, &y));
    EXPECT(order_of(&x, &y) < 0);
    for (int i = 0; i < 3; i++) zc_free(&parts[i]);
    zc_free(&x);
    zc_free(&y);
    zc_free(&end);
}

/* The same text in a file: read at once, read lazily, cut and searched. */
static void orders_in_a_file(zc_cord *letters, zc_cord *text) {
    char path[] = "/tmp/zomtsje_XXXXXX";
    zc_files files = ZC_FILES_NONE;
    zc_lazy lazy = ZC_LAZY_EMPTY, whole = ZC_LAZY_EMPTY;
    zc_cord x = ZC_EMPTY, part = ZC_EMPTY;
    int32_t order = 12345;
    int fd = mkstemp(path);
    EXPECT(fd >= 0);
    put_at(text, fd, 0);
    read_path(path, &x);
    EXPECT(zc_len(&x) == 3566 && order_of(&x, text) == 0);
    DO(zc_substr(&x, 50 * 36 + 2, 36, &part));
    EXPECT(order_of(&part, letters) == 0);
    open_lazily(&files, path, &lazy);
    DO(zc_lazy_from_cord(&x, &whole));
    DO(zc_lazy_cmp(&files, &lazy, &whole, &order));
    EXPECT(order == 0);
    EXPECT(byte_place(&x, 0, '9') == 37 && lazy_byte_place(&files, &lazy, 0, '9') == 37);
    EXPECT(byte_place(&x, 3, 'a') == 38 && lazy_byte_place(&files, &lazy, 3, 'a') == 38);
    EXPECT(last_byte_place(&x, 3566, '}') == 1);
    EXPECT(close(fd) == 0 && unlink(path) == 0);
    zc_lazy_free(&lazy);
    zc_lazy_free(&whole);
    zc_files_free(&files);
    zc_free(&x);
    zc_free(&part);
}

/* The letters 8,192 times, through a file: cut and searched. */
static void searches_of_long_texts(zc_cord *x) {
    char path[] = "/tmp/zomtsje_XXXXXX";
    zc_cord read = ZC_EMPTY, part = ZC_EMPTY;
    int fd = mkstemp(path);
    EXPECT(fd >= 0);
    for (int i = 1; i < 14; i++) twice(x);
    put_at(x, fd, 0);
    read_path(path, &read);
    EXPECT(zc_len(&read) == 294912 && order_of(&read, x) == 0);
    DO(zc_substr(&read, 36000, 36, &part));
    EXPECT_TEXT(&part, LETTERS);
    DO(zc_substr(&read, 36000, 2, &part));
    EXPECT_TEXT(&part, "ab");
    EXPECT(place_of_bytes(x, 1, "9a") == 35);
    EXPECT(place_of_bytes(x, 0, "9abcdefghijk") == 35);
    EXPECT(place_of_bytes(x, 0, "9abcdefghijx") == ZC_NOT_FOUND);
    EXPECT(place_of_bytes(x, 0, "9>") == ZC_NOT_FOUND);
    EXPECT(close(fd) == 0 && unlink(path) == 0);
    zc_free(&read);
    zc_free(&part);
}

static void long_texts(void) {
    zc_cord letters = ZC_EMPTY, text = ZC_EMPTY;
    DO(zc_from_bytes(LETTERS, 36, &letters));
    orders(&letters, &text);
    orders_in_a_file(&letters, &text);
    searches_of_long_texts(&letters);
    zc_free(&letters);
    zc_free(&text);
}

/* Prints beside those of the C library. */
static void prints(void) {
    zc_arg words[3] = {ZC_TEXT, ZC_NUMBER('x'), ZC_TEXT}, text = ZC_TEXT;
    zc_arg numbers[3] = {ZC_NUMBER(123), ZC_NUMBER(4567), ZC_NUMBER(0x4abc)};
    zc_cord out = ZC_EMPTY;
    char wanted[200], copy[124];
    DO(zc_from_bytes("abcd", 4, &words[0].text));
    DO(zc_from_bytes("yz", 2, &words[2].text));
    DO(format("%-7.2s%c%s", words, 3, &out));
    EXPECT_TEXT(&out, "ab     xyz");
    DO(zc_from_bytes("abcdefghij", 10, &text.text));
    for (int i = 0; i < 3; i++) twice(&text.text);
    EXPECT(snprintf(wanted, sizeof wanted, "->%-120.78s!\n",
                    "abcdefghijabcdefghijabcdefghijabcdefghijabcdefghijabcdefghijabcdefghijabcdefghij") == 124);
    DO(format("->%-120.78s!\n", &text, 1, &out));
    EXPECT(zc_len(&out) == 124);
    DO(zc_to_bytes(&out, 0, copy, sizeof copy));
    EXPECT(memcmp(copy, wanted, sizeof copy) == 0);
    DO(format("%lu %ld 0x%lx", numbers, 3, &out));
    EXPECT_TEXT(&out, "123 4567 0x4abc");
    zc_free(&words[0].text);
    zc_free(&words[2].text);
    zc_free(&text.text);
    zc_free(&out);
}

int main(int count, char **words) {
    (void)words;
    may_want = count > 1;
    makes();
    joins();
    cuts();
    changes();
    beginnings();
    lines();
    limits();
    searches();
    parts_in_order();
    compares_long_parts();
    hashes();
    lines_in_many_leaves();
    copies();
    reads();
    grows();
    grows_by_leaves();
    grows_no_longer();
    edits();
    edits_by_leaves();
    edits_no_longer();
    lines_by_number();
    lines_along_edits();
    walks();
    walks_far();
    chunks_in_order();
    chunks_from_the_back();
    long_chunks();
    lent_chunks();
    files();
    paths();
    formats();
    formats_refused();
    nulls();
    nulls_of_the_rest();
    lazies();
    lazies_balanced();
    lazies_refused();
    lazies_from_the_end();
    lazies_in_order();
    lazies_by_length();
    lazies_are_long();
    lazies_at_most();
    put_lazily();
    nulls_of_lazies();
    nulls_of_edits();
    nulls_of_lines();
    nulls_of_lazy_reads();
    doubles();
    long_texts();
    prints();
    messages();
    if (!may_want) trees();
    printf("%lu rows, %lu refused\n", rows, wants);
    return 0;
}
