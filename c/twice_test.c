/* Calls in which one handle is given twice, beside the same calls over different handles, by rows as testing.h says. A
 * result that is read too comes from a handle of its own: its block is another one than before. */
#include "testing.h"
#include <string.h>

/* Calls that make a cord, and how many they read. */
typedef struct of_cords {
    int (*call)(const zc_cord *x, const zc_cord *y, zc_cord *out);
    int count;
} of_cords;
typedef struct of_lazies {
    int (*call)(const zc_lazy *x, const zc_lazy *y, zc_lazy *out);
    int count;
} of_lazies;

static const char *const TEXTS[] = {"ab\ncdef\nab", "cd\nef", "the result"};
/* Which of three handles are x, y and the result. */
static const int WAYS[][3] = {{0, 1, 2}, {0, 1, 0}, {0, 1, 1}, {0, 0, 2}, {0, 0, 0}};
enum { HANDLES = 3, COUNT_OF_WAYS = sizeof WAYS / sizeof WAYS[0] };

static int is_read(const int *way, int count) {
    return way[2] == way[0] || (count == 2 && way[2] == way[1]);
}

#define MAKER(name, call)                                                           \
    static int name(const zc_cord *x, const zc_cord *y, zc_cord *out) {             \
        (void)y;                                                                    \
        return call;                                                                \
    }
MAKER(share, zc_share(x, out))
MAKER(balance, zc_balance(x, out))
MAKER(repeat, zc_repeat(x, 3, out))
MAKER(nth_line, zc_nth_line(x, 1, out))
MAKER(cat_char, zc_cat_char(x, '!', out))
MAKER(cat_bytes, zc_cat_bytes(x, "more", 4, out))
MAKER(substr, zc_substr(x, 1, 3, out))
MAKER(take_out, zc_remove(x, 1, 3, out))
MAKER(cat, zc_cat(x, y, out))
MAKER(insert, zc_insert(x, 2, y, out))
MAKER(replace, zc_replace(x, 1, 2, y, out))
static const of_cords MAKERS[] = {{share, 1}, {balance, 1}, {repeat, 1}, {nth_line, 1}, {cat_char, 1}, {cat_bytes, 1},
                                  {substr, 1}, {take_out, 1}, {cat, 2}, {insert, 2}, {replace, 2}};

#define LAZY_MAKER(name, call)                                                      \
    static int name(const zc_lazy *x, const zc_lazy *y, zc_lazy *out) {             \
        (void)y;                                                                    \
        return call;                                                                \
    }
LAZY_MAKER(lazy_share, zc_lazy_share(x, out))
LAZY_MAKER(lazy_balance, zc_lazy_balance(x, out))
LAZY_MAKER(lazy_substr, zc_lazy_substr(x, 1, 3, out))
LAZY_MAKER(lazy_remove, zc_lazy_remove(x, 1, 3, out))
LAZY_MAKER(lazy_cat, zc_lazy_cat(x, y, out))
LAZY_MAKER(lazy_insert, zc_lazy_insert(x, 2, y, out))
LAZY_MAKER(lazy_replace, zc_lazy_replace(x, 1, 2, y, out))
static const of_lazies LAZY_MAKERS[] = {{lazy_share, 1}, {lazy_balance, 1}, {lazy_substr, 1}, {lazy_remove, 1},
                                        {lazy_cat, 2}, {lazy_insert, 2}, {lazy_replace, 2}};

static int append(zc_cord *x, const zc_cord *y) {
    return zc_append(x, y);
}

static int splice(zc_cord *x, const zc_cord *y) {
    return zc_splice(x, 1, 2, y);
}

static void expect_text(const zc_cord *x, const char *wanted) {
    char bytes[200];
    size_t got = 0;
    EXPECT(zc_read(x, 0, bytes, sizeof bytes, &got) == ZC_OK);
    EXPECT(got == strlen(wanted) && memcmp(bytes, wanted, got) == 0);
}

static void expect_same(const zc_cord *x, const zc_cord *y) {
    int32_t equal = 0;
    EXPECT(zc_equal(x, y, &equal) == ZC_OK && equal == 1);
}

static void free_all(zc_cord *cords) {
    for (int i = 0; i < HANDLES; i++) zc_free(&cords[i]);
}

static void make_in(of_cords make, const int *way) {
    zc_cord apart[HANDLES] = {ZC_EMPTY}, given[HANDLES] = {ZC_EMPTY};
    for (int i = 0; i < HANDLES; i++) {
        DO(zc_from_bytes(TEXTS[way[i]], strlen(TEXTS[way[i]]), &apart[i]));
        DO(zc_from_bytes(TEXTS[i], strlen(TEXTS[i]), &given[i]));
    }
    void *block = given[way[2]].tree;
    DO(make.call(&apart[0], &apart[1], &apart[2]));
    DO(make.call(&given[way[0]], &given[way[1]], &given[way[2]]));
    expect_same(&given[way[2]], &apart[2]);
    EXPECT((given[way[2]].tree == block) == !is_read(way, make.count));
    for (int i = 0; i < HANDLES; i++)
        if (i != way[2]) expect_text(&given[i], TEXTS[i]);
    free_all(apart);
    free_all(given);
}

static void fill_lazies(zc_lazy *lazies, const int *texts) {
    zc_cord text = ZC_EMPTY;
    for (int i = 0; i < HANDLES; i++) {
        DO(zc_from_bytes(TEXTS[texts[i]], strlen(TEXTS[texts[i]]), &text));
        DO(zc_lazy_from_cord(&text, &lazies[i]));
    }
    zc_free(&text);
}

static void make_lazily_in(of_lazies make, const int *way) {
    zc_lazy apart[HANDLES] = {ZC_LAZY_EMPTY}, given[HANDLES] = {ZC_LAZY_EMPTY}, before[HANDLES] = {ZC_LAZY_EMPTY};
    zc_files files = ZC_FILES_NONE;
    int32_t order = 7;
    fill_lazies(apart, way);
    fill_lazies(given, WAYS[0]);
    fill_lazies(before, WAYS[0]);
    void *block = given[way[2]].tree;
    DO(make.call(&apart[0], &apart[1], &apart[2]));
    DO(make.call(&given[way[0]], &given[way[1]], &given[way[2]]));
    EXPECT((given[way[2]].tree == block) == !is_read(way, make.count));
    for (int i = 0; i < HANDLES; i++)
        EXPECT(zc_lazy_cmp(&files, &given[i], i == way[2] ? &apart[2] : &before[i], &order) == ZC_OK && order == 0);
    for (int i = 0; i < HANDLES; i++) {
        zc_lazy_free(&apart[i]);
        zc_lazy_free(&given[i]);
        zc_lazy_free(&before[i]);
    }
}

static void change_by_itself(int (*change)(zc_cord *x, const zc_cord *y)) {
    zc_cord x = ZC_EMPTY, y = ZC_EMPTY, z = ZC_EMPTY;
    DO(zc_from_bytes(TEXTS[0], strlen(TEXTS[0]), &x));
    DO(zc_share(&x, &y));
    DO(zc_share(&x, &z));
    DO(change(&y, &z));
    DO(change(&x, &x));
    expect_same(&x, &y);
    expect_text(&z, TEXTS[0]);
    zc_free(&x);
    zc_free(&y);
    zc_free(&z);
}

/* Searches for a cord in itself, and comparisons of its parts. */
static void ask_itself(const char *text) {
    zc_cord x = ZC_EMPTY, y = ZC_EMPTY;
    uint64_t found = 7, wanted = 8, length = strlen(text);
    int32_t order = 7, right = 8;
    DO(zc_from_bytes(text, length, &x));
    DO(zc_from_bytes(text, length, &y));
    for (uint64_t i = 0; i < length + 3; i++) {
        EXPECT(zc_str(&x, i, &x, &found) == ZC_OK && zc_str(&x, i, &y, &wanted) == ZC_OK && found == wanted);
        EXPECT(zc_rstr(&x, i, &x, &found) == ZC_OK && zc_rstr(&x, i, &y, &wanted) == ZC_OK && found == wanted);
        for (uint64_t j = 0; j < length + 3; j++) {
            EXPECT(zc_str_in(&x, i, j, &x, &found) == ZC_OK && zc_str_in(&x, i, j, &y, &wanted) == ZC_OK);
            EXPECT(found == wanted);
            DO(zc_ncmp(&x, i, &x, j, 4, &order));
            DO(zc_ncmp(&x, i, &y, j, 4, &right));
            EXPECT(order == right);
        }
    }
    EXPECT(zc_cmp(&x, &x, &order) == ZC_OK && order == 0);
    EXPECT(zc_equal(&x, &x, &order) == ZC_OK && order == 1);
    expect_same(&x, &y);
    zc_free(&x);
    zc_free(&y);
}

/* The result is one of the cords that are joined, or that of an argument. */
static void lists(void) {
    zc_cord parts[HANDLES] = {ZC_EMPTY};
    zc_arg args[2] = {ZC_TEXT, ZC_TEXT};
    uint64_t at = 7;
    for (int i = 0; i < HANDLES; i++) {
        for (int j = 0; j < HANDLES; j++) DO(zc_from_bytes(TEXTS[j], strlen(TEXTS[j]), &parts[j]));
        void *block = parts[i].tree;
        DO(zc_catn(parts, HANDLES, &parts[i]));
        expect_text(&parts[i], "ab\ncdef\nabcd\nefthe result");
        EXPECT(parts[i].tree != block);
        for (int j = 0; j < HANDLES; j++)
            if (i != j) expect_text(&parts[j], TEXTS[j]);
    }
    for (int i = 0; i < 2; i++) {
        for (int j = 0; j < 2; j++) DO(zc_from_bytes(TEXTS[j + 1], strlen(TEXTS[j + 1]), &args[j].text));
        void *block = args[i].text.tree;
        DO(zc_sprintf("<%s|%s>", 7, args, 2, &args[i].text, &at));
        expect_text(&args[i].text, "<cd\nef|the result>");
        expect_text(&args[1 - i].text, TEXTS[2 - i]);
        EXPECT(args[i].text.tree != block && at == 7);
    }
    free_all(parts);
    for (int i = 0; i < 2; i++) zc_free(&args[i].text);
}

static void lines_twice(void) {
    zc_cord x = ZC_EMPTY;
    zc_lines lines = ZC_LINES_EMPTY;
    uint64_t place = 7;
    DO(zc_from_bytes(TEXTS[0], strlen(TEXTS[0]), &x));
    DO(zc_lines_set(&x, &lines));
    DO(zc_lines_edited_from(&lines, &x, &x, 3, 2, 2));
    EXPECT(zc_lines_count(&lines) == 3 && zc_lines_start(&lines, &x, 2, &place) == ZC_OK && place == 8);
    void *block = x.tree;
    DO(zc_lines_line(&lines, &x, 1, &x));
    expect_text(&x, "cdef");
    EXPECT(x.tree != block);
    zc_free(&x);
    zc_lines_free(&lines);
}

/* What a call refuses leaves the result as it was, also where it is read too. */
static void refused(void) {
    zc_cord x = ZC_EMPTY, y = ZC_EMPTY, parts[2] = {ZC_EMPTY, ZC_EMPTY};
    zc_arg arg = ZC_TEXT;
    zc_lines lines = ZC_LINES_EMPTY;
    uint64_t at = 7;
    DO(zc_chars('m', ZC_MAX_LEN, &x));
    DO(zc_share(&x, &parts[0]));
    DO(zc_share(&x, &parts[1]));
    DO(zc_share(&x, &arg.text));
    EXPECT(zc_cat(&x, &x, &x) == ZC_TOO_LONG || may_want);
    EXPECT(zc_insert(&x, 1, &parts[0], &x) == ZC_TOO_LONG || may_want);
    EXPECT(zc_append(&x, &x) == ZC_TOO_LONG || may_want);
    EXPECT(zc_splice(&x, 1, 0, &x) == ZC_TOO_LONG || may_want);
    EXPECT(zc_cat_bytes(&x, "b", 1, &x) == ZC_TOO_LONG || may_want);
    EXPECT(zc_repeat(&x, 2, &x) == ZC_TOO_LONG || may_want);
    EXPECT(zc_catn(parts, 2, &parts[1]) == ZC_TOO_LONG || may_want);
    EXPECT(zc_sprintf("%s!", 3, &arg, 1, &arg.text, &at) == ZC_TOO_LONG || may_want);
    DO(zc_from_bytes("line", 4, &y));
    EXPECT(zc_nth_line(&y, 1, &y) == ZC_PAST_END || may_want);
    EXPECT(zc_lines_line(&lines, &y, 7, &y) == ZC_PAST_END || may_want);
    expect_text(&y, "line");
    EXPECT(zc_len(&x) == ZC_MAX_LEN && zc_len(&parts[1]) == ZC_MAX_LEN && zc_len(&arg.text) == ZC_MAX_LEN);
    for (int i = 0; i < 2; i++) zc_free(&parts[i]);
    zc_free(&arg.text);
    zc_free(&x);
    zc_free(&y);
}

static void nulls(void) {
    zc_cord *none = NULL, x = ZC_EMPTY;
    uint64_t *nowhere = NULL, place = 7;
    int32_t *no_order = NULL, order = 7;
    EXPECT(zc_cat(none, none, none) == ZC_NULL && zc_cat(&x, &x, none) == ZC_NULL && zc_cat(none, &x, none) == ZC_NULL);
    EXPECT(zc_share(none, none) == ZC_NULL && zc_append(none, none) == ZC_NULL && zc_catn(none, 0, none) == ZC_NULL);
    EXPECT(zc_str(none, 0, none, &place) == ZC_NULL && zc_str(&x, 0, &x, nowhere) == ZC_NULL);
    EXPECT(zc_rstr(none, 0, none, &place) == ZC_NULL && zc_str_in(none, 0, 0, none, &place) == ZC_NULL);
    EXPECT(zc_cmp(none, none, &order) == ZC_NULL && zc_cmp(&x, &x, no_order) == ZC_NULL);
    EXPECT(zc_equal(none, none, &order) == ZC_NULL && zc_ncmp(none, 0, none, 0, 0, &order) == ZC_NULL);
    EXPECT(zc_ncmp(&x, 0, &x, 0, 0, no_order) == ZC_NULL && zc_lines_edited_from(NULL, &x, &x, 0, 0, 0) == ZC_NULL);
    EXPECT(zc_ext_cord(NULL, none) == ZC_NULL && zc_edit_set(none, NULL) == ZC_NULL);
    EXPECT(zc_lines_set(none, NULL) == ZC_NULL);
    EXPECT(zc_lines_line(NULL, none, 0, none) == ZC_NULL && zc_lazy_cat(NULL, NULL, NULL) == ZC_NULL);
    EXPECT(place == 7 && order == 7);
}

/* One place as handles of two kinds: by a cast, or as the handle that another one begins with. */
static void two_kinds(void) {
    zc_cord x = ZC_EMPTY;
    zc_ext ext = ZC_EXT_EMPTY;
    zc_pos position = ZC_POS_NOWHERE;
    zc_chunks chunks = ZC_CHUNKS_EMPTY;
    zc_edit edit = ZC_EDIT_EMPTY;
    zc_lines lines = ZC_LINES_EMPTY;
    zc_lazy lazy = ZC_LAZY_EMPTY;
    zc_cord *in_edit = (zc_cord *)&edit, *in_lines = (zc_cord *)&lines;
    uint64_t n = 7;
    DO(zc_from_bytes(TEXTS[0], strlen(TEXTS[0]), &x));
    DO(zc_ext_cord(&ext, &x));
    DO(zc_pos_set(&x, 3, &position));
    DO(zc_chunks_set(&x, 0, &chunks));
    DO(zc_edit_set(&x, &edit));
    DO(zc_lines_set(&x, &lines));
    DO(zc_lazy_from_cord(&x, &lazy));
    EXPECT(zc_ext_cord(&ext, &ext.built) == ZC_BAD_ARGUMENT && zc_ext_to_cord(&ext, &ext.built) == ZC_BAD_ARGUMENT);
    EXPECT(zc_pos_set(&position.text, 0, &position) == ZC_BAD_ARGUMENT);
    EXPECT(zc_chunks_set(&chunks.text, 0, &chunks) == ZC_BAD_ARGUMENT);
    EXPECT(zc_edit_set(in_edit, &edit) == ZC_BAD_ARGUMENT && zc_edit_cord(&edit, 0, 1, in_edit) == ZC_BAD_ARGUMENT);
    EXPECT(zc_edit_to_cord(&edit, in_edit) == ZC_BAD_ARGUMENT);
    EXPECT(zc_lines_set(in_lines, &lines) == ZC_BAD_ARGUMENT);
    EXPECT(zc_lines_start(&lines, in_lines, 0, &n) == ZC_BAD_ARGUMENT);
    EXPECT(zc_lines_of(&lines, in_lines, 0, &n) == ZC_BAD_ARGUMENT);
    EXPECT(zc_lines_utf8(&lines, in_lines, 0, 1, &n) == ZC_BAD_ARGUMENT);
    EXPECT(zc_lines_line(&lines, in_lines, 0, &x) == ZC_BAD_ARGUMENT);
    EXPECT(zc_lines_line(&lines, &x, 0, in_lines) == ZC_BAD_ARGUMENT);
    EXPECT(zc_lines_edited(&lines, in_lines, 0, 1, 1) == ZC_BAD_ARGUMENT);
    EXPECT(zc_lines_edited_from(&lines, in_lines, &x, 0, 1, 1) == ZC_BAD_ARGUMENT);
    EXPECT(zc_lines_edited_from(&lines, &x, in_lines, 0, 1, 1) == ZC_BAD_ARGUMENT);
    EXPECT(zc_lazy_from_cord((zc_cord *)&lazy, &lazy) == ZC_BAD_ARGUMENT);
    expect_text(&x, TEXTS[0]);
    EXPECT(zc_ext_len(&ext) == 10 && zc_pos_index(&position) == 3 && zc_chunks_next(&chunks) == 10);
    EXPECT(zc_edit_len(&edit) == 10 && zc_lines_count(&lines) == 3 && zc_lazy_len(&lazy) == 10 && n == 7);
    zc_free(&x);
    zc_ext_free(&ext);
    zc_pos_free(&position);
    zc_chunks_free(&chunks);
    zc_edit_free(&edit);
    zc_lines_free(&lines);
    zc_lazy_free(&lazy);
}

int main(int count, char **words) {
    (void)words;
    may_want = count > 1;
    for (int i = 0; i < COUNT_OF_WAYS; i++) {
        for (size_t j = 0; j < sizeof MAKERS / sizeof MAKERS[0]; j++) make_in(MAKERS[j], WAYS[i]);
        for (size_t j = 0; j < sizeof LAZY_MAKERS / sizeof LAZY_MAKERS[0]; j++) make_lazily_in(LAZY_MAKERS[j], WAYS[i]);
    }
    change_by_itself(append);
    change_by_itself(splice);
    ask_itself("");
    ask_itself("abab\nab");
    lists();
    lines_twice();
    refused();
    nulls();
    two_kinds();
    printf("%lu rows, %lu refused\n", rows, wants);
    return 0;
}
