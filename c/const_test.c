/* What calls take as const, in memory that can't be written: a call that writes to it ends the program. The library's
 * memory comes from one array here (the linker wraps malloc, realloc and free), so that the trees can be locked too, and
 * what a call takes is counted. */
#define _DEFAULT_SOURCE
#include "testing.h"
#include <fcntl.h>
#include <string.h>
#include <sys/mman.h>

#define ROOM ((size_t)8 << 20)

/* The handles, and then the blocks of the library, each with its length in front. No block is used again. */
static struct {
    zc_cord x, y, none;
    zc_lazy lazy;
    zc_edit edit;
    zc_lines lines;
    zc_ext ext;
    zc_pos position;
    zc_arg args[1];
} *held;
static unsigned char *room;
static size_t used = 0;

void *__wrap_malloc(size_t size) {
    size_t place = used + 16;
    if (size > ROOM || place > ROOM - size) return NULL;
    used = place + (size + 15) / 16 * 16;
    memcpy(room + place - 16, &size, sizeof size);
    return room + place;
}

void *__wrap_realloc(void *old, size_t size) {
    size_t had = 0;
    void *made = __wrap_malloc(size);
    if (old != NULL) memcpy(&had, (unsigned char *)old - 16, sizeof had);
    if (made != NULL && old != NULL) memcpy(made, old, had < size ? had : size);
    return made;
}

void __wrap_free(void *block) {
    (void)block;
}

static void *pages(size_t size) {
    void *made = mmap(NULL, size, PROT_READ | PROT_WRITE, MAP_PRIVATE | MAP_ANONYMOUS, -1, 0);
    EXPECT(made != MAP_FAILED);
    return made;
}

/* What handles hold: a text of several leaves and a run, so that trees are gone down. */
static void fill(void) {
    const char *line = "one line, and a little more of it, so that no two of them are joined to a leaf\n";
    zc_cord part = ZC_EMPTY;
    DO(zc_chars('a', 5000, &held->x));
    for (int i = 0; i < 100; i++) {
        DO(zc_from_bytes(line, 79, &part));
        DO(zc_cat(&held->x, &part, &held->x));
    }
    DO(zc_substr(&held->x, 4000, 3000, &held->y));
    DO(zc_lazy_from_cord(&held->x, &held->lazy));
    DO(zc_edit_set(&held->x, &held->edit));
    DO(zc_lines_set(&held->x, &held->lines));
    DO(zc_edit_bytes(&held->edit, 5, "b", 1));
    DO(zc_edit_remove(&held->edit, 5, 1));
    DO(zc_ext_cord(&held->ext, &held->x));
    DO(zc_pos_set(&held->x, 5004, &held->position));
    DO(zc_share(&held->y, &held->args[0].text));
    held->args[0].is_text = 1;
}

/* Calls that write numbers and bytes alone: handles and trees are locked. */
static void ask(int null) {
    unsigned char byte = 0, bytes[200];
    uint64_t place = 0;
    uint32_t file = 0;
    size_t got = 0;
    EXPECT(zc_len(&held->x) == 12900 && zc_depth(&held->x) > 0 && zc_len(&held->none) == 0);
    EXPECT(zc_fetch(&held->x, 5004, &byte) == ZC_OK && byte == 'l');
    EXPECT(zc_chr(&held->x, 0, 'o', &place) == ZC_OK && place == 5000);
    EXPECT(zc_rchr(&held->x, 12900, 'o', &place) == ZC_OK && place == 12891);
    EXPECT(zc_starts_with(&held->x, "aa", 2) == 1 && zc_ends_with(&held->x, "leaf\n", 5) == 1);
    EXPECT(zc_count(&held->x, '\n') == 100 && zc_hash(&held->x) != zc_hash(&held->none));
    EXPECT(zc_to_bytes(&held->x, 4990, bytes, 200) == ZC_OK && memcmp(bytes, "aaaaaaaaaaone", 13) == 0);
    EXPECT(zc_read(&held->x, 12890, bytes, 200, &got) == ZC_OK && got == 10);
    EXPECT(zc_edit_len(&held->edit) == 12900 && zc_ext_len(&held->ext) == 12900);
    EXPECT(zc_lines_count(&held->lines) == 100);
    EXPECT(zc_lines_start(&held->lines, &held->x, 1, &place) == ZC_OK && place == 5079);
    EXPECT(zc_lines_of(&held->lines, &held->x, 5079, &place) == ZC_OK && place == 1);
    EXPECT(zc_lines_utf8(&held->lines, &held->x, 4990, 20, &place) == ZC_OK && place == 20);
    EXPECT(zc_pos_index(&held->position) == 5004 && zc_pos_fetch(&held->position, &byte) == ZC_OK && byte == 'l');
    EXPECT(zc_lazy_len(&held->lazy) == 12900 && zc_lazy_depth(&held->lazy) > 0);
    EXPECT(zc_put(&held->x, null) == ZC_OK);
    EXPECT(zc_lazy_part(&held->lazy, 5000, bytes, 200, &got, &file, &place) == ZC_OK && got == 79);
}

/* A comparison of a cord with itself looks at no tree, and marks none. */
static void ask_itself(void) {
    int32_t answer = 7;
    EXPECT(zc_cmp(&held->x, &held->x, &answer) == ZC_OK && answer == 0);
    EXPECT(zc_equal(&held->x, &held->x, &answer) == ZC_OK && answer == 1);
}

/* Calls that share parts, or compare them: handles alone are locked. */
static void make(void) {
    zc_cord out = ZC_EMPTY;
    zc_lazy lazy = ZC_LAZY_EMPTY;
    zc_edit edit = ZC_EDIT_EMPTY;
    zc_lines lines = ZC_LINES_EMPTY;
    static zc_chunks chunks = ZC_CHUNKS_EMPTY;
    int32_t order = 5;
    uint64_t at = 0;
    DO(zc_cat(&held->x, &held->y, &out));
    DO(zc_catn(&held->x, 2, &out));
    EXPECT(zc_len(&out) == 15900);
    DO(zc_cat_bytes(&held->x, "b", 1, &out));
    DO(zc_cat_char(&held->x, 'b', &out));
    DO(zc_substr(&held->x, 10, 20, &out));
    DO(zc_insert(&held->x, 1, &held->y, &out));
    DO(zc_remove(&held->x, 1, 2, &out));
    DO(zc_replace(&held->x, 1, 2, &held->y, &out));
    DO(zc_repeat(&held->x, 3, &out));
    DO(zc_nth_line(&held->x, 1, &out));
    DO(zc_balance(&held->x, &out));
    DO(zc_share(&held->x, &out));
    DO(zc_append(&out, &held->x));
    DO(zc_splice(&out, 1, 2, &held->y));
    EXPECT(zc_str(&held->x, 0, &held->y, &at) == ZC_OK && at == 4000);
    EXPECT(zc_find(&held->x, 0, "\none", 4, &at) == ZC_OK && at == 5078);
    EXPECT(zc_find_in(&held->x, 0, 5082, "\none", 4, &at) == ZC_OK && at == 5078);
    EXPECT(zc_str_in(&held->x, 0, 9000, &held->y, &at) == ZC_OK && at == 4000);
    EXPECT(zc_rstr(&held->x, 12900, &held->y, &at) == ZC_OK);
    EXPECT(zc_rfind(&held->x, 12900, "one", 3, &at) == ZC_OK && at > 5078);
    EXPECT(zc_cmp(&held->x, &held->y, &order) == ZC_OK && order == -1);
    EXPECT(zc_equal(&held->x, &held->x, &order) == ZC_OK && order == 1);
    DO(zc_ncmp(&held->x, 4000, &held->y, 0, 3000, &order));
    EXPECT(order == 0);
    DO(zc_sprintf("%s", 2, held->args, 1, &out, &at));
    EXPECT(zc_equal(&out, &held->y, &order) == ZC_OK && order == 1);
    DO(zc_chunks_set(&held->x, 0, &chunks));
    DO(zc_edit_to_cord(&held->edit, &out));
    EXPECT(zc_equal(&out, &held->x, &order) == ZC_OK && order == 1);
    DO(zc_edit_set(&held->x, &edit));
    DO(zc_edit_cord(&edit, 1, 2, &held->y));
    DO(zc_lines_set(&held->x, &lines));
    DO(zc_lines_edited(&lines, &held->x, 1, 2, 2));
    DO(zc_lines_edited_from(&lines, &held->x, &held->x, 1, 2, 2));
    DO(zc_lines_line(&held->lines, &held->x, 1, &out));
    DO(zc_lazy_from_cord(&held->x, &lazy));
    DO(zc_lazy_cat(&held->lazy, &held->lazy, &lazy));
    DO(zc_lazy_substr(&held->lazy, 1, 2, &lazy));
    DO(zc_lazy_insert(&held->lazy, 1, &held->lazy, &lazy));
    DO(zc_lazy_remove(&held->lazy, 1, 2, &lazy));
    DO(zc_lazy_replace(&held->lazy, 1, 2, &held->lazy, &lazy));
    DO(zc_lazy_balance(&held->lazy, &lazy));
    DO(zc_lazy_share(&held->lazy, &lazy));
}

/* The first call takes more memory than the other. */
#define TAKES_MORE(call, other)                                                                                        \
    do {                                                                                                               \
        size_t begin = used, taken;                                                                                    \
        EXPECT((call) == ZC_OK);                                                                                       \
        taken = used - begin, begin = used;                                                                            \
        EXPECT((other) == ZC_OK);                                                                                      \
        expect(taken > used - begin, #call, __LINE__);                                                                 \
    } while (0)

/* Where a second handle that is read is the first one, the call gets a share: it takes a block more. */
static void share(void) {
    zc_cord x = ZC_EMPTY, y = ZC_EMPTY, out = ZC_EMPTY;
    zc_lazy lazy = ZC_LAZY_EMPTY, copy = ZC_LAZY_EMPTY, made = ZC_LAZY_EMPTY;
    zc_lines lines = ZC_LINES_EMPTY;
    int32_t order = 7;
    DO(zc_share(&held->x, &x));
    DO(zc_share(&held->x, &y));
    DO(zc_share(&held->x, &out));
    DO(zc_lines_set(&x, &lines));
    DO(zc_lazy_share(&held->lazy, &lazy));
    DO(zc_lazy_share(&held->lazy, &copy));
    DO(zc_lazy_share(&held->lazy, &made));
    TAKES_MORE(zc_cat(&x, &x, &out), zc_cat(&x, &y, &out));
    TAKES_MORE(zc_insert(&x, 7, &x, &out), zc_insert(&x, 7, &y, &out));
    TAKES_MORE(zc_replace(&x, 7, 9, &x, &out), zc_replace(&x, 7, 9, &y, &out));
    TAKES_MORE(zc_ncmp(&x, 7, &x, 5000, 9, &order), zc_ncmp(&x, 7, &y, 5000, 9, &order));
    TAKES_MORE(zc_lines_edited_from(&lines, &x, &x, 1, 2, 2), zc_lines_edited_from(&lines, &x, &y, 1, 2, 2));
    TAKES_MORE(zc_lazy_cat(&lazy, &lazy, &made), zc_lazy_cat(&lazy, &copy, &made));
    TAKES_MORE(zc_lazy_insert(&lazy, 7, &lazy, &made), zc_lazy_insert(&lazy, 7, &copy, &made));
    TAKES_MORE(zc_lazy_replace(&lazy, 7, 9, &lazy, &made), zc_lazy_replace(&lazy, 7, 9, &copy, &made));
    DO(zc_share(&x, &out));
    TAKES_MORE(zc_append(&x, &x), zc_append(&out, &y));
    DO(zc_share(&y, &x));
    DO(zc_share(&y, &out));
    TAKES_MORE(zc_splice(&x, 7, 9, &x), zc_splice(&out, 7, 9, &y));
}

int main(void) {
    int null = open("/dev/null", O_WRONLY);
    size_t handles = (sizeof *held / 4096 + 1) * 4096;
    held = pages(handles);
    room = pages(ROOM);
    fill();
    EXPECT(mprotect(held, handles, PROT_READ) == 0);
    make();
    share();
    EXPECT(mprotect(room, ROOM, PROT_READ) == 0);
    ask(null);
    ask_itself();
    printf("%lu rows\n", rows);
    return 0;
}
