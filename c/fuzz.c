/* Random calls of the library beside a plain model, in which each cord is an array of bytes.
 *
 *     fuzz SEED COUNT
 *
 * Handles are chosen freely, so that one is often given twice, and as the result too. One call in eight is refused a
 * request for memory, one of its first four: it has to say so or do without, and nothing may have changed. The linker
 * puts __wrap_malloc and __wrap_realloc in place of the two that the library calls. Prints how many calls were made,
 * and how many were refused. */
#define _GNU_SOURCE
#include "zomtsje.h"
#include <errno.h>
#include <fcntl.h>
#include <stdio.h>
#include <stdlib.h>
#include <string.h>
#include <sys/mman.h>
#include <unistd.h>

enum { CORDS = 6, LAZIES = 4, FILES = 3, LONGEST = 9000, FILE_LENGTH = 40000, LINED_ROOM = 30000 };

/* A text as the model has it. */
typedef struct text {
    size_t count;
    unsigned char bytes[LONGEST];
} text;

static zc_cord cords[CORDS];
static text texts[CORDS];
static zc_lazy lazies[LAZIES];
static text lazy_texts[LAZIES];
static zc_ext grown;
static text grown_text;
static zc_edit edited;
static text edited_text;
static zc_cord lined;
static zc_lines lines;
static unsigned char lined_bytes[LINED_ROOM];
static size_t lined_count;
static zc_pos position;
static text position_text;
static uint64_t position_index = UINT64_MAX;
static zc_chunks chunks;
static text chunks_text;
static size_t chunks_begin, chunks_next; /* of the chunk that was reached */
static zc_files files;
static unsigned char file_bytes[FILES][FILE_LENGTH];
static uint32_t file_numbers[FILES];
static text made; /* what a call has to make */
static uint64_t state;
static unsigned long calls, refusals, refuse_in;
static const char *call_name = "";

void *__real_malloc(size_t count);
void *__real_realloc(void *block, size_t count);

void *__wrap_malloc(size_t count) {
    return refuse_in > 0 && --refuse_in == 0 ? NULL : __real_malloc(count);
}

void *__wrap_realloc(void *block, size_t count) {
    return refuse_in > 0 && --refuse_in == 0 ? NULL : __real_realloc(block, count);
}

static void check(int holds, const char *what, int line) {
    if (holds) return;
    fprintf(stderr, "call %lu, %s: line %d: %s\n", calls, call_name, line, what);
    abort();
}
#define CHECK(holds) check((holds), #holds, __LINE__)

static uint64_t random_bits(void) {
    state ^= state << 13;
    state ^= state >> 7;
    state ^= state << 17;
    return state * UINT64_C(2685821657736338717) >> 11;
}

static size_t below(size_t count) {
    return (size_t)(random_bits() % count);
}

/* A place: mostly inside, sometimes at the end or past it. */
static uint64_t place_in(const text *x) {
    switch (below(8)) {
    case 0: return x->count;
    case 1: return x->count + 1 + below(5);
    case 2: return UINT64_MAX - below(3);
    default: return x->count > 0 ? below(x->count) : 0;
    }
}

static uint64_t count_in(const text *x) {
    return below(8) == 0 ? UINT64_MAX - below(3) : below(x->count + 2);
}

static unsigned char some_byte(void) {
    return (unsigned char)"ab\n\0\377"[below(5)];
}

static size_t smaller(uint64_t x, uint64_t y) {
    return (size_t)(x < y ? x : y);
}

/* The part of a text. */
static void cut(text *to, const text *from, uint64_t start, uint64_t count) {
    size_t place = smaller(start, from->count);
    to->count = smaller(count, from->count - place);
    memmove(to->bytes, from->bytes + place, to->count);
}

static void append(text *to, const void *bytes, size_t count) {
    CHECK(to->count + count <= LONGEST);
    if (count > 0) memcpy(to->bytes + to->count, bytes, count);
    to->count += count;
}

/* A text with some of its bytes replaced. */
static void replace_part(text *to, const text *x, uint64_t start, uint64_t count, const text *y) {
    static text back;
    size_t place = smaller(start, x->count), end = place + smaller(count, x->count - place);
    cut(&back, x, end, UINT64_MAX);
    to->count = 0;
    append(to, x->bytes, place);
    append(to, y->bytes, y->count);
    append(to, back.bytes, back.count);
}

/* A copy of some bytes, in a block that ends where they end. */
static unsigned char *block_of(const unsigned char *bytes, size_t count) {
    unsigned char *block = __real_malloc(count > 0 ? count : 1);
    CHECK(block != NULL);
    if (bytes != NULL && count > 0) memcpy(block, bytes, count);
    return block;
}

static void check_cord(zc_cord *x, const text *wanted) {
    unsigned char *block = block_of(NULL, wanted->count);
    CHECK(zc_len(x) == wanted->count && zc_depth(x) <= ZC_MAX_DEPTH);
    CHECK(zc_to_bytes(x, 0, block, wanted->count) == ZC_OK && memcmp(block, wanted->bytes, wanted->count) == 0);
    free(block);
}

static void check_lazy(zc_lazy *x, const text *wanted) {
    unsigned char *block = block_of(NULL, wanted->count + 1);
    size_t got = 0;
    CHECK(zc_lazy_len(x) == wanted->count && zc_lazy_depth(x) <= ZC_MAX_DEPTH);
    CHECK(zc_lazy_read(&files, x, 0, block, wanted->count + 1, &got) == ZC_OK && got == wanted->count);
    CHECK(memcmp(block, wanted->bytes, got) == 0);
    free(block);
}

/* After a call that makes a cord: what it made is there, or it was refused and the handle is as it was. */
static int is_done(int code) {
    refuse_in = 0;
    CHECK(code == ZC_OK || code == ZC_NO_MEMORY);
    refusals += code == ZC_NO_MEMORY;
    return code == ZC_OK;
}

static void check_made(int code, size_t out) {
    if (is_done(code)) texts[out] = made;
    check_cord(&cords[out], &texts[out]);
}

static void check_made_lazily(int code, size_t out) {
    if (is_done(code)) lazy_texts[out] = made;
    check_lazy(&lazies[out], &lazy_texts[out]);
}

/* ---- the calls, by groups ---- */

static int fits(size_t x, size_t y) {
    return texts[x].count + texts[y].count <= LONGEST;
}

static void empty(size_t out) {
    zc_free(&cords[out]);
    texts[out].count = 0;
}

static void make(size_t x, size_t out) {
    unsigned char byte = some_byte(), *block;
    size_t count = below(below(2) == 0 ? 5000 : 100);
    made.count = 0;
    switch (below(4)) {
    case 0:
        for (size_t i = 0; i < count; i++) made.bytes[made.count++] = some_byte();
        block = block_of(made.bytes, count);
        check_made(zc_from_bytes(block, count, &cords[out]), out);
        free(block);
        return;
    case 1:
        memset(made.bytes, byte, made.count = count);
        check_made(zc_chars(byte, count, &cords[out]), out);
        return;
    case 2:
        cut(&made, &texts[x], 0, UINT64_MAX);
        check_made(zc_share(&cords[x], &cords[out]), out);
        return;
    default:
        cut(&made, &texts[x], 0, UINT64_MAX);
        check_made(zc_balance(&cords[x], &cords[out]), out);
    }
}

static void join(size_t x, size_t y, size_t out) {
    unsigned char byte = some_byte(), *block;
    if (!fits(x, y) || texts[x].count == LONGEST) {
        cut(&made, &texts[x], LONGEST / 9, LONGEST / 3);
        check_made(zc_substr(&cords[x], LONGEST / 9, LONGEST / 3, &cords[out]), out);
        return;
    }
    made = texts[x];
    switch (below(3)) {
    case 0:
        append(&made, texts[y].bytes, texts[y].count);
        check_made(zc_cat(&cords[x], &cords[y], &cords[out]), out);
        break;
    case 1:
        append(&made, texts[y].bytes, texts[y].count);
        block = block_of(texts[y].bytes, texts[y].count);
        check_made(zc_cat_bytes(&cords[x], block, texts[y].count, &cords[out]), out);
        free(block);
        break;
    default:
        append(&made, &byte, 1);
        check_made(zc_cat_char(&cords[x], byte, &cords[out]), out);
    }
}

/* The calls that change a cord in place, and repeats. */
static void change(size_t x, size_t y, size_t out) {
    uint64_t start = place_in(&texts[x]), count = count_in(&texts[x]) % 200, times = below(4);
    switch (below(3)) {
    case 0:
        if (!fits(x, y)) return;
        made = texts[x];
        append(&made, texts[y].bytes, texts[y].count);
        check_made(zc_append(&cords[x], &cords[y]), x);
        break;
    case 1:
        if (!fits(x, y)) return;
        replace_part(&made, &texts[x], start, count, &texts[y]);
        check_made(zc_splice(&cords[x], start, count, &cords[y]), x);
        break;
    default:
        if (texts[x].count * times > LONGEST) return;
        made.count = 0;
        for (uint64_t i = 0; i < times; i++) append(&made, texts[x].bytes, texts[x].count);
        check_made(zc_repeat(&cords[x], times, &cords[out]), out);
    }
}

static void join_many(size_t x, size_t y, size_t out) {
    size_t first = x < y ? x : y, count = below(CORDS - first + 1), total = 0;
    for (size_t i = first; i < first + count; i++) total += texts[i].count;
    if (total > LONGEST) return;
    made.count = 0;
    for (size_t i = first; i < first + count; i++) append(&made, texts[i].bytes, texts[i].count);
    check_made(zc_catn(cords + first, count, &cords[out]), out);
}

static void edit(size_t x, size_t y, size_t out) {
    static const text nothing;
    uint64_t start = place_in(&texts[x]), count = count_in(&texts[x]);
    if (!fits(x, y)) return;
    switch (below(8)) {
    case 0:
    case 1:
    case 2:
        replace_part(&made, &texts[x], start, 0, &texts[y]);
        check_made(zc_insert(&cords[x], start, &cords[y], &cords[out]), out);
        break;
    case 3:
        replace_part(&made, &texts[x], start, count, &nothing);
        check_made(zc_remove(&cords[x], start, count, &cords[out]), out);
        break;
    case 4:
    case 5:
    case 6:
        count %= 200;
        replace_part(&made, &texts[x], start, count, &texts[y]);
        check_made(zc_replace(&cords[x], start, count, &cords[y], &cords[out]), out);
        break;
    default:
        cut(&made, &texts[x], start, count);
        check_made(zc_substr(&cords[x], start, count, &cords[out]), out);
    }
}

static void take_line(size_t x, size_t out) {
    const text *all = &texts[x];
    size_t number = below(20), begin = 0, end;
    for (size_t i = 0; i < number && begin < all->count; i++) {
        const unsigned char *found = memchr(all->bytes + begin, '\n', all->count - begin);
        begin = found == NULL ? all->count : (size_t)(found - all->bytes) + 1;
    }
    int code = zc_nth_line(&cords[x], number, &cords[out]);
    if (begin >= all->count) {
        refuse_in = 0;
        CHECK(code == ZC_PAST_END || code == ZC_NO_MEMORY);
        check_cord(&cords[out], &texts[out]);
        return;
    }
    for (end = begin; end < all->count && all->bytes[end] != '\n'; end++) {}
    cut(&made, all, begin, end - begin);
    check_made(code, out);
}

static void print_texts(size_t x, size_t out) {
    char wanted[64];
    zc_arg args[2] = {ZC_TEXT, ZC_NUMBER((int64_t)below(2000) - 1000)};
    uint64_t at = 7;
    if (texts[x].count + 40 > LONGEST) return;
    refuse_in = 0;
    CHECK(zc_share(&cords[x], &args[0].text) == ZC_OK);
    refuse_in = below(16) == 0 ? 1 + below(4) : 0;
    made = texts[x];
    append(&made, wanted, (size_t)snprintf(wanted, sizeof wanted, "|%+05d%%", (int)args[1].number));
    if (below(2) == 0) { /* the result is the cord of an argument too */
        int code = zc_sprintf("%s|%+05d%%", 10, args, 2, &args[0].text, &at);
        check_cord(&args[0].text, is_done(code) ? &made : &texts[x]);
    } else {
        check_made(zc_sprintf("%s|%+05d%%", 10, args, 2, &cords[out], &at), out);
    }
    zc_free(&args[0].text);
}

static void move_handles(size_t x, size_t y) {
    zc_cord kept = cords[x];
    made = texts[x];
    cords[x] = cords[y], texts[x] = texts[y];
    cords[y] = kept, texts[y] = made;
    if (below(20) == 0) empty(x);
    check_cord(&cords[x], &texts[x]);
    check_cord(&cords[y], &texts[y]);
}

/* ---- questions ---- */

static uint64_t first_place(const text *x, uint64_t start, const unsigned char *bytes, size_t count) {
    if (start > x->count) return ZC_NOT_FOUND;
    if (count == 0) return start;
    const unsigned char *found = memmem(x->bytes + start, x->count - start, bytes, count);
    return found == NULL ? ZC_NOT_FOUND : (uint64_t)(found - x->bytes);
}

static uint64_t last_place(const text *x, uint64_t end, unsigned char byte) {
    const unsigned char *found = memrchr(x->bytes, byte, smaller(end, x->count));
    return found == NULL ? ZC_NOT_FOUND : (uint64_t)(found - x->bytes);
}

static uint64_t last_place_of(const text *x, uint64_t end, const unsigned char *bytes, size_t count) {
    uint64_t stop = smaller(end, x->count);
    if (stop < count) return ZC_NOT_FOUND;
    for (uint64_t at = stop - count + 1; at-- > 0;)
        if (count == 0 || memcmp(x->bytes + at, bytes, count) == 0) return at;
    return ZC_NOT_FOUND;
}

static int ends_with(const text *x, const text *end) {
    return end->count <= x->count && memcmp(x->bytes + x->count - end->count, end->bytes, end->count) == 0;
}

static int32_t order_of(const unsigned char *x, size_t i, const unsigned char *y, size_t j) {
    int found = memcmp(x, y, i < j ? i : j);
    if (found == 0) found = (i > j) - (i < j);
    return (found > 0) - (found < 0);
}

static void search(size_t x, size_t y) {
    static text part;
    uint64_t start = place_in(&texts[x]), place = 7, wanted;
    unsigned char byte = some_byte(), *block;
    cut(&part, &texts[y], place_in(&texts[y]), below(6));
    wanted = first_place(&texts[x], start, part.bytes, part.count);
    block = block_of(part.bytes, part.count);
    if (is_done(zc_find(&cords[x], start, block, part.count, &place))) CHECK(place == wanted);
    wanted = last_place_of(&texts[x], start, part.bytes, part.count);
    if (is_done(zc_rfind(&cords[x], start, block, part.count, &place))) CHECK(place == wanted);
    CHECK(zc_starts_with(&cords[x], block, part.count) == (first_place(&texts[x], 0, part.bytes, part.count) == 0));
    CHECK(zc_ends_with(&cords[x], block, part.count) == ends_with(&texts[x], &part));
    free(block);
    CHECK(zc_chr(&cords[x], start, byte, &place) == ZC_OK && place == first_place(&texts[x], start, &byte, 1));
    CHECK(zc_rchr(&cords[x], start, byte, &place) == ZC_OK && place == last_place(&texts[x], start, byte));
}

/* Searches that end before a place: each of them takes no memory, as the bytes are few. */
static void search_before(size_t x, size_t y, uint64_t start, uint64_t end) {
    uint64_t place = 7;
    text whole = texts[x];
    whole.count = smaller(end, whole.count);
    unsigned char *block = block_of(texts[y].bytes, texts[y].count);
    refuse_in = 1;
    CHECK(zc_find_in(&cords[x], start, end, block, texts[y].count, &place) == ZC_OK);
    CHECK(place == first_place(&whole, start, texts[y].bytes, texts[y].count));
    refuse_in = 0;
    free(block);
    CHECK(zc_str_in(&cords[x], start, end, &cords[y], &place) == ZC_OK);
    CHECK(place == first_place(&whole, start, texts[y].bytes, texts[y].count));
    CHECK(zc_rstr(&cords[x], end, &cords[y], &place) == ZC_OK);
    CHECK(place == last_place_of(&texts[x], end, texts[y].bytes, texts[y].count));
}

static uint64_t hash_of(const text *x) {
    uint64_t sum = UINT64_C(14695981039346656037);
    for (size_t i = 0; i < x->count; i++) sum = (sum ^ x->bytes[i]) * UINT64_C(1099511628211);
    return sum;
}

static void search_cord(size_t x, size_t y) {
    uint64_t start = place_in(&texts[x]), place = 7, count = 0;
    unsigned char byte = some_byte();
    if (is_done(zc_str(&cords[x], start, &cords[y], &place)))
        CHECK(place == first_place(&texts[x], start, texts[y].bytes, texts[y].count));
    else
        CHECK(place == 7);
    search_before(x, y, start, place_in(&texts[x]));
    for (size_t i = 0; i < texts[x].count; i++) count += texts[x].bytes[i] == byte;
    CHECK(zc_count(&cords[x], byte) == count && zc_hash(&cords[x]) == hash_of(&texts[x]));
}

static void compare(size_t x, size_t y) {
    static text left, right;
    uint64_t i = place_in(&texts[x]), j = place_in(&texts[y]), count = count_in(&texts[x]);
    int32_t order = 7, equal = 7;
    if (is_done(zc_equal(&cords[x], &cords[y], &equal)))
        CHECK(equal == (order_of(texts[x].bytes, texts[x].count, texts[y].bytes, texts[y].count) == 0));
    if (is_done(zc_cmp(&cords[x], &cords[y], &order)))
        CHECK(order == order_of(texts[x].bytes, texts[x].count, texts[y].bytes, texts[y].count));
    cut(&left, &texts[x], i, count);
    cut(&right, &texts[y], j, count);
    if (is_done(zc_ncmp(&cords[x], i, &cords[y], j, count, &order)))
        CHECK(order == order_of(left.bytes, left.count, right.bytes, right.count));
}

static void read_some(size_t x) {
    uint64_t start = place_in(&texts[x]);
    size_t count = below(texts[x].count + 2), got = 7, wanted = smaller(count, texts[x].count - smaller(start, texts[x].count));
    unsigned char byte = 7, *block = block_of(NULL, count);
    CHECK(zc_read(&cords[x], start, block, count, &got) == ZC_OK && got == wanted);
    CHECK(got == 0 || memcmp(block, texts[x].bytes + start, got) == 0);
    CHECK(zc_to_bytes(&cords[x], start, block, count) == (wanted == count ? ZC_OK : ZC_PAST_END));
    CHECK(zc_fetch(&cords[x], start, &byte) == (start < texts[x].count ? ZC_OK : ZC_PAST_END));
    CHECK(byte == (start < texts[x].count ? texts[x].bytes[start] : 7));
    free(block);
}

/* ---- what grows, positions and chunks ---- */

static void grow(size_t x, size_t out) {
    unsigned char byte = some_byte(), *block;
    if (grown_text.count + texts[x].count >= LONGEST) {
        zc_ext_free(&grown);
        grown_text.count = 0;
    }
    switch (below(4)) {
    case 0:
        if (is_done(zc_ext_char(&grown, byte))) append(&grown_text, &byte, 1);
        break;
    case 1:
        block = block_of(texts[x].bytes, texts[x].count);
        if (is_done(zc_ext_bytes(&grown, block, texts[x].count))) append(&grown_text, block, texts[x].count);
        free(block);
        break;
    case 2:
        if (is_done(zc_ext_cord(&grown, &cords[x]))) append(&grown_text, texts[x].bytes, texts[x].count);
        break;
    default:
        made = grown_text;
        check_made(zc_ext_to_cord(&grown, &cords[out]), out);
    }
    CHECK(zc_ext_len(&grown) == grown_text.count);
}

/* Edits of a text that is edited in place, most of them beside the one before. */
static void retype(size_t x, size_t out) {
    static uint64_t last;
    static text more;
    uint64_t start = below(4) == 0 ? place_in(&edited_text) : smaller(last, edited_text.count), count = below(6);
    unsigned char *block;
    if (below(40) == 0 || edited_text.count + texts[x].count >= LONGEST) {
        if (is_done(zc_edit_set(&cords[x], &edited))) edited_text = texts[x];
        else zc_edit_free(&edited), edited_text.count = 0;
    }
    if (edited_text.count + texts[x].count >= LONGEST) return;
    more.count = 0;
    made = edited_text;
    switch (below(8)) {
    case 0:
        replace_part(&made, &edited_text, start, count, &texts[x]);
        if (is_done(zc_edit_cord(&edited, start, count, &cords[x]))) edited_text = made;
        break;
    case 1: case 2:
        replace_part(&made, &edited_text, start, count, &more);
        if (is_done(zc_edit_remove(&edited, start, count))) edited_text = made;
        break;
    case 3:
        check_made(zc_edit_to_cord(&edited, &cords[out]), out);
        break;
    default:
        for (size_t i = 0; i < count; i++) more.bytes[more.count++] = some_byte();
        if (made.count + count > LONGEST) return;
        replace_part(&made, &edited_text, start, 0, &more);
        block = block_of(more.bytes, count);
        if (is_done(zc_edit_bytes(&edited, start, block, count))) edited_text = made;
        free(block);
    }
    last = smaller(start, edited_text.count) + more.count;
    CHECK(zc_edit_len(&edited) == edited_text.count);
}

/* ---- lines by number ---- */

/* How many of the bytes from one place up to another are ends of lines, and how many begin a character of UTF-8. */
static void count_lines(size_t from, size_t to, uint64_t *ends, uint64_t *chars) {
    *ends = *chars = 0;
    for (size_t i = from; i < to; i++) {
        *ends += lined_bytes[i] == '\n';
        *chars += (lined_bytes[i] & 0xC0) != 0x80;
    }
}

/* The place where a line begins: the end where there is no such line. */
static size_t line_place(uint64_t number) {
    size_t place = 0;
    for (uint64_t i = 0; i < number && place < lined_count; i++) {
        const unsigned char *end = memchr(lined_bytes + place, '\n', lined_count - place);
        place = end == NULL ? lined_count : (size_t)(end - lined_bytes) + 1;
    }
    return place;
}

/* What the index of the lines says of a place and of the line there, beside a count of all bytes. */
static void ask_lines(size_t out) {
    size_t place = below(lined_count + 2), end = smaller(place, lined_count), far = smaller(end + below(20000), lined_count);
    uint64_t ends, chars, all, wanted, found = 7, number, first = 7;
    count_lines(0, end, &number, &chars);
    CHECK(zc_lines_of(&lines, &lined, place, &found) == ZC_OK && found == number);
    count_lines(end, far, &ends, &wanted);
    CHECK(zc_lines_utf8(&lines, &lined, place, far - end, &chars) == ZC_OK && chars == wanted);
    count_lines(0, lined_count, &all, &chars);
    all += lined_count > 0 && lined_bytes[lined_count - 1] != '\n';
    CHECK(zc_lines_count(&lines) == all);
    int code = zc_lines_start(&lines, &lined, number, &first);
    CHECK(number < all ? code == ZC_OK && first == line_place(number) : code == ZC_PAST_END && first == 7);
    code = zc_lines_line(&lines, &lined, number, &cords[out]);
    if (number >= all) {
        CHECK(code == ZC_PAST_END);
        return;
    }
    const unsigned char *stop = memchr(lined_bytes + first, '\n', lined_count - first);
    made.count = (stop == NULL ? lined_count : (size_t)(stop - lined_bytes)) - first;
    CHECK(made.count <= LONGEST);
    memcpy(made.bytes, lined_bytes + first, made.count);
    check_made(code, out);
}

/* Three edits of a text of many lines, most of them small, and what its index says after each. */
static void edit_lines(size_t x, size_t out) {
    static unsigned char block[20000];
    unsigned long refused = refuse_in;
    for (int turn = 0; turn < 3; turn++) {
        size_t start = below(lined_count + 1), most = below(50) == 0 ? sizeof block : 40 + x;
        size_t removed = smaller(below(most), lined_count - start), inserted = below(most);
        zc_cord before = ZC_EMPTY, piece = ZC_EMPTY;
        if (lined_count - removed + inserted > LINED_ROOM) inserted = 0;
        for (size_t i = 0; i < inserted; i++) block[i] = (unsigned char)"ab\n\303\251"[below(5)];
        refuse_in = 0;
        CHECK(zc_share(&lined, &before) == ZC_OK && zc_from_bytes(block, inserted, &piece) == ZC_OK);
        CHECK(zc_splice(&lined, start, removed, &piece) == ZC_OK);
        refuse_in = refused;
        if (below(2) == 0) while (!is_done(zc_lines_edited(&lines, &lined, start, removed, inserted))) {}
        else while (!is_done(zc_lines_edited_from(&lines, &before, &lined, start, removed, inserted))) {}
        zc_free(&before);
        zc_free(&piece);
        memmove(lined_bytes + start + inserted, lined_bytes + start + removed, lined_count - start - removed);
        memcpy(lined_bytes + start, block, inserted);
        lined_count += inserted - removed;
        if (below(100) == 0 && is_done(zc_lines_set(&lined, &lines))) refuse_in = refused;
        ask_lines(out);
    }
}

static void step(size_t x) {
    uint64_t index = place_in(&texts[x]);
    unsigned char byte = 7;
    int stands;
    switch (below(8)) {
    case 0:
        if (is_done(zc_pos_set(&cords[x], index, &position))) position_text = texts[x], position_index = index;
        break;
    case 1:
        zc_pos_free(&position);
        position_text.count = 0;
        break;
    case 2: case 3: case 4:
        below(2) == 0 ? zc_pos_prev(&position) : (zc_pos_prev)(&position);
        if (position_index < position_text.count) position_index--;
        break;
    default:
        below(2) == 0 ? zc_pos_next(&position) : (zc_pos_next)(&position);
        if (position_index < position_text.count) position_index++;
    }
    stands = position_index < position_text.count;
    if (!stands) position_index = UINT64_MAX;
    CHECK(zc_pos_index(&position) == (stands ? position_index : ZC_NOT_FOUND));
    CHECK(zc_pos_fetch(&position, &byte) == (stands ? ZC_OK : ZC_PAST_END));
    CHECK(byte == (stands ? position_text.bytes[position_index] : 7));
}

/* To the next chunk or the one before, neither of which takes memory. */
static void go_on(void) {
    refuse_in = 1;
    if (below(3) == 0) {
        size_t count = zc_chunks_prev(&chunks);
        CHECK(count <= chunks_begin && (count > 0 || chunks_begin == 0));
        chunks_next = chunks_begin, chunks_begin -= count;
    } else {
        size_t count = zc_chunks_next(&chunks), left = chunks_text.count - chunks_next;
        CHECK(count <= left && (count > 0 || left == 0));
        chunks_begin = chunks_next, chunks_next += count;
    }
    refuse_in = 0;
}

static void go_over(size_t x) {
    uint64_t start = place_in(&texts[x]);
    if (below(4) == 0 && is_done(zc_chunks_set(&cords[x], start, &chunks))) {
        chunks_text = texts[x];
        chunks_begin = chunks_next = smaller(start, texts[x].count);
    } else if (below(4) == 0) {
        zc_chunks_move(&chunks, start);
        chunks_begin = chunks_next = smaller(start, chunks_text.count);
    }
    go_on();
    CHECK(chunks.count == chunks_next - chunks_begin);
    CHECK(chunks.count == 0 || memcmp(chunks.bytes, chunks_text.bytes + chunks_begin, chunks.count) == 0);
    if (below(50) == 0) {
        zc_chunks_free(&chunks);
        chunks_text.count = chunks_begin = chunks_next = 0;
    }
}

/* ---- cords over files ---- */

static void make_lazily(size_t x, size_t out) {
    size_t file = below(FILES), start = below(FILE_LENGTH), count = below(3000);
    zc_lazy whole = ZC_LAZY_EMPTY;
    if (below(2) == 0) {
        made = texts[x];
        check_made_lazily(zc_lazy_from_cord(&cords[x], &lazies[out]), out);
        return;
    }
    made.count = 0;
    append(&made, file_bytes[file] + start, smaller(count, FILE_LENGTH - start));
    if (is_done(zc_lazy_of_file(file_numbers[file], FILE_LENGTH, &whole)))
        check_made_lazily(zc_lazy_substr(&whole, start, count, &lazies[out]), out);
    zc_lazy_free(&whole);
}

static void edit_lazily(size_t x, size_t y, size_t out) {
    static const text nothing;
    uint64_t start = place_in(&lazy_texts[x]), count = count_in(&lazy_texts[x]);
    made = lazy_texts[x];
    switch (below(7)) {
    case 0:
        cut(&made, &lazy_texts[x], start, count);
        check_made_lazily(zc_lazy_substr(&lazies[x], start, count, &lazies[out]), out);
        break;
    case 1: check_made_lazily(zc_lazy_share(&lazies[x], &lazies[out]), out); break;
    case 2: check_made_lazily(zc_lazy_balance(&lazies[x], &lazies[out]), out); break;
    case 3:
        replace_part(&made, &lazy_texts[x], start, count, &nothing);
        check_made_lazily(zc_lazy_remove(&lazies[x], start, count, &lazies[out]), out);
        break;
    default:
        if (lazy_texts[x].count + lazy_texts[y].count > LONGEST) {
            cut(&made, &lazy_texts[x], LONGEST / 9, LONGEST / 3);
            check_made_lazily(zc_lazy_substr(&lazies[x], LONGEST / 9, LONGEST / 3, &lazies[out]), out);
            break;
        }
        if (below(2) == 0) {
            append(&made, lazy_texts[y].bytes, lazy_texts[y].count);
            check_made_lazily(zc_lazy_cat(&lazies[x], &lazies[y], &lazies[out]), out);
        } else if (below(2) == 0) {
            replace_part(&made, &lazy_texts[x], start, 0, &lazy_texts[y]);
            check_made_lazily(zc_lazy_insert(&lazies[x], start, &lazies[y], &lazies[out]), out);
        } else {
            replace_part(&made, &lazy_texts[x], start, count % 200, &lazy_texts[y]);
            check_made_lazily(zc_lazy_replace(&lazies[x], start, count % 200, &lazies[y], &lazies[out]), out);
        }
    }
}

static void ask_lazily(size_t x, size_t y, size_t out) {
    static text part;
    uint64_t start = place_in(&lazy_texts[x]), place = 7;
    unsigned char byte = some_byte(), found = 7;
    int32_t order = 7;
    CHECK(zc_lazy_chr(&files, &lazies[x], start, byte, &place) == ZC_OK);
    CHECK(place == first_place(&lazy_texts[x], start, &byte, 1));
    CHECK(zc_lazy_rchr(&files, &lazies[x], start, byte, &place) == ZC_OK);
    CHECK(place == last_place(&lazy_texts[x], start, byte));
    CHECK(zc_lazy_cmp(&files, &lazies[x], &lazies[y], &order) == ZC_OK);
    CHECK(order == order_of(lazy_texts[x].bytes, lazy_texts[x].count, lazy_texts[y].bytes, lazy_texts[y].count));
    CHECK(zc_lazy_fetch(&files, &lazies[x], start, &found) == (start < lazy_texts[x].count ? ZC_OK : ZC_PAST_END));
    CHECK(found == (start < lazy_texts[x].count ? lazy_texts[x].bytes[start] : 7));
    cut(&part, &lazy_texts[y], place_in(&lazy_texts[y]), below(6));
    if (is_done(zc_lazy_find(&files, &lazies[x], start, part.bytes, part.count, &place)))
        CHECK(place == first_place(&lazy_texts[x], start, part.bytes, part.count));
    made = lazy_texts[x];
    check_made(zc_lazy_to_cord(&files, &lazies[x], &cords[out]), out);
}

/* ---- descriptors ---- */

static void put_and_take(size_t x, size_t y, size_t out) {
    int fd = memfd_create("fuzz", MFD_CLOEXEC), is_lazy = below(2) == 0;
    const text *from = is_lazy ? &lazy_texts[y] : &texts[x];
    uint64_t start = place_in(from), end = place_in(from), done = 7;
    refuse_in = 0;
    CHECK(fd >= 0);
    if (is_lazy)
        CHECK(zc_lazy_put_range(&files, &lazies[y], start, end, fd, &done) == ZC_OK);
    else
        CHECK(zc_put_range(&cords[x], start, end, fd, &done) == ZC_OK);
    cut(&made, from, start, end > start ? end - start : 0);
    CHECK(done == made.count && lseek(fd, 0, SEEK_SET) == 0);
    check_made(zc_from_fd(fd, &cords[out]), out);
    close(fd);
}

static void open_files(void) {
    char path[] = "/tmp/zomtsje_fuzz_XXXXXX";
    uint64_t length = 0;
    for (size_t i = 0; i < FILES; i++) {
        strcpy(path, "/tmp/zomtsje_fuzz_XXXXXX");
        int fd = mkstemp(path);
        for (size_t j = 0; j < FILE_LENGTH; j++) file_bytes[i][j] = some_byte();
        CHECK(fd >= 0 && write(fd, file_bytes[i], FILE_LENGTH) == FILE_LENGTH && close(fd) == 0);
        CHECK(zc_files_open(&files, path, &file_numbers[i], &length) == ZC_OK && length == FILE_LENGTH);
        CHECK(unlink(path) == 0);
    }
}

static const struct {
    const char *name;
    void (*two)(size_t x, size_t out);
    void (*three)(size_t x, size_t y, size_t out);
} GROUPS[] = {
    {"make", make, NULL}, {"join", NULL, join}, {"join", NULL, join}, {"join_many", NULL, join_many},
    {"change", NULL, change},
    {"edit", NULL, edit}, {"edit", NULL, edit}, {"edit", NULL, edit}, {"take_line", take_line, NULL}, {"print_texts", print_texts, NULL},
    {"move_handles", move_handles, NULL}, {"search", search, NULL}, {"search_cord", search_cord, NULL},
    {"compare", compare, NULL}, {"grow", grow, NULL}, {"retype", retype, NULL}, {"retype", retype, NULL}, {"edit_lines", edit_lines, NULL},
};

/* One group of calls, with handles of its own choice. */
static void call(void) {
    size_t x = below(CORDS), y = below(CORDS), out = below(CORDS), own = below(LAZIES), others = below(LAZIES);
    size_t which = below(sizeof GROUPS / sizeof GROUPS[0] + 7);
    refuse_in = below(8) == 0 ? 1 + below(4) : 0;
    calls++;
    if (which < sizeof GROUPS / sizeof GROUPS[0]) {
        call_name = GROUPS[which].name;
        if (GROUPS[which].two != NULL) GROUPS[which].two(x, out);
        else GROUPS[which].three(x, y, out);
    } else {
        call_name = "the rest";
        switch (which - sizeof GROUPS / sizeof GROUPS[0]) {
        case 0: read_some(x); break;
        case 1: step(x); break;
        case 2: go_over(x); break;
        case 3: make_lazily(x, own); break;
        case 4: edit_lazily(own, others, below(LAZIES)); break;
        case 5: ask_lazily(own, others, out); break;
        default: put_and_take(x, own, out);
        }
    }
    refuse_in = 0;
}

int main(int count, char **words) {
    unsigned long most = count > 2 ? strtoul(words[2], NULL, 10) : 100000;
    state = (count > 1 ? strtoull(words[1], NULL, 10) : 1) * 2 + 1;
    open_files();
    while (calls < most) call();
    for (size_t i = 0; i < CORDS; i++) zc_free(&cords[i]);
    for (size_t i = 0; i < LAZIES; i++) zc_lazy_free(&lazies[i]);
    zc_ext_free(&grown);
    zc_edit_free(&edited);
    zc_free(&lined);
    zc_lines_free(&lines);
    zc_pos_free(&position);
    zc_chunks_free(&chunks);
    zc_files_free(&files);
    printf("%lu calls, %lu refused\n", calls, refusals);
    return refusals == 0;
}
