/* The calls of libcord, over the collector. Bytes that are appended are copied first, as a buffer's have to be. */
#include "library.h"
#include <gc.h>
#include <gc/cord.h>
#include <gc/ec.h>
#include <string.h>

static void begin(void) {
    GC_INIT();
}

static CORD copied(uint64_t place, size_t count) {
    char *bytes = GC_MALLOC_ATOMIC(count + 1);
    memcpy(bytes, source_at(place), count);
    bytes[count] = 0;
    return bytes;
}

void *libcord_by_cat(uint64_t size, size_t part) {
    CORD text = CORD_EMPTY;
    for (uint64_t place = 0; place < size; place += part) {
        size_t count = part_at(place, size, part);
        text = CORD_cat_char_star(text, copied(place, count), count);
    }
    return (void *)text;
}

void *libcord_by_growing(uint64_t size, size_t part) {
    CORD_ec grown;
    CORD_ec_init(grown);
    for (uint64_t place = 0; place < size; place += part) {
        const char *bytes = source_at(place);
        size_t count = part_at(place, size, part);
        for (size_t i = 0; i < count; i++) CORD_ec_append(grown, bytes[i]);
    }
    return (void *)CORD_ec_to_cord(grown);
}

static void *balanced(void *text) {
    return (void *)CORD_balance(text);
}

uint64_t libcord_cut(void *text, uint64_t size, uint64_t count, uint64_t length) {
    uint64_t state = 1, total = 0;
    CORD part = CORD_EMPTY;
    for (uint64_t i = 0; i < count; i++) {
        part = CORD_substr(text, next_place(&state, size - length), length);
        total += CORD_len(part);
    }
    return total * 256 + (unsigned char)CORD_fetch(part, length - 1);
}

uint64_t libcord_fetch(void *text, uint64_t size, uint64_t count) {
    uint64_t state = 1, total = 0;
    for (uint64_t i = 0; i < count; i++) total += (unsigned char)CORD_fetch(text, next_place(&state, size));
    return total;
}

uint64_t libcord_make(uint64_t count) {
    uint64_t total = 0;
    for (uint64_t i = 0; i < count; i++) total += CORD_len(copied(i, 10));
    return total;
}

uint64_t libcord_walk(void *text) {
    uint64_t total = 0;
    CORD_pos position;
    CORD_FOR(position, text) total += (unsigned char)CORD_pos_fetch(position);
    return total;
}

uint64_t libcord_lines(void *text) {
    size_t size = CORD_len(text);
    uint64_t total = 0;
    for (size_t from = 0; from < size;) {
        size_t end = CORD_chr(text, from, '\n');
        if (end == CORD_NOT_FOUND) break;
        total += end;
        from = end + 1;
    }
    return total;
}

uint64_t libcord_absent(void *text) {
    return CORD_chr(text, 0, ABSENT) == CORD_NOT_FOUND;
}

static int count_one(char byte, void *total) {
    (void)byte;
    *(uint64_t *)total += 1;
    return 0;
}

static int count_all(const char *bytes, void *total) {
    *(uint64_t *)total += strlen(bytes);
    return 0;
}

uint64_t libcord_chunks(void *text) {
    uint64_t total = 0;
    CORD_iter5(text, 0, count_one, count_all, &total);
    return total;
}

/* Copies the next bytes of a position, at most so many, and moves it on over them. */
static size_t copy_next(CORD_pos position, char *bytes, size_t most) {
    size_t done = 0;
    while (done < most && CORD_pos_valid(position)) {
        size_t left = CORD_pos_chars_left(position), count = left < most - done ? left : most - done;
        if (count == 0) {
            bytes[done++] = CORD_pos_fetch(position);
            CORD_next(position);
        } else {
            memcpy(bytes + done, CORD_pos_cur_char_addr(position), count);
            CORD_pos_advance(position, count);
            done += count;
        }
    }
    return done;
}

uint64_t libcord_read(void *text) {
    static char bytes[READ_LEN];
    uint64_t total = 0;
    CORD_pos position;
    CORD_set_pos(position, text, 0);
    for (size_t got; (got = copy_next(position, bytes, READ_LEN)) != 0;)
        total += (unsigned char)bytes[0] + (unsigned char)bytes[got - 1];
    return total;
}

uint64_t libcord_compare(void *text, void *other) {
    return CORD_cmp(text, other) == 0;
}

void *libcord_edited(void *text, const struct edits *edits) {
    CORD made = text, *kept = edits->are_kept ? GC_MALLOC(edits->count * sizeof *kept) : NULL;
    uint64_t state = 1;
    for (uint64_t i = 0; i < edits->count; i++) {
        uint64_t place = edit_place(edits, i, &state);
        CORD before = CORD_cat_char(CORD_substr(made, 0, place), 'e');
        made = CORD_cat(before, CORD_substr(made, place, edits->size + i - place));
        if (kept != NULL) kept[i] = made;
    }
    keep(kept);
    return (void *)made;
}

static uint64_t in_use(void) {
    GC_gcollect();
    return GC_get_heap_size() - GC_get_free_bytes();
}

const struct library libcord = {
    .name = "libcord",
    .begin = begin,
    .by_cat = libcord_by_cat,
    .by_growing = libcord_by_growing,
    .balanced = balanced,
    .cut = libcord_cut,
    .fetch = libcord_fetch,
    .make = libcord_make,
    .walk = libcord_walk,
    .lines = libcord_lines,
    .absent = libcord_absent,
    .chunks = libcord_chunks,
    .read = libcord_read,
    .compare = libcord_compare,
    .edited = libcord_edited,
    .in_use = in_use,
};
