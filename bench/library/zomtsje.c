/* The calls of this library. */
#include "library.h"
#include <malloc.h>
#include <stdio.h>
#include <stdlib.h>
#include <string.h>
#include <zomtsje.h>

static void must(int code) {
    if (code != ZC_OK) {
        fprintf(stderr, "%s\n", zc_message(code));
        exit(1);
    }
}

static void begin(void) {}

static zc_cord *new_text(void) {
    zc_cord *text = calloc(1, sizeof *text);
    if (text == NULL) must(ZC_NO_MEMORY);
    return text;
}

void *zomtsje_by_cat(uint64_t size, size_t part) {
    zc_cord *text = new_text(), longer = ZC_EMPTY;
    for (uint64_t place = 0; place < size; place += part) {
        must(zc_cat_bytes(text, source_at(place), part_at(place, size, part), &longer));
        zc_cord old = *text;
        *text = longer, longer = old; /* the two handles change places */
    }
    zc_free(&longer);
    return text;
}

void *zomtsje_by_growing(uint64_t size, size_t part) {
    static zc_ext grown = ZC_EXT_EMPTY;
    zc_cord *text = new_text();
    for (uint64_t place = 0; place < size; place += part)
        must(zc_ext_bytes(&grown, source_at(place), part_at(place, size, part)));
    must(zc_ext_to_cord(&grown, text));
    zc_ext_free(&grown);
    return text;
}

static void *balanced(void *text) {
    zc_cord *made = new_text();
    must(zc_balance(text, made));
    return made;
}

uint64_t zomtsje_cut(void *text, uint64_t size, uint64_t count, uint64_t length) {
    zc_cord part = ZC_EMPTY;
    uint64_t state = 1, total = 0;
    unsigned char byte = 0;
    for (uint64_t i = 0; i < count; i++) {
        must(zc_substr(text, next_place(&state, size - length), length, &part));
        total += zc_len(&part);
    }
    must(zc_fetch(&part, length - 1, &byte));
    zc_free(&part);
    return total * 256 + byte;
}

uint64_t zomtsje_fetch(void *text, uint64_t size, uint64_t count) {
    uint64_t state = 1, total = 0;
    for (uint64_t i = 0; i < count; i++) {
        unsigned char byte;
        must(zc_fetch(text, next_place(&state, size), &byte));
        total += byte;
    }
    return total;
}

uint64_t zomtsje_make(uint64_t count) {
    uint64_t total = 0;
    for (uint64_t i = 0; i < count; i++) {
        zc_cord text = ZC_EMPTY;
        must(zc_from_bytes(source_at(i), 10, &text));
        total += zc_len(&text);
        zc_free(&text);
    }
    return total;
}

uint64_t zomtsje_walk(void *text) {
    zc_pos position = ZC_POS_NOWHERE;
    uint64_t total = 0;
    unsigned char byte;
    for (must(zc_pos_set(text, 0, &position)); zc_pos_fetch(&position, &byte) == ZC_OK; zc_pos_next(&position))
        total += byte;
    zc_pos_free(&position);
    return total;
}

static uint64_t place_of(zc_cord *text, uint64_t start, unsigned char byte) {
    uint64_t place = 0;
    must(zc_chr(text, start, byte, &place));
    return place;
}

uint64_t zomtsje_lines(void *text) {
    static zc_chunks chunks = ZC_CHUNKS_EMPTY;
    uint64_t total = 0, begin = 0;
    must(zc_chunks_set(text, 0, &chunks));
    for (; zc_chunks_next(&chunks) != 0; begin += chunks.count) {
        const unsigned char *at = chunks.bytes, *end = at + chunks.count;
        while ((at = memchr(at, '\n', (size_t)(end - at))) != NULL) total += begin + (uint64_t)(at++ - chunks.bytes);
    }
    zc_chunks_free(&chunks);
    return total;
}

uint64_t zomtsje_absent(void *text) {
    return place_of(text, 0, ABSENT) == ZC_NOT_FOUND;
}

uint64_t zomtsje_chunks(void *text) {
    static zc_chunks chunks = ZC_CHUNKS_EMPTY;
    uint64_t total = 0;
    must(zc_chunks_set(text, 0, &chunks));
    while (zc_chunks_next(&chunks) != 0) total += chunks.count;
    zc_chunks_free(&chunks);
    return total;
}

uint64_t zomtsje_read(void *text) {
    static char bytes[READ_LEN];
    uint64_t total = 0, place = 0;
    size_t got;
    for (;; place += got) {
        must(zc_read(text, place, bytes, READ_LEN, &got));
        if (got == 0) return total;
        total += (unsigned char)bytes[0] + (unsigned char)bytes[got - 1];
    }
}

uint64_t zomtsje_compare(void *text, void *other) {
    int32_t order = 1;
    must(zc_cmp(text, other, &order));
    return order == 0;
}

void *zomtsje_edited(void *text, const struct edits *edits) {
    zc_cord *made = new_text(), *kept = edits->are_kept ? calloc(edits->count, sizeof *kept) : NULL;
    zc_edit edit = ZC_EDIT_EMPTY;
    uint64_t state = 1;
    must(zc_edit_set(text, &edit));
    for (uint64_t i = 0; i < edits->count; i++) {
        must(zc_edit_bytes(&edit, edit_place(edits, i, &state), "e", 1));
        if (kept != NULL) must(zc_edit_to_cord(&edit, &kept[i]));
    }
    must(zc_edit_to_cord(&edit, made));
    zc_edit_free(&edit);
    keep(kept);
    return made;
}

uint64_t zomtsje_share(void *text, uint64_t count) {
    uint64_t total = 0;
    for (uint64_t i = 0; i < count; i++) {
        zc_cord copy = ZC_EMPTY;
        must(zc_share(text, &copy));
        total += zc_len(&copy);
        zc_free(&copy);
    }
    return total;
}

void zomtsje_release(void *text) {
    zc_free(text);
    free(text);
}

static uint64_t in_use(void) {
    struct mallinfo2 info = mallinfo2();
    return info.uordblks + info.hblkhd;
}

const struct library zomtsje = {
    .name = "zomtsje",
    .begin = begin,
    .by_cat = zomtsje_by_cat,
    .by_growing = zomtsje_by_growing,
    .balanced = balanced,
    .cut = zomtsje_cut,
    .fetch = zomtsje_fetch,
    .make = zomtsje_make,
    .walk = zomtsje_walk,
    .lines = zomtsje_lines,
    .absent = zomtsje_absent,
    .chunks = zomtsje_chunks,
    .read = zomtsje_read,
    .compare = zomtsje_compare,
    .edited = zomtsje_edited,
    .share = zomtsje_share,
    .release = zomtsje_release,
    .in_use = in_use,
};
