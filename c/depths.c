/* How deep a text gets by a million edits of single bytes, at one place and at random ones:
 *
 *     depths WORK
 *
 * Prints its length, the depth after the edits, the greatest depth among them, and the depth when it is balanced. Its
 * status is 0 where no text was deeper than ZC_MAX_DEPTH, and the balanced one no deeper than its Fibonacci slot. */
#include "zomtsje.h"
#include <stdio.h>
#include <stdlib.h>
#include <string.h>

enum { EDITS = 1000000, START = 65000 };

static void needed(int code) {
    if (code == ZC_OK) return;
    puts(zc_message(code));
    exit(2);
}

/* The n with F(n) <= len < F(n + 1), where F(1) and F(2) are 1. */
static uint32_t slot_of(uint64_t len) {
    uint64_t low = 1, high = 2;
    uint32_t slot = 2;
    while (high <= len) {
        uint64_t next = low + high;
        low = high;
        high = next;
        slot++;
    }
    return slot;
}

/* One edit after another, without a state that lives longer (an LCG of Knuth's). */
static uint64_t place_of(uint64_t *state, uint64_t len) {
    *state = *state * 6364136223846793005u + 1442695040888963407u;
    return (*state >> 24) % (len + 1);
}

static uint32_t greatest;

static void look(const zc_cord *x) {
    uint32_t depth = zc_depth(x);
    if (depth > greatest) greatest = depth;
}

/* Bytes put in one by one: each after the one before, or at random places; or in and out by turns. */
static void edited(zc_cord *x, int is_random, int goes_out) {
    zc_cord byte = ZC_EMPTY;
    uint64_t state = 1;
    needed(zc_from_bytes("x", 1, &byte));
    for (uint64_t turn = 0; turn < EDITS; turn++) {
        uint64_t place = is_random ? place_of(&state, zc_len(x)) : START / 2 + turn;
        if (goes_out && turn % 2) needed(zc_remove(x, place, 1, x));
        else needed(zc_insert(x, place, &byte, x));
        look(x);
    }
    zc_free(&byte);
}

/* The same by a zc_edit, looked at after each 1,000 edits. */
static void typed(zc_cord *x, int is_random) {
    zc_edit edit = ZC_EDIT_EMPTY;
    uint64_t state = 1;
    needed(zc_edit_set(x, &edit));
    for (uint64_t turn = 0; turn < EDITS; turn++) {
        uint64_t place = is_random ? place_of(&state, zc_edit_len(&edit)) : START / 2 + turn;
        needed(zc_edit_bytes(&edit, place, "x", 1));
        if (turn % 1000 != 999) continue;
        needed(zc_edit_to_cord(&edit, x));
        look(x);
    }
    zc_edit_free(&edit);
}

int main(int count, char **words) {
    static char bytes[START];
    zc_cord x = ZC_EMPTY;
    const char *work = count == 2 ? words[1] : "";
    uint32_t deep;
    memset(bytes, 'a', START);
    for (int at = 0; at < START; at += 65) needed(zc_cat_bytes(&x, bytes + at, 65, &x));
    if (!strcmp(work, "one_place")) edited(&x, 0, 0);
    else if (!strcmp(work, "random")) edited(&x, 1, 0);
    else if (!strcmp(work, "in_and_out")) edited(&x, 1, 1);
    else if (!strcmp(work, "typed_at_one_place")) typed(&x, 0);
    else if (!strcmp(work, "typed_at_random")) typed(&x, 1);
    else return 2;
    deep = zc_depth(&x);
    needed(zc_balance(&x, &x));
    printf("%llu bytes, %u deep, at most %u, balanced %u\n", (unsigned long long)zc_len(&x), deep, greatest, zc_depth(&x));
    int is_right = greatest <= ZC_MAX_DEPTH && deep <= greatest && zc_depth(&x) <= slot_of(zc_len(&x));
    zc_free(&x);
    return is_right ? 0 : 1;
}
