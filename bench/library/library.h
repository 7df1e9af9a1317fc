/* What the benchmark asks of each library. Each function does all its calls itself, so that a call costs no more than
   it does in a program; what it answers depends on the bytes alone, and is compared. */
#ifndef BENCH_LIBRARY_H
#define BENCH_LIBRARY_H

#include <stddef.h>
#include <stdint.h>

#ifdef __cplusplus
extern "C" {
#endif

#define SOURCE_LEN ((uint64_t)1 << 20)
#define READ_LEN ((size_t)65536)

/* The text is this one over and over: lines of letters. Twice as many bytes are there, so that parts lie together. */
extern char source[2 * SOURCE_LEN];

/* A byte that no text has. */
#define ABSENT '#'

static inline const char *source_at(uint64_t place) {
    return source + place % SOURCE_LEN;
}

static inline size_t part_at(uint64_t place, uint64_t size, size_t part) {
    return size - place < part ? (size_t)(size - place) : part;
}

/* The next of some places that look random, below a bound of less than 2^32. */
static inline uint64_t next_place(uint64_t *state, uint64_t bound) {
    *state = *state * UINT64_C(6364136223846793005) + UINT64_C(1442695040888963407);
    return (*state >> 32) * bound >> 32;
}

/* Single bytes that are put into a text of `size` bytes: each after the one before, or at places that look random. */
struct edits {
    uint64_t size, count;
    int is_random;
    int are_kept; /* whether the text after each edit is kept */
};

static inline uint64_t edit_place(const struct edits *edits, uint64_t done, uint64_t *state) {
    return edits->is_random ? next_place(state, edits->size + done + 1) : edits->size / 2 + done;
}

/* What is made is made: a compiler that sees through a call can't leave it out. */
static inline void keep(const void *made) {
    __asm__ volatile("" : : "r"(made) : "memory");
}

/* A text is of the library's own kind. What a library hasn't is null. */
struct library {
    const char *name;
    void (*begin)(void);
    void *(*by_cat)(uint64_t size, size_t part);     /* a text made by appends to a cord */
    void *(*by_growing)(uint64_t size, size_t part); /* the same by what the library has for texts that grow */
    void *(*balanced)(void *text);                   /* null where texts are always balanced */
    uint64_t (*cut)(void *text, uint64_t size, uint64_t count, uint64_t length);
    uint64_t (*fetch)(void *text, uint64_t size, uint64_t count);
    uint64_t (*make)(uint64_t count);
    uint64_t (*walk)(void *text);
    uint64_t (*lines)(void *text);
    uint64_t (*absent)(void *text);
    uint64_t (*chunks)(void *text);
    uint64_t (*read)(void *text);
    uint64_t (*compare)(void *text, void *other);
    void *(*edited)(void *text, const struct edits *edits); /* the text with the letter e put in so often */
    uint64_t (*share)(void *text, uint64_t count);
    void (*release)(void *text);
    uint64_t (*in_use)(void); /* the bytes that the library has from the machine and didn't give back */
};

extern const struct library zomtsje, libcord, abseil, libstdcxx;

#ifdef __cplusplus
}
#endif
#endif
