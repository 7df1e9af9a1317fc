/* One handle twice in a call. The proofs speak of calls whose pointers lead to different handles. So each call that is
 * given two comes here first, and where they are one the proved call gets another:
 *
 *   for a result that is read too, a handle of its own, which is moved there when the call is done;
 *   for a second handle that is read, a share of the first.
 *
 * Searches for a cord in itself, and comparisons with itself, take no memory: they are answered here. One place as
 * handles of two kinds is ZC_BAD_ARGUMENT. tools/handles-proof proves this file over the contracts of the proved calls.
 * tools/c-library joins it to these, where that of zc_cat is named proved_zc_cat. */
#include "zomtsje.h"

#define share_cord zc_share
#define free_cord zc_free
#define share_lazy zc_lazy_share
#define free_lazy zc_lazy_free

/* One place, and not null. */
static int is_one(const void *x, const void *y) {
    return x == y && x != NULL;
}

/* Whether a place lies among these bytes. */
static int lies_in(const void *place, const void *bytes, size_t count) {
    return (uintptr_t)place - (uintptr_t)bytes < count;
}

/* The proved call, and what is called where a handle is given twice: apart, so that else a call saves no registers. */
#define PROVED(name) extern __typeof__(name) proved_##name
#define TWICE(name) static __attribute__((noinline)) int twice_##name

/* Makes the call for a handle of its own. What it made goes to out. */
#define MOVES(kind, name, arguments)                                                               \
    zc_##kind made = {0}, *place = out;                                                            \
    out = &made;                                                                                   \
    int code = proved_##name arguments;                                                            \
    free_##kind(code == ZC_OK ? place : &made);                                                    \
    if (code == ZC_OK) *place = made;                                                              \
    return code;

/* Makes the call for a share of y. */
#define SHARES(kind, name, arguments)                                                              \
    zc_##kind second = {0};                                                                        \
    int code = share_##kind(y, &second);                                                           \
    y = &second;                                                                                   \
    if (code == ZC_OK) code = name arguments;                                                      \
    free_##kind(&second);                                                                          \
    return code;

/* out is made, and may be read. */
#define MAKES(kind, name, is_read, parameters, arguments)                                          \
    PROVED(name);                                                                                  \
    TWICE(name) parameters { MOVES(kind, name, arguments) }                                        \
    int name parameters { return is_read ? twice_##name arguments : proved_##name arguments; }

/* x and y are read, and out is made. */
#define JOINS(kind, name, parameters, arguments)                                                   \
    PROVED(name);                                                                                  \
    TWICE(name) parameters {                                                                       \
        if (is_one(x, y)) { SHARES(kind, name, arguments) }                                        \
        MOVES(kind, name, arguments)                                                               \
    }                                                                                              \
    int name parameters {                                                                          \
        int is_twice = (is_one(x, y) && out != NULL) || out == x || out == y;                      \
        return is_twice ? twice_##name arguments : proved_##name arguments;                        \
    }

/* y is read, and x too or changed; the result is no null pointer. */
#define READS(name, is_wrong, result, parameters, arguments)                                       \
    PROVED(name);                                                                                  \
    TWICE(name) parameters { SHARES(cord, name, arguments) }                                       \
    int name parameters {                                                                          \
        if (is_wrong) return ZC_BAD_ARGUMENT;                                                      \
        return is_one(x, y) && result != NULL ? twice_##name arguments : proved_##name arguments;  \
    }

/* x and y are of different kinds. */
#define DIFFER(name, parameters, arguments)                                                        \
    PROVED(name);                                                                                  \
    int name parameters { return is_one(x, y) ? ZC_BAD_ARGUMENT : proved_##name arguments; }

/* ---- cords ---- */

MAKES(cord, zc_share, out == x, (const zc_cord *x, zc_cord *out), (x, out))
MAKES(cord, zc_balance, out == x, (const zc_cord *x, zc_cord *out), (x, out))
MAKES(cord, zc_repeat, out == x, (const zc_cord *x, uint64_t times, zc_cord *out), (x, times, out))
MAKES(cord, zc_nth_line, out == x, (const zc_cord *x, uint64_t number, zc_cord *out), (x, number, out))
MAKES(cord, zc_cat_char, out == x, (const zc_cord *x, unsigned char byte, zc_cord *out), (x, byte, out))
MAKES(cord, zc_cat_bytes, out == x, (const zc_cord *x, const void *bytes, size_t count, zc_cord *out),
      (x, bytes, count, out))
MAKES(cord, zc_substr, out == x, (const zc_cord *x, uint64_t start, uint64_t count, zc_cord *out),
      (x, start, count, out))
MAKES(cord, zc_remove, out == x, (const zc_cord *x, uint64_t start, uint64_t count, zc_cord *out),
      (x, start, count, out))
MAKES(cord, zc_catn, lies_in(out, parts, count * sizeof *parts), (const zc_cord *parts, size_t count, zc_cord *out),
      (parts, count, out))
MAKES(cord, zc_sprintf, lies_in(out, args, count * sizeof *args),
      (const void *format, size_t format_count, const zc_arg *args, size_t count, zc_cord *out, uint64_t *at),
      (format, format_count, args, count, out, at))

JOINS(cord, zc_cat, (const zc_cord *x, const zc_cord *y, zc_cord *out), (x, y, out))
JOINS(cord, zc_insert, (const zc_cord *x, uint64_t start, const zc_cord *y, zc_cord *out), (x, start, y, out))
JOINS(cord, zc_replace, (const zc_cord *x, uint64_t start, uint64_t count, const zc_cord *y, zc_cord *out),
      (x, start, count, y, out))

READS(zc_append, 0, x, (zc_cord *x, const zc_cord *y), (x, y))
READS(zc_splice, 0, x, (zc_cord *x, uint64_t start, uint64_t count, const zc_cord *y), (x, start, count, y))
READS(zc_ncmp, 0, order, (const zc_cord *x, uint64_t i, const zc_cord *y, uint64_t j, uint64_t count, int32_t *order),
      (x, i, y, j, count, order))

/* ---- a cord and itself ---- */

/* Where a cord is looked for in itself: at its begin, or nowhere. */
static int found(const zc_cord *x, int is_there, uint64_t *place) {
    if (x == NULL || place == NULL) return ZC_NULL;
    *place = is_there ? 0 : ZC_NOT_FOUND;
    return ZC_OK;
}

static int compared(const zc_cord *x, int32_t answer, int32_t *result) {
    if (x == NULL || result == NULL) return ZC_NULL;
    *result = answer;
    return ZC_OK;
}

/* Answers what is so where y is x. */
#define ITSELF(name, parameters, arguments, answer)                                                \
    PROVED(name);                                                                                  \
    int name parameters { return x == y ? answer : proved_##name arguments; }

ITSELF(zc_str, (const zc_cord *x, uint64_t start, const zc_cord *y, uint64_t *place), (x, start, y, place),
       found(x, start == 0, place))
ITSELF(zc_str_in, (const zc_cord *x, uint64_t start, uint64_t end, const zc_cord *y, uint64_t *place),
       (x, start, end, y, place), found(x, start == 0 && zc_len(x) <= end, place))
ITSELF(zc_rstr, (const zc_cord *x, uint64_t end, const zc_cord *y, uint64_t *place), (x, end, y, place),
       found(x, zc_len(x) <= end, place))
ITSELF(zc_cmp, (const zc_cord *x, const zc_cord *y, int32_t *order), (x, y, order), compared(x, 0, order))
ITSELF(zc_equal, (const zc_cord *x, const zc_cord *y, int32_t *equal), (x, y, equal), compared(x, 1, equal))

/* ---- other handles ---- */

DIFFER(zc_ext_cord, (zc_ext *x, const zc_cord *y), (x, y))
DIFFER(zc_ext_to_cord, (zc_ext *x, zc_cord *y), (x, y))
DIFFER(zc_pos_set, (const zc_cord *x, uint64_t index, zc_pos *y), (x, index, y))
DIFFER(zc_chunks_set, (const zc_cord *x, uint64_t start, zc_chunks *y), (x, start, y))
DIFFER(zc_edit_set, (const zc_cord *x, zc_edit *y), (x, y))
DIFFER(zc_edit_cord, (zc_edit *x, uint64_t start, uint64_t count, const zc_cord *y), (x, start, count, y))
DIFFER(zc_edit_to_cord, (const zc_edit *x, zc_cord *y), (x, y))
DIFFER(zc_lines_set, (const zc_cord *x, zc_lines *y), (x, y))
DIFFER(zc_lines_start, (const zc_lines *x, const zc_cord *y, uint64_t number, uint64_t *place), (x, y, number, place))
DIFFER(zc_lines_of, (const zc_lines *x, const zc_cord *y, uint64_t place, uint64_t *number), (x, y, place, number))
DIFFER(zc_lines_utf8, (const zc_lines *x, const zc_cord *y, uint64_t start, uint64_t count, uint64_t *chars),
       (x, y, start, count, chars))
DIFFER(zc_lines_edited, (zc_lines *x, const zc_cord *y, uint64_t start, uint64_t removed, uint64_t inserted),
       (x, y, start, removed, inserted))
DIFFER(zc_lazy_from_cord, (const zc_cord *x, zc_lazy *y), (x, y))

PROVED(zc_lines_line);
TWICE(zc_lines_line)(const zc_lines *x, const zc_cord *y, uint64_t number, zc_cord *out) {
    if (is_one(x, y) || is_one(x, out)) return ZC_BAD_ARGUMENT;
    MOVES(cord, zc_lines_line, (x, y, number, out))
}
int zc_lines_line(const zc_lines *x, const zc_cord *y, uint64_t number, zc_cord *out) {
    int is_twice = is_one(x, y) || is_one(x, out) || out == y;
    return is_twice ? twice_zc_lines_line(x, y, number, out) : proved_zc_lines_line(x, y, number, out);
}

READS(zc_lines_edited_from, is_one(lines, x) || is_one(lines, y), lines,
      (zc_lines *lines, const zc_cord *x, const zc_cord *y, uint64_t start, uint64_t removed, uint64_t inserted),
      (lines, x, y, start, removed, inserted))

MAKES(lazy, zc_lazy_share, out == x, (const zc_lazy *x, zc_lazy *out), (x, out))
MAKES(lazy, zc_lazy_balance, out == x, (const zc_lazy *x, zc_lazy *out), (x, out))
MAKES(lazy, zc_lazy_substr, out == x, (const zc_lazy *x, uint64_t start, uint64_t count, zc_lazy *out),
      (x, start, count, out))
MAKES(lazy, zc_lazy_remove, out == x, (const zc_lazy *x, uint64_t start, uint64_t count, zc_lazy *out),
      (x, start, count, out))

JOINS(lazy, zc_lazy_cat, (const zc_lazy *x, const zc_lazy *y, zc_lazy *out), (x, y, out))
JOINS(lazy, zc_lazy_insert, (const zc_lazy *x, uint64_t start, const zc_lazy *y, zc_lazy *out), (x, start, y, out))
JOINS(lazy, zc_lazy_replace, (const zc_lazy *x, uint64_t start, uint64_t count, const zc_lazy *y, zc_lazy *out),
      (x, start, count, y, out))
