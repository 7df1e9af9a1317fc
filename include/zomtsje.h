/* zomtsje.h: cords, immutable byte strings that share their parts.
 *
 * A cord is a tree of parts. Joining two cords, or taking a part of one, makes a few new nodes and copies at most 64
 * bytes, so texts of any size are edited in almost no time, and old versions stay. A cord never changes; its parts
 * are counted, and freed with the last cord that has them.
 *
 * A zc_cord is a handle: a struct of one pointer that owns a cord. Begin with ZC_EMPTY, the cord of no bytes:
 *
 *     zc_cord hello = ZC_EMPTY, both = ZC_EMPTY;
 *     if (zc_from_bytes("hello ", 6, &hello) == ZC_OK && zc_cat_bytes(&hello, "world", 5, &both) == ZC_OK)
 *         printf("%llu bytes\n", (unsigned long long)zc_len(&both));
 *     zc_free(&hello);
 *     zc_free(&both);
 *
 * Handles are owned one by one: a copy of the struct is the handle from then on, and the old one isn't used again.
 * Share the cord by zc_share to have two. One handle may be given twice in a call, and as its result too; one place as
 * handles of two kinds, as a zc_ext and its first field, is ZC_BAD_ARGUMENT. What a call takes as const it doesn't
 * write to.
 *
 * Calls that make a cord write it to *out, a handle that was begun. What it held is freed; where the call gives another
 * code than ZC_OK, it holds what it held. A null pointer to a handle or to a result is answered by ZC_NULL, or by
 * what is said at the call; a null pointer to bytes is fine where their number is 0. Any other pointer to what isn't
 * there is the caller's fault, as are two handles that own one cord.
 *
 * Threads: cords that have parts in common count them together, and a comparison marks them. So a call is MT-Unsafe
 * race:cord (attributes(7)), where "cord" is all cords that have parts in common: one thread at a time uses them. MT-Safe
 * race:cord are the calls that only look at one cord: zc_len, zc_depth, zc_fetch, zc_chr, zc_rchr, zc_starts_with,
 * zc_ends_with, zc_count, zc_hash, zc_to_bytes, zc_read, zc_put, zc_put_range, zc_pos_index, zc_pos_fetch, zc_ext_len,
 * zc_edit_len, zc_lines_count, zc_lines_start, zc_lines_of, zc_lines_utf8, zc_lazy_len, zc_lazy_depth and zc_lazy_part.
 * They write to nothing but their results, so many threads may make them at once, on one handle too, while none makes
 * another call.
 *
 * Memory comes from malloc and realloc, and goes to free. No call ends the program where memory is refused. A handle that
 * owns a cord keeps its block of a few bytes for the next one; zc_free gives it back.
 *
 * In costs, n is the length of a cord in bytes and d its depth, which is never more than 60.
 */
#ifndef ZOMTSJE_H
#define ZOMTSJE_H

#include <stddef.h>
#include <stdint.h>

#ifdef __cplusplus
extern "C" {
#endif

/* The version of this header. While the first number is 0, the second one changes where programs have to be compiled
   anew. */
#define ZC_VERSION_MAJOR 0
#define ZC_VERSION_MINOR 6
#define ZC_VERSION_PATCH 0
#define ZC_VERSION "0.6.0"

/* The version of the library that was linked or loaded, as ZC_VERSION. */
const char *zc_version(void);

typedef struct zc_cord {
    void *tree; /* for the library alone; null for no bytes */
} zc_cord;

/* What a handle begins with. To empty one later, zc_free it. */
#define ZC_EMPTY {0}

/* A text has at most so many bytes, and a tree at most so many levels below its root. */
#define ZC_MAX_LEN UINT64_C(1099511627775)
#define ZC_MAX_DEPTH 60

/* What searches answer where they find nothing. */
#define ZC_NOT_FOUND UINT64_MAX

/* The codes that calls give. */
enum {
    ZC_OK = 0,                /* done */
    ZC_TOO_LONG = 1,          /* the text would be longer than ZC_MAX_LEN */
    ZC_NO_MEMORY = 2,         /* memory was refused */
    ZC_READ_FAILED = 3,       /* read failed, and errno says how */
    ZC_WRITE_FAILED = 4,      /* write failed, and errno says how */
    ZC_PAST_END = 5,          /* there is no such place, or no such line */
    ZC_IN_FILE = 6,           /* the bytes lie in a file */
    ZC_TOO_MANY_FILES = 7,    /* ZC_MOST_FILES are open */
    ZC_WOULD_BLOCK = 8,       /* the descriptor has no bytes now, or takes none */
    ZC_NULL = 9,              /* a pointer is null */
    ZC_BAD_FORMAT = 10,       /* the bytes are no format */
    ZC_WRONG_ARGUMENTS = 11,  /* the format takes another number of arguments, or others' kinds */
    ZC_BAD_VALUE = 12,        /* an argument has a value that its conversion doesn't take */
    ZC_BAD_ARGUMENT = 13      /* one place is given as handles of two kinds */
};

/* A code in words. */
const char *zc_message(int code);

/* ---- making cords ---- */

/* These bytes, of which it takes a copy, any bytes and 0 among them. ZC_TOO_LONG, ZC_NO_MEMORY. O(count). */
int zc_from_bytes(const void *bytes, size_t count, zc_cord *out);

/* count times the byte. It takes the same little memory whatever the count. ZC_TOO_LONG, ZC_NO_MEMORY. O(1). */
int zc_chars(unsigned char byte, uint64_t count, zc_cord *out);

/* The bytes of x and then those of y. ZC_TOO_LONG, ZC_NO_MEMORY.
   O(1); where the tree would be deeper than ZC_MAX_DEPTH, it is balanced first. */
int zc_cat(const zc_cord *x, const zc_cord *y, zc_cord *out);

/* The bytes of all count cords at parts, in order. ZC_TOO_LONG, ZC_NO_MEMORY. O(count), and as so many calls of
   zc_cat. */
int zc_catn(const zc_cord *parts, size_t count, zc_cord *out);

/* The bytes of x and then these, of which it takes a copy. ZC_TOO_LONG, ZC_NO_MEMORY. O(count), and as zc_cat. */
int zc_cat_bytes(const zc_cord *x, const void *bytes, size_t count, zc_cord *out);

/* The bytes of x and then one more. ZC_TOO_LONG, ZC_NO_MEMORY. As zc_cat. */
int zc_cat_char(const zc_cord *x, unsigned char byte, zc_cord *out);

/* The bytes of x from start on, at most count of them: none where start is at or past the end. ZC_NO_MEMORY. O(d). */
int zc_substr(const zc_cord *x, uint64_t start, uint64_t count, zc_cord *out);

/* x with the bytes of y in front of its byte start: at its end where it has no such byte. ZC_TOO_LONG, ZC_NO_MEMORY.
   O(d). */
int zc_insert(const zc_cord *x, uint64_t start, const zc_cord *y, zc_cord *out);

/* x without at most count of its bytes from start on. ZC_NO_MEMORY. O(d). */
int zc_remove(const zc_cord *x, uint64_t start, uint64_t count, zc_cord *out);

/* x with the bytes of y in place of at most count of its bytes from start on. ZC_TOO_LONG, ZC_NO_MEMORY. O(d). */
int zc_replace(const zc_cord *x, uint64_t start, uint64_t count, const zc_cord *y, zc_cord *out);

/* Adds the bytes of y at the end of x. ZC_TOO_LONG, ZC_NO_MEMORY: x stays. As zc_cat. */
int zc_append(zc_cord *x, const zc_cord *y);

/* Puts the bytes of y in place of at most count of those of x from start on. ZC_TOO_LONG, ZC_NO_MEMORY: x stays. As
   zc_replace. */
int zc_splice(zc_cord *x, uint64_t start, uint64_t count, const zc_cord *y);

/* The bytes of x, so many times. It takes two nodes at most for each binary digit of times. ZC_TOO_LONG,
   ZC_NO_MEMORY. */
int zc_repeat(const zc_cord *x, uint64_t times, zc_cord *out);

/* Line number of x, from 0, without its end. A line ends with the byte 10, which the last one may lack.
   ZC_PAST_END where x has no more lines than that, ZC_NO_MEMORY. O(n) up to its end. */
int zc_nth_line(const zc_cord *x, uint64_t number, zc_cord *out);

/* The bytes of x in a tree no deeper than about 1.44 times the binary logarithm of their number. ZC_NO_MEMORY.
   As many steps as x has parts that differ. */
int zc_balance(const zc_cord *x, zc_cord *out);

/* The same cord once more. ZC_NO_MEMORY. O(1). */
int zc_share(const zc_cord *x, zc_cord *out);

/* Frees what x owns; x is then ZC_EMPTY, and may be used or freed again. Null is fine. */
void zc_free(zc_cord *x);

/* ---- asking cords ---- */

/* The number of bytes; 0 of null. O(1). */
uint64_t zc_len(const zc_cord *x);

/* The depth of the tree: 0 for one part and for no bytes, and of null. O(1). */
uint32_t zc_depth(const zc_cord *x);

/* Writes the byte at place to *byte. ZC_PAST_END at or past the end: *byte stays. O(d). */
int zc_fetch(const zc_cord *x, uint64_t place, unsigned char *byte);

/* Writes the first place from start on that has the byte to *place, or ZC_NOT_FOUND. It takes no memory. O(n). */
int zc_chr(const zc_cord *x, uint64_t start, unsigned char byte, uint64_t *place);

/* Writes the last place before end that has the byte to *place, or ZC_NOT_FOUND. It takes no memory. O(n). */
int zc_rchr(const zc_cord *x, uint64_t end, unsigned char byte, uint64_t *place);

/* Writes the first place of x from start on where the bytes of y stand to *place, or ZC_NOT_FOUND. No bytes stand at
   each place up to the end. It takes no memory. O(n) in both texts. */
int zc_str(const zc_cord *x, uint64_t start, const zc_cord *y, uint64_t *place);

/* As zc_str, in the first end bytes of x: the bytes of y end at end or before. What lies after isn't searched. */
int zc_str_in(const zc_cord *x, uint64_t start, uint64_t end, const zc_cord *y, uint64_t *place);

/* Writes the last place of x where the bytes of y stand and end at end or before to *place, or ZC_NOT_FOUND. No bytes
   stand last at end, or at the end of x where that is less. It takes no memory. O(k + m log k), where m is the length of y, and
   k how far the place lies before end. */
int zc_rstr(const zc_cord *x, uint64_t end, const zc_cord *y, uint64_t *place);

/* As zc_rstr, of these bytes, which are copied unless x is shorter. ZC_NO_MEMORY: *place stays. */
int zc_rfind(const zc_cord *x, uint64_t end, const void *bytes, size_t count, uint64_t *place);

/* As zc_str, and as zc_str_in, of these bytes. Up to 16,384 of them take no memory; of more, ZC_NO_MEMORY: *place stays. */
int zc_find(const zc_cord *x, uint64_t start, const void *bytes, size_t count, uint64_t *place);
int zc_find_in(const zc_cord *x, uint64_t start, uint64_t end, const void *bytes, size_t count, uint64_t *place);

/* Writes the order of x and y to *order: -1 where x comes first, 0 where both have the same bytes, 1 where y comes
   first: by the first bytes that differ, and a text that another one begins with comes first. It takes no memory.
   O(n) at most; parts in common are passed. */
int zc_cmp(const zc_cord *x, const zc_cord *y, int32_t *order);

/* As zc_cmp, of at most count bytes of x from i on and of y from j on: none where i or j is at or past the end.
   ZC_NO_MEMORY: *order stays. O(count + d) at most. */
int zc_ncmp(const zc_cord *x, uint64_t i, const zc_cord *y, uint64_t j, uint64_t count, int32_t *order);

/* Writes 1 to *equal where x and y have the same bytes, else 0. It takes no memory. O(1) where the lengths differ, else
   as zc_cmp. */
int zc_equal(const zc_cord *x, const zc_cord *y, int32_t *equal);

/* Whether x begins, or ends, with these bytes: 1, or 0, also of null. It takes no memory. O(count), and O(d) for
   each. */
int32_t zc_starts_with(const zc_cord *x, const void *bytes, size_t count);
int32_t zc_ends_with(const zc_cord *x, const void *bytes, size_t count);

/* How many bytes of x are this one; 0 of null. O(n). */
uint64_t zc_count(const zc_cord *x, unsigned char byte);

/* A hash of the bytes of x, and of null that of no bytes: FNV-1a of 64 bits, so it is the same in each run and on each
   machine, whatever the tree. It doesn't help against those who choose texts of one hash. It takes no memory. O(n). */
uint64_t zc_hash(const zc_cord *x);

/* Copies count bytes of x from start on to bytes. ZC_PAST_END where x has fewer: then bytes stays. It takes no memory.
   O(count + d). */
int zc_to_bytes(const zc_cord *x, uint64_t start, void *bytes, size_t count);

/* Copies bytes of x from start on to bytes, as many as there are and at most count, and writes their number to *got:
   0 at or past the end. The rest of bytes stays. It takes no memory. O(count + d). */
int zc_read(const zc_cord *x, uint64_t start, void *bytes, size_t count, size_t *got);

/* ---- extensible cords ---- */

/* A text that grows at its end: a cord, and up to 4,096 bytes after it that are gathered to its next leaf. It lies
   where the caller puts it, and owns its cord; so it is never copied. Begin with ZC_EXT_EMPTY or zeros, and end with
   zc_ext_free. */
typedef struct zc_ext {
    zc_cord built; /* for the library alone, as are all fields */
    uint64_t length;
    size_t count;
    unsigned char bytes[4096];
} zc_ext;

#define ZC_EXT_EMPTY {ZC_EMPTY, 0, 0, {0}}

/* Adds a byte at the end. ZC_TOO_LONG, ZC_NO_MEMORY: x stays. O(1); each 4,096th time as zc_cat_bytes of them. */
int zc_ext_char(zc_ext *x, unsigned char byte);

/* Adds these bytes at the end, of which it takes a copy. More than 4,096 are a leaf of their own.
   ZC_TOO_LONG, ZC_NO_MEMORY: x stays. O(count), and as zc_cat_bytes where those that are gathered become a leaf. */
int zc_ext_bytes(zc_ext *x, const void *bytes, size_t count);

/* Adds the bytes of y at the end, whose tree is shared. ZC_TOO_LONG, ZC_NO_MEMORY: x stays. As zc_cat_bytes of those
   that are gathered, and as zc_cat. */
int zc_ext_cord(zc_ext *x, const zc_cord *y);

/* The bytes of x as a cord, whose tree is shared. x stays, and may grow further. ZC_NO_MEMORY. As zc_cat_bytes of those
   that are gathered. */
int zc_ext_to_cord(zc_ext *x, zc_cord *out);

/* The number of bytes; 0 of null. O(1). */
uint64_t zc_ext_len(const zc_ext *x);

/* Frees what x owns; x is then empty, and may be used or freed again. Null is fine. */
void zc_ext_free(zc_ext *x);

/* ---- texts that are edited ---- */

/* A text that is edited in place, for many small edits, most of them beside the one before. It is a handle as zc_cord
   is one: begin with ZC_EDIT_EMPTY or zeros, end with zc_edit_free. Its first edit takes 8,192 bytes for what will come
   beside it. */
typedef struct zc_edit {
    void *text; /* for the library alone; null for no bytes */
} zc_edit;

#define ZC_EDIT_EMPTY {0}

/* Edits the bytes of x from now on, in place of what was. Its tree is shared. ZC_NO_MEMORY: edit stays. O(1). */
int zc_edit_set(const zc_cord *x, zc_edit *edit);

/* Puts these bytes, of which it takes a copy, in front of the byte at: at the end where there is no such byte.
   ZC_TOO_LONG, ZC_NO_MEMORY: the text stays. O(count) beside the last edit, elsewhere O(count + d). */
int zc_edit_bytes(zc_edit *edit, uint64_t at, const void *bytes, size_t count);

/* Puts the bytes of y, whose tree is shared, in place of at most count of the bytes from start on: at the end where
   there are none. ZC_TOO_LONG, ZC_NO_MEMORY: the text stays. O(d). */
int zc_edit_cord(zc_edit *edit, uint64_t start, uint64_t count, const zc_cord *y);

/* Takes out at most count of the bytes from start on. ZC_NO_MEMORY: the text stays. O(1) beside the last edit,
   elsewhere O(d). */
int zc_edit_remove(zc_edit *edit, uint64_t start, uint64_t count);

/* The bytes as a cord, whose tree is shared. They may be edited further. ZC_NO_MEMORY. O(d) after an edit, else
   O(1). */
int zc_edit_to_cord(const zc_edit *edit, zc_cord *out);

/* The number of bytes; 0 of null. O(1). */
uint64_t zc_edit_len(const zc_edit *edit);

/* Frees what edit owns; it is then ZC_EDIT_EMPTY, and may be used or freed again. Null is fine. */
void zc_edit_free(zc_edit *edit);

/* ---- lines by number ---- */

/* The index of the lines of a cord: a line is found by its number, and by a place in it, without a walk through the
   text. It is a handle as zc_cord is one: begin with ZC_LINES_EMPTY or zeros, the index of no bytes, and end with
   zc_lines_free. It keeps no cord: each call is given the one it belongs to once more, and of another its answers mean
   nothing. It takes less than a thousandth of the text's memory. A line ends with the byte 10, which the last one may
   lack; numbers are from 0. A look-up passes the sums of each 2 MiB of the text, and reads at most 64 KiB. */
typedef struct zc_lines {
    void *index; /* for the library alone; null for no bytes */
} zc_lines;

#define ZC_LINES_EMPTY {0}

/* lines is the index of x from now on. ZC_NO_MEMORY: lines stays. O(n). */
int zc_lines_set(const zc_cord *x, zc_lines *lines);

/* The number of lines; 0 of null. */
uint64_t zc_lines_count(const zc_lines *lines);

/* Writes the place where line number of x begins to *place. ZC_PAST_END where x has no more lines than that: *place
   stays. It takes no memory. */
int zc_lines_start(const zc_lines *lines, const zc_cord *x, uint64_t number, uint64_t *place);

/* Writes the number of the line of x that holds the byte at place to *number: at or past the end how many lines end.
   It takes no memory. */
int zc_lines_of(const zc_lines *lines, const zc_cord *x, uint64_t place, uint64_t *number);

/* Writes how many characters of UTF-8 begin in at most count bytes of x from start on to *chars. It takes no memory. */
int zc_lines_utf8(const zc_lines *lines, const zc_cord *x, uint64_t start, uint64_t count, uint64_t *chars);

/* Line number of x, without its end. ZC_PAST_END where x has no more lines than that, ZC_NO_MEMORY. */
int zc_lines_line(const zc_lines *lines, const zc_cord *x, uint64_t number, zc_cord *out);

/* lines is the index of after from now on, where it was that of a cord in which inserted bytes of after stand from start
   on in the place of removed others. ZC_NO_MEMORY: lines stays. It counts the new bytes and those around them, some 16
   KiB; O(n) in blocks of 8 KiB where their number changes. */
int zc_lines_edited(zc_lines *lines, const zc_cord *after, uint64_t start, uint64_t removed, uint64_t inserted);

/* As zc_lines_edited, where lines was the index of before. Inside a block it counts only what goes and what comes. */
int zc_lines_edited_from(zc_lines *lines, const zc_cord *before, const zc_cord *after, uint64_t start, uint64_t removed,
                         uint64_t inserted);

/* Frees what lines owns; it is then ZC_LINES_EMPTY, and may be used or freed again. Null is fine. */
void zc_lines_free(zc_lines *lines);

/* ---- positions ---- */

/* A cord and an index in it, or nowhere, as past the end and before the beginning, with a copy of the bytes around it:
   a walk goes down the tree once for each 256 bytes. It owns a share of the cord, so it is never copied, and the cord
   may be freed before it. Begin with ZC_POS_NOWHERE or zeros, end with zc_pos_free. */
typedef struct zc_pos {
    zc_cord text; /* for the library alone, as are all fields */
    uint64_t length;
    uint64_t start;
    size_t at;
    size_t count;
    unsigned char bytes[256];
} zc_pos;

#define ZC_POS_NOWHERE {ZC_EMPTY, 0, 0, 0, 0, {0}}

/* Sets a position to the byte index of x, or nowhere where x has no such byte. ZC_NO_MEMORY: it stays. O(d), and O(1)
   for each part of the next 256 bytes. */
int zc_pos_set(const zc_cord *x, uint64_t index, zc_pos *position);

/* The index where it stands; ZC_NOT_FOUND where it stands nowhere, and of null. O(1). */
uint64_t zc_pos_index(const zc_pos *position);

/* Writes the byte where it stands to *byte. ZC_PAST_END where it stands nowhere: *byte stays. O(1). */
int zc_pos_fetch(const zc_pos *position, unsigned char *byte);

/* Goes to the next byte, from the last one nowhere. Nowhere it stays. It takes no memory. O(1); each 256th time as
   zc_pos_set. */
void zc_pos_next(zc_pos *position);

/* Goes to the previous byte, from the first one nowhere. Nowhere it stays. It takes no memory. O(1); each 256th time as
   zc_pos_set. */
void zc_pos_prev(zc_pos *position);

/* Frees what it owns; it then stands nowhere in the cord of no bytes, and may be set or freed again. Null is fine. */
void zc_pos_free(zc_pos *position);

/* A step inside the bytes that were copied is made in place, and each other one by the call. What a macro hides is
   called by its name in parentheses, as (zc_pos_next)(&position). */
static inline int zc_pos_fetch_here(const zc_pos *position, unsigned char *byte) {
    if (position == NULL || byte == NULL || position->at >= position->count) return (zc_pos_fetch)(position, byte);
    *byte = position->bytes[position->at];
    return ZC_OK;
}

static inline void zc_pos_next_here(zc_pos *position) {
    if (position != NULL && position->at + 1 < position->count)
        position->at++;
    else
        (zc_pos_next)(position);
}

static inline void zc_pos_prev_here(zc_pos *position) {
    if (position != NULL && position->at > 0 && position->at < position->count)
        position->at--;
    else
        (zc_pos_prev)(position);
}

#define zc_pos_fetch(position, byte) zc_pos_fetch_here(position, byte)
#define zc_pos_next(position) zc_pos_next_here(position)
#define zc_pos_prev(position) zc_pos_prev_here(position)

/* ---- chunks ---- */

/* A cord that is gone over, and the chunk of it that was reached: count bytes at bytes, which stay until the next call;
   they are only read. A leaf of 512 bytes or more is lent as it lies in the cord, and of others up to 4,096 bytes are
   copied to room, so the struct isn't moved while they are read. It owns a share of the cord, so it is never copied,
   and the cord may be freed before it. Begin with ZC_CHUNKS_EMPTY or zeros, end with zc_chunks_free:

       if (zc_chunks_set(&x, 0, &chunks) == ZC_OK)
           while (zc_chunks_next(&chunks) != 0) fwrite(chunks.bytes, 1, chunks.count, stdout);
       zc_chunks_free(&chunks); */
typedef struct zc_chunks {
    zc_cord text; /* for the library alone, as are all fields but count and bytes */
    uint64_t length;
    uint64_t next;
    size_t count;
    const unsigned char *bytes;
    void *lender;
    const unsigned char *lent;
    size_t lent_count;
    unsigned char room[4096];
} zc_chunks;

#define ZC_CHUNKS_EMPTY {ZC_EMPTY, 0, 0, 0, 0, 0, 0, 0, {0}}

/* Goes over the bytes of x from start on from now on: none where start is at or past the end. There is no chunk yet.
   ZC_NO_MEMORY: chunks stays. O(1). */
int zc_chunks_set(const zc_cord *x, uint64_t start, zc_chunks *chunks);

/* Goes to the next chunk, and gives its count: 0 at the end, and of null. It takes no memory. O(d) where a leaf is lent,
   and O(count + d) where bytes are copied. */
size_t zc_chunks_next(zc_chunks *chunks);

/* Goes to the chunk of at most 4,096 bytes that ends where the present one begins, and gives its count: 0 at the
   beginning, and of null. It takes no memory. O(count + d). */
size_t zc_chunks_prev(zc_chunks *chunks);

/* Goes to a place, or to the end where that is less: there the next chunk begins, and the one before ends. There is no
   chunk yet. Null is fine. O(1). */
void zc_chunks_move(zc_chunks *chunks, uint64_t place);

/* Frees what it owns; no bytes are left in it, and it may be set or freed again. Null is fine. */
void zc_chunks_free(zc_chunks *chunks);

/* ---- formats ---- */

/* What a conversion of a format is given: the cord in text where is_text isn't 0, else the number. It owns the cord: a
   share of another, made by zc_share(&x, &argument.text), which zc_free(&argument.text) gives back. */
typedef struct zc_arg {
    zc_cord text;
    int64_t number;
    uint32_t is_text;
} zc_arg;

#define ZC_NUMBER(number) {ZC_EMPTY, (number), 0}
#define ZC_TEXT {ZC_EMPTY, 0, 1}

/* The text of a format with these arguments, after C's printf. A conversion is % and d or i (a number), u, o, x or X (a
   number from 0 on), c (the byte of a number), s or r (a cord) or %. In front of the letter may stand the flags -, with
   d, i, u, o, x and X also 0, with d and i also +; a width; with all but c a precision, for s the most bytes of the
   cord; and with d, i, u, o, x and X l or ll, which change nothing. %% takes none of these. Width and precision are at
   most 9,999. Trees of cords are shared.
   ZC_BAD_FORMAT where the bytes are no format: then *at is the offset of the first % that begins no conversion.
   ZC_WRONG_ARGUMENTS where the format takes others. ZC_BAD_VALUE where a number is negative or no byte and may not be:
   then *at is the number of the first such argument, from 0. ZC_TOO_LONG, ZC_NO_MEMORY. With other codes *at stays.
   O(format_count + count), and O(d) for each cord. */
int zc_sprintf(const void *format, size_t format_count, const zc_arg *args, size_t count, zc_cord *out, uint64_t *at);

/* ---- cords over files ---- */

/* A zc_lazy is a handle as zc_cord is one, of a cord whose parts may lie in files. No call of the library reads a file:
   zc_lazy_part tells what lies where, and the calls below, for POSIX, read it. Begin with ZC_LAZY_EMPTY or zeros, and end
   with zc_lazy_free. */
typedef struct zc_lazy {
    void *tree; /* for the library alone; null for no bytes */
} zc_lazy;

#define ZC_LAZY_EMPTY {0}

/* The first length bytes of a file, for which the caller has this number. ZC_TOO_LONG, ZC_NO_MEMORY. O(1). */
int zc_lazy_of_file(uint32_t file, uint64_t length, zc_lazy *out);

/* The bytes of x, whose tree is shared. ZC_NO_MEMORY. O(1). */
int zc_lazy_from_cord(const zc_cord *x, zc_lazy *out);

/* The bytes of x and then those of y. ZC_TOO_LONG, ZC_NO_MEMORY. As zc_cat. */
int zc_lazy_cat(const zc_lazy *x, const zc_lazy *y, zc_lazy *out);

/* The bytes of x from start on, at most count of them: none where start is at or past the end. ZC_NO_MEMORY. O(d). */
int zc_lazy_substr(const zc_lazy *x, uint64_t start, uint64_t count, zc_lazy *out);

/* x with the bytes of y in front of its byte start: at its end where it has no such byte. ZC_TOO_LONG, ZC_NO_MEMORY.
   O(d). */
int zc_lazy_insert(const zc_lazy *x, uint64_t start, const zc_lazy *y, zc_lazy *out);

/* x without at most count of its bytes from start on. ZC_NO_MEMORY. O(d). */
int zc_lazy_remove(const zc_lazy *x, uint64_t start, uint64_t count, zc_lazy *out);

/* x with the bytes of y in place of at most count of its bytes from start on. ZC_TOO_LONG, ZC_NO_MEMORY. O(d). */
int zc_lazy_replace(const zc_lazy *x, uint64_t start, uint64_t count, const zc_lazy *y, zc_lazy *out);

/* The bytes of x in a tree that isn't deep, as zc_balance. ZC_NO_MEMORY. */
int zc_lazy_balance(const zc_lazy *x, zc_lazy *out);

/* The same cord once more. ZC_NO_MEMORY. O(1). */
int zc_lazy_share(const zc_lazy *x, zc_lazy *out);

/* The number of bytes; 0 of null. O(1). */
uint64_t zc_lazy_len(const zc_lazy *x);

/* The depth of the tree: 0 for one part and for no bytes, and of null. O(1). */
uint32_t zc_lazy_depth(const zc_lazy *x);

/* The part of x at start, of at most count bytes: writes how many to *got, 0 at or past the end, and the bytes to
   bytes. ZC_IN_FILE where they are those of a file: then its number goes to *file and their place in it to *place,
   and bytes stays. It takes no memory. O(count + d). */
int zc_lazy_part(const zc_lazy *x, uint64_t start, void *bytes, size_t count, size_t *got, uint32_t *file,
                 uint64_t *place);

/* Frees what x owns; x is then ZC_LAZY_EMPTY, and may be used or freed again. Null is fine. */
void zc_lazy_free(zc_lazy *x);

/* ---- files, by the descriptors of POSIX ---- */

/* These calls, zc_version and zc_message are in C in the library, over the calls above: no proof speaks of them. A
   call of the system that a signal interrupts is made again. */

/* Writes all bytes of x to the descriptor fd. As zc_put_range, which says how many were written. */
int zc_put(const zc_cord *x, int fd);

/* Writes the bytes of x from one place up to another to the descriptor fd, as many as there are, and their number to
   *done. ZC_WRITE_FAILED, ZC_WOULD_BLOCK: then *done of them are written, and a call from the place from + *done on
   goes on. It takes no memory. O(n), and O(d) for each 16,384 bytes. */
int zc_put_range(const zc_cord *x, uint64_t from, uint64_t to, int fd, uint64_t *done);

/* The bytes that the descriptor fd gives, to its end. ZC_READ_FAILED, ZC_WOULD_BLOCK: then *out has the bytes that came
   before. ZC_TOO_LONG, ZC_NO_MEMORY: *out stays, and what was read is gone. As zc_ext_bytes of them, up to 16,384 at a
   time. */
int zc_from_fd(int fd, zc_cord *out);

/* The bytes of the file at path, a string that ends with 0, which is read to its end now and closed. ZC_READ_FAILED,
   also where it can't be opened; ZC_TOO_LONG, ZC_NO_MEMORY. As zc_from_fd. */
int zc_from_path(const char *path, zc_cord *out);

/* As many files can be open in a zc_files. */
#define ZC_MOST_FILES 64

/* The files that lazy cords have parts in. They have to keep their bytes while they are open: save to another path, and
   rename. Each has a number, which no other file gets. A file is opened once, whatever paths lead to it, and no program
   that is started inherits it. Begin with ZC_FILES_NONE or zeros, end with zc_files_free. A lazy cord is read over the
   zc_files that its files were opened with; over others it has bytes of theirs, or ZC_READ_FAILED. */
typedef struct zc_files {
    int fds[ZC_MOST_FILES]; /* for the library alone, as are all fields */
    uint32_t numbers[ZC_MOST_FILES];
    uint32_t count;
    uint32_t next;
} zc_files;

#define ZC_FILES_NONE {{0}, {0}, 0, 0}

/* What zc_lazy_by_length takes for a short file, in bytes. */
#define ZC_SHORT_FILE 131072

/* Opens the file at path, a string that ends with 0, and writes its number to *file and its length in bytes to
   *length. One that is open keeps its number. ZC_READ_FAILED where it can't be opened or isn't a regular file,
   ZC_TOO_MANY_FILES. It takes no memory. */
int zc_files_open(zc_files *files, const char *path, uint32_t *file, uint64_t *length);

/* Closes the file of this number, if it is open: what lazy cords have of it gives ZC_READ_FAILED from now on. Null is
   fine. */
void zc_files_close(zc_files *files, uint32_t file);

/* Closes all files; none is open then. Null is fine. */
void zc_files_free(zc_files *files);

/* The bytes of the file at path, of which nothing is read now; it stays open. As zc_files_open; ZC_TOO_LONG,
   ZC_NO_MEMORY: then it isn't open, unless it was. O(1). */
int zc_lazy_from_path(zc_files *files, const char *path, zc_lazy *out);

/* As zc_lazy_from_path, but a file of at most ZC_SHORT_FILE bytes is read into memory now, and closed. O(n) of such a
   file. */
int zc_lazy_by_length(zc_files *files, const char *path, zc_lazy *out);

/* Copies bytes of x from start on to bytes, as many as there are and at most count, and writes their number to *got:
   0 at or past the end. ZC_READ_FAILED: then *got stays, and what bytes has is open. It takes no memory, and moves no
   offset of a descriptor. O(count), and O(d) for each part. */
int zc_lazy_read(zc_files *files, const zc_lazy *x, uint64_t start, void *bytes, size_t count, size_t *got);

/* Writes all bytes of x to the descriptor fd. As zc_lazy_put_range. */
int zc_lazy_put(zc_files *files, const zc_lazy *x, int fd);

/* As zc_put_range, of a lazy cord. ZC_READ_FAILED too. */
int zc_lazy_put_range(zc_files *files, const zc_lazy *x, uint64_t from, uint64_t to, int fd, uint64_t *done);

/* Writes the byte of x at place to *byte. ZC_PAST_END at or past the end, ZC_READ_FAILED: *byte stays. O(d). */
int zc_lazy_fetch(zc_files *files, const zc_lazy *x, uint64_t place, unsigned char *byte);

/* Writes the first place of x from start on that has the byte to *place, or ZC_NOT_FOUND. ZC_READ_FAILED: *place stays.
   O(n). */
int zc_lazy_chr(zc_files *files, const zc_lazy *x, uint64_t start, unsigned char byte, uint64_t *place);

/* Writes the last place of x before end that has the byte to *place, or ZC_NOT_FOUND. ZC_READ_FAILED: *place stays.
   O(n). */
int zc_lazy_rchr(zc_files *files, const zc_lazy *x, uint64_t end, unsigned char byte, uint64_t *place);

/* Writes the first place of x from start on where these bytes stand to *place, or ZC_NOT_FOUND. No bytes stand at each
   place up to the end. ZC_READ_FAILED, ZC_NO_MEMORY: *place stays. It copies 65,536 + count bytes at a time, so it takes
   O(n) for a count of up to 65,536, and count / 65,536 times as long beyond. */
int zc_lazy_find(zc_files *files, const zc_lazy *x, uint64_t start, const void *bytes, size_t count, uint64_t *place);

/* Writes the order of x and y, which lie in the same files, to *order, as zc_cmp. ZC_READ_FAILED: *order stays. It
   takes no memory. O(n) at most: it reads both up to where they differ, and in parts in common too. */
int zc_lazy_cmp(zc_files *files, const zc_lazy *x, const zc_lazy *y, int32_t *order);

/* The bytes of x as a cord in memory. ZC_READ_FAILED, ZC_NO_MEMORY. O(n). */
int zc_lazy_to_cord(zc_files *files, const zc_lazy *x, zc_cord *out);

#ifdef __cplusplus
}
#endif

#endif
