/* Where the bytes of a chunk lie: in the cord, which lends them, or in the struct, to which they are copied. The proved
 * calls leave bytes alone; tools/c-library joins this file to them, as c/handles.c. */
#include "zomtsje.h"

static size_t shown(zc_chunks *chunks, size_t count) {
    if (chunks != NULL) chunks->bytes = chunks->lent_count != 0 ? chunks->lent : chunks->room;
    return count;
}

extern __typeof__(zc_chunks_next) proved_zc_chunks_next;
size_t zc_chunks_next(zc_chunks *chunks) {
    return shown(chunks, proved_zc_chunks_next(chunks));
}

extern __typeof__(zc_chunks_prev) proved_zc_chunks_prev;
size_t zc_chunks_prev(zc_chunks *chunks) {
    return shown(chunks, proved_zc_chunks_prev(chunks));
}
