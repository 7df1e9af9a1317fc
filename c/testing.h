/* What the tests in C share: each row says what it expects, and the first that fails ends the program with status 1.
 * With an argument, being out of memory is no failure: a call that is refused has to say so, leave its result as it was,
 * and work when it is made again, since one request alone is refused. */
#ifndef ZOMTSJE_TESTING_H
#define ZOMTSJE_TESTING_H

#include "zomtsje.h"
#include <stdio.h>
#include <stdlib.h>

static int may_want = 0;
static unsigned long rows = 0, wants = 0;

static inline void expect(int holds, const char *what, int line) {
    rows++;
    if (!holds) {
        fprintf(stderr, "line %d: %s\n", line, what);
        exit(1);
    }
}
#define EXPECT(holds) expect((holds), #holds, __LINE__)

/* A call that has to end with ZC_OK, once memory is there. */
#define DO(call)                                                                                                       \
    do {                                                                                                               \
        int code = (call);                                                                                             \
        if (code == ZC_NO_MEMORY && may_want) {                                                                        \
            wants++;                                                                                                   \
            code = (call);                                                                                             \
        }                                                                                                              \
        EXPECT(code == ZC_OK);                                                                                         \
    } while (0)

#endif
