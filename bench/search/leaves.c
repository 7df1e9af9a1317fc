/* What a search over leaves of 4 KiB can take at best: memchr over 256 MiB in one block, in a list of leaves, and in a
 * balanced tree of them, walked in four ways. No part of the library is used: the nodes are laid out as its nodes are, a
 * block for each node and one for the bytes of each leaf.
 *
 *     cc -O2 bench/search/leaves.c -o /tmp/leaves && /tmp/leaves
 *
 * Prints the least of nine runs in milliseconds, and the speed beside that over one block.
 */
#define _POSIX_C_SOURCE 199309L
#include <stdint.h>
#include <stdio.h>
#include <stdlib.h>
#include <string.h>
#include <time.h>

enum { LEAF = 4096, LEAVES = 65536, DEPTH = 64, RUNS = 9, QUARTERS = 4 };

typedef struct node {
    long strong, weak;
    uint64_t len;
    struct node *left, *right; /* null in a leaf */
    unsigned char *bytes;
} node;

static unsigned char *block;
static node *leaves[LEAVES], *root;
static volatile unsigned char touched;

static int is_in(const unsigned char *bytes, size_t len) {
    return memchr(bytes, 1, len) != NULL;
}

static int one_block(void) {
    return is_in(block, (size_t)LEAF * LEAVES);
}

static int list(void) {
    int found = 0;
    for (int i = 0; i < LEAVES; i++) found |= is_in(leaves[i]->bytes, LEAF);
    return found;
}

/* The first leaf at or below a node; the nodes to the right of the way are put on the stack. */
static node *descend(node *at, node **stack, int *top, int ask_ahead) {
    while (at->left) {
        if (ask_ahead) __builtin_prefetch(at->right);
        stack[(*top)++] = at->right;
        at = at->left;
    }
    return at;
}

static int tree(void) {
    node *stack[DEPTH] = {root};
    int top = 1, found = 0;
    while (top) {
        node *leaf = descend(stack[--top], stack, &top, 0);
        found |= is_in(leaf->bytes, leaf->len);
    }
    return found;
}

static int tree_nodes_ahead(void) {
    node *stack[DEPTH] = {root};
    int top = 1, found = 0;
    while (top) {
        node *leaf = descend(stack[--top], stack, &top, 1);
        found |= is_in(leaf->bytes, leaf->len);
    }
    return found;
}

static int tree_leaf_ahead(void) {
    node *stack[DEPTH] = {root};
    int top = 1, found = 0;
    while (top) {
        node *leaf = descend(stack[--top], stack, &top, 1), *next = top ? stack[top - 1] : NULL;
        while (next && next->left) next = next->left;
        for (int line = 0; next && line < 256; line += 64) __builtin_prefetch(next->bytes + line);
        found |= is_in(leaf->bytes, leaf->len);
    }
    return found;
}

/* Without a hint to the processor: a step to the next leaf after each quarter of this one. */
static int tree_step_in_quarters(void) {
    node *stack[DEPTH] = {root};
    int top = 1, found = 0;
    while (top) {
        node *leaf = descend(stack[--top], stack, &top, 0), *next = top ? stack[top - 1] : NULL;
        for (int quarter = 0; quarter < QUARTERS; quarter++) {
            if (next && next->left) next = next->left;
            else if (next) touched = next->bytes[0];
            found |= is_in(leaf->bytes + quarter * (LEAF / QUARTERS), LEAF / QUARTERS);
        }
    }
    return found;
}

static node *made(node *left, node *right, unsigned char *bytes) {
    node *it = malloc(sizeof *it);
    if (!it) exit(3);
    *it = (node){1, 1, bytes ? LEAF : left->len + right->len, left, right, bytes};
    return it;
}

static node *tree_of(int from, int to) {
    if (to - from == 1) return leaves[from];
    int middle = (from + to) / 2;
    node *left = tree_of(from, middle), *right = tree_of(middle, to);
    return made(left, right, NULL);
}

static unsigned char *filled(size_t len) {
    unsigned char *bytes = malloc(len);
    if (!bytes) exit(3);
    return memset(bytes, 7, len);
}

static double milliseconds(int (*search)(void)) {
    struct timespec begin, end;
    clock_gettime(CLOCK_MONOTONIC, &begin);
    if (search()) exit(1);
    clock_gettime(CLOCK_MONOTONIC, &end);
    return (end.tv_sec - begin.tv_sec) * 1e3 + (end.tv_nsec - begin.tv_nsec) / 1e6;
}

int main(void) {
    static const struct { const char *name; int (*search)(void); } ways[] = {
        {"one block", one_block},
        {"a list of leaves", list},
        {"a tree", tree},
        {"a tree, a step to the next leaf in each quarter", tree_step_in_quarters},
        {"a tree, nodes asked for ahead", tree_nodes_ahead},
        {"a tree, the next leaf asked for ahead", tree_leaf_ahead},
    };
    enum { WAYS = sizeof ways / sizeof *ways };
    double least[WAYS];
    block = filled((size_t)LEAF * LEAVES);
    for (int i = 0; i < LEAVES; i++) leaves[i] = made(NULL, NULL, filled(LEAF));
    root = tree_of(0, LEAVES);
    for (int run = 0; run < RUNS; run++)
        for (int way = 0; way < WAYS; way++) {
            double time = milliseconds(ways[way].search);
            if (!run || time < least[way]) least[way] = time;
        }
    for (int way = 0; way < WAYS; way++)
        printf("%-48s %6.1f ms  %.2f\n", ways[way].name, least[way], least[0] / least[way]);
    return 0;
}
