/* The core of an editor: a buffer whose every version is kept, since versions share what they have in common. The
 * file is opened lazily, so it may be greater than the memory: what isn't looked at stays in it.
 *
 *     editor FILE < COMMANDS
 *
 * A command a line: 'i PLACE TEXT' inserts, 'd PLACE COUNT' deletes, 'f TEXT' tells where the text stands first,
 * 'w PLACE' shows the lines around a place, 'u' takes the last change back, 's PATH' saves: under another name than
 * the file's, which has to keep its bytes. */
#define _POSIX_C_SOURCE 200809L
#include <inttypes.h>
#include <stdio.h>
#include <stdlib.h>
#include <string.h>
#include <zomtsje.h>

enum { MOST_VERSIONS = 1000, LONGEST_LINE = 4096 };

static zc_files files;                     /* zeros are no files */
static zc_lazy versions[MOST_VERSIONS];    /* and cords of no bytes */
static zc_lazy added; /* what is put into the next version */
static int current = 0;

static void must(int code) {
    if (code != ZC_OK) {
        fprintf(stderr, "editor: %s\n", zc_message(code));
        exit(1);
    }
}

/* The version after the current one; without room for more, the oldest goes. */
static zc_lazy *next_version(void) {
    if (current + 1 == MOST_VERSIONS) {
        zc_lazy_free(&versions[0]);
        memmove(versions, versions + 1, sizeof versions - sizeof versions[0]);
        versions[current--] = (zc_lazy)ZC_LAZY_EMPTY;
    }
    return &versions[current + 1];
}

/* The text as a cord. */
static void take(const char *text) {
    zc_cord bytes = ZC_EMPTY;
    must(zc_from_bytes(text, strlen(text), &bytes));
    must(zc_lazy_from_cord(&bytes, &added));
    zc_free(&bytes);
}

static void insert(uint64_t place, const char *text) {
    zc_lazy *next = next_version();
    take(text);
    must(zc_lazy_insert(&versions[current], place, &added, next));
    current++;
}

static void delete(uint64_t place, uint64_t count) {
    zc_lazy *next = next_version();
    must(zc_lazy_remove(&versions[current], place, count, next));
    current++;
}

static void find(const char *text) {
    uint64_t place = ZC_NOT_FOUND;
    must(zc_lazy_find(&files, &versions[current], 0, text, strlen(text), &place));
    if (place == ZC_NOT_FOUND)
        puts("not found");
    else
        printf("%" PRIu64 "\n", place);
}

/* The line of the place, with the one before and the one after. */
static void show(uint64_t place) {
    const zc_lazy *text = &versions[current];
    uint64_t start = place, end = place, line, done;
    for (int i = 0; i < 2 && start > 0; i++) {
        must(zc_lazy_rchr(&files, text, i == 0 ? start : start - 1, '\n', &line));
        start = line == ZC_NOT_FOUND ? 0 : line + 1;
    }
    for (int i = 0; i < 2 && end != ZC_NOT_FOUND; i++) {
        must(zc_lazy_chr(&files, text, end, '\n', &line));
        end = line == ZC_NOT_FOUND ? line : line + 1;
    }
    fflush(stdout);
    must(zc_lazy_put_range(&files, text, start, end, fileno(stdout), &done));
}

static void save(const char *path) {
    FILE *file = fopen(path, "wb");
    if (file == NULL) must(ZC_WRITE_FAILED);
    must(zc_lazy_put(&files, &versions[current], fileno(file)));
    if (fclose(file) != 0) must(ZC_WRITE_FAILED);
}

static void run(char *line) {
    uint64_t place, count;
    int text = 0;
    if (sscanf(line, "i %" SCNu64 " %n", &place, &text) == 1 && text > 0)
        insert(place, line + text);
    else if (sscanf(line, "d %" SCNu64 " %" SCNu64, &place, &count) == 2)
        delete(place, count);
    else if (strncmp(line, "f ", 2) == 0)
        find(line + 2);
    else if (sscanf(line, "w %" SCNu64, &place) == 1)
        show(place);
    else if (strncmp(line, "s ", 2) == 0)
        save(line + 2);
    else if (strcmp(line, "u") == 0 && current > 0)
        current--;
    else
        printf("?\n");
}

int main(int words, char **word) {
    static char line[LONGEST_LINE];
    if (words != 2) {
        fprintf(stderr, "usage: editor FILE\n");
        return 2;
    }
    must(zc_lazy_from_path(&files, word[1], &versions[0]));
    while (fgets(line, sizeof line, stdin) != NULL) {
        line[strcspn(line, "\n")] = 0;
        run(line);
    }
    for (int i = 0; i < MOST_VERSIONS; i++) zc_lazy_free(&versions[i]);
    zc_lazy_free(&added);
    zc_files_free(&files);
    return 0;
}
