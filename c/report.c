/* Makes a report of a file of lines NAME NUMBER: a table with the total in front.
 *
 *     report FILE */
#include <stdio.h>
#include <stdlib.h>
#include <zomtsje.h>

static zc_cord text, number, row, table, whole; /* zeros are cords of no bytes */
static zc_ext rows;

static void must(int code) {
    if (code != ZC_OK) {
        fprintf(stderr, "report: %s\n", zc_message(code));
        exit(1);
    }
}

/* A row of the table, whose name the argument has. */
static void format_row(zc_arg *name, int64_t value, zc_cord *out) {
    zc_arg args[] = {*name, ZC_NUMBER(value)};
    uint64_t at = 0;
    must(zc_sprintf("%-12s|%8d\n", 10, args, 2, out, &at));
    name->text = args[0].text;
}

static int64_t number_of(zc_cord *digits) {
    char bytes[24] = "";
    size_t got = 0;
    must(zc_read(digits, 0, bytes, sizeof bytes - 1, &got));
    return strtoll(bytes, NULL, 10);
}

/* Adds the row of the line between two places. */
static int64_t add_line(uint64_t begin, uint64_t end) {
    zc_arg name = ZC_TEXT;
    uint64_t space = 0;
    must(zc_chr(&text, begin, ' ', &space));
    must(zc_substr(&text, begin, space - begin, &name.text));
    must(zc_substr(&text, space + 1, end - space - 1, &number));
    int64_t value = number_of(&number);
    format_row(&name, value, &row);
    must(zc_ext_cord(&rows, &row));
    zc_free(&name.text);
    return value;
}

int main(int words, char **word) {
    zc_arg title = ZC_TEXT;
    int64_t total = 0;
    if (words != 2) {
        fprintf(stderr, "usage: report FILE\n");
        return 2;
    }
    must(zc_from_path(word[1], &text));
    for (uint64_t begin = 0, end; begin < zc_len(&text); begin = end + 1) {
        must(zc_chr(&text, begin, '\n', &end));
        if (end == ZC_NOT_FOUND) end = zc_len(&text);
        total += add_line(begin, end);
    }
    must(zc_from_bytes("total", 5, &title.text));
    format_row(&title, total, &row);
    must(zc_ext_to_cord(&rows, &table));
    must(zc_cat(&row, &table, &whole));
    must(zc_put(&whole, 1));
    zc_free(&text);
    zc_free(&number);
    zc_free(&row);
    zc_free(&table);
    zc_free(&whole);
    zc_free(&title.text);
    zc_ext_free(&rows);
    return 0;
}
