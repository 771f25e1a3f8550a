/* text.c: texts that grow, the texts of all ranks, tables, and strings in JSON. */
#include "text.h"
#include "check.h"
#include <stdarg.h>
#include <stdlib.h>
#include <string.h>

void text_add(struct text *text, const char *format, ...) {
    va_list arguments;
    int length;
    va_start(arguments, format);
    length = vsnprintf(NULL, 0, format, arguments);
    va_end(arguments);
    if (length < 0) return;
    if (text->length + (size_t)length + 1 > text->room) {
        text->room = 2 * text->room + (size_t)length + 1;
        text->bytes = reallocate(text->bytes, text->room);
    }
    va_start(arguments, format);
    vsnprintf(text->bytes + text->length, text->room - text->length, format, arguments);
    va_end(arguments);
    text->length += (size_t)length;
}

void text_free(struct text *text) {
    free(text->bytes);
    *text = (struct text){0};
}

void text_json(struct text *text, const char *string) {
    text_add(text, "\"");
    for (; *string; string++) {
        if (*string == '"' || *string == '\\') text_add(text, "\\%c", *string);
        else if ((unsigned char)*string < ' ') text_add(text, "\\u%04x", *string);
        else text_add(text, "%c", *string);
    }
    text_add(text, "\"");
}

struct text text_gather(const struct text *text, const char *between) {
    int length = (int)text->length, all = 0, is_first = 1;
    int *lengths = allocate(sizeof(int) * (size_t)checker.all), *begins = allocate(sizeof(int) * (size_t)checker.all);
    struct text sum = {0};
    char *bytes;
    MPI_Request request;
    PMPI_Igather(&length, 1, MPI_INT, lengths, 1, MPI_INT, 0, checker.report, &request);
    await(&request);
    for (int n = 0; n < checker.all; n++) begins[n] = all, all += lengths[n];
    bytes = allocate((size_t)all + 1);
    PMPI_Igatherv(text->bytes, length, MPI_CHAR, bytes, lengths, begins, MPI_CHAR, 0, checker.report, &request);
    await(&request);
    text_add(&sum, "%s", "");
    for (int n = 0; n < checker.all && checker.me == 0; n++) {
        if (!lengths[n]) continue;
        text_add(&sum, "%s%.*s", is_first ? "" : between, lengths[n], bytes + begins[n]);
        is_first = 0;
    }
    free(bytes);
    free(begins);
    free(lengths);
    return sum;
}

void text_add_ranks(struct text *text, const char *rows) {
    while (*rows) {
        long first = strtol(rows, NULL, 10), last = first;
        const char *own = rows + strcspn(rows, "\t"), *next = rows;
        size_t length = strcspn(own, RANKS_END);
        while (*next && !strncmp(next + strcspn(next, "\t"), own, length)) {
            const char *end = next + strcspn(next, "\t") + length;
            if (*end && *end != *RANKS_END) break;
            last = strtol(next, NULL, 10);
            next = end + (*end != 0);
        }
        text_add(text, "%ld", first);
        if (last > first) text_add(text, "-%ld", last);
        text_add(text, "%.*s", (int)length, own);
        rows = next;
    }
}

/* The length of the column that begins here. */
static size_t column(const char *at) { return strcspn(at, "\t\n"); }

static const char *next_column(const char *at) {
    at += column(at);
    return *at ? at + 1 : at;
}

void text_print_table(FILE *file, const char *prefix, const char *lines) {
    size_t widths[COLUMNS] = {0};
    int place = 0;
    for (const char *at = lines; *at; at = next_column(at)) {
        if (column(at) > widths[place]) widths[place] = column(at);
        place = at[column(at)] == '\t' && place + 1 < COLUMNS ? place + 1 : 0;
    }
    place = 0;
    for (const char *at = lines; *at; at = next_column(at)) {
        int is_last = at[column(at)] != '\t';
        if (!place) fputs(prefix, file);
        fprintf(file, "%-*.*s%s", is_last ? 0 : (int)widths[place], (int)column(at), at, is_last ? "\n" : "  ");
        place = is_last || place + 1 == COLUMNS ? 0 : place + 1;
    }
}

void text_print_lines(FILE *file, const char *prefix, const char *lines) {
    for (const char *at = lines; *at; at = next_column(at)) fprintf(file, "%s%.*s\n", prefix, (int)column(at), at);
}

/* The first number of each rank's part, for calls with counts; returns their sum. */
static int prefix_sums(const int *counts, int *begins) {
    int all = 0;
    for (int n = 0; n < checker.all; n++) begins[n] = all, all += counts[n];
    return all;
}

static void scale(int *numbers, int factor) {
    for (int n = 0; n < checker.all; n++) numbers[n] *= factor;
}

/* The addresses go to their ranks, and the texts come back, in the order of ranks and then of the questions. */
void ask_places(int count, const int *ranks, const uint64_t *addresses, char (*texts)[PLACE_SIZE]) {
    size_t size = sizeof(int) * (size_t)checker.all;
    int *out = allocate(size), *out_at = allocate(size), *in = allocate(size), *in_at = allocate(size), all;
    int *next = allocate(size);
    uint64_t *sorted = allocate(sizeof *sorted * (size_t)(count + 1)), *asked;
    char (*found)[PLACE_SIZE], (*back)[PLACE_SIZE] = allocate(sizeof *back * (size_t)(count + 1));
    MPI_Request request;
    for (int n = 0; n < count; n++) out[ranks[n]]++;
    prefix_sums(out, out_at);
    memcpy(next, out_at, size);
    for (int n = 0; n < count; n++) sorted[next[ranks[n]]++] = addresses[n];
    PMPI_Ialltoall(out, 1, MPI_INT, in, 1, MPI_INT, checker.report, &request);
    await(&request);
    all = prefix_sums(in, in_at);
    asked = allocate(sizeof *asked * (size_t)(all + 1));
    found = allocate(sizeof *found * (size_t)(all + 1));
    PMPI_Ialltoallv(sorted, out, out_at, MPI_UINT64_T, asked, in, in_at, MPI_UINT64_T, checker.report, &request);
    await(&request);
    for (int n = 0; n < all; n++) place_text((const void *)(uintptr_t)asked[n], found[n], PLACE_SIZE);
    memcpy(next, out_at, size);
    scale(in, PLACE_SIZE), scale(in_at, PLACE_SIZE), scale(out, PLACE_SIZE), scale(out_at, PLACE_SIZE);
    PMPI_Ialltoallv(found, in, in_at, MPI_CHAR, back, out, out_at, MPI_CHAR, checker.report, &request);
    await(&request);
    for (int n = 0; n < count; n++) memcpy(texts[n], back[next[ranks[n]]++], PLACE_SIZE);
    free(out), free(out_at), free(in), free(in_at), free(next), free(sorted), free(asked), free(found), free(back);
}
