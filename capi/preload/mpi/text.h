/* text.h: texts that grow, and what rank 0 prints of them. */
#ifndef TEXT_H
#define TEXT_H
#include "check.h"
#include <stddef.h>
#include <stdint.h>
#include <stdio.h>

enum { COLUMNS = 4 };

struct text {
    char *bytes; /* NULL, or with a zero byte at the end */
    size_t length, room;
};

void text_add(struct text *text, const char *format, ...) __attribute__((format(printf, 2, 3)));
void text_free(struct text *text);
/* Adds a string in JSON. */
void text_json(struct text *text, const char *string);

/* Collective: returns the texts of all ranks, one after the other, at rank 0. */
struct text text_gather(const struct text *text, const char *between);

/* Between the rows of two ranks. */
#define RANKS_END "\f"
/* Adds the rows of ranks, which begin with their numbers; one row stands for neighbours whose rows are alike. */
void text_add_ranks(struct text *text, const char *rows);

/* Prints lines whose columns have tabs between them. */
void text_print_table(FILE *file, const char *prefix, const char *lines);
void text_print_lines(FILE *file, const char *prefix, const char *lines);

/* Collective: each rank asks others for the places of calls, by their addresses there. */
void ask_places(int count, const int *ranks, const uint64_t *addresses, char (*texts)[PLACE_SIZE]);
#endif
