/* Files of vectors: a line of column heads, then a line for each vector, the fields separated by tabs. */
#ifndef VECTORS_H
#define VECTORS_H

#include <stddef.h>
#include <stdint.h>
#include <stdio.h>

enum { COLUMNS = 11, LINE = 65536, FILLER = 0xEE };

/* A file while it is read: its columns, the lines and vectors read so far, and the fields of the last one. */
struct vectors {
    FILE *in;
    const char *path;
    unsigned columns, lines, count;
    char line[LINE], *field[COLUMNS];
};

/* Opens a file whose first columns have these heads, separated by tabs; ends the program if it has others. */
void vectors_open(struct vectors *, const char *path, const char *heads);

/* Reads the next vector; answers 0, and closes the file, behind the last one. */
int vectors_next(struct vectors *);

/* Ends the program because of the last line. */
_Noreturn void vectors_fail(const struct vectors *, const char *what);

/* The bytes of a field in hex, at most so many; (n) is n zero bytes, and `-` alone is no byte. */
size_t vectors_bytes(const struct vectors *, unsigned field, uint8_t *out, size_t most);

/* The decimal number of a field. */
uint64_t vectors_number(const struct vectors *, unsigned field);

/* Whether lent bytes hold some at their front and the filler behind them. */
int holds(const uint8_t *lent, size_t len, const uint8_t *front, size_t front_len);

#endif
