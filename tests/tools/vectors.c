/* Reads files of vectors. */
#include <stdlib.h>
#include <string.h>

#include "vectors.h"

void vectors_fail(const struct vectors *v, const char *what) {
    fprintf(stderr, "%s, line %u: %s\n", v->path, v->lines, what);
    exit(2);
}

/* Reads a line; answers 0 at the end of the file. */
static int read_line(struct vectors *v) {
    v->lines++;
    if (fgets(v->line, LINE, v->in) == NULL)
        return 0;
    size_t len = strcspn(v->line, "\n");
    if (v->line[len] == '\0')
        vectors_fail(v, "a line that is too long or does not end");
    v->line[len] = '\0';
    return 1;
}

/* Splits the line at its tabs; answers how many fields it has. */
static unsigned split(struct vectors *v) {
    unsigned n = 0;
    for (char *at = v->line; at != NULL; n++) {
        if (n == COLUMNS)
            vectors_fail(v, "too many fields");
        v->field[n] = at;
        at = strchr(at, '\t');
        if (at != NULL)
            *at++ = '\0';
    }
    return n;
}

void vectors_open(struct vectors *v, const char *path, const char *heads) {
    size_t len = strlen(heads);
    v->path = path;
    v->lines = v->count = 0;
    v->in = fopen(path, "r");
    if (v->in == NULL || !read_line(v))
        vectors_fail(v, "no column heads");
    if (strncmp(v->line, heads, len) != 0 || (v->line[len] != '\t' && v->line[len] != '\0'))
        vectors_fail(v, "other column heads");
    v->columns = split(v);
}

int vectors_next(struct vectors *v) {
    if (!read_line(v)) {
        fclose(v->in);
        return 0;
    }
    v->count++;
    if (split(v) != v->columns)
        vectors_fail(v, "not a field for each column");
    return 1;
}

/* The value of a hex digit. */
static unsigned digit(const struct vectors *v, char c) {
    static const char digits[] = "0123456789abcdef";
    const char *at = c == '\0' ? NULL : strchr(digits, c);
    if (at == NULL)
        vectors_fail(v, "a field that is not hex");
    return (unsigned)(at - digits);
}

/* The number of zeros in parentheses; answers what stands behind them. */
static const char *count_zeros(const struct vectors *v, const char *text, size_t *zeros) {
    char *end;
    *zeros = strtoul(text + 1, &end, 10);
    if (end == text + 1 || *end != ')')
        vectors_fail(v, "a field that is not hex");
    return end + 1;
}

size_t vectors_bytes(const struct vectors *v, unsigned field, uint8_t *out, size_t most) {
    const char *text = v->field[field];
    size_t n = 0;
    if (strcmp(text, "-") == 0)
        return 0;
    while (*text != '\0') {
        unsigned value = 0;
        size_t times = 1;
        if (*text == '(') {
            text = count_zeros(v, text, &times);
        } else {
            value = 16 * digit(v, text[0]) + digit(v, text[1]);
            text += 2;
        }
        if (times > most - n)
            vectors_fail(v, "too many bytes in a field");
        memset(out + n, (int)value, times);
        n += times;
    }
    return n;
}

uint64_t vectors_number(const struct vectors *v, unsigned field) {
    char *end;
    uint64_t number = strtoull(v->field[field], &end, 10);
    if (end == v->field[field] || *end != '\0')
        vectors_fail(v, "a field that is no number");
    return number;
}

int holds(const uint8_t *lent, size_t len, const uint8_t *front, size_t front_len) {
    if (front_len > len || memcmp(lent, front, front_len) != 0)
        return 0;
    for (size_t i = front_len; i < len; i++)
        if (lent[i] != FILLER)
            return 0;
    return 1;
}
