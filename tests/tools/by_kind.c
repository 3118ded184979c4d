/* Compares two files of messages in hex, one a line, each ended by the line of a verdict: the same verdict and the same messages, each
   once, with those that pay one kind in their order. Usage: by_kind FILE FILE */
#include <stdio.h>
#include <stdlib.h>
#include <string.h>

#include "../models/layout.h"
#include "../models/plain.h"

enum { BYTES = 65536, LINES = 4096 };

/* What messages pay: credits of a kind, or nothing. */
enum { PAYS_REQ = 1, PAYS_RSP = 2, PAYS_SNP = 4, PAYS_DAT = 8, PAYS_NOTHING = 16 };

/* The lines of a file: `count` messages, then the verdict. */
struct lines {
    char bytes[BYTES];
    char *line[LINES];
    size_t count;
};

/* Ends the program because of a file. */
static void fail(const char *name, const char *what) {
    fprintf(stderr, "by_kind: %s: %s\n", name, what);
    exit(2);
}

/* The kind of the credits of a pool. */
static unsigned kind_of(unsigned pool) {
    return pool < RSP ? PAYS_REQ : pool == RSP ? PAYS_RSP : pool == SNP ? PAYS_SNP : PAYS_DAT;
}

/* The kinds that a message in hex pays, none if its type is unknown. */
static unsigned kinds_of(const char *message) {
    unsigned head[2], pools[2], kinds = 0;
    if (sscanf(message, "%2x%2x", &head[0], &head[1]) != 2 || message_size(head[0] % 16, head[1]) == 0)
        return 0;
    unsigned n = plain_charges((uint8_t[]){(uint8_t)head[0], (uint8_t)head[1]}, pools);
    for (unsigned i = 0; i < n; i++)
        kinds |= kind_of(pools[i]);
    return n == 0 ? PAYS_NOTHING : kinds;
}

/* Reads a file and parts it into lines. */
static void load(const char *name, struct lines *file) {
    FILE *in = fopen(name, "rb");
    size_t n = in == NULL ? 0 : fread(file->bytes, 1, BYTES, in), lines = 0;
    if (n == 0 || n == BYTES || file->bytes[n - 1] != '\n' || memchr(file->bytes, '\0', n) != NULL)
        fail(name, "no lines of text");
    fclose(in);
    file->bytes[n - 1] = '\0';
    for (char *at = file->bytes; at != NULL; lines++) {
        if (lines == LINES)
            fail(name, "too many lines");
        file->line[lines] = at;
        at = strchr(at, '\n');
        if (at != NULL)
            *at++ = '\0';
    }
    file->count = lines - 1;
    for (size_t i = 0; i < file->count; i++)
        if (kinds_of(file->line[i]) == 0)
            fail(name, "a line that is no message");
}

/* The first message from line i on that pays a kind, `count` if there is none. */
static size_t find(const struct lines *file, size_t i, unsigned kind) {
    while (i < file->count && (kinds_of(file->line[i]) & kind) == 0)
        i++;
    return i;
}

/* Whether the messages that pay a kind are the same in the same order. */
static int same_order(const struct lines *a, const struct lines *b, unsigned kind) {
    size_t i = find(a, 0, kind), j = find(b, 0, kind);
    while (i < a->count && j < b->count) {
        if (strcmp(a->line[i], b->line[j]) != 0)
            return 0;
        i = find(a, i + 1, kind);
        j = find(b, j + 1, kind);
    }
    return i == a->count && j == b->count;
}

static int by_bytes(const void *a, const void *b) {
    return strcmp(*(char *const *)a, *(char *const *)b);
}

/* Whether both have the same messages, each as often as the other has it; it sorts them. */
static int same_messages(struct lines *a, struct lines *b) {
    if (a->count != b->count)
        return 0;
    qsort(a->line, a->count, sizeof a->line[0], by_bytes);
    qsort(b->line, b->count, sizeof b->line[0], by_bytes);
    for (size_t i = 0; i < a->count; i++)
        if (strcmp(a->line[i], b->line[i]) != 0)
            return 0;
    return 1;
}

int main(int argc, char **argv) {
    static struct lines a, b;
    if (argc != 3) {
        fprintf(stderr, "usage: by_kind FILE FILE\n");
        return 2;
    }
    load(argv[1], &a);
    load(argv[2], &b);
    int same = strcmp(a.line[a.count], b.line[b.count]) == 0;
    for (unsigned kind = PAYS_REQ; kind <= PAYS_NOTHING; kind *= 2)
        same = same && same_order(&a, &b, kind);
    return same && same_messages(&a, &b) ? 0 : 1;
}
