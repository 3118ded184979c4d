/* Writes random lists of records with right heads, N.list (a format and the list) and N.lines (its messages in hex).
   Usage: lists SEED COUNT DIRECTORY */
#include <stdint.h>
#include <stdio.h>
#include <stdlib.h>
#include <string.h>

#include "../models/layout.h"
#include "../models/plain.h"

/* The kinds of messages: the types before MiscU, then its ops. */
enum { TYPES = MISC_U - REQ_S, KINDS = TYPES + OPS, NAME = 4096 };

static uint64_t state;

/* A random number below a bound (splitmix64). */
static unsigned below(unsigned bound) {
    uint64_t z = state += 0x9E3779B97F4A7C15u;
    z = (z ^ (z >> 30)) * 0xBF58476D1CE4E5B9u;
    z = (z ^ (z >> 27)) * 0x94D049BB133111EBu;
    return (unsigned)((z ^ (z >> 31)) % bound);
}

/* The first byte of a right grant form. */
static uint8_t make_form(void) {
    return below(1 + PLANES) == PLANES ? form_start(1, 0) : form_start(0, below(PLANES));
}

/* Makes the head of a MiscU right. */
static void make_misc(unsigned op, size_t size, uint8_t *m) {
    m[0] = MISC_U;
    m[1] = (uint8_t)op;
    if (op == ACTIVATION)
        m[2] = (uint8_t)(1 + below(ACTIVATIONS));
    if (op == CRDT_GRANT) {
        m[FORM] = make_form();
        memset(m + FORM_END, 0, size - FORM_END);
    }
}

/* A message of a kind: random bytes with a right head. */
static size_t make(unsigned kind, uint8_t *m) {
    unsigned type = kind < TYPES ? REQ_S + kind : MISC_U, op = kind < TYPES ? 0 : kind - TYPES;
    size_t size = message_size(type, op);
    for (size_t i = 0; i < size; i++)
        m[i] = (uint8_t)below(256);
    if (type == MISC_U) {
        make_misc(op, size, m);
        return size;
    }
    m[0] = (uint8_t)(type + 16 * (below(16) % flag_values(type)));
    if (type == WR_REQ_DATA_S || type == WR_REQ_DATA_L)
        m[1] = (uint8_t)below(2);
    return size;
}

static FILE *create(const char *dir, unsigned n, const char *suffix) {
    char name[NAME];
    int len = snprintf(name, sizeof name, "%s/%u.%s", dir, n, suffix);
    FILE *out = len > 0 && len < NAME ? fopen(name, "wb") : NULL;
    if (out == NULL) {
        perror("lists");
        exit(2);
    }
    return out;
}

static void finish(FILE *out) {
    if (ferror(out) || fclose(out) != 0) {
        perror("lists");
        exit(2);
    }
}

/* One list of at most `limit` bytes, of the kinds whose bits are set. */
static void write_list(const char *dir, unsigned n, unsigned limit, unsigned kinds) {
    FILE *list = create(dir, n, "list"), *lines = create(dir, n, "lines");
    unsigned used = 0;
    fputc((int)(n % 2), list);
    for (unsigned misses = 0; misses < 8 && used + 1 + SMALLEST <= limit;) {
        uint8_t m[LARGEST];
        unsigned kind = below(KINDS);
        if ((kinds >> kind & 1) == 0)
            continue;
        size_t size = make(kind, m);
        if (used + 1 + size > limit) {
            misses++;
            continue;
        }
        uint8_t number[5];
        fwrite(number, 1, plain_put_number((uint32_t)size, number), list);
        fwrite(m, 1, size, list);
        for (size_t i = 0; i < size; i++)
            fprintf(lines, "%02x", m[i]);
        fputc('\n', lines);
        used += 1 + (unsigned)size;
    }
    finish(list);
    finish(lines);
}

int main(int argc, char **argv) {
    if (argc != 4) {
        fprintf(stderr, "usage: lists SEED COUNT DIRECTORY\n");
        return 2;
    }
    state = strtoull(argv[1], NULL, 10);
    unsigned count = (unsigned)strtoul(argv[2], NULL, 10);
    for (unsigned n = 0; n < count; n++) {
        /* A third are full, and half are of all kinds. */
        unsigned limit = below(3) == 0 ? LIST : below(LIST + 1);
        unsigned kinds = below(2) == 0 ? (1u << KINDS) - 1 : 1 + below((1u << KINDS) - 1);
        write_list(argv[3], n, limit, kinds);
    }
    return 0;
}
