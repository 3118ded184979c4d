/* Runs every vector of a file through c2c_fill and compares cause, place, bytes used, tail and container, and the same vectors with a
   tail, a grant or a ShC that is refused by 19. */
#include <string.h>

#include "../models/layout.h"
#include "../tools/probe.h"
#include "../tools/vectors.h"

enum { BYTES = 8192, WRONG = 5 };

static const char heads[] = "format\ttail\tgrant\tlist\tcause\tplace\tused\tnext tail\tcontainer";

/* A call, and what it is to give. */
struct vector {
    uint32_t format;
    uint8_t tail[PART], grant[GRANT], list[BYTES];
    size_t len, list_len;
    int refused;
    uint64_t answer;
    uint8_t tail_wanted[PART], container[CONTAINER];
};

/* The six numbers of a grant field. */
static void parse_grant(const struct vectors *in, unsigned field, uint8_t *out) {
    unsigned n[GRANT];
    if (sscanf(in->field[field], "%u,%u,%u,%u,%u,%u", &n[0], &n[1], &n[2], &n[3], &n[4], &n[5]) != GRANT)
        vectors_fail(in, "a field that is no grant");
    for (int k = 0; k < GRANT; k++) {
        if (n[k] > 255)
            vectors_fail(in, "a field that is no grant");
        out[k] = (uint8_t)n[k];
    }
}

/* The vector that was read. */
static void parse(const struct vectors *in, struct vector *v) {
    memset(v, 0, sizeof *v);
    v->format = (uint32_t)vectors_number(in, 0);
    v->len = vectors_bytes(in, 1, v->tail, PART);
    parse_grant(in, 2, v->grant);
    v->list_len = vectors_bytes(in, 3, v->list, BYTES);
    uint64_t cause = vectors_number(in, 4), place = vectors_number(in, 5), used = vectors_number(in, 6);
    size_t len = vectors_bytes(in, 7, v->tail_wanted, PART);
    v->refused = cause != 0;
    v->answer = cause == 0 ? used * 256 + len : cause * 4294967296u + place;
    if (vectors_bytes(in, 8, v->container, CONTAINER) != CONTAINER)
        vectors_fail(in, "no container of 256 bytes");
}

/* Whether a container still holds the filler alone. */
static int untouched(const uint8_t *container) {
    return holds(container, CONTAINER, container, 0);
}

/* Runs a vector; answers whether all is as it is to be. */
static int run(struct vector *v, unsigned number) {
    uint8_t container[CONTAINER];
    memset(container, FILLER, CONTAINER);
    uint64_t answer = c2c_fill(v->format, v->len, v->tail, PART, v->grant, GRANT, v->list, v->list_len, container, CONTAINER);
    if (answer == v->answer && memcmp(v->tail, v->tail_wanted, PART) == 0 && memcmp(container, v->container, CONTAINER) == 0
        && (!v->refused || untouched(container)))
        return 1;
    printf("vector %u: answer %llu, wanted %llu\n", number, (unsigned long long)answer, (unsigned long long)v->answer);
    return 0;
}

/* Runs a vector with ShC from 2 to 255 or a tail or grant of another length; answers whether 19 is told and nothing is written. */
static int run_wrong(const struct vector *v, unsigned number, unsigned which) {
    static const size_t lens[WRONG][2] = {{PART, GRANT}, {PART - 1, GRANT}, {PART + 1, GRANT}, {PART, GRANT - 1}, {PART, GRANT + 1}};
    uint8_t tail[PART + 1] = {0}, kept[PART + 1], grant[GRANT + 1] = {0}, container[CONTAINER];
    memcpy(tail, v->tail, PART);
    memcpy(kept, tail, sizeof kept);
    memcpy(grant, v->grant, GRANT);
    memset(container, FILLER, CONTAINER);
    if (which == 0)
        grant[0] = (uint8_t)(2 + number % 254);
    uint64_t answer = c2c_fill(v->format, v->len, tail, lens[which][0], grant, lens[which][1], v->list, v->list_len, container, CONTAINER);
    if (answer == 19 * 4294967296u && memcmp(tail, kept, sizeof kept) == 0 && untouched(container))
        return 1;
    printf("vector %u, ShC %u, tail of %zu, grant of %zu bytes: answer %llu, wanted 19 and nothing written\n", number, grant[0],
           lens[which][0], lens[which][1], (unsigned long long)answer);
    return 0;
}

int main(int argc, char **argv) {
    static struct vectors vectors;
    static struct vector vector;
    unsigned differences = 0;
    if (argc != 2) {
        fprintf(stderr, "usage: write VECTORS\n");
        return 2;
    }
    vectors_open(&vectors, argv[1], heads);
    while (vectors_next(&vectors)) {
        parse(&vectors, &vector);
        for (unsigned which = 0; which < WRONG; which++)
            differences += !run_wrong(&vector, vectors.count, which);
        differences += !run(&vector, vectors.count);
    }
    printf("write: %u vectors, %u wrong calls, %u differences\n", vectors.count, WRONG * vectors.count, differences);
    return vectors.count > 0 && differences == 0 ? 0 : 1;
}
