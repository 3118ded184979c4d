/* Times c2c_judge beside plain_judge over idle, mixed and dense containers, after comparing their answers. */
#include <stdio.h>
#include <stdlib.h>
#include <string.h>

#include "../models/layout.h"
#include "../models/plain.h"
#include "../tools/containers.h"
#include "../tools/probe.h"
#include "clock.h"

enum { COUNT = 512, DAMAGED = 200000, ROUNDS = 15, TURNS = 20, PROFILES = 4 };

static const char *const profile_name[PROFILES] = {"idle", "mixed", "dense", "dense, short"};
static uint8_t containers[PROFILES][2][COUNT][CONTAINER];

/* How full a container is to be, by chances in 100 as in a profile of traffic, and the message that goes on in it. */
struct density {
    unsigned rest, longer;
    struct going going;
};

/* Whether any message may start at granule g. */
static int has_place(const struct filling *f, unsigned g) {
    return granule_size(f->format, g) == 20 || f->miscs < GROUP_MISCS || f->responses < GROUP_RESPONSES;
}

/* Chooses a message that may start at granule g, none in a granule that a longer message passes over. */
static size_t choose(void *chooser, const struct filling *f, unsigned g, uint8_t *m) {
    const struct density *d = chooser;
    if (d->going.sent < d->going.size || draw(100) < d->rest)
        return 0;
    do {
        unsigned type = draw_type(d->longer), op = draw(OPS);
        if (suits(f, g, type, op))
            return make_message(type, op, m);
    } while (has_place(f, g));
    return 0;
}

/* Fills a container, with a grant that has no counts beside an Activation. */
static void fill(unsigned format, unsigned rest, unsigned longer, uint8_t *c) {
    struct filling f = {.format = format};
    struct density d = {.rest = rest, .longer = longer};
    memset(c, 0, CONTAINER);
    fill_granules(&f, &d.going, choose, &d, c);
    uint8_t form[5] = {draw_form()};
    for (unsigned i = 1; i < 5 && !f.activation; i++)
        form[i] = (uint8_t)draw(256);
    fill_header(&f, form, c);
}

static void make_containers(void) {
    for (unsigned f = 0; f < 2; f++)
        for (unsigned i = 0; i < COUNT; i++) {
            memset(containers[0][f][i], 0, CONTAINER);
            if (draw(3) > 0)
                fill(f, 40, 30, containers[1][f][i]);
            fill(f, 0, 25, containers[2][f][i]);
            fill(f, 0, 0, containers[3][f][i]);
        }
}

/* Compares both on one container; ends the program where they differ. */
static uint32_t compare(uint32_t format, const uint8_t *c, size_t len) {
    uint32_t ours = c2c_judge(format, c, len), plain = plain_judge(format, c, len);
    if (ours == plain)
        return ours;
    printf("difference in format %u, %zu bytes: ours %u place %u, plain %u place %u\n", (unsigned)format, len,
           (unsigned)(ours >> 16), (unsigned)(ours & 65535), (unsigned)(plain >> 16), (unsigned)(plain & 65535));
    for (size_t i = 0; i < len; i++)
        printf("%02x%s", c[i], i % 20 == 19 ? "\n" : " ");
    printf("\n");
    exit(1);
}

static void check_answers(void) {
    unsigned seen[32] = {0};
    for (unsigned p = 0; p < PROFILES; p++)
        for (unsigned f = 0; f < 2; f++)
            for (unsigned i = 0; i < COUNT; i++)
                if (compare(f, containers[p][f][i], CONTAINER) != 0) {
                    printf("container %u of profile %s, format %u is not valid\n", i, profile_name[p], f);
                    exit(1);
                }
    for (unsigned k = 0; k < DAMAGED; k++) {
        uint8_t c[CONTAINER + 4] = {0};
        unsigned f = draw(2), changes = 1 + draw(3);
        size_t len = CONTAINER;
        memcpy(c, containers[draw(PROFILES)][f][draw(COUNT)], CONTAINER);
        for (unsigned i = 0; i < changes; i++)
            damage(f, c);
        if (draw(500) == 0)
            len = draw(CONTAINER + 4);
        seen[compare(draw(500) == 0 ? 2 + draw(9) : f, c, len) >> 16]++;
    }
    printf("agree on %u valid and %u damaged containers; causes met:", PROFILES * 2 * COUNT, DAMAGED);
    for (unsigned i = 0; i < 32; i++)
        if (seen[i] > 0)
            printf(" %u (%u)", i, seen[i]);
    printf("\n");
}

typedef uint32_t judging(uint32_t, const uint8_t *, size_t);

/* ns per container of one turn over a profile. */
static double time_turns(judging *judge, unsigned p, unsigned f) {
    uint32_t sum = 0;
    double began = seconds();
    for (unsigned t = 0; t < TURNS; t++)
        for (unsigned i = 0; i < COUNT; i++)
            sum += judge(f, containers[p][f][i], CONTAINER);
    double took = seconds() - began;
    if (sum != 0) {
        printf("a valid container was refused\n");
        exit(1);
    }
    return took * 1e9 / (TURNS * COUNT);
}

int main(void) {
    double ours[PROFILES][2], plain[PROFILES][2];
    make_containers();
    check_answers();
    for (unsigned round = 0; round < ROUNDS; round++)
        for (unsigned p = 0; p < PROFILES; p++)
            for (unsigned f = 0; f < 2; f++) {
                double a = time_turns(c2c_judge, p, f), b = time_turns(plain_judge, p, f);
                if (round == 0 || a < ours[p][f])
                    ours[p][f] = a;
                if (round == 0 || b < plain[p][f])
                    plain[p][f] = b;
            }
    printf("%-14s %-7s %10s %10s %13s\n", "profile", "format", "ours, ns", "plain, ns", "ours / plain");
    for (unsigned p = 0; p < PROFILES; p++)
        for (unsigned f = 0; f < 2; f++)
            printf("%-14s %-7s %10.1f %10.1f %13.2f\n", profile_name[p], f == 0 ? "X" : "Y", ours[p][f], plain[p][f],
                   ours[p][f] / plain[p][f]);
    return 0;
}
