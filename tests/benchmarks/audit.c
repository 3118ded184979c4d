/* Times c2c_audit beside plain_step, and c2c_audit_each beside plain_audit, over idle, mixed and dense traffic that is accepted. */
#include <stdio.h>
#include <stdlib.h>
#include <string.h>

#include "../models/layout.h"
#include "../models/plain.h"
#include "../tools/audit_probe.h"
#include "../tools/traffic.h"
#include "clock.h"

enum { COUNT = 2000, ROUNDS = 200, PROFILES = 3, WAYS = 4 };

static const char *const profile_name[PROFILES] = {"idle", "mixed", "dense"};
static const struct profile profiles[PROFILES] = {{100, 0, 0, 0}, {25, 25, 25, 50}, {0, 0, 25, 100}};
static uint32_t numbers[2][NUMBERS];
static uint8_t entries[PROFILES][2][COUNT * ENTRY];

/* Whether a granule holds a byte that is not zero. */
static int is_used(uint32_t format, unsigned g, const uint8_t *container) {
    const uint8_t *granule = container + granule_start(g);
    for (size_t i = 0; i < granule_size(format, g); i++)
        if (granule[i] != 0)
            return 1;
    return 0;
}

/* The used granules of a profile, in 100. */
static unsigned share_used(unsigned p, unsigned f) {
    unsigned used = 0, all = COUNT * GRANULES;
    for (unsigned i = 0; i < COUNT; i++)
        for (unsigned g = 0; g < GRANULES; g++)
            used += is_used(f, g, entries[p][f] + ENTRY * i + 1);
    return (100 * used + all / 2) / all;
}

/* Makes the entries of a profile, the directions alternating. */
static void make_entries(unsigned p, unsigned f) {
    struct traffic t;
    traffic_open(&t, numbers[f]);
    for (unsigned i = 0; i < COUNT; i++) {
        uint8_t *entry = entries[p][f] + ENTRY * i;
        entry[0] = (uint8_t)(i % 2);
        traffic_next(&t, entry[0], &profiles[p], entry + 1);
    }
}

static void make_all(void) {
    for (unsigned f = 0; f < 2; f++) {
        numbers[f][0] = f;
        describe_receiver(PLANES, 1, CAPACITY, numbers[f] + 1);
        describe_receiver(2, 1, CAPACITY, numbers[f] + 1 + RECEIVER);
        for (unsigned p = 0; p < PROFILES; p++)
            make_entries(p, f);
    }
}

/* The cause by each way of auditing. */
static unsigned audit_by(unsigned way, const uint32_t *n, const uint8_t *e) {
    switch (way) {
    case 0:
        return c2c_audit(n, NUMBERS, e, COUNT * ENTRY);
    case 1:
        return plain_run(n, NUMBERS, e, COUNT * ENTRY).cause;
    case 2:
        return c2c_audit_each(n, NUMBERS, e, COUNT * ENTRY);
    default:
        return plain_run_each(n, NUMBERS, e, COUNT * ENTRY).cause;
    }
}

/* Ends the program if an entry is refused by any way. */
static void check_accepted(void) {
    for (unsigned p = 0; p < PROFILES; p++)
        for (unsigned f = 0; f < 2; f++) {
            size_t count = c2c_audit_count(numbers[f], NUMBERS, entries[p][f], COUNT * ENTRY);
            for (unsigned way = 0; way < WAYS; way++)
                if (count != COUNT || audit_by(way, numbers[f], entries[p][f]) != 0) {
                    printf("traffic of profile %s, format %u is refused\n", profile_name[p], f);
                    exit(1);
                }
        }
    printf("all %u entries of every profile and format are accepted\n", COUNT);
}

/* ns per entry of one run over a profile. */
static double time_run(unsigned way, unsigned p, unsigned f) {
    double began = seconds();
    unsigned cause = audit_by(way, numbers[f], entries[p][f]);
    double took = seconds() - began;
    if (cause != 0)
        exit(1);
    return took * 1e9 / COUNT;
}

/* The best of all rounds, every way in turn. */
static void time_all(double best[PROFILES][2][WAYS]) {
    for (unsigned round = 0; round < ROUNDS; round++)
        for (unsigned p = 0; p < PROFILES; p++)
            for (unsigned f = 0; f < 2; f++)
                for (unsigned way = 0; way < WAYS; way++) {
                    double took = time_run(way, p, f);
                    if (round == 0 || took < best[p][f][way])
                        best[p][f][way] = took;
                }
}

int main(void) {
    static double best[PROFILES][2][WAYS];
    make_all();
    check_accepted();
    time_all(best);
    printf("%-8s %-7s %9s | %9s %9s %6s | %9s %9s %6s\n", "profile", "format", "granules", "step, ns", "plain, ns", "ratio",
           "audit, ns", "plain, ns", "ratio");
    for (unsigned p = 0; p < PROFILES; p++)
        for (unsigned f = 0; f < 2; f++) {
            const double *b = best[p][f];
            printf("%-8s %-7s %7u %% | %9.1f %9.1f %6.2f | %9.1f %9.1f %6.2f\n", profile_name[p], f == 0 ? "X" : "Y",
                   share_used(p, f), b[0], b[1], b[0] / b[1], b[2], b[3], b[2] / b[3]);
        }
    return 0;
}
