/* Times c2c_feed beside plain_feed over lists of which one or both wait, after comparing their answers. */
#include <stdio.h>
#include <stdlib.h>
#include <string.h>

#include "../../include/c2c.h"
#include "../models/layout.h"
#include "../models/plain.h"
#include "../tools/containers.h"
#include "clock.h"

enum { ASKS = 200000, ROUNDS = 15, TURNS = 200, PROFILES = 3 };

typedef uint32_t feeding(uint32_t, uint32_t *, size_t, const uint8_t *, size_t, const uint8_t *, size_t, uint8_t *, size_t);

/* Records one behind the other. */
struct list {
    size_t len;
    uint8_t bytes[LIST];
};

/* The two lists of a profile. */
struct lists {
    struct list responses, others;
};

static const char *const profile_name[PROFILES] = {"responses", "others", "both"};

/* Fills a list with responses, or with messages of every other kind. */
static void fill(struct list *list, int responses) {
    uint8_t message[LARGEST];
    for (list->len = 0; list->len + RECORD <= LIST;) {
        unsigned type = responses ? RESP + draw(2) : SNOOP + draw(6);
        unsigned size = make_message(type, draw(OPS), message);
        list->len += plain_put_number(size, list->bytes + list->len);
        memcpy(list->bytes + list->len, message, size);
        list->len += size;
    }
}

/* The lists of a profile. */
static void make_lists(unsigned profile, struct lists *lists) {
    memset(lists, 0, sizeof *lists);
    if (profile != 1)
        fill(&lists->responses, 1);
    if (profile != 0)
        fill(&lists->others, 0);
}

static uint32_t ask(feeding *feed, const struct lists *l, uint32_t numbers[FEED], uint8_t room[RECORD]) {
    return feed(0, numbers, FEED, l->responses.bytes, l->responses.len, l->others.bytes, l->others.len, room, RECORD);
}

/* Compares an ask from one feed; answers its code. */
static uint32_t compare(const struct lists *l, uint32_t numbers[FEED]) {
    uint8_t room[2][RECORD] = {{0}, {0}};
    uint32_t next[FEED];
    memcpy(next, numbers, sizeof next);
    uint32_t ours = ask(c2c_feed, l, numbers, room[0]), plain = ask(plain_feed, l, next, room[1]);
    if (ours == plain && memcmp(numbers, next, sizeof next) == 0 && memcmp(room[0], room[1], RECORD) == 0)
        return ours;
    printf("difference: ours %08x, plain %08x\n", (unsigned)ours, (unsigned)plain);
    exit(1);
}

/* Changes some bits of a list, or none. */
static void damage_list(struct list *list) {
    for (unsigned i = draw(8); i > 0 && list->len > 0; i--)
        list->bytes[draw((unsigned)list->len)] ^= (uint8_t)(1u << draw(8));
}

/* Compares the asks over lists of every profile, right ones and damaged ones. */
static void check_answers(void) {
    static struct lists lists;
    unsigned asks = 0, refused = 0;
    while (asks < ASKS) {
        uint32_t numbers[FEED] = {0}, code = 1;
        make_lists(draw(PROFILES), &lists);
        damage_list(&lists.responses);
        damage_list(&lists.others);
        for (; code != 0 && code < CAUSE; asks++)
            code = compare(&lists, numbers);
        refused += code != 0;
    }
    printf("agree on %u asks, %u of them refused\n", asks, refused);
}

/* ns per ask of turns over the lists, from the fresh feed until both are empty. */
static double time_turns(feeding *feed, const struct lists *l) {
    uint8_t room[RECORD];
    unsigned asks = 0;
    double began = seconds();
    for (unsigned t = 0; t < TURNS; t++) {
        uint32_t numbers[FEED] = {0}, code;
        do {
            code = ask(feed, l, numbers, room);
            asks++;
        } while (code != 0);
    }
    return (seconds() - began) * 1e9 / asks;
}

int main(void) {
    static struct lists lists[PROFILES];
    double ours[PROFILES], plain[PROFILES];
    check_answers();
    for (unsigned p = 0; p < PROFILES; p++)
        make_lists(p, &lists[p]);
    for (unsigned round = 0; round < ROUNDS; round++)
        for (unsigned p = 0; p < PROFILES; p++) {
            double a = time_turns(c2c_feed, &lists[p]), b = time_turns(plain_feed, &lists[p]);
            if (round == 0 || a < ours[p])
                ours[p] = a;
            if (round == 0 || b < plain[p])
                plain[p] = b;
        }
    printf("%-14s %10s %10s %13s\n", "lists waiting", "ours, ns", "plain, ns", "ours / plain");
    for (unsigned p = 0; p < PROFILES; p++)
        printf("%-14s %10.1f %10.1f %13.2f\n", profile_name[p], ours[p], plain[p], ours[p] / plain[p]);
    return 0;
}
