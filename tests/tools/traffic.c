/* Traffic of both directions that the audit accepts. */
#include <stdio.h>
#include <stdlib.h>
#include <string.h>

#include "traffic.h"

enum { TRIES = 64 };

void describe_receiver(unsigned planes, unsigned push, unsigned capacity, uint32_t n[RECEIVER]) {
    struct plain_receiver receiver = {.planes = planes, .push = push};
    n[0] = planes;
    n[1] = push;
    for (unsigned p = 0; p < POOLS; p++)
        n[2 + p] = plain_has_pool(&receiver, p) ? capacity : 0;
}

void traffic_open(struct traffic *t, const uint32_t numbers[NUMBERS]) {
    memset(t, 0, sizeof *t);
    t->ledger = plain_ledger_open(numbers);
}

/* What a container may still do, and how full it is to be. */
struct limits {
    const struct plain_receiver *receiver, *granted; /* who takes its messages, and who is paid by its grants */
    unsigned credit[POOLS], room[POOLS];             /* what messages may still pay, and what may still be granted */
    const struct profile *profile;
    int idle;
};

static struct limits read_limits(const struct plain_ledger *l, unsigned d, const struct profile *profile) {
    struct limits b = {.receiver = &l->receiver[d], .granted = &l->receiver[1 - d], .profile = profile};
    for (unsigned p = 0; p < POOLS; p++) {
        b.credit[p] = l->held[d][p];
        b.room[p] = l->receiver[1 - d].capacity[p] - l->held[1 - d][p] - l->open[1 - d][p];
    }
    b.idle = draw(100) < profile->idle;
    return b;
}

/* A count for a pool, mostly all that it has room for. */
static uint8_t make_count(struct limits *b, unsigned pool) {
    unsigned most = b->room[pool] < 255 ? b->room[pool] : 255, count = draw(4) ? most : draw(most + 1);
    b->room[pool] -= count;
    return (uint8_t)count;
}

/* A grant form that the receiver it pays has pools and room for. */
static void make_form(struct limits *b, uint8_t form[5]) {
    unsigned shared = draw(2), plane = shared ? 0 : draw(2) ? 0 : draw(b->granted->planes);
    form[0] = form_start(shared, plane);
    for (unsigned i = 0; i < 4; i++) {
        unsigned pool = plain_grant_pool(form[0], i);
        form[1 + i] = pool < POOLS ? make_count(b, pool) : 0;
    }
}

/* Whether the messages' receiver has the pools of a message, and credits for it are held. */
static int affordable(const struct limits *b, const uint8_t *m) {
    unsigned paid[POOLS] = {0};
    plain_count_charges(m, paid);
    for (unsigned p = 0; p < POOLS; p++)
        if (paid[p] > b->credit[p])
            return 0;
    return plain_payable(b->receiver, m);
}

/* Takes what a message pays, and gives a CrdtGrant its grant. */
static void enter(struct limits *b, uint8_t *m) {
    unsigned paid[POOLS] = {0};
    plain_count_charges(m, paid);
    for (unsigned p = 0; p < POOLS; p++)
        b->credit[p] -= paid[p];
    if (m[0] % 16 == MISC_U && m[1] == CRDT_GRANT)
        make_form(b, m + FORM);
}

/* Chooses a message that may start at granule g and be paid. */
static size_t choose(void *chooser, const struct filling *f, unsigned g, uint8_t *m) {
    struct limits *b = chooser;
    if (b->idle || draw(100) < b->profile->rest)
        return 0;
    for (unsigned i = 0; i < TRIES; i++) {
        unsigned op = draw(OPS);
        size_t size = make_message(draw_type(b->profile->longer), op, m);
        if (suits(f, g, m[0] % 16, op) && affordable(b, m)) {
            enter(b, m);
            return size;
        }
    }
    return 0;
}

void traffic_next(struct traffic *t, unsigned d, const struct profile *profile, uint8_t *c) {
    struct filling f = {.format = t->ledger.format};
    struct limits b = read_limits(&t->ledger, d, profile);
    uint8_t form[5] = {0};
    uint64_t place;
    memset(c, 0, CONTAINER);
    fill_granules(&f, &t->going[d], choose, &b, c);
    if (!f.activation && draw(100) < profile->grant)
        make_form(&b, form);
    fill_header(&f, form, c);
    unsigned cause = plain_audit(&t->ledger, d, c, CONTAINER, &place);
    if (cause != 0) {
        fprintf(stderr, "traffic: a container is refused by %u at %u\n", cause, (unsigned)place);
        exit(2);
    }
}
