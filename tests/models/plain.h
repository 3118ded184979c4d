/* A straightforward C version of numbers, of the judging of a container, of the audit and of the feeder, to compare with. */
#ifndef PLAIN_H
#define PLAIN_H

#include <stddef.h>
#include <stdint.h>

#include "layout.h"

/* The pools: shared REQ, the planes of REQ, RSP, SNP, shared DAT, and DAT dedicated 0 and 1. */
enum { SHARED_REQ, FIRST_PLANE, RSP = FIRST_PLANE + PLANES, SNP, SHARED_DAT, DEDICATED_0, DEDICATED_1, POOLS };

/* The largest capacity of a pool. */
enum { CAPACITY = 1023 };

/* The numbers of a receiver and of a log's configuration, and the bytes of an entry whose number is below 128. */
enum { RECEIVER = 2 + POOLS, NUMBERS = 1 + 2 * RECEIVER, ENTRY = 1 + CONTAINER };

/* The numbers of a feed; an ask answers cause * CAUSE + list * WAITING + n. */
enum { FEED = 3, CAUSE = 16777216, WAITING = 65536 };

/* What describes the receiver of a direction. */
struct plain_receiver {
    uint32_t planes, push, capacity[POOLS];
};

/* The first bytes of a message that goes on in the next container of its direction, zeros behind. */
struct plain_carry {
    size_t len;
    uint8_t bytes[PART];
};

/* The state of the audit: for each direction its receiver, its carry, and the credits held and messages open of each pool. */
struct plain_ledger {
    uint32_t format;
    struct plain_receiver receiver[2];
    struct plain_carry carry[2];
    uint32_t held[2][POOLS], open[2][POOLS];
};

/* What entries give: 0 or the cause of the first refusal, its place, the entries accepted, their bytes and the ledger behind them. */
struct plain_run {
    unsigned cause;
    uint64_t place;
    size_t count, used;
    struct plain_ledger ledger;
};

typedef unsigned plain_auditing(struct plain_ledger *, unsigned direction, const uint8_t *container, size_t len, uint64_t *place);

/* The number at the front of some bytes, in seven-bit groups; answers the bytes that it takes, 0 if it is broken. */
size_t plain_read_number(const uint8_t *bytes, size_t len, uint64_t *value);

/* Puts a number in its shortest form, of at most five bytes; answers its bytes. */
size_t plain_put_number(uint32_t number, uint8_t *out);

/* 0, or cause * 65,536 + place, from a fresh state and without room. */
uint32_t plain_judge(uint32_t format, const uint8_t *container, size_t container_len);

/* The fresh ledger of a log's 33 numbers. */
struct plain_ledger plain_ledger_open(const uint32_t numbers[NUMBERS]);

/* Whether numbers are a configuration: 33 of them, both pushes 0 or 1, and their fresh ledger valid. */
int plain_configured(const uint32_t *numbers, size_t numbers_len);

/* Whether a ledger is valid. */
int plain_valid(const struct plain_ledger *);

/* The audit of an entry from any ledger: 0, or a cause and its place, the ledger then being as before. */
plain_auditing plain_audit;

/* The same from a valid ledger and for direction 0 or 1, neither of which it judges. */
plain_auditing plain_step;

/* The entries at the front, as a log frames them, audited by a step each, the ledger being judged once; numbers that are no configuration
   are 19, and an entry that is not whole is left over. */
struct plain_run plain_run(const uint32_t *numbers, size_t numbers_len, const uint8_t *entries, size_t len);

/* The same by an audit each. */
struct plain_run plain_run_each(const uint32_t *numbers, size_t numbers_len, const uint8_t *entries, size_t len);

/* Whether a receiver has a pool. */
int plain_has_pool(const struct plain_receiver *, unsigned pool);

/* The pool that count i of a grant form goes to, 0 being REQ, 1 RSP, 2 SNP and 3 DAT; there may be none for DAT. */
static inline unsigned plain_grant_pool(uint8_t form_start, unsigned i) {
    unsigned shc = form_start % 2, rp = form_start / 2;
    switch (i) {
    case 0:
        return shc ? SHARED_REQ : FIRST_PLANE + rp;
    case 1:
        return RSP;
    case 2:
        return SNP;
    default:
        return shc ? SHARED_DAT : DEDICATED_0 + rp;
    }
}

/* The pools that a well-headed message pays, each as often as it pays a credit of it; answers how many credits. */
unsigned plain_charges(const uint8_t *message, unsigned pools[2]);

/* Adds what a well-headed message pays to the counts of the pools. */
void plain_count_charges(const uint8_t *message, unsigned counts[POOLS]);

/* Whether a well-headed message finds its pools, its plane even where shared credit pays, and push if it is a push message. */
int plain_payable(const struct plain_receiver *, const uint8_t *message);

/* The ask of c2c_feed. */
uint32_t plain_feed(uint32_t format, uint32_t *feed, size_t feed_len, const uint8_t *responses, size_t responses_len,
                    const uint8_t *others, size_t others_len, uint8_t *room, size_t room_len);

#endif
