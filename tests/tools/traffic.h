/* Traffic of both directions that the audit accepts. */
#ifndef TRAFFIC_H
#define TRAFFIC_H

#include <stdint.h>

#include "../models/plain.h"
#include "containers.h"

/* How full containers are, by chances in 100. */
struct profile {
    unsigned idle;   /* no message starts in the container */
    unsigned rest;   /* a granule stays empty, with the rest of its group */
    unsigned longer; /* a message is longer than a granule */
    unsigned grant;  /* the header grants */
};

/* Both directions of a link: the ledger behind the containers made so far, and the messages that go on. */
struct traffic {
    struct plain_ledger ledger;
    struct going going[2];
};

/* The numbers of a receiver that has `capacity` in every pool that exists. */
void describe_receiver(unsigned planes, unsigned push, unsigned capacity, uint32_t numbers[RECEIVER]);

/* Starts traffic from the fresh ledger of valid numbers. */
void traffic_open(struct traffic *, const uint32_t numbers[NUMBERS]);

/* Makes the next container of a direction; ends the program if plain C does not accept it. */
void traffic_next(struct traffic *, unsigned direction, const struct profile *, uint8_t *container);

#endif
