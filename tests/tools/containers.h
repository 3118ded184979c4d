/* Random messages, and containers that are filled with them or damaged, all from one fixed sequence. */
#ifndef CONTAINERS_H
#define CONTAINERS_H

#include <stddef.h>
#include <stdint.h>

#include "../models/layout.h"

/* A container while it is filled: where messages start, whether an Activation does, and what starts in the group at hand. */
struct filling {
    uint32_t format;
    unsigned starts, activation, miscs, responses;
};

/* The message that goes on in a direction, and how many of its bytes are sent. */
struct going {
    uint8_t message[LARGEST];
    size_t size, sent;
};

/* Makes a message that may start at granule g; answers its size, 0 if none is to start there. */
typedef size_t choosing(void *chooser, const struct filling *, unsigned g, uint8_t *message);

/* The next number of the sequence, below n. */
unsigned draw(unsigned n);

/* A type, one of a message that is longer than a granule with a chance of `longer` in 100. */
unsigned draw_type(unsigned longer);

/* The first byte of a right grant form. */
uint8_t draw_form(void);

/* Fills a message of a type and op with a right head; answers its size. */
size_t make_message(unsigned type, unsigned op, uint8_t *message);

/* Whether a message may start at granule g beside what starts in its group. */
int suits(const struct filling *, unsigned g, unsigned type, unsigned op);

/* Fills the granules of a container of zeros from the lowest upwards, with the message that goes on and those that are chosen; where none
   is chosen the rest of the group stays empty. */
void fill_granules(struct filling *, struct going *, choosing *, void *chooser, uint8_t *container);

/* Writes the starts and a grant form. */
void fill_header(const struct filling *, const uint8_t form[5], uint8_t *container);

/* Changes one byte, one header byte, one start or one granule. */
void damage(uint32_t format, uint8_t *container);

#endif
