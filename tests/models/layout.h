/* Document 01's bench tables in C: where granules and header bytes lie in a container, and the sizes, heads and places of messages. */
#ifndef LAYOUT_H
#define LAYOUT_H

#include <stddef.h>
#include <stdint.h>

/* The granules and bytes of a container, and the most bytes of a message that stand before or behind its end. */
enum { GRANULES = 12, CONTAINER = 256, PART = 100 };

/* The types of messages, and the ops of a MiscU. */
enum { REQ_S = 1, REQ_L, RESP, RESP2, SNOOP, DATA_S, DATA_L, WR_REQ_DATA_S, WR_REQ_DATA_L, MISC_U };
enum { LINK_STATUS, ACTIVATION, CRDT_GRANT, CONNECT, PROPERTY, OPS };

/* The bytes of the smallest and the largest message, of the longest record, and of a list. */
enum { SMALLEST = 10, LARGEST = 120, RECORD = 1 + LARGEST, LIST = 4096 };

/* The planes of REQ, the values of an Activation, counted from 1, and where a CrdtGrant's grant form begins and ends. */
enum { PLANES = 8, ACTIVATIONS = 5, FORM = 2, FORM_END = 7 };

/* The most MiscUs that start in a group, and the most that its responses count for. */
enum { GROUP_MISCS = 1, GROUP_RESPONSES = 4 };

/* The first byte of granule g. */
static inline size_t granule_start(unsigned g) {
    return 64 * (g / 3) + 20 * (g % 3);
}

/* The bytes of granule g. */
static inline size_t granule_size(uint32_t format, unsigned g) {
    if (format == 1 && g == 5)
        return 16;
    if (format == 1 && g == 11)
        return 10;
    return 20;
}

/* The byte of the container that is byte i of the protocol header. */
static inline size_t header_place(uint32_t format, unsigned i) {
    static const uint8_t x[10] = {126, 127, 188, 189, 190, 191, 252, 253, 254, 255};
    return format == 0 ? x[i] : 246 + i;
}

/* The bytes of a message, 0 if the type or op is unknown. */
static inline size_t message_size(unsigned type, unsigned op) {
    static const uint8_t types[MISC_U] = {0, 20, 40, 10, 20, 20, 80, 100, 100, 120};
    static const uint8_t ops[OPS] = {10, 10, 16, 10, 20};
    if (type < MISC_U)
        return types[type];
    if (type == MISC_U && op < OPS)
        return ops[op];
    return 0;
}

/* How many values bits 4 to 7 of a message's first byte have, counted from 0. */
static inline unsigned flag_values(unsigned type) {
    switch (type) {
    case RESP: case RESP2: case SNOOP: case MISC_U:
        return 1;
    case DATA_S: case DATA_L:
        return 2;
    default:
        return 16;
    }
}

/* The first byte of a grant form, right if ShC is 0 or RP is. */
static inline uint8_t form_start(unsigned shc, unsigned rp) {
    return (uint8_t)(shc + 2 * rp);
}

/* What a message counts for among the responses of its group, and in what it pays. */
static inline unsigned count_responses(unsigned type) {
    return type == RESP ? 1 : type == RESP2 ? 2 : 0;
}

/* Whether a message of some bytes may start at granule g, which has `width` bytes. */
static inline int place_ok(unsigned g, size_t width, unsigned type, unsigned op, size_t size) {
    if (width < 20 && !((type == RESP || type == MISC_U) && size <= width))
        return 0;
    return !(type == MISC_U && op == LINK_STATUS) || g == 0;
}

#endif
