/* Fills and damages containers with random messages. */
#include <string.h>

#include "containers.h"

static uint64_t seed = 0x9E3779B97F4A7C15u;

unsigned draw(unsigned n) {
    seed ^= seed << 13;
    seed ^= seed >> 7;
    seed ^= seed << 17;
    return (unsigned)((seed >> 24) % n);
}

unsigned draw_type(unsigned longer) {
    if (draw(100) < longer)
        return draw(2) ? REQ_L : DATA_S + draw(4);
    return draw(4) ? RESP + draw(3) : draw(2) ? REQ_S : MISC_U;
}

uint8_t draw_form(void) {
    return draw(2) ? form_start(1, 0) : form_start(0, draw(PLANES));
}

size_t make_message(unsigned type, unsigned op, uint8_t *m) {
    size_t size = message_size(type, op);
    for (size_t i = 0; i < size; i++)
        m[i] = (uint8_t)draw(256);
    unsigned flags = type >= RESP && type <= SNOOP ? 0 : draw(16);
    m[0] = (uint8_t)(type + 16 * (flags % flag_values(type)));
    if (type == WR_REQ_DATA_S || type == WR_REQ_DATA_L)
        m[1] = (uint8_t)draw(2);
    if (type == MISC_U) {
        m[1] = (uint8_t)op;
        if (op == ACTIVATION)
            m[2] = (uint8_t)(1 + draw(ACTIVATIONS));
        if (op == CRDT_GRANT) {
            m[FORM] = draw_form();
            memset(m + FORM_END, 0, size - FORM_END);
        }
    }
    return size;
}

int suits(const struct filling *f, unsigned g, unsigned type, unsigned op) {
    if (type == MISC_U && f->miscs == GROUP_MISCS)
        return 0;
    if (f->responses + count_responses(type) > GROUP_RESPONSES)
        return 0;
    return place_ok(g, granule_size(f->format, g), type, op, message_size(type, op));
}

/* Notes that a message starts at granule g. */
static void note_start(struct filling *f, unsigned g, const uint8_t *m) {
    unsigned type = m[0] % 16;
    f->starts |= 1u << g;
    f->activation |= type == MISC_U && m[1] == ACTIVATION;
    f->miscs += type == MISC_U;
    f->responses += count_responses(type);
}

/* Puts the next bytes of a message at granule g. */
static void put_next(struct going *going, unsigned g, uint8_t *c) {
    size_t left = going->size - going->sent, n = left < 20 ? left : 20;
    memcpy(c + granule_start(g), going->message + going->sent, n);
    going->sent += n;
}

void fill_granules(struct filling *f, struct going *going, choosing *choose, void *chooser, uint8_t *c) {
    int resting = 0;
    for (unsigned g = 0; g < GRANULES; g++) {
        struct going chosen = {.sent = 0};
        if (g % 3 == 0)
            f->miscs = f->responses = resting = 0;
        if (going->sent < going->size && granule_size(f->format, g) == 20) {
            put_next(going, g, c);
            continue;
        }
        chosen.size = resting ? 0 : choose(chooser, f, g, chosen.message);
        resting = chosen.size == 0;
        if (resting)
            continue;
        note_start(f, g, chosen.message);
        put_next(&chosen, g, c);
        if (chosen.sent < chosen.size)
            *going = chosen;
    }
}

void fill_header(const struct filling *f, const uint8_t form[5], uint8_t *c) {
    c[header_place(f->format, 0)] = (uint8_t)f->starts;
    c[header_place(f->format, 1)] = (uint8_t)(f->starts >> 8);
    for (unsigned i = 0; i < 5; i++)
        c[header_place(f->format, 2 + i)] = form[i];
}

/* Empties granule g, or starts a message of one granule there. */
static void replace(uint32_t format, unsigned g, unsigned type, uint8_t *c) {
    uint8_t message[LARGEST] = {0}, *bits = c + header_place(format, g / 8);
    unsigned bit = 1u << g % 8;
    size_t width = granule_size(format, g);
    memset(c + granule_start(g), 0, width);
    *bits = (uint8_t)(*bits & ~bit);
    if (type == 0)
        return;
    size_t size = make_message(type, draw(OPS), message);
    memcpy(c + granule_start(g), message, size < width ? size : width);
    *bits = (uint8_t)(*bits | bit);
}

void damage(uint32_t format, uint8_t *c) {
    static const uint8_t types[5] = {0, RESP, RESP2, MISC_U, MISC_U};
    switch (draw(7)) {
    case 0:
        c[draw(CONTAINER)] = (uint8_t)draw(256);
        break;
    case 1:
        c[draw(CONTAINER)] ^= (uint8_t)(1u << draw(8));
        break;
    case 2:
        c[header_place(format, draw(10))] = (uint8_t)draw(256);
        break;
    case 3: {
        unsigned g = draw(GRANULES);
        c[header_place(format, g / 8)] ^= (uint8_t)(1u << g % 8);
        break;
    }
    case 4:
        c[granule_start(draw(GRANULES))] = (uint8_t)draw(16);
        break;
    case 5:
        replace(format, draw(GRANULES), types[draw(5)], c);
        break;
    default:
        c[granule_start(draw(GRANULES)) + 1 + draw(2)] = (uint8_t)draw(8);
        break;
    }
}
