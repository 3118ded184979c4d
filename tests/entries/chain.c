/* An example of the feeder before the writer: two lists wait, and each turn asks for records until a container's worth is pending, fills
   one container from them and writes it to standard output. The output, format first, is what unpack reads. Usage: chain FORMAT */
#include <stdio.h>
#include <stdlib.h>
#include <string.h>

#include "../../include/c2c.h"
#include "../models/layout.h"
#include "../tools/probe.h"

/* The pending bytes that are enough for a container, and the numbers of a feed. */
enum { ENOUGH = 240, NUMBERS = 3 };

/* The messages in the order of their arrival, each with the number of records that are handed out before it arrives. */
static const struct message {
    unsigned before;
    uint8_t type, number;
} messages[] = {
    {0, WR_REQ_DATA_S, 101}, {0, REQ_L, 102}, {0, WR_REQ_DATA_S, 103}, {0, WR_REQ_DATA_S, 104}, {0, WR_REQ_DATA_S, 105},
    {0, RESP, 1}, {0, RESP2, 2}, {0, RESP, 3}, {0, RESP, 4}, {0, RESP2, 5}, {0, RESP, 6},
    {6, RESP, 7}, {6, RESP, 8}, {8, RESP2, 9}, {13, RESP2, 10}, {15, RESP2, 11},
};

/* Records one behind the other. */
struct list {
    uint8_t bytes[LIST];
    size_t len;
};

/* What the feeder and the writer are handed call after call, and how many messages have arrived and left the lists. */
struct chain {
    uint32_t format, feed[NUMBERS];
    struct list responses, others, pending;
    uint8_t tail[PART];
    size_t tail_len;
    unsigned arrived, handed;
};

/* Ends the program because of a refusal. */
static void fail(const char *who, unsigned cause, unsigned list, unsigned place) {
    fprintf(stderr, "chain: the %s refuses: cause %u, list %u, place %u\n", who, cause, list, place);
    exit(1);
}

/* Appends a message as a record: its size, its type, a zero, and its number in every other byte. */
static void append(struct list *list, const struct message *m) {
    uint8_t *record = list->bytes + list->len, size = (uint8_t)message_size(m->type, 0);
    if (list->len + 1 + size > LIST) {
        fprintf(stderr, "chain: a list is full\n");
        exit(1);
    }
    record[0] = size;
    record[1] = m->type;
    record[2] = 0;
    memset(record + 3, m->number, size - 2u);
    list->len += 1u + size;
}

/* Puts the messages that arrive before the next ask into their lists. */
static void arrive(struct chain *c) {
    while (c->arrived < sizeof messages / sizeof messages[0] && messages[c->arrived].before <= c->handed) {
        const struct message *m = &messages[c->arrived++];
        append(count_responses(m->type) > 0 ? &c->responses : &c->others, m);
    }
}

/* Asks for one record, which the feeder puts behind those that are pending; answers whether there was one. */
static int ask(struct chain *c) {
    struct list *r = &c->responses, *o = &c->others, *p = &c->pending;
    uint32_t code = c2c_feed(c->format, c->feed, NUMBERS, r->bytes, r->len, o->bytes, o->len, p->bytes + p->len, LIST - p->len);
    if (code >> 24 != 0)
        fail("feeder", code >> 24, code >> 16 & 255, code & 65535);
    p->len += code & 65535;
    c->handed += code != 0;
    return code != 0;
}

/* Fills one container, writes it, and drops from the pending list what the writer used. */
static void send_container(struct chain *c) {
    static const uint8_t grant[GRANT];
    uint8_t container[CONTAINER];
    struct list *p = &c->pending;
    uint64_t answer = c2c_fill(c->format, c->tail_len, c->tail, PART, grant, GRANT, p->bytes, p->len, container, CONTAINER);
    if (answer >> 32 != 0)
        fail("writer", (unsigned)(answer >> 32), 0, (unsigned)answer);
    size_t used = (size_t)(answer / 256);
    c->tail_len = (size_t)(answer % 256);
    p->len -= used;
    memmove(p->bytes, p->bytes + used, p->len);
    fwrite(container, 1, CONTAINER, stdout);
}

/* Drops the bytes of a list that were handed out and lowers its position by as many, so that the list does not fill up. */
static void drop_handed(struct list *list, uint32_t *position) {
    list->len -= *position;
    memmove(list->bytes, list->bytes + *position, list->len);
    *position = 0;
}

/* Asks until enough is pending or both lists are empty; answers whether anything is to be sent. */
static int prepare(struct chain *c) {
    int more = 1;
    while (more && c->pending.len < ENOUGH) {
        arrive(c);
        more = ask(c);
    }
    drop_handed(&c->responses, &c->feed[0]);
    drop_handed(&c->others, &c->feed[1]);
    return c->pending.len > 0 || c->tail_len > 0;
}

int main(int argc, char **argv) {
    static struct chain chain;
    if (argc != 2) {
        fprintf(stderr, "usage: chain FORMAT\n");
        return 2;
    }
    chain.format = (uint32_t)strtoul(argv[1], NULL, 10);
    putchar((int)chain.format);
    while (prepare(&chain))
        send_container(&chain);
    return fflush(stdout) == 0 && !ferror(stdout) ? 0 : 1;
}
