/* Runs every vector of a file through c2c_feed, and some calls that no vector holds, and compares code, feed, every byte of the room and
   the part that the feeder hands out. */
#include <string.h>

#include "../../include/c2c.h"
#include "../models/layout.h"
#include "../models/plain.h"
#include "../tools/probe.h"
#include "../tools/vectors.h"

/* The bytes kept for a list, more room than a record needs, and the numbers of a feed that is too long. */
enum { BYTES = 8192, ROOM = 256, TOO_LONG = FEED + 1 };

static const char heads[] = "format\tresponses\tothers\tpositions\trun\tlist\tcause\tplace\trecord\tnext positions\tnext run";

/* A call, and what it is to give: the code, the feed and the record at the room's front. */
struct vector {
    uint32_t format, feed[TOO_LONG];
    size_t feed_len, room_len;
    uint8_t responses[BYTES], others[BYTES];
    size_t responses_len, others_len;
    uint32_t code, feed_wanted[TOO_LONG];
    uint8_t record[ROOM];
    size_t record_len;
};

/* The three numbers of a feed, from the fields of its positions and its run. */
static void parse_feed(const struct vectors *in, unsigned positions, unsigned run, uint32_t feed[TOO_LONG]) {
    unsigned response, other;
    if (sscanf(in->field[positions], "%u,%u", &response, &other) != 2)
        vectors_fail(in, "a field that is not two positions");
    feed[0] = response;
    feed[1] = other;
    feed[2] = (uint32_t)vectors_number(in, run);
}

/* The vector that was read, whose list is `-` for neither, 0 for the responses and 1 for the others. */
static void parse(const struct vectors *in, struct vector *v) {
    memset(v, 0, sizeof *v);
    v->format = (uint32_t)vectors_number(in, 0);
    v->responses_len = vectors_bytes(in, 1, v->responses, BYTES);
    v->others_len = vectors_bytes(in, 2, v->others, BYTES);
    parse_feed(in, 3, 4, v->feed);
    uint32_t list = in->field[5][0] == '-' ? 0 : 1 + (uint32_t)vectors_number(in, 5);
    uint32_t cause = (uint32_t)vectors_number(in, 6), place = (uint32_t)vectors_number(in, 7);
    v->record_len = vectors_bytes(in, 8, v->record, ROOM);
    parse_feed(in, 9, 10, v->feed_wanted);
    v->feed_len = FEED;
    v->room_len = ROOM;
    v->code = cause * CAUSE + list * WAITING + (cause == 0 ? (uint32_t)v->record_len : place);
}

/* Whether the part that an ask hands out is a record. */
static int is_handed(const struct vector *v, const uint8_t *record, size_t record_len) {
    const uint32_t *f = v->feed;
    if (c2c_part_length(v->format, f[0], f[1], f[2], v->responses, v->responses_len, v->others, v->others_len) != record_len)
        return 0;
    for (size_t i = 0; i < record_len; i++)
        if (c2c_part_byte(i, v->format, f[0], f[1], f[2], v->responses, v->responses_len, v->others, v->others_len) != record[i])
            return 0;
    return 1;
}

/* Runs a vector; answers whether all is as it is to be. */
static int run(struct vector *v, const char *name, unsigned number) {
    uint8_t room[ROOM];
    memset(room, FILLER, ROOM);
    int handed = is_handed(v, v->record, v->record_len);
    uint32_t code = c2c_feed(v->format, v->feed, v->feed_len, v->responses, v->responses_len, v->others, v->others_len, room, v->room_len);
    if (code == v->code && memcmp(v->feed, v->feed_wanted, sizeof v->feed) == 0 && holds(room, ROOM, v->record, v->record_len) && handed)
        return 1;
    printf("%s %u: code %u, wanted %u, feed %u %u %u\n", name, number, code, v->code, v->feed[0], v->feed[1], v->feed[2]);
    return 0;
}

/* Calls that no vector holds: a feed and room of some length, a response list of so many zeros, and the code. */
static const struct {
    size_t feed_len, room_len, zeros;
    uint32_t code;
} refused[] = {
    {FEED - 1, RECORD, 0, 19 * CAUSE},
    {TOO_LONG, RECORD, 0, 19 * CAUSE},
    {TOO_LONG, RECORD - 1, LIST + 1, 19 * CAUSE},
    {FEED, RECORD - 1, 0, 2 * CAUSE},
    {FEED, RECORD - 1, LIST + 1, 2 * CAUSE},
    {FEED, RECORD, LIST + 1, 18 * CAUSE},
    {FEED, RECORD, LIST, 17 * CAUSE + WAITING},
};

/* Runs the calls that no vector holds; answers the differences. */
static unsigned run_refused(struct vector *v) {
    unsigned differences = 0;
    for (unsigned i = 0; i < sizeof refused / sizeof refused[0]; i++) {
        memset(v, 0, sizeof *v);
        v->feed_len = refused[i].feed_len;
        v->room_len = refused[i].room_len;
        v->responses_len = refused[i].zeros;
        v->code = refused[i].code;
        differences += !run(v, "call", i);
    }
    return differences;
}

/* Runs the longest record, a WrReqDataL, in room that just holds it; answers whether it is handed out. */
static int run_longest(struct vector *v) {
    memset(v, 0, sizeof *v);
    v->feed_len = FEED;
    v->room_len = v->others_len = v->record_len = v->feed_wanted[1] = RECORD;
    v->others[0] = LARGEST;
    v->others[1] = WR_REQ_DATA_L;
    memset(v->others + 3, 0xFF, RECORD - 3);
    memcpy(v->record, v->others, RECORD);
    v->code = 2 * WAITING + RECORD;
    return run(v, "longest record", 0);
}

int main(int argc, char **argv) {
    static struct vectors vectors;
    static struct vector vector;
    unsigned differences = 0;
    if (argc != 2) {
        fprintf(stderr, "usage: feeds VECTORS\n");
        return 2;
    }
    vectors_open(&vectors, argv[1], heads);
    while (vectors_next(&vectors)) {
        parse(&vectors, &vector);
        differences += !run(&vector, "vector", vectors.count);
    }
    differences += run_refused(&vector);
    differences += !run_longest(&vector);
    printf("feeds: %u vectors, %u differences\n", vectors.count, differences);
    return vectors.count > 0 && differences == 0 ? 0 : 1;
}
