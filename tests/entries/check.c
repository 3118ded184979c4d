/* Runs every vector of a file through c2c_check and compares the answer and every byte of the room. */
#include <string.h>

#include "../../include/c2c.h"
#include "../tools/vectors.h"

enum { BYTES = 4096 };

static const char heads[] = "format\tcontainer\troom\tanswer\trecords";

/* Runs a vector; answers whether all is as it is to be. */
static int run(const struct vectors *v) {
    static uint8_t container[BYTES], records[BYTES], room[BYTES];
    uint32_t format = (uint32_t)vectors_number(v, 0), wanted = (uint32_t)vectors_number(v, 3);
    size_t container_len = vectors_bytes(v, 1, container, BYTES), records_len = vectors_bytes(v, 4, records, BYTES);
    size_t room_len = vectors_number(v, 2);
    if (room_len > BYTES)
        vectors_fail(v, "too much room");
    memset(room, FILLER, BYTES);
    uint32_t answer = c2c_check(format, container, container_len, room, room_len);
    if (answer == wanted && holds(room, BYTES, records, records_len))
        return 1;
    printf("vector %u: answer %u, wanted %u\n", v->count, answer, wanted);
    return 0;
}

int main(int argc, char **argv) {
    static struct vectors vectors;
    unsigned differences = 0;
    if (argc != 2) {
        fprintf(stderr, "usage: check VECTORS\n");
        return 2;
    }
    vectors_open(&vectors, argv[1], heads);
    while (vectors_next(&vectors))
        differences += !run(&vectors);
    printf("check: %u vectors, %u differences\n", vectors.count, differences);
    return vectors.count > 0 && differences == 0 ? 0 : 1;
}
