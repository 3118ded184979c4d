/* Writes an accepted log to standard output. Usage: make_log PROFILE FORMAT ENTRIES, the profile being idle, mixed or dense. */
#include <stdio.h>
#include <stdlib.h>
#include <string.h>

#include "../models/plain.h"
#include "../tools/traffic.h"

static const struct profile silent = {100, 0, 0, 0}, mixed = {25, 25, 25, 50}, dense = {0, 0, 25, 100};

/* Writes a number. */
static void write_number(uint32_t number) {
    uint8_t bytes[5];
    fwrite(bytes, 1, plain_put_number(number, bytes), stdout);
}

/* The profile of the next container: 97 in 100 of an idle log start nothing. */
static const struct profile *next_profile(const char *name) {
    if (strcmp(name, "idle") == 0)
        return draw(100) < 97 ? &silent : &mixed;
    return strcmp(name, "mixed") == 0 ? &mixed : &dense;
}

int main(int argc, char **argv) {
    static uint8_t container[CONTAINER];
    static struct traffic traffic;
    uint32_t numbers[NUMBERS];
    if (argc != 4) {
        fprintf(stderr, "usage: make_log PROFILE FORMAT ENTRIES\n");
        return 2;
    }
    numbers[0] = (uint32_t)strtoul(argv[2], NULL, 10);
    describe_receiver(PLANES, 1, CAPACITY, numbers + 1);
    describe_receiver(PLANES, 1, CAPACITY, numbers + 1 + RECEIVER);
    for (unsigned i = 0; i < NUMBERS; i++)
        write_number(numbers[i]);
    traffic_open(&traffic, numbers);
    for (unsigned long i = 0, n = strtoul(argv[3], NULL, 10); i < n; i++) {
        unsigned direction = (unsigned)(i % 2);
        traffic_next(&traffic, direction, next_profile(argv[1]), container);
        write_number(direction);
        fwrite(container, 1, sizeof container, stdout);
    }
    return 0;
}
