/* Writes a log of idle entries in format X, with capacities 0, and then so many more bytes. Usage: idle_log ENTRIES BYTES */
#include <stdio.h>
#include <stdlib.h>

#include "../models/plain.h"

enum { BLOCK = 256 };

int main(int argc, char **argv) {
    static unsigned char block[BLOCK * ENTRY];
    unsigned char numbers[NUMBERS] = {0};
    if (argc != 3) {
        fprintf(stderr, "usage: idle_log ENTRIES BYTES\n");
        return 2;
    }
    unsigned long entries = strtoul(argv[1], NULL, 10), bytes = strtoul(argv[2], NULL, 10);
    numbers[1] = numbers[1 + RECEIVER] = 1;
    fwrite(numbers, 1, sizeof numbers, stdout);
    for (unsigned i = 0; i < BLOCK; i++)
        block[i * ENTRY] = (unsigned char)(i % 2);
    for (; entries >= BLOCK; entries -= BLOCK)
        fwrite(block, ENTRY, BLOCK, stdout);
    fwrite(block, ENTRY, entries, stdout);
    fwrite(block, 1, bytes, stdout);
    return 0;
}
