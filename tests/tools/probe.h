/* The judging and the filling of containers, and the part that the feeder hands out, through the static library for tests. */
#ifndef PROBE_H
#define PROBE_H

#include <stddef.h>
#include <stdint.h>

/* 0, or cause * 65,536 + place, from a fresh state and without room. */
uint32_t c2c_judge(uint32_t format, const uint8_t *container, size_t container_len);

/* The bytes of a grant as c2c_fill takes it: ShC, RP and four counts. */
enum { GRANT = 6 };

/* Fills a container; `tail` holds the writer's tail array before and after. Answers the bytes of list used * 256 + the tail's length, or
   cause * 2^32 + place. */
uint64_t c2c_fill(uint32_t format, size_t len, uint8_t *tail, size_t tail_len, const uint8_t *grant, size_t grant_len,
                  const uint8_t *list, size_t list_len, uint8_t *container, size_t container_len);

/* The bytes of the part that an ask hands out. */
size_t c2c_part_length(uint32_t format, size_t response, size_t other, uint32_t run, const uint8_t *responses, size_t responses_len,
                       const uint8_t *others, size_t others_len);

/* Byte i of the part that an ask hands out. */
uint8_t c2c_part_byte(size_t i, uint32_t format, size_t response, size_t other, uint32_t run, const uint8_t *responses,
                      size_t responses_len, const uint8_t *others, size_t others_len);

#endif
