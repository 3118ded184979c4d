/* The check of one CHI C2C container and the feeder of two waiting lists, for a bench host written in C. */
#ifndef C2C_H
#define C2C_H

#include <stddef.h>
#include <stdint.h>

#ifdef __cplusplus
extern "C" {
#endif

/*
 * Checks one container of format X (0) or Y (1) from a fresh state.
 * Answers 0, or cause * 65,536 + place, any other format being cause 19.
 * On 0 the finished messages stand as records at the front of the room, of at
 * least 352 bytes; on a refusal the room is untouched.
 */
uint32_t c2c_check(uint32_t format, const uint8_t *container, size_t container_len, uint8_t *room, size_t room_len);

/*
 * Asks for the next record of two waiting lists of at most 4,096 bytes, one of
 * responses and one of everything else. The caller keeps the feed, three numbers
 * that are zero at first: the position in the response list, the position in the
 * other list, and the responses handed out in a row while the other list waited.
 * Answers cause * 16,777,216 + list * 65,536 + n, where the list is 0 for
 * neither, 1 for the responses and 2 for the others:
 * - 0: both lists are empty;
 * - cause 0: the next n bytes of that list are a record, size number included,
 *   which stands at the front of the room;
 * - 19 (format, feed), then 2 (room under 121 bytes), then 18 (list too long):
 *   a refusal that names no list, n being 0;
 * - 17: the record due is broken or in the wrong list, n being its position.
 * On a refusal feed and room are untouched; else the feed is the one to ask with
 * next. Between asks a list may be lengthened at its end, and bytes that were
 * handed out may be dropped at its front if its position is lowered by as many.
 * Feed and room lie apart from the lists and from each other.
 */
uint32_t c2c_feed(uint32_t format, uint32_t *feed, size_t feed_len, const uint8_t *responses, size_t responses_len,
                  const uint8_t *others, size_t others_len, uint8_t *room, size_t room_len);

#ifdef __cplusplus
}
#endif

#endif
