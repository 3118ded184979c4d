/* The audit of entries through the static library; 33 numbers and entries as a log frames them, each the number 2 * ticks + direction and
   256 bytes. Another count of numbers, a push that is neither 0 nor 1, and a configuration that is not valid are cause 19 at place 0, with
   no entry accepted, also where there is none. What does not begin with a whole entry is left over: the bytes used are then fewer. */
#ifndef AUDIT_PROBE_H
#define AUDIT_PROBE_H

#include <stddef.h>
#include <stdint.h>

/* 0, or the cause of the first refusal. */
uint32_t c2c_audit(const uint32_t *numbers, size_t numbers_len, const uint8_t *entries, size_t entries_len);

/* The same by one audit call an entry. */
uint32_t c2c_audit_each(const uint32_t *numbers, size_t numbers_len, const uint8_t *entries, size_t entries_len);

/* The place of the first refusal, 0 where there is none. */
uint64_t c2c_audit_place(const uint32_t *numbers, size_t numbers_len, const uint8_t *entries, size_t entries_len);

/* The entries accepted before the first refusal. */
size_t c2c_audit_count(const uint32_t *numbers, size_t numbers_len, const uint8_t *entries, size_t entries_len);

/* The bytes of the entries accepted. */
size_t c2c_audit_used(const uint32_t *numbers, size_t numbers_len, const uint8_t *entries, size_t entries_len);

/* Credits held * 2^32 + messages open behind the entries accepted, of one direction and pool; 19 * 2^48 where the numbers are refused by 19
   or there is no such direction or pool. */
uint64_t c2c_audit_report(const uint32_t *numbers, size_t numbers_len, const uint8_t *entries, size_t entries_len,
                          uint32_t direction, uint32_t pool);

#endif
