/* The check of a table against a state set, as one call. */
#ifndef QUEUE_CHECK_H
#define QUEUE_CHECK_H

#include <stddef.h>
#include <stdint.h>

#ifdef __cplusplus
extern "C" {
#endif

/* 0 for a pass; else number + 2^8 * A + 2^32 * B + 2^48 * C of the refusal.
   Reads table[0 .. table_length) and set[0 .. set_length), keeps and writes nothing.
   Neither pointer may be NULL, not even where its length is 0. */
uint64_t queue_check(const uint8_t *table, size_t table_length, const uint8_t *set, size_t set_length);

static inline unsigned queue_check_number(uint64_t verdict) { return (unsigned)(verdict & 0xff); }
static inline unsigned queue_check_a(uint64_t verdict) { return (unsigned)(verdict >> 8 & 0xffffff); }
static inline unsigned queue_check_b(uint64_t verdict) { return (unsigned)(verdict >> 32 & 0xffff); }
static inline unsigned queue_check_c(uint64_t verdict) { return (unsigned)(verdict >> 48); }

#ifdef __cplusplus
}
#endif

#endif
