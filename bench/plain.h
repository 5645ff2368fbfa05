/* C programs of the unit's checks, written for comparison: the same answers, one u64 each (refusal * 2^32 + place, or a count). */
#ifndef PLAIN_H
#define PLAIN_H
#include <stddef.h>
#include <stdint.h>

#define REFUSE(n, p) (((uint64_t)(n) << 32) + (uint64_t)(p))

/* routines.c, plain and tuned. */
uint64_t plain_judge(const uint8_t *in, size_t len);
uint64_t plain_fold(const uint8_t *in, size_t len, uint8_t *out, size_t room);
uint64_t plain_unescape(const uint8_t *in, size_t len, uint8_t *out, size_t room);
uint64_t tuned_judge(const uint8_t *in, size_t len);
uint64_t tuned_fold(const uint8_t *in, size_t len, uint8_t *out, size_t room);
uint64_t tuned_unescape(const uint8_t *in, size_t len, uint8_t *out, size_t room);

/* plain.c; labels by RFC 6868. */
uint64_t plain_read(const uint8_t *in, size_t len, uint8_t *copy, size_t copy_room, uint32_t *rec, size_t rec_room);
uint64_t plain_escape(const uint8_t *in, size_t len, uint8_t *out, size_t room);
uint64_t plain_encode(const uint8_t *in, size_t len, uint8_t *out, size_t room);
uint64_t plain_decode(const uint8_t *in, size_t len, uint8_t *out, size_t room);

/* The calls that a desk of 40 slots is timed on. */
enum call { OPEN, ADD, RELEASE, HELD, JUDGE_HELD };

/* The answer of the last of n calls to a fresh desk after some openings and additions, in turn over the tickets; desk.c, with gcc -O3 and with -O2. */
uint64_t plain_desk_o3(uint8_t *pool, size_t size, const uint8_t *chunk, size_t len, uint32_t opens, size_t adds, uint32_t kind, size_t n);
uint64_t plain_desk_o2(uint8_t *pool, size_t size, const uint8_t *chunk, size_t len, uint32_t opens, size_t adds, uint32_t kind, size_t n);
#endif
