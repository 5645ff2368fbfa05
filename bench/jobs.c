/* The routines as jobs: the unit's, of which read, escape, encode, decode, take, watch and the desk's calls are for the benchmark alone, and C's. */
#include "jobs.h"
#include "gerstebolk.h"
#include <stdio.h>
#include <stdlib.h>
#include <string.h>

extern uint64_t timed_escape(const uint8_t *text, size_t len, uint8_t *out, size_t room);
extern uint64_t timed_encode(const uint8_t *value, size_t len, uint8_t *out, size_t room);
extern uint64_t timed_decode(const uint8_t *label, size_t len, uint8_t *out, size_t room);
extern uint64_t timed_read(const uint8_t *input, size_t len, uint8_t *copy, size_t copy_room, uint32_t *records, size_t record_room);
extern uint64_t timed_take(const uint8_t *input, size_t len);
extern uint64_t timed_watch(const uint8_t *input, size_t len, size_t size);
extern uint64_t timed_desk(uint8_t *pool, size_t size, const uint8_t *chunk, size_t len, uint32_t opens, size_t adds, uint32_t kind, size_t n);

static struct {
    ALIGNED uint8_t octets[LIMIT];
    uint32_t records[2 * LIMIT];
    ALIGNED uint8_t pool[40 * LIMIT];
} rooms, expected;

/* A refusal without its place, as the unit's benchmark-only routines answer it. */
static uint64_t number_of(uint64_t answer) { return answer >> 32 ? answer >> 32 << 32 : answer; }

#define JOB(name, answer)                    \
    static uint64_t name(const void *what) { \
        const struct input *in = what;       \
        return answer;                       \
    }
#define IN in->octets, in->length
#define OUT rooms.octets, sizeof rooms.octets
#define COPY OUT, rooms.records, sizeof rooms.records / sizeof rooms.records[0]

JOB(unit_judge, judge(IN))
JOB(unit_read, timed_read(IN, COPY))
JOB(unit_fold, fold(IN, OUT))
JOB(unit_unescape, unescape(IN, OUT))
JOB(unit_escape, timed_escape(IN, OUT))
JOB(unit_encode, timed_encode(IN, OUT))
JOB(unit_decode, timed_decode(IN, OUT))
JOB(unit_take, timed_take(IN))
JOB(unit_watch_1024, timed_watch(IN, 1024))
JOB(unit_watch_64, timed_watch(IN, 64))
JOB(unit_watch_1, timed_watch(IN, 1))
JOB(copy_octets, (uintptr_t)memcpy(rooms.octets, IN))
JOB(c_judge, plain_judge(IN))
JOB(c_read, number_of(plain_read(IN, COPY)))
JOB(c_fold, plain_fold(IN, OUT))
JOB(c_unescape, plain_unescape(IN, OUT))
JOB(c_escape, number_of(plain_escape(IN, OUT)))
JOB(c_encode, number_of(plain_encode(IN, OUT)))
JOB(c_decode, number_of(plain_decode(IN, OUT)))
JOB(c_tuned_judge, tuned_judge(IN))
JOB(c_tuned_fold, tuned_fold(IN, OUT))
JOB(c_tuned_unescape, tuned_unescape(IN, OUT))

const char *const routine_names[ROUTINES] = {"judge", "read", "fold", "unescape", "escape", "encode", "decode", "take", "watch1024", "watch64", "watch1", "memcpy"};
uint64_t (*const unit_jobs[ROUTINES])(const void *) = {unit_judge, unit_read, unit_fold, unit_unescape, unit_escape, unit_encode, unit_decode, unit_take, unit_watch_1024, unit_watch_64, unit_watch_1, copy_octets};
uint64_t (*const plain_jobs[ROUTINES])(const void *) = {c_judge, c_read, c_fold, c_unescape, c_escape, c_encode, c_decode};
uint64_t (*const tuned_jobs[ROUTINES])(const void *) = {[JUDGE] = c_tuned_judge, [FOLD] = c_tuned_fold, [UNESCAPE] = c_tuned_unescape};

uint64_t judged_number(const void *input) { return number_of(unit_judge(input)); }

#define DESK_JOB(name, answer)               \
    static uint64_t name(const void *what) { \
        const struct calls *c = what;        \
        return answer;                       \
    }
#define CALLS rooms.pool, sizeof rooms.pool, c->chunk->octets, c->chunk->length, c->opens, c->adds, c->kind, c->n

DESK_JOB(unit_desk, timed_desk(CALLS))
DESK_JOB(c_desk_o3, number_of(plain_desk_o3(CALLS)))
DESK_JOB(c_desk_o2, number_of(plain_desk_o2(CALLS)))

uint64_t (*const desk_jobs[DESKS])(const void *) = {unit_desk, c_desk_o3, c_desk_o2};

void compare(uint64_t (*of_unit)(const void *), uint64_t (*of_c)(const void *), const void *what, const char *name) {
    memset(&rooms, 0, sizeof rooms);
    uint64_t answer = of_unit(what);
    expected = rooms;
    memset(&rooms, 0, sizeof rooms);
    if (of_c(what) != answer || memcmp(&rooms, &expected, sizeof rooms) != 0) {
        fprintf(stderr, "bench: %s: two answers differ\n", name);
        exit(1);
    }
}
