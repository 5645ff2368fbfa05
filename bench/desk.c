/* A plain C desk of the unit's rules, written for comparison: it is tested for soundness on every call, and its calls are kept apart by the compiler. */
#include "plain.h"
#include <stdbool.h>
#include <string.h>

#define SLOTS 40
#define SLOT_SIZE 16384
#define IDLE 600
#define APART __attribute__((noipa))

/* The tick of its opening or last addition stands in the entry. */
struct entry {
    bool open;
    uint32_t ticket, tram, held, tick;
};

struct desk {
    struct entry entries[SLOTS];
    size_t slots;
    uint32_t next, tick;
};

static bool is_sound(const struct desk *d) {
    if (d->slots < 1 || d->slots > SLOTS || d->next < 1) return false;
    for (size_t i = 0; i < SLOTS; i++) {
        const struct entry *e = &d->entries[i];
        if (!e->open) continue;
        if (i >= d->slots || e->ticket < 1 || e->ticket >= d->next || e->held > SLOT_SIZE || e->tick > d->tick) return false;
        for (size_t j = 0; j < i; j++)
            if (d->entries[j].open && d->entries[j].ticket == e->ticket) return false;
    }
    return true;
}

/* 25, 24, or 0. */
static uint64_t barred(const struct desk *d, size_t size) {
    if (!is_sound(d)) return REFUSE(25, 0);
    return size == d->slots * SLOT_SIZE ? 0 : REFUSE(24, 0);
}

/* 25, 24, 22, or 0 and the slot of a ticket. */
static uint64_t find(const struct desk *d, size_t size, uint32_t t, size_t *slot) {
    uint64_t r = barred(d, size);
    if (r) return r;
    for (size_t i = 0; i < d->slots; i++)
        if (d->entries[i].open && d->entries[i].ticket == t) {
            *slot = i;
            return 0;
        }
    return REFUSE(22, 0);
}

static uint32_t later(uint32_t a, uint32_t b) { return a < b ? b : a; }

/* The first free slot, else the idle one with the lowest ticket, else none. */
static size_t slot_for(const struct desk *d, uint32_t tick) {
    for (size_t i = 0; i < d->slots; i++)
        if (!d->entries[i].open) return i;
    size_t found = SLOTS;
    for (size_t i = 0; i < d->slots; i++)
        if (tick - d->entries[i].tick >= IDLE && (found == SLOTS || d->entries[i].ticket < d->entries[found].ticket)) found = i;
    return found;
}

APART static uint64_t desk_open(struct desk *d, uint8_t *pool, size_t size, uint32_t tram, uint32_t tick) {
    uint64_t r = barred(d, size);
    if (r) return r;
    if (d->next == UINT32_MAX) return REFUSE(21, 0);
    uint32_t now = later(d->tick, tick);
    size_t i = slot_for(d, now);
    if (i == SLOTS) return REFUSE(20, 0);
    if (d->entries[i].open) memset(pool + i * SLOT_SIZE, 0, SLOT_SIZE);
    d->entries[i] = (struct entry){true, d->next, tram, 0, now};
    d->tick = now;
    return d->next++;
}

APART static uint64_t desk_add(struct desk *d, uint8_t *pool, size_t size, uint32_t t, const uint8_t *chunk, size_t len, uint32_t tick) {
    size_t i;
    uint64_t r = find(d, size, t, &i);
    if (r) return r;
    struct entry *e = &d->entries[i];
    if (len > SLOT_SIZE - e->held) return REFUSE(23, e->held);
    memcpy(pool + i * SLOT_SIZE + e->held, chunk, len);
    d->tick = e->tick = later(d->tick, tick);
    return e->held += len;
}

APART static uint64_t desk_release(struct desk *d, uint8_t *pool, size_t size, uint32_t t) {
    size_t i;
    uint64_t r = find(d, size, t, &i);
    if (r) return r;
    memset(pool + i * SLOT_SIZE, 0, SLOT_SIZE);
    d->entries[i].open = false;
    return 0;
}

APART static uint64_t desk_held(const struct desk *d, size_t size, uint32_t t) {
    size_t i;
    uint64_t r = find(d, size, t, &i);
    return r ? r : d->entries[i].held;
}

APART static uint64_t desk_judge(const struct desk *d, const uint8_t *pool, size_t size, uint32_t t) {
    size_t i;
    uint64_t r = find(d, size, t, &i);
    return r ? r : plain_judge(pool + i * SLOT_SIZE, d->entries[i].held);
}

/* The answer of the last of n calls at tick 0, in turn over the tickets 1 to last. */
static uint64_t run(struct desk *d, uint8_t *pool, size_t size, const uint8_t *chunk, size_t len, enum call kind, uint32_t last, size_t n) {
    uint64_t answer = 0;
    uint32_t t = 1;
    for (size_t i = 0; i < n; i++) {
        switch (kind) {
        case OPEN: answer = desk_open(d, pool, size, t, 0); break;
        case ADD: answer = desk_add(d, pool, size, t, chunk, len, 0); break;
        case RELEASE: answer = desk_release(d, pool, size, t); break;
        case HELD: answer = desk_held(d, size, t); break;
        case JUDGE_HELD: answer = desk_judge(d, pool, size, t); break;
        }
        t = t < last ? t + 1 : 1;
    }
    return answer;
}

uint64_t PLAIN_DESK(uint8_t *pool, size_t size, const uint8_t *chunk, size_t len, uint32_t opens, size_t adds, uint32_t kind, size_t n) {
    struct desk d = {.slots = SLOTS, .next = 1};
    run(&d, pool, size, chunk, len, OPEN, opens, opens);
    run(&d, pool, size, chunk, len, ADD, opens, adds);
    return run(&d, pool, size, chunk, len, kind, opens, n);
}
