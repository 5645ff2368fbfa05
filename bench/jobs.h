/* The routines as jobs: the unit's, plain C's, tuned C's and EVCard's, on the same rooms. */
#ifndef JOBS_H
#define JOBS_H
#include "plain.h"
#include "timing.h"

/* WATCH_n is judge with the input fed in chunks of n octets. */
enum routine { JUDGE, READ, FOLD, UNESCAPE, ESCAPE, ENCODE, DECODE, TAKE, WATCH_1024, WATCH_64, WATCH_1, MEMCPY, ROUTINES };

extern const char *const routine_names[ROUTINES];
/* The unit's routines, for MEMCPY the C library's. */
extern uint64_t (*const unit_jobs[ROUTINES])(const void *input);
/* Plain C's, none for TAKE, the watches and MEMCPY. */
extern uint64_t (*const plain_jobs[ROUTINES])(const void *input);
/* Tuned C's, for JUDGE, FOLD and UNESCAPE alone. */
extern uint64_t (*const tuned_jobs[ROUTINES])(const void *input);

/* The number of judge's answer, which a watch has to give too. */
uint64_t judged_number(const void *input);

/* Calls to a fresh desk of 40 slots: openings, additions of the chunk, and then n calls of a kind. */
struct calls {
    const struct input *chunk;
    uint32_t opens;
    size_t adds;
    enum call kind;
    size_t n;
};

/* The unit's desk, plain C's with gcc -O3, and with -O2. */
#define DESKS 3
extern uint64_t (*const desk_jobs[DESKS])(const void *calls);

/* EVCard's reading of all cards of an input, where evcard.c is linked. */
__attribute__((weak)) uint64_t evcard_read(const void *input);

/* Ends the program where two differ in an answer or in what they write. */
void compare(uint64_t (*of_unit)(const void *), uint64_t (*of_c)(const void *), const void *what, const char *name);
#endif
