/* Inputs, the jobs that are timed on them, and their best times in interleaved rounds. */
#ifndef TIMING_H
#define TIMING_H
#include <stddef.h>
#include <stdint.h>

#define LIMIT 16384
#define ALIGNED _Alignas(64) /* as a copy is quickest, for the unit and for plain C alike */

struct input {
    char name[32];
    size_t length;
    ALIGNED uint8_t octets[LIMIT];
};

/* A job without a routine is passed over. */
struct job {
    uint64_t (*run)(const void *what);
    const void *what;
    size_t calls;   /* in one round */
    double seconds; /* the best time of one call, 0 before the first */
};

/* The file of a folder, or its first octets where it has more. */
void load(struct input *in, const char *folder, const char *name, size_t most);

/* Round after round over all jobs for so many seconds; a job keeps its best time, from before too. */
void time_jobs(struct job *jobs, size_t count, double seconds);

/* One job's calls, by themselves, for callgrind to count. */
void counted(const struct job *job, size_t calls);
#endif
