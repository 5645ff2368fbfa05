/* Timing in interleaved rounds: what else runs on the machine slows a round of some job, and no best time once there are many rounds. */
#include "timing.h"
#include <stdio.h>
#include <stdlib.h>
#include <time.h>

#define ROUND 50e-6 /* about how long one job's calls take in a round: short, to fall between what else runs */

static volatile uint64_t sink;

void load(struct input *in, const char *folder, const char *name, size_t most) {
    char path[512];
    snprintf(path, sizeof path, "%s/%s", folder, name);
    FILE *f = fopen(path, "rb");
    if (!f) {
        fprintf(stderr, "bench: %s can't be read\n", path);
        exit(2);
    }
    snprintf(in->name, sizeof in->name, "%s", name);
    in->length = fread(in->octets, 1, most, f);
    fclose(f);
}

static double now(void) {
    struct timespec t;
    clock_gettime(CLOCK_MONOTONIC, &t);
    return t.tv_sec + t.tv_nsec * 1e-9;
}

/* The time of so many calls. */
static double time_calls(const struct job *job, size_t calls) {
    uint64_t sum = 0;
    double start = now();
    for (size_t i = 0; i < calls; i++) sum += job->run(job->what);
    double end = now();
    sink = sum;
    return end - start;
}

void time_jobs(struct job *jobs, size_t count, double seconds) {
    for (size_t j = 0; j < count; j++) {
        if (!jobs[j].run) continue;
        jobs[j].calls = 1;
        while (time_calls(&jobs[j], jobs[j].calls) < ROUND / 2) jobs[j].calls *= 2;
    }
    for (double end = now() + seconds; now() < end;)
        for (size_t j = 0; j < count; j++) {
            if (!jobs[j].run) continue;
            double one = time_calls(&jobs[j], jobs[j].calls) / jobs[j].calls;
            if (jobs[j].seconds == 0 || one < jobs[j].seconds) jobs[j].seconds = one;
        }
}

__attribute__((noipa)) void counted(const struct job *job, size_t calls) {
    uint64_t sum = 0;
    for (size_t i = 0; i < calls; i++) sum += job->run(job->what);
    sink = sum;
}
