/* Version 3 sets: taking a card in and giving it out, beside fold of the same card.
 *
 *   sets count FOLDER           the jobs for callgrind, which counts their instructions
 *   sets table FOLDER COUNTS    times the jobs and prints the table; the file COUNTS has callgrind's numbers, one a line, or is empty
 */
#include "gerstebolk.h"
#include "timing.h"
#include <stdio.h>
#include <stdlib.h>
#include <string.h>

#define LENGTH(a) (sizeof(a) / sizeof(a)[0])
#define CALLS 20  /* of a job that callgrind sees */
#define SECONDS 6 /* for all jobs */

extern uint64_t timed_take_in(const uint8_t *input, size_t len, uint8_t *out, size_t room);
extern uint64_t timed_give_out(const uint8_t *input, size_t len, uint8_t *out, size_t room);

/* A card as version 3 and as version 4 has it, and as it is written when it is taken in. */
static const struct card {
    const char *old, *new, *written;
} cards[] = {{"set3-9", "set4-9", "set4-9"},
             {"set3-85", "set4-85", "set4-85"},
             {"set3-250", "set4-250", "set4-250"},
             {"set3-long", "set4-long", "set4-long"},
             {"set3-flat", "set4-flat", "set4-long"}};
#define CARDS LENGTH(cards)

enum routine { IN, OUT, FOLD, ROUTINES };
static struct input inputs[CARDS][3];
static struct job jobs[CARDS][ROUTINES];
static double counts[CARDS][ROUTINES];
static ALIGNED uint8_t room[LIMIT];

#define JOB(name, routine)                                              \
    static uint64_t name(const void *what) {                            \
        const struct input *in = what;                                  \
        return routine(in->octets, in->length, room, sizeof room);      \
    }
JOB(take_in, timed_take_in)
JOB(give_out, timed_give_out)
JOB(fold_card, fold)

/* Ends the program where what a routine writes of one card is not the other. */
static void expect(uint64_t length, const struct input *in, const char *name) {
    if (length != in->length || memcmp(room, in->octets, length) != 0) {
        fprintf(stderr, "bench: %s isn't written as %s\n", name, in->name);
        exit(1);
    }
}

static void make_jobs(const char *folder) {
    for (size_t c = 0; c < CARDS; c++) {
        struct input *old = &inputs[c][0], *new = &inputs[c][1], *written = &inputs[c][2];
        load(old, folder, cards[c].old, LIMIT);
        load(new, folder, cards[c].new, LIMIT);
        load(written, folder, cards[c].written, LIMIT);
        expect(take_in(old), written, old->name);
        if (give_out(new) >> 32 || fold_card(new) >> 32) {
            fprintf(stderr, "bench: %s is refused\n", new->name);
            exit(1);
        }
        jobs[c][IN] = (struct job){.run = take_in, .what = old};
        jobs[c][OUT] = (struct job){.run = give_out, .what = new};
        jobs[c][FOLD] = (struct job){.run = fold_card, .what = new};
    }
}

static void read_counts(const char *path) {
    FILE *f = fopen(path, "r");
    for (size_t c = 0; c < CARDS; c++)
        for (size_t r = 0; r < ROUTINES; r++)
            if (!f || fscanf(f, "%lf", &counts[c][r]) != 1) counts[c][r] = 0;
    if (f) fclose(f);
}

/* A cell of a table, or a dash where nothing was measured. */
static void cell(double x, int digits) {
    if (x > 0)
        printf(" %9.*f |", digits, x);
    else
        printf(" %9s |", "-");
}

static void print_table(void) {
    static const char *const names[ROUTINES] = {"take in", "give out", "fold"}, *const marks[ROUTINES] = {"0.45", "0.4", "-"};
    printf("\n| Card     | Octets | Routine  | us        | Fold / it | Inst      | Fold / it | At least |\n|---|---|---|---|---|---|---|---|\n");
    for (size_t c = 0; c < CARDS; c++)
        for (size_t r = 0; r < ROUTINES; r++) {
            const struct input *in = jobs[c][r].what;
            printf("| %-8s | %6zu | %-8s |", in->name, in->length, names[r]);
            cell(jobs[c][r].seconds * 1e6, 2);
            cell(jobs[c][FOLD].seconds / jobs[c][r].seconds, 2);
            cell(counts[c][r] / CALLS, 0);
            cell(counts[c][r] > 0 ? counts[c][FOLD] / counts[c][r] : 0, 2);
            printf(" %8s |\n", marks[r]);
        }
}

int main(int argc, char **argv) {
    if (argc == 3 && strcmp(argv[1], "count") == 0) {
        make_jobs(argv[2]);
        for (size_t c = 0; c < CARDS; c++)
            for (size_t r = 0; r < ROUTINES; r++) counted(&jobs[c][r], CALLS);
        return 0;
    }
    if (argc == 4 && strcmp(argv[1], "table") == 0) {
        make_jobs(argv[2]);
        read_counts(argv[3]);
        time_jobs(&jobs[0][0], CARDS * ROUTINES, SECONDS);
        print_table();
        return 0;
    }
    fprintf(stderr, "sets: see the head of sets.c\n");
    return 2;
}
