/* The benchmark's tables: the unit's routines and desk calls beside plain and tuned C, EVCard and memcpy; and what an input costs by its size and shape.
 *
 *   bench time FOLDER TIMES            times the tables' jobs; the file TIMES keeps the best time of each over several runs
 *   bench count FOLDER                 the tables' jobs for callgrind, which counts their instructions
 *   bench tables FOLDER TIMES COUNTS   the tables; the file COUNTS has callgrind's numbers, one a line, or is empty
 *   bench costs FOLDER NAME ..         for each input: its name, its octets, a routine, nanoseconds an octet
 */
#include "jobs.h"
#include <stdio.h>
#include <stdlib.h>
#include <string.h>

#define LENGTH(a) (sizeof(a) / sizeof(a)[0])
#define SECONDS 6 /* for the jobs of one table */

static const struct row {
    enum routine routine;
    const char *input;
    size_t most;
} rows[] = {
    {JUDGE, "book", LIMIT},
    {JUDGE, "dense", LIMIT},
    {JUDGE, "small", LIMIT},
    {JUDGE, "small", 43},
    {JUDGE, "card87", LIMIT},
    {JUDGE, "card290", LIMIT},
    {JUDGE, "card1024", LIMIT},
    {JUDGE, "long", LIMIT},
    {JUDGE, "damaged", LIMIT},
    {READ, "book", LIMIT},
    {READ, "dense", LIMIT},
    {READ, "small", LIMIT},
    {READ, "long", LIMIT},
    {READ, "damaged", LIMIT},
    {FOLD, "book", LIMIT},
    {FOLD, "dense", LIMIT},
    {FOLD, "small", LIMIT},
    {FOLD, "small", 43},
    {FOLD, "card87", LIMIT},
    {FOLD, "card290", LIMIT},
    {FOLD, "card1024", LIMIT},
    {FOLD, "long", LIMIT},
    {FOLD, "damaged", LIMIT},
    {UNESCAPE, "escaped", LIMIT},
    {UNESCAPE, "plain", LIMIT},
    {UNESCAPE, "plain", 32},
    {UNESCAPE, "plain", 12},
    {UNESCAPE, "plain", 4},
    {ESCAPE, "prose", LIMIT},
    {ESCAPE, "plain", LIMIT},
    {ESCAPE, "plain", 32},
    {ESCAPE, "plain", 12},
    {ESCAPE, "plain", 4},
    {ENCODE, "value", LIMIT},
    {ENCODE, "accents", LIMIT},
    {ENCODE, "plain", LIMIT},
    {ENCODE, "plain", 63},
    {ENCODE, "plain", 32},
    {ENCODE, "plain", 12},
    {DECODE, "label", LIMIT},
    {DECODE, "letters", LIMIT},
    {DECODE, "plain", LIMIT},
    {DECODE, "plain", 63},
    {DECODE, "plain", 32},
    {DECODE, "plain", 12},
    {TAKE, "book", LIMIT},
    {TAKE, "dense", LIMIT},
    {TAKE, "damaged", LIMIT},
    {WATCH_1024, "book", LIMIT},
    {WATCH_64, "book", LIMIT},
    {WATCH_1, "book", LIMIT},
    {WATCH_1, "book", 1024},
    {WATCH_1024, "damaged", LIMIT},
    {MEMCPY, "book", LIMIT},
};
#define ROWS LENGTH(rows)

static const struct desk_row {
    const char *name, *chunk;
    size_t most;
    uint32_t opens;
    size_t adds;
    enum call kind;
    size_t n;
} desk_rows[] = {
    {"open", "book", 0, 0, 0, OPEN, 40},
    {"add 0 octets", "book", 0, 40, 0, ADD, 1600},
    {"add 400 octets", "book", 400, 40, 0, ADD, 1600},
    {"add a book", "book", LIMIT, 40, 0, ADD, 40},
    {"octets held", "book", 0, 40, 0, HELD, 1600},
    {"judge a book", "book", LIMIT, 40, 40, JUDGE_HELD, 8},
    {"judge small cards", "small", LIMIT, 40, 40, JUDGE_HELD, 8},
    {"judge a long line", "long", LIMIT, 40, 40, JUDGE_HELD, 8},
    {"judge a damaged book", "damaged", LIMIT, 40, 40, JUDGE_HELD, 8},
    {"release", "book", LIMIT, 40, 40, RELEASE, 40},
};
#define DESK_ROWS LENGTH(desk_rows)

static struct input inputs[ROWS], chunks[DESK_ROWS];
enum who { UNIT, PLAIN, TUNED, EVCARD, WHO };
static struct job jobs[ROWS][WHO];
/* by whether the n calls are made: the difference is what they cost */
static struct calls calls[DESK_ROWS][2];
static struct job desks[DESK_ROWS][DESKS][2];
/* the same one after the other */
#define ROW_JOBS (WHO * ROWS)
#define DESK_JOBS (2 * DESKS * DESK_ROWS)
static struct job *const row_jobs = &jobs[0][0], *const call_jobs = &desks[0][0][0];

static void make_jobs(const char *folder) {
    for (size_t r = 0; r < ROWS; r++) {
        const struct row *row = &rows[r];
        load(&inputs[r], folder, row->input, row->most);
        jobs[r][UNIT] = (struct job){.run = unit_jobs[row->routine], .what = &inputs[r]};
        jobs[r][PLAIN] = (struct job){.run = plain_jobs[row->routine], .what = &inputs[r]};
        jobs[r][TUNED] = (struct job){.run = tuned_jobs[row->routine], .what = &inputs[r]};
        if (row->routine == READ && strcmp(row->input, "damaged") != 0) jobs[r][EVCARD] = (struct job){.run = evcard_read, .what = &inputs[r]};
        for (size_t who = PLAIN; who <= TUNED; who++)
            if (jobs[r][who].run) compare(jobs[r][UNIT].run, jobs[r][who].run, &inputs[r], row->input);
        if (row->routine >= WATCH_1024 && row->routine <= WATCH_1) compare(jobs[r][UNIT].run, judged_number, &inputs[r], row->input);
    }
    for (size_t r = 0; r < DESK_ROWS; r++) {
        const struct desk_row *row = &desk_rows[r];
        load(&chunks[r], folder, row->chunk, row->most);
        for (size_t made = 0; made < 2; made++) calls[r][made] = (struct calls){&chunks[r], row->opens, row->adds, row->kind, made * row->n};
        for (size_t d = 0; d < DESKS; d++) {
            for (size_t made = 0; made < 2; made++) desks[r][d][made] = (struct job){.run = desk_jobs[d], .what = &calls[r][made]};
            compare(desk_jobs[0], desk_jobs[d], &calls[r][1], row->name);
        }
    }
}

/* How often callgrind sees a row's job: often enough for what surrounds a call not to count. */
static size_t repeats(size_t r) { return inputs[r].length < 1000 ? 100 : 2; }

static void count_jobs(void) {
    for (size_t r = 0; r < ROWS; r++)
        for (size_t who = UNIT; who <= TUNED; who++)
            if (jobs[r][who].run) counted(&jobs[r][who], repeats(r));
    for (size_t r = 0; r < DESK_ROWS; r++)
        for (size_t d = 0; d < DESKS; d++)
            for (size_t made = 0; made < 2; made++) counted(&desks[r][d][made], 1);
}

static double row_counts[ROWS][EVCARD], desk_counts[DESK_ROWS][DESKS][2];

/* The next number of the file, or 0 where there is none. */
static double next_number(FILE *f) {
    double x;
    return f && fscanf(f, "%lf", &x) == 1 ? x : 0;
}

static void read_times(const char *path) {
    FILE *f = fopen(path, "r");
    for (size_t j = 0; j < ROW_JOBS; j++) row_jobs[j].seconds = next_number(f);
    for (size_t j = 0; j < DESK_JOBS; j++) call_jobs[j].seconds = next_number(f);
    if (f) fclose(f);
}

static void write_times(const char *path) {
    FILE *f = fopen(path, "w");
    if (!f) exit(2);
    for (size_t j = 0; j < ROW_JOBS; j++) fprintf(f, "%.12g\n", row_jobs[j].seconds);
    for (size_t j = 0; j < DESK_JOBS; j++) fprintf(f, "%.12g\n", call_jobs[j].seconds);
    fclose(f);
}

static void read_counts(const char *path) {
    FILE *f = fopen(path, "r");
    for (size_t r = 0; r < ROWS; r++)
        for (size_t who = UNIT; who <= TUNED; who++)
            if (jobs[r][who].run) row_counts[r][who] = next_number(f);
    for (size_t r = 0; r < DESK_ROWS; r++)
        for (size_t d = 0; d < DESKS; d++)
            for (size_t made = 0; made < 2; made++) desk_counts[r][d][made] = next_number(f);
    if (f) fclose(f);
}

/* A cell of a table, or a dash where nothing was measured. */
static void cell(double x, int digits) {
    if (x > 0)
        printf(" %9.*f |", digits, x);
    else
        printf(" %9s |", "-");
}

/* The rate of a job on an input, or 0 where there is none. */
static double rate(const struct input *in, const struct job *job) { return job->run ? in->length / job->seconds / 1e6 : 0; }

/* The unit's rate as times that of another, or 0 where there is none. */
static double times(size_t r, enum who who) { return jobs[r][who].run ? rate(&inputs[r], &jobs[r][UNIT]) / rate(&inputs[r], &jobs[r][who]) : 0; }

static void print_rows(void) {
    printf("| Routine   | Input    | Octets | Unit MB/s | Plain C   | Tuned C   | / plain   | / tuned   | EVCard    | Unit inst | Plain     | Tuned     |\n");
    printf("|---|---|---|---|---|---|---|---|---|---|---|---|\n");
    for (size_t r = 0; r < ROWS; r++) {
        const struct input *in = &inputs[r];
        printf("| %-9s | %-8s | %6zu |", routine_names[rows[r].routine], in->name, in->length);
        for (size_t who = UNIT; who <= TUNED; who++) cell(rate(in, &jobs[r][who]), 0);
        for (size_t who = PLAIN; who <= TUNED; who++) cell(times(r, who), 2);
        cell(rate(in, &jobs[r][EVCARD]), 1);
        for (size_t who = UNIT; who <= TUNED; who++) cell(row_counts[r][who] / repeats(r) / in->length, 1);
        printf("\n");
    }
}

/* The row of a routine on the book, or on its first octets. */
static size_t row_of(enum routine routine, size_t octets) {
    size_t r = 0;
    while (rows[r].routine != routine || strcmp(rows[r].input, "book") != 0 || rows[r].most != octets) r++;
    return r;
}

/* The marks of the reader of chunks: its rate as times judge's, and the time of one-octet chunks for 16 times the input. */
static void print_marks(void) {
    static const struct {
        enum routine routine;
        double least;
    } marks[] = {{WATCH_1024, 0.7}, {WATCH_64, 0.3}};
    size_t judge = row_of(JUDGE, LIMIT), all = row_of(WATCH_1, LIMIT), part = row_of(WATCH_1, 1024);
    printf("\n| Chunks on the book              | Ratio     | Mark           | By inst   |\n");
    printf("|---|---|---|---|\n");
    for (size_t m = 0; m < LENGTH(marks); m++) {
        size_t r = row_of(marks[m].routine, LIMIT);
        printf("| %-9s rate / judge's         |", routine_names[marks[m].routine]);
        cell(jobs[judge][UNIT].seconds / jobs[r][UNIT].seconds, 2);
        printf(" at least %.1f   |", marks[m].least);
        cell(row_counts[judge][UNIT] / row_counts[r][UNIT], 2);
        printf("\n");
    }
    printf("| watch1, 16 times the octets     |");
    cell(jobs[all][UNIT].seconds / jobs[part][UNIT].seconds, 1);
    printf(" at most 20     |");
    cell(row_counts[all][UNIT] / row_counts[part][UNIT], 1);
    printf("\n");
}

static void print_desk(void) {
    printf("\n| Desk call            | Unit ns   | C -O3 ns  | C -O2 ns  | Unit/-O3  | Unit/-O2  | Unit inst | -O3 inst  | -O2 inst  |\n");
    printf("|---|---|---|---|---|---|---|---|---|\n");
    for (size_t r = 0; r < DESK_ROWS; r++) {
        double one[DESKS];
        printf("| %-20s |", desk_rows[r].name);
        for (size_t d = 0; d < DESKS; d++) {
            one[d] = (desks[r][d][1].seconds - desks[r][d][0].seconds) / desk_rows[r].n * 1e9;
            cell(one[d], 0);
        }
        cell(one[0] / one[1], 2);
        cell(one[0] / one[2], 2);
        for (size_t d = 0; d < DESKS; d++) cell((desk_counts[r][d][1] - desk_counts[r][d][0]) / desk_rows[r].n, 0);
        printf("\n");
    }
}

/* The routines that an input is for, by its name: texts, odd cards, whose folded form may be too long, and other cards. */
static int is_for(enum routine routine, const char *name) {
    if (strncmp(name, "escaped-", 8) == 0) return routine == UNESCAPE;
    if (strncmp(name, "prose-", 6) == 0) return routine == ESCAPE;
    return strncmp(name, "odd-", 4) == 0 ? routine <= READ : routine <= FOLD;
}

/* Adds the jobs of an input, which the unit has to accept, and answers how many they are. */
static size_t add_jobs(struct job *all, const struct input *in) {
    size_t n = 0;
    for (int routine = 0; routine < ROUTINES; routine++) {
        if (!is_for(routine, in->name)) continue;
        compare(unit_jobs[routine], plain_jobs[routine], in, in->name);
        if (unit_jobs[routine](in) >> 32) {
            fprintf(stderr, "bench: %s refuses %s\n", routine_names[routine], in->name);
            exit(1);
        }
        all[n++] = (struct job){.run = unit_jobs[routine], .what = in};
    }
    return n;
}

static const char *name_of(const struct job *job) {
    int routine = 0;
    while (unit_jobs[routine] != job->run) routine++;
    return routine_names[routine];
}

static void print_costs(const char *folder, char **names, size_t count) {
    struct input *files = aligned_alloc(_Alignof(struct input), count * sizeof *files);
    struct job *all = calloc(count * ROUTINES, sizeof *all);
    if (!files || !all) exit(2);
    size_t n = 0;
    for (size_t i = 0; i < count; i++) {
        load(&files[i], folder, names[i], LIMIT);
        n += add_jobs(all + n, &files[i]);
    }
    time_jobs(all, n, 2 * SECONDS);
    for (size_t j = 0; j < n; j++) {
        const struct input *in = all[j].what;
        printf("%s %zu %s %.4f\n", in->name, in->length, name_of(&all[j]), all[j].seconds * 1e9 / in->length);
    }
    free(files);
    free(all);
}

int main(int argc, char **argv) {
    if (argc > 3 && strcmp(argv[1], "costs") == 0) {
        print_costs(argv[2], argv + 3, argc - 3);
        return 0;
    }
    if (argc == 3 && strcmp(argv[1], "count") == 0) {
        make_jobs(argv[2]);
        count_jobs();
        return 0;
    }
    if (argc == 4 && strcmp(argv[1], "time") == 0) {
        make_jobs(argv[2]);
        read_times(argv[3]);
        time_jobs(row_jobs, ROW_JOBS, SECONDS);
        time_jobs(call_jobs, DESK_JOBS, SECONDS);
        write_times(argv[3]);
        return 0;
    }
    if (argc == 5 && strcmp(argv[1], "tables") == 0) {
        make_jobs(argv[2]);
        read_times(argv[3]);
        read_counts(argv[4]);
        print_rows();
        print_marks();
        print_desk();
        return 0;
    }
    fprintf(stderr, "bench: see the head of bench.c\n");
    return 2;
}
