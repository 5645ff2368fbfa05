/* Answers the requests judge, fold and unescape of the console's protocol (CONSOLE.md) by calling the three C routines of the static library.
 *
 * Where the console answers `ok CARDS LINES`, the routine has the count of cards alone: `ok CARDS`. Each range ends at a page that can't be touched, so that
 * a read or write past its end stops this program; the octets before the room and the input are looked at after each call. Where these are not as they
 * were, or the room is not where it should be, the answer gets the word ` touched` at its end.
 */
#define _DEFAULT_SOURCE
#include "gerstebolk.h"
#include <stdio.h>
#include <stdlib.h>
#include <string.h>
#include <sys/mman.h>

#define RANGE 131072u /* octets of memory for a range */
#define PAGE 65536u /* the largest page size in use */
#define MOST 70000u  /* the most octets of an input or of room, as on the console */
#define BEFORE 64u   /* octets before the room that are looked at */
#define OCTET 165    /* what each octet of room is at first */

typedef uint64_t (*writer)(const uint8_t *, size_t, uint8_t *, size_t);

static char line[2 * MOST + 100];
static uint8_t octets[MOST];
static uint8_t *input_end, *room_end;

/* The end of a range that is followed by a page without access. */
static uint8_t *fenced(void) {
    uint8_t *memory = mmap(NULL, RANGE + PAGE, PROT_READ | PROT_WRITE, MAP_PRIVATE | MAP_ANONYMOUS, -1, 0);
    if (memory == MAP_FAILED || mprotect(memory + RANGE, PAGE, PROT_NONE) != 0) {
        perror("routines");
        exit(2);
    }
    return memory + RANGE;
}

/* What a hexadecimal digit stands for, or -1. */
static int digit(char c) {
    const char *digits = "0123456789abcdef0123456789ABCDEF", *found = c ? strchr(digits, c) : NULL;
    return found ? (int)((found - digits) % 16) : -1;
}

/* How many octets a word has, written to `octets`, or -1 where it is no such word. */
static long octets_of(const char *word) {
    size_t n = strlen(word);
    if (strcmp(word, "-") == 0) return 0;
    if (n == 0 || n % 2 == 1 || n / 2 > MOST) return -1;
    for (size_t i = 0; i < n / 2; i++) {
        int high = digit(word[2 * i]), low = digit(word[2 * i + 1]);
        if (high < 0 || low < 0) return -1;
        octets[i] = (uint8_t)(16 * high + low);
    }
    return (long)(n / 2);
}

/* A number up to the most room, or -1. */
static long room_of(const char *word) {
    long n = 0;
    if (*word == 0) return -1;
    for (; *word; word++) {
        if (*word < '0' || *word > '9') return -1;
        n = 10 * n + (*word - '0');
        if (n > (long)MOST) return -1;
    }
    return n;
}

/* Whether octets from `from` up to `to` are as they were set. */
static int kept(const uint8_t *from, const uint8_t *to) {
    while (from < to)
        if (*from++ != OCTET) return 0;
    return 1;
}

/* Puts the input at its range's end, and answers where it starts. */
static const uint8_t *placed(size_t length) {
    return memcpy(input_end - length, octets, length);
}

/* The end of an answer's line, after a look at the input. */
static void end(size_t length, int touched) {
    if (memcmp(input_end - length, octets, length) != 0) touched = 1;
    puts(touched ? " touched" : "");
}

static void refusal(uint64_t answer) {
    printf("no %u %u", (unsigned)GERSTEBOLK_REFUSAL(answer), (unsigned)GERSTEBOLK_PLACE(answer));
}

static void answer_judge(size_t length) {
    uint64_t answer = judge(placed(length), length);
    if (GERSTEBOLK_REFUSAL(answer) != 0) refusal(answer);
    else printf("ok %u", (unsigned)GERSTEBOLK_PLACE(answer));
    end(length, 0);
}

static void answer_writer(writer routine, size_t room, size_t length) {
    uint8_t *out = room_end - room;
    memset(out - BEFORE, OCTET, BEFORE + room);
    uint64_t answer = routine(placed(length), length, out, room);
    size_t written = GERSTEBOLK_REFUSAL(answer) == 0 ? GERSTEBOLK_PLACE(answer) : 0;
    if (GERSTEBOLK_REFUSAL(answer) != 0) refusal(answer);
    else printf("ok %lu ", (unsigned long)written);
    if (written > room) written = room;
    for (size_t i = 0; i < written; i++) printf("%02x", out[i]);
    if (GERSTEBOLK_REFUSAL(answer) == 0 && written == 0) putchar('-');
    end(length, !kept(out - BEFORE, out) || !kept(out + written, room_end));
}

/* The answer to a line without its end. */
static void answer(char *request) {
    char *words[3] = {request, NULL, NULL};
    int count = 1;
    for (char *space = strchr(request, ' '); space && count < 3; space = strchr(space + 1, ' ')) {
        *space = 0;
        words[count++] = space + 1;
    }
    long length = count > 1 ? octets_of(words[count - 1]) : -1;
    long room = count == 3 ? room_of(words[1]) : -1;
    if (length >= 0 && count == 2 && strcmp(words[0], "judge") == 0) answer_judge((size_t)length);
    else if (length >= 0 && room >= 0 && strcmp(words[0], "fold") == 0) answer_writer(fold, (size_t)room, (size_t)length);
    else if (length >= 0 && room >= 0 && strcmp(words[0], "unescape") == 0) answer_writer(unescape, (size_t)room, (size_t)length);
    else puts("bad request");
}

int main(void) {
    /* Each answer is sent at once, so that a call that stops this program is the first without one. */
    setvbuf(stdout, NULL, _IOLBF, 1 << 18);
    input_end = fenced();
    room_end = fenced();
    while (fgets(line, sizeof line, stdin)) {
        line[strcspn(line, "\n")] = 0;
        answer(line);
    }
    return 0;
}
