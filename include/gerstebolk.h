/* Gerstebolk: the three routines that C firmware calls.
 *
 * Each answers one number: on acceptance a count alone, else refusal * 4294967296 + place. GERSTEBOLK_REFUSAL and GERSTEBOLK_PLACE take it apart;
 * a refusal of 0 is acceptance. On a refusal nothing is written; on acceptance the room past what was written stays as it was.
 * The routines read edition one: RFC 6350, without the names and components that RFC 9554 adds.
 *
 * What a caller owes: each pointer is valid for its length (a range of 0 octets may have any pointer, null too), the ranges do not overlap,
 * and about 64 KB of stack are free. The routines keep nothing between calls and may be called from several threads at once.
 */
#ifndef GERSTEBOLK_H
#define GERSTEBOLK_H

#include <stddef.h>
#include <stdint.h>

#ifdef __cplusplus
extern "C" {
#endif

#define GERSTEBOLK_LIMIT 16384u /* the most octets of an input, a text or a written form */
#define GERSTEBOLK_REFUSAL(answer) ((uint32_t)((uint64_t)(answer) >> 32))
#define GERSTEBOLK_PLACE(answer) ((uint32_t)((uint64_t)(answer) & 0xFFFFFFFFu))

enum gerstebolk_refusal {
    GERSTEBOLK_TOO_LONG = 1,         /* over 16,384 octets; place 16,384 */
    GERSTEBOLK_EMPTY = 2,            /* no octet */
    GERSTEBOLK_LONE_CR_OR_LF = 3,    /* CR without LF, or LF without CR; place of the octet */
    GERSTEBOLK_NO_END = 4,           /* the last two octets aren't CR LF; place the input's length */
    GERSTEBOLK_BAD_OCTET = 5,        /* a control, or no UTF-8, in a logical line; place of the control, or of the bad character's first octet */
    GERSTEBOLK_VALUE = 7,            /* the value breaks its kind; place of the first octet from which nothing could satisfy it, or of the line's CR */
    GERSTEBOLK_LADEN = 8,            /* a group or a parameter on BEGIN, VERSION or END; from here to 12, and for 40 to 43, the place is a line's start */
    GERSTEBOLK_ORDER = 9,            /* a line out of order; or the input ends inside a card, place its length */
    GERSTEBOLK_SECOND = 10,          /* a second instance of a property that may stand once */
    GERSTEBOLK_NO_FN = 11,           /* no FN in the card; place of its END line */
    GERSTEBOLK_MEMBER = 12,          /* MEMBER without KIND:group; place of the END line */
    GERSTEBOLK_ROOM = 15,            /* the output room is too small; place the octets needed */
    GERSTEBOLK_FORM_TOO_LONG = 16,   /* the folded form has over 16,384 octets; place 16,384 */
    GERSTEBOLK_ESCAPE = 30,          /* text: a bare comma, or a backslash of no escape; place of that octet */
    GERSTEBOLK_TEXT_OCTET = 31,      /* text: an octet that isn't allowed, or bad UTF-8; its first octet */
    GERSTEBOLK_NAME = 40,            /* no name, or a bad name or group */
    GERSTEBOLK_PARAMETER = 41,       /* a parameter without '=', or with a bad name */
    GERSTEBOLK_QUOTE = 42,           /* a quote left open, followed by something else than , ; : or standing in a bare value */
    GERSTEBOLK_NO_COLON = 43         /* no colon */
};

/* Judges an input of cards: the count of cards, or a refusal 1 to 12 or 40 to 43. */
uint64_t judge(const uint8_t *input, size_t length);

/* Folds an input into physical lines of at most 75 octets, the names of groups, properties and parameters in capitals and all else as it was read: the
 * octets written to out, or a refusal 1 to 12, 40 to 43, 16, 15. */
uint64_t fold(const uint8_t *input, size_t length, uint8_t *out, size_t room);

/* Writes the text that a text with escapes stands for: the octets written to out, or a refusal 1, 31, 30, 15. */
uint64_t unescape(const uint8_t *text, size_t length, uint8_t *out, size_t room);

#ifdef __cplusplus
}
#endif

#endif
