/* EVCard's reading of an input: each card parsed to attributes and freed. It takes one card at a time, which is cut out and copied for it. */
#include "jobs.h"
#include <libebook-contacts/libebook-contacts.h>
#include <string.h>

static size_t read_card(const char *card) {
    EVCard *v = e_vcard_new_from_string(card);
    size_t lines = g_list_length(e_vcard_get_attributes(v));
    g_object_unref(v);
    return lines;
}

uint64_t evcard_read(const void *what) {
    static const char last[] = "END:VCARD\r\n";
    static char card[LIMIT + 1];
    const struct input *in = what;
    const uint8_t *at = in->octets, *past = at + in->length;
    uint64_t lines = 0;
    while (at < past) {
        const uint8_t *end = memmem(at, past - at, last, strlen(last));
        if (!end) break;
        size_t length = end + strlen(last) - at;
        memcpy(card, at, length);
        card[length] = 0;
        lines += read_card(card);
        at += length;
    }
    return lines;
}
