/* A first use of Gerstebolk from C: judges a card, folds it, unescapes a text, and looks at refusals and at empty ranges. */
#include "gerstebolk.h"
#include <stdio.h>
#include <string.h>

static const char card[] =
    "BEGIN:VCARD\r\nVERSION:4.0\r\nFN:Leitstelle Nord\r\n"
    "NOTE:Bei Stromausfall zuerst das Umspannwerk rufen\\, dann die Leitstelle\\; danach den Fahrdienst\r\nEND:VCARD\r\n";

static int wrong;

static void expect(const char *what, uint64_t answer, uint32_t refusal, uint32_t place) {
    printf("%s: refusal %u, number %u\n", what, (unsigned)GERSTEBOLK_REFUSAL(answer), (unsigned)GERSTEBOLK_PLACE(answer));
    if (GERSTEBOLK_REFUSAL(answer) != refusal || GERSTEBOLK_PLACE(answer) != place) wrong = 1;
}

int main(void) {
    const uint8_t *octets = (const uint8_t *)card;
    size_t length = sizeof card - 1;
    uint8_t out[256];
    uint64_t answer;

    expect("a card is judged", judge(octets, length), 0, 1);
    expect("a card that is cut off", judge(octets, length - 11), GERSTEBOLK_ORDER, (uint32_t)length - 11);
    expect("nothing is judged", judge(octets, 0), GERSTEBOLK_EMPTY, 0);

    answer = fold(octets, length, out, sizeof out);
    expect("the card is folded", answer, 0, (uint32_t)length + 3);
    fwrite(out, 1, GERSTEBOLK_PLACE(answer), stdout);
    expect("what was written is judged again", judge(out, GERSTEBOLK_PLACE(answer)), 0, 1);
    expect("folded into too small a room", fold(octets, length, out, length), GERSTEBOLK_ROOM, (uint32_t)length + 3);
    expect("folded into no room", fold(octets, length, out, 0), GERSTEBOLK_ROOM, (uint32_t)length + 3);

    expect("a text is unescaped", unescape((const uint8_t *)"a\\,b", 4, out, sizeof out), 0, 3);
    if (memcmp(out, "a,b", 3) != 0) wrong = 1;
    expect("a bare comma", unescape((const uint8_t *)"a,b", 3, out, sizeof out), GERSTEBOLK_ESCAPE, 1);
    expect("an empty text", unescape(octets, 0, out, 0), 0, 0);
    return wrong;
}
