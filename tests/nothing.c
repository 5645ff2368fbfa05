/* The routines on no octets and no room, with null pointers: each answers what docs/REFERENCE.md says, and reads and writes nothing. */
#include <stdio.h>

#include "gerstebolk.h"

static int faults;

static void expect(const char *what, uint64_t answer, uint32_t refusal, uint32_t place)
{
    if (GERSTEBOLK_REFUSAL(answer) == refusal && GERSTEBOLK_PLACE(answer) == place)
        return;
    printf("%s: answered %u, %u\n", what, GERSTEBOLK_REFUSAL(answer), GERSTEBOLK_PLACE(answer));
    faults++;
}

int main(void)
{
    static const uint8_t card[] = "BEGIN:VCARD\r\nVERSION:4.0\r\nFN:A\r\nEND:VCARD\r\n";
    const size_t length = sizeof card - 1;
    uint8_t room[1];

    expect("judge of nothing", judge(NULL, 0), GERSTEBOLK_EMPTY, 0);
    expect("fold of nothing", fold(NULL, 0, NULL, 0), GERSTEBOLK_EMPTY, 0);
    expect("fold of nothing, with room", fold(NULL, 0, room, sizeof room), GERSTEBOLK_EMPTY, 0);
    expect("fold without room", fold(card, length, NULL, 0), GERSTEBOLK_ROOM, (uint32_t)length);
    expect("unescape of nothing", unescape(NULL, 0, NULL, 0), 0, 0);
    expect("unescape of nothing, with room", unescape(NULL, 0, room, sizeof room), 0, 0);
    expect("unescape without room", unescape(card, 1, NULL, 0), GERSTEBOLK_ROOM, 1);
    return faults != 0;
}
