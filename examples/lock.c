// A lock, and a function reset that does not undo it.
//     tools/build lent && cc -Iinclude examples/lock.c target/staticlib/liblent.a -o lock && ./lock
#include <stdio.h>

#include "twin.h"

enum { PCICMD2 = 0x04, SVID2 = 0x2C, AFCTL = 0xA8 };

// The low word of a dword; the lanes above it, which aren't enabled, read FF.
static unsigned read_word(const twin_state *s, uint32_t offset) { return (uint16_t)twin_guest_read(s, offset, 0x3).value; }

static void show(const char *when, const twin_state *s)
{
    printf("%-16s  SVID2 %04X  PCICMD2 %04X\n", when, read_word(s, SVID2), read_word(s, PCICMD2));
}

int main(void)
{
    twin_state s;
    twin_platform_reset(&s);
    show("fresh", &s);

    twin_guest_write(&s, PCICMD2, 0x3, 0x0007);
    twin_guest_write(&s, SVID2, 0x3, 0x1234); // the first write closes the field
    show("locked", &s);

    twin_guest_write(&s, AFCTL, 0x1, 0x01); // starts the function reset
    show("reset started", &s); // busy: every byte reads FF
    twin_end_signal(&s); // the host's part
    show("reset ended", &s);

    uint32_t number = twin_guest_write(&s, SVID2, 0x3, 0xFFFF);
    show("written again", &s);
    printf("the last write: number %u, and SVID2 is %s\n", (unsigned)number, s.closed.svid2 ? "closed" : "open");
    return 0;
}
