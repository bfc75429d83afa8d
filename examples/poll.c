// A driver's poll: it starts a function reset and reads AFCTL until the reset is over. The bench plays the device, which takes its time.
//     tools/build lent && cc -Iinclude examples/poll.c target/staticlib/liblent.a -o poll && ./poll
#include <stdio.h>

#include "twin.h"

enum { PCICMD2 = 0x04, SVID2 = 0x2C, AFCTL = 0xA8 };

// ---- the bench: one function, and how long the device still works on its reset, in polls

typedef struct bench {
    twin_state s;
    unsigned work;
} bench;

// The device's turn, between two polls. With its work done it gives the end signal, which changes nothing once the reset is over.
static void let_device_work(bench *b)
{
    if (b->work > 0)
        b->work--;
    else
        twin_end_signal(&b->s);
}

// ---- the driver, which knows only what it reads

enum { MOST_POLLS = 5 };

// Lanes that aren't enabled read FF, so that each read takes the low word or byte alone.
static unsigned read_word(const bench *b, uint32_t offset) { return (uint16_t)twin_guest_read(&b->s, offset, 0x3).value; }

static unsigned read_byte(const bench *b, uint32_t offset) { return (uint8_t)twin_guest_read(&b->s, offset, 0x1).value; }

static void show(const char *when, const bench *b)
{
    printf("%-14s  PCICMD2 %04X  SVID2 %04X\n", when, read_word(b, PCICMD2), read_word(b, SVID2));
}

// Reads AFCTL until it reads 0; false where it has not after MOST_POLLS reads.
static bool poll_until_over(bench *b)
{
    for (int i = 1; i <= MOST_POLLS; i++) {
        let_device_work(b);
        unsigned control = read_byte(b, AFCTL);
        printf("poll %d          AFCTL %02X\n", i, control);
        if (control == 0)
            return true;
    }
    printf("given up after %d polls\n", MOST_POLLS);
    return false;
}

static bool reset_function(bench *b)
{
    show("before", b);
    twin_guest_write(&b->s, AFCTL, 0x1, 0x01);
    show("during", b);
    bool over = poll_until_over(b);
    show(over ? "after" : "still", b);
    return over;
}

int main(void)
{
    bench b;
    twin_platform_reset(&b.s);
    twin_guest_write(&b.s, PCICMD2, 0x3, 0x0007);
    twin_guest_write(&b.s, SVID2, 0x3, 0x1234); // the first write closes the field

    b.work = 3;
    bool first = reset_function(&b);
    twin_guest_write(&b.s, SVID2, 0x3, 0xFFFF);
    show("written again", &b);

    b.work = 1000; // as good as hung
    bool second = reset_function(&b);
    twin_platform_reset(&b.s); // this ends it too, and opens the field
    show("platform reset", &b);
    return first && !second ? 0 : 1;
}
