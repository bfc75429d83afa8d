// From an address to a register: a driver places GTTMMADR's window, reads there what went wrong, and requests a reset of the render engine. The bench plays the bus and the device.
//     tools/build lent && cc -Iinclude examples/window.c target/staticlib/liblent.a -o window && ./window
#include <stdio.h>

#include "twin.h"

enum { PCICMD2 = 0x04, GTTMMADR = 0x10, AFCTL = 0xA8 };

// ---- the bench: one function, and how long the device still works on a request, in polls

typedef struct bench {
    twin_state s;
    unsigned work;
} bench;

// Who claims an address, seen from the bus.
static void show_claim(const bench *b, uint32_t address)
{
    twin_claim c = twin_claim_memory(&b->s, address);
    if (c.window == TWIN_TRANSLATION)
        printf("%08X        the window's offset %06X\n", (unsigned)address, (unsigned)c.offset);
    else
        printf("%08X        claimed by nobody\n", (unsigned)address);
}

// A dword in memory. Where nobody claims the address, the bus reads ones and a write is lost.
static uint32_t read_memory(const bench *b, uint32_t address)
{
    twin_claim c = twin_claim_memory(&b->s, address);
    return c.window == TWIN_TRANSLATION ? twin_window_read(&b->s, c.offset, 0xF).value : 0xFFFFFFFF;
}

static void write_memory(bench *b, uint32_t address, uint32_t value)
{
    twin_claim c = twin_claim_memory(&b->s, address);
    if (c.window == TWIN_TRANSLATION)
        twin_window_write(&b->s, c.offset, 0xF, value);
}

// The device's turn, between two polls: DRAM cycles pass, and with its work done it completes every request.
static void let_device_work(bench *b)
{
    twin_add_cycles(&b->s, 500);
    if (b->work > 0)
        b->work--;
    else
        twin_complete(&b->s, b->s.window.assrreq & 0xF);
}

// ---- the driver, which knows only what it reads

enum { RENDER = 1 << 1, MOST_POLLS = 5 };

static const uint32_t BASE = 0xF7800000;

static void place_window(bench *b)
{
    twin_guest_write(&b->s, GTTMMADR, 0xF, BASE);
    twin_guest_write(&b->s, GTTMMADR + 4, 0xF, 0);
    twin_guest_write(&b->s, PCICMD2, 0x3, 0x0002);
}

static void show_fault(const char *when, const bench *b)
{
    unsigned fault = read_memory(b, BASE + TWIN_FAULT_REG);
    printf("%-14s  FAULT_REG %08X", when, fault);
    if (fault == 0xFFFFFFFF)
        printf("  no answer\n");
    else if (fault & 1)
        printf("  engine %u, source %02X, type %u\n", fault >> 12 & 0x7, fault >> 3 & 0xFF, fault >> 1 & 0x3);
    else
        printf("  no fault\n");
}

static unsigned show_requests(const char *when, const bench *b)
{
    unsigned requests = read_memory(b, BASE + TWIN_ASSRREQ);
    printf("%-14s  ASSRREQ %08X\n", when, requests);
    return requests;
}

// Reads ASSRREQ until the request is completed; false where it is not after MOST_POLLS reads.
static bool poll_until_completed(bench *b)
{
    for (int i = 1; i <= MOST_POLLS; i++) {
        let_device_work(b);
        if ((show_requests("poll", b) & RENDER) == 0)
            return true;
    }
    return false;
}

static bool reset_render_engine(bench *b)
{
    uint32_t before = read_memory(b, BASE + TWIN_DRAM_CYCLES);
    write_memory(b, BASE + TWIN_ASSRREQ, RENDER << 16 | RENDER); // the bit, and its mask bit 16 higher
    show_requests("requested", b);
    bool completed = poll_until_completed(b);
    uint32_t after = read_memory(b, BASE + TWIN_DRAM_CYCLES);
    printf("%-14s  %u cycles, %08X to %08X\n", completed ? "completed" : "given up", (unsigned)(after - before), (unsigned)before, (unsigned)after);
    return completed;
}

int main(void)
{
    bench b;
    twin_platform_reset(&b.s);
    twin_mirror_update(&b.s, TWIN_MBDSM, 0xFFF00001, 0x9AB00001); // the base of stolen memory, and its lock
    twin_add_cycles(&b.s, 0xFFFFFC18); // 1000 before the sum wraps

    show_claim(&b, BASE + TWIN_ASSRREQ);
    place_window(&b);
    show_claim(&b, BASE + TWIN_ASSRREQ);
    write_memory(&b, BASE + TWIN_MBDSM, 0); // a mirror: the guest changes nothing
    printf("%-14s  MBDSM %08X\n", "mirrored", (unsigned)read_memory(&b, BASE + TWIN_MBDSM));

    twin_fault(&b.s, 0x1152);
    twin_fault(&b.s, 0x4008); // before the driver has looked at the first: lost
    show_fault("two faults", &b);
    write_memory(&b, BASE + TWIN_FAULT_REG, 0);
    show_fault("cleared", &b);
    twin_fault(&b.s, 0x4008);
    show_fault("one more", &b);

    write_memory(&b, BASE + TWIN_ASSRREQ, RENDER); // without its mask bit: nothing is requested
    show_requests("without mask", &b);
    b.work = 3;
    bool completed = reset_render_engine(&b);

    twin_guest_write(&b.s, AFCTL, 0x1, 0x01); // a function reset takes the base, and leaves what the window holds
    show_fault("function reset", &b); // busy: nobody claims
    twin_end_signal(&b.s);
    place_window(&b);
    show_fault("placed again", &b);
    twin_platform_reset(&b.s); // takes both
    place_window(&b);
    show_fault("platform reset", &b);
    return completed ? 0 : 1;
}
