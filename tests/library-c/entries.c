// The header's entries, by the paper's checked examples and tables, and the record's layout. Built as C and as C++.
// Each expected value is the paper's, or follows from it by hand.
#include <stdio.h>
#include <string.h>

#include "twin.h"

static unsigned checks, failures;

static void check(int line, const char *what, unsigned long long is, unsigned long long should)
{
    checks++;
    if (is != should) {
        failures++;
        printf("line %d: %s is %llX, and should be %llX\n", line, what, is, should);
    }
}

#define CHECK(is, should) check(__LINE__, #is, (unsigned long long)(is), (unsigned long long)(should))

static twin_state fresh(void)
{
    twin_state s;
    memset(&s, 0xA5, sizeof s);
    twin_platform_reset(&s);
    return s;
}

static uint32_t read_dword(const twin_state *s, uint32_t offset) { return twin_guest_read(s, offset, 0xF).value; }

static int same(const twin_state *a, const twin_state *b) { return memcmp(a, b, sizeof *a) == 0; }

// Where the library finds each part of the record, seen by what it does to its bytes.
static void layout(void)
{
    twin_state s = fresh();
    const uint8_t *bytes = (const uint8_t *)&s;
    CHECK(sizeof(twin_state), 288);
    CHECK(bytes[0x00], 0x86);
    CHECK(bytes[0x54], 0x9F);
    CHECK(twin_port_write(&s, 0xCF8, 4, 0x80FEDCB8), 0);
    CHECK(bytes[256], 0xB8);
    CHECK(bytes[257], 0xDC);
    CHECK(bytes[258], 0xFE);
    CHECK(bytes[259], 0x80);
    CHECK(bytes[260] + bytes[261] + bytes[262] + bytes[263], 0);
    twin_guest_write(&s, 0x2C, 0x1, 0);
    CHECK(bytes[260], 1);
    CHECK(bytes[261] + bytes[262], 0);
    twin_guest_write(&s, 0x2C, 0x8, 0);
    CHECK(bytes[261], 1);
    CHECK(bytes[262], 0);
    twin_guest_write(&s, 0xE8, 0x1, 0); // byte E8 is no part of the field
    CHECK(bytes[262], 0);
    twin_guest_write(&s, 0xE8, 0x2, 0);
    CHECK(bytes[262], 1);
    twin_guest_write(&s, 0xFC, 0xF, 0x44332211);
    CHECK(bytes[0xFC], 0x11);
    CHECK(bytes[0xFF], 0x44);
    twin_guest_write(&s, 0xA8, 0x1, 1);
    CHECK(bytes[263], 1);
    CHECK(s.busy, 1);
    twin_end_signal(&s);
    CHECK(bytes[263], 0);

    static const uint8_t none[24] = { 0 };
    CHECK(memcmp(bytes + 264, none, sizeof none), 0);
    static const uint8_t window[24] = {
        0x53, 0x11, 0x00, 0x00, 0x06, 0x00, 0x00, 0x00, 0x01, 0x00, 0x60, 0x45,
        0x71, 0x00, 0x00, 0x00, 0x00, 0x00, 0xB0, 0x9A, 0xC0, 0xD0, 0xE0, 0xF0,
    };
    CHECK(twin_fault(&s, 0x1152), 0);
    CHECK(twin_window_write(&s, TWIN_ASSRREQ, 0xF, 0x00060006), 0);
    CHECK(twin_mirror_update(&s, TWIN_MTOUUD, 0xFFF00001, 0x45600001), 0);
    CHECK(twin_mirror_update(&s, TWIN_MTOUUD_HIGH, 0x7F, 0x71), 0);
    CHECK(twin_mirror_update(&s, TWIN_MBDSM, 0xFFF00001, 0x9AB00000), 0);
    twin_add_cycles(&s, 0xF0E0D0C0);
    CHECK(memcmp(bytes + 264, window, sizeof window), 0);
}

static void access_examples(void)
{
    twin_state s = fresh();
    CHECK(read_dword(&s, 0x00), 0x01528086);
    CHECK(twin_guest_write(&s, 0x04, 0xF, 0xFFFFFFFF), 0);
    CHECK(read_dword(&s, 0x04), 0x00900407);
    twin_guest_write(&s, 0x10, 0xF, 0xFFFFFFFF);
    CHECK(read_dword(&s, 0x10), 0xFFC00004);
    twin_guest_write(&s, 0x18, 0xF, 0xFFFFFFFF);
    CHECK(read_dword(&s, 0x18), 0xF000000C);
    twin_guest_write(&s, 0x60, 0x4, 0x00060000);
    CHECK(read_dword(&s, 0x18), 0xE000000C);
    twin_guest_write(&s, 0x20, 0xF, 0xFFFFFFFF);
    CHECK(read_dword(&s, 0x20), 0x0000FFC1);
    twin_guest_write(&s, 0x7C, 0x8, 0x01000000);
    CHECK(read_dword(&s, 0x34), 0x000000D0);
    twin_guest_write(&s, 0xD4, 0x1, 1);
    CHECK(read_dword(&s, 0xD4), 0);
    twin_guest_write(&s, 0xD4, 0x1, 3);
    CHECK(read_dword(&s, 0xD4), 3);
    twin_guest_write(&s, 0xE8, 0x2, 0);
    twin_guest_write(&s, 0xE8, 0xF, 0x8001);
    CHECK(read_dword(&s, 0xE8), 1);

    s = fresh();
    twin_guest_write(&s, 0x60, 0x4, 0x00F40000);
    CHECK(twin_guest_read(&s, 0x60, 0x4).value, 0xFFF2FFFF);
    twin_guest_write(&s, 0x2C, 0x3, 0x1234);
    twin_guest_write(&s, 0xA8, 0x1, 1);
    twin_end_signal(&s);
    twin_guest_write(&s, 0x2C, 0x3, 0xFFFF);
    CHECK(twin_guest_read(&s, 0x2C, 0x3).value, 0xFFFF1234);
}

// A dword as it is read with these lanes: FF in those that aren't enabled.
static uint32_t in_lanes(uint32_t dword, uint32_t lanes)
{
    for (int lane = 0; lane < 4; lane++)
        if ((lanes >> lane & 1) == 0)
            dword |= (uint32_t)0xFF << 8 * lane;
    return dword;
}

// Every lanes, in every way to read.
static void read_lanes(void)
{
    static const struct {
        uint32_t offset, dword;
    } rows[] = { { 0x00, 0x01528086 }, { 0x04, 0x00900000 }, { 0x0C, 0x00000000 }, { 0x34, 0x00000090 }, { 0xFC, 0x44332211 } };
    twin_state s = fresh();
    twin_guest_write(&s, 0xFC, 0xF, 0x44332211);
    const twin_state before = s;
    for (size_t i = 0; i < sizeof rows / sizeof *rows; i++)
        for (uint32_t lanes = 0; lanes < 16; lanes++) {
            uint32_t wanted = in_lanes(rows[i].dword, lanes);
            CHECK(twin_read(&s, rows[i].offset, lanes), wanted);
            CHECK(twin_do(&s, TWIN_DO_READ, rows[i].offset, lanes, 0), wanted);
            CHECK(twin_guest_read(&s, rows[i].offset, lanes).number, 0);
            CHECK(twin_guest_read(&s, rows[i].offset, lanes).value, wanted);
        }
    CHECK(twin_guest_read(&s, 0xFC, 0x0).value, 0xFFFFFFFF);
    CHECK(twin_guest_read(&s, 0xFC, 0x2).value, 0xFFFF22FF);
    CHECK(twin_guest_read(&s, 0xFC, 0x9).value, 0x44FFFF11);
    CHECK(same(&s, &before), 1);
}

// The three ways to write.
enum { WAYS = 3 };

static uint64_t write_by(int way, twin_state *s, uint32_t offset, uint32_t lanes, uint32_t value)
{
    switch (way) {
    case 0: return twin_write(s, offset, lanes, value);
    case 1: return twin_write_by_value(s, offset, lanes, value);
    default: return twin_do(s, TWIN_DO_WRITE, offset, lanes, value);
    }
}

// The same example through each of them.
static void three_writes(void)
{
    for (int way = 0; way < WAYS; way++) {
        twin_state s = fresh();
        CHECK(write_by(way, &s, 0x2C, 0x1, 0x12), 0);
        CHECK(write_by(way, &s, 0x2C, 0x1, 0x34), 0);
        CHECK(read_dword(&s, 0x2C), 0x12);
    }
}

static void host_updates(void)
{
    twin_state s = fresh();
    CHECK(twin_host_update(&s, 0x02, 0x0F, 0xFA), 0);
    CHECK(read_dword(&s, 0x00), 0x015A8086);
    CHECK(twin_host_update(&s, 0x00, 0x01, 0x01), TWIN_NOT_HOST);
    CHECK(twin_host_update(&s, 0x00, 0x00, 0xFF), 0);
    CHECK(twin_host_update(&s, 0x100, 0x00, 0x00), TWIN_OFFSET);
}

static void ports(void)
{
    twin_state s = fresh();
    CHECK(twin_port_read(&s, 0xCFC, 4).number, TWIN_NOT_OURS);
    CHECK(twin_port_write(&s, 0xCF8, 4, 0x80001000), 0);
    CHECK(twin_port_read(&s, 0xCF8, 4).value, 0x80001000);
    CHECK(twin_port_read(&s, 0xCFE, 2).number, 0);
    CHECK(twin_port_read(&s, 0xCFE, 2).value, 0x0152);
    CHECK(twin_port_read(&s, 0xCFF, 2).number, TWIN_NOT_OURS);
    CHECK(twin_port_read(&s, 0xCFC, 3).number, TWIN_WIDTH);
    CHECK(twin_port_write(&s, 0xCF8, 4, 0x80000000), 0);
    CHECK(twin_port_write(&s, 0xCFC, 4, 0), TWIN_OTHER_FUNCTION);
    twin_port_write(&s, 0xCF8, 4, 0x8000102C);
    CHECK(twin_port_write(&s, 0xCFE, 2, 0xFFFF5678), 0);
    CHECK(read_dword(&s, 0x2C), 0x56780000);
    CHECK(s.closed.svid2, 0);
    CHECK(s.closed.sid2, 1);
}

// Every width at every place of the dword, idle and busy: 0 above the width, and refused where it passes the dword's end.
static void port_widths(uint8_t busy)
{
    static const struct {
        uint16_t port;
        uint32_t width, number, idle, busy;
    } rows[] = {
        { 0xCFC, 1, 0, 0x11, 0xFF }, { 0xCFD, 1, 0, 0x22, 0xFF }, { 0xCFE, 1, 0, 0x33, 0xFF }, { 0xCFF, 1, 0, 0x44, 0xFF },
        { 0xCFC, 2, 0, 0x2211, 0xFFFF }, { 0xCFD, 2, 0, 0x3322, 0xFFFF }, { 0xCFE, 2, 0, 0x4433, 0xFFFF }, { 0xCFF, 2, TWIN_NOT_OURS, 0, 0 },
        { 0xCFC, 4, 0, 0x44332211, 0xFFFFFFFF }, { 0xCFD, 4, TWIN_NOT_OURS, 0, 0 }, { 0xCFE, 4, TWIN_NOT_OURS, 0, 0 }, { 0xCFF, 4, TWIN_NOT_OURS, 0, 0 },
    };
    twin_state s = fresh();
    twin_guest_write(&s, 0xFC, 0xF, 0x44332211);
    twin_port_write(&s, 0xCF8, 4, 0x800010FC);
    s.busy = busy;
    const twin_state before = s;
    for (size_t i = 0; i < sizeof rows / sizeof *rows; i++) {
        uint32_t wanted = busy ? rows[i].busy : rows[i].idle;
        CHECK(twin_port_read(&s, rows[i].port, rows[i].width).number, rows[i].number);
        CHECK(twin_port_read(&s, rows[i].port, rows[i].width).value, wanted);
        CHECK(twin_do(&s, TWIN_DO_PORT_READ, rows[i].port, rows[i].width, 0), (uint64_t)rows[i].number << 48 | wanted);
    }
    CHECK(twin_port_read(&s, 0xCF8, 4).value, 0x800010FC);
    CHECK(same(&s, &before), 1);
}

static void claims(void)
{
    twin_state s = fresh();
    CHECK(twin_claim_memory(&s, 0).window, TWIN_UNCLAIMED);
    twin_guest_write(&s, 0x04, 0x1, 0x03);
    twin_guest_write(&s, 0x10, 0xF, 0x00400000);
    twin_guest_write(&s, 0x14, 0xF, 0x00000012);
    twin_guest_write(&s, 0x18, 0xF, 0xF0000000);
    twin_guest_write(&s, 0x1C, 0xF, 0xFFFFFFFF);
    twin_guest_write(&s, 0x20, 0xF, 0x0000E040);
    twin_claim c = twin_claim_memory(&s, 0x00000012007FFFFFu);
    CHECK(c.window, TWIN_TRANSLATION);
    CHECK(c.offset, 0x003FFFFF);
    CHECK(twin_claim_memory(&s, 0x0000001200800000u).window, TWIN_UNCLAIMED);
    c = twin_claim_memory(&s, 0xFFFFFFFFFFFFFFFFu); // the top of memory, 256 MB
    CHECK(c.window, TWIN_APERTURE);
    CHECK(c.offset, 0x0FFFFFFF);
    c = twin_claim_port(&s, 0xE07F);
    CHECK(c.window, TWIN_IO);
    CHECK(c.offset, 0x3F);
    c = twin_claim_port(&s, 0xE080);
    CHECK(c.window, TWIN_UNCLAIMED);
    CHECK(c.offset, 0);
    twin_guest_write(&s, 0xD4, 0x1, 3);
    CHECK(twin_claim_port(&s, 0xE07F).window, TWIN_UNCLAIMED);
}

static void probes(void)
{
    twin_range r = twin_size_probe(0xF000000C, 0xFFFFFFFF);
    CHECK(r.number, 0);
    CHECK(r.kind, TWIN_KIND_MEMORY64);
    CHECK(r.exponent, 28);
    r = twin_size_probe(0x0000FFC1, 0);
    CHECK(r.kind, TWIN_KIND_IO);
    CHECK(r.exponent, 6);
    r = twin_size_probe(0xFFFFFFF0, 0);
    CHECK(r.kind, TWIN_KIND_MEMORY32);
    CHECK(r.exponent, 4);
    r = twin_size_probe(0xFFFFFFF2, 0xFFFFFFFF);
    CHECK(r.number, TWIN_NO_RANGE);
    CHECK(r.kind, TWIN_NO_KIND);
    CHECK(r.exponent, 0);
}

static void walks(void)
{
    twin_state s = fresh();
    twin_item i = twin_find(&s, 0x13);
    CHECK(i.number, 0);
    CHECK(i.found, true);
    CHECK(i.offset, 0xA4);
    CHECK(i.count, 3);
    i = twin_find(&s, 0x10);
    CHECK(i.number, 0);
    CHECK(i.found, false);
    CHECK(i.offset, 0);
    CHECK(i.count, 3);

    // the image has the computed pointer, the record its default
    uint8_t image[256];
    twin_guest_write(&s, 0x7C, 0x8, 0x01000000);
    twin_image(&s, image);
    CHECK(image[0x34], 0xD0);
    CHECK(s.bytes[0x34], 0x90);
    CHECK(image[0xFF], 0);
    CHECK(image[0x91], 0xD0);
    i = twin_find_in(image, 256, 0x05);
    CHECK(i.found, false);
    CHECK(i.count, 2);

    // a pointer below 40h, an endless list, and another length
    image[0xA5] = 0x3F;
    i = twin_find_in(image, 256, 0x77);
    CHECK(i.number, TWIN_POINTER);
    CHECK(i.found, false);
    CHECK(i.count, 2);
    image[0xA5] = 0xD0;
    i = twin_find_in(image, 256, 0x77);
    CHECK(i.number, TWIN_ENDLESS);
    CHECK(i.offset, 0);
    CHECK(i.count, 48);
    i = twin_find_in(image, 255, 0x01);
    CHECK(i.number, TWIN_LENGTH);
    CHECK(i.count, 0);
}

// ---- the function reset

// Every bit is 1 that a guest or the host can make so, but AFCTL's; every field is closed, and the latch names AFCTL.
static twin_state used(void)
{
    twin_state s = fresh();
    twin_fault(&s, 0x77FE);
    twin_window_write(&s, TWIN_ASSRREQ, 0xF, 0xFFFFFFFF);
    twin_mirror_update(&s, TWIN_MTOUUD, 0xFFF00001, 0xFFFFFFFF);
    twin_mirror_update(&s, TWIN_MTOUUD_HIGH, 0x7F, 0xFFFFFFFF);
    twin_mirror_update(&s, TWIN_MBDSM, 0xFFF00001, 0xFFFFFFFF);
    twin_add_cycles(&s, 0xFFFFFFFF);
    for (uint32_t offset = 0; offset < 256; offset += 4)
        if (offset != 0xA8)
            twin_guest_write(&s, offset, 0xF, 0xFFFFFFFF);
    for (uint32_t at = 0; at < 256; at++)
        for (int place = 0; place < 8; place++)
            twin_host_update(&s, at, (uint8_t)(1 << place), 0xFF);
    twin_port_write(&s, 0xCF8, 4, 0x800010A8);
    return s;
}

// That state with a function reset that runs.
static twin_state used_and_busy(uint8_t busy)
{
    twin_state s = used();
    s.busy = busy;
    return s;
}

// A start changes the busy byte alone, in every way to write.
static void starts(void)
{
    for (int way = 0; way <= WAYS; way++) {
        twin_state s = used(), wanted = s;
        wanted.busy = 1;
        if (way < WAYS)
            CHECK(write_by(way, &s, 0xA8, 0x1, 1), 0);
        else
            CHECK(twin_port_write(&s, 0xCFC, 1, 1), 0);
        CHECK(same(&s, &wanted), 1);
    }

    static const struct {
        uint32_t lanes, value;
        uint8_t busy;
    } rows[] = { { 0x0, 1, 0 }, { 0xE, 0xFFFFFFFF, 0 }, { 0xF, 0xFFFFFFFE, 0 }, { 0x1, 0, 0 }, { 0x1, 0xFFFFFFFF, 1 }, { 0xF, 1, 1 } };
    for (size_t i = 0; i < sizeof rows / sizeof *rows; i++)
        for (int way = 0; way < WAYS; way++) {
            twin_state s = used(), wanted = s;
            wanted.busy = rows[i].busy;
            CHECK(write_by(way, &s, 0xA8, rows[i].lanes, rows[i].value), 0);
            CHECK(same(&s, &wanted), 1);
        }
}

// What each dword reads before the start and after the end; dwords that are not listed read 0.
static void ends(void)
{
    static const struct {
        uint32_t offset, before, after;
    } rows[] = {
        { 0x00, 0xFFFF8086, 0xFFFF8086 }, { 0x04, 0x00980407, 0x00980000 }, { 0x08, 0xFFFF00FF, 0xFFFF00FF },
        { 0x10, 0xFFC00004, 0x00000004 }, { 0x14, 0xFFFFFFFF, 0x00000000 }, { 0x18, 0xE000000C, 0x0000000C },
        { 0x1C, 0xFFFFFFFF, 0x00000000 }, { 0x20, 0x0000FFC1, 0x00000001 }, { 0x2C, 0xFFFFFFFF, 0xFFFFFFFF },
        { 0x34, 0x000000D0, 0x000000D0 }, { 0x3C, 0x000001FF, 0x000001FF }, { 0x40, 0x010C0009, 0x010C0009 },
        { 0x44, 0xFFFFFFFF, 0xFFFFFFFF }, { 0x48, 0xFFFFFFFF, 0xFFFFFFFF }, { 0x50, 0x0000FFFF, 0x0000FFFF },
        { 0x54, 0xFFFFFFFF, 0xFFFFFFFF }, { 0x5C, 0xFFFFFFFF, 0xFFFFFFFF }, { 0x60, 0x01F6FFFF, 0x01F60000 },
        { 0x7C, 0x01000000, 0x01000000 }, { 0x90, 0x0071D005, 0x0000D005 }, { 0x94, 0xFFFFFFFC, 0x00000000 },
        { 0x98, 0x0000FFFF, 0x00000000 }, { 0xA4, 0x03060013, 0x03060013 }, { 0xD0, 0x0022A401, 0x0022A401 },
        { 0xD4, 0x00000003, 0x00000000 }, { 0xE0, 0x0000FFFF, 0x0000FFFF }, { 0xE4, 0xFFFFFFFF, 0xFFFFFFFF },
        { 0xE8, 0x0000FFFF, 0x0000FFFF }, { 0xFC, 0xFFFFFFFF, 0xFFFFFFFF },
    };
    static const uint8_t busy[] = { 1, 7, 0x80, 0xFF };
    for (size_t i = 0; i < sizeof busy; i++) {
        twin_state s = used_and_busy(busy[i]), door = s;
        twin_end_signal(&s);
        CHECK(twin_do(&door, TWIN_DO_END_SIGNAL, 0xFFFFFFFF, 0x12345678, 0x9ABCDEF0), 0);
        CHECK(same(&s, &door), 1);
        twin_state before = used();
        for (uint32_t offset = 0, row = 0; offset < 256; offset += 4) {
            bool listed = row < sizeof rows / sizeof *rows && rows[row].offset == offset;
            CHECK(read_dword(&before, offset), listed ? rows[row].before : 0);
            CHECK(read_dword(&s, offset), listed ? rows[row].after : 0);
            row += listed;
        }
        CHECK(s.latch, 0x800010A8);
        CHECK(s.closed.svid2 + s.closed.sid2 + s.closed.swsci15, 3);
        CHECK(s.busy, 0);
        static const twin_registers window = { 0x000077FF, 0x0000000F, 0xFFF00001, 0x0000007F, 0xFFF00001, 0xFFFFFFFF };
        CHECK(memcmp(&s.window, &window, sizeof window), 0);
        twin_state again = s; // not busy: nothing changes
        twin_end_signal(&s);
        CHECK(same(&s, &again), 1);
    }

    // where no reset runs, F bits and a foreign AFCTL bit stay; an end clears that bit and no other of its byte
    twin_state s = used();
    s.bytes[0xA8] = 0xFF;
    twin_state before = s;
    CHECK(twin_do(&s, TWIN_DO_END_SIGNAL, 0, 0, 0), 0);
    CHECK(same(&s, &before), 1);
    CHECK(twin_guest_write(&s, 0xA8, 0x1, 1), 0);
    CHECK(s.bytes[0xA8], 0xFF);
    twin_end_signal(&s);
    CHECK(s.bytes[0xA8], 0xFE);

    // a platform reset ends it too
    const twin_state none = fresh();
    s = used_and_busy(7);
    twin_platform_reset(&s);
    CHECK(same(&s, &none), 1);
    s = used_and_busy(1);
    CHECK(twin_do(&s, TWIN_DO_PLATFORM_RESET, 0, 0, 0), 0);
    CHECK(same(&s, &none), 1);
}

// Reads of a busy function: ones in every lane, whatever it holds and whatever lanes are enabled.
static void busy_reads(uint8_t busy)
{
    twin_state s = used_and_busy(busy);
    memset(s.bytes, 0, sizeof s.bytes);
    const twin_state before = s;
    for (uint32_t offset = 0; offset < 256; offset += 4)
        for (uint32_t lanes = 0; lanes < 16; lanes++) {
            CHECK(twin_read(&s, offset, lanes), 0xFFFFFFFF);
            CHECK(twin_do(&s, TWIN_DO_READ, offset, lanes, 0), 0xFFFFFFFF);
        }
    CHECK(twin_guest_read(&s, 0xA8, 0x1).number, 0);
    CHECK(twin_guest_read(&s, 0xA8, 0x1).value, 0xFFFFFFFF);
    CHECK(twin_port_read(&s, 0xCFC, 4).value, 0xFFFFFFFF);
    CHECK(twin_port_read(&s, 0xCFC, 2).value, 0xFFFF);
    CHECK(twin_port_read(&s, 0xCFF, 1).value, 0xFF);
    CHECK(twin_port_read(&s, 0xCF8, 4).value, 0x800010A8);

    uint8_t image[256], ones[256];
    memset(ones, 0xFF, sizeof ones);
    twin_image(&s, image);
    CHECK(memcmp(image, ones, sizeof ones), 0);
    twin_item i = twin_find(&s, 0x13); // FF leads to FC, which leads to itself
    CHECK(i.number, TWIN_ENDLESS);
    CHECK(i.found, false);
    CHECK(i.offset, 0);
    CHECK(i.count, 48);
    i = twin_find(&s, 0xFF);
    CHECK(i.number, 0);
    CHECK(i.found, true);
    CHECK(i.offset, 0xFC);
    CHECK(i.count, 1);
    CHECK(twin_do(&s, TWIN_DO_WALK, 0x05, 0, 0), (uint64_t)TWIN_ENDLESS << 48 | 48);
    CHECK(same(&s, &before), 1);
}

// Guest writes to a busy function: accepted, and every byte of the record stays, the busy byte too.
static void busy_writes(uint8_t busy)
{
    static const uint32_t values[] = { 0, 1, 0x5A5A5A5A, 0xFFFFFFFF };
    twin_state s = used_and_busy(busy);
    memset(&s.closed, 0, sizeof s.closed);
    const twin_state before = s;
    for (uint32_t offset = 0; offset < 256; offset += 4)
        for (size_t i = 0; i < sizeof values / sizeof *values; i++) {
            for (int way = 0; way < WAYS; way++) {
                CHECK(write_by(way, &s, offset, 0xF, values[i]), 0);
                CHECK(write_by(way, &s, offset, 0x1, values[i]), 0);
            }
            CHECK(same(&s, &before), 1);

            twin_state wanted = before; // the same through the port pair, whose latch is stored
            wanted.latch = 0x80001000 | offset;
            CHECK(twin_port_write(&s, 0xCF8, 4, wanted.latch), 0);
            CHECK(twin_port_write(&s, 0xCFC, 4, values[i]), 0);
            CHECK(twin_port_write(&s, 0xCFE, 2, values[i]), 0);
            CHECK(twin_do(&s, TWIN_DO_PORT_WRITE, 0xCFC, 1, values[i]), 0);
            CHECK(same(&s, &wanted), 1);
            s = before;
        }

    // a dropped write closes nothing: the first one behind the end does
    s = fresh();
    twin_guest_write(&s, 0xA8, 0x1, 1);
    CHECK(twin_guest_write(&s, 0x2C, 0xF, 0x11111111), 0);
    CHECK(twin_guest_write(&s, 0xE8, 0xF, 0x0000FFFF), 0);
    twin_end_signal(&s);
    CHECK(s.closed.svid2 + s.closed.sid2 + s.closed.swsci15, 0);
    CHECK(read_dword(&s, 0x2C), 0);
    CHECK(read_dword(&s, 0xE8), 0);
    twin_guest_write(&s, 0x2C, 0x3, 0x1234);
    twin_guest_write(&s, 0x2C, 0x3, 0xFFFF);
    CHECK(read_dword(&s, 0x2C), 0x1234);
}

// The host's updates and the latch work on a busy function, and leave the busy byte.
static void busy_host(uint8_t busy)
{
    twin_state s = used_and_busy(busy), wanted = s;
    CHECK(twin_host_update(&s, 0x08, 0x0F, 0xA5), 0);
    wanted.bytes[0x08] = 0xF5;
    CHECK(same(&s, &wanted), 1);
    CHECK(twin_do(&s, TWIN_DO_HOST_UPDATE, 0x5C, 0xFF, 0x42), 0);
    wanted.bytes[0x5C] = 0x42;
    CHECK(same(&s, &wanted), 1);
    CHECK(twin_port_write(&s, 0xCF8, 4, 0xFFFFFFFF), 0);
    wanted.latch = 0x80FFFFFC;
    CHECK(same(&s, &wanted), 1);
    CHECK(twin_port_read(&s, 0xCF8, 4).value, 0x80FFFFFC);
    twin_end_signal(&s);
    CHECK(twin_guest_read(&s, 0x08, 0x1).value, 0xFFFFFFF5);
    CHECK(twin_guest_read(&s, 0x5C, 0x1).value, 0xFFFFFF42);
    CHECK(s.latch, 0x80FFFFFC);
}

// A busy function claims nothing, though its windows stand as they did.
static void busy_claims(uint8_t busy)
{
    twin_state s = fresh();
    twin_guest_write(&s, 0x04, 0x1, 0x03);
    twin_guest_write(&s, 0x10, 0xF, 0x00400000);
    twin_guest_write(&s, 0x18, 0xF, 0xF0000000);
    twin_guest_write(&s, 0x20, 0xF, 0x0000E040);
    for (int round = 0; round < 2; round++) {
        s.busy = 0;
        CHECK(twin_claim_memory(&s, 0x00400123).window, TWIN_TRANSLATION);
        CHECK(twin_claim_memory(&s, 0xF0000123).window, TWIN_APERTURE);
        CHECK(twin_claim_port(&s, 0xE041).window, TWIN_IO);
        s.busy = busy;
        const twin_state before = s;
        CHECK(twin_claim_memory(&s, 0x00400123).window, TWIN_UNCLAIMED);
        CHECK(twin_claim_memory(&s, 0x00400123).offset, 0);
        CHECK(twin_do(&s, TWIN_DO_CLAIM_MEMORY, 0xF0000123, 0, 0), 0);
        CHECK(twin_do(&s, TWIN_DO_CLAIM_MEMORY, 0xFFFFFFFF, 0xFFFFFFFF, 0), 0);
        CHECK(twin_claim_port(&s, 0xE041).window, TWIN_UNCLAIMED);
        CHECK(twin_do(&s, TWIN_DO_CLAIM_PORT, 0xE041, 0, 0), 0);
        CHECK(twin_do(&s, TWIN_DO_CLAIM_PORT, 0xFFFF, 0, 0), 0);
        CHECK(same(&s, &before), 1);
    }
    twin_end_signal(&s); // PCICMD2 is 0 now
    CHECK(twin_claim_memory(&s, 0x00400123).window, TWIN_UNCLAIMED);
    CHECK(twin_claim_port(&s, 0xE041).window, TWIN_UNCLAIMED);
    CHECK(twin_size_probe(0xF000000C, 0xFFFFFFFF).exponent, 28); // no state has a say here
}

// ---- the window

// Where a record holds the register at an offset; null where there is none.
static uint32_t *register_at(twin_state *s, uint32_t offset)
{
    switch (offset) {
    case 0x04094: return &s->window.fault;
    case 0x0810C: return &s->window.assrreq;
    case 0x108080: return &s->window.mtouud;
    case 0x108084: return &s->window.mtouud_high;
    case 0x1080C0: return &s->window.mbdsm;
    case 0x138078: return &s->window.cycles;
    default: return NULL;
    }
}

// A state whose register at that offset holds a number, and whose others hold something of foreign making.
static twin_state holding(uint32_t offset, uint32_t number, uint8_t busy)
{
    twin_state s = fresh();
    s.busy = busy;
    memset(&s.window, 0xA5, sizeof s.window);
    if (register_at(&s, offset) != NULL)
        *register_at(&s, offset) = number;
    return s;
}

// What each register reads with every lanes, and dwords that are none, beside a register or with an offset that shares bits with one.
static void window_reads(uint8_t busy)
{
    static const struct {
        uint32_t offset, held, shown;
    } rows[] = {
        { 0x04094, 0x00000000, 0x00000000 }, { 0x04094, 0x00001153, 0x00001153 }, { 0x04094, 0xFFFFFFFF, 0xFFFFFFFF },
        { 0x0810C, 0x0000000A, 0x0000000A }, { 0x0810C, 0x12345678, 0x00005678 }, { 0x0810C, 0xFFFFFFFF, 0x0000FFFF },
        { 0x108080, 0x45600001, 0x45600001 }, { 0x108080, 0xFFFFFFFF, 0xFFFFFFFF }, { 0x108084, 0x00000071, 0x00000071 },
        { 0x108084, 0xFFFFFFFF, 0xFFFFFFFF }, { 0x1080C0, 0x9AB00000, 0x9AB00000 }, { 0x1080C0, 0xFFFFFFFF, 0xFFFFFFFF },
        { 0x138078, 0x00000000, 0x00000000 }, { 0x138078, 0x44332211, 0x44332211 }, { 0x000000, 0, 0 }, { 0x04090, 0, 0 },
        { 0x04098, 0, 0 }, { 0x08108, 0, 0 }, { 0x08110, 0, 0 }, { 0x10807C, 0, 0 }, { 0x108088, 0, 0 }, { 0x1080BC, 0, 0 },
        { 0x1080C4, 0, 0 }, { 0x138074, 0, 0 }, { 0x13807C, 0, 0 }, { 0x08080, 0, 0 }, { 0x38078, 0, 0 }, { 0x10810C, 0, 0 },
        { 0x20810C, 0, 0 }, { 0x308080, 0, 0 }, { 0x3FFFFC, 0, 0 },
    };
    for (size_t i = 0; i < sizeof rows / sizeof *rows; i++) {
        twin_state s = holding(rows[i].offset, rows[i].held, busy);
        const twin_state before = s;
        for (uint32_t lanes = 0; lanes < 16; lanes++) {
            uint32_t wanted = busy ? 0xFFFFFFFF : in_lanes(rows[i].shown, lanes);
            CHECK(twin_window_read(&s, rows[i].offset, lanes).number, 0);
            CHECK(twin_window_read(&s, rows[i].offset, lanes).value, wanted);
            CHECK(twin_do(&s, TWIN_DO_WINDOW_READ, rows[i].offset, lanes, 0x12345678), wanted);
        }
        CHECK(same(&s, &before), 1);
    }
}

// The typed function of an operation that changes the window.
static uint32_t typed(twin_state *s, uint32_t op, uint32_t a, uint32_t b, uint32_t c)
{
    switch (op) {
    case TWIN_DO_WINDOW_WRITE: return twin_window_write(s, a, b, c);
    case TWIN_DO_COMPLETE: return twin_complete(s, a);
    case TWIN_DO_FAULT: return twin_fault(s, a);
    case TWIN_DO_ADD_CYCLES: twin_add_cycles(s, a); return 0;
    default: return twin_mirror_update(s, a, b, c);
    }
}

// What each operation makes of a register, through the door and typed; every other byte of the record stays. A busy function drops what the guest writes, and hears its host.
static void window_changes(uint8_t busy)
{
    static const struct {
        uint32_t op, a, b, c, number;
        uint32_t offset, before, after;
    } rows[] = {
        // ASSRREQ: value and mask, both lanes
        { TWIN_DO_WINDOW_WRITE, 0x0810C, 0xF, 0x000F000F, 0, 0x0810C, 0x0, 0xF },
        { TWIN_DO_WINDOW_WRITE, 0x0810C, 0x5, 0x00020002, 0, 0x0810C, 0x0, 0x2 },
        { TWIN_DO_WINDOW_WRITE, 0x0810C, 0x7, 0xFFFFFFFF, 0, 0x0810C, 0x0, 0xF },
        { TWIN_DO_WINDOW_WRITE, 0x0810C, 0xD, 0x000A000C, 0, 0x0810C, 0x1, 0x9 },
        { TWIN_DO_WINDOW_WRITE, 0x0810C, 0xF, 0x40014001, 0, 0x0810C, 0x0, 0x1 },
        { TWIN_DO_WINDOW_WRITE, 0x0810C, 0xF, 0x0000000F, 0, 0x0810C, 0x0, 0x0 },
        { TWIN_DO_WINDOW_WRITE, 0x0810C, 0xF, 0x000F0000, 0, 0x0810C, 0x0, 0x0 },
        { TWIN_DO_WINDOW_WRITE, 0x0810C, 0xF, 0x00010002, 0, 0x0810C, 0x0, 0x0 },
        { TWIN_DO_WINDOW_WRITE, 0x0810C, 0xF, 0xFFF0FFF0, 0, 0x0810C, 0x0, 0x0 },
        { TWIN_DO_WINDOW_WRITE, 0x0810C, 0x0, 0xFFFFFFFF, 0, 0x0810C, 0x0, 0x0 },
        { TWIN_DO_WINDOW_WRITE, 0x0810C, 0x1, 0xFFFFFFFF, 0, 0x0810C, 0x0, 0x0 },
        { TWIN_DO_WINDOW_WRITE, 0x0810C, 0x4, 0xFFFFFFFF, 0, 0x0810C, 0x0, 0x0 },
        { TWIN_DO_WINDOW_WRITE, 0x0810C, 0xB, 0xFFFFFFFF, 0, 0x0810C, 0x0, 0x0 },
        { TWIN_DO_WINDOW_WRITE, 0x0810C, 0xE, 0xFFFFFFFF, 0, 0x0810C, 0x0, 0x0 },
        { TWIN_DO_WINDOW_WRITE, 0x0810C, 0xF, 0x00000000, 0, 0x0810C, 0xA, 0xA },
        { TWIN_DO_WINDOW_WRITE, 0x0810C, 0xF, 0x000F0000, 0, 0x0810C, 0xF, 0xF },
        { TWIN_DO_WINDOW_WRITE, 0x0810C, 0xF, 0xFFFFFFFF, 0, 0x0810C, 0x12345670, 0x1234567F },
        // the host's completion
        { TWIN_DO_COMPLETE, 0x0, 0xFFFFFFFF, 0xFFFFFFFF, 0, 0x0810C, 0xF, 0xF },
        { TWIN_DO_COMPLETE, 0x2, 0x12345678, 0x9ABCDEF0, 0, 0x0810C, 0xF, 0xD },
        { TWIN_DO_COMPLETE, 0x5, 0, 0, 0, 0x0810C, 0xA, 0xA },
        { TWIN_DO_COMPLETE, 0xF, 0, 0, 0, 0x0810C, 0xFFFFFFFF, 0xFFFFFFF0 },
        { TWIN_DO_COMPLETE, 0x10, 0, 0, 7, 0x0810C, 0xF, 0xF },
        { TWIN_DO_COMPLETE, 0x10001, 0, 0, 7, 0x0810C, 0xF, 0xF },
        { TWIN_DO_COMPLETE, 0xFFFFFFFF, 0, 0, 7, 0x0810C, 0xFFFFFFFF, 0xFFFFFFFF },
        // FAULT_REG: the first fault is held, until the guest clears it
        { TWIN_DO_FAULT, 0x0000, 0xFFFFFFFF, 0xFFFFFFFF, 0, 0x04094, 0x0000, 0x0001 },
        { TWIN_DO_FAULT, 0x1152, 0x12345678, 0x9ABCDEF0, 0, 0x04094, 0x0000, 0x1153 },
        { TWIN_DO_FAULT, 0x77FE, 0, 0, 0, 0x04094, 0x0000, 0x77FF },
        { TWIN_DO_FAULT, 0x4008, 0, 0, 0, 0x04094, 0x1153, 0x1153 },
        { TWIN_DO_FAULT, 0x0000, 0, 0, 0, 0x04094, 0xFFFFFFFF, 0xFFFFFFFF },
        { TWIN_DO_FAULT, 0x1152, 0, 0, 0, 0x04094, 0xFFFFFFFE, 0x1153 },
        { TWIN_DO_FAULT, 0x0001, 0, 0, 7, 0x04094, 0x0000, 0x0000 },
        { TWIN_DO_FAULT, 0x0800, 0, 0, 7, 0x04094, 0x0000, 0x0000 },
        { TWIN_DO_FAULT, 0x8000, 0, 0, 7, 0x04094, 0x0000, 0x0000 },
        { TWIN_DO_FAULT, 0x11152, 0, 0, 7, 0x04094, 0x4009, 0x4009 },
        { TWIN_DO_FAULT, 0xFFFFFFFF, 0, 0, 7, 0x04094, 0x0000, 0x0000 },
        { TWIN_DO_WINDOW_WRITE, 0x04094, 0x1, 0x00000000, 0, 0x04094, 0x1153, 0x0000 },
        { TWIN_DO_WINDOW_WRITE, 0x04094, 0xF, 0xFFFFFFFE, 0, 0x04094, 0xFFFFFFFF, 0x0000 },
        { TWIN_DO_WINDOW_WRITE, 0x04094, 0x9, 0x00000000, 0, 0x04094, 0xFFFFFFFE, 0x0000 },
        { TWIN_DO_WINDOW_WRITE, 0x04094, 0x1, 0x00000001, 0, 0x04094, 0x1153, 0x1153 },
        { TWIN_DO_WINDOW_WRITE, 0x04094, 0xF, 0xFFFFFFFF, 0, 0x04094, 0x0000, 0x0000 },
        { TWIN_DO_WINDOW_WRITE, 0x04094, 0xE, 0x00000000, 0, 0x04094, 0x1153, 0x1153 },
        { TWIN_DO_WINDOW_WRITE, 0x04094, 0x0, 0x00000000, 0, 0x04094, 0x1153, 0x1153 },
        // the sum wraps
        { TWIN_DO_ADD_CYCLES, 0x00000000, 0xFFFFFFFF, 0xFFFFFFFF, 0, 0x138078, 0x00000005, 0x00000005 },
        { TWIN_DO_ADD_CYCLES, 0x10000001, 0x12345678, 0x9ABCDEF0, 0, 0x138078, 0x00000005, 0x10000006 },
        { TWIN_DO_ADD_CYCLES, 0x00000001, 0, 0, 0, 0x138078, 0xFFFFFFFF, 0x00000000 },
        { TWIN_DO_ADD_CYCLES, 0xFFFFFFFF, 0, 0, 0, 0x138078, 0xFFFFFFFF, 0xFFFFFFFE },
        { TWIN_DO_ADD_CYCLES, 0x80000000, 0, 0, 0, 0x138078, 0x80000003, 0x00000003 },
        { TWIN_DO_WINDOW_WRITE, 0x138078, 0xF, 0x00000000, 0, 0x138078, 0x44332211, 0x44332211 },
        { TWIN_DO_WINDOW_WRITE, 0x138078, 0xF, 0xFFFFFFFF, 0, 0x138078, 0x44332211, 0x44332211 },
        // the mirrors, by the host alone
        { TWIN_DO_MIRROR_UPDATE, 0x108080, 0xFFF00001, 0x45600001, 0, 0x108080, 0x00000000, 0x45600001 },
        { TWIN_DO_MIRROR_UPDATE, 0x108080, 0x00100000, 0x00000000, 0, 0x108080, 0xFFFFFFFF, 0xFFEFFFFF },
        { TWIN_DO_MIRROR_UPDATE, 0x108080, 0x00000000, 0xFFFFFFFF, 0, 0x108080, 0x45600001, 0x45600001 },
        { TWIN_DO_MIRROR_UPDATE, 0x108080, 0x00080000, 0xFFFFFFFF, 7, 0x108080, 0x45600001, 0x45600001 },
        { TWIN_DO_MIRROR_UPDATE, 0x108080, 0xFFF00003, 0xFFFFFFFF, 7, 0x108080, 0x45600001, 0x45600001 },
        { TWIN_DO_MIRROR_UPDATE, 0x108084, 0x0000007F, 0xFFFFFFFF, 0, 0x108084, 0x00000000, 0x0000007F },
        { TWIN_DO_MIRROR_UPDATE, 0x108084, 0x00000041, 0x00000040, 0, 0x108084, 0xFFFFFF3F, 0xFFFFFF7E },
        { TWIN_DO_MIRROR_UPDATE, 0x108084, 0x00000080, 0x00000000, 7, 0x108084, 0x0000007F, 0x0000007F },
        { TWIN_DO_MIRROR_UPDATE, 0x108084, 0xFFF00001, 0x00000000, 7, 0x108084, 0x0000007F, 0x0000007F },
        { TWIN_DO_MIRROR_UPDATE, 0x1080C0, 0xFFF00001, 0x9AB00000, 0, 0x1080C0, 0xFFFFFFFF, 0x9ABFFFFE },
        { TWIN_DO_MIRROR_UPDATE, 0x1080C0, 0x00000001, 0xFFFFFFFF, 0, 0x1080C0, 0x00000000, 0x00000001 },
        { TWIN_DO_MIRROR_UPDATE, 0x1080C0, 0x0000007F, 0xFFFFFFFF, 7, 0x1080C0, 0x00000000, 0x00000000 },
        { TWIN_DO_WINDOW_WRITE, 0x108080, 0xF, 0x00000000, 0, 0x108080, 0x45600001, 0x45600001 },
        { TWIN_DO_WINDOW_WRITE, 0x108084, 0xF, 0xFFFFFFFF, 0, 0x108084, 0x00000000, 0x00000000 },
        { TWIN_DO_WINDOW_WRITE, 0x1080C0, 0xF, 0x00000000, 0, 0x1080C0, 0x9AB00001, 0x9AB00001 },
        // no mirror: a mask of 0 is accepted, any other is not; no register: a write is ignored
        { TWIN_DO_MIRROR_UPDATE, 0x04094, 0x00000000, 0xFFFFFFFF, 0, 0x04094, 0x1153, 0x1153 },
        { TWIN_DO_MIRROR_UPDATE, 0x04094, 0x00000002, 0xFFFFFFFF, 7, 0x04094, 0x1153, 0x1153 },
        { TWIN_DO_MIRROR_UPDATE, 0x0810C, 0x00000001, 0xFFFFFFFF, 7, 0x0810C, 0x0, 0x0 },
        { TWIN_DO_MIRROR_UPDATE, 0x138078, 0x00000001, 0xFFFFFFFF, 7, 0x138078, 0x0, 0x0 },
        { TWIN_DO_MIRROR_UPDATE, 0x000000, 0x00000000, 0xFFFFFFFF, 0, 0, 0, 0 },
        { TWIN_DO_MIRROR_UPDATE, 0x3FFFFC, 0x00000000, 0xFFFFFFFF, 0, 0, 0, 0 },
        { TWIN_DO_MIRROR_UPDATE, 0x108088, 0x00000001, 0xFFFFFFFF, 7, 0, 0, 0 },
        { TWIN_DO_WINDOW_WRITE, 0x000000, 0xF, 0xFFFFFFFF, 0, 0, 0, 0 },
        { TWIN_DO_WINDOW_WRITE, 0x08108, 0xF, 0xFFFFFFFF, 0, 0, 0, 0 },
        { TWIN_DO_WINDOW_WRITE, 0x08110, 0xF, 0xFFFFFFFF, 0, 0, 0, 0 },
        { TWIN_DO_WINDOW_WRITE, 0x04090, 0xF, 0x00000000, 0, 0, 0, 0 },
        { TWIN_DO_WINDOW_WRITE, 0x10810C, 0xF, 0xFFFFFFFF, 0, 0, 0, 0 },
        { TWIN_DO_WINDOW_WRITE, 0x3FFFFC, 0xF, 0xFFFFFFFF, 0, 0, 0, 0 },
    };
    for (size_t i = 0; i < sizeof rows / sizeof *rows; i++) {
        bool dropped = busy && rows[i].op == TWIN_DO_WINDOW_WRITE;
        const twin_state wanted = holding(rows[i].offset, dropped ? rows[i].before : rows[i].after, busy);
        twin_state s = holding(rows[i].offset, rows[i].before, busy);
        CHECK(typed(&s, rows[i].op, rows[i].a, rows[i].b, rows[i].c), rows[i].number);
        CHECK(same(&s, &wanted), 1);
        s = holding(rows[i].offset, rows[i].before, busy);
        CHECK(twin_do(&s, rows[i].op, rows[i].a, rows[i].b, rows[i].c), (uint64_t)rows[i].number << 48);
        CHECK(same(&s, &wanted), 1);
    }
}

// From a claimed address to a register: the offset that the claim gives is the window's.
static void claimed_registers(void)
{
    static const uint32_t registers[] = { TWIN_FAULT_REG, TWIN_ASSRREQ, TWIN_MTOUUD, TWIN_MTOUUD_HIGH, TWIN_MBDSM, TWIN_DRAM_CYCLES };
    const uint64_t base = 0x0000001200400000u;
    twin_state s = fresh();
    twin_guest_write(&s, 0x10, 0xF, (uint32_t)base);
    twin_guest_write(&s, 0x14, 0xF, (uint32_t)(base >> 32));
    CHECK(twin_claim_memory(&s, base + 0x0810C).window, TWIN_UNCLAIMED);
    twin_guest_write(&s, 0x04, 0x1, 0x02);

    twin_claim c = twin_claim_memory(&s, base + 0x0810C);
    CHECK(c.window, TWIN_TRANSLATION);
    CHECK(c.offset, 0x0810C);
    CHECK(twin_window_write(&s, c.offset, 0xF, 0x00020002), 0);
    CHECK(twin_window_read(&s, c.offset, 0xF).value, 0x00000002);
    CHECK(twin_complete(&s, 0x2), 0);
    CHECK(twin_window_read(&s, c.offset, 0xF).value, 0x00000000);
    c = twin_claim_memory(&s, base + 0x0810E); // inside the register's dword
    CHECK(c.window, TWIN_TRANSLATION);
    CHECK(twin_window_read(&s, c.offset, 0xF).number, TWIN_WINDOW_OFFSET);

    for (uint32_t i = 0; i < sizeof registers / sizeof *registers; i++)
        *register_at(&s, registers[i]) = 0x11 * (i + 1);
    for (uint32_t i = 0; i < sizeof registers / sizeof *registers; i++) {
        c = twin_claim_memory(&s, base + registers[i]);
        CHECK(c.window, TWIN_TRANSLATION);
        CHECK(twin_window_read(&s, c.offset, 0xF).value, 0x11 * (i + 1));
    }
    c = twin_claim_memory(&s, base + 0x3FFFFC); // the last dword
    CHECK(c.window, TWIN_TRANSLATION);
    CHECK(twin_window_read(&s, c.offset, 0xF).number, 0);
    CHECK(twin_window_read(&s, c.offset, 0xF).value, 0);
    CHECK(twin_claim_memory(&s, base + 0x400000).window, TWIN_UNCLAIMED);

    // a function reset takes the window's base, and leaves what the window holds
    twin_guest_write(&s, 0xA8, 0x1, 1);
    CHECK(twin_claim_memory(&s, base + 0x04094).window, TWIN_UNCLAIMED);
    CHECK(twin_window_read(&s, 0x04094, 0xF).value, 0xFFFFFFFF);
    twin_end_signal(&s);
    CHECK(twin_claim_memory(&s, base + 0x04094).window, TWIN_UNCLAIMED);
    CHECK(twin_window_read(&s, 0x04094, 0xF).value, 0x11);
    twin_platform_reset(&s);
    CHECK(twin_window_read(&s, 0x04094, 0xF).value, 0);
}

// ---- refusals

// Every way to be refused leaves every byte of the record, and nothing beside the number but the walk's count. A busy function refuses no other way.
static void refusals(uint8_t busy)
{
    static const struct {
        uint32_t op, a, b, c;
        uint64_t result;
    } rows[] = {
        { TWIN_DO_WRITE, 0x01, 0xF, 0, 5 }, { TWIN_DO_WRITE, 0x100, 0x10, 0, 5 }, { TWIN_DO_WRITE, 0x2C, 0x10, 0, 6 },
        { TWIN_DO_READ, 0x02, 0xF, 0, 5 }, { TWIN_DO_READ, 0xFFFFFFFC, 0xF, 0, 5 }, { TWIN_DO_READ, 0x00, 0xFFFFFFFF, 0, 6 },
        { TWIN_DO_READ, 0x03, 0x0, 0, 5 }, { TWIN_DO_READ, 0x100, 0x0, 0, 5 }, { TWIN_DO_READ, 0x00, 0x10, 0, 6 },
        { TWIN_DO_HOST_UPDATE, 0x100, 0xFF, 0, 5 }, { TWIN_DO_HOST_UPDATE, 0x2C, 0x01, 0, 7 }, { TWIN_DO_HOST_UPDATE, 0x34, 0x80, 0, 7 },
        { TWIN_DO_HOST_UPDATE, 0x100, 0x100, 0, 9 }, { TWIN_DO_HOST_UPDATE, 0x02, 0xFF, 0x100, 9 },
        { TWIN_DO_PORT_WRITE, 0xCFC, 3, 0, 2 }, { TWIN_DO_PORT_WRITE, 0xCF8, 2, 0, 3 }, { TWIN_DO_PORT_WRITE, 0x10CF8, 4, 0, 9 },
        { TWIN_DO_PORT_READ, 0xD00, 1, 0, 3 }, { TWIN_DO_PORT_READ, 0xCFC, 4, 0, 3 }, { TWIN_DO_PORT_READ, 0x10000, 4, 0, 9 },
        { TWIN_DO_CLAIM_PORT, 0x10000, 0, 0, 9 }, { TWIN_DO_PROBE, 2, 0, 0, 8 }, { TWIN_DO_WALK, 0x100, 0, 0, 9 },
        { TWIN_DO_WINDOW_WRITE, 0x400000, 0xF, 0, 16 }, { TWIN_DO_WINDOW_WRITE, 0x0810D, 0xF, 0, 16 }, { TWIN_DO_WINDOW_WRITE, 0x04096, 0x10, 0, 16 },
        { TWIN_DO_WINDOW_WRITE, 0x408094, 0x10, 0, 16 }, { TWIN_DO_WINDOW_WRITE, 0x04094, 0x10, 0, 6 }, { TWIN_DO_WINDOW_WRITE, 0x000000, 0xFFFFFFFF, 0, 6 },
        { TWIN_DO_WINDOW_READ, 0x400000, 0xF, 0, 16 }, { TWIN_DO_WINDOW_READ, 0xFFFFFFFC, 0x0, 0, 16 }, { TWIN_DO_WINDOW_READ, 0x3FFFFF, 0xF, 0, 16 },
        { TWIN_DO_WINDOW_READ, 0x8000810C, 0xF, 0, 16 }, { TWIN_DO_WINDOW_READ, 0x0810E, 0x10, 0, 16 }, { TWIN_DO_WINDOW_READ, 0x0810C, 0x10, 0, 6 },
        { TWIN_DO_COMPLETE, 0x10, 0, 0, 7 }, { TWIN_DO_COMPLETE, 0x8000000F, 0, 0, 7 }, { TWIN_DO_FAULT, 0x1, 0, 0, 7 }, { TWIN_DO_FAULT, 0x80001152, 0, 0, 7 },
        { TWIN_DO_MIRROR_UPDATE, 0x400000, 0, 0, 16 }, { TWIN_DO_MIRROR_UPDATE, 0x508080, 0x1, 0, 16 }, { TWIN_DO_MIRROR_UPDATE, 0x1080C2, 0xFFFFFFFF, 0, 16 },
        { TWIN_DO_MIRROR_UPDATE, 0x1080C0, 0x2, 0, 7 }, { TWIN_DO_MIRROR_UPDATE, 0x108084, 0x80, 0, 7 }, { TWIN_DO_MIRROR_UPDATE, 0x000000, 0x1, 0, 7 },
        { 17, 0, 0, 0, 9 }, { 18, 0, 0, 0, 9 }, { 0x100, 0, 0, 0, 9 }, { 0x10A, 0, 0, 0, 9 }, { 0x8000000A, 0, 0, 0, 9 }, { 0xFFFFFFFF, 0, 0, 0, 9 },
    };
    twin_state s = fresh();
    s.busy = busy;
    memset(&s.window, 0xA5, sizeof s.window);
    twin_state before = s;
    for (size_t i = 0; i < sizeof rows / sizeof *rows; i++) {
        CHECK(twin_do(&s, rows[i].op, rows[i].a, rows[i].b, rows[i].c), rows[i].result << 48);
        CHECK(same(&s, &before), 1);
    }
    CHECK(twin_write(&s, 0x2D, 0xF, 0), TWIN_OFFSET);
    CHECK(twin_write(&s, 0x2C, 0x10, 0), TWIN_LANES);
    CHECK(twin_write_by_value(&s, 0x2D, 0xF, 0), TWIN_OFFSET);
    CHECK(twin_write_by_value(&s, 0x2C, 0x10, 0), TWIN_LANES);
    for (uint32_t lanes = 0; lanes < 16; lanes++) {
        CHECK(twin_read(&s, 0x2D, lanes), (uint64_t)TWIN_OFFSET << 48);
        CHECK(twin_read(&s, 0x100, lanes), (uint64_t)TWIN_OFFSET << 48);
        CHECK(twin_read(&s, 0x2C, 0x10 | lanes), (uint64_t)TWIN_LANES << 48);
    }
    CHECK(twin_guest_read(&s, 0x2D, 0x0).number, TWIN_OFFSET);
    CHECK(twin_guest_read(&s, 0x2D, 0x0).value, 0);
    CHECK(twin_guest_read(&s, 0x2C, 0x10).number, TWIN_LANES);
    CHECK(twin_guest_read(&s, 0x2C, 0x10).value, 0);
    CHECK(twin_window_read(&s, 0x0810E, 0x0).number, TWIN_WINDOW_OFFSET);
    CHECK(twin_window_read(&s, 0x0810E, 0x0).value, 0);
    CHECK(twin_window_read(&s, 0x0810C, 0x10).number, TWIN_LANES);
    CHECK(twin_window_read(&s, 0x0810C, 0x10).value, 0);
    CHECK(twin_window_write(&s, 0x0810D, 0x10, 0xFFFFFFFF), TWIN_WINDOW_OFFSET);
    CHECK(twin_window_write(&s, 0x0810C, 0x10, 0xFFFFFFFF), TWIN_LANES);
    CHECK(twin_mirror_update(&s, 0x1080C1, 0x2, 0), TWIN_WINDOW_OFFSET);
    CHECK(twin_mirror_update(&s, 0x1080C0, 0x2, 0), TWIN_NOT_HOST);
    CHECK(same(&s, &before), 1);

    twin_port_write(&s, 0xCF8, 4, 0x80001100); // another function
    before = s;
    CHECK(twin_port_write(&s, 0xCFC, 4, 1), TWIN_OTHER_FUNCTION);
    CHECK(twin_port_read(&s, 0xCFC, 4).number, TWIN_OTHER_FUNCTION);
    CHECK(twin_port_read(&s, 0xCFC, 4).value, 0);
    CHECK(same(&s, &before), 1);
}

int main(void)
{
    layout();
    access_examples();
    read_lanes();
    three_writes();
    host_updates();
    ports();
    claims();
    probes();
    walks();
    starts();
    ends();
    claimed_registers();
    static const uint8_t busy[] = { 1, 7, 0xFF };
    for (size_t i = 0; i < sizeof busy; i++) {
        busy_reads(busy[i]);
        port_widths(busy[i]);
        busy_writes(busy[i]);
        busy_host(busy[i]);
        busy_claims(busy[i]);
        window_reads(busy[i]);
        window_changes(busy[i]);
        refusals(busy[i]);
    }
    port_widths(0);
    window_reads(0);
    window_changes(0);
    refusals(0);
    printf("%u checks, %u failed\n", checks, failures);
    return failures != 0;
}
