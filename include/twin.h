// The twin's library: one state record that the caller lends, updated where it lies, and every entry over it.
//
// C11 and C++11 or later, x86-64 Linux. 'tools/build lent' proves the library and writes the archive to link, target/staticlib/liblent.a; it needs memcpy and nothing else.
//
// Proved of the exported functions, for every argument and every record: they end, do nothing undefined, and answer by the rules. Outside the proofs, and the caller's duty:
// - a pointer is not null, leads to a whole record (or to as many bytes as the length says), and a record is aligned to 4 bytes, as the compiler places a twin_state;
// - one record is used by one thread at a time. Different records share nothing: any number of threads may each have their own. Functions that take a const record may run at once on one record while none changes it.
// The typed functions below are thin and in C: tested, not proved.
#ifndef TWIN_H
#define TWIN_H

#include <stddef.h>
#include <stdint.h>

#ifdef __cplusplus
#define TWIN_ASSERT(what, otherwise) static_assert(what, otherwise)
#define TWIN_ALIGNOF(type) alignof(type)
extern "C" {
#else
#include <stdbool.h>
#define TWIN_ASSERT(what, otherwise) _Static_assert(what, otherwise)
#define TWIN_ALIGNOF(type) _Alignof(type)
#endif
#define TWIN_PLACE(type, field, at) TWIN_ASSERT(offsetof(type, field) == at, #field " stands at " #at " of a " #type)

// ---- the record

// The write-once fields SVID2, SID2 and SWSCI bit 15: 0 open, any other number closed. A write closes an open field with 1; a field that is closed keeps its number, and so does busy.
typedef struct twin_closed {
    uint8_t svid2;
    uint8_t sid2;
    uint8_t swsci15;
} twin_closed;

// The memory-mapped registers of GTTMMADR's window, in ascending order of their offsets (enum twin_register). Any numbers are a state: a guest reads what is held, but ASSRREQ's bits 31:16 as 0.
typedef struct twin_registers {
    uint32_t fault;       // FAULT_REG: a fault's word, with valid in bit 0
    uint32_t assrreq;     // ASSRREQ: the requests in bits 3:0
    uint32_t mtouud;      // MTOUUD's low dword, a mirror
    uint32_t mtouud_high; // MTOUUD's high dword, a mirror
    uint32_t mbdsm;       // MBDSM, a mirror
    uint32_t cycles;      // the sum of DRAM cycles
} twin_registers;

// The 256 configuration bytes, the port latch, which write-once fields are closed, whether a function reset runs, and the window's registers. Every pattern of the 288 bytes is a state.
// Byte 34 is not what a guest reads there: CAPPOINT is computed at each read.
//
// busy: 0 where no function reset runs, any other number where one does. A guest write of 1 to AFCTL bit 0 starts it: busy becomes 1, and nothing else changes.
// The host's end signal ends it: the paper's F bits take their defaults, AFCTL bit 0 and busy become 0, and all else stays, closed fields among it.
// A platform reset ends it too. Nothing else changes busy. While busy:
// - guest reads give FFFFFFFF, whatever the lanes, those of the window too, and through the port pair FF in each byte of the width and 0 above it;
// - guest writes are answered as accepted and change nothing, through the port pair and in the window too;
// - no window claims anything;
// - host updates, all that the host does to the window, and the port latch work;
// - what is refused otherwise is refused, with the same number.
// In a record that was stored by a program without a busy byte, byte 263 is undefined: set it to 0 before use.
//
// window: changed by the window's own operations and by a platform reset, which makes it 0. A function reset leaves it, start and end.
// A record that was stored by a program without a window is 24 bytes shorter: set window to 0 before use.
typedef struct twin_state {
    uint8_t bytes[256];
    uint32_t latch;
    twin_closed closed;
    uint8_t busy;
    twin_registers window;
} twin_state;

TWIN_ASSERT(sizeof(twin_state) == 288, "a record has 288 bytes");
TWIN_ASSERT(TWIN_ALIGNOF(twin_state) == 4, "a record is aligned to 4 bytes");
TWIN_PLACE(twin_state, bytes, 0);
TWIN_PLACE(twin_state, latch, 256);
TWIN_PLACE(twin_state, closed, 260);
TWIN_PLACE(twin_state, busy, 263);
TWIN_PLACE(twin_state, window, 264);
TWIN_PLACE(twin_closed, svid2, 0);
TWIN_PLACE(twin_closed, sid2, 1);
TWIN_PLACE(twin_closed, swsci15, 2);
TWIN_PLACE(twin_registers, fault, 0);
TWIN_PLACE(twin_registers, assrreq, 4);
TWIN_PLACE(twin_registers, mtouud, 8);
TWIN_PLACE(twin_registers, mtouud_high, 12);
TWIN_PLACE(twin_registers, mbdsm, 16);
TWIN_PLACE(twin_registers, cycles, 20);

#undef TWIN_ASSERT
#undef TWIN_ALIGNOF
#undef TWIN_PLACE

// ---- numbers

// Refusal numbers. A refusal changes nothing, and zero stands beside its number; but a walk's count stands beside 10 and 11.
enum twin_refusal {
    TWIN_ACCEPTED = 0,
    TWIN_LENGTH = 1,         // a walk's buffer isn't 256 bytes
    TWIN_WIDTH = 2,          // port width isn't 1, 2 or 4
    TWIN_NOT_OURS = 3,       // port access is neither 4 bytes at CF8h nor data, or is data with latch bit 31 clear
    TWIN_OTHER_FUNCTION = 4, // data access, latch bit 31 set, other bus, device or function
    TWIN_OFFSET = 5,         // direct offset above 255 or not a multiple of 4; host offset above 255
    TWIN_LANES = 6,          // lanes above 15
    TWIN_NOT_HOST = 7,       // update mask, completion or fault word has a bit outside the host mask
    TWIN_NO_RANGE = 8,       // probe: low bits 2:0 are 010 or 110, or no counted bit is 1
    TWIN_LINE = 9,           // twin_do: no operation has the number, or an argument is above its greatest value
    TWIN_POINTER = 10,       // walk: a pointer leads to 04h to 3Ch
    TWIN_ENDLESS = 11,       // walk: 48 items visited and another pointer pending
    TWIN_WINDOW_OFFSET = 16  // window offset above 3FFFFFh or not a multiple of 4
};

// The window that claims an address.
enum twin_window {
    TWIN_UNCLAIMED = 0,
    TWIN_TRANSLATION = 1, // GTTMMADR
    TWIN_APERTURE = 2,    // GMADR
    TWIN_IO = 3           // IOBAR
};

// The registers in GTTMMADR's window by their offsets, as a claim gives them beside TWIN_TRANSLATION. Any other dword of the window reads 0 and ignores writes.
enum twin_register {
    TWIN_FAULT_REG = 0x04094,
    TWIN_ASSRREQ = 0x0810C,
    TWIN_MTOUUD = 0x108080,
    TWIN_MTOUUD_HIGH = 0x108084,
    TWIN_MBDSM = 0x1080C0,
    TWIN_DRAM_CYCLES = 0x138078
};

// The kind of range that a size probe tells.
enum twin_kind {
    TWIN_NO_KIND = 0,
    TWIN_KIND_IO = 1,
    TWIN_KIND_MEMORY32 = 2,
    TWIN_KIND_MEMORY64 = 3
};

// The operations of twin_do, with the arguments that they look at.
enum twin_operation {
    TWIN_DO_PLATFORM_RESET = 0,
    TWIN_DO_WRITE = 1,         // offset, lanes, value
    TWIN_DO_READ = 2,          // offset, lanes
    TWIN_DO_HOST_UPDATE = 3,   // offset, mask byte, value byte
    TWIN_DO_PORT_WRITE = 4,    // port, width, value
    TWIN_DO_PORT_READ = 5,     // port, width
    TWIN_DO_CLAIM_MEMORY = 6,  // low dword, high dword of the address
    TWIN_DO_CLAIM_PORT = 7,    // port
    TWIN_DO_PROBE = 8,         // low dword, high dword
    TWIN_DO_WALK = 9,          // wanted ID
    TWIN_DO_END_SIGNAL = 10,
    TWIN_DO_WINDOW_WRITE = 11, // offset, lanes, value
    TWIN_DO_WINDOW_READ = 12,  // offset, lanes
    TWIN_DO_COMPLETE = 13,     // mask
    TWIN_DO_FAULT = 14,        // fault word
    TWIN_DO_ADD_CYCLES = 15,   // count
    TWIN_DO_MIRROR_UPDATE = 16 // offset, mask, value
};

// ---- the exported functions
// A 64-bit result has the refusal's number in bits 63:48, 0 where it is accepted, and the value in bits 47:0.

// A platform reset: defaults, fields open, latch 0, not busy, the window 0. It also makes any memory of a record's size the fresh state.
void twin_platform_reset(twin_state *s);

// A guest write of the lanes' bytes at offset; lanes is 0 to 15, bit i for byte offset + i.
// Writing 1 to AFCTL bit 0 starts a function reset, which the host's end signal ends. Until then the function is busy, and a write is accepted and dropped.
// The result is the refusal's number: 0, TWIN_OFFSET or TWIN_LANES. The second form does the same over a copy of the record.
uint32_t twin_write(twin_state *s, uint32_t offset, uint32_t lanes, uint32_t value);
uint32_t twin_write_by_value(twin_state *s, uint32_t offset, uint32_t lanes, uint32_t value);

// A guest read: each enabled byte in its place, FF while busy, and FF in the lanes that aren't enabled; lanes 0 reads FFFFFFFF.
uint64_t twin_read(const twin_state *s, uint32_t offset, uint32_t lanes);

// The operation of number op (enum twin_operation); arguments that it has no use for have no say.
// TWIN_LINE for any other number, for a host update's mask or value byte or a wanted ID above 255, and for a port above FFFFh.
uint64_t twin_do(twin_state *s, uint32_t op, uint32_t a, uint32_t b, uint32_t c);

// A size probe: the kind in bits 47:32, the exponent in bits 31:0.
uint64_t twin_probe(uint32_t low, uint32_t high);

// A capability walk over any bytes: bit 40 set where the item is found, its offset in bits 39:32, the count in bits 31:0.
uint64_t twin_walk(const uint8_t *bytes, size_t length, uint8_t wanted);

// ---- every entry, typed

// A refusal's number, and what was read: 0 beside a refusal.
typedef struct twin_reply {
    uint32_t number;
    uint32_t value;
} twin_reply;

// The window that claims, and the offset inside.
typedef struct twin_claim {
    uint32_t window; // enum twin_window
    uint32_t offset;
} twin_claim;

// A range of 2 to the exponent bytes, or refusal 8.
typedef struct twin_range {
    uint32_t number;
    uint32_t kind; // enum twin_kind
    uint32_t exponent;
} twin_range;

// How a walk ended, with the number of items visited, the found one included.
typedef struct twin_item {
    uint32_t number;
    bool found;
    uint8_t offset;
    uint32_t count;
} twin_item;

// What a packed result says.
static inline twin_reply twin_reply_of(uint64_t result)
{
    twin_reply r = { (uint32_t)(result >> 48), (uint32_t)result };
    return r;
}

static inline twin_claim twin_claim_of(uint64_t result)
{
    twin_claim r = { (uint32_t)(result >> 32 & 0xFFFF), (uint32_t)result };
    return r;
}

static inline twin_range twin_range_of(uint64_t result)
{
    twin_range r = { (uint32_t)(result >> 48), (uint32_t)(result >> 32 & 0xFFFF), (uint32_t)result };
    return r;
}

static inline twin_item twin_item_of(uint64_t result)
{
    twin_item r = { (uint32_t)(result >> 48), (result >> 40 & 1) != 0, (uint8_t)(result >> 32), (uint32_t)result };
    return r;
}

// The door for an operation that only looks: over a copy, so that the record is not stored to.
static inline uint64_t twin_look(const twin_state *s, uint32_t op, uint32_t a, uint32_t b)
{
    twin_state copy = *s;
    return twin_do(&copy, op, a, b, 0);
}

// A guest read, of ones while busy and in the lanes that aren't enabled, so that a caller that wants a word or a byte masks or casts; refusals 5 and 6.
static inline twin_reply twin_guest_read(const twin_state *s, uint32_t offset, uint32_t lanes)
{
    return twin_reply_of(twin_read(s, offset, lanes));
}

// A guest write, dropped while busy; the result is the refusal's number, 0, 5 or 6.
static inline uint32_t twin_guest_write(twin_state *s, uint32_t offset, uint32_t lanes, uint32_t value)
{
    return twin_write(s, offset, lanes, value);
}

// The host's end signal: it ends the function reset that runs, and changes nothing where none does.
static inline void twin_end_signal(twin_state *s)
{
    twin_do(s, TWIN_DO_END_SIGNAL, 0, 0, 0);
}

// A host update of one byte: masked bits take the value's bits. The result is the refusal's number, 0, 5 or 7.
static inline uint32_t twin_host_update(twin_state *s, uint32_t offset, uint8_t mask, uint8_t value)
{
    return twin_reply_of(twin_do(s, TWIN_DO_HOST_UPDATE, offset, mask, value)).number;
}

// A write of width bytes to a port: 4 bytes at CF8h store the latch, data goes to the dword that it names, and is dropped while busy. The result is the refusal's number, 0, 2, 3 or 4.
static inline uint32_t twin_port_write(twin_state *s, uint16_t port, uint32_t width, uint32_t value)
{
    return twin_reply_of(twin_do(s, TWIN_DO_PORT_WRITE, port, width, value)).number;
}

// A read of width bytes from a port, 0 above the width, data of ones while busy; refusals 2, 3 and 4.
static inline twin_reply twin_port_read(const twin_state *s, uint16_t port, uint32_t width)
{
    return twin_reply_of(twin_look(s, TWIN_DO_PORT_READ, port, width));
}

// Which window claims a memory address; none while busy.
static inline twin_claim twin_claim_memory(const twin_state *s, uint64_t address)
{
    return twin_claim_of(twin_look(s, TWIN_DO_CLAIM_MEMORY, (uint32_t)address, (uint32_t)(address >> 32)));
}

// Which window claims an I/O port; none while busy.
static inline twin_claim twin_claim_port(const twin_state *s, uint16_t port)
{
    return twin_claim_of(twin_look(s, TWIN_DO_CLAIM_PORT, port, 0));
}

// The range that the low and high dword tell, read back after ones were written; refusal 8.
static inline twin_range twin_size_probe(uint32_t low, uint32_t high)
{
    return twin_range_of(twin_probe(low, high));
}

// A capability walk over the function's own bytes as a guest reads them, FF all of them while busy; refusals 10 and 11.
static inline twin_item twin_find(const twin_state *s, uint8_t wanted)
{
    return twin_item_of(twin_look(s, TWIN_DO_WALK, wanted, 0));
}

// A capability walk over any bytes; refusal 1 unless there are 256.
static inline twin_item twin_find_in(const uint8_t *bytes, size_t length, uint8_t wanted)
{
    return twin_item_of(twin_walk(bytes, length, wanted));
}

// The function's 256 bytes as a guest reads them, FF all of them while busy.
static inline void twin_image(const twin_state *s, uint8_t image[256])
{
    for (uint32_t offset = 0; offset < 256; offset += 4) {
        uint32_t value = twin_guest_read(s, offset, 0xF).value;
        for (uint32_t lane = 0; lane < 4; lane++)
            image[offset + lane] = (uint8_t)(value >> 8 * lane);
    }
}

// ---- the registers in GTTMMADR's window (enum twin_register), for guest and host

// A guest write of the lanes' bytes at an offset inside the window, dropped while busy. The result is the refusal's number, 0, 16 or 6.
// ASSRREQ: each of bits 3:0 is set where the value has it and the bit 16 higher, and lanes 0 and 2 are both enabled; no write clears one.
// FAULT_REG: becomes 0 where lane 0 is enabled and the value's bit 0 is 0. Nothing else in the window is changed by a guest.
static inline uint32_t twin_window_write(twin_state *s, uint32_t offset, uint32_t lanes, uint32_t value)
{
    return twin_reply_of(twin_do(s, TWIN_DO_WINDOW_WRITE, offset, lanes, value)).number;
}

// A guest read at an offset inside the window, of ones while busy and in the lanes that aren't enabled; refusals 16 and 6.
static inline twin_reply twin_window_read(const twin_state *s, uint32_t offset, uint32_t lanes)
{
    return twin_reply_of(twin_look(s, TWIN_DO_WINDOW_READ, offset, lanes));
}

// The host completes requests: ASSRREQ's masked bits become 0. The result is the refusal's number, 0, or 7 for a mask with a bit outside Fh.
static inline uint32_t twin_complete(twin_state *s, uint32_t mask)
{
    return twin_reply_of(twin_do(s, TWIN_DO_COMPLETE, mask, 0, 0)).number;
}

// The host gives a fault: FAULT_REG holds its word with bit 0, valid, set; but where valid is set already the fault is lost, though accepted.
// The result is the refusal's number, 0, or 7 for a word with a bit outside 77FEh.
static inline uint32_t twin_fault(twin_state *s, uint32_t word)
{
    return twin_reply_of(twin_do(s, TWIN_DO_FAULT, word, 0, 0)).number;
}

// The host adds to the sum of DRAM cycles, which wraps past 32 bits.
static inline void twin_add_cycles(twin_state *s, uint32_t count)
{
    twin_do(s, TWIN_DO_ADD_CYCLES, count, 0, 0);
}

// A host update of a mirror: masked bits take the value's bits. The result is the refusal's number, 0, 16, or 7 for a mask with a bit outside the mirror's:
// FFF00001h for MTOUUD and MBDSM, 7Fh for MTOUUD_HIGH, 0 for every other dword of the window.
static inline uint32_t twin_mirror_update(twin_state *s, uint32_t offset, uint32_t mask, uint32_t value)
{
    return twin_reply_of(twin_do(s, TWIN_DO_MIRROR_UPDATE, offset, mask, value)).number;
}

#ifdef __cplusplus
}
#endif

#endif
