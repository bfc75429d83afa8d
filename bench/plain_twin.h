// The paper's rules in plain C, the measure for the proved code: in place over 256 bytes, with a mask table for each kind of bit, a
// byte a place. Nothing is proved of it.
#include <stdbool.h>
#include <stddef.h>
#include <stdint.h>
#include <string.h>

// ---- the register map

enum { BYTES = 256 };

// Registers that a rule names.
enum {
    GMADR = 0x18,
    SVID2 = 0x2C,
    SID2 = 0x2E,
    CAPPOINT = 0x34,
    MSAC = 0x62,
    CAPL = 0x7F,
    AFCTL = 0xA8,
    PMCS = 0xD4,
    SWSCI = 0xE8,
};

// The byte of GMADR with the bits that a size code takes, and the dword that MSAC stands in.
enum { APERTURE = GMADR + 3, MSAC_DWORD = MSAC & ~3 };

struct row {
    int at, bytes;
    uint64_t initial, guest, host;
    bool function_reset;
};

// The paper's rows. Write-once bits are guest bits that are held back once their field is closed.
static const struct row ROWS[] = {
    {0x00, 2, 0x8086, 0, 0, false},                          // VID2
    {0x02, 2, 0x0152, 0, 0xFFFF, false},                     // DID2
    {0x04, 2, 0x0000, 0x0407, 0, true},                      // PCICMD2
    {0x06, 2, 0x0090, 0, 0x0008, false},                     // PCISTS2
    {0x08, 1, 0x00, 0, 0xFF, false},                         // RID2
    {0x09, 3, 0x030000, 0, 0xFFFF00, false},                 // CC
    {0x10, 8, 0x4, 0xFFFFFFFFFFC00000, 0, true},             // GTTMMADR
    {GMADR, 8, 0xC, 0xFFFFFFFFF8000000, 0, true},
    {0x20, 4, 0x1, 0x0000FFC0, 0, true},                     // IOBAR
    {SVID2, 2, 0, 0xFFFF, 0, false},
    {SID2, 2, 0, 0xFFFF, 0, false},
    {CAPPOINT, 1, 0x90, 0, 0, false},
    {0x3C, 1, 0x00, 0xFF, 0, false},                         // INTRLINE
    {0x3D, 1, 0x01, 0, 0, false},                            // INTRPIN
    {0x40, 2, 0x0009, 0, 0, false},                          // CAPID0
    {0x42, 2, 0x010C, 0, 0, false},                          // CAPCTRL0
    {0x44, 4, 0, 0, 0xFFFFFFFF, false},                      // CAPID0_A
    {0x48, 4, 0, 0, 0xFFFFFFFF, false},                      // CAPID0_B
    {0x50, 2, 0x0028, 0, 0xFFFF, false},                     // MGGC0
    {0x54, 4, 0x0000209F, 0, 0xFFFFFFFF, false},             // DEVEN0
    {0x5C, 4, 0, 0, 0xFFFFFFFF, false},                      // BDSM
    {0x60, 2, 0, 0xFFFF, 0, true},                           // HSRW
    {MSAC, 1, 0x02, 0xF6, 0, false},
    {0x63, 1, 0, 0, 0x01, false},                            // VTD_STATUS
    {CAPL, 1, 0, 0x01, 0, false},
    {0x90, 2, 0xD005, 0, 0, false},                          // MSI_CAPID
    {0x92, 2, 0, 0x0071, 0, true},                           // MC
    {0x94, 4, 0, 0xFFFFFFFC, 0, true},                       // MA
    {0x98, 2, 0, 0xFFFF, 0, true},                           // MD
    {0xA4, 2, 0x0013, 0, 0, false},                          // AFCIDNP
    {0xA6, 2, 0x0306, 0, 0, false},                          // AFLC
    {AFCTL, 1, 0, 0, 0, false},
    {0xD0, 2, 0xA401, 0, 0, false},                          // PMCAPID
    {0xD2, 2, 0x0022, 0, 0, false},                          // PMCAP
    {PMCS, 2, 0, 0x0003, 0, true},
    {0xE0, 2, 0, 0xFFFF, 0, false},                          // SWSMI
    {0xE4, 4, 0, 0xFFFFFFFF, 0, false},                      // GSE
    {SWSCI, 2, 0, 0xFFFF, 0, false},
    {0xFC, 4, 0, 0xFFFFFFFF, 0, false},                      // ASLS
};

static uint8_t initial[BYTES], guest[BYTES], host[BYTES], reset[BYTES];

static void fill_row(const struct row *row)
{
    for (int i = 0; i < row->bytes; i++) {
        int at = row->at + i;
        initial[at] = row->initial >> 8 * i;
        guest[at] = row->guest >> 8 * i;
        host[at] = row->host >> 8 * i;
        reset[at] = row->function_reset ? guest[at] : 0;
    }
}

static void fill_tables(void)
{
    for (size_t i = 0; i < sizeof ROWS / sizeof *ROWS; i++)
        fill_row(&ROWS[i]);
}

// ---- the state

enum { ACCEPTED = 0, OFFSET = 5, LANES = 6, NOT_HOST = 7, LINE = 9 };

struct state {
    uint8_t bytes[BYTES];
    bool svid2_closed, sid2_closed, swsci15_closed;
    bool busy; // a function reset runs
};

static void platform_reset(struct state *s)
{
    memcpy(s->bytes, initial, BYTES);
    s->svid2_closed = s->sid2_closed = s->swsci15_closed = s->busy = false;
}

static uint8_t blend(uint8_t mask, uint8_t old, uint8_t new)
{
    return (old & ~mask) | (new & mask);
}

// ---- a guest write

// The bits of byte APERTURE that the size code takes.
static uint8_t taken(const struct state *s)
{
    switch (s->bytes[MSAC] >> 1 & 3) {
    case 1: return 0x08;
    case 3: return 0x18;
    default: return 0;
    }
}

// The guest bits of a byte that a write of `value` leaves as they are.
static uint8_t held(const struct state *s, unsigned at, uint8_t value)
{
    switch (at) {
    case APERTURE: return taken(s);
    case SVID2: case SVID2 + 1: return s->svid2_closed ? 0xFF : 0;
    case SID2: case SID2 + 1: return s->sid2_closed ? 0xFF : 0;
    case SWSCI + 1: return s->swsci15_closed ? 0x80 : 0;
    case MSAC: return (value >> 1 & 3) == 2 ? 0x06 : 0;
    case PMCS: return (value & 3) == 1 || (value & 3) == 2 ? 0x03 : 0;
    default: return 0;
    }
}

static void write_byte(struct state *s, unsigned at, uint8_t value)
{
    uint8_t mask = guest[at] & ~held(s, at, value);
    s->bytes[at] = blend(mask, s->bytes[at], value);
}

// What a write does besides the bytes that it stores.
static void after_write(struct state *s, unsigned offset, unsigned lanes, uint32_t value)
{
    switch (offset) {
    case SVID2:
        s->svid2_closed |= (lanes & 0x3) != 0;
        s->sid2_closed |= (lanes & 0xC) != 0;
        break;
    case SWSCI:
        s->swsci15_closed |= (lanes & 0x2) != 0;
        break;
    case MSAC_DWORD:
        if (lanes & 0x4)
            s->bytes[APERTURE] &= ~taken(s);
        break;
    case AFCTL:
        s->busy = (lanes & value & 0x1) != 0;
        break;
    }
}

static int guest_write(struct state *s, unsigned offset, unsigned lanes, uint32_t value)
{
    if (offset > 255 || offset % 4 != 0)
        return OFFSET;
    if (lanes > 15)
        return LANES;
    if (s->busy)
        return ACCEPTED;
    for (int lane = 0; lane < 4; lane++)
        if (lanes >> lane & 1)
            write_byte(s, offset + lane, value >> 8 * lane);
    after_write(s, offset, lanes, value);
    return ACCEPTED;
}

// ---- a guest read

static uint8_t shown(const struct state *s, unsigned at)
{
    if (s->busy)
        return 0xFF;
    if (at == CAPPOINT)
        return s->bytes[CAPL] & 1 ? 0xD0 : 0x90;
    return s->bytes[at];
}

// What a lane that isn't enabled reads.
enum { UNDRIVEN = 0xFF };

static int guest_read(const struct state *s, unsigned offset, unsigned lanes, uint32_t *value)
{
    if (offset > 255 || offset % 4 != 0)
        return OFFSET;
    if (lanes > 15)
        return LANES;
    uint32_t read = 0;
    for (int lane = 0; lane < 4; lane++) {
        uint8_t byte = lanes >> lane & 1 ? shown(s, offset + lane) : UNDRIVEN;
        read |= (uint32_t)byte << 8 * lane;
    }
    *value = read;
    return ACCEPTED;
}

// ---- the host's part

static void end_signal(struct state *s)
{
    if (!s->busy)
        return;
    for (int i = 0; i < BYTES; i++)
        s->bytes[i] = blend(reset[i], s->bytes[i], initial[i]);
    s->bytes[AFCTL] &= ~1;
    s->busy = false;
}

static inline int host_update(struct state *s, unsigned offset, uint8_t mask, uint8_t value)
{
    if (offset > 255)
        return OFFSET;
    if (mask & ~host[offset])
        return NOT_HOST;
    s->bytes[offset] = blend(mask, s->bytes[offset], value);
    return ACCEPTED;
}
