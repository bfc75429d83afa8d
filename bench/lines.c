// Makes a session of one kind of line: `lines writes-f|writes-any|reads|empty COUNT`, the same one for the same arguments. End signals
// among the writes are not counted.
#include <stdint.h>
#include <stdio.h>
#include <stdlib.h>
#include <string.h>

// A linear congruential generator (Knuth, MMIX), of which the high half is taken.
static uint32_t any(void)
{
    static uint64_t seed = 1;
    seed = seed * 6364136223846793005u + 1442695040888963407u;
    return seed >> 32;
}

static unsigned any_offset(void) { return any() % 64 * 4; }

static unsigned any_lanes(void) { return any() % 16; }

enum { AFCTL = 0xA8 };

// A write. Where it starts a function reset, the end signal follows: a busy function drops what is written.
static void put_write(unsigned offset, unsigned lanes, uint32_t value)
{
    printf("W %02X %X %08X\n", offset, lanes, value);
    if (offset == AFCTL && lanes & value & 1)
        puts("E");
}

static void write_f(void)
{
    unsigned offset = any_offset();
    put_write(offset, 0xF, any());
}

static void write_any(void)
{
    unsigned offset = any_offset(), lanes = any_lanes();
    put_write(offset, lanes, any());
}

static void read_any(void)
{
    unsigned offset = any_offset(), lanes = any_lanes();
    printf("R %02X %X\n", offset, lanes);
}

static void empty(void) { putchar('\n'); }

static const struct {
    const char *name;
    void (*put)(void);
} KINDS[] = {{"writes-f", write_f}, {"writes-any", write_any}, {"reads", read_any}, {"empty", empty}};

static void (*kind_named(const char *name))(void)
{
    for (size_t i = 0; i < sizeof KINDS / sizeof *KINDS; i++)
        if (strcmp(KINDS[i].name, name) == 0)
            return KINDS[i].put;
    return NULL;
}

int main(int argc, char **argv)
{
    void (*put)(void) = argc == 3 ? kind_named(argv[1]) : NULL;
    if (!put) {
        fprintf(stderr, "usage: lines writes-f|writes-any|reads|empty COUNT\n");
        return 2;
    }
    for (long left = atol(argv[2]); left > 0; left--)
        put();
    return fflush(stdout) == 0 ? 0 : 1;
}
