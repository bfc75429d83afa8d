// The library's guest write and read over a lent record against a plain C twin in place, on the same accesses in the same run.
// lent [CALLS [ROUNDS]]       prints ratios
// lent --only NAME CALLS      makes the calls of one entry, for a counter of instructions
#include <inttypes.h>
#include <stdbool.h>
#include <stdio.h>
#include <stdlib.h>
#include <string.h>
#include <time.h>

#include "../include/twin.h"
#include "plain_entries.h"

// ---- the accesses: any dword, any lanes, any value; one in 16 is refused

enum { ACCESSES = 1 << 16, AFCTL = 0xA8 };

struct access {
    uint32_t offset, lanes, value;
    bool starts; // a function reset, where it is a write
};

static struct access accesses[ACCESSES];

static uint64_t next(uint64_t *x)
{
    *x ^= *x << 13;
    *x ^= *x >> 7;
    *x ^= *x << 17;
    return *x;
}

static void make_accesses(void)
{
    uint64_t x = 88172645463325252;
    for (int i = 0; i < ACCESSES; i++) {
        uint64_t r = next(&x);
        struct access *a = &accesses[i];
        a->offset = r & 0xFC;
        a->lanes = r >> 8 & 0xF;
        a->value = r >> 32;
        if ((r >> 16 & 0x1F) == 0)
            a->offset |= 1 + (r >> 21) % 3;
        if ((r >> 16 & 0x1F) == 1)
            a->lanes |= 0x10;
        a->starts = a->offset == AFCTL && a->lanes <= 15 && a->lanes & a->value & 1;
    }
}

// ---- the entries; each gives a sum of what it hears, so that no call can be left out

static struct plain plain;
static twin_state lent;

// number in bits 63:48, value in bits 31:0, as the library tells it
static uint64_t plain_heard(const struct access *a)
{
    uint32_t value = 0;
    uint64_t number = (uint64_t)plain_read(&plain, a->offset, a->lanes, &value);
    return number << 48 | value;
}

// The end signal follows each start: a busy function drops what is written.
static void plain_end(const struct access *a)
{
    if (a->starts)
        plain_end_signal(&plain);
}

static void lent_end(const struct access *a)
{
    if (a->starts)
        twin_end_signal(&lent);
}

static void no_end(const struct access *a) { (void)a; }

#define ENTRY(name, hears, end)                                  \
    static uint64_t name(long calls)                             \
    {                                                            \
        uint64_t sum = 0;                                        \
        for (long i = 0; i < calls; i++) {                       \
            const struct access *a = &accesses[i % ACCESSES];    \
            sum += (hears);                                      \
            end(a);                                              \
        }                                                        \
        return sum;                                              \
    }

ENTRY(plain_writes, (uint64_t)plain_write(&plain, a->offset, a->lanes, a->value), plain_end)
ENTRY(plain_reads, plain_heard(a), no_end)
ENTRY(lent_writes, twin_write(&lent, a->offset, a->lanes, a->value), lent_end)
ENTRY(value_writes, twin_write_by_value(&lent, a->offset, a->lanes, a->value), lent_end)
ENTRY(door_writes, twin_do(&lent, TWIN_DO_WRITE, a->offset, a->lanes, a->value) >> 48, lent_end)
ENTRY(lent_reads, twin_read(&lent, a->offset, a->lanes), no_end)
ENTRY(door_reads, twin_do(&lent, TWIN_DO_READ, a->offset, a->lanes, 0), no_end)

struct entry {
    const char *name;
    uint64_t (*run)(long calls);
    int against; // the plain entry that it is held to
};

enum { PLAIN_WRITE, PLAIN_READ };

static const struct entry ENTRIES[] = {
    {"plain-write", plain_writes, PLAIN_WRITE},
    {"plain-read", plain_reads, PLAIN_READ},
    {"write", lent_writes, PLAIN_WRITE},
    {"write-by-value", value_writes, PLAIN_WRITE},
    {"door-write", door_writes, PLAIN_WRITE},
    {"read", lent_reads, PLAIN_READ},
    {"door-read", door_reads, PLAIN_READ},
};

enum { COUNT = sizeof ENTRIES / sizeof *ENTRIES };

static void fresh(void)
{
    plain_platform_reset(&plain);
    twin_platform_reset(&lent);
}

// ---- the check: every entry hears what plain C hears, and leaves the same state

// Plain C has no window: no access here reaches it, so that it stays as the platform reset leaves it.
static bool same_state(void)
{
    static const twin_registers untouched;
    return memcmp(lent.bytes, plain.bytes, sizeof plain.bytes) == 0 && memcmp(&lent.closed, plain.closed, sizeof plain.closed) == 0
        && lent.busy == plain.busy && memcmp(&lent.window, &untouched, sizeof untouched) == 0;
}

// From a state that has seen writes; with `busy`, a function reset runs until the next access that starts one.
static void check_entry(const struct entry *e, bool busy)
{
    fresh();
    plain_writes(1000);
    lent_writes(1000);
    if (busy) {
        plain_write(&plain, AFCTL, 0x1, 1);
        twin_write(&lent, AFCTL, 0x1, 1);
    }
    uint64_t theirs = ENTRIES[e->against].run(4 * ACCESSES);
    uint64_t ours = e->run(4 * ACCESSES);
    if (ours != theirs || !same_state()) {
        fprintf(stderr, "lent: %s and plain C differ%s\n", e->name, busy ? ", busy at the start" : "");
        exit(1);
    }
}

static void check(void)
{
    for (int e = PLAIN_READ + 1; e < COUNT; e++) {
        check_entry(&ENTRIES[e], true);
        check_entry(&ENTRIES[e], false);
    }
    puts("Every entry and plain C hear the same and leave the same state.");
}

// ---- the measure

static volatile uint64_t heard;

static double seconds(const struct entry *e, long calls)
{
    clock_t from = clock();
    heard = e->run(calls);
    return (double)(clock() - from) / CLOCKS_PER_SEC;
}

static void measure(long calls, int rounds)
{
    double best[COUNT];
    for (int round = 0; round < rounds; round++)
        for (int e = 0; e < COUNT; e++) {
            double now = seconds(&ENTRIES[e], calls);
            if (round == 0 || now < best[e])
                best[e] = now;
        }
    printf("%-15s %8s %10s\n", "entry", "/ C", "ns a call");
    for (int e = 0; e < COUNT; e++)
        printf("%-15s %8.2f %10.1f\n", ENTRIES[e].name, best[e] / best[ENTRIES[e].against], best[e] / calls * 1e9);
}

static int only(const char *name, long calls)
{
    for (int e = 0; e < COUNT; e++)
        if (strcmp(ENTRIES[e].name, name) == 0) {
            printf("%" PRIu64 "\n", ENTRIES[e].run(calls));
            return 0;
        }
    fprintf(stderr, "lent: no entry %s\n", name);
    return 1;
}

int main(int argc, char **argv)
{
    make_accesses();
    fresh();
    if (argc == 4 && strcmp(argv[1], "--only") == 0)
        return only(argv[2], atol(argv[3]));
    long calls = argc > 1 ? atol(argv[1]) : 20000000;
    int rounds = argc > 2 ? atoi(argv[2]) : 5;
    check();
    measure(calls, rounds);
    return 0;
}
