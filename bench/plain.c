// A plain session player in C, the measure for the others: plain_twin.h's rules, a line at a time.
#include <errno.h>
#include <stdbool.h>
#include <stdint.h>
#include <string.h>
#include <unistd.h>

#include "plain_twin.h"

// ---- numbers in upper-case hex

enum { NO_DIGIT = 16 };

static uint8_t digits[256];

static void fill_digits(void)
{
    memset(digits, NO_DIGIT, sizeof digits);
    for (int i = 0; i < 16; i++)
        digits[(uint8_t)"0123456789ABCDEF"[i]] = i;
}

// The number of `count` digits; `*bad` has bit NO_DIGIT afterwards if one is none.
static uint32_t number(const uint8_t *text, int count, unsigned *bad)
{
    uint32_t value = 0;
    for (int i = 0; i < count; i++) {
        *bad |= digits[text[i]];
        value = value << 4 | digits[text[i]];
    }
    return value;
}

// ---- answers

static char *put_refusal(char *out, int refusal)
{
    memcpy(out, "NO 0\n", 5);
    out[3] += refusal;
    return out + 5;
}

static char *put_done(char *out, int refusal)
{
    if (refusal != ACCEPTED)
        return put_refusal(out, refusal);
    memcpy(out, "OK\n", 3);
    return out + 3;
}

static char *put_value(char *out, int refusal, uint32_t value)
{
    if (refusal != ACCEPTED)
        return put_refusal(out, refusal);
    memcpy(out, "OK ", 3);
    for (int i = 0; i < 8; i++)
        out[3 + i] = "0123456789ABCDEF"[value >> (28 - 4 * i) & 15];
    out[11] = '\n';
    return out + 12;
}

// ---- lines

enum { LONGEST_ANSWER = 12 };

// `W oo l vvvvvvvv`
static char *write_line(struct state *s, const uint8_t *line, char *out)
{
    unsigned bad = 0;
    unsigned offset = number(line + 2, 2, &bad), lanes = number(line + 5, 1, &bad);
    uint32_t value = number(line + 7, 8, &bad);
    if (line[0] != 'W' || line[1] != ' ' || line[4] != ' ' || line[6] != ' ' || bad & NO_DIGIT)
        return put_refusal(out, LINE);
    return put_done(out, guest_write(s, offset, lanes, value));
}

// `R oo l`
static char *read_line(const struct state *s, const uint8_t *line, char *out)
{
    unsigned bad = 0;
    unsigned offset = number(line + 2, 2, &bad), lanes = number(line + 5, 1, &bad);
    uint32_t value = 0;
    if (line[0] != 'R' || line[1] != ' ' || line[4] != ' ' || bad & NO_DIGIT)
        return put_refusal(out, LINE);
    int refusal = guest_read(s, offset, lanes, &value);
    return put_value(out, refusal, value);
}

// `H oo mm vv`
static char *host_line(struct state *s, const uint8_t *line, char *out)
{
    unsigned bad = 0;
    unsigned offset = number(line + 2, 2, &bad);
    uint8_t mask = number(line + 5, 2, &bad), value = number(line + 8, 2, &bad);
    if (line[0] != 'H' || line[1] != ' ' || line[4] != ' ' || line[7] != ' ' || bad & NO_DIGIT)
        return put_refusal(out, LINE);
    return put_done(out, host_update(s, offset, mask, value));
}

// `P` or `E`
static char *letter_line(struct state *s, const uint8_t *line, char *out)
{
    switch (line[0]) {
    case 'P': platform_reset(s); break;
    case 'E': end_signal(s); break;
    default: return put_refusal(out, LINE);
    }
    return put_done(out, ACCEPTED);
}

// Answers a line, without its LF. No two forms have the same length, but for those of one letter.
static char *answer(struct state *s, const uint8_t *line, size_t length, char *out)
{
    switch (length) {
    case 15: return write_line(s, line, out);
    case 6: return read_line(s, line, out);
    case 10: return host_line(s, line, out);
    case 1: return letter_line(s, line, out);
    default: return put_refusal(out, LINE);
    }
}

// ---- the player

// Bytes that are read at once, and bytes kept of an unfinished line: more than a line of any form has, so that the rest of a long one
// doesn't matter.
enum { BLOCK = 1 << 16, KEPT = 16 };

static uint8_t in[KEPT + BLOCK];
static char out[LONGEST_ANSWER * (KEPT + BLOCK)];

// Reads behind the bytes that are kept. 0 at the end of the input.
static size_t read_block(size_t kept)
{
    ssize_t got;
    do
        got = read(STDIN_FILENO, in + kept, BLOCK);
    while (got < 0 && errno == EINTR);
    return got < 0 ? 0 : got;
}

static bool write_answers(const char *end)
{
    for (const char *from = out; from < end;) {
        ssize_t put = write(STDOUT_FILENO, from, end - from);
        if (put < 0 && errno != EINTR)
            return false;
        from += put < 0 ? 0 : put;
    }
    return true;
}

// Answers the complete lines of a text; `*end` is then the end of the answers. The result is where the unfinished line starts.
static const uint8_t *play(struct state *s, const uint8_t *text, const uint8_t *text_end, char **end)
{
    const uint8_t *lf;
    while ((lf = memchr(text, '\n', text_end - text))) {
        *end = answer(s, text, lf - text, *end);
        text = lf + 1;
    }
    return text;
}

static size_t keep(const uint8_t *from, const uint8_t *to)
{
    size_t kept = to - from < KEPT ? to - from : KEPT;
    memmove(in, from, kept);
    return kept;
}

int main(void)
{
    struct state state;
    size_t kept = 0, got;
    fill_tables();
    fill_digits();
    platform_reset(&state);
    while ((got = read_block(kept))) {
        char *end = out;
        const uint8_t *text_end = in + kept + got;
        const uint8_t *unfinished = play(&state, in, text_end, &end);
        kept = keep(unfinished, text_end);
        if (!write_answers(end))
            return 1;
    }
    return kept == 0 || write_answers(answer(&state, in, kept, out)) ? 0 : 1;
}
