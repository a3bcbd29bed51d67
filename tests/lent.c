/* lent: what the library refuses, and that a refusal changes nothing; and that a state brought back elsewhere goes on. Writes "ok", or the place that failed.
   `tests/embed` builds and runs it. */
#include <clerk.h>

#include <stdlib.h>
#include <unistd.h>

#define MOST 1000

static const uint8_t log[] = "seats=2\nsmall=1\nbig=2\n";
static uint8_t state[MOST], out[MOST], other[MOST];
static size_t counts[4];

static void fill(void)
{
    for (size_t i = 0; i < MOST; i++)
        out[i] = (uint8_t)(i * 7 + 1);
    for (size_t i = 0; i < 4; i++)
        counts[i] = 77 + i;
}

/* Whether `out` and `counts` are as `fill` left them, from some places on. */
static int untouched(size_t from, size_t count)
{
    for (size_t i = from; i < MOST; i++)
        if (out[i] != (uint8_t)(i * 7 + 1))
            return 0;
    for (size_t i = count; i < 4; i++)
        if (counts[i] != 77 + i)
            return 0;
    return 1;
}

static int same(const uint8_t *a, const uint8_t *b)
{
    for (size_t i = 0; i < MOST; i++)
        if (a[i] != b[i])
            return 0;
    return 1;
}

static void copy(uint8_t *to, const uint8_t *from)
{
    for (size_t i = 0; i < MOST; i++)
        to[i] = from[i];
}

/* A refusal with this code, of feed and of close. */
static int refused(uint32_t code, size_t state_len, size_t out_len, size_t counts_len, int closes)
{
    fill();
    copy(other, state);
    if (clerk_feed(state, state_len, log, sizeof log - 1, out, out_len, counts, counts_len) != code)
        return 0;
    if (closes && clerk_close(state, state_len, out, out_len, counts, counts_len) != code)
        return 0;
    return untouched(0, 0) && same(other, state);
}

static const char *failed(void)
{
    for (size_t n = 0; n < CLERK_STATE_BYTES; n++) {
        copy(other, state);
        if (clerk_start(state, n) != CLERK_NO_STATE || !same(other, state))
            return "start\n";
    }
    for (size_t i = 0; i < MOST; i++)
        state[i] = (uint8_t)(255 - i);
    if (clerk_start(state, CLERK_STATE_BYTES) != CLERK_OK)
        return "start, with room\n";
    for (size_t i = CLERK_STATE_BYTES; i < MOST; i++)
        if (state[i] != (uint8_t)(255 - i))
            return "start, behind the state\n";
    for (size_t n = 0; n < CLERK_STATE_BYTES; n++)
        if (!refused(CLERK_NO_STATE, n, MOST, 4, 1))
            return "a short state\n";
    for (size_t n = 0; n < CLERK_ANSWER_BYTES; n++)
        if (!refused(CLERK_NO_OUT, CLERK_STATE_BYTES, n, 4, 1))
            return "a short output\n";
    if (!refused(CLERK_NO_COUNTS, CLERK_STATE_BYTES, MOST, 0, 1) || !refused(CLERK_NO_COUNTS, CLERK_STATE_BYTES, MOST, 1, 0))
        return "short counts\n";
    fill();
    if (clerk_feed(state, MOST, log, sizeof log - 1, out, MOST, counts, 4) != CLERK_OK || counts[0] != 0 || counts[1] != sizeof log - 1 || !untouched(0, 2))
        return "an unfinished sheet is kept\n";
    copy(other, state);
    fill();
    if (clerk_close(other, CLERK_STATE_BYTES, out, CLERK_ANSWER_BYTES, counts, 1) != CLERK_OK || counts[0] != 8 || out[0] != 'c' || !untouched(8, 1))
        return "the close, of a copy\n";
    return same(other, state) ? 0 : "the close changes nothing of the state\n";
}

int main(void)
{
    const char *said = failed();
    size_t length = 0;
    if (!said)
        said = "ok\n";
    while (said[length])
        length++;
    return write(1, said, length) == (ssize_t)length ? 0 : 1;
}
