/* embed: a maker's program around the clerk's box, in C. It reads a log from standard input, in chops of any size, and writes the answers to standard output
   as the log arrives: the same bytes as bin/clerk. An argument is the most bytes that one read asks for (65536); with 0 all of the log is read first and
   answered at one go. `tests/embed` builds and runs it; README, "Linking it", has the commands. */
#include <clerk.h>

#include <stdlib.h>
#include <unistd.h>

static int write_all(const uint8_t *at, size_t length)
{
    while (length > 0) {
        ssize_t done = write(1, at, length);
        if (done <= 0)
            return 0;
        at += done;
        length -= (size_t)done;
    }
    return 1;
}

/* ---- as it arrives: the maker keeps one array */

static uint8_t state[CLERK_STATE_BYTES];

/* A part of the log, call after call, until it is used up. */
static int feed(const uint8_t *part, size_t length)
{
    uint8_t out[4096];
    size_t counts[CLERK_COUNTS];
    while (length > 0) {
        if (clerk_feed(state, sizeof state, part, length, out, sizeof out, counts, CLERK_COUNTS) != CLERK_OK)
            return 0;
        if (!write_all(out, counts[CLERK_WRITTEN]))
            return 0;
        part += counts[CLERK_USED];
        length -= counts[CLERK_USED];
    }
    return 1;
}

static int close_log(void)
{
    uint8_t out[CLERK_ANSWER_BYTES];
    size_t written;
    return clerk_close(state, sizeof state, out, sizeof out, &written, 1) == CLERK_OK && write_all(out, written);
}

static int as_it_arrives(size_t chop)
{
    uint8_t *part = malloc(chop);
    if (!part || clerk_start(state, sizeof state) != CLERK_OK)
        return 0;
    for (;;) {
        ssize_t got = read(0, part, chop);
        if (got <= 0)
            return got == 0 && close_log();
        if (!feed(part, (size_t)got))
            return 0;
    }
}

/* ---- at one go */

struct bytes {
    uint8_t *at;
    size_t length, room;
};

/* Room for `more` bytes behind those that are there; 0 where the machine has none. */
static int make_room(struct bytes *b, size_t more)
{
    if (b->room - b->length >= more)
        return 1;
    size_t room = 2 * b->room + more;
    uint8_t *at = realloc(b->at, room);
    if (!at)
        return 0;
    b->at = at;
    b->room = room;
    return 1;
}

/* All of standard input; 0 where reading or the memory failed. */
static int read_all(struct bytes *log)
{
    for (;;) {
        if (!make_room(log, 65536))
            return 0;
        ssize_t got = read(0, log->at + log->length, 65536);
        if (got <= 0)
            return got == 0;
        log->length += (size_t)got;
    }
}

static size_t lfs(const struct bytes *log)
{
    size_t count = 0;
    for (size_t i = 0; i < log->length; i++)
        count += log->at[i] == '\n';
    return count;
}

static int at_one_go(void)
{
    struct bytes log = {0, 0, 0};
    if (!read_all(&log))
        return 0;
    size_t room = CLERK_ROOM(lfs(&log));
    uint8_t *out = malloc(room);
    return out && write_all(out, clerk_run(log.at, log.length, out, room));
}

int main(int argc, char **argv)
{
    size_t chop = argc > 1 ? strtoul(argv[1], 0, 10) : 65536;
    return (chop ? as_it_arrives(chop) : at_one_go()) ? 0 : 1;
}
