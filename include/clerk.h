/* clerk.h: the clerk's box, for makers who link it (libclerk.a, x86-64 Linux). A log goes in and its answers come out, at one go (clerk_run) or as the log
   arrives, in parts of any size (clerk_start, clerk_feed, clerk_close).

   The library is proved: for every log, of any bytes and however it is cut, each function ends, reads and writes only what it was lent, keeps nothing but what
   is in the lent state, calls nothing (no allocation, no system call, no library) and writes the answers that the paper's rules give, byte for byte. The
   contracts are in crates/embed/src/lib.rt.

   What nothing can prove on your side of the call, and what the proof rests on:
     - each pointer is to as many elements as its length says, which can be read or written for as long as the call lasts;
     - no pointer is null, not even where the length is 0;
     - no two of them overlap, and nobody else reads or writes them during the call;
     - the state that clerk_feed and clerk_close get is the one that clerk_start or clerk_feed left: the same bytes come back, and only the box writes there
       between two calls. It may be copied, stored and brought back elsewhere; it holds no pointer.

   Calls from several threads at once are fine, each over arrays of its own: they share nothing. */
#ifndef CLERK_H
#define CLERK_H

#include <stddef.h>
#include <stdint.h>

#ifdef __cplusplus
extern "C" {
#endif

/* No answer to a block is longer, in bytes and in lines. */
#define CLERK_ANSWER_BYTES 540
#define CLERK_ANSWER_LINES 27

/* ---- At one go */

/* Room for all answers to a log with so many LFs, whatever else is in it: a block has five lines, the last may be cut, and a bad sheet gets one line. */
#define CLERK_ROOM(lfs) (((size_t)(lfs) / 5 + 1) * CLERK_ANSWER_BYTES)

/* A whole log, the sheet and the entries behind it, and the answers to it, at the front of `out`. Returns how many bytes were written; behind them `out` is as
   it was.

   A bad sheet is answered by code=11 alone. Lend CLERK_ROOM of the log's LFs and every answer has room. With less, a block whose answer does not fit into what
   is left is refused by the paper's code 12: nothing is written for it, the table stays as it was, and the next block is read. An `out` of no bytes (any
   pointer but null) is therefore allowed, and gets nothing. */
size_t clerk_run(const uint8_t *log, size_t log_len, uint8_t *out, size_t out_len);

/* ---- As it arrives

   Keep one array of CLERK_STATE_BYTES for each log. Start it, feed it whatever has come until that is used up, and close it where the log ends:

       uint8_t state[CLERK_STATE_BYTES], out[CLERK_ANSWER_BYTES];
       size_t counts[CLERK_COUNTS];
       clerk_start(state, sizeof state);
       while (there is a part of the log)
           while (part_len > 0) {
               clerk_feed(state, sizeof state, part, part_len, out, sizeof out, counts, CLERK_COUNTS);
               write out's first counts[CLERK_WRITTEN] bytes; go counts[CLERK_USED] bytes on in the part
           }
       clerk_close(state, sizeof state, out, sizeof out, counts, CLERK_COUNTS);
       write out's first counts[CLERK_WRITTEN] bytes

   The answers are then those to the whole log, however it was cut. */

/* The room to lend: the state, and for an answer CLERK_ANSWER_BYTES or more (with more, one call answers more blocks). */
#define CLERK_STATE_BYTES 668
#define CLERK_COUNTS 2

/* What a call returns. Whatever is refused changes nothing: not the state, not `out`, not `counts`. */
#define CLERK_OK 0
#define CLERK_NO_STATE 1  /* state_len is below CLERK_STATE_BYTES */
#define CLERK_NO_OUT 2    /* out_len is below CLERK_ANSWER_BYTES */
#define CLERK_NO_COUNTS 3 /* counts_len is below 2, for clerk_close below 1 */

/* Where in `counts`: how many bytes were written to the front of `out`, and how many of the part were used up. */
#define CLERK_WRITTEN 0
#define CLERK_USED 1

/* Before the first byte of a log. What was in the state is forgotten. */
uint32_t clerk_start(uint8_t *state, size_t state_len);

/* A part of the log, any bytes, any number of them. One call answers the whole blocks at the front of the part that have room in `out`, or finishes the sheet
   or the block that was begun before, or keeps what is unfinished. Of a part with bytes it uses up one at least: call it again with the rest until nothing is
   left. `out` behind the answers, and `counts` behind the two, are as they were. */
uint32_t clerk_feed(uint8_t *state, size_t state_len, const uint8_t *part, size_t part_len, uint8_t *out, size_t out_len, size_t *counts, size_t counts_len);

/* The end of the log: an unfinished block is answered by code=1, an unfinished or missing sheet by code=11; else nothing is written. Sets counts[CLERK_WRITTEN]
   alone. The state stays; for another log start it again. */
uint32_t clerk_close(const uint8_t *state, size_t state_len, uint8_t *out, size_t out_len, size_t *counts, size_t counts_len);

#ifdef __cplusplus
}
#endif

#endif
