/* Tilecheck: may this task set be placed on a tile?
 *
 * Link with libplacement.a. The call reads one task set from text and hands back one number.
 */
#ifndef TILECHECK_H
#define TILECHECK_H

#include <stddef.h>
#include <stdint.h>

#ifdef __cplusplus
extern "C" {
#endif

/* Verdicts over all arrivals. A number is the whole answer: 101 is the same for a set that is over by
 * one tick and for one that is over by a thousand. The program says more: the span, or the length that
 * fails, the blocker and by how much. */
#define TILECHECK_MEETS 100u   /* every job of every legal pattern meets its deadline */
#define TILECHECK_MISSES 101u  /* some legal pattern has a late job */
#define TILECHECK_TOO_FAR 102u /* nothing fails up to the horizon, but that isn't enough to tell */

/* Refusals. tile_check hands back 4 or 7 only: the others can't come from a set that was read. */
#define TILECHECK_NO_WORD 1u        /* the table has no word */
#define TILECHECK_NOT_FOURS 2u      /* its length isn't a multiple of 4 */
#define TILECHECK_TOO_MANY_WORDS 3u /* its length is above 256 */
#define TILECHECK_OUT_OF_RANGE 4u   /* a word is out of its range */
#define TILECHECK_END_TICK 5u       /* the end tick is 0 or above 100,000 */
#define TILECHECK_SHORT_BUFFER 6u   /* a lent buffer is shorter than the full result */
#define TILECHECK_BAD_LINE 7u       /* a line of the set is missing or not as due */
#define TILECHECK_NOT_MISSES 8u     /* a pattern was asked for and the verdict isn't "misses" */

/* The verdict on the first set of a text, or the number of the refusal.
 *
 * The caller lends a readable region of `length` bytes that no one writes during the call.
 * The call writes nothing, reads nothing outside the region and keeps no pointer to it.
 * No byte 0 is needed at the end, and what follows the first set plays no part.
 * The call has no state of its own, so threads may call it at the same time. It takes less than
 * 1.5 KiB of stack; if the dynamic linker binds memset on the first call, that one takes some
 * 3.5 KiB more. At worst it takes some tens of milliseconds.
 * A null pointer with length 0 is an empty text, so the answer is TILECHECK_BAD_LINE.
 * A null pointer with any other length is not allowed.
 */
uint32_t tile_check(const uint8_t *text, size_t length);

#ifdef __cplusplus
}
#endif

#endif
