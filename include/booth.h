/* Starkvitne: what the booth's driver, written in C, calls.
 *
 * Link with the archive libbooth.a (README.md says how it is built). Every function takes any numbers, any bytes and any
 * length, returns, and does nothing undefined, as long as each pointer is good for the length that stands behind it, and
 * no two arguments of one call overlap. None keeps a pointer, allocates, or touches anything but its arguments, so calls
 * on different buffers may run side by side.
 *
 * Where a length is 0 the pointer may be NULL: nothing is read or written through it.
 *
 * STARKVITNE_REFUSED says of an answer whether it is a refusal, and STARKVITNE_NUMBER its number (starkvitne.h has the rule, the table of numbers and
 * the ranges). A refusal changes no byte, but that a refused opening leaves the closed state, and a refused plan reads as zeros:
 *
 *   1  the plan or its record breaks the table of ranges or the layout
 *   2  the sender's state is not valid: it was not opened, or something else has written to it
 *   3  line not below the plan's lines (the standalone marker calls: not below 16)
 *   4  packet length 0, or above the plan's largest packet
 *   5  not a marker record, or its counter is outside 1 to 1,048,576; of a number read by itself: not a number
 *   8  output shorter than what is to be written
 *  10  counter still not positive after its quantum
 */
#ifndef BOOTH_H
#define BOOTH_H

#include "starkvitne.h"

#ifdef __cplusplus
extern "C" {
#endif

/* ---- Records. A number on the wire is unsigned, below 2^32, low seven bits first, the top bit of a byte set when another follows, and in its
 * shortest form. A record is a row of numbers. */

/* Of an answer of stripes_read_number: how many bytes the number takes, and the number. */
#define STRIPES_PLACE(answer) ((uint32_t)((answer) & 511u))
#define STRIPES_VALUE(answer) ((uint32_t)((answer) >> 32))

/* Reads the number at the front of the bytes; what follows it does not matter. Answers the place after it, 1 to 5, with the number in the high 32
 * bits, or refuses by 5 where there is no number: the bytes end within it, it is 2^32 or more, or not in its shortest form. */
uint64_t stripes_read_number(const uint8_t *bytes, size_t bytes_len);

/* Writes a number to the front of out; the rest of out stays. Answers the length written, or refuses by 8. */
uint32_t stripes_write_number(uint32_t value, uint8_t *out, size_t out_len);

/* Writes the marker record of a line, its round and its counter to the front of out; the rest of out stays.
 * Answers the length written, or refuses by the first of 3, 5 and 8 that applies, in this order. */
uint32_t stripes_write_marker(uint32_t line, uint32_t round, uint32_t counter, uint8_t *out, size_t out_len);

/* Of an answer of stripes_read_marker. No marker has a counter of 0. */
#define STRIPES_MARKER_LINE(answer) ((uint32_t)((answer) & 511u))
#define STRIPES_MARKER_COUNTER(answer) ((uint32_t)(answer) >> 9)
#define STRIPES_MARKER_ROUND(answer) ((uint32_t)((answer) >> 32))

/* Reads a marker record: line, round, counter, and no byte over. Answers the line, with the counter from bit 9 on and the round in the high 32 bits,
 * or refuses by the first of 5 and 3 that applies. */
uint64_t stripes_read_marker(const uint8_t *bytes, size_t bytes_len);

/* Writes the record of a plan to the front of out: N, Max, K, then N quanta; the rest of out stays. Answers the length written, or refuses by the
 * first of 1 and 8 that applies. */
uint32_t stripes_write_plan(const struct stripes_plan *plan, uint8_t *out, size_t out_len);

/* Reads a plan record, with no byte over, into a plan; quanta from line N on are zero. Answers 0, or refuses by 1, and then the plan is all zeros. */
uint32_t stripes_read_plan(struct stripes_plan *plan, const uint8_t *record, size_t record_len);

/* Checks a plan record. Answers 0 where it is the record of a plan in range, else 1: the number by itself. */
uint32_t stripes_check_plan(const uint8_t *record, size_t record_len);

/* Reads a plan record and writes the record of that plan, which is the same bytes, to the front of out; the rest of out stays. Answers the length
 * written, or refuses by the first of 1 and 8 that applies. */
uint32_t stripes_copy_plan(const uint8_t *record, size_t record_len, uint8_t *out, size_t out_len);

/* ---- The sender. The driver holds one for each bundle; only these calls write to it. */

struct stripes_sender {
    struct stripes_plan plan;
    uint32_t line;
    uint32_t countdown;
    uint32_t rounds[STARKVITNE_LINES_MOST];
    uint32_t counters[STARKVITNE_LINES_MOST];
};

STARKVITNE_SIZE(stripes_sender, 212);

/* Of an answer of stripes_send: the line that the packet goes to, and whether markers are due on every line. */
#define STRIPES_LINE(answer) ((uint32_t)((answer) & 271u))
#define STRIPES_DUE(answer) (((answer) & 272u) == 16u)

/* Opens a sender on the plan of a record. Answers 0, or refuses by 1 and leaves the closed state, all zeros, which every other call refuses. */
uint32_t stripes_open(struct stripes_sender *sender, const uint8_t *record, size_t record_len);

/* Chooses the line of a packet of that many bytes and moves the sender on. Answers the line, 16 added when markers are due, or refuses by the first
 * of 2, 4 and 10 that applies; refused, the sender stays as it was. */
uint32_t stripes_send(struct stripes_sender *sender, size_t length);

/* Writes a marker with the line's figures to the front of out; the rest of out stays, and so does the sender. Answers the length written, or refuses
 * by the first of 2, 3 and 8 that applies. */
uint32_t stripes_marker(const struct stripes_sender *sender, uint32_t line, uint8_t *out, size_t out_len);

#ifdef __cplusplus
}
#endif

#endif
