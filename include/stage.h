/* Starkvitne: what the stage's driver, written in C, calls.
 *
 * Link with the archive libstage.a (README.md says how it is built). Every function takes any numbers, any bytes and any
 * length, returns, and does nothing undefined, as long as each pointer is good for the length that stands behind it, and
 * no two arguments of one call overlap. None keeps a pointer, allocates, or touches anything but its arguments, so calls
 * on different receivers may run side by side.
 *
 * Where a length is 0 the pointer may be NULL: nothing is read or written through it.
 *
 * STARKVITNE_REFUSED says of an answer whether it is a refusal, and STARKVITNE_NUMBER its number (starkvitne.h has the rule, the table of numbers and
 * the ranges). A refusal changes no byte, but that a refused opening leaves the closed state:
 *
 *   1  the plan record breaks the table of ranges or the layout, or `size` is not the largest packet plus 3 to 65,536
 *   2  the receiver's state is not valid: it was not opened, or something else has written to it
 *   3  line not below the plan's lines
 *   4  packet length 0, or above the plan's largest packet
 *   5  not a marker record, or its counter is outside 1 to the line's quantum
 *   6  the marker record is another line's
 *   7  too little room in the line's store: the packet or marker counts as lost on its line, and the next marker that comes through reports it
 *   8  output, or what a run of takes has left of it, shorter than the packet
 *   9  the store is not `lines` times `size` bytes long, or holds what no call has stored
 */
#ifndef STAGE_H
#define STAGE_H

#include "starkvitne.h"

#ifdef __cplusplus
extern "C" {
#endif

/* What is stored: line i owns the `size` bytes of the store from i times `size`, and holds `used` of them from `heads` on, round the end. */
struct stage_rings {
    uint32_t size;
    uint32_t heads[STARKVITNE_LINES_MOST];
    uint32_t used[STARKVITNE_LINES_MOST];
};

/* Whose turn it is: the current round, and the round and the counter of each line. */
struct stage_turns {
    uint32_t round;
    uint32_t rounds[STARKVITNE_LINES_MOST];
    uint32_t counters[STARKVITNE_LINES_MOST];
};

/* The receiver. The driver holds one for each bundle, and beside it a store of plan.lines times rings.size bytes; only these calls write to either.
 * Entries for lines from plan.lines on are ignored and kept. */
struct stage_receiver {
    struct stripes_plan plan;
    struct stage_rings rings;
    struct stage_turns turns;
};

STARKVITNE_SIZE(stage_receiver, 340);

/* Opens a receiver on the plan of a record, with `size` bytes of store for each line. Answers 0, or refuses by 1 and leaves the closed state, all
 * zeros, which every other call refuses. What the store holds before does not matter. */
uint32_t stage_open(struct stage_receiver *receiver, const uint8_t *record, size_t record_len, uint32_t size);

/* Stores a packet that came on a line, behind what the line holds. Answers 0, or refuses by the first of 2, 9, 3, 4 and 7 that applies; refused, the
 * receiver and the store stay as they were. */
uint32_t stage_data(struct stage_receiver *receiver, uint32_t line, const uint8_t *packet, size_t packet_len, uint8_t *store, size_t store_len);

/* Stores a marker record that came on a line. Answers 0, or refuses by the first of 2, 9, 3, 5, 6 and 7 that applies; refused, the receiver and the
 * store stay as they were. */
uint32_t stage_marker(struct stage_receiver *receiver, uint32_t line, const uint8_t *marker, size_t marker_len, uint8_t *store, size_t store_len);

/* Of a word of stage_take, or of the log or the `why` of stage_takes: what it was, its line, and the value above them. A refusal is of none of the kinds
 * below. */
#define STAGE_KIND(word) ((uint32_t)((word) >> 4 & 31u))
#define STAGE_LINE(word) ((uint32_t)((word) & 271u))
#define STAGE_VALUE(word) ((uint64_t)(word) >> 9)

/* A packet from the line, of STAGE_VALUE bytes, at the front of out. */
#define STAGE_DATA 0u
/* A marker of the line: before it, STAGE_VALUE bytes are missing. */
#define STAGE_MISSING 1u
/* A marker that its line has gone past (11): the marker is dropped. */
#define STAGE_BEHIND 2u
/* Nothing was taken: the line's queue is empty, and the next packet comes on it. */
#define STAGE_WAITING 3u
/* Of the `why` of stage_takes alone: the log is full. */
#define STAGE_FULL 4u

/* Takes the next item of the line whose turn it is, and moves the receiver on. Answers a word, or refuses by the first of 2, 9 and 8 that applies.
 * Waiting or refused, the receiver stays as it was; but for a packet, out stays as it was. */
uint64_t stage_take(struct stage_receiver *receiver, const uint8_t *store, size_t store_len, uint8_t *out, size_t out_len);

/* What a run of takes answers. */
struct stage_run {
    uint64_t why; /* a word of the kind STAGE_FULL or STAGE_WAITING, or a refusal: that of the take that stopped the run, as stage_take would answer it */
    size_t taken; /* how many takes there were, and so how many words stand at the front of log */
    size_t bytes; /* how many bytes their packets fill at the front of out */
};

STARKVITNE_SIZE(stage_run, 24);

/* Takes, one after another, until one waits or is refused, or the log is full. Each of the words in log is STAGE_DATA, STAGE_MISSING or
 * STAGE_BEHIND, and the packets lie one behind another at the front of out; the rest of log and out stays. What was taken stands, however the run
 * ends; the take that stopped it has changed nothing. `why` is one of:
 *
 *   STAGE_FULL      the log is full. There may be more to take.
 *   STAGE_WAITING   the queue of the line STAGE_LINE is empty: the next packet comes on it.
 *   refused by 2    the receiver's state is not valid. This is judged first, before the log is looked at: also where log_len is 0.
 *   refused by 9    the store's length is wrong, judged next and before the log is looked at too; or, with a store of the right length, the next item
 *                   is one that no call has stored.
 *   refused by 8    the next packet is longer than what is left of out behind the `bytes` written. Empty out, or go on behind them with another, and
 *                   call again; plan.max bytes have room for any packet.
 */
struct stage_run stage_takes(struct stage_receiver *receiver, const uint8_t *store, size_t store_len, uint8_t *out, size_t out_len, uint64_t *log,
                             size_t log_len);

#ifdef __cplusplus
}
#endif

#endif
