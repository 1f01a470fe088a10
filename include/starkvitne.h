/* Starkvitne: what the booth's calls (booth.h) and the stage's (stage.h) share: the numbers of refusals, the table of ranges, and the plan.
 *
 * The archives are code for x86-64, by the calling convention of its C compilers on Linux. */
#ifndef STARKVITNE_H
#define STARKVITNE_H

#include <stddef.h>
#include <stdint.h>

/* The interface; the first number rises where a program has to be changed for it. */
#define STARKVITNE_VERSION_MAJOR 1
#define STARKVITNE_VERSION_MINOR 0

/* ---- How a call answers.
 *
 * Every call answers in one way, be it in 32 bits or in 64: bit 8 set is a refusal, and its number stands in the eight bits below, so that the whole
 * answer is 256 plus the number. With bit 8 clear it is what the call's own words say; 0 where they say nothing. The macros that take an answer apart
 * keep bit 8: of a refusal none of them gives a line, a length or a kind that there is.
 *
 * One call is older than this rule: stripes_check_plan answers the number itself, or 0. */
#define STARKVITNE_REFUSED(answer) (((answer) & 256u) != 0)
#define STARKVITNE_NUMBER(answer) ((uint32_t)((answer) & 255u))

/* The answer that refuses by a number, to compare with. */
#define STARKVITNE_REFUSAL(number) (256u + (number))

/* ---- The table of numbers. docs/NUMBERS.md says what to do on each. */

enum starkvitne_number {
    STARKVITNE_ACCEPTED = 0,
    STARKVITNE_PLAN = 1,
    STARKVITNE_STATE = 2,
    STARKVITNE_LINE = 3,
    STARKVITNE_LENGTH = 4,
    STARKVITNE_NO_MARKER = 5,
    STARKVITNE_OTHER_LINE = 6,
    STARKVITNE_NO_ROOM = 7, /* the packet or marker counts as lost on its line: the next marker that comes through reports it */
    STARKVITNE_SHORT_OUTPUT = 8,
    STARKVITNE_STORE = 9,
    STARKVITNE_COUNTER = 10,
    STARKVITNE_BEHIND = 11 /* an outcome of a take, not a refusal */
};

/* What a number means, in a few words; NULL for one that is not in the table. */
static inline const char *starkvitne_text(uint32_t number)
{
    switch (number) {
    case STARKVITNE_PLAN: return "the plan, its record, or the store's bytes a line break the ranges";
    case STARKVITNE_STATE: return "the state is not one that the calls leave";
    case STARKVITNE_LINE: return "no such line in this plan";
    case STARKVITNE_LENGTH: return "a packet of no bytes, or longer than Max";
    case STARKVITNE_NO_MARKER: return "these bytes are no marker or no number, or the counter is above the line's quantum";
    case STARKVITNE_OTHER_LINE: return "the marker names another line";
    case STARKVITNE_NO_ROOM: return "the line's ring is full";
    case STARKVITNE_SHORT_OUTPUT: return "the output is shorter than what is to be written";
    case STARKVITNE_STORE: return "the store is not N × S bytes, or what stands at a ring's head is no item";
    case STARKVITNE_COUNTER: return "the counter is not positive after its quantum";
    case STARKVITNE_BEHIND: return "a marker is behind its line; it is removed, nothing is missing by it";
    default: return NULL;
    }
}

/* ---- The table of ranges; docs/BOOTH.md says how to choose.
 *
 *   N        plan.lines      1 to 16          lines, numbered from 0 in the plan's order
 *   Max      plan.max        64 to 9,000      bytes: the largest packet
 *   K        plan.interval   1 to 65,535      rounds from one set of markers to the next
 *   quantum  plan.quanta[i]  Max to 1,048,576 bytes that line i carries in a round
 *   S        `size`          Max + 3 to 65,536 bytes of store for each line, at the stage alone
 */
#define STARKVITNE_LINES_MOST 16u
#define STARKVITNE_MAX_LEAST 64u
#define STARKVITNE_MAX_MOST 9000u
#define STARKVITNE_INTERVAL_MOST 65535u
#define STARKVITNE_QUANTUM_MOST 1048576u
#define STARKVITNE_STORE_LEAST(max) ((max) + 3u)
#define STARKVITNE_STORE_MOST 65536u

/* No number, marker record or plan record is longer: a buffer of that size has room for every one. */
#define STRIPES_NUMBER_MOST 5u
#define STRIPES_MARKER_MOST 9u
#define STRIPES_PLAN_MOST 54u

/* What both ends agree on. Entries for lines from `lines` on are ignored and kept. */
struct stripes_plan {
    uint32_t lines;
    uint32_t max;
    uint32_t interval;
    uint32_t quanta[STARKVITNE_LINES_MOST];
};

/* A struct that a compiler lays out in another way than the archives do stops the program's own build. */
#define STARKVITNE_SIZE(name, bytes) typedef char starkvitne_size_of_##name[sizeof(struct name) == (bytes) ? 1 : -1]

STARKVITNE_SIZE(stripes_plan, 76);

#endif
