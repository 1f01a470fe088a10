/* What the C programs over the archives share: the count of checks, what a refusal is, and what a call is lent.
 *
 * A program makes every call in two passes. In the first it lends its own buffers. In the second, `exact`, it lends copies on the heap of exactly
 * the length that the call is told, and frees them behind it: a memory checker then sees one byte read or written past an end, on either side. A
 * copy that was lent to be read must come back as it was. Each function is called under its own name; below, that name stands for the call
 * that lends. */
#ifndef LENT_H
#define LENT_H

#include "booth.h"

#include <stdio.h>
#include <stdlib.h>
#include <string.h>

static int exact;
static unsigned checks, failures;

static void check(int holds, const char *what)
{
    checks++;
    if (!holds) {
        failures++;
        printf("FAILED: %s%s\n", what, exact ? " (exact)" : "");
    }
}

/* That an answer refuses by this number, and that nothing which takes an answer apart finds something else in it: no length, no line, no counter and,
 * for a program that includes stage.h first, no kind. */
static void refuses(uint64_t answer, uint32_t number, const char *what)
{
    uint32_t low = (uint32_t)answer;

    check(answer == UINT64_C(256) + number && answer == STARKVITNE_REFUSAL(number), what);
    check(STARKVITNE_REFUSED(answer) && STARKVITNE_NUMBER(answer) == number, what);
    check(STARKVITNE_REFUSED(low) && STARKVITNE_NUMBER(low) == number, what);
    check(STRIPES_PLACE(answer) >= 256 && STRIPES_LINE(answer) >= 256 && STRIPES_LINE(low) >= 256, what);
    check(STRIPES_MARKER_LINE(answer) >= 256 && STRIPES_MARKER_COUNTER(answer) == 0, what);
    check(!STRIPES_DUE(answer) && !STRIPES_DUE(low) && low > STRIPES_PLAN_MOST, what);
#ifdef STAGE_H
    check(STAGE_LINE(answer) >= 256 && STAGE_KIND(answer) > STAGE_FULL, what);
#endif
}

/* Every refusal that there could be, by the macros alone. */
static void all_refusals(void)
{
    for (uint32_t number = 0; number < 256; number++)
        refuses(256 + number, number, "a refusal, by the macros");
}

/* A NULL stays NULL: it is lent with length 0. A buffer of length 0 is a heap buffer of no bytes. */
static void *lend(const void *bytes, size_t n)
{
    void *lent;

    if (!exact || bytes == NULL)
        return (void *)(uintptr_t)bytes;
    lent = calloc(n, 1);
    if (lent == NULL && n != 0)
        abort();
    if (n != 0)
        memcpy(lent, bytes, n);
    return lent;
}

/* What the call wrote goes to where it would have gone. */
static void give_back(void *lent, void *bytes, size_t n)
{
    if (lent == bytes)
        return;
    if (n != 0)
        memcpy(bytes, lent, n);
    free(lent);
}

static void put_away(void *lent, const void *bytes, size_t n)
{
    if (lent == bytes)
        return;
    check(n == 0 || memcmp(lent, bytes, n) == 0, "what was lent to be read stays");
    free(lent);
}

/* ---- the booth's calls */

static inline uint32_t lent_write_marker(uint32_t line, uint32_t round, uint32_t counter, uint8_t *out, size_t out_len)
{
    uint8_t *o = lend(out, out_len);
    uint32_t answer = stripes_write_marker(line, round, counter, o, out_len);

    give_back(o, out, out_len);
    return answer;
}

static inline uint32_t lent_check_plan(const uint8_t *record, size_t record_len)
{
    uint8_t *r = lend(record, record_len);
    uint32_t answer = stripes_check_plan(r, record_len);

    put_away(r, record, record_len);
    return answer;
}

static inline uint64_t lent_read_number(const uint8_t *bytes, size_t len)
{
    uint8_t *b = lend(bytes, len);
    uint64_t answer = stripes_read_number(b, len);

    put_away(b, bytes, len);
    return answer;
}

static inline uint32_t lent_write_number(uint32_t value, uint8_t *out, size_t out_len)
{
    uint8_t *o = lend(out, out_len);
    uint32_t answer = stripes_write_number(value, o, out_len);

    give_back(o, out, out_len);
    return answer;
}

static inline uint64_t lent_read_marker(const uint8_t *bytes, size_t len)
{
    uint8_t *b = lend(bytes, len);
    uint64_t answer = stripes_read_marker(b, len);

    put_away(b, bytes, len);
    return answer;
}

static inline uint32_t lent_write_plan(const struct stripes_plan *plan, uint8_t *out, size_t out_len)
{
    struct stripes_plan *p = lend(plan, sizeof *plan);
    uint8_t *o = lend(out, out_len);
    uint32_t answer = stripes_write_plan(p, o, out_len);

    put_away(p, plan, sizeof *plan);
    give_back(o, out, out_len);
    return answer;
}

static inline uint32_t lent_read_plan(struct stripes_plan *plan, const uint8_t *record, size_t record_len)
{
    struct stripes_plan *p = lend(plan, sizeof *plan);
    uint8_t *r = lend(record, record_len);
    uint32_t answer = stripes_read_plan(p, r, record_len);

    give_back(p, plan, sizeof *plan);
    put_away(r, record, record_len);
    return answer;
}

static inline uint32_t lent_copy_plan(const uint8_t *record, size_t record_len, uint8_t *out, size_t out_len)
{
    uint8_t *r = lend(record, record_len), *o = lend(out, out_len);
    uint32_t answer = stripes_copy_plan(r, record_len, o, out_len);

    put_away(r, record, record_len);
    give_back(o, out, out_len);
    return answer;
}

static inline uint32_t lent_open(struct stripes_sender *sender, const uint8_t *record, size_t record_len)
{
    struct stripes_sender *s = lend(sender, sizeof *sender);
    uint8_t *r = lend(record, record_len);
    uint32_t answer = stripes_open(s, r, record_len);

    give_back(s, sender, sizeof *sender);
    put_away(r, record, record_len);
    return answer;
}

static inline uint32_t lent_send(struct stripes_sender *sender, size_t length)
{
    struct stripes_sender *s = lend(sender, sizeof *sender);
    uint32_t answer = stripes_send(s, length);

    give_back(s, sender, sizeof *sender);
    return answer;
}

static inline uint32_t lent_marker(const struct stripes_sender *sender, uint32_t line, uint8_t *out, size_t out_len)
{
    struct stripes_sender *s = lend(sender, sizeof *sender);
    uint8_t *o = lend(out, out_len);
    uint32_t answer = stripes_marker(s, line, o, out_len);

    put_away(s, sender, sizeof *sender);
    give_back(o, out, out_len);
    return answer;
}

#define stripes_write_marker lent_write_marker
#define stripes_check_plan lent_check_plan
#define stripes_read_number lent_read_number
#define stripes_write_number lent_write_number
#define stripes_read_marker lent_read_marker
#define stripes_write_plan lent_write_plan
#define stripes_read_plan lent_read_plan
#define stripes_copy_plan lent_copy_plan
#define stripes_open lent_open
#define stripes_send lent_send
#define stripes_marker lent_marker

/* ---- the stage's calls, for a program that includes stage.h first */

#ifdef STAGE_H

static inline uint32_t lent_stage_open(struct stage_receiver *receiver, const uint8_t *record, size_t record_len, uint32_t size)
{
    struct stage_receiver *s = lend(receiver, sizeof *receiver);
    uint8_t *r = lend(record, record_len);
    uint32_t answer = stage_open(s, r, record_len, size);

    give_back(s, receiver, sizeof *receiver);
    put_away(r, record, record_len);
    return answer;
}

/* The two arrivals take the same arguments. */
typedef uint32_t arrival(struct stage_receiver *, uint32_t, const uint8_t *, size_t, uint8_t *, size_t);

static inline uint32_t lent_arrival(arrival *call, struct stage_receiver *receiver, uint32_t line, const uint8_t *bytes, size_t len, uint8_t *store,
                                    size_t store_len)
{
    struct stage_receiver *s = lend(receiver, sizeof *receiver);
    uint8_t *b = lend(bytes, len), *all = lend(store, store_len);
    uint32_t answer = call(s, line, b, len, all, store_len);

    give_back(s, receiver, sizeof *receiver);
    put_away(b, bytes, len);
    give_back(all, store, store_len);
    return answer;
}

static inline uint64_t lent_take(struct stage_receiver *receiver, const uint8_t *store, size_t store_len, uint8_t *out, size_t out_len)
{
    struct stage_receiver *s = lend(receiver, sizeof *receiver);
    uint8_t *all = lend(store, store_len), *o = lend(out, out_len);
    uint64_t answer = stage_take(s, all, store_len, o, out_len);

    give_back(s, receiver, sizeof *receiver);
    put_away(all, store, store_len);
    give_back(o, out, out_len);
    return answer;
}

static inline struct stage_run lent_takes(struct stage_receiver *receiver, const uint8_t *store, size_t store_len, uint8_t *out, size_t out_len,
                                          uint64_t *log, size_t log_len)
{
    struct stage_receiver *s = lend(receiver, sizeof *receiver);
    uint8_t *all = lend(store, store_len), *o = lend(out, out_len);
    uint64_t *l = lend(log, log_len * sizeof *log);
    struct stage_run answer = stage_takes(s, all, store_len, o, out_len, l, log_len);

    give_back(s, receiver, sizeof *receiver);
    put_away(all, store, store_len);
    give_back(o, out, out_len);
    give_back(l, log, log_len * sizeof *log);
    return answer;
}

#define stage_open lent_stage_open
#define stage_data(...) lent_arrival(stage_data, __VA_ARGS__)
#define stage_marker(...) lent_arrival(stage_marker, __VA_ARGS__)
#define stage_take lent_take
#define stage_takes lent_takes

#endif

#endif
