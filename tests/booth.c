/* Calls what include/booth.h declares and compares every answer, and every byte of the output, with what it must be.
 * Each number that a call can answer is provoked, but 10, which no state brings about. Prints the session's figures, then
 * the count of checks; exits with 1 where one of them does not hold. Every check is made twice: lent.h says how. */
#include "booth.h"

#include "lent.h"

enum { ROOM = 16, UNTOUCHED = 0xEE };

/* 2 lines, Max 500, K 1, quanta 1000 and 500 */
static const uint8_t session_record[] = { 0x02, 0xF4, 0x03, 0x01, 0xE8, 0x07, 0xF4, 0x03 };

static void print_bytes(const uint8_t *bytes, size_t n)
{
    for (size_t i = 0; i < n; i++)
        printf(" %02X", bytes[i]);
    printf("\n");
}

/* Whether these bytes are at the front of an output, and nothing is written behind them. */
static int holds(const uint8_t *out, size_t room, const uint8_t *bytes, size_t n)
{
    for (size_t i = n; i < room; i++)
        if (out[i] != UNTOUCHED)
            return 0;
    return n == 0 || memcmp(out, bytes, n) == 0;
}

/* ---- the rule for answers */

/* Answers that are no refusal, taken apart; and the numbers that the rule's own macros stand for. */
static void rule(void)
{
    const uint64_t largest = 5 + (UINT64_C(4294967295) << 32), longest = 15 + 512 * UINT64_C(1048576) + (UINT64_C(4294967295) << 32);

    all_refusals();
    check(STARKVITNE_REFUSAL(5) == 261 && STARKVITNE_REFUSAL(STARKVITNE_COUNTER) == 266, "the answer that refuses by a number");
    check(!STARKVITNE_REFUSED(0u) && !STARKVITNE_REFUSED(31u) && !STARKVITNE_REFUSED(largest) && !STARKVITNE_REFUSED(longest), "no refusals");
    check(STRIPES_PLACE(largest) == 5 && STRIPES_VALUE(largest) == UINT32_MAX, "the largest number's answer");
    check(STRIPES_MARKER_LINE(longest) == 15 && STRIPES_MARKER_COUNTER(longest) == 1048576 && STRIPES_MARKER_ROUND(longest) == UINT32_MAX,
          "the longest marker's answer");
    for (uint32_t line = 0; line < STARKVITNE_LINES_MOST; line++) {
        check(STRIPES_LINE(line) == line && !STRIPES_DUE(line), "a line");
        check(STRIPES_LINE(line + 16) == line && STRIPES_DUE(line + 16), "a line, and markers due");
    }
}

/* ---- numbers by themselves */

/* What stripes_read_number makes of bytes that begin with a number. */
static void number(const uint8_t *bytes, size_t n, uint32_t value, uint32_t place, const char *what)
{
    uint64_t answer = stripes_read_number(bytes, n);

    check(answer == place + ((uint64_t)value << 32), what);
    check(!STARKVITNE_REFUSED(answer) && STRIPES_PLACE(answer) == place && STRIPES_VALUE(answer) == value, what);
}

#define NUMBER(value, place, what, ...)                     \
    do {                                                    \
        static const uint8_t bytes[] = { __VA_ARGS__ };     \
        number(bytes, sizeof bytes, value, place, what);    \
    } while (0)

#define NO_NUMBER(what, ...)                                            \
    do {                                                                \
        static const uint8_t bytes[] = { __VA_ARGS__ };                 \
        refuses(stripes_read_number(bytes, sizeof bytes), 5, what);     \
    } while (0)

/* Written in its shortest form, read back, and refused in any output that is shorter. */
static void written_number(uint32_t value, uint32_t length, const uint8_t *bytes, const char *what)
{
    uint8_t out[ROOM];

    memset(out, UNTOUCHED, sizeof out);
    for (size_t room = 0; room < length; room++)
        refuses(stripes_write_number(value, out, room), 8, what);
    check(holds(out, sizeof out, NULL, 0), what);
    check(stripes_write_number(value, out, length) == length, what);
    check(holds(out, sizeof out, bytes, length), what);
    number(out, sizeof out, value, length, what);
    for (size_t n = 0; n < length; n++)
        refuses(stripes_read_number(out, n), 5, what);
}

#define WRITTEN(value, what, ...)                                   \
    do {                                                            \
        static const uint8_t bytes[] = { __VA_ARGS__ };             \
        written_number(value, sizeof bytes, bytes, what);           \
    } while (0)

static void numbers(void)
{
    WRITTEN(0, "0", 0x00);
    WRITTEN(127, "127", 0x7F);
    WRITTEN(128, "128", 0x80, 0x01);
    WRITTEN(16383, "the largest of two bytes", 0xFF, 0x7F);
    WRITTEN(16384, "the least of three bytes", 0x80, 0x80, 0x01);
    WRITTEN(UINT32_MAX, "the largest number", 0xFF, 0xFF, 0xFF, 0xFF, 0x0F);
    NUMBER(127, 1, "bytes after a number", 0x7F, 0xFF, 0xFF);
    NUMBER(0, 1, "0 is a number", 0x00);
    NO_NUMBER("128 in a longer form", 0x80, 0x81, 0x00);
    NO_NUMBER("0 in two bytes", 0x80, 0x00);
    NO_NUMBER("2^32", 0x80, 0x80, 0x80, 0x80, 0x10);
    NO_NUMBER("2^33 - 1", 0xFF, 0xFF, 0xFF, 0xFF, 0x1F);
    NO_NUMBER("six bytes", 0x80, 0x80, 0x80, 0x80, 0x80, 0x01);
    refuses(stripes_read_number(NULL, 0), 5, "NULL of length 0");
    refuses(stripes_write_number(0, NULL, 0), 8, "a number into NULL of length 0");
}

/* ---- markers */

/* One call of the writer on a buffer of `room` bytes: its answer, and what stands in the whole buffer afterwards. */
static void marker(uint32_t line, uint32_t round, uint32_t counter, size_t room, uint32_t length, const uint8_t *bytes, const char *what)
{
    uint8_t out[ROOM];

    memset(out, UNTOUCHED, sizeof out);
    check(stripes_write_marker(line, round, counter, out, room) == length, what);
    check(holds(out, sizeof out, bytes, length), what);
}

static void refused(uint32_t line, uint32_t round, uint32_t counter, size_t room, uint32_t number, const char *what)
{
    uint8_t out[ROOM];

    memset(out, UNTOUCHED, sizeof out);
    refuses(stripes_write_marker(line, round, counter, out, room), number, what);
    check(holds(out, sizeof out, NULL, 0), what);
}

/* What stripes_read_marker makes of the record of a marker in range, whole and cut. */
static void marker_read(uint32_t line, uint32_t round, uint32_t counter, const char *what)
{
    uint8_t record[STRIPES_MARKER_MOST] = { 0 };
    uint32_t length = stripes_write_marker(line, round, counter, record, sizeof record);
    uint64_t answer = stripes_read_marker(record, length);

    check(!STARKVITNE_REFUSED(answer), what);
    check(STRIPES_MARKER_LINE(answer) == line, what);
    check(STRIPES_MARKER_ROUND(answer) == round, what);
    check(STRIPES_MARKER_COUNTER(answer) == counter, what);
    check(answer == line + 512 * (uint64_t)counter + ((uint64_t)round << 32), what);
    for (size_t n = 0; n < length; n++)
        refuses(stripes_read_marker(record, n), 5, what);
}

#define NO_MARKER(number, what, ...)                                        \
    do {                                                                    \
        static const uint8_t bytes[] = { __VA_ARGS__ };                     \
        refuses(stripes_read_marker(bytes, sizeof bytes), number, what);    \
    } while (0)

static void markers_read(void)
{
    marker_read(0, 2, 800, "the session's marker on line 0, read");
    marker_read(1, 2, 350, "the session's marker on line 1, read");
    marker_read(15, UINT32_MAX, 1048576, "the longest marker, read");
    marker_read(0, 0, 1, "the shortest marker, read");
    marker_read(15, 0, 1048576, "the largest line and counter, read");
    NO_MARKER(5, "a byte over", 0x00, 0x02, 0xA0, 0x06, 0x00);
    NO_MARKER(5, "a line not in its shortest form", 0x80, 0x00, 0x02, 0xA0, 0x06);
    NO_MARKER(5, "a counter not in its shortest form", 0x00, 0x02, 0xA0, 0x86, 0x00);
    NO_MARKER(5, "a round of 2^32", 0x00, 0x80, 0x80, 0x80, 0x80, 0x10, 0x01);
    NO_MARKER(5, "counter 0, read", 0x00, 0x02, 0x00);
    NO_MARKER(5, "a counter above every quantum, read", 0x00, 0x02, 0x81, 0x80, 0x40);
    NO_MARKER(3, "line 16, read", 0x10, 0x02, 0xA0, 0x06);
    NO_MARKER(5, "line and counter wrong: 5 first", 0x10, 0x02, 0x00);
    refuses(stripes_read_marker(NULL, 0), 5, "a marker read from NULL of length 0");
}

static void markers(void)
{
    static const uint8_t line_0[] = { 0x00, 0x02, 0xA0, 0x06 };
    static const uint8_t line_1[] = { 0x01, 0x02, 0xDE, 0x02 };
    static const uint8_t longest[] = { 0x0F, 0xFF, 0xFF, 0xFF, 0xFF, 0x0F, 0x80, 0x80, 0x40 };
    static const uint8_t shortest[] = { 0x00, 0x00, 0x01 };

    marker(0, 2, 800, ROOM, 4, line_0, "the session's marker on line 0");
    marker(1, 2, 350, ROOM, 4, line_1, "the session's marker on line 1");
    marker(1, 2, 350, 4, 4, line_1, "a marker that just fits");
    marker(15, UINT32_MAX, 1048576, ROOM, STRIPES_MARKER_MOST, longest, "the longest marker");
    marker(0, 0, 1, ROOM, 3, shortest, "the shortest marker");

    refused(16, 2, 800, ROOM, 3, "line 16");
    refused(UINT32_MAX, 2, 800, ROOM, 3, "the largest line");
    refused(0, 2, 0, ROOM, 5, "counter 0");
    refused(0, 2, 1048577, ROOM, 5, "counter above every quantum");
    refused(0, 2, 800, 3, 8, "one byte too little room");
    refused(0, 2, 800, 0, 8, "no room");
    refused(16, 2, 0, 0, 3, "line, counter and room wrong: 3 first");
    refused(0, 2, 0, 0, 5, "counter and room wrong: 5 before 8");
    refuses(stripes_write_marker(0, 2, 800, NULL, 0), 8, "NULL of length 0");
}

/* ---- plan records */

/* A record that is none: the plan that was there before must be gone, to the last byte. */
static void no_plan_read(const uint8_t *record, size_t n, const char *what)
{
    struct stripes_plan plan, zeros;

    memset(&plan, UNTOUCHED, sizeof plan);
    memset(&zeros, 0, sizeof zeros);
    refuses(stripes_read_plan(&plan, record, n), 1, what);
    check(memcmp(&plan, &zeros, sizeof plan) == 0, what);
}

/* The check of a record, which answers 0 or the number itself, and its reading. What is read is written as the same record. */
static void plan_record(const uint8_t *record, size_t n, uint32_t number, const char *what)
{
    struct stripes_plan plan;
    uint8_t out[STRIPES_PLAN_MOST];

    check(stripes_check_plan(record, n) == number, what);
    if (number != 0) {
        no_plan_read(record, n, what);
        return;
    }
    memset(&plan, UNTOUCHED, sizeof plan);
    memset(out, UNTOUCHED, sizeof out);
    check(stripes_read_plan(&plan, record, n) == 0, what);
    check(stripes_write_plan(&plan, out, sizeof out) == n && holds(out, sizeof out, record, n), what);
}

#define PLAN(number, what, ...)                             \
    do {                                                    \
        static const uint8_t record[] = { __VA_ARGS__ };    \
        plan_record(record, sizeof record, number, what);   \
    } while (0)

static void plans(void)
{
    plan_record(session_record, sizeof session_record, 0, "the session's plan");
    for (size_t n = 0; n < sizeof session_record; n++)
        plan_record(session_record, n, 1, "the session's plan, cut");
    plan_record(NULL, 0, 1, "NULL of length 0");
    PLAN(1, "a byte over", 0x02, 0xF4, 0x03, 0x01, 0xE8, 0x07, 0xF4, 0x03, 0x00);

    PLAN(0, "the least plan", 0x01, 0x40, 0x01, 0x40);
    PLAN(0, "the largest numbers", 0x01, 0xA8, 0x46, 0xFF, 0xFF, 0x03, 0x80, 0x80, 0x40);
    PLAN(0, "sixteen lines", 0x10, 0x40, 0x01, 0x40, 0x40, 0x40, 0x40, 0x40, 0x40, 0x40, 0x40, 0x40, 0x40, 0x40, 0x40, 0x40, 0x40, 0x40, 0x40);
    PLAN(1, "no line", 0x00, 0x40, 0x01);
    PLAN(1, "seventeen lines", 0x11, 0x40, 0x01, 0x40, 0x40, 0x40, 0x40, 0x40, 0x40, 0x40, 0x40, 0x40, 0x40, 0x40, 0x40, 0x40, 0x40, 0x40, 0x40, 0x40);
    PLAN(1, "Max 63", 0x01, 0x3F, 0x01, 0x40);
    PLAN(1, "Max 9001", 0x01, 0xA9, 0x46, 0x01, 0xA9, 0x46);
    PLAN(1, "K 0", 0x01, 0x40, 0x00, 0x40);
    PLAN(1, "K 65536", 0x01, 0x40, 0x80, 0x80, 0x04, 0x40);
    PLAN(1, "a quantum below Max", 0x01, 0x41, 0x01, 0x40);
    PLAN(1, "a quantum of 1048577", 0x01, 0x40, 0x01, 0x81, 0x80, 0x40);
    PLAN(1, "a number not in its shortest form", 0x81, 0x00, 0x40, 0x01, 0x40);
    PLAN(1, "a number of 2^32", 0x01, 0x40, 0x01, 0x80, 0x80, 0x80, 0x80, 0x10);
}

/* Copies a record of a plan in range: byte for byte, refused in any output that is shorter. */
static void copied(const uint8_t *record, size_t n, const char *what)
{
    uint8_t out[STRIPES_PLAN_MOST + 1];

    memset(out, UNTOUCHED, sizeof out);
    for (size_t room = 0; room < n; room++)
        refuses(stripes_copy_plan(record, n, out, room), 8, what);
    for (size_t cut = 0; cut < n; cut++)
        refuses(stripes_copy_plan(record, cut, out, sizeof out), 1, what);
    refuses(stripes_copy_plan(record, n, NULL, 0), 8, what);
    check(holds(out, sizeof out, NULL, 0), what);
    check(stripes_copy_plan(record, n, out, n) == n && holds(out, sizeof out, record, n), what);
    memset(out, UNTOUCHED, sizeof out);
    check(stripes_copy_plan(record, n, out, sizeof out) == n && holds(out, sizeof out, record, n), what);
}

static const uint8_t least[] = { 0x01, 0x40, 0x01, 0x40 };

/* 16 lines, Max 9000, K 65535, quanta 1048576: the longest record. */
static const uint8_t *longest(void)
{
    static uint8_t record[STRIPES_PLAN_MOST] = { 0x10, 0xA8, 0x46, 0xFF, 0xFF, 0x03 };

    for (size_t i = 6; i < sizeof record; i += 3) {
        record[i] = record[i + 1] = 0x80;
        record[i + 2] = 0x40;
    }
    return record;
}

static void copies(void)
{
    static const uint8_t over[] = { 0x01, 0x40, 0x01, 0x40, 0x00 };
    static const uint8_t longer[] = { 0x81, 0x00, 0x40, 0x01, 0x40 };
    uint8_t out[ROOM];

    copied(session_record, sizeof session_record, "the session's plan, copied");
    copied(least, sizeof least, "the least plan, copied");
    copied(longest(), STRIPES_PLAN_MOST, "the longest plan, copied");
    memset(out, UNTOUCHED, sizeof out);
    refuses(stripes_copy_plan(over, sizeof over, out, sizeof out), 1, "a byte over, copied");
    refuses(stripes_copy_plan(longer, sizeof longer, out, sizeof out), 1, "a number not in its shortest form, copied");
    refuses(stripes_copy_plan(NULL, 0, out, sizeof out), 1, "NULL of length 0, copied");
    check(holds(out, sizeof out, NULL, 0), "a record that is none leaves the output");
    refuses(stripes_copy_plan(NULL, 0, NULL, 0), 1, "record and room wrong: 1 before 8");
}

/* ---- plans as C holds them */

/* A plan whose quanta are one number. The entries behind its lines are filled with what is in no range. */
static struct stripes_plan plan_of(uint32_t lines, uint32_t max, uint32_t interval, uint32_t quantum)
{
    struct stripes_plan plan;

    memset(&plan, UNTOUCHED, sizeof plan);
    plan.lines = lines;
    plan.max = max;
    plan.interval = interval;
    for (uint32_t i = 0; i < lines && i < STARKVITNE_LINES_MOST; i++)
        plan.quanta[i] = quantum;
    return plan;
}

/* A plan in range is written as this record, whatever stands behind its lines, and the record is read as the plan with zeros there. No output that is
 * shorter and no record that is cut does. */
static void round_trip(struct stripes_plan plan, const uint8_t *record, size_t n, const char *what)
{
    struct stripes_plan before = plan, back;
    uint8_t out[STRIPES_PLAN_MOST + 1];

    memset(out, UNTOUCHED, sizeof out);
    for (size_t room = 0; room < n; room++)
        refuses(stripes_write_plan(&plan, out, room), 8, what);
    refuses(stripes_write_plan(&plan, NULL, 0), 8, what);
    check(holds(out, sizeof out, NULL, 0), what);
    check(stripes_write_plan(&plan, out, n) == n && holds(out, sizeof out, record, n), what);
    memset(out, UNTOUCHED, sizeof out);
    check(stripes_write_plan(&plan, out, sizeof out) == n && holds(out, sizeof out, record, n), what);
    check(memcmp(&plan, &before, sizeof plan) == 0, what);

    memset(&back, UNTOUCHED, sizeof back);
    check(stripes_read_plan(&back, out, n) == 0, what);
    for (uint32_t i = plan.lines; i < STARKVITNE_LINES_MOST; i++)
        plan.quanta[i] = 0;
    check(memcmp(&plan, &back, sizeof plan) == 0, what);
    for (size_t cut = 0; cut < n; cut++)
        no_plan_read(record, cut, what);
}

/* A plan out of range: 1 before 8, and neither plan nor output is touched. */
static void no_plan(struct stripes_plan plan, const char *what)
{
    struct stripes_plan before = plan;
    uint8_t out[STRIPES_PLAN_MOST];

    memset(out, UNTOUCHED, sizeof out);
    for (size_t room = 0; room <= sizeof out; room++)
        refuses(stripes_write_plan(&plan, out, room), 1, what);
    refuses(stripes_write_plan(&plan, NULL, 0), 1, what);
    check(holds(out, sizeof out, NULL, 0), what);
    check(memcmp(&plan, &before, sizeof plan) == 0, what);
}

/* A quantum that is one beyond its range, on each line by itself. */
static void no_quantum(uint32_t lines, uint32_t quantum, const char *what)
{
    for (uint32_t i = 0; i < lines; i++) {
        struct stripes_plan plan = plan_of(lines, 65, 1, 1048576);

        plan.quanta[i] = quantum;
        no_plan(plan, what);
    }
}

static void structs(void)
{
    static const uint8_t largest[] = { 0x01, 0xA8, 0x46, 0xFF, 0xFF, 0x03, 0x80, 0x80, 0x40 };
    static const uint8_t sixteen[] = { 0x10, 0x40, 0x01, 0x40, 0x40, 0x40, 0x40, 0x40, 0x40, 0x40,
                                       0x40, 0x40, 0x40, 0x40, 0x40, 0x40, 0x40, 0x40, 0x40 };
    struct stripes_plan plan = plan_of(2, 500, 1, 500);

    plan.quanta[0] = 1000;
    round_trip(plan, session_record, sizeof session_record, "the session's plan, written and read");
    round_trip(plan_of(1, 64, 1, 64), least, sizeof least, "the least plan, written and read");
    round_trip(plan_of(1, 9000, 65535, 1048576), largest, sizeof largest, "the largest numbers, written and read");
    round_trip(plan_of(16, 64, 1, 64), sixteen, sizeof sixteen, "sixteen lines, written and read");
    round_trip(plan_of(16, 9000, 65535, 1048576), longest(), STRIPES_PLAN_MOST, "the longest plan, written and read");

    no_plan(plan_of(0, 64, 1, 64), "no line, written");
    no_plan(plan_of(17, 64, 1, 64), "seventeen lines, written");
    no_plan(plan_of(UINT32_MAX, 64, 1, 64), "the largest number of lines, written");
    no_plan(plan_of(1, 63, 1, 64), "Max 63, written");
    no_plan(plan_of(1, 9001, 1, 9001), "Max 9001, written");
    no_plan(plan_of(1, 64, 0, 64), "K 0, written");
    no_plan(plan_of(1, 64, 65536, 64), "K 65536, written");
    no_quantum(1, 64, "a quantum below Max, written");
    no_quantum(16, 64, "a quantum of sixteen below Max, written");
    no_quantum(1, 1048577, "a quantum of 1048577, written");
    no_quantum(16, 1048577, "a quantum of sixteen of 1048577, written");
    memset(&plan, UNTOUCHED, sizeof plan);
    no_plan(plan, "a plan that was never filled, written");
    memset(&plan, 0, sizeof plan);
    no_plan(plan, "a plan of zeros, written");
    no_plan_read(NULL, 0, "NULL of length 0, read");
}

/* ---- the session on paper, through the sender */

static void session(void)
{
    static const size_t lengths[] = { 400, 500, 300, 450, 200, 500, 500, 100 };
    static const uint32_t lines[] = { 0, 0, 0, 1, 1, 0, 0, 1 };
    static const uint8_t line_0[] = { 0x00, 0x02, 0xA0, 0x06 };
    static const uint8_t line_1[] = { 0x01, 0x02, 0xDE, 0x02 };
    struct stripes_sender s;
    uint8_t out[STRIPES_MARKER_MOST];

    memset(&s, UNTOUCHED, sizeof s);
    check(stripes_open(&s, session_record, sizeof session_record) == 0, "the session's sender opens");
    check(s.plan.quanta[2] == 0 && s.rounds[2] == 0 && s.counters[15] == 0, "entries from line N on are zero");
    for (size_t i = 0; i < 8; i++) {
        uint32_t answer = stripes_send(&s, lengths[i]);

        check(answer == lines[i] + (i == 4 ? 16 : 0), "the session's answer");
        check(!STARKVITNE_REFUSED(answer) && STRIPES_LINE(answer) == lines[i], "the session's choice");
        check(STRIPES_DUE(answer) == (i == 4), "markers are due after packet 5 alone");
        if (STRIPES_DUE(answer)) {
            check(stripes_marker(&s, 0, out, sizeof out) == 4 && memcmp(out, line_0, 4) == 0, "the marker on line 0");
            check(stripes_marker(&s, 1, out, sizeof out) == 4 && memcmp(out, line_1, 4) == 0, "the marker on line 1");
        }
    }
}

/* One refused call, and that it left the sender alone. */
#define KEEPS(sender, call, number, what)                               \
    do {                                                                \
        struct stripes_sender before = (sender);                        \
        refuses(call, number, what);                                    \
        check(memcmp(&before, &(sender), sizeof before) == 0, what);    \
    } while (0)

static void sender_refusals(void)
{
    static const uint8_t bad[] = { 0x00, 0x40, 0x01 };
    struct stripes_sender s, closed;
    uint8_t out[STRIPES_MARKER_MOST];

    memset(out, UNTOUCHED, sizeof out);
    memset(&closed, 0, sizeof closed);
    memset(&s, UNTOUCHED, sizeof s);
    KEEPS(s, stripes_send(&s, 100), 2, "a sender that was never opened");
    KEEPS(s, stripes_marker(&s, 0, out, sizeof out), 2, "a marker from a sender that was never opened");
    refuses(stripes_open(&s, bad, sizeof bad), 1, "no sender opens on a bad plan");
    check(memcmp(&s, &closed, sizeof s) == 0, "the closed state is all zeros");
    KEEPS(s, stripes_send(&s, 100), 2, "a closed sender");
    memset(&s, UNTOUCHED, sizeof s);
    refuses(stripes_open(&s, NULL, 0), 1, "no sender opens on no record");
    check(memcmp(&s, &closed, sizeof s) == 0, "the closed state, again");

    check(stripes_open(&s, session_record, sizeof session_record) == 0, "the sender opens again");
    KEEPS(s, stripes_send(&s, 0), 4, "no byte");
    KEEPS(s, stripes_send(&s, 501), 4, "a byte more than the largest packet");
    KEEPS(s, stripes_send(&s, SIZE_MAX), 4, "the largest length");
    KEEPS(s, stripes_marker(&s, 2, out, sizeof out), 3, "a marker on line N");
    KEEPS(s, stripes_marker(&s, 0, out, 3), 8, "a marker into too little room");
    KEEPS(s, stripes_marker(&s, 0, NULL, 0), 8, "a marker into no room");
    check(holds(out, sizeof out, NULL, 0), "a refused marker leaves the output");
    s.counters[1] = 0;
    KEEPS(s, stripes_send(&s, 100), 2, "a counter of 0");
    s.counters[1] = 500;
    s.line = 2;
    KEEPS(s, stripes_send(&s, 100), 2, "a current line that is none");
    s.line = 1;
    s.rounds[2] = 77;
    s.counters[15] = 78;
    check(stripes_send(&s, 100) == 1 && s.rounds[2] == 77 && s.counters[15] == 78, "entries from line N on are ignored and kept");
}

int main(void)
{
    uint8_t out[STRIPES_MARKER_MOST];

    printf("plan record:");
    print_bytes(session_record, sizeof session_record);
    printf("plan check: %u\n", (unsigned)stripes_check_plan(session_record, sizeof session_record));
    printf("marker on line 0 at round 2, counter 800:");
    print_bytes(out, stripes_write_marker(0, 2, 800, out, sizeof out));
    printf("marker on line 1 at round 2, counter 350:");
    print_bytes(out, stripes_write_marker(1, 2, 350, out, sizeof out));

    for (exact = 0; exact < 2; exact++) {
        rule();
        numbers();
        markers();
        markers_read();
        plans();
        copies();
        structs();
        session();
        sender_refusals();
    }
    printf("booth: %u checks, %u failed\n", checks, failures);
    return failures != 0;
}
