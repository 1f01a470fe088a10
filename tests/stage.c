/* Plays the session on paper through both archives, as include/booth.h and include/stage.h declare them, and provokes each number that a
 * call of the stage can answer; a refusal must leave receiver, store and output as they were. Prints the count of checks; exits with 1 where
 * one of them does not hold. Every check is made twice: lent.h says how. */
#include "stage.h"

#include "lent.h"

/* A line's store: enough for all of a session; and, for the refusals, two items of 503 and 500 bytes. */
enum { SIZE = 3000, STORE = 2 * SIZE, TIGHT = 1003, ROOM = 500, PACKETS = 8 };

/* 2 lines, Max 500, K 1, quanta 1000 and 500 */
static const uint8_t record[] = { 0x02, 0xF4, 0x03, 0x01, 0xE8, 0x07, 0xF4, 0x03 };
static const size_t lengths[PACKETS] = { 400, 500, 300, 450, 200, 500, 500, 100 };

static struct stage_receiver receiver;
static uint8_t store[STORE], packet[ROOM + 1], out[ROOM];

static void opened(uint32_t size)
{
    memset(store, 0, sizeof store);
    check(stage_open(&receiver, record, sizeof record, size) == 0, "opening");
}

/* Sends the eight packets, packet k of bytes k, and stores each on its line but the lost one; with markers, those that are due are stored too. */
static void feed(unsigned lost, int with_markers)
{
    struct stripes_sender sender;
    uint8_t marker[STRIPES_MARKER_MOST];

    opened(SIZE);
    check(stripes_open(&sender, record, sizeof record) == 0, "the sender's opening");
    for (unsigned k = 1; k <= PACKETS; k++) {
        uint32_t answer = stripes_send(&sender, lengths[k - 1]);
        memset(packet, (int)k, sizeof packet);
        if (k != lost)
            check(stage_data(&receiver, STRIPES_LINE(answer), packet, lengths[k - 1], store, STORE) == 0, "a packet is stored");
        for (uint32_t line = 0; with_markers && STRIPES_DUE(answer) && line < 2; line++) {
            uint32_t length = stripes_marker(&sender, line, marker, sizeof marker);
            check(stage_marker(&receiver, line, marker, length, store, STORE) == 0, "a marker is stored");
        }
    }
}

/* A word that is no refusal: its number, and what the macros find in it. */
static void says(uint64_t word, uint32_t kind, uint32_t line, uint64_t value, const char *what)
{
    check(word == line + 16 * (uint64_t)kind + 512 * value, what);
    check(!STARKVITNE_REFUSED(word) && STAGE_KIND(word) == kind && STAGE_LINE(word) == line && STAGE_VALUE(word) == value, what);
}

/* The numbers that the kinds stand for, and the words of the ends: the last line, the largest packet, the most that can be missing. */
static void words(void)
{
    const uint64_t most = UINT64_C(2147483647) * 1048576 + 1048575;

    all_refusals();
    check(STAGE_DATA == 0 && STAGE_MISSING == 1 && STAGE_BEHIND == 2 && STAGE_WAITING == 3 && STAGE_FULL == 4, "the kinds");
    says(15 + 512 * 9000, STAGE_DATA, 15, 9000, "the largest packet's word");
    says(31 + 512 * most, STAGE_MISSING, 15, most, "the word of the most that can be missing");
    says(47, STAGE_BEHIND, 15, 0, "the word of a marker behind");
    says(63, STAGE_WAITING, 15, 0, "the word of waiting");
    says(64, STAGE_FULL, 0, 0, "the word of a full log");
}

/* One take that must hand out packet k, whole, and leave the rest of the output. */
static void takes_packet(unsigned k, uint32_t line)
{
    size_t length = lengths[k - 1];
    memset(out, 0xEE, sizeof out);
    says(stage_take(&receiver, store, STORE, out, sizeof out), STAGE_DATA, line, length, "a packet's word");
    for (size_t i = 0; i < sizeof out; i++)
        if (out[i] != (i < length ? k : 0xEE)) {
            check(0, "a packet's bytes");
            return;
        }
    check(1, "a packet's bytes");
}

/* One take that must answer this word, and leave the output. */
static void takes_word(uint32_t kind, uint32_t line, uint64_t value, const char *what)
{
    memset(out, 0xEE, sizeof out);
    says(stage_take(&receiver, store, STORE, out, sizeof out), kind, line, value, what);
    for (size_t i = 0; i < sizeof out; i++)
        if (out[i] != 0xEE) {
            check(0, what);
            return;
        }
    check(1, what);
}

static void sessions(void)
{
    static const unsigned in_order[] = { 1, 2, 3, 4, 5, 6, 7, 8 }, lines[] = { 0, 0, 0, 1, 1, 0, 0, 1 };
    static const unsigned no_markers[] = { 1, 3, 6, 4, 5, 7 };
    static const uint8_t again[] = { 1, 2, 0xDE, 0x02 }, ahead[] = { 0, 0x80, 0x80, 0x80, 0x80, 0x08, 1 };

    feed(0, 0);
    for (unsigned i = 0; i < PACKETS; i++)
        takes_packet(in_order[i], lines[in_order[i] - 1]);
    takes_word(STAGE_WAITING, 1, 0, "waiting on line 1");
    check(stage_marker(&receiver, 1, again, sizeof again, store, STORE) == 0, "a marker that the line has gone past");
    takes_word(STAGE_BEHIND, 1, 0, "behind on line 1");

    feed(2, 0);
    for (unsigned i = 0; i < 6; i++)
        takes_packet(no_markers[i], lines[no_markers[i] - 1]);
    takes_word(STAGE_WAITING, 0, 0, "waiting on line 0");
    check(receiver.rings.used[0] == 0 && receiver.rings.used[1] == 3 + 100, "packet 8 is held");

    feed(2, 1);
    takes_packet(1, 0);
    takes_packet(3, 0);
    takes_word(STAGE_MISSING, 0, 500, "500 missing on line 0");
    takes_packet(4, 1);
    takes_packet(5, 1);
    takes_packet(6, 0);
    takes_packet(7, 0);
    takes_word(STAGE_MISSING, 1, 0, "none missing on line 1");
    takes_packet(8, 1);

    opened(SIZE);
    check(stage_marker(&receiver, 0, ahead, sizeof ahead, store, STORE) == 0, "a marker as far ahead as may be");
    takes_word(STAGE_MISSING, 0, UINT64_C(2147483647999), "more than 2^32 missing on line 0");
}

/* Whether a run has come so far: its takes and their bytes. */
static int reaches(struct stage_run run, size_t taken, size_t bytes)
{
    return run.taken == taken && run.bytes == bytes;
}

/* A run that comes so far, and ends because its log is full. */
static void fills(struct stage_run run, size_t taken, size_t bytes, const char *what)
{
    says(run.why, STAGE_FULL, 0, 0, what);
    check(reaches(run, taken, bytes), what);
}

/* The same, and ends because it waits on a line. */
static void waits(struct stage_run run, uint32_t line, size_t taken, size_t bytes, const char *what)
{
    says(run.why, STAGE_WAITING, line, 0, what);
    check(reaches(run, taken, bytes), what);
}

/* The same, and ends because a take is refused. */
static void stops(struct stage_run run, uint32_t number, size_t taken, size_t bytes, const char *what)
{
    refuses(run.why, number, what);
    check(reaches(run, taken, bytes), what);
}

/* A run of takes lays the packets one behind another, and logs each take. Ended by 8 or by a full log, the next goes on behind the last. */
static void run(void)
{
    static uint8_t first[1200], second[1200];
    static const uint64_t expected[] = { 512 * 400, 512 * 300, 16 + 512 * 500, 1 + 512 * 450 };
    uint64_t log[9];
    struct stage_run some;

    feed(2, 1);
    memset(first, 0xEE, sizeof first);
    memset(second, 0xEE, sizeof second);
    memset(log, 0xEE, sizeof log);
    some = stage_takes(&receiver, store, STORE, first, sizeof first, log, 1);
    fills(some, 1, 400, "one take fills the log");
    check(first[399] == 1 && first[400] == 0xEE, "one packet");
    stops(stage_takes(&receiver, store, STORE, first + some.bytes, sizeof first - some.bytes, log + 1, 8), 8, 3, 750,
          "three takes behind it, then too little room is left");
    check(memcmp(log, expected, sizeof expected) == 0 && log[4] == UINT64_C(0xEEEEEEEEEEEEEEEE), "the log");
    check(first[0] == 1 && first[399] == 1 && first[400] == 3 && first[699] == 3 && first[700] == 4 && first[1149] == 4 && first[1150] == 0xEE,
          "the packets");
    some = stage_takes(&receiver, store, STORE, second, 500, log, 9);
    stops(some, 8, 1, 200, "packet 5 goes on in a second output; for want of room not 6");
    stops(stage_takes(&receiver, store, STORE, second + some.bytes, sizeof second - some.bytes, log, 9), 8, 3, 1000,
          "6, 7 and a marker; for want of room not 8");
    check(second[0] == 5 && second[199] == 5 && second[200] == 6 && second[699] == 6 && second[700] == 7 && second[1199] == 7, "the packets behind 4");
    fills(stage_takes(&receiver, store, STORE, second, sizeof second, NULL, 0), 0, 0, "no log, no take");
    stops(stage_takes(&receiver, store, STORE, NULL, 0, log, 9), 8, 0, 0, "no output, no packet");
    waits(stage_takes(&receiver, store, STORE, second, sizeof second, log, 9), 1, 1, 100, "8, then waiting on line 1");
    waits(stage_takes(&receiver, store, STORE, second, sizeof second, log, 9), 1, 0, 0, "waiting on line 1");
    waits(stage_takes(&receiver, store, STORE, NULL, 0, log, 9), 1, 0, 0, "waiting on line 1 with no output");
}

/* A call whose answer must pass a check, and that must change nothing. */
#define KEEPS(checked, what)                                                              \
    do {                                                                                  \
        struct stage_receiver before = receiver;                                          \
        static uint8_t store_before[STORE], out_before[ROOM];                             \
        memcpy(store_before, store, STORE);                                               \
        memcpy(out_before, out, ROOM);                                                    \
        checked;                                                                          \
        check(memcmp(&before, &receiver, sizeof before) == 0, what " leaves the state");  \
        check(memcmp(store_before, store, STORE) == 0, what " leaves the store");         \
        check(memcmp(out_before, out, ROOM) == 0, what " leaves the output");             \
    } while (0)

#define REFUSED(call, number, what) KEEPS(refuses(call, number, what), what)

/* A run that must be refused, before its log is looked at: with none, and with one that must stay. */
static void run_refused(size_t store_len, uint32_t number)
{
    uint64_t log[2] = { 7, 7 };

    KEEPS(stops(stage_takes(&receiver, store, store_len, out, ROOM, NULL, 0), number, 0, 0, "a run with no log"), "a run with no log");
    KEEPS(stops(stage_takes(&receiver, store, store_len, out, ROOM, log, 2), number, 0, 0, "a run with a log"), "a run with a log");
    check(log[0] == 7 && log[1] == 7, "a refused run leaves the log");
}

/* An opening that must be refused leaves the closed state, whatever the receiver was. */
static void no_opening(const uint8_t *bytes, size_t n, uint32_t size, const char *what)
{
    struct stage_receiver closed;

    memset(&closed, 0, sizeof closed);
    memset(&receiver, 0xEE, sizeof receiver);
    refuses(stage_open(&receiver, bytes, n, size), 1, what);
    check(memcmp(&receiver, &closed, sizeof closed) == 0, what);
}

static void refusals(void)
{
    static const uint8_t good[] = { 0, 1, 0xE8, 0x07 }, cut[] = { 0, 1 }, zero[] = { 0, 1, 0 }, above[] = { 0, 1, 0xE9, 0x07 }, other[] = { 1, 1, 5 };
    uint64_t log[2] = { 7, 7 };

    no_opening(record, sizeof record, 502, "a store too small");
    no_opening(record, sizeof record, 65537, "a store too large");
    no_opening(record, sizeof record - 1, SIZE, "a record cut short");
    no_opening(NULL, 0, SIZE, "no record");
    REFUSED(stage_data(&receiver, 0, packet, 1, store, STORE), 2, "data to a closed receiver");
    REFUSED(stage_marker(&receiver, 0, good, sizeof good, store, STORE), 2, "a marker to a closed receiver");
    REFUSED(stage_take(&receiver, store, STORE, out, ROOM), 2, "a take of a closed receiver");
    run_refused(STORE, 2);
    run_refused(STORE - 1, 2);

    opened(TIGHT);
    REFUSED(stage_data(&receiver, 0, packet, 1, store, 2 * TIGHT - 1), 9, "a short store");
    REFUSED(stage_data(&receiver, 2, packet, 1, store, 2 * TIGHT), 3, "data on line 2");
    REFUSED(stage_data(&receiver, 0, NULL, 0, store, 2 * TIGHT), 4, "no data");
    REFUSED(stage_data(&receiver, 0, packet, 501, store, 2 * TIGHT), 4, "data above Max");
    REFUSED(stage_marker(&receiver, 0, good, sizeof good, store, 2 * TIGHT - 1), 9, "a marker to a short store");
    REFUSED(stage_marker(&receiver, 2, good, sizeof good, store, 2 * TIGHT), 3, "a marker on line 2");
    REFUSED(stage_marker(&receiver, 0, NULL, 0, store, 2 * TIGHT), 5, "no marker");
    REFUSED(stage_marker(&receiver, 0, cut, sizeof cut, store, 2 * TIGHT), 5, "a marker cut short");
    REFUSED(stage_marker(&receiver, 0, zero, sizeof zero, store, 2 * TIGHT), 5, "a counter of 0");
    REFUSED(stage_marker(&receiver, 0, above, sizeof above, store, 2 * TIGHT), 5, "a counter above the quantum");
    REFUSED(stage_marker(&receiver, 0, other, sizeof other, store, 2 * TIGHT), 6, "another line's marker");
    REFUSED(stage_take(&receiver, store, 2 * TIGHT - 1, out, ROOM), 9, "a take from a short store");
    run_refused(2 * TIGHT - 1, 9);
    run_refused(2 * TIGHT + 1, 9);
    KEEPS(says(stage_take(&receiver, store, 2 * TIGHT, out, ROOM), STAGE_WAITING, 0, 0, "an empty queue"), "an empty queue");
    KEEPS(says(stage_take(&receiver, store, 2 * TIGHT, NULL, 0), STAGE_WAITING, 0, 0, "no output"), "no output");

    check(stage_data(&receiver, 0, packet, 500, store, 2 * TIGHT) == 0, "the first packet");
    REFUSED(stage_data(&receiver, 0, packet, 498, store, 2 * TIGHT), 7, "a byte too much for the room");
    REFUSED(stage_take(&receiver, store, 2 * TIGHT, out, 499), 8, "an output a byte too short");
    REFUSED(stage_take(&receiver, store, 2 * TIGHT, NULL, 0), 8, "no output for a packet");
    check(stage_data(&receiver, 0, packet, 497, store, 2 * TIGHT) == 0, "an item that fills the ring");
    REFUSED(stage_marker(&receiver, 0, good, sizeof good, store, 2 * TIGHT), 7, "a marker to a full ring");
    store[0] = 2;
    REFUSED(stage_take(&receiver, store, 2 * TIGHT, out, ROOM), 9, "an item of no kind");
    store[0] = 0;
    store[2] = 4;
    REFUSED(stage_take(&receiver, store, 2 * TIGHT, out, ROOM), 9, "a length that lies");
    store[2] = 1;
    store[503] = 2;
    stops(stage_takes(&receiver, store, 2 * TIGHT, out, ROOM, log, 2), 9, 1, 500, "a run up to an item of no kind");
    check(log[0] == 512 * 500 && log[1] == 7, "the log of a run up to an item of no kind");
}

int main(void)
{
    for (exact = 0; exact < 2; exact++) {
        words();
        sessions();
        run();
        refusals();
    }
    printf("stage: %u checks, %u failed\n", checks, failures);
    return failures != 0;
}
