/* Both ends of a bundle in two processes, over pairs of local datagram sockets, one pair a line: an order of calls for a driver to copy, and what to do on
 * each number. The booth makes packets and drops some of what it puts on the lines; the stage hands them out, and holds what the markers report missing
 * against what was dropped.
 *
 *   cc -std=c99 -O2 -Iinclude -o pair examples/pair.c crates/stage/out/libstage.a crates/booth/out/libbooth.a
 *
 * Ends with 0 where the two are equal, with 1 where something does not hold, with 2 where there was no run to judge. */
#define _POSIX_C_SOURCE 200809L

#include "booth.h"
#include "stage.h"

#include <errno.h>
#include <inttypes.h>
#include <poll.h>
#include <stdbool.h>
#include <stdio.h>
#include <stdlib.h>
#include <string.h>
#include <sys/socket.h>
#include <sys/wait.h>
#include <unistd.h>

static const char usage[] = "pair [PACKETS [LOSS [SEED]]]: 1 to 1000000 packets (2000), 0 to 50 percent of all datagrams dropped (5), a seed (1)\n";

/* Three lines whose rates are as 1 to 2 to 3. S is small, four largest packets with three bytes each, so that a heavy loss shows refusals by 7 too;
 * docs/BOOTH.md says how to choose it. */
enum { LINES = 3, MAX = 1500, INTERVAL = 4, SIZE = 4 * (MAX + 3) };
static const struct stripes_plan plan = { LINES, MAX, INTERVAL, { 1500, 3000, 4500 } };

/* The link has to say of an arrival whether it is a packet or a marker. Here a byte before it does; a real link has a protocol number or a port for it,
 * and a packet has no header of ours. */
enum { PACKET, MARKER };

/* ---- What goes wrong */

static void fail(const char *what)
{
    perror(what);
    exit(2);
}

enum advice { STOP, LOST, EMPTY, NOTHING };

/* What to do on each number; docs/NUMBERS.md says more. A refusal has changed nothing: the call may be made again once its cause is gone. */
static enum advice on_number(uint32_t number)
{
    switch ((enum starkvitne_number)number) { /* no default: so the compiler tells of a number that is not here */
    case STARKVITNE_PLAN: /* nothing was opened: show the record to whoever pasted it */
    case STARKVITNE_STATE: /* a program's fault, not opened or written over: open again, at both ends, on one plan */
    case STARKVITNE_STORE: /* a program's fault, another store or one written over: open again, with a store of its own */
    case STARKVITNE_COUNTER: /* never seen: no state that the calls leave brings it about */
        return STOP;
    case STARKVITNE_LINE: /* the caller counts lines from 1, or holds another plan */
    case STARKVITNE_LENGTH: /* the feed and the plan's Max disagree; at the booth the packet goes on no line, but back to the feed */
    case STARKVITNE_NO_MARKER: /* again and again: the ends hold different plans, or the link gives packets out as markers */
    case STARKVITNE_OTHER_LINE: /* again and again: two lines are crossed */
    case STARKVITNE_NO_ROOM: /* take, where that was not done, and offer the same bytes again; often: open with a larger S */
        return LOST; /* drop what arrived and count it: the next marker of its line that comes through reports it */
    case STARKVITNE_SHORT_OUTPUT: /* what was taken stands: hand it on, and call again with an output of Max bytes or more */
        return EMPTY;
    case STARKVITNE_BEHIND: /* no refusal but an outcome of a take: a marker came late or twice, and is gone */
    case STARKVITNE_ACCEPTED:
        return NOTHING;
    }
    return STOP;
}

/* Whether a call was refused by a number with this advice, which the caller then takes; any other refusal ends the program. */
static bool refused(const char *call, uint64_t answer, enum advice advice)
{
    uint32_t number = STARKVITNE_NUMBER(answer);
    if (!STARKVITNE_REFUSED(answer))
        return false;
    if (on_number(number) == advice)
        return true;
    const char *text = starkvitne_text(number);
    fprintf(stderr, "pair: %s refused by %" PRIu32 ": %s\n", call, number, text != NULL ? text : "not in the table");
    exit(2);
}

/* For a call that nothing here gives cause to refuse. */
static uint32_t accepted(const char *call, uint32_t answer)
{
    refused(call, answer, NOTHING);
    return answer;
}

/* ---- The feed: a packet's first bytes say its number, from 1 on; seed and number give its length and its other bytes. */

enum { NUMBER = 4 };

static uint32_t mix(uint32_t seed, uint32_t index)
{
    uint32_t x = seed * 0x9E3779B9u + index;
    x = (x ^ x >> 16) * 0x85EBCA6Bu;
    x = (x ^ x >> 13) * 0xC2B2AE35u;
    return x ^ x >> 16;
}

static size_t write_packet(uint8_t *packet, uint32_t seed, uint32_t number)
{
    uint32_t look = mix(seed, number);
    size_t length = NUMBER + look % (MAX - NUMBER + 1);
    for (size_t i = 0; i < length; i++)
        packet[i] = (uint8_t)(i < NUMBER ? number >> 8 * i : look + i);
    return length;
}

/* The number of a packet; 0 where it is not, byte for byte, the one that was written. */
static uint32_t read_packet(const uint8_t *packet, size_t length, uint32_t seed)
{
    uint8_t whole[MAX];
    uint32_t number = 0;
    for (size_t i = 0; i < NUMBER && i < length; i++)
        number |= (uint32_t)packet[i] << 8 * i;
    return write_packet(whole, seed, number) == length && memcmp(whole, packet, length) == 0 ? number : 0;
}

/* ---- The booth */

struct booth {
    struct stripes_sender sender;
    struct tally {
        uint64_t sent, dropped, bytes; /* packets, those of them dropped, and the bytes of these */
    } tally[LINES];
    int ends[LINES + 1]; /* a socket for each line, and the pipe to the stage */
    uint32_t seed, loss, throws;
};

/* Puts a datagram on a line; false where chance drops it. Where the socket is full, send waits for the stage to read from it. */
static bool put(struct booth *booth, uint32_t line, const uint8_t *datagram, size_t length)
{
    if (mix(~booth->seed, booth->throws++) % 100 < booth->loss)
        return false;
    while (send(booth->ends[line], datagram, length, MSG_NOSIGNAL) < 0)
        if (errno != EINTR)
            fail("send"); /* the stage has ended, or worse */
    return true;
}

static void put_markers(struct booth *booth)
{
    for (uint32_t line = 0; line < LINES; line++) {
        uint8_t datagram[1 + STRIPES_MARKER_MOST] = { MARKER };
        uint32_t length = accepted("stripes_marker", stripes_marker(&booth->sender, line, datagram + 1, STRIPES_MARKER_MOST));
        put(booth, line, datagram, 1 + length);
    }
}

/* Sends one packet and, behind it, the markers that are then due; answers whether they were. */
static bool send_packet(struct booth *booth, uint32_t number)
{
    uint8_t datagram[1 + MAX] = { PACKET };
    size_t length = write_packet(datagram + 1, booth->seed, number);
    uint32_t answer = accepted("stripes_send", stripes_send(&booth->sender, length));
    struct tally *tally = &booth->tally[STRIPES_LINE(answer)];
    tally->sent++;
    if (!put(booth, STRIPES_LINE(answer), datagram, 1 + length)) {
        tally->dropped++;
        tally->bytes += length;
    }
    if (STRIPES_DUE(answer))
        put_markers(booth);
    return STRIPES_DUE(answer);
}

/* The close, after which every loss has been reported. Nothing is dropped any more; but while the stage waits on one line, another's ring may be full and
 * refuse its marker. The line waited on takes its own, and then one more ring empties, for good, as no packets are sent meanwhile: so of as many sets of
 * markers as there are lines, the last is stored on every line. Then packets until markers have been due twice: a whole round at least, which the stage
 * cannot hand out without taking those markers first. */
static void settle(struct booth *booth, uint32_t number)
{
    booth->loss = 0;
    for (unsigned set = 0; set < LINES; set++)
        put_markers(booth);
    for (unsigned due = 0; due < 2; number++)
        due += send_packet(booth, number);
}

static void run_booth(struct booth *booth, const uint8_t *record, size_t record_len, uint32_t packets)
{
    accepted("stripes_open", stripes_open(&booth->sender, record, record_len));
    for (uint32_t number = 1; number <= packets; number++)
        send_packet(booth, number);
    settle(booth, packets + 1);
    if (write(booth->ends[LINES], booth->tally, sizeof booth->tally) != sizeof booth->tally) /* so little goes into a pipe whole */
        fail("write");
}

/* ---- The stage */

struct stage {
    struct stage_receiver receiver;
    uint8_t store[LINES * SIZE], out[4 * MAX];
    uint64_t log[16];
    struct pollfd ends[LINES + 1]; /* a socket for each line, and the pipe from the booth */
    struct tally told[LINES]; /* by the booth, at its end */
    struct seen {
        uint64_t refused, bytes, missing; /* packets refused, their bytes, and the bytes that markers reported */
        uint32_t last; /* the number of the packet handed out last */
    } lines[LINES];
    uint64_t handed_out, broken, repeated, misplaced;
    uint32_t seed, last; /* the number of the packet handed out last, since a loss was reported */
};

/* Here a driver gives the packet to whatever plays it. A line's packets come in their order, whatever is lost; the bundle's do from the report of the last
 * loss on. */
static void hand_out(struct stage *stage, uint32_t line, const uint8_t *packet, size_t length)
{
    uint32_t number = read_packet(packet, length, stage->seed);
    stage->handed_out++;
    stage->broken += number == 0;
    stage->repeated += number <= stage->lines[line].last;
    stage->misplaced += number <= stage->last;
    stage->lines[line].last = stage->last = number;
}

/* Goes through the log of a run. Each packet lies in the output behind the one before. */
static void walk(struct stage *stage, const struct stage_run *run)
{
    const uint8_t *packet = stage->out;
    for (size_t i = 0; i < run->taken; i++) {
        uint64_t word = stage->log[i], value = STAGE_VALUE(word);
        if (STAGE_KIND(word) == STAGE_DATA) {
            hand_out(stage, STAGE_LINE(word), packet, (size_t)value);
            packet += value;
        } else if (STAGE_KIND(word) == STAGE_MISSING && value != 0) {
            stage->lines[STAGE_LINE(word)].missing += value;
            stage->last = 0; /* until now packets may have come out of order */
            stage->misplaced = 0;
        } /* and on STAGE_BEHIND there is nothing to do */
    }
}

/* Takes all there is to take, and answers the line that the stage then waits on. A run that ended because log or output was full goes on with the next
 * call: the walk has emptied both. */
static uint32_t take(struct stage *stage)
{
    for (;;) {
        struct stage_run run = stage_takes(&stage->receiver, stage->store, sizeof stage->store, stage->out, sizeof stage->out, stage->log,
                                           sizeof stage->log / sizeof stage->log[0]);
        walk(stage, &run);
        if (STAGE_KIND(run.why) == STAGE_WAITING)
            return STAGE_LINE(run.why);
        refused("stage_takes", run.why, EMPTY);
    }
}

/* Reads a datagram of a line and stores it, or counts it as lost; false where there is none. There is room for a byte more than any should have: so one
 * that is too long shows, and is refused by 4. */
static bool arrive(struct stage *stage, uint32_t line)
{
    uint8_t datagram[1 + MAX + 1] = { PACKET };
    ssize_t got;
    while ((got = recv(stage->ends[line].fd, datagram, sizeof datagram, MSG_DONTWAIT)) < 0)
        if (errno == EAGAIN || errno == EWOULDBLOCK)
            return false;
        else if (errno != EINTR)
            fail("recv");
    bool marker = datagram[0] == MARKER;
    size_t length = got > 0 ? (size_t)got - 1 : 0;
    uint32_t answer = (marker ? stage_marker : stage_data)(&stage->receiver, line, datagram + 1, length, stage->store, sizeof stage->store);
    if (refused(marker ? "stage_marker" : "stage_data", answer, LOST) && !marker) {
        stage->lines[line].refused++;
        stage->lines[line].bytes += length;
    }
    return true;
}

/* First the line that the stage waits on; where that has nothing, one datagram of each other on which the poll found some. So nothing is stored early but
 * behind a loss; and no line is left unread while the booth waits for room on it, which would hold up both for ever. */
static void read_lines(struct stage *stage, uint32_t waited_on)
{
    if (arrive(stage, waited_on))
        return;
    for (uint32_t line = 0; line < LINES; line++)
        if (line != waited_on && stage->ends[line].revents != 0)
            arrive(stage, line);
}

/* Goes on until the booth has told its tally, or ended without, and then until the lines are empty: all that it sent lies in the sockets by then. */
static void run_stage(struct stage *stage, const uint8_t *record, size_t record_len)
{
    accepted("stage_open", stage_open(&stage->receiver, record, record_len, SIZE));
    for (bool over = false;;) {
        uint32_t waited_on = take(stage);
        int ready;
        while ((ready = over ? poll(stage->ends, LINES, 0) : poll(stage->ends, LINES + 1, -1)) < 0)
            if (errno != EINTR)
                fail("poll");
        if (ready == 0)
            return;
        if (!over && stage->ends[LINES].revents != 0) {
            over = true;
            if (read(stage->ends[LINES].fd, stage->told, sizeof stage->told) < 0)
                fail("read");
        }
        read_lines(stage, waited_on);
    }
}

/* ---- The report */

static int report(const struct stage *stage)
{
    uint64_t sent = 0, lost = 0, missing = 0;
    bool equal = true;
    printf("line      sent   dropped       bytes   refused       bytes     missing\n");
    for (uint32_t i = 0; i < LINES; i++) {
        const struct tally *told = &stage->told[i];
        const struct seen *seen = &stage->lines[i];
        printf("%4" PRIu32 " %9" PRIu64 " %9" PRIu64 " %11" PRIu64 " %9" PRIu64 " %11" PRIu64 " %11" PRIu64 "\n", i, told->sent, told->dropped,
               told->bytes, seen->refused, seen->bytes, seen->missing);
        equal = equal && told->bytes + seen->bytes == seen->missing;
        sent += told->sent;
        lost += told->dropped + seen->refused;
        missing += seen->missing;
    }
    printf("%" PRIu64 " not whole, %" PRIu64 " out of their line's order, %" PRIu64 " out of order since the last loss was reported\n", stage->broken,
           stage->repeated, stage->misplaced);
    const char *wrong = !equal ? "a line's missing bytes are not those that were dropped and refused"
                        : stage->handed_out + lost != sent ? "the packets handed out and those lost are not all that were sent"
                        : stage->broken + stage->repeated + stage->misplaced != 0 ? "a packet is not whole, or not in its place" : NULL;
    if (wrong != NULL)
        printf("failed: %s\n", wrong);
    else
        printf("ok: %" PRIu64 " sent, %" PRIu64 " handed out, %" PRIu64 " lost, %" PRIu64 " bytes missing\n", sent, stage->handed_out, lost, missing);
    return wrong != NULL;
}

/* ---- The run */

static void connect_ends(struct booth *booth, struct stage *stage)
{
    for (int i = 0; i <= LINES; i++) {
        int pair[2];
        if ((i < LINES ? socketpair(AF_UNIX, SOCK_DGRAM, 0, pair) : pipe(pair)) != 0)
            fail("socketpair or pipe");
        stage->ends[i].fd = pair[0];
        stage->ends[i].events = POLLIN;
        booth->ends[i] = pair[1];
    }
}

/* The booth's process has the record, which both ends open on, by fork; in the field it is pasted at each end. Either process closes the other's ends: so
 * the stage is told by the pipe that the booth has ended, and the booth by send that the stage has. */
static void run(struct booth *booth, struct stage *stage, uint32_t packets)
{
    uint8_t record[STRIPES_PLAN_MOST];
    size_t record_len = accepted("stripes_write_plan", stripes_write_plan(&plan, record, sizeof record));
    connect_ends(booth, stage);
    pid_t child = fork();
    if (child < 0)
        fail("fork");
    for (int i = 0; i <= LINES; i++)
        if (close(child == 0 ? stage->ends[i].fd : booth->ends[i]) != 0)
            fail("close");
    if (child == 0) {
        run_booth(booth, record, record_len, packets);
        exit(0);
    }
    run_stage(stage, record, record_len);
    int status;
    while (waitpid(child, &status, 0) < 0)
        if (errno != EINTR)
            fail("waitpid");
    if (status != 0) {
        fputs("pair: the booth did not come to its end\n", stderr);
        exit(2);
    }
}

static uint32_t argument(const char *text, uint32_t least, uint32_t most)
{
    char *end;
    unsigned long long value = strtoull(text, &end, 10);
    if (text[0] < '0' || text[0] > '9' || *end != '\0' || value < least || value > most) {
        fputs(usage, stderr);
        exit(2);
    }
    return (uint32_t)value;
}

int main(int argc, char **argv)
{
    static struct booth booth;
    static struct stage stage;
    bool help = argc == 2 && strcmp(argv[1], "--help") == 0;
    if (help || argc > 4) {
        fputs(usage, help ? stdout : stderr);
        return help ? 0 : 2;
    }
    uint32_t packets = argc > 1 ? argument(argv[1], 1, 1000000) : 2000;
    booth.loss = argc > 2 ? argument(argv[2], 0, 50) : 5;
    booth.seed = stage.seed = argc > 3 ? argument(argv[3], 0, UINT32_MAX) : 1;
    run(&booth, &stage, packets);
    int status = report(&stage);
    if (fflush(stdout) != 0)
        fail("standard output");
    return status;
}
