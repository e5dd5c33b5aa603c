// two_boxes.c: a host in C that joins two boxes in one process, each with its own clock and its own row, and prints what happens.
#include <inttypes.h>
#include <stdint.h>
#include <stdio.h>
#include <stdlib.h>
#include <string.h>

#include "zorakunju.h"

// The settings of every connection here, in ticks of 10 ms where they are times.
#define N 3
#define T_MAX 60
#define E 0
#define T_START 500
#define T_OFF 10
#define LIMIT 4
#define PERIOD 50
// The clock of west shows so much more than that of east.
#define AHEAD 850

// A box: its clock, the row of its connection, and what it lends to the calls.
struct box {
    const char *name;
    uint32_t ahead;
    uint8_t row[ZORAKUNJU_ROW_SIZE];
    uint8_t out[ZORAKUNJU_MOST_MESSAGE];
    uint8_t answer[ZORAKUNJU_ANSWER_SIZE];
};

// A message under way from one box to the other.
struct message {
    size_t length;
    uint8_t bytes[ZORAKUNJU_MOST_MESSAGE];
};

// What a box's own clock shows. A count runs on from 4294967295 to 0, which unsigned arithmetic does by itself.
static uint32_t clock_of(const struct box *box, uint32_t time)
{
    return time + box->ahead;
}

// Every answer number in words.
static const char *meaning(uint32_t number)
{
    switch (number) {
    case ZORAKUNJU_DONE: return "done";
    case ZORAKUNJU_CLOSED: return "the row is closed";
    case ZORAKUNJU_IN_USE: return "the row is in use";
    case ZORAKUNJU_SETTING_OUT_OF_RANGE: return "a setting is out of range";
    case ZORAKUNJU_CLOCK_WENT_BACK: return "the clock went back";
    case ZORAKUNJU_NOT_OPEN: return "not open yet";
    case ZORAKUNJU_DATA_TOO_LONG: return "too much data";
    case ZORAKUNJU_TOO_SHORT: return "the buffer is too short";
    case ZORAKUNJU_ROW_REFUSED: return "no sound row";
    case ZORAKUNJU_MALFORMED: return "no message at all";
    case ZORAKUNJU_NUMBER_BEHIND: return "a repeat";
    case ZORAKUNJU_NUMBER_TOO_FAR: return "too many are missing before it";
    case ZORAKUNJU_GAP: return "some are missing before it";
    case ZORAKUNJU_LATE: return "too old";
    case ZORAKUNJU_FUTURE: return "from the future";
    case ZORAKUNJU_WAIT_EXPIRED: return "nobody answered in time";
    case ZORAKUNJU_WRONG_ECHO: return "it answers another message than ours";
    case ZORAKUNJU_CLOCK_CHECK_FAILED: return "the clocks do not fit";
    case ZORAKUNJU_UNEXPECTED: return "of a type that is not awaited";
    default: return "no answer of this library";
    }
}

// What kind of message it is: its first byte says so.
static const char *type_of(const struct message *message)
{
    static const char *const types[] = {"OffsetStart", "OffsetAnsw1", "OffsetAnsw2", "OffsetEst", "OffsetEnd", "application message"};
    uint8_t type = message->length > 0 ? message->bytes[0] : 0;
    return type >= 1 && type <= 6 ? types[type - 1] : "message of no type";
}

// A refusal is a mistake of the host itself, and nothing has changed. Here there is none, so that one ends the program.
static void must_not_be_refused(const struct box *box, uint32_t number)
{
    if (zorakunju_refused(number)) {
        putchar('\n');
        fflush(stdout);
        fprintf(stderr, "two_boxes: a call of %s is refused with %" PRIu32 ", %s\n", box->name, number, meaning(number));
        exit(EXIT_FAILURE);
    }
}

// What a host does with any answer that is no refusal, by the answer row alone: data that is delivered goes to the controller, bytes for the peer go on
// their way, and a release means that the connection is lost. One answer can ask for several of these: a message after a gap may be delivered and be
// the last. `received` is the message that was taken, `for_peer` gets what is to be sent; each is null where the call has none.
static void act_on(const struct box *box, uint32_t number, const struct message *received, struct message *for_peer)
{
    size_t written, delivered;
    int32_t age;
    must_not_be_refused(box, number);
    written = zorakunju_written(box->answer);
    delivered = zorakunju_length(box->answer);
    age = zorakunju_age(box->answer);
    printf(": %" PRIu32 ", %s", number, meaning(number));
    if (delivered > 0 || age != 0) {
        printf("; age %" PRId32, age);
    }
    if (received != NULL && delivered > 0) {
        printf("; to the controller: %.*s", (int)delivered, (const char *)received->bytes + zorakunju_place(box->answer));
    }
    if (for_peer != NULL) {
        for_peer->length = written;
        memcpy(for_peer->bytes, box->out, written);
    }
    if (for_peer != NULL && written > 0) {
        printf("; to the peer: %s, %zu bytes", type_of(for_peer), written);
    }
    if (zorakunju_released(box->answer)) {
        printf("; the connection is released");
    }
    putchar('\n');
}

// The five calls. A row is all zero before its first begin, and whenever it is closed.

static void begins(struct box *box, uint32_t time, uint8_t role, struct message *for_peer)
{
    uint32_t number = zorakunju_begin(box->row, sizeof box->row, role, N, T_MAX, E, T_START, T_OFF, LIMIT, 1, PERIOD, clock_of(box, time),
                                      box->out, sizeof box->out, box->answer, sizeof box->answer);
    printf("%6" PRIu32 "  %s begins as %s", time, box->name, role == ZORAKUNJU_INITIATOR ? "initiator" : "responder");
    act_on(box, number, NULL, for_peer);
}

static void receives(struct box *box, uint32_t time, const struct message *message, struct message *for_peer)
{
    uint32_t number = zorakunju_receive(box->row, sizeof box->row, clock_of(box, time), message->bytes, message->length,
                                        box->out, sizeof box->out, box->answer, sizeof box->answer);
    printf("%6" PRIu32 "  %s receives %s", time, box->name, type_of(message));
    act_on(box, number, message, for_peer);
}

static void sends(struct box *box, uint32_t time, const char *state, struct message *for_peer)
{
    uint32_t number = zorakunju_send(box->row, sizeof box->row, clock_of(box, time), (const uint8_t *)state, strlen(state),
                                     box->out, sizeof box->out, box->answer, sizeof box->answer);
    printf("%6" PRIu32 "  %s sends %s", time, box->name, state);
    act_on(box, number, NULL, for_peer);
}

static void ticks(struct box *box, uint32_t time)
{
    uint32_t number = zorakunju_tick(box->row, sizeof box->row, clock_of(box, time), box->answer, sizeof box->answer);
    printf("%6" PRIu32 "  %s ticks", time, box->name);
    act_on(box, number, NULL, NULL);
}

static void closes(struct box *box, uint32_t time)
{
    uint32_t number = zorakunju_close(box->row, sizeof box->row, box->answer, sizeof box->answer);
    printf("%6" PRIu32 "  %s closes", time, box->name);
    act_on(box, number, NULL, NULL);
}

// A row in numbers, and written again from them, as a host does that stores connections elsewhere.
static void shows_row(const struct box *box)
{
    uint32_t fields[ZORAKUNJU_FIELD_COUNT];
    uint8_t again[ZORAKUNJU_ROW_SIZE];
    must_not_be_refused(box, zorakunju_read_row(box->row, sizeof box->row, fields, ZORAKUNJU_FIELD_COUNT));
    must_not_be_refused(box, zorakunju_write_row(fields, ZORAKUNJU_FIELD_COUNT, again, sizeof again));
    printf("        %s is in phase %" PRIu32 "; its clock minus the peer's is %" PRId32 " to %" PRId32 "; its row, written again, is %s\n", box->name,
           fields[ZORAKUNJU_FIELD_PHASE], zorakunju_signed(fields[ZORAKUNJU_FIELD_MIN]), zorakunju_signed(fields[ZORAKUNJU_FIELD_MAX]),
           memcmp(again, box->row, sizeof again) == 0 ? "the same" : "another");
}

// A row that was damaged where the host keeps it is not used: every call on it is refused, here the reading.
static void shows_damage(const struct box *box)
{
    uint32_t fields[ZORAKUNJU_FIELD_COUNT];
    uint8_t damaged[ZORAKUNJU_ROW_SIZE];
    uint32_t number;
    memcpy(damaged, box->row, sizeof damaged);
    damaged[ZORAKUNJU_ROW_LIMIT] = 0;
    number = zorakunju_read_row(damaged, sizeof damaged, fields, ZORAKUNJU_FIELD_COUNT);
    printf("        a copy of %s's row with an error limit of 0: %" PRIu32 ", %s\n", box->name, number, meaning(number));
}

// The five messages of set-up, by which each box learns how far its clock is ahead of the other's.
static void sets_up(struct box *west, struct box *east)
{
    struct message message;
    printf("Set-up\n");
    begins(east, 100, ZORAKUNJU_RESPONDER, &message);
    begins(west, 150, ZORAKUNJU_INITIATOR, &message);
    receives(east, 170, &message, &message);
    receives(west, 200, &message, &message);
    receives(east, 210, &message, &message);
    receives(west, 230, &message, &message);
    receives(east, 245, &message, &message);
    shows_row(west);
    shows_row(east);
    shows_damage(east);
}

// Route states each way; a receive on an open connection sends nothing back.
static void tells_routes(struct box *west, struct box *east)
{
    struct message message, none;
    printf("\nA route state each way\n");
    sends(west, 300, "route 12 set", &message);
    receives(east, 315, &message, &none);
    sends(east, 320, "route 40 free", &message);
    receives(west, 330, &message, &none);

    printf("\nA route state that is held up for 80 ticks, and the next one\n");
    sends(west, 400, "route 12 free", &message);
    receives(east, 480, &message, &none);
    sends(west, 490, "route 12 free", &message);
    receives(east, 500, &message, &none);

    printf("\nA route state that is lost, the next one, the same a second time, and one more\n");
    sends(west, 520, "route 13 set", &message);
    sends(west, 530, "route 13 free", &message);
    receives(east, 540, &message, &none);
    receives(east, 545, &message, &none);
    sends(west, 550, "route 14 set", &message);
    receives(east, 555, &message, &none);
}

// A box whose first message nobody answers.
static void waits_in_vain(struct box *north)
{
    struct message lost;
    printf("\nA box that nobody answers\n");
    begins(north, 700, ZORAKUNJU_INITIATOR, &lost);
    ticks(north, 700 + T_START - 1);
    ticks(north, 700 + T_START);
}

int main(void)
{
    static struct box west = {.name = "west", .ahead = AHEAD};
    static struct box east = {.name = "east", .ahead = 0};
    static struct box north = {.name = "north", .ahead = 0};
    printf("Two boxes. A tick is 10 ms; the clock of west shows %d ticks more than that of east, which is the first column.\n\n", AHEAD);
    sets_up(&west, &east);
    tells_routes(&west, &east);
    printf("\nThe end\n");
    closes(&west, 600);
    closes(&east, 600);
    waits_in_vain(&north);
    if (fflush(stdout) != 0 || ferror(stdout)) {
        perror("two_boxes: standard output");
        return EXIT_FAILURE;
    }
    return EXIT_SUCCESS;
}
