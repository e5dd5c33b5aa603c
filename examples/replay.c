// replay.c: replays a trace through the calls from C, on 64 rows of its own, and prints what the proved program `replay` prints: replay [FILE].
#include <errno.h>
#include <inttypes.h>
#include <stdint.h>
#include <stdio.h>
#include <stdlib.h>
#include <string.h>

#include "zorakunju.h"

// A record of a trace: mark, kind, slot, now, length, and so many bytes.
#define RECORD_HEADER_SIZE 10
#define MARK_FIRST 0x52
#define MARK_SECOND 0x32
#define MOST_BYTES 1000
// A begin's bytes: role, settings, first number, period.
#define BEGIN_SIZE 26
#define SLOTS 64
// A slot that is none: the host's own rows are no matter of the library.
#define BAD_SLOT 101
// A role that is none.
#define NO_ROLE 255

enum kind { BEGIN = 1, RECEIVE = 2, SEND = 3, TICK = 4, CLOSE = 5 };

// One record.
struct record {
    uint8_t kind;
    uint8_t slot;
    uint32_t now;
    size_t length;
    uint8_t bytes[MOST_BYTES];
};

// What the end of a read is: a record, the end of the trace, bytes that are no record, or a fault of the file.
enum found { A_RECORD, THE_END, BAD, UNREADABLE };

static uint8_t rows[SLOTS][ZORAKUNJU_ROW_SIZE];
static uint8_t out[ZORAKUNJU_MOST_MESSAGE];

static uint16_t number16(const uint8_t *at)
{
    return (uint16_t)(at[0] << 8 | at[1]);
}

static uint32_t number32(const uint8_t *at)
{
    return (uint32_t)at[0] << 24 | (uint32_t)at[1] << 16 | (uint32_t)at[2] << 8 | at[3];
}

// The next record of the trace. However short the pieces are in which the input comes, fread gives all that is asked, unless it ends before.
static enum found next_record(FILE *trace, struct record *record)
{
    uint8_t header[RECORD_HEADER_SIZE];
    size_t got = fread(header, 1, sizeof header, trace);
    if (ferror(trace)) {
        return UNREADABLE;
    }
    if (got == 0) {
        return THE_END;
    }
    if (got < sizeof header) {
        return BAD;
    }
    record->kind = header[2];
    record->slot = header[3];
    record->now = number32(header + 4);
    record->length = number16(header + 8);
    if (header[0] != MARK_FIRST || header[1] != MARK_SECOND || record->kind < BEGIN || record->kind > CLOSE || record->length > MOST_BYTES) {
        return BAD;
    }
    got = fread(record->bytes, 1, record->length, trace);
    if (ferror(trace)) {
        return UNREADABLE;
    }
    return got == record->length ? A_RECORD : BAD;
}

// A begin. Another number of bytes than a begin has gives no role, so that the library refuses it in the role's place: 104, but 103 before it.
static uint32_t begin(uint8_t *row, const struct record *record, uint8_t *answer)
{
    const uint8_t *b = record->bytes;
    if (record->length != BEGIN_SIZE) {
        return zorakunju_begin(row, ZORAKUNJU_ROW_SIZE, NO_ROLE, 0, 0, 0, 0, 0, 0, 0, 0, record->now, out, sizeof out, answer, ZORAKUNJU_ANSWER_SIZE);
    }
    return zorakunju_begin(row, ZORAKUNJU_ROW_SIZE, b[0], number16(b + 1), number32(b + 3), number32(b + 7), number32(b + 11), number32(b + 15), b[19],
                           number16(b + 20), number32(b + 22), record->now, out, sizeof out, answer, ZORAKUNJU_ANSWER_SIZE);
}

// The call of a record on its slot's row; gives its number. What would go to the peer is not sent anywhere.
static uint32_t call(const struct record *record, uint8_t *answer)
{
    uint8_t *row;
    if (record->slot >= SLOTS) {
        return BAD_SLOT;
    }
    row = rows[record->slot];
    switch (record->kind) {
    case BEGIN:
        return begin(row, record, answer);
    case RECEIVE:
        return zorakunju_receive(row, ZORAKUNJU_ROW_SIZE, record->now, record->bytes, record->length, out, sizeof out, answer, ZORAKUNJU_ANSWER_SIZE);
    case SEND:
        return zorakunju_send(row, ZORAKUNJU_ROW_SIZE, record->now, record->bytes, record->length, out, sizeof out, answer, ZORAKUNJU_ANSWER_SIZE);
    case TICK:
        return zorakunju_tick(row, ZORAKUNJU_ROW_SIZE, record->now, answer, ZORAKUNJU_ANSWER_SIZE);
    default:
        return zorakunju_close(row, ZORAKUNJU_ROW_SIZE, answer, ZORAKUNJU_ANSWER_SIZE);
    }
}

// Replays a trace; gives whether it could be read to its end. The heading waits for the first record, so that of a trace that can't be read at all
// nothing is printed.
static int replayed(FILE *trace)
{
    static struct record record;
    uint64_t count = 0;
    enum found found = next_record(trace, &record);
    if (found == UNREADABLE) {
        return 0;
    }
    printf("slot answer age\n");
    while (found == A_RECORD) {
        // A refusal writes no answer row: its age is 0.
        uint8_t answer[ZORAKUNJU_ANSWER_SIZE] = {0};
        uint32_t number = call(&record, answer);
        printf("%" PRIu8 " %" PRIu32 " %" PRId32 "\n", record.slot, number, zorakunju_age(answer));
        count++;
        found = next_record(trace, &record);
    }
    if (found == UNREADABLE) {
        return 0;
    }
    if (found == BAD) {
        printf("bad\n");
    }
    printf("end %" PRIu64 "\n", count);
    return 1;
}

// Says on standard error what is wrong with a file; gives the status of a program that failed.
static int fault(const char *name)
{
    fprintf(stderr, "replay: %s: %s\n", name, strerror(errno));
    return EXIT_FAILURE;
}

int main(int count, char **words)
{
    const char *name = count == 2 ? words[1] : "standard input";
    FILE *trace = stdin;
    int status = EXIT_SUCCESS;
    if (count > 2) {
        fprintf(stderr, "replay: more than one file is named: it is replay [FILE]\n");
        return EXIT_FAILURE;
    }
    if (count == 2) {
        trace = fopen(name, "rb");
    }
    if (trace == NULL) {
        return fault(name);
    }
    if (!replayed(trace)) {
        status = fault(name);
    }
    if (fflush(stdout) != 0 || ferror(stdout)) {
        status = fault("standard output");
    }
    fclose(trace);
    return status;
}
