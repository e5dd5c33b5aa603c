// zorakunju.h: the connection calls of the proved gateway library, for a host written in C. Link with libzorakunju.a (tools/static-library makes it).
//
// The host keeps each connection as a row of 53 bytes in its own memory, all zero at first, and lends it to a call. The library keeps nothing between
// calls, allocates nothing and opens nothing. Time is a count of 10 ms ticks by the host's own clock; it runs on from 4294967295 to 0.
//
// What every call has in common:
// - A memory area is a pointer and a length. The pointer is valid for the whole length; null is allowed where the length is 0, for every area.
// - No two of the areas that one call gets may overlap, and no other thread touches them before the call returns.
// - The call gives an answer number. 0 is success. 1xx is the caller's own fault: the call is refused, and no byte of any area has changed. 2xx is the
//   peer's fault: the row has moved on. The faults are judged in the order in which a call's comment lists them, and the first that holds is answered.
// - With 0 and 2xx the row is the connection's next state, all zero where it was released, the bytes for the peer stand at the start of `out`, the rest
//   of `out` is as it was, and the answer row tells the rest.
#ifndef ZORAKUNJU_H
#define ZORAKUNJU_H

#include <stddef.h>
#include <stdint.h>

#ifdef __cplusplus
extern "C" {
#endif

// ---- sizes, in bytes

// The row of a connection, and the answer row.
#define ZORAKUNJU_ROW_SIZE 53
#define ZORAKUNJU_ANSWER_SIZE 11
// The numbers that a row is read into and written from.
#define ZORAKUNJU_FIELD_COUNT 17
// A message's header, the most application data behind it, and the two together: an `out` of this size is never too short.
#define ZORAKUNJU_HEADER_SIZE 15
#define ZORAKUNJU_MOST_DATA 985
#define ZORAKUNJU_MOST_MESSAGE 1000
// What `out` must at least hold: for an initiator's begin, and for every receive. A send asks ZORAKUNJU_HEADER_SIZE more than its data.
#define ZORAKUNJU_BEGIN_ROOM 19
#define ZORAKUNJU_RECEIVE_ROOM 25

// ---- the row of a connection: where each field starts; every field has its highest byte first

#define ZORAKUNJU_ROW_PHASE 0        // 1 byte: one of the phases below
#define ZORAKUNJU_ROW_N 1            // 2 bytes: N, 1 to 1000: so far ahead a number may be
#define ZORAKUNJU_ROW_T_MAX 3        // 4 bytes: T_max, 1 to 60000 ticks: so old a message may be
#define ZORAKUNJU_ROW_E 7            // 4 bytes: E, 0 to T_max: what is added to every age
#define ZORAKUNJU_ROW_T_START 11     // 4 bytes: T_start, 1 to 60000 ticks: so long a wait of set-up may last
#define ZORAKUNJU_ROW_T_OFF 15       // 4 bytes: T_off, 0 to 60000 ticks: so far apart the two sides' offsets may lie
#define ZORAKUNJU_ROW_LIMIT 19       // 1 byte: the error limit, 1 to 255
#define ZORAKUNJU_ROW_OWN_NUMBER 20  // 2 bytes: the number of our next message
#define ZORAKUNJU_ROW_PERIOD 22      // 4 bytes: our period, which set-up tells the peer
#define ZORAKUNJU_ROW_PEER_NUMBER 26 // 2 bytes: the last number of the peer
#define ZORAKUNJU_ROW_PEER_STAMP 28  // 4 bytes: the last stamp of the peer
#define ZORAKUNJU_ROW_ARRIVAL 32     // 4 bytes: our count when it arrived
#define ZORAKUNJU_ROW_WAIT_START 36  // 4 bytes: our count when the wait of set-up began; 0 where none is timed
#define ZORAKUNJU_ROW_MIN 40         // 4 bytes: the smallest offset, two's complement: our clock minus the peer's
#define ZORAKUNJU_ROW_MAX 44         // 4 bytes: the largest offset, likewise
#define ZORAKUNJU_ROW_ERRORS 48      // 1 byte: the error counter, always under the error limit
#define ZORAKUNJU_ROW_CLOCK 49       // 4 bytes: the count of the last call that was not refused

// Which of the 17 numbers of zorakunju_read_row and zorakunju_write_row is which field: in the order of the row.
enum zorakunju_field {
    ZORAKUNJU_FIELD_PHASE = 0,
    ZORAKUNJU_FIELD_N = 1,
    ZORAKUNJU_FIELD_T_MAX = 2,
    ZORAKUNJU_FIELD_E = 3,
    ZORAKUNJU_FIELD_T_START = 4,
    ZORAKUNJU_FIELD_T_OFF = 5,
    ZORAKUNJU_FIELD_LIMIT = 6,
    ZORAKUNJU_FIELD_OWN_NUMBER = 7,
    ZORAKUNJU_FIELD_PERIOD = 8,
    ZORAKUNJU_FIELD_PEER_NUMBER = 9,
    ZORAKUNJU_FIELD_PEER_STAMP = 10,
    ZORAKUNJU_FIELD_ARRIVAL = 11,
    ZORAKUNJU_FIELD_WAIT_START = 12,
    ZORAKUNJU_FIELD_MIN = 13,
    ZORAKUNJU_FIELD_MAX = 14,
    ZORAKUNJU_FIELD_ERRORS = 15,
    ZORAKUNJU_FIELD_CLOCK = 16
};

// The phases. A closed row is all zero.
enum zorakunju_phase {
    ZORAKUNJU_PHASE_CLOSED = 0,
    ZORAKUNJU_PHASE_INITIATOR_WAITS_FOR_2 = 1, // for OffsetAnsw1
    ZORAKUNJU_PHASE_INITIATOR_WAITS_FOR_4 = 2, // for OffsetEst
    ZORAKUNJU_PHASE_RESPONDER_WAITS_FOR_1 = 3, // for OffsetStart; this wait has no timer
    ZORAKUNJU_PHASE_RESPONDER_WAITS_FOR_3 = 4, // for OffsetAnsw2
    ZORAKUNJU_PHASE_RESPONDER_WAITS_FOR_5 = 5, // for OffsetEnd
    ZORAKUNJU_PHASE_OPEN = 6
};

// ---- the answer row: where each field starts; highest byte first. It is written with 0 and 2xx, and left as it was by 1xx.

#define ZORAKUNJU_ANSWER_RELEASED 0 // 1 byte: 1 where the connection was released, else 0
#define ZORAKUNJU_ANSWER_WRITTEN 1  // 2 bytes: so many bytes at the start of `out` go to the peer
#define ZORAKUNJU_ANSWER_PLACE 3    // 2 bytes: where the delivered data starts in the message: 15, or 0 where there is none
#define ZORAKUNJU_ANSWER_LENGTH 5   // 2 bytes: so many bytes are delivered
#define ZORAKUNJU_ANSWER_AGE 7      // 4 bytes: the age in ticks by which the message was judged, two's complement; 0 where none was

// ---- the answer numbers, and what begin takes as role

enum zorakunju_answer {
    ZORAKUNJU_DONE = 0,
    // The caller's faults: nothing has changed.
    ZORAKUNJU_CLOSED = 102,               // the row is closed
    ZORAKUNJU_IN_USE = 103,               // the row is not closed
    ZORAKUNJU_SETTING_OUT_OF_RANGE = 104, // a setting, or the role, is none that there is
    ZORAKUNJU_CLOCK_WENT_BACK = 105,      // `now` lies before the count of an earlier call
    ZORAKUNJU_NOT_OPEN = 106,             // set-up has not ended
    ZORAKUNJU_DATA_TOO_LONG = 107,        // more than 985 bytes
    ZORAKUNJU_TOO_SHORT = 108,            // the area to be written has too few bytes, or numbers
    ZORAKUNJU_ROW_REFUSED = 109,          // no sound row, or an area of fixed size has another one
    // The peer's faults.
    ZORAKUNJU_MALFORMED = 201,            // the bytes are no message
    ZORAKUNJU_NUMBER_BEHIND = 202,        // a repeat, or a number from before: dropped
    ZORAKUNJU_NUMBER_TOO_FAR = 203,       // more than N ahead: dropped and released
    ZORAKUNJU_GAP = 204,                  // messages before it are missing; an open connection delivers it all the same
    ZORAKUNJU_LATE = 205,                 // older than T_max: dropped
    ZORAKUNJU_FUTURE = 206,               // its age is negative: dropped
    ZORAKUNJU_WAIT_EXPIRED = 207,         // a wait of set-up has lasted T_start: released
    ZORAKUNJU_WRONG_ECHO = 208,           // a message of set-up does not name our stamp: released
    ZORAKUNJU_CLOCK_CHECK_FAILED = 209,   // the two sides' offsets do not fit: released
    ZORAKUNJU_UNEXPECTED = 211            // a type that is not awaited now
};

#define ZORAKUNJU_INITIATOR 0
#define ZORAKUNJU_RESPONDER 1

// ---- the calls

// Begins a connection in a closed row. An initiator's first message, 19 bytes, goes to `out`; a responder writes nothing and waits for the peer's.
//   row, row_length        the row, 53 bytes
//   role                   ZORAKUNJU_INITIATOR or ZORAKUNJU_RESPONDER
//   n .. limit             the settings, with the ranges that the row's fields have above
//   first, period          the number of our first message, and our period: any
//   now                    our count
//   out, out_length        where bytes for the peer are written: 19 or more for an initiator, any length for a responder, null with 0 too
//   answer, answer_length  the answer row, 11 bytes
// Answers, in the order in which they are judged:
//   109  the row is refused, or the answer row has not 11 bytes
//   103  the row is in use
//   104  role or setting out of range
//   108  `out` is too short
//   0    begun
uint32_t zorakunju_begin(uint8_t *row, size_t row_length, uint8_t role, uint16_t n, uint32_t t_max, uint32_t e, uint32_t t_start, uint32_t t_off,
                         uint8_t limit, uint16_t first, uint32_t period, uint32_t now, uint8_t *out, size_t out_length,
                         uint8_t *answer, size_t answer_length);

// Takes a message of the peer. In set-up the reply, if any, goes to `out`; on an open connection the message's data is delivered: the answer row says
// where it stands in `message`. Errors 202, 204, 205 and 206 are counted, and release the connection where the error limit is reached.
//   row, row_length          the row, 53 bytes
//   now                      our count
//   message, message_length  the message: any bytes, null with 0 too; it is only read
//   out, out_length          where bytes for the peer are written: 25 or more, whatever the message
//   answer, answer_length    the answer row, 11 bytes
// Answers, in the order in which they are judged:
//   109  the row is refused, or the answer row has not 11 bytes
//   102  the row is closed
//   105  the clock went back
//   108  `out` is too short
//   207  the wait of set-up has expired, whatever the message: released
//   201  malformed: released in set-up, only dropped on an open connection
//   211  of a type that is not awaited now: likewise
//   202  a repeat, or from before: dropped; released in set-up
//   203  more than N ahead: dropped and released
//   208  set-up: wrong echo; released
//   209  set-up: the clocks do not fit; released. An initiator's `out` has a last message for the peer
//   206  from the future: dropped
//   205  late: dropped
//   204  after a gap: delivered; in set-up released
//   0    taken, or delivered
uint32_t zorakunju_receive(uint8_t *row, size_t row_length, uint32_t now, const uint8_t *message, size_t message_length,
                           uint8_t *out, size_t out_length, uint8_t *answer, size_t answer_length);

// Sends application data on an open connection: the message, 15 bytes and the data, goes to `out`.
//   row, row_length        the row, 53 bytes
//   now                    our count
//   data, data_length      the data: 0 to 985 bytes, null with 0 too; it is only read
//   out, out_length        where the message is written: 15 more than the data, or more
//   answer, answer_length  the answer row, 11 bytes
// Answers, in the order in which they are judged:
//   109  the row is refused, or the answer row has not 11 bytes
//   102  the row is closed
//   105  the clock went back
//   106  set-up has not ended
//   107  the data is too long
//   108  `out` is too short
//   0    the message is in `out`
uint32_t zorakunju_send(uint8_t *row, size_t row_length, uint32_t now, const uint8_t *data, size_t data_length,
                        uint8_t *out, size_t out_length, uint8_t *answer, size_t answer_length);

// Tells a connection the time, so that a wait of set-up can expire where no message comes.
//   row, row_length        the row, 53 bytes
//   now                    our count
//   answer, answer_length  the answer row, 11 bytes
// Answers, in the order in which they are judged:
//   109  the row is refused, or the answer row has not 11 bytes
//   102  the row is closed
//   105  the clock went back
//   207  the wait of set-up has expired: released
//   0    nothing is due
uint32_t zorakunju_tick(uint8_t *row, size_t row_length, uint32_t now, uint8_t *answer, size_t answer_length);

// Closes a connection in any phase: the row is all zero behind it. The peer is told nothing.
//   row, row_length        the row, 53 bytes
//   answer, answer_length  the answer row, 11 bytes; it says released
// Answers, in the order in which they are judged:
//   109  the row is refused, or the answer row has not 11 bytes
//   102  the row is closed already
//   0    closed
uint32_t zorakunju_close(uint8_t *row, size_t row_length, uint8_t *answer, size_t answer_length);

// Reads a row: its 17 fields as numbers.
//   row, row_length  the row, 53 bytes; it is only read
//   fields, count    where the numbers go, and how many there is room for: 17 or more. Numbers behind the 17th stay as they were
// Answers, in the order in which they are judged:
//   109  the row is refused
//   108  `count` is under 17
//   0    read
uint32_t zorakunju_read_row(const uint8_t *row, size_t row_length, uint32_t *fields, size_t count);

// Writes the row that has these 17 fields. Reading it gives the same fields.
//   fields, count    the numbers, just 17; they are only read
//   row, row_length  where the row goes: 53 bytes or more. Bytes behind the 53rd stay as they were
// Answers, in the order in which they are judged:
//   109  `count` is not 17, a number does not fit into its field's bytes, or the row would be refused
//   108  `row_length` is under 53
//   0    written
uint32_t zorakunju_write_row(const uint32_t *fields, size_t count, uint8_t *row, size_t row_length);

// ---- readers

// Whether an answer is a 1xx: the call was refused, and nothing has changed.
static inline int zorakunju_refused(uint32_t number)
{
    return number / 100 == 1;
}

// The number that 32 bits of two's complement stand for: an age, or the fields MIN and MAX.
static inline int32_t zorakunju_signed(uint32_t bits)
{
    return bits <= 0x7FFFFFFFu ? (int32_t)bits : -(int32_t)(0xFFFFFFFFu - bits) - 1;
}

// Whether the connection was released. This one and those below read the answer row that a 0 or 2xx has written.
static inline int zorakunju_released(const uint8_t *answer)
{
    return answer[ZORAKUNJU_ANSWER_RELEASED] != 0;
}

// How many bytes at the start of `out` go to the peer.
static inline size_t zorakunju_written(const uint8_t *answer)
{
    return (size_t)answer[ZORAKUNJU_ANSWER_WRITTEN] << 8 | answer[ZORAKUNJU_ANSWER_WRITTEN + 1];
}

// Where the delivered data starts in the message.
static inline size_t zorakunju_place(const uint8_t *answer)
{
    return (size_t)answer[ZORAKUNJU_ANSWER_PLACE] << 8 | answer[ZORAKUNJU_ANSWER_PLACE + 1];
}

// How many bytes are delivered.
static inline size_t zorakunju_length(const uint8_t *answer)
{
    return (size_t)answer[ZORAKUNJU_ANSWER_LENGTH] << 8 | answer[ZORAKUNJU_ANSWER_LENGTH + 1];
}

// The age in ticks by which the message was judged: with a 0, 204, 205 or 206 of zorakunju_receive on a connection that was open; else 0.
static inline int32_t zorakunju_age(const uint8_t *answer)
{
    const uint8_t *age = answer + ZORAKUNJU_ANSWER_AGE;
    return zorakunju_signed((uint32_t)age[0] << 24 | (uint32_t)age[1] << 16 | (uint32_t)age[2] << 8 | age[3]);
}

#ifdef __cplusplus
}
#endif

#endif
