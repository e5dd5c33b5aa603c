// rows.c: makes the calls from C that a file holds, and prints a line for each: rows FILE. tests/check-c compares it with the independent program.
// An input, highest byte first: kind 1, now 4, row size 2, room 2, answer size 2, length 2; so many bytes of a row; `length` bytes more. Its line: the
// answer's number and, as they stand after the call, the row, the out buffer (of a reading, its numbers) and the answer row, in hexadecimal digits.
// Linux: MAP_ANONYMOUS.
#define _DEFAULT_SOURCE
#include <errno.h>
#include <inttypes.h>
#include <setjmp.h>
#include <signal.h>
#include <stdint.h>
#include <stdio.h>
#include <stdlib.h>
#include <string.h>
#include <sys/mman.h>
#include <unistd.h>

#include "zorakunju.h"

#define HEADER_SIZE 13
#define BEGIN_SIZE 26
// The bytes of a number in an input, and in a field of memory.
#define NUMBER_SIZE 4
// What two bytes can say, and so many numbers in bytes.
#define MOST 65535
#define MOST_BYTES (MOST * NUMBER_SIZE)
// What stands in out, answer row and fields before a call.
#define BEFORE 0xA5

enum kind { BEGIN = 1, RECEIVE = 2, SEND = 3, TICK = 4, CLOSE = 5, READ_ROW = 6, WRITE_ROW = 7 };

// One input, as the file has it.
struct input {
    uint8_t kind;
    uint32_t now;
    size_t row_size, room, answer_size, length;
    uint8_t row[MOST], bytes[MOST];
};

// Memory to lend from: pages with one before and one behind them that can't be touched. What is lent ends where the pages end, or starts where they start,
// so that a call that reads or writes one byte past it, or one before it, is stopped, though the library is compiled without checks of its own.
struct area {
    uint8_t *start, *end;
};

// What an input's call is lent. A part that has no byte is null.
struct lent {
    uint8_t *row, *bytes, *out, *answer;
};

static struct area row_area, bytes_area, out_area, answer_area;
// The number of the input, from 1 on.
static uint64_t at;

// Ends the program: what is wrong with the file, or with a call.
static void stop(const char *said)
{
    fprintf(stderr, "rows: input %" PRIu64 ": %s\n", at, said);
    exit(EXIT_FAILURE);
}

static uint16_t number16(const uint8_t *from)
{
    return (uint16_t)(from[0] << 8 | from[1]);
}

static uint32_t number32(const uint8_t *from)
{
    return (uint32_t)from[0] << 24 | (uint32_t)from[1] << 16 | (uint32_t)from[2] << 8 | from[3];
}

static struct area area_made(void)
{
    size_t page = (size_t)sysconf(_SC_PAGESIZE), size = (MOST_BYTES + page - 1) / page * page;
    struct area made;
    uint8_t *pages = mmap(NULL, size + 2 * page, PROT_NONE, MAP_PRIVATE | MAP_ANONYMOUS, -1, 0);
    if (pages == MAP_FAILED || mprotect(pages + page, size, PROT_READ | PROT_WRITE) != 0) {
        stop(strerror(errno));
    }
    made.start = pages + page;
    made.end = made.start + size;
    return made;
}

// So many bytes of an area: for every second input at its end, for the others at its start.
static uint8_t *lent_from(struct area area, size_t size)
{
    if (size == 0) {
        return NULL;
    }
    return at % 2 == 0 ? area.end - size : area.start;
}

static uint8_t *filled(struct area area, size_t size)
{
    uint8_t *lent = lent_from(area, size);
    if (size > 0) {
        memset(lent, BEFORE, size);
    }
    return lent;
}

static uint8_t *copied(struct area area, const uint8_t *from, size_t size)
{
    uint8_t *lent = lent_from(area, size);
    if (size > 0) {
        memcpy(lent, from, size);
    }
    return lent;
}

// The numbers of a writing, in this machine's own order of bytes.
static uint8_t *numbers_copied(struct area area, const uint8_t *from, size_t size)
{
    uint8_t *lent = lent_from(area, size);
    size_t k;
    for (k = 0; k < size; k += NUMBER_SIZE) {
        uint32_t number = number32(from + k);
        memcpy(lent + k, &number, sizeof number);
    }
    return lent;
}

// How many bytes of out a call is lent, and how many of an answer row.
static size_t out_size(const struct input *in)
{
    switch (in->kind) {
    case BEGIN:
    case RECEIVE:
    case SEND:
        return in->room;
    case READ_ROW:
        return in->room * NUMBER_SIZE;
    default:
        return 0;
    }
}

static size_t answer_size(const struct input *in)
{
    return in->kind <= CLOSE ? in->answer_size : 0;
}

static struct lent lent_for(const struct input *in)
{
    struct lent lent;
    lent.row = copied(row_area, in->row, in->row_size);
    lent.bytes = in->kind == WRITE_ROW ? numbers_copied(bytes_area, in->bytes, in->length) : copied(bytes_area, in->bytes, in->length);
    lent.out = filled(out_area, out_size(in));
    lent.answer = filled(answer_area, answer_size(in));
    return lent;
}

// So many bytes of the file.
static void must_read(FILE *file, uint8_t *to, size_t size)
{
    if (fread(to, 1, size, file) < size) {
        stop(ferror(file) ? strerror(errno) : "it is cut");
    }
}

// The next input; whether there is one.
static int next_input(FILE *file, struct input *in)
{
    uint8_t header[HEADER_SIZE];
    int first = getc(file);
    if (first == EOF && !ferror(file)) {
        return 0;
    }
    at++;
    in->kind = (uint8_t)first;
    must_read(file, header + 1, sizeof header - 1);
    in->now = number32(header + 1);
    in->row_size = number16(header + 5);
    in->room = number16(header + 7);
    in->answer_size = number16(header + 9);
    in->length = number16(header + 11);
    must_read(file, in->row, in->row_size);
    must_read(file, in->bytes, in->length);
    if (in->kind < BEGIN || in->kind > WRITE_ROW) {
        stop("no kind of call");
    }
    if (in->kind == BEGIN && in->length != BEGIN_SIZE) {
        stop("the bytes of a begin are not 26");
    }
    if (in->kind == WRITE_ROW && in->length % NUMBER_SIZE != 0) {
        stop("the bytes of a writing are no numbers of 4 bytes");
    }
    return 1;
}

// A begin. Its narrow numbers are cut from wider ones, as a host may do it: what the bits above them then are in a register is left open to the compiler,
// and a callee that looks at them takes another number. Volatile, so that it can't know them to be 0.
static uint32_t begin(const struct input *in, const struct lent *lent)
{
    static volatile const uint32_t above = 0xA5A50000;
    const uint8_t *b = in->bytes;
    return zorakunju_begin(lent->row, in->row_size, (uint8_t)(above | b[0]), (uint16_t)(above | number16(b + 1)), number32(b + 3), number32(b + 7),
                           number32(b + 11), number32(b + 15), (uint8_t)(above | b[19]), (uint16_t)(above | number16(b + 20)), number32(b + 22), in->now,
                           lent->out, in->room, lent->answer, in->answer_size);
}

static uint32_t call(const struct input *in, const struct lent *lent)
{
    switch (in->kind) {
    case BEGIN:
        return begin(in, lent);
    case RECEIVE:
        return zorakunju_receive(lent->row, in->row_size, in->now, lent->bytes, in->length, lent->out, in->room, lent->answer, in->answer_size);
    case SEND:
        return zorakunju_send(lent->row, in->row_size, in->now, lent->bytes, in->length, lent->out, in->room, lent->answer, in->answer_size);
    case TICK:
        return zorakunju_tick(lent->row, in->row_size, in->now, lent->answer, in->answer_size);
    case CLOSE:
        return zorakunju_close(lent->row, in->row_size, lent->answer, in->answer_size);
    case READ_ROW:
        return zorakunju_read_row(lent->row, in->row_size, (uint32_t *)(void *)lent->out, in->room);
    default:
        return zorakunju_write_row((const uint32_t *)(const void *)lent->bytes, in->length / NUMBER_SIZE, lent->row, in->row_size);
    }
}

// What lies before or behind what a call was lent ends in a signal.
static sigjmp_buf before_call;

static void touched(int signal_number)
{
    (void)signal_number;
    siglongjmp(before_call, 1);
}

static uint32_t guarded_call(const struct input *in, const struct lent *lent)
{
    if (sigsetjmp(before_call, 0) != 0) {
        stop("the call touched a byte that it was not lent");
    }
    return call(in, lent);
}

static int differ(const uint8_t *a, const uint8_t *b, size_t size)
{
    return size > 0 && memcmp(a, b, size) != 0;
}

// What a call may only read must be as it was: message or data, the numbers of a writing, the row of a reading.
static void check_unchanged(const struct input *in, const struct lent *lent)
{
    size_t k;
    for (k = 0; in->kind == WRITE_ROW && k < in->length; k += NUMBER_SIZE) {
        uint32_t number = number32(in->bytes + k);
        if (differ(lent->bytes + k, (const uint8_t *)&number, sizeof number)) {
            stop("the call changed a number that it may only read");
        }
    }
    if (in->kind != WRITE_ROW && differ(lent->bytes, in->bytes, in->length)) {
        stop("the call changed bytes that it may only read");
    }
    if (in->kind == READ_ROW && differ(lent->row, in->row, in->row_size)) {
        stop("the call changed a row that it may only read");
    }
}

// A word of a line: a space and the bytes.
static void print_bytes(const uint8_t *bytes, size_t size)
{
    static const char digits[] = "0123456789abcdef";
    static char word[2 * MOST_BYTES + 1];
    size_t k;
    if (size == 0) {
        fputs(" -", stdout);
        return;
    }
    word[0] = ' ';
    for (k = 0; k < size; k++) {
        word[2 * k + 1] = digits[bytes[k] >> 4];
        word[2 * k + 2] = digits[bytes[k] & 15];
    }
    fwrite(word, 1, 2 * size + 1, stdout);
}

// The numbers of a reading, highest byte first.
static void print_numbers(const uint8_t *numbers, size_t size)
{
    static uint8_t bytes[MOST_BYTES];
    size_t k;
    for (k = 0; k < size; k += NUMBER_SIZE) {
        uint32_t number;
        memcpy(&number, numbers + k, sizeof number);
        bytes[k] = (uint8_t)(number >> 24);
        bytes[k + 1] = (uint8_t)(number >> 16);
        bytes[k + 2] = (uint8_t)(number >> 8);
        bytes[k + 3] = (uint8_t)number;
    }
    print_bytes(bytes, size);
}

static void print_line(const struct input *in, const struct lent *lent, uint32_t number)
{
    printf("%" PRIu32, number);
    print_bytes(lent->row, in->row_size);
    if (in->kind == READ_ROW) {
        print_numbers(lent->out, out_size(in));
    } else {
        print_bytes(lent->out, out_size(in));
    }
    print_bytes(lent->answer, answer_size(in));
    putchar('\n');
}

int main(int count, char **words)
{
    static struct input in;
    FILE *file = count == 2 ? fopen(words[1], "rb") : NULL;
    if (file == NULL) {
        fprintf(stderr, "rows: %s\n", count == 2 ? strerror(errno) : "it is rows FILE");
        return EXIT_FAILURE;
    }
    signal(SIGSEGV, touched);
    signal(SIGBUS, touched);
    row_area = area_made();
    bytes_area = area_made();
    out_area = area_made();
    answer_area = area_made();
    while (next_input(file, &in)) {
        struct lent lent = lent_for(&in);
        uint32_t number = guarded_call(&in, &lent);
        check_unchanged(&in, &lent);
        print_line(&in, &lent, number);
    }
    fclose(file);
    if (fflush(stdout) != 0 || ferror(stdout)) {
        stop("standard output can't be written");
    }
    return EXIT_SUCCESS;
}
