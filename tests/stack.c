/* How much stack each proved call takes.
 *
 *   stack            prints a line of a table for each call: the most that one of its inputs took
 *   stack --small    stops where a call takes more than the size beside it in this file, with some
 *                    bytes for the C library; then makes it with twice that size above a page that
 *                    can't be touched, so that a call which takes more ends the program
 *
 * A call is made in a context of its own, on memory that was painted: what is no longer paint was
 * taken, whether the stack pointer went there or not. There are two paints, because a call could
 * write the one. What a call of an empty function takes is taken off, for it belongs to the context
 * and to the C function that makes the call, and is another with another compiler or C library.
 */
#define _GNU_SOURCE
#include <ctype.h>
#include <inttypes.h>
#include <stdio.h>
#include <stdlib.h>
#include <string.h>
#include <sys/mman.h>
#include <ucontext.h>
#include <unistd.h>

#include "tilecheck.h"

uint32_t probe_read(const uint8_t *, size_t, uint32_t *, size_t, uint64_t *, size_t);
uint32_t probe_write(const uint32_t *, size_t, uint8_t *, size_t, uint64_t *, size_t);
uint32_t probe_schedule(const uint32_t *, size_t, uint32_t, uint64_t *, size_t, uint64_t *, size_t);
uint32_t probe_verdict(const uint32_t *, size_t, uint64_t *, size_t);
uint32_t probe_pattern(const uint32_t *, size_t, uint64_t *, size_t, uint64_t *, size_t);
uint32_t probe_generate(uint32_t, uint32_t, uint32_t *, size_t, uint64_t *, size_t);
uint32_t probe_sheet_read(const uint8_t *, size_t, uint32_t *, size_t, uint64_t *, size_t);
uint32_t probe_sheet_write(const uint32_t *, size_t, uint8_t *, size_t, uint64_t *, size_t);

#define COUNT(array) (sizeof(array) / sizeof(array)[0])
#define WORDS 256
#define BYTES 4096
#define ROWS (4 * 640000)
#define END 100000
#define NOBODY UINT64_MAX

/* ---- What is lent, and what comes back */

static uint32_t table[WORDS], filled[WORDS];
static uint8_t text[BYTES], sheet[BYTES], made[BYTES];
static uint64_t rows[ROWS], out[4];
static size_t words, text_length, sheet_length, room;
static uint32_t seed, number, answer;

/* What stands in the text and in the sheet: as the writers have it; with a letter in the last
 * number; with the sheet's numbers in quotes, after a column that has quotes and a comma in it. */
enum form { PLAIN, SPOILT, QUOTED };

/* One input with its answer. A task is C, D, T, R. */
struct input {
    size_t tasks;
    uint32_t each[4];    /* every task, or all but the last one */
    uint32_t last[4];    /* the last one, if it has a C */
    enum form form;
    uint32_t seed;       /* of a set that is drawn */
    uint32_t number;
    size_t room;         /* how long the buffer is that is lent to be filled */
    uint32_t wanted;     /* the number that has to come back */
    uint64_t carries[2]; /* and the first words of out */
};

static void fill_table(const struct input *input)
{
    words = 4 * input->tasks;
    for (size_t word = 0; word < words; word++)
        table[word] = input->each[word % 4];
    if (input->last[0] != 0)
        memcpy(table + words - 4, input->last, sizeof input->last);
}

static void write_text(void)
{
    text_length = (size_t)sprintf((char *)text, "tasks=%zu\n", words / 4);
    for (size_t word = 0; word < words; word++)
        text_length += (size_t)sprintf((char *)text + text_length, "%c=%u\n", "cdtr"[word % 4],
                                       table[word]);
}

#define PLAIN_RECORD "%u,%u,%u,%u\r\n"
#define QUOTED_RECORD "\"a \"\"b\"\", c\",\"%u\",\"%u\",\"%u\",\"%u\"\r\n"

static void write_sheet(int quoted)
{
    sheet_length = (size_t)sprintf((char *)sheet, "%sexecution,deadline,period,release\r\n",
                                   quoted ? "kernel," : "");
    for (uint32_t *task = table; task < table + words; task += 4)
        sheet_length += (size_t)sprintf((char *)sheet + sheet_length,
                                        quoted ? QUOTED_RECORD : PLAIN_RECORD,
                                        task[0], task[1], task[2], task[3]);
}

static void spoil(uint8_t *bytes, size_t length)
{
    while (!isdigit(bytes[length - 1]))
        length--;
    bytes[length - 1] = 'x';
}

static void prepare(const struct input *input)
{
    fill_table(input);
    write_text();
    write_sheet(input->form == QUOTED);
    if (input->form == SPOILT) {
        spoil(text, text_length);
        spoil(sheet, sheet_length);
    }
    seed = input->seed;
    number = input->number;
    room = input->room;
    answer = UINT32_MAX;
    memset(out, 0, sizeof out);
}

/* ---- The calls, each with its inputs */

static uint32_t do_nothing(void)
{
    return 0;
}

static uint32_t (*volatile empty_function)(void) = do_nothing;

static void nothing(void) { answer = empty_function(); }
static void schedule(void) { answer = probe_schedule(table, words, END, rows, room, out, 4); }
static void pattern(void) { answer = probe_pattern(table, words, rows, room, out, 4); }
static void verdict(void) { answer = probe_verdict(table, words, out, 4); }
static void reader(void) { answer = probe_read(text, text_length, filled, room, out, 4); }
static void writer(void) { answer = probe_write(table, words, made, room, out, 4); }
static void generator(void) { answer = probe_generate(seed, number, filled, room, out, 4); }
static void sheet_read(void) { answer = probe_sheet_read(sheet, sheet_length, filled, room, out, 4); }
static void sheet_write(void) { answer = probe_sheet_write(table, words, made, room, out, 4); }
static void check(void) { answer = tile_check(text, text_length); }

/* Five digits in each number; and a number that is out of its range, in the last word. */
#define LONG {54321, 65535, 12345, 10000}
#define BAD {1, 1, 1, 65536}

static const struct input for_nothing[] = {{0}};

static const struct input for_schedule[] = {
    {64, {1, 65535, 640, 0}, .room = ROWS, .wanted = 200, .carries = {10048}},
    {64, {1, 65535, 640, 65535}, .room = ROWS, .wanted = 200, .carries = {3456}},
    {64, {1, 1, 10, 0}, .room = ROWS, .wanted = 201, .carries = {640000, 1}},
    {64, {1, 65535, 640, 0}, .room = 4 * 10048 - 1, .wanted = 6},
    {64, {1, 65535, 640, 0}, BAD, .room = ROWS, .wanted = 4, .carries = {255}},
    {1, {1, 1, 1, 0}, .room = ROWS, .wanted = 200, .carries = {100000}},
    {1, {2, 1, 1, 7}, .room = ROWS, .wanted = 201, .carries = {99993}},
};

static const struct input for_pattern[] = {
    {64, {1024, 65535, 65535, 0}, .room = ROWS, .wanted = 0, .carries = {64}},
    {64, {1, 64, 64, 0}, {100, 65535, 65535, 0}, .room = ROWS, .wanted = 0, .carries = {64}},
    {2, {1, 1, 1, 0}, {1, 65535, 65535, 0}, .room = ROWS, .wanted = 0, .carries = {65536}},
    {2, {2, 4, 4, 0}, {4, 8, 8, 0}, .room = 8, .wanted = 0, .carries = {2}},
    {1, {5, 3, 10, 0}, .room = 4, .wanted = 0, .carries = {1}},
    {64, {1, 64, 64, 0}, .room = ROWS, .wanted = 8},
    {64, {1024, 65535, 65535, 0}, .room = 4 * 64 - 1, .wanted = 6},
    {64, {1024, 65535, 65535, 0}, BAD, .room = ROWS, .wanted = 4, .carries = {255}},
};

static const struct input for_verdict[] = {
    {64, {1, 64, 64, 0}, .wanted = 100, .carries = {64}},
    {64, {1023, 65535, 65535, 65535}, .wanted = 100, .carries = {65472}},
    {64, {1024, 65535, 65535, 0}, .wanted = 101, .carries = {65535, NOBODY}},
    {64, {1, 64, 64, 0}, {100, 65535, 65535, 0}, .wanted = 101, .carries = {64, 63}},
    {64, {1, 65535, 63, 0}, .wanted = 102},
    {64, {1, 64, 64, 0}, BAD, .wanted = 4, .carries = {255}},
    {1, {1, 1, 1, 0}, .wanted = 100, .carries = {1}},
    {1, {5, 3, 10, 0}, .wanted = 101, .carries = {3, NOBODY}},
};

static const struct input for_reader[] = {
    {64, LONG, .room = WORDS, .wanted = 0, .carries = {64, 2057}},
    {64, LONG, .form = SPOILT, .room = WORDS, .wanted = 7, .carries = {257}},
    {64, LONG, .room = WORDS - 1, .wanted = 6},
    {1, {1, 2, 3, 0}, .room = 4, .wanted = 0, .carries = {1, 24}},
    {0, {0}, .room = WORDS, .wanted = 7, .carries = {1}},
};

static const struct input for_writer[] = {
    {64, LONG, .room = BYTES, .wanted = 0, .carries = {2057}},
    {64, LONG, .room = 2056, .wanted = 6},
    {64, LONG, BAD, .room = BYTES, .wanted = 4, .carries = {255}},
    {1, {1, 2, 3, 0}, .room = 24, .wanted = 0, .carries = {24}},
};

/* A set that is drawn has 1 to 8 tasks. */
static const struct input for_generator[] = {
    {.seed = 1, .number = 1, .room = 4, .wanted = 0, .carries = {1, 217083232}},
    {.seed = 1, .number = 0, .room = WORDS, .wanted = 0, .carries = {1, 217083232}},
    {.seed = 6, .number = 63, .room = 32, .wanted = 0, .carries = {8, 647307981}},
    {.seed = 6, .number = 64, .room = WORDS, .wanted = 0, .carries = {8, 647307981}},
    {.seed = 6, .number = 64, .room = 31, .wanted = 6, .carries = {6}},
};

static const struct input for_sheet_reader[] = {
    {64, LONG, .room = WORDS, .wanted = 0, .carries = {64}},
    {64, LONG, .form = QUOTED, .room = WORDS, .wanted = 0, .carries = {64}},
    {64, LONG, .form = SPOILT, .room = WORDS, .wanted = 14, .carries = {65}},
    {64, LONG, .room = WORDS - 1, .wanted = 6},
    {1, {1, 2, 3, 0}, .room = 4, .wanted = 0, .carries = {1}},
    {0, {0}, .room = WORDS, .wanted = 15},
};

static const struct input for_sheet_writer[] = {
    {64, LONG, .room = BYTES, .wanted = 0, .carries = {1635}},
    {64, LONG, .room = 1634, .wanted = 6},
    {64, LONG, BAD, .room = BYTES, .wanted = 4, .carries = {255}},
    {1, {1, 2, 3, 0}, .room = 44, .wanted = 0, .carries = {44}},
};

static const struct input for_check[] = {
    {64, {1023, 65535, 65535, 65535}, .wanted = 100},
    {64, {1024, 65535, 65535, 65535}, .wanted = 101},
    {64, {1, 64, 64, 0}, {100, 65535, 65535, 0}, .wanted = 101},
    {64, {1, 65535, 63, 0}, .wanted = 102},
    {64, LONG, BAD, .wanted = 4},
    {64, LONG, .form = SPOILT, .wanted = 7},
    {1, {1, 1, 1, 0}, .wanted = 100},
    {0, {0}, .wanted = 7},
};

struct call {
    const char *name;
    void (*make)(void);
    size_t size; /* the most bytes that it took when bench/stack was last run for this table */
    const struct input *inputs;
    size_t count;
};

/* What memset and memcpy may take in another C library than the one that was measured with. */
#define LIBRARY 64

static const struct call empty = {"nothing", nothing, 0, for_nothing, COUNT(for_nothing)};

static const struct call calls[] = {
    {"schedule", schedule, 505, for_schedule, COUNT(for_schedule)},
    {"pattern", pattern, 553, for_pattern, COUNT(for_pattern)},
    {"verdict", verdict, 120, for_verdict, COUNT(for_verdict)},
    {"reader", reader, 1256, for_reader, COUNT(for_reader)},
    {"writer", writer, 56, for_writer, COUNT(for_writer)},
    {"generator", generator, 48, for_generator, COUNT(for_generator)},
    {"sheet reader", sheet_read, 1168, for_sheet_reader, COUNT(for_sheet_reader)},
    {"sheet writer", sheet_write, 48, for_sheet_writer, COUNT(for_sheet_writer)},
    {"tile_check", check, 1240, for_check, COUNT(for_check)},
};

/* ---- A stack of its own for a call */

#define MUCH ((size_t)64 * 1024)

static const uint8_t paints[2] = {0x5a, 0xa5};
static uint8_t *low;  /* where the stack ends: the page below can't be touched */
static size_t around; /* what a call of an empty function takes */

static void map_stack(void)
{
    size_t page = (size_t)sysconf(_SC_PAGESIZE);
    int how = PROT_READ | PROT_WRITE, kind = MAP_PRIVATE | MAP_ANONYMOUS;
    uint8_t *all = mmap(NULL, page + MUCH, how, kind, -1, 0);
    if (all == MAP_FAILED || mprotect(all, page, PROT_NONE) != 0) {
        perror("stack: no memory");
        exit(2);
    }
    low = all + page;
}

static void wrong(const struct call *call, const struct input *input)
{
    fprintf(stderr, "stack: %s, input %td: wanted %u with %" PRIu64 ", %" PRIu64, call->name,
            input - call->inputs, input->wanted, input->carries[0], input->carries[1]);
    fprintf(stderr, ", got %u with %" PRIu64 ", %" PRIu64 "\n", answer, out[0], out[1]);
    exit(1);
}

/* Makes the call with this input on a stack of so many bytes, and holds what comes back to it. */
static void make_on(size_t bytes, const struct call *call, const struct input *input)
{
    static ucontext_t here, there;
    prepare(input);
    getcontext(&there);
    there.uc_stack.ss_sp = low;
    there.uc_stack.ss_size = bytes;
    there.uc_link = &here;
    makecontext(&there, call->make, 0);
    swapcontext(&here, &there);
    if (answer != input->wanted || memcmp(out, input->carries, sizeof input->carries) != 0)
        wrong(call, input);
}

/* How many bytes from the top down to the last one that is no longer paint. */
static size_t painted(const struct call *call, const struct input *input, uint8_t paint)
{
    size_t left = 0;
    memset(low, paint, MUCH);
    make_on(MUCH, call, input);
    while (left < MUCH && low[left] == paint)
        left++;
    return MUCH - left;
}

/* The most bytes over all inputs and both paints. */
static size_t most_of(const struct call *call)
{
    size_t most = 0;
    for (size_t run = 0; run < 2 * call->count; run++) {
        size_t bytes = painted(call, &call->inputs[run / 2], paints[run % 2]);
        most = bytes > most ? bytes : most;
    }
    return most;
}

/* ---- What is printed */

static void print_bytes(size_t bytes)
{
    if (bytes < 1000)
        printf("%zu", bytes);
    else
        printf("%zu,%03zu", bytes / 1000, bytes % 1000);
}

static void show(const struct call *call)
{
    printf("| %s | ", call->name);
    print_bytes(most_of(call) - around);
    printf(" |\n");
}

static void stop_if_grown(const struct call *call, size_t bytes)
{
    if (bytes <= call->size + LIBRARY)
        return;
    printf(", before ");
    print_bytes(call->size);
    printf(": bench/stack\n");
    exit(1);
}

/* The name and the number are printed first: if the call ends the program, they stand last. */
static void hold(const struct call *call)
{
    size_t bytes, above = (around + 15) / 16 * 16; /* a stack begins at a multiple of 16 */
    printf("%s takes ", call->name);
    bytes = most_of(call) - around;
    print_bytes(bytes);
    printf(" bytes of stack");
    stop_if_grown(call, bytes);
    printf("; it gets ");
    print_bytes(2 * call->size);
    printf("\n");
    for (size_t input = 0; input < call->count; input++)
        make_on(above + 2 * call->size, call, &call->inputs[input]);
}

int main(int count, char **arguments)
{
    int small = count == 2 && strcmp(arguments[1], "--small") == 0;
    if (count != 1 && !small) {
        fprintf(stderr, "usage: stack [--small]\n");
        return 2;
    }
    setvbuf(stdout, NULL, _IONBF, 0);
    map_stack();
    around = most_of(&empty);
    for (size_t call = 0; call < COUNT(calls); call++)
        (small ? hold : show)(&calls[call]);
    if (small)
        printf("stack: %zu calls as they should be, with twice what they took\n", COUNT(calls));
    return 0;
}
