/* A C program that calls tile_check and holds each number to the paper.
 *
 * Every text is lent twice from read-only memory: right after a page that can't be touched, and
 * right before one. So a read beyond either end of the text, or a write to it, ends the program.
 */
#define _DEFAULT_SOURCE
#include <stdio.h>
#include <stdlib.h>
#include <string.h>
#include <sys/mman.h>
#include <unistd.h>

#include "tilecheck.h"

static size_t page;       /* the size of a page */
static size_t room;       /* the bytes between the two guards, whole pages */
static uint8_t *between;  /* where they begin */
static unsigned checks;

static void stop(const char *what)
{
    perror(what);
    exit(2);
}

/* Maps `room` bytes with a page on either side that can't be touched. */
static void map_pages(void)
{
    uint8_t *all;
    page = (size_t)sysconf(_SC_PAGESIZE);
    room = 64 * page;
    all = mmap(NULL, room + 2 * page, PROT_NONE, MAP_PRIVATE | MAP_ANONYMOUS, -1, 0);
    if (all == MAP_FAILED)
        stop("mmap");
    between = all + page;
}

static void protect(int how)
{
    if (mprotect(between, room, how) != 0)
        stop("mprotect");
}

/* Lends the text from read-only memory, `offset` bytes after the first guard. */
static uint32_t lend_at(size_t offset, const char *text, size_t length)
{
    protect(PROT_READ | PROT_WRITE);
    memset(between, '1', room);
    memcpy(between + offset, text, length);
    protect(PROT_READ);
    return tile_check(between + offset, length);
}

static void wrong(const char *name, size_t length, uint32_t wanted, uint32_t got)
{
    printf("caller: %s, %zu bytes: ", name, length);
    printf("wanted %u, got %u\n", (unsigned)wanted, (unsigned)got);
    exit(1);
}

static void expect(const char *name, size_t length, uint32_t wanted, uint32_t got)
{
    checks++;
    if (got != wanted)
        wrong(name, length, wanted, got);
}

static void check_bytes(const char *name, const char *text, size_t length, uint32_t wanted)
{
    expect(name, length, wanted, lend_at(0, text, length));
    expect(name, length, wanted, lend_at(room - length, text, length));
}

static void check(const char *name, const char *text, uint32_t wanted)
{
    check_bytes(name, text, strlen(text), wanted);
}

#define MEETS_SET "tasks=2\nc=2\nd=4\nt=4\nr=0\nc=3\nd=6\nt=6\nr=0\n"
#define MISSES_SET "tasks=2\nc=2\nd=4\nt=4\nr=0\nc=4\nd=8\nt=8\nr=0\n"
#define TOO_FAR_SET "tasks=2\nc=1\nd=65535\nt=1\nr=0\nc=1\nd=65535\nt=65535\nr=0\n"
#define WITH_NUL "tasks=1\nc=1\0\nd=1\nt=1\nr=0\n"
#define WHOLE_RUN MEETS_SET MISSES_SET

/* Writes a set of so many equal tasks and gives its length. */
static size_t many_tasks(char *text, int count, const char *lines)
{
    size_t length = (size_t)sprintf(text, "tasks=%d\n", count);
    for (int task = 0; task < count; task++)
        length += (size_t)sprintf(text + length, "%s", lines);
    return length;
}

/* The paper's own numbers, whatever the header calls them. */
static void check_numbers(void)
{
    check("100", MEETS_SET, 100);
    check("101", MISSES_SET, 101);
    check("102", TOO_FAR_SET, 102);
    check("4", "tasks=1\nc=0\nd=1\nt=1\nr=0\n", 4);
    check("7", "tasks=1\n", 7);
}

static void check_verdicts(void)
{
    check("whole run", WHOLE_RUN, TILECHECK_MEETS);
    check("meets", MEETS_SET, TILECHECK_MEETS);
    check("misses", MISSES_SET, TILECHECK_MISSES);
    check("misses, no blocker", "tasks=1\nc=5\nd=3\nt=10\nr=0\n", TILECHECK_MISSES);
    check("too far", TOO_FAR_SET, TILECHECK_TOO_FAR);
    check("largest words", "tasks=1\nc=65535\nd=65535\nt=65535\nr=65535\n", TILECHECK_MEETS);
    check("damage after the set", MISSES_SET "tasks=0\n", TILECHECK_MISSES);
    check("no line end after the set", TOO_FAR_SET "x", TILECHECK_TOO_FAR);
}

/* A set that misses at length 1 gets one number, however far it is over: by the one task's work, or
 * by the wait for the second one, or by all that 64 tasks can have. */
static void check_excesses(void)
{
    static const unsigned overs[] = {1, 2, 3, 98, 99, 100, 101, 102, 255, 256, 32767, 65534};
    char text[2000];
    for (size_t i = 0; i < sizeof overs / sizeof overs[0]; i++) {
        sprintf(text, "tasks=1\nc=%u\nd=1\nt=1\nr=0\n", overs[i] + 1);
        check("over by the work", text, 101);
        sprintf(text, "tasks=2\nc=1\nd=1\nt=65535\nr=0\nc=%u\nd=65535\nt=65535\nr=0\n",
                overs[i] + 1);
        check("over by the wait", text, 101);
    }
    many_tasks(text, 64, "c=65535\nd=1\nt=1\nr=0\n");
    check("over by 4194239", text, 101);
}

static void check_refusals(void)
{
    check("c=0", "tasks=1\nc=0\nd=1\nt=1\nr=0\n", TILECHECK_OUT_OF_RANGE);
    check("d=0", "tasks=1\nc=1\nd=0\nt=1\nr=0\n", TILECHECK_OUT_OF_RANGE);
    check("t=0", "tasks=1\nc=1\nd=1\nt=0\nr=0\n", TILECHECK_OUT_OF_RANGE);
    check("c=65536", "tasks=1\nc=65536\nd=1\nt=1\nr=0\n", TILECHECK_OUT_OF_RANGE);
    check("r=99999", "tasks=1\nc=1\nd=1\nt=1\nr=99999\n", TILECHECK_OUT_OF_RANGE);
    check("bad word and no end", "tasks=1\nc=0\nd=1\nt=1\nr=0", TILECHECK_BAD_LINE);
    check("tasks=0", "tasks=0\n", TILECHECK_BAD_LINE);
    check("tasks=65", "tasks=65\nc=1\nd=1\nt=1\nr=0\n", TILECHECK_BAD_LINE);
    check("no t line", "tasks=1\nc=1\nd=1\nr=0\n", TILECHECK_BAD_LINE);
    check("leading zero", "tasks=1\nc=01\nd=1\nt=1\nr=0\n", TILECHECK_BAD_LINE);
    check("six digits", "tasks=1\nc=100000\nd=1\nt=1\nr=0\n", TILECHECK_BAD_LINE);
    check("carriage return", "tasks=1\r\nc=1\r\nd=1\r\nt=1\r\nr=0\r\n", TILECHECK_BAD_LINE);
    check_bytes("byte 0", WITH_NUL, sizeof WITH_NUL - 1, TILECHECK_BAD_LINE);
    check("empty", "", TILECHECK_BAD_LINE);
}

static void check_null(void)
{
    expect("null pointer", 0, TILECHECK_BAD_LINE, tile_check(NULL, 0));
}

/* The whole run cut at every place: only the first set counts. */
static void check_cuts(void)
{
    size_t first = strlen(MEETS_SET);
    for (size_t length = 0; length <= strlen(WHOLE_RUN); length++) {
        uint32_t wanted = length < first ? TILECHECK_BAD_LINE : TILECHECK_MEETS;
        check_bytes("whole run, cut", WHOLE_RUN, length, wanted);
    }
}

/* The most tasks and one more; then more text after the set than the program would take. */
static void check_long(void)
{
    static const char lines[] = "c=1\nd=64\nt=64\nr=65535\n";
    static char text[100000];
    size_t length = many_tasks(text, 65, lines);
    check_bytes("65 tasks", text, length, TILECHECK_BAD_LINE);
    length = many_tasks(text, 64, lines);
    check_bytes("64 tasks", text, length, TILECHECK_MEETS);
    check_bytes("64 tasks, cut", text, length - 1, TILECHECK_BAD_LINE);
    memset(text + length, 'x', sizeof text - length);
    check_bytes("64 tasks and more", text, sizeof text, TILECHECK_MEETS);
}

int main(void)
{
    map_pages();
    check_numbers();
    check_verdicts();
    check_excesses();
    check_refusals();
    check_null();
    check_cuts();
    check_long();
    printf("caller: %u calls as they should be\n", checks);
    return 0;
}
