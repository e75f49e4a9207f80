/* Calls tile_check from two threads at once, and on a thread with a stack of 16 KiB. */
#define _GNU_SOURCE
#include <pthread.h>
#include <stdio.h>
#include <stdlib.h>
#include <string.h>
#include <sys/mman.h>
#include <unistd.h>

#include "tilecheck.h"

#define TASKS 64
#define ROUNDS 20
#define QUICK_ROUNDS 5000
#define SMALL_STACK ((size_t)16 * 1024)

struct text {
    const char *bytes;
    uint32_t wanted;
};

static char sixty_four[TASKS * 32 + 16];

/* The first ones are answered within a microsecond, so that calls begin often. */
#define QUICK 3

static const struct text texts[] = {
    {"tasks=2\nc=2\nd=4\nt=4\nr=0\nc=4\nd=8\nt=8\nr=0\n", 101},
    {"tasks=1\nc=0\nd=1\nt=1\nr=0\n", 4},
    {"tasks=1\nc=1\nd=1\nr=0\n", 7},
    {"tasks=2\nc=2\nd=4\nt=4\nr=0\nc=3\nd=6\nt=6\nr=0\n", 100},
    {"tasks=2\nc=1\nd=65535\nt=1\nr=0\nc=1\nd=65535\nt=65535\nr=0\n", 102},
    {"tasks=2\nc=50000\nd=50000\nt=50000\nr=0\nc=1\nd=65535\nt=34465\nr=0\n", 101},
    {"tasks=3\nc=40\nd=400\nt=500\nr=0\nc=150\nd=1000\nt=1000\nr=20\nc=90\nd=2500\nt=2000\nr=0\n", 100},
    {sixty_four, 100},
};

#define COUNT (sizeof texts / sizeof texts[0])

static pthread_barrier_t both_are_there;

static void stop(const char *what)
{
    fprintf(stderr, "threads: %s\n", what);
    exit(1);
}

/* The largest set that there is, with five digits in each number. */
static void write_sixty_four(void)
{
    size_t length = (size_t)sprintf(sixty_four, "tasks=%d\n", TASKS);
    for (int task = 0; task < TASKS; task++)
        length += (size_t)sprintf(sixty_four + length, "c=1000\nd=65535\nt=65535\nr=65535\n");
}

static int is_wanted(const struct text *text)
{
    return tile_check((const uint8_t *)text->bytes, strlen(text->bytes)) == text->wanted;
}

/* Goes through the first texts so many times, from a place of its own; gives the wrong answers. */
static uintptr_t wrong_of(size_t count, size_t first, size_t times)
{
    uintptr_t wrong = 0;
    for (size_t number = 0; number < times * count; number++)
        wrong += !is_wanted(&texts[(first + number) % count]);
    return wrong;
}

static void *go_through(void *place)
{
    size_t first = (size_t)(uintptr_t)place;
    uintptr_t wrong = 0;
    pthread_barrier_wait(&both_are_there);
    for (int round = 0; round < ROUNDS; round++) {
        wrong += wrong_of(COUNT, first, 1);
        wrong += wrong_of(QUICK, first, QUICK_ROUNDS);
    }
    return (void *)wrong;
}

static void two_at_once(void)
{
    pthread_t threads[2];
    pthread_barrier_init(&both_are_there, NULL, 2);
    for (uintptr_t thread = 0; thread < 2; thread++)
        if (pthread_create(&threads[thread], NULL, go_through, (void *)thread) != 0)
            stop("no thread");
    for (int thread = 0; thread < 2; thread++) {
        void *wrong;
        pthread_join(threads[thread], &wrong);
        if (wrong != NULL)
            stop("a wrong answer while another thread calls too");
    }
}

static void *one_of_each(void *unused)
{
    (void)unused;
    return (void *)wrong_of(COUNT, 0, 1);
}

/* Memory of so many bytes; the page below it can't be touched, so a longer stack ends the program. */
static void *guarded(size_t size)
{
    size_t page = (size_t)sysconf(_SC_PAGESIZE);
    char *all = mmap(NULL, page + size, PROT_READ | PROT_WRITE, MAP_PRIVATE | MAP_ANONYMOUS, -1, 0);
    if (all == MAP_FAILED || mprotect(all, page, PROT_NONE) != 0)
        stop("no memory");
    return all + page;
}

static void on_a_small_stack(void)
{
    pthread_attr_t small;
    pthread_t thread;
    void *wrong;
    pthread_attr_init(&small);
    if (pthread_attr_setstack(&small, guarded(SMALL_STACK), SMALL_STACK) != 0)
        stop("no stack of 16 KiB");
    if (pthread_create(&thread, &small, one_of_each, NULL) != 0)
        stop("no thread on a stack of 16 KiB");
    pthread_join(thread, &wrong);
    if (wrong != NULL)
        stop("a wrong answer on a stack of 16 KiB");
}

int main(void)
{
    write_sixty_four();
    if (one_of_each(NULL) != NULL)
        stop("a wrong answer with one thread");
    on_a_small_stack();
    two_at_once();
    printf("threads: %zu texts as they should be, on two threads and on a small stack\n", COUNT);
    return 0;
}
