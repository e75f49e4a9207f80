/* Says whether a task set may be placed on a tile.
 *
 *   placement [FILE]      reads the set from the file, or from standard input
 *
 * Exit status: 0 it may be placed, 1 it may not, 2 there is no set to judge.
 *
 * Build, from the root of the repository, after `tools/build placement_c`:
 *
 *   gcc -Wall -Wextra -Iinclude examples/placement.c target/staticlib/libplacement.a -o target/placement
 */
#include <errno.h>
#include <stdio.h>
#include <stdlib.h>
#include <string.h>

#include "tilecheck.h"

struct text {
    uint8_t *bytes;
    size_t length;
};

/* Doubles the room of a text; leaves it as it is if there is no memory. */
static int grow(struct text *text, size_t *room)
{
    size_t more = *room == 0 ? 4096 : 2 * *room;
    uint8_t *bytes = more > *room ? realloc(text->bytes, more) : NULL;
    if (bytes == NULL)
        return 0;
    text->bytes = bytes;
    *room = more;
    return 1;
}

/* Reads a file to its end. */
static int read_all(FILE *file, struct text *text)
{
    size_t room = 0;
    while (!feof(file)) {
        if (text->length == room && !grow(text, &room))
            return 0;
        text->length += fread(text->bytes + text->length, 1, room - text->length, file);
        if (ferror(file))
            return 0;
    }
    return 1;
}

/* Says what the number means and gives the exit status. */
static int tell(uint32_t answer)
{
    switch (answer) {
    case TILECHECK_MEETS:
        puts("may be placed: every deadline is met");
        return 0;
    case TILECHECK_MISSES:
        puts("not to be placed: a deadline can be missed");
        return 1;
    case TILECHECK_TOO_FAR:
        puts("not to be placed: too far to tell");
        return 1;
    case TILECHECK_OUT_OF_RANGE:
        puts("no set to judge: a number is out of its range");
        return 2;
    case TILECHECK_BAD_LINE:
        puts("no set to judge: a line is missing or not as due");
        return 2;
    default:
        printf("no set to judge: refusal %u\n", (unsigned)answer);
        return 2;
    }
}

static int fail(const char *name)
{
    fprintf(stderr, "placement: %s: %s\n", name, strerror(errno));
    return 2;
}

int main(int argc, char **argv)
{
    struct text text = {NULL, 0};
    const char *name = argc > 1 ? argv[1] : "standard input";
    FILE *file = argc > 1 ? fopen(argv[1], "rb") : stdin;
    int status;

    if (argc > 2) {
        fputs("usage: placement [FILE]\n", stderr);
        return 2;
    }
    if (file == NULL || !read_all(file, &text))
        return fail(name);
    status = tell(tile_check(text.bytes, text.length));
    free(text.bytes);
    return status;
}
