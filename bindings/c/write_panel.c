/*
 * Writes a panel file, a row of three buttons and a touch on each, and reads it back.
 *
 *   write_panel FILE
 *
 * The exit status is 1 where a record is refused or the file cannot be written or read.
 */
#include <errno.h>
#include <inttypes.h>
#include <stdio.h>
#include <stdlib.h>
#include <string.h>

#include "shackletongue.h"

#define FILE_LIMIT 65536

/* One byte more than a good file has, so that a longer one is seen to be too long. */
static uint8_t file[FILE_LIMIT + 1];

/* Says what failed, and why. */
static int fail(const char *what, const char *name)
{
    fprintf(stderr, "write_panel: cannot %s %s: %s\n", what, name, strerror(errno));
    return EXIT_FAILURE;
}

/* Says why the library refused, and where. */
static int refused(uint32_t number, uint64_t at)
{
    char text[SHACKLETONGUE_TEXT_LEN] = "";
    shackletongue_refusal_text(number, text, sizeof text);
    fprintf(stderr, "write_panel: refused %" PRIu32 " at %" PRIu64 ": %s\n", number, at, text);
    return EXIT_FAILURE;
}

/* Puts a record behind the others. place[0] is where they end. */
static uint32_t put(uint64_t place[2], uint64_t kind, const float floats[SHACKLETONGUE_SIZES_LEN])
{
    place[1] = kind;
    return shackletongue_put_record(file, FILE_LIMIT, place, 2, floats, SHACKLETONGUE_SIZES_LEN);
}

/* The buttons are 24 by 18, the corners' radii 8 across and 6 down. */
static uint32_t make_panel(uint64_t place[2])
{
    uint32_t number = SHACKLETONGUE_DONE;
    for (int i = 0; i < 3 && number == SHACKLETONGUE_DONE; i++) {
        const float left = 10 + 30 * (float)i;
        const float sizes[SHACKLETONGUE_SIZES_LEN] = {left, 10, left + 24, 28, 8, 6, 8, 6, 8, 6, 8, 6};
        const float touch[SHACKLETONGUE_SIZES_LEN] = {left + 12, 19};
        number = put(place, SHACKLETONGUE_BUTTON, sizes);
        if (number == SHACKLETONGUE_DONE)
            number = put(place, SHACKLETONGUE_TOUCH, touch);
    }
    return number;
}

/* Prints what a file holds, and which button each touch goes to. On 7, place[0] is where it is broken. */
static uint32_t print_panel(size_t len, uint64_t place[2])
{
    float floats[SHACKLETONGUE_SIZES_LEN] = {0};
    for (;;) {
        uint64_t button[1] = {0};
        uint32_t number = shackletongue_record(file, len, place, 2, floats, SHACKLETONGUE_SIZES_LEN);
        if (number != SHACKLETONGUE_DONE || place[1] == SHACKLETONGUE_FILE_END)
            return number;
        if (place[1] == SHACKLETONGUE_BUTTON)
            printf("button from (%g, %g) to (%g, %g)\n", floats[0], floats[1], floats[2], floats[3]);
        else if (shackletongue_touch(file, len, floats[0], floats[1], button, 1) == SHACKLETONGUE_DONE)
            printf("touch at (%g, %g): button %" PRIu64 "\n", floats[0], floats[1], button[0]);
        else
            printf("touch at (%g, %g): no button\n", floats[0], floats[1]);
    }
}

int main(int argc, char **argv)
{
    uint64_t place[2] = {0, 0};
    uint32_t number;
    size_t len;
    FILE *f;
    if (argc != 2) {
        fprintf(stderr, "usage: write_panel FILE\n");
        return EXIT_FAILURE;
    }
    number = make_panel(place);
    if (number != SHACKLETONGUE_DONE)
        return refused(number, place[0]);
    len = (size_t)place[0];
    f = fopen(argv[1], "wb");
    if (f == NULL)
        return fail("open", argv[1]);
    /* a full disk may show only when the file is closed */
    if (fwrite(file, 1, len, f) != len || fclose(f) != 0)
        return fail("write", argv[1]);
    f = fopen(argv[1], "rb");
    if (f == NULL)
        return fail("open", argv[1]);
    len = fread(file, 1, sizeof file, f);
    if (ferror(f))
        return fail("read", argv[1]);
    fclose(f);
    place[0] = 0;
    number = print_panel(len, place);
    if (number != SHACKLETONGUE_DONE)
        return refused(number, place[0]);
    if (ferror(stdout) || fclose(stdout) != 0)
        return fail("write", "the report");
    return EXIT_SUCCESS;
}
