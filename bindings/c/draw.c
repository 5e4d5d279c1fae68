/*
 * Draws a panel file as an SVG: the outline of each button, and each touch by what it hits.
 *
 *   draw FILE > PICTURE
 *
 * A user's program in the small: memory is lent once and used for every button. The exit status is 1 where the file is
 * refused, cannot be read, or the picture cannot be written, and a line on standard error says so.
 */
#include <errno.h>
#include <float.h>
#include <inttypes.h>
#include <stdio.h>
#include <stdlib.h>
#include <string.h>

#include "shackletongue.h"

#define FILE_LIMIT 65536

/* One byte more than a good file has, so that a longer one is seen to be too long. */
static uint8_t file[FILE_LIMIT + 1];
static size_t file_len;

/* A path: its record, and room for the largest outline. */
struct path {
    uint64_t counts[SHACKLETONGUE_COUNTS_LEN];
    float places[SHACKLETONGUE_PLACES_LEN];
    uint8_t verbs[SHACKLETONGUE_OUTLINE_VERBS];
    float points[SHACKLETONGUE_OUTLINE_FLOATS];
};

/* SVG's letter for each kind of segment, and how many floats it has. */
static const char letters[] = "MLQCZ";
static const int floats_of[] = {2, 2, 4, 6, 0};

/* Makes the shape and draws it into the path, which is emptied first. */
static uint32_t outline(struct path *p, const float *sizes, float *shape)
{
    uint32_t number = shackletongue_shape(sizes, SHACKLETONGUE_SIZES_LEN, shape, SHACKLETONGUE_SHAPE_LEN);
    if (number != SHACKLETONGUE_DONE)
        return number;
    p->counts[0] = p->counts[1] = p->counts[2] = 0;
    return shackletongue_add_to(shape, SHACKLETONGUE_SHAPE_LEN, p->counts, SHACKLETONGUE_COUNTS_LEN,
                                p->places, SHACKLETONGUE_PLACES_LEN, p->verbs,
                                SHACKLETONGUE_OUTLINE_VERBS, p->points, SHACKLETONGUE_OUTLINE_FLOATS);
}

/* Reads the path back, segment by segment, as SVG path data; nine digits are enough for every float. */
static uint32_t print_path(const struct path *p)
{
    uint64_t cursor[SHACKLETONGUE_CURSOR_LEN] = {0, 0, 0};
    float segment[SHACKLETONGUE_SEGMENT_LEN] = {0};
    for (;;) {
        uint32_t number = shackletongue_read(
            p->counts, SHACKLETONGUE_COUNTS_LEN, p->places, SHACKLETONGUE_PLACES_LEN, p->verbs,
            SHACKLETONGUE_OUTLINE_VERBS, p->points, SHACKLETONGUE_OUTLINE_FLOATS, cursor,
            SHACKLETONGUE_CURSOR_LEN, segment, SHACKLETONGUE_SEGMENT_LEN);
        if (number != SHACKLETONGUE_DONE || cursor[2] == SHACKLETONGUE_END)
            return number;
        putchar(letters[cursor[2]]);
        for (int i = 0; i < floats_of[cursor[2]]; i++)
            printf(i ? " %.9g" : "%.9g", segment[i]);
    }
}

/* Draws the button, or says why it has no shape. */
static uint32_t print_button(struct path *p, int index, const float *sizes)
{
    float shape[SHACKLETONGUE_SHAPE_LEN] = {0};
    uint32_t number = outline(p, sizes, shape);
    if (number != SHACKLETONGUE_DONE) {
        printf("<!-- button %d refused %" PRIu32 " -->\n", index, number);
        return SHACKLETONGUE_DONE;
    }
    int consistent = shackletongue_is_consistent(sizes, SHACKLETONGUE_SIZES_LEN, shape, SHACKLETONGUE_SHAPE_LEN) == 1;
    printf("<path id=\"button%d\" fill=\"%s\" d=\"", index, consistent ? "goldenrod" : "red");
    number = print_path(p);
    printf("\"/>\n");
    return number;
}

/* Marks a touch: filled where it hits a button. */
static uint32_t print_touch(float x, float y)
{
    uint64_t place[1] = {0};
    uint32_t number = shackletongue_touch(file, file_len, x, y, place, 1);
    printf("<circle cx=\"%.9g\" cy=\"%.9g\" r=\"1\" fill=\"%s\"><title>", x, y,
           number == SHACKLETONGUE_DONE ? "black" : "none");
    if (number == SHACKLETONGUE_DONE)
        printf("%" PRIu64, place[0]);
    else
        printf("none");
    printf("</title></circle>\n");
    return number == SHACKLETONGUE_NONE ? SHACKLETONGUE_DONE : number;
}

/* Draws the records in file order. */
static uint32_t print_records(struct path *p)
{
    uint64_t place[2] = {0, 0};
    float floats[SHACKLETONGUE_SIZES_LEN] = {0};
    int buttons = 0;
    for (;;) {
        uint32_t number = shackletongue_record(file, file_len, place, 2, floats, SHACKLETONGUE_SIZES_LEN);
        if (number != SHACKLETONGUE_DONE || place[1] == SHACKLETONGUE_FILE_END)
            return number;
        number = place[1] == SHACKLETONGUE_BUTTON ? print_button(p, buttons++, floats)
                                                  : print_touch(floats[0], floats[1]);
        if (number != SHACKLETONGUE_DONE)
            return number;
    }
}

/* Widens the box by a button's outline; a refused one has none. */
static void include(float box[4], struct path *p, const float *sizes)
{
    float shape[SHACKLETONGUE_SHAPE_LEN] = {0};
    float rect[SHACKLETONGUE_RECT_LEN] = {0};
    uint64_t place[1] = {0};
    if (outline(p, sizes, shape) != SHACKLETONGUE_DONE)
        return;
    if (shackletongue_box(p->counts, SHACKLETONGUE_COUNTS_LEN, p->places, SHACKLETONGUE_PLACES_LEN,
                          p->verbs, SHACKLETONGUE_OUTLINE_VERBS, p->points, SHACKLETONGUE_OUTLINE_FLOATS,
                          rect, SHACKLETONGUE_RECT_LEN, place, 1) != SHACKLETONGUE_DONE)
        return;
    for (int i = 0; i < 2; i++) {
        box[i] = rect[i] < box[i] ? rect[i] : box[i];
        box[i + 2] = rect[i + 2] > box[i + 2] ? rect[i + 2] : box[i + 2];
    }
}

/* The least box round all outlines. On 7, place[0] is where the file is broken. */
static uint32_t measure(float box[4], struct path *p, uint64_t place[2])
{
    float floats[SHACKLETONGUE_SIZES_LEN] = {0};
    for (;;) {
        uint32_t number = shackletongue_record(file, file_len, place, 2, floats, SHACKLETONGUE_SIZES_LEN);
        if (number != SHACKLETONGUE_DONE || place[1] == SHACKLETONGUE_FILE_END)
            return number;
        if (place[1] == SHACKLETONGUE_BUTTON)
            include(box, p, floats);
    }
}

/* The whole file, which is gone through once before anything is drawn: a broken one has no picture. */
static int draw(void)
{
    static struct path path;
    uint64_t place[2] = {0, 0};
    float box[4] = {FLT_MAX, FLT_MAX, -FLT_MAX, -FLT_MAX};
    uint32_t number = measure(box, &path, place);
    if (number != SHACKLETONGUE_DONE) {
        char text[SHACKLETONGUE_TEXT_LEN] = "";
        shackletongue_refusal_text(number, text, sizeof text);
        fprintf(stderr, "refused %" PRIu32 " at %" PRIu64 ": %s\n", number, place[0], text);
        return EXIT_FAILURE;
    }
    printf("<svg xmlns=\"http://www.w3.org/2000/svg\" stroke=\"black\" stroke-width=\"0.3\"");
    if (box[0] <= box[2])
        printf(" viewBox=\"%.9g %.9g %.9g %.9g\"", box[0] - 2, box[1] - 2, box[2] - box[0] + 4, box[3] - box[1] + 4);
    printf(">\n");
    number = print_records(&path);
    printf("</svg>\n");
    if (number != SHACKLETONGUE_DONE)
        fprintf(stderr, "refused %" PRIu32 "\n", number);
    return number == SHACKLETONGUE_DONE ? EXIT_SUCCESS : EXIT_FAILURE;
}

/* Says what failed, and why. */
static int fail(const char *what, const char *name)
{
    fprintf(stderr, "draw: cannot %s %s: %s\n", what, name, strerror(errno));
    return EXIT_FAILURE;
}

int main(int argc, char **argv)
{
    FILE *f;
    int status;
    if (argc != 2) {
        fprintf(stderr, "usage: draw FILE > PICTURE\n");
        return EXIT_FAILURE;
    }
    f = fopen(argv[1], "rb");
    if (f == NULL)
        return fail("open", argv[1]);
    file_len = fread(file, 1, sizeof file, f);
    if (ferror(f))
        return fail("read", argv[1]);
    fclose(f);
    status = draw();
    /* What was printed may still be in a buffer: a full disk may show only now. An earlier error the stream remembers. */
    if (ferror(stdout) || fclose(stdout) != 0)
        return fail("write", "the picture");
    return status;
}
