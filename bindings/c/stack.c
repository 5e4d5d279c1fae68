/*
 * Measures how much stack each function takes, and holds it to what the header says.
 *
 *   stack [all]    with `all` a line for each function: the most bytes that it took, and the most that it may
 *
 * A call runs on a stack of its own that is filled with a pattern. What the call changed is what it took, its return
 * address included.
 */
#define _XOPEN_SOURCE 600
#include <math.h>
#include <stdint.h>
#include <stdio.h>
#include <stdlib.h>
#include <string.h>
#include <ucontext.h>

#include "shackletongue.h"

#define PATTERN 0xa5
#define STACK (1u << 20)

static unsigned char *stack;

/* ---- what the calls are lent: nothing of it lies on the measured stack */

static uint64_t counts[3], need[2], cursor[3], place[2];
static float places[4], shape[89], points[2 * 1000000], segment[6], rect[4], floats[12], sine, cosine;
static uint8_t verbs[1000000], file[65536], written[64];
static uint32_t results[SHACKLETONGUE_RESULTS_LEN];
static char text[SHACKLETONGUE_TEXT_LEN];
static size_t file_len;

#define PATH counts, 3, places, 4, verbs, sizeof verbs, points, sizeof points / sizeof points[0]

/* Shapes that take every way through the library: corners that are square and round, equal and not, with few segments
 * and with many, refused ones too. */
static const float shapes[][12] = {
    {0, 0, 100, 60, 20, 20, 20, 20, 20, 20, 20, 20},
    {0, 0, 100, 60, 1, 2, 3, 4, 5, 6, 7, 8},
    {0, 0, 100, 60, 0, 0, 20, 20, 0, 5, 20, 20},
    {0, 0, 10, 10, 0, 0, 0, 0, 0, 0, 0, 0},
    {-16384, -16384, 16384, 16384, 0.001f, 0.002f, 16384, 16384, 1, 16384, 16384, 1},
    {0, 0, 1000, 1, 50, 1, 50, 1, 50, 1, 50, 1},
    {0, 0, 8000, 8000, 4000, 4000, 4000, 4000, 4000, 4000, 4000, 4000},
    {0, 0, 10, 10, -1, 0, 0, 0, 0, 0, 0, 0},
};
#define SHAPES (sizeof shapes / sizeof shapes[0])
static const float *sizes = shapes[0];
static float weight, x, y;

static void version(void) { shackletongue_version(); }
static void refusal_text(void) { shackletongue_refusal_text(2, text, sizeof text); }
static void make(void) { shackletongue_shape(sizes, 12, shape, 89); }
static void contains(void) { shackletongue_contains(shape, 89, x, y); }
static void is_consistent(void) { shackletongue_is_consistent(sizes, 12, shape, 89); }
static void outline_need(void) { shackletongue_outline_need(shape, 89, need, 2); }
static void move_to(void) { shackletongue_move_to(PATH, x, y); }
static void line_to(void) { shackletongue_line_to(PATH, x, y); }
static void quad_to(void) { shackletongue_quad_to(PATH, 1, 2, x, y); }
static void conic_to(void) { shackletongue_conic_to(PATH, 10, 0, x, y, weight); }
static void cubic_to(void) { shackletongue_cubic_to(PATH, 1, 2, 3, 4, x, y); }
static void close_path(void) { shackletongue_close(PATH); }
static void add_to(void) { shackletongue_add_to(shape, 89, PATH); }
static void conic_need(void) { shackletongue_conic_need(counts, 3, places, 4, 10, 0, x, y, weight, need, 2); }
static void read_one(void) { shackletongue_read(PATH, cursor, 3, segment, 6); }
static void box(void) { shackletongue_box(PATH, rect, 4, place, 1); }
static void record(void) { shackletongue_record(file, file_len, place, 2, floats, 12); }
static void put_record(void) { shackletongue_put_record(written, sizeof written, place, 2, floats, 12); }
static void touch(void) { shackletongue_touch(file, file_len, x, y, place, 1); }
static void touch_all(void) { shackletongue_touch_all(file, file_len, results, SHACKLETONGUE_RESULTS_LEN, place, 1); }
static void narrow(void) { sine = shackletongue_narrow(x); }
static void root(void) { sine = shackletongue_sqrt(x); }
static void power(void) { sine = shackletongue_pow(x, y); }
static void sin_cos(void) { shackletongue_sin_cos(x, &sine, &cosine); }
static void tangent(void) { sine = shackletongue_tan(x); }
static void arctangent(void) { sine = shackletongue_atan2(y, x); }

/* ---- one call, measured */

static ucontext_t here, there;

static void (*volatile called)(void);
static size_t taken;

/* Counts before it returns, since what comes behind it takes stack too. */
static void run(void)
{
    volatile unsigned char frame = 0;
    unsigned char *at = stack;
    called();
    while (at < stack + STACK && *at == PATTERN)
        at++;
    taken = (size_t)((unsigned char *)&frame - at);
}

/* The bytes of a fresh stack that the call changed below its caller's. */
static void take(void (*call)(void))
{
    call(); /* once elsewhere, since the first call of a function of the C library takes more, to find it */
    memset(stack, PATTERN, STACK);
    called = call;
    if (getcontext(&there) != 0) {
        fprintf(stderr, "stack: no context\n");
        exit(EXIT_FAILURE);
    }
    there.uc_stack.ss_sp = stack;
    there.uc_stack.ss_size = STACK;
    there.uc_link = &here;
    makecontext(&there, run, 0);
    if (swapcontext(&here, &there) != 0) {
        fprintf(stderr, "stack: the stack was not changed\n");
        exit(EXIT_FAILURE);
    }
}

static size_t worst;

static void measure(void (*call)(void))
{
    take(call);
    worst = taken > worst ? taken : worst;
}

/* Points inside, far out and none; weights that leave a conic whole, halve it, and halve it as often as any. */
static void measure_points(void (*call)(void))
{
    static const float xs[] = {5, 1e6f, NAN}, ys[] = {30, -1e6f, 2}, weights[] = {1, 0.7f, 1e6f};
    for (int i = 0; i < 3; i++) {
        x = xs[i];
        y = ys[i];
        weight = weights[i];
        measure(call);
        counts[0] = counts[1] = 0;
        measure(call);
    }
}

static void measure_shapes(void (*call)(void))
{
    for (size_t i = 0; i < SHAPES; i++) {
        sizes = shapes[i];
        make();
        measure_points(call);
    }
}

/* The longest file: buttons of every kind, then touches. */
static void fill_file(void)
{
    place[0] = 0;
    for (size_t i = 0; i < 3 * SHAPES; i++) {
        place[1] = SHACKLETONGUE_BUTTON;
        shackletongue_put_record(file, sizeof file, place, 2, shapes[i % SHAPES], 12);
    }
    do
        place[1] = SHACKLETONGUE_TOUCH;
    while (shackletongue_put_record(file, sizeof file, place, 2, shapes[place[0] % SHAPES], 12) == 0);
    file_len = (size_t)place[0];
}

#define KIB 1024

/* The most that a function may take, as the header says. */
static const struct {
    const char *name;
    void (*call)(void);
    size_t most;
    void (*measure)(void (*)(void));
} rows[] = {
    {"version", version, KIB, measure},
    {"refusal_text", refusal_text, KIB, measure},
    {"shape", make, 8 * KIB, measure_shapes},
    {"contains", contains, KIB, measure_shapes},
    {"is_consistent", is_consistent, 32 * KIB, measure_shapes},
    {"outline_need", outline_need, 8 * KIB, measure_shapes},
    {"move_to", move_to, KIB, measure_points},
    {"line_to", line_to, KIB, measure_points},
    {"quad_to", quad_to, KIB, measure_points},
    {"conic_to", conic_to, KIB, measure_points},
    {"cubic_to", cubic_to, KIB, measure_points},
    {"close", close_path, KIB, measure_points},
    {"add_to", add_to, 8 * KIB, measure_shapes},
    {"conic_need", conic_need, KIB, measure_points},
    {"read", read_one, KIB, measure_points},
    {"box", box, KIB, measure_points},
    {"record", record, KIB, measure},
    {"put_record", put_record, KIB, measure},
    {"touch", touch, 8 * KIB, measure_points},
    {"touch_all", touch_all, 64 * KIB, measure},
    {"narrow", narrow, KIB, measure_points},
    {"sqrt", root, KIB, measure_points},
    {"pow", power, KIB, measure_points},
    {"sin_cos", sin_cos, KIB, measure_points},
    {"tan", tangent, KIB, measure_points},
    {"atan2", arctangent, KIB, measure_points},
};

int main(int argc, char **argv)
{
    int status = EXIT_SUCCESS, all = argc > 1 && strcmp(argv[1], "all") == 0;
    size_t most = 0;
    static union {
        unsigned char bytes[STACK];
        long double aligned;
    } memory;
    stack = memory.bytes;
    fill_file();
    for (size_t i = 0; i < sizeof rows / sizeof rows[0]; i++) {
        worst = 0;
        place[0] = 0;
        place[1] = SHACKLETONGUE_TOUCH;
        rows[i].measure(rows[i].call);
        if (all)
            printf("%s %zu of %zu\n", rows[i].name, worst, rows[i].most);
        most = worst > most ? worst : most;
        if (worst > rows[i].most) {
            fprintf(stderr, "stack: %s takes more than the header says\n", rows[i].name);
            status = EXIT_FAILURE;
        }
    }
    printf("stack: %zu functions, %zu bytes at most\n", sizeof rows / sizeof rows[0], most);
    return status;
}
