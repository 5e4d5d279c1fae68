/*
 * Holds every call to what the header promises of refusals, the number, and that no lent slice changes but `place`
 * where it says where; and to what it promises that an accepted call leaves alone. Prints how many checks were made, or
 * the first that fails.
 */
#include <math.h>
#include <stdio.h>
#include <stdlib.h>
#include <string.h>

#include "shackletongue.h"

static int checks;

#define CHECK(condition)                                                                                               \
    do {                                                                                                               \
        checks++;                                                                                                      \
        if (!(condition)) {                                                                                            \
            fprintf(stderr, "refusals.c:%d: %s\n", __LINE__, #condition);                                              \
            exit(EXIT_FAILURE);                                                                                        \
        }                                                                                                              \
    } while (0)

/* Everything that a call may be lent, so that one comparison shows whether anything changed. */
struct memory {
    uint64_t counts[3], need[2], cursor[3], place[2];
    float places[4], points[32], shape[89], segment[6], rect[4], floats[12];
    uint32_t results[SHACKLETONGUE_RESULTS_LEN];
    uint8_t verbs[16], file[65552];
    char text[SHACKLETONGUE_TEXT_LEN];
};

static struct memory m, before;

#define PATTERN 0x41

/* Fills the memory with a pattern under an empty record. */
static void reset(void)
{
    memset(&m, PATTERN, sizeof m);
    memset(m.counts, 0, sizeof m.counts);
    memset(m.cursor, 0, sizeof m.cursor);
    memset(m.place, 0, sizeof m.place);
}

/* The call returns the number and changes nothing. */
#define UNCHANGED(number, call)                                                                                        \
    do {                                                                                                               \
        before = m;                                                                                                    \
        CHECK((call) == (number));                                                                                     \
        CHECK(memcmp(&before, &m, sizeof m) == 0);                                                                     \
    } while (0)

static int is_pattern(const unsigned char *byte, const void *end)
{
    while (byte != end && *byte == PATTERN)
        byte++;
    return byte == end;
}

/* The array is as it was filled, from this index on. */
#define KEPT_FROM(index, array)                                                                                        \
    CHECK(is_pattern((const unsigned char *)&(array)[index], (const char *)(array) + sizeof(array)))

#define PATH(counts_len, places_len, verbs_len, points_len)                                                            \
    m.counts, counts_len, m.places, places_len, m.verbs, verbs_len, m.points, points_len

/* Each of the seven building calls returns the number and changes nothing. */
#define ALL_BUILDING(number, path)                                                                                     \
    do {                                                                                                               \
        UNCHANGED(number, shackletongue_move_to(path, 1, 2));                                                          \
        UNCHANGED(number, shackletongue_line_to(path, 1, 2));                                                          \
        UNCHANGED(number, shackletongue_quad_to(path, 1, 2, 3, 4));                                                    \
        UNCHANGED(number, shackletongue_conic_to(path, 1, 2, 3, 4, 1));                                                \
        UNCHANGED(number, shackletongue_cubic_to(path, 1, 2, 3, 4, 5, 6));                                             \
        UNCHANGED(number, shackletongue_add_to(square, 89, path));                                                     \
    } while (0)

static const float square_sizes[12] = {0, 0, 10, 10};
static float square[89];

static void shapes(void)
{
    float sizes[12];
    CHECK(shackletongue_shape(square_sizes, 12, square, 89) == 0);
    CHECK(shackletongue_contains(square, 89, 5, 5) == 1);
    CHECK(shackletongue_contains(square, 89, 0, 10) == 0);
    CHECK(shackletongue_contains(square, 89, NAN, NAN) <= 1);
    UNCHANGED(100, shackletongue_contains(square, 88, 5, 5));
    CHECK(shackletongue_is_consistent(square_sizes, 12, square, 89) == 1);
    UNCHANGED(100, shackletongue_is_consistent(square_sizes, 11, square, 89));
    UNCHANGED(100, shackletongue_is_consistent(square_sizes, 12, square, 0));
    CHECK(shackletongue_outline_need(square, 89, m.need, 2) == 0);
    CHECK(m.need[0] == 11 && m.need[1] == 10);
    UNCHANGED(100, shackletongue_outline_need(square, 89, m.need, 1));
    UNCHANGED(100, shackletongue_outline_need(square, 88, m.need, 2));
    UNCHANGED(100, shackletongue_shape(square_sizes, 11, m.shape, 89));
    UNCHANGED(100, shackletongue_shape(square_sizes, 12, m.shape, 88));
    for (int i = 0; i < 12; i++) {
        memcpy(sizes, square_sizes, sizeof sizes);
        sizes[i] = NAN;
        UNCHANGED(2, shackletongue_shape(sizes, 12, m.shape, 89));
        sizes[i] = -16385;
        UNCHANGED(2, shackletongue_shape(sizes, 12, m.shape, 89));
        sizes[i] = i < 2 ? 11 : -1;
        UNCHANGED(i < 4 ? 4u : 3u, shackletongue_shape(sizes, 12, m.shape, 89));
    }
}

static void building(void)
{
    ALL_BUILDING(100, PATH(2, 4, 8, 16));
    ALL_BUILDING(100, PATH(3, 5, 8, 16));
    UNCHANGED(100, shackletongue_close(PATH(0, 4, 8, 16)));
    UNCHANGED(100, shackletongue_add_to(square, 90, PATH(3, 4, 8, 16)));
    ALL_BUILDING(5, PATH(3, 4, 0, 16));
    ALL_BUILDING(5, PATH(3, 4, 8, 1));
    m.counts[0] = 9;
    ALL_BUILDING(1, PATH(3, 4, 8, 16));
    UNCHANGED(1, shackletongue_close(PATH(3, 4, 8, 16)));
    m.counts[0] = UINT64_MAX;
    ALL_BUILDING(1, PATH(3, 4, 8, 16));
    m.counts[0] = 1;
    m.counts[1] = UINT64_MAX / 2 + 1;
    ALL_BUILDING(1, PATH(3, 4, 8, 16));
    m.counts[0] = 0;
    m.counts[1] = 1;
    ALL_BUILDING(1, PATH(3, 4, 8, 16));
    reset();
    UNCHANGED(0, shackletongue_close(PATH(3, 4, 8, 16)));
    CHECK(shackletongue_conic_to(PATH(3, 4, 8, 16), 1, 0, 2, 0, 1) == 0);
    CHECK(m.counts[0] == 2 && m.counts[1] == 3 && m.counts[2] == 1);
    CHECK(shackletongue_conic_need(m.counts, 3, m.places, 4, 1, 0, 2, 0, NAN, m.need, 2) == 0);
    CHECK(m.need[0] == 1 && m.need[1] == 1);
    UNCHANGED(100, shackletongue_conic_need(m.counts, 3, m.places, 4, 1, 0, 2, 0, 1, m.need, 3));
    UNCHANGED(100, shackletongue_conic_need(m.counts, 4, m.places, 4, 1, 0, 2, 0, 1, m.need, 2));
}

/* A building call, in the front of the buffers. The second conic has two quads, the outline 11 verbs and 10 points. */
static uint32_t build(int call, size_t verbs_len, size_t points_len)
{
    switch (call) {
    case 0: return shackletongue_move_to(PATH(3, 4, verbs_len, points_len), 1, 2);
    case 1: return shackletongue_line_to(PATH(3, 4, verbs_len, points_len), 1, 2);
    case 2: return shackletongue_quad_to(PATH(3, 4, verbs_len, points_len), 1, 2, 3, 4);
    case 3: return shackletongue_conic_to(PATH(3, 4, verbs_len, points_len), 1, 2, 3, 4, 1);
    case 4: return shackletongue_conic_to(PATH(3, 4, verbs_len, points_len), 10, 0, 10, 10, 1.01f);
    case 5: return shackletongue_cubic_to(PATH(3, 4, verbs_len, points_len), 1, 2, 3, 4, 5, 6);
    case 6: return shackletongue_close(PATH(3, 4, verbs_len, points_len));
    default: return shackletongue_add_to(square, 89, PATH(3, 4, verbs_len, points_len));
    }
}

/* An empty path, or one that holds a line. */
static void begin(int held)
{
    reset();
    if (held)
        CHECK(build(1, 16, 32) == 0);
}

/* Whatever lies behind what a call writes stays, in large buffers and in such as it fills but for an odd float; and
 * everything stays where a verb or a point is lacking. */
static void keeping(void)
{
    for (int call = 0; call < 8; call++) {
        for (int held = 0; held < 2; held++) {
            begin(held);
            uint64_t verbs_held = m.counts[0], points_held = m.counts[1];
            CHECK(build(call, 16, 32) == 0);
            size_t verbs = (size_t)m.counts[0], floats = 2 * (size_t)m.counts[1];
            KEPT_FROM(verbs, m.verbs);
            KEPT_FROM(floats, m.points);
            begin(held);
            CHECK(build(call, verbs, floats + 1) == 0);
            KEPT_FROM(verbs, m.verbs);
            KEPT_FROM(floats, m.points);
            begin(held);
            if (verbs > verbs_held)
                UNCHANGED(5, build(call, verbs - 1, floats + 1));
            if (floats > 2 * points_held)
                UNCHANGED(5, build(call, verbs, floats - 1));
        }
    }
}

#define READ(path) shackletongue_read(path, m.cursor, 3, m.segment, 6)
#define BOX(path) shackletongue_box(path, m.rect, 4, m.place, 1)

static void reading(void)
{
    reset();
    UNCHANGED(101, BOX(PATH(3, 4, 8, 16)));
    UNCHANGED(100, READ(PATH(2, 4, 8, 16)));
    UNCHANGED(100, BOX(PATH(3, 3, 8, 16)));
    UNCHANGED(100, shackletongue_read(PATH(3, 4, 8, 16), m.cursor, 2, m.segment, 6));
    UNCHANGED(100, shackletongue_read(PATH(3, 4, 8, 16), m.cursor, 3, m.segment, 7));
    UNCHANGED(100, shackletongue_box(PATH(3, 4, 8, 16), m.rect, 5, m.place, 1));
    UNCHANGED(100, shackletongue_box(PATH(3, 4, 8, 16), m.rect, 4, m.place, 0));
    CHECK(shackletongue_move_to(PATH(3, 4, 8, 16), 3, 4) == 0);
    CHECK(shackletongue_line_to(PATH(3, 4, 8, 16), -1, INFINITY) == 0);
    CHECK(READ(PATH(3, 4, 8, 16)) == 0);
    CHECK(m.cursor[0] == 1 && m.cursor[1] == 1 && m.cursor[2] == SHACKLETONGUE_MOVE);
    CHECK(m.segment[0] == 3 && m.segment[1] == 4);
    CHECK(BOX(PATH(3, 4, 8, 16)) == 0);
    CHECK(m.rect[0] == 3 && m.rect[1] == 4 && m.rect[2] == 3 && m.rect[3] == 4);
    m.cursor[0] = m.cursor[1] = UINT64_MAX;
    CHECK(READ(PATH(3, 4, 8, 16)) == 0);
    CHECK(m.cursor[0] == UINT64_MAX && m.cursor[1] == UINT64_MAX && m.cursor[2] == SHACKLETONGUE_END);
    UNCHANGED(1, READ(PATH(3, 4, 1, 16)));
    UNCHANGED(1, BOX(PATH(3, 4, 8, 3)));
    m.cursor[0] = m.verbs[1] = 1;
    m.cursor[1] = 2;
    UNCHANGED(6, READ(PATH(3, 4, 8, 16)));
    m.verbs[1] = 5;
    UNCHANGED(6, READ(PATH(3, 4, 8, 16)));
    before = m;
    before.place[0] = 1;
    CHECK(BOX(PATH(3, 4, 8, 16)) == 6);
    CHECK(memcmp(&before, &m, sizeof m) == 0);
}

/* One segment of each kind, and the end: the floats behind a segment's own stay. */
static void segments(void)
{
    static const int calls[] = {0, 1, 2, 5, 6};
    static const size_t floats[] = {2, 2, 4, 6, 0, 0};
    reset();
    for (int i = 0; i < 5; i++)
        CHECK(build(calls[i], 16, 32) == 0);
    for (uint64_t kind = SHACKLETONGUE_MOVE; kind <= SHACKLETONGUE_END; kind++) {
        memset(m.segment, PATTERN, sizeof m.segment);
        CHECK(READ(PATH(3, 4, 16, 32)) == 0);
        CHECK(m.cursor[2] == kind);
        KEPT_FROM(floats[kind], m.segment);
    }
}

/* A reading that is refused, or at the end, stores no float, though the buffers go on at the cursor. */
static void unread(void)
{
    reset();
    for (int i = 0; i < 32; i++)
        m.points[i] = (float)i;
    memset(m.verbs, SHACKLETONGUE_QUAD, sizeof m.verbs);
    m.counts[0] = 4;
    m.counts[1] = 8;
    UNCHANGED(1, READ(PATH(3, 4, 3, 32)));
    UNCHANGED(1, READ(PATH(3, 4, 16, 15)));
    m.counts[0] = 0;
    UNCHANGED(1, READ(PATH(3, 4, 16, 32)));
    m.counts[0] = 4;
    m.cursor[0] = 3;
    m.cursor[1] = 7;
    UNCHANGED(6, READ(PATH(3, 4, 16, 32)));
    m.cursor[1] = 6;
    m.verbs[3] = 5;
    UNCHANGED(6, READ(PATH(3, 4, 16, 32)));
    m.verbs[3] = SHACKLETONGUE_QUAD;
    m.cursor[0] = 4;
    CHECK(READ(PATH(3, 4, 16, 32)) == 0);
    CHECK(m.cursor[2] == SHACKLETONGUE_END);
    KEPT_FROM(0, m.segment);
    m.cursor[0] = 3;
    CHECK(READ(PATH(3, 4, 16, 32)) == 0);
    for (int i = 0; i < 4; i++)
        CHECK(m.segment[i] == m.points[12 + i]);
    KEPT_FROM(4, m.segment);
}

#define RECORD(file, len) shackletongue_record(file, len, m.place, 2, m.floats, 12)
#define TOUCH(file, len) shackletongue_touch(file, len, 5, 5, m.place, 1)
#define TOUCH_ALL(file, len) shackletongue_touch_all(file, len, m.results, SHACKLETONGUE_RESULTS_LEN, m.place, 1)

/* The call returns 7 and says that the record at `offset` is broken, and changes nothing else. */
#define BROKEN(offset, call)                                                                                           \
    do {                                                                                                               \
        before = m;                                                                                                    \
        before.place[0] = (offset);                                                                                    \
        CHECK((call) == 7);                                                                                            \
        CHECK(memcmp(&before, &m, sizeof m) == 0);                                                                     \
    } while (0)

static void panels(void)
{
    static uint8_t file[65537] = {8, 0, 2, 0};
    reset();
    CHECK(RECORD(file, 0) == 0);
    CHECK(m.place[0] == 0 && m.place[1] == SHACKLETONGUE_FILE_END);
    UNCHANGED(101, TOUCH(file, 0));
    CHECK(TOUCH_ALL(file, 0) == 0);
    CHECK(m.place[0] == 0);
    CHECK(TOUCH_ALL(file, 12) == 0);
    CHECK(m.place[0] == 1 && m.results[0] == SHACKLETONGUE_NOWHERE);
    KEPT_FROM(1, m.results);
    m.place[0] = 0;
    CHECK(RECORD(file, 12) == 0);
    CHECK(m.place[0] == 12 && m.place[1] == SHACKLETONGUE_TOUCH && m.floats[0] == 0 && m.floats[1] == 0);
    KEPT_FROM(2, m.floats);
    for (size_t len = 1; len < 12; len++) {
        m.place[0] = 0;
        BROKEN(0, RECORD(file, len));
        BROKEN(0, TOUCH(file, len));
        BROKEN(0, TOUCH_ALL(file, len));
        BROKEN(12, TOUCH(file, 12 + len));
        BROKEN(12, TOUCH_ALL(file, 12 + len));
    }
    /* a file that is too long is broken at 0, whichever record is asked, and behind its end too */
    for (int i = 0; i < 5; i++) {
        static const uint64_t asked[] = {0, 12, 65536, 65537, UINT64_MAX};
        m.place[0] = asked[i];
        BROKEN(0, RECORD(file, sizeof file));
    }
    BROKEN(0, TOUCH(file, sizeof file));
    BROKEN(0, TOUCH_ALL(file, sizeof file));
    m.place[0] = UINT64_MAX;
    CHECK(RECORD(file, 12) == 0);
    CHECK(m.place[0] == UINT64_MAX && m.place[1] == SHACKLETONGUE_FILE_END);
    UNCHANGED(100, shackletongue_record(file, 12, m.place, 1, m.floats, 12));
    UNCHANGED(100, shackletongue_record(file, 12, m.place, 2, m.floats, 11));
    UNCHANGED(100, shackletongue_touch(file, 12, 5, 5, m.place, 2));
    UNCHANGED(100, shackletongue_touch_all(file, 12, m.results, 5460, m.place, 1));
    UNCHANGED(100, shackletongue_touch_all(file, 12, m.results, 5461, m.place, 0));
}

#define PUT(file_len) shackletongue_put_record(m.file, file_len, m.place, 2, m.floats, 12)

/* Written at an offset into so long a file: the bytes stand there, place[0] is behind them, and nothing else changes. */
static void put(uint64_t kind, uint64_t at, size_t file_len, const uint8_t *bytes, size_t len)
{
    m.place[0] = at;
    m.place[1] = kind;
    before = m;
    memcpy(before.file + at, bytes, len);
    before.place[0] = at + len;
    CHECK(PUT(file_len) == 0);
    CHECK(memcmp(&before, &m, sizeof m) == 0);
}

static void writing(void)
{
    static const uint64_t no_kinds[] = {0, 3, 4, 255, 256, 257, 65536, 65537, 65538, 1ull << 32 | 1, UINT64_MAX};
    static const uint8_t touch[12] = {8, 0, 2, 0, 0x00, 0x00, 0x80, 0x3f, 0x00, 0x00, 0x00, 0x80};
    static const uint8_t nans[12] = {8, 0, 2, 0, 0x00, 0x00, 0xc0, 0x7f, 0x00, 0x00, 0xc0, 0x7f};
    uint8_t button[52] = {48, 0, 1, 0};
    reset();
    m.place[1] = SHACKLETONGUE_TOUCH;
    UNCHANGED(100, shackletongue_put_record(m.file, sizeof m.file, m.place, 1, m.floats, 12));
    UNCHANGED(100, shackletongue_put_record(m.file, sizeof m.file, m.place, 0, m.floats, 12));
    UNCHANGED(100, shackletongue_put_record(m.file, 0, m.place, 2, m.floats, 11));
    UNCHANGED(100, shackletongue_put_record(m.file, sizeof m.file, m.place, 2, m.floats, 2));
    /* a wrong length ahead of everything, an unknown kind wherever its record would stand */
    for (size_t i = 0; i < sizeof no_kinds / sizeof no_kinds[0]; i++) {
        m.place[1] = no_kinds[i];
        UNCHANGED(100, shackletongue_put_record(m.file, sizeof m.file, m.place, 2, m.floats, 0));
        for (int far = 0; far < 2; far++) {
            m.place[0] = far ? UINT64_MAX : 0;
            UNCHANGED(7, PUT(sizeof m.file));
            UNCHANGED(7, PUT(0));
        }
        m.place[0] = 0;
    }
    /* a button, every float another */
    for (int i = 0; i < 12; i++) {
        m.floats[i] = (float)(1 + i);
        memcpy(button + 4 + 4 * i, &m.floats[i], 4); /* this machine stores floats with the lowest byte first */
    }
    put(SHACKLETONGUE_BUTTON, 0, 52, button, 52);
    put(SHACKLETONGUE_BUTTON, 3, 55, button, 52);
    put(SHACKLETONGUE_BUTTON, 65484, 65536, button, 52);
    put(SHACKLETONGUE_BUTTON, 65484, sizeof m.file, button, 52);
    m.floats[0] = 1;
    m.floats[1] = -0.0f;
    put(SHACKLETONGUE_TOUCH, 0, 12, touch, 12);
    put(SHACKLETONGUE_TOUCH, 1, sizeof m.file, touch, 12);
    put(SHACKLETONGUE_TOUCH, 65524, sizeof m.file, touch, 12);
    /* any NaN is written as one of them; a touch looks at two floats alone */
    m.floats[0] = -NAN;
    memcpy(&m.floats[1], "\x01\x00\x80\xff", 4);
    put(SHACKLETONGUE_TOUCH, 100, 112, nans, 12);
    /* one byte short, behind 65,536, and so far that the sum would pass 2^64 */
    for (uint64_t kind = SHACKLETONGUE_BUTTON; kind <= SHACKLETONGUE_TOUCH; kind++) {
        const size_t size = kind == SHACKLETONGUE_BUTTON ? 52 : 12;
        m.place[1] = kind;
        for (size_t len = 0; len < size; len++) {
            m.place[0] = 0;
            UNCHANGED(5, PUT(len));
            m.place[0] = 7;
            UNCHANGED(5, PUT(7 + len));
            m.place[0] = 65536 - len;
            UNCHANGED(5, PUT(65536));
            UNCHANGED(5, PUT(sizeof m.file));
            m.place[0] = UINT64_MAX - len;
            UNCHANGED(5, PUT(sizeof m.file));
        }
        m.place[0] = 1ull << 63;
        UNCHANGED(5, PUT(sizeof m.file));
        m.place[0] = 1ull << 32;
        UNCHANGED(5, PUT(sizeof m.file));
    }
}

static void texts(void)
{
    static const struct {
        uint32_t number;
        const char *text;
    } known[] = {
        {SHACKLETONGUE_BAD_RECORD, "the record does not suit the buffers"},
        {SHACKLETONGUE_BEYOND_LIMIT, "a bound or a radius is not finite, or over 16384 in magnitude"},
        {SHACKLETONGUE_NEGATIVE_RADIUS, "a radius is below zero"},
        {SHACKLETONGUE_INVERTED, "max is below min on an axis"},
        {SHACKLETONGUE_NO_ROOM, "no room in the buffers"},
        {SHACKLETONGUE_MALFORMED, "a verb cannot be read"},
        {SHACKLETONGUE_BROKEN_FILE, "the panel file is broken"},
        {SHACKLETONGUE_WRONG_LENGTH, "a slice does not have the length that the header gives"},
        {SHACKLETONGUE_NONE, "there is none: no point, no button or no such number"},
    };
    static const uint32_t unknown[] = {0, 8, 9, 99, 102, 257, 65537, 1u << 31 | 1, UINT32_MAX};
    reset();
    for (size_t i = 0; i < sizeof known / sizeof known[0]; i++) {
        memset(m.text, PATTERN, sizeof m.text);
        before = m;
        memset(before.text, 0, sizeof m.text);
        memcpy(before.text, known[i].text, strlen(known[i].text));
        CHECK(shackletongue_refusal_text(known[i].number, m.text, 64) == 0);
        CHECK(memcmp(&before, &m, sizeof m) == 0);
        memset(m.text, PATTERN, sizeof m.text);
        UNCHANGED(100, shackletongue_refusal_text(known[i].number, m.text, 63));
        UNCHANGED(100, shackletongue_refusal_text(known[i].number, m.text, 0));
    }
    UNCHANGED(100, shackletongue_refusal_text(0, m.text, 63));
    for (size_t i = 0; i < sizeof unknown / sizeof unknown[0]; i++)
        UNCHANGED(101, shackletongue_refusal_text(unknown[i], m.text, 64));
}

#define NOTHING m.counts, 3, m.places, 4, NULL, 0, NULL, 0

/* A slice of length 0 may have any pointer, NULL too. */
static void nulls(void)
{
    reset();
    ALL_BUILDING(5, NOTHING);
    UNCHANGED(0, shackletongue_close(NOTHING));
    CHECK(READ(NOTHING) == 0 && m.cursor[2] == SHACKLETONGUE_END);
    m.cursor[2] = 0;
    UNCHANGED(101, BOX(NOTHING));
    m.counts[0] = 1;
    ALL_BUILDING(1, NOTHING);
    UNCHANGED(1, READ(NOTHING));
    UNCHANGED(1, BOX(NOTHING));
    reset();
    UNCHANGED(0, RECORD(NULL, 0));
    UNCHANGED(101, TOUCH(NULL, 0));
    UNCHANGED(0, TOUCH_ALL(NULL, 0));
    m.place[1] = SHACKLETONGUE_BUTTON;
    UNCHANGED(5, shackletongue_put_record(NULL, 0, m.place, 2, m.floats, 12));
    /* where the length is fixed it is a wrong one */
    UNCHANGED(100, shackletongue_shape(NULL, 0, m.shape, 89));
    UNCHANGED(100, shackletongue_shape(square_sizes, 12, NULL, 0));
    UNCHANGED(100, shackletongue_contains(NULL, 0, 1, 2));
    UNCHANGED(100, shackletongue_is_consistent(NULL, 0, square, 89));
    UNCHANGED(100, shackletongue_is_consistent(square_sizes, 12, NULL, 0));
    UNCHANGED(100, shackletongue_outline_need(NULL, 0, m.need, 2));
    UNCHANGED(100, shackletongue_outline_need(square, 89, NULL, 0));
    UNCHANGED(100, shackletongue_conic_need(NULL, 0, m.places, 4, 1, 2, 3, 4, 5, m.need, 2));
    UNCHANGED(100, shackletongue_conic_need(m.counts, 3, NULL, 0, 1, 2, 3, 4, 5, m.need, 2));
    UNCHANGED(100, shackletongue_conic_need(m.counts, 3, m.places, 4, 1, 2, 3, 4, 5, NULL, 0));
    UNCHANGED(100, shackletongue_add_to(NULL, 0, PATH(3, 4, 8, 16)));
    UNCHANGED(100, shackletongue_close(NULL, 0, NULL, 0, m.verbs, 8, m.points, 16));
    UNCHANGED(100, shackletongue_read(PATH(3, 4, 8, 16), NULL, 0, m.segment, 6));
    UNCHANGED(100, shackletongue_read(PATH(3, 4, 8, 16), m.cursor, 3, NULL, 0));
    UNCHANGED(100, shackletongue_box(PATH(3, 4, 8, 16), NULL, 0, m.place, 1));
    UNCHANGED(100, shackletongue_box(PATH(3, 4, 8, 16), m.rect, 4, NULL, 0));
    UNCHANGED(100, shackletongue_record(m.file, 12, NULL, 0, m.floats, 12));
    UNCHANGED(100, shackletongue_record(m.file, 12, m.place, 2, NULL, 0));
    UNCHANGED(100, shackletongue_touch(m.file, 12, 1, 2, NULL, 0));
    UNCHANGED(100, shackletongue_touch_all(m.file, 12, NULL, 0, m.place, 1));
    UNCHANGED(100, shackletongue_touch_all(m.file, 12, m.results, SHACKLETONGUE_RESULTS_LEN, NULL, 0));
    UNCHANGED(100, shackletongue_put_record(m.file, 12, NULL, 0, m.floats, 12));
    UNCHANGED(100, shackletongue_put_record(m.file, 12, m.place, 2, NULL, 0));
    UNCHANGED(100, shackletongue_refusal_text(1, NULL, 0));
}

int main(void)
{
    CHECK(shackletongue_version() == SHACKLETONGUE_VERSION);
    reset();
    shapes();
    building();
    keeping();
    reading();
    segments();
    unread();
    panels();
    writing();
    texts();
    nulls();
    printf("refusals: %d checks\n", checks);
    return EXIT_SUCCESS;
}
