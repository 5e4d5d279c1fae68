/*
 * Holds the exported functions to the oracle's stored answers: asks them what a program of the gate was asked, writes
 * their answers as that program does (docs/REPLAY.md, docs/ORACLE.md), and compares line by line. What a call must leave
 * alone is compared too: all that is lent, on a refusal; else whatever lies outside the places that it writes.
 *
 *   replay floats|shapes|paths|panels|verdicts ASKED ANSWERED
 *
 * ASKED and ANSWERED are `stdin` and `stdout` of replay_floats, replay_shapes, replay_paths, replay_panels or inspect.
 * Of the floats only those lines count that ask an exported function.
 */
#include <errno.h>
#include <inttypes.h>
#include <stdarg.h>
#include <stdio.h>
#include <stdlib.h>
#include <string.h>

#include "shackletongue.h"

static const char *kind;

static void fail(const char *format, ...)
{
    va_list rest;
    va_start(rest, format);
    fprintf(stderr, "replay %s: ", kind);
    vfprintf(stderr, format, rest);
    fprintf(stderr, "\n");
    va_end(rest);
    exit(EXIT_FAILURE);
}

/* ---- the two files */

struct text {
    char *bytes;
    size_t len, at;
    int line;
};

static struct text asked, answered;
static int compared;

static struct text whole(const char *name)
{
    struct text t = {NULL, 0, 0, 0};
    size_t room = 0, n;
    FILE *f = fopen(name, "rb");
    if (f == NULL)
        fail("cannot open %s: %s", name, strerror(errno));
    do {
        room += 1u << 20;
        t.bytes = realloc(t.bytes, room);
        if (t.bytes == NULL)
            fail("no memory for %s", name);
        n = fread(t.bytes + t.len, 1, room - t.len, f);
        t.len += n;
    } while (t.len == room);
    if (ferror(f))
        fail("cannot read %s: %s", name, strerror(errno));
    fclose(f);
    return t;
}

/* The next line, with its length, or NULL at the end. */
static const char *next_line(struct text *t, size_t *len)
{
    const char *line = t->bytes + t->at, *end;
    if (t->at == t->len)
        return NULL;
    end = memchr(line, '\n', t->len - t->at);
    *len = end == NULL ? t->len - t->at : (size_t)(end - line);
    t->at += *len + (end != NULL);
    t->line++;
    return line;
}

/* The next answer must begin with this text; `whole_line`: must be this text. */
static void compare(const char *text, int whole_line)
{
    size_t len = 0, n = strlen(text);
    const char *line = next_line(&answered, &len);
    if (line == NULL)
        fail("line %d asked: answered \"%s\", and no answer is stored", asked.line, text);
    if (len < n || memcmp(line, text, n) != 0 || (whole_line && len != n))
        fail("line %d asked: answered \"%s\", stored (line %d) \"%.*s\"", asked.line, text, answered.line, (int)len, line);
    compared++;
}

static void answer(const char *format, ...)
{
    char text[2048];
    va_list rest;
    va_start(rest, format);
    vsnprintf(text, sizeof text, format, rest);
    va_end(rest);
    compare(text, 1);
}

/* What must hold of a call; the line that asked for it is told. */
static void hold(int condition, const char *what)
{
    if (!condition)
        fail("line %d asked: %s", asked.line, what);
}

/* ---- words */

#define LONGEST_LINE 1024
#define MOST_WORDS 600

static char line_bytes[LONGEST_LINE + 1];
static char *words[MOST_WORDS];
static int word_count;

/* Takes the next asked line apart, up to a comment. 0 at the end; a line that is too long has -1 words. */
static int take_line(void)
{
    size_t len = 0;
    const char *line = next_line(&asked, &len);
    char *word;
    word_count = 0;
    if (line == NULL)
        return 0;
    if (len > LONGEST_LINE) {
        word_count = -1;
        return 1;
    }
    memcpy(line_bytes, line, len);
    line_bytes[len] = '\0';
    line_bytes[strcspn(line_bytes, "#")] = '\0';
    for (word = strtok(line_bytes, " "); word != NULL && word_count < MOST_WORDS; word = strtok(NULL, " "))
        words[word_count++] = word;
    return 1;
}

static int is(const char *word)
{
    return word_count > 0 && strcmp(words[0], word) == 0;
}

/* A number in so many lower-case hexadecimal digits. */
static int hexadecimal(const char *word, size_t digits, uint64_t *n)
{
    if (strlen(word) != digits || strspn(word, "0123456789abcdef") != digits)
        return 0;
    *n = strtoull(word, NULL, 16);
    return 1;
}

static int decimal(const char *word, uint64_t *n)
{
    if (*word == '\0' || strspn(word, "0123456789") != strlen(word))
        return 0;
    errno = 0;
    *n = strtoull(word, NULL, 10);
    return errno == 0;
}

static int single(const char *word, float *x)
{
    uint64_t n = 0x7fc00000;
    uint32_t bits;
    if (strcmp(word, "nan") != 0 && !hexadecimal(word, 8, &n))
        return 0;
    bits = (uint32_t)n;
    memcpy(x, &bits, sizeof bits);
    return 1;
}

static int wide(const char *word, double *x)
{
    uint64_t bits = 0x7ff8000000000000;
    if (strcmp(word, "nan") != 0 && !hexadecimal(word, 16, &bits))
        return 0;
    memcpy(x, &bits, sizeof bits);
    return 1;
}

/* The words behind the first are so many floats. */
static int floats(int n, int first, float *xs)
{
    if (word_count != first + n)
        return 0;
    for (int i = 0; i < n; i++)
        if (!single(words[first + i], &xs[i]))
            return 0;
    return 1;
}

static uint32_t bits_of(float x)
{
    uint32_t bits;
    memcpy(&bits, &x, sizeof bits);
    return bits;
}

static int is_nan_bits(uint32_t bits)
{
    return (bits & 0x7fffffffu) > 0x7f800000u;
}

/* Floats as words, each behind a blank, behind what the text holds. */
static void spell(char *text, size_t room, const float *xs, int n)
{
    size_t at = strlen(text);
    for (int i = 0; i < n; i++) {
        uint32_t bits = bits_of(xs[i]);
        if (is_nan_bits(bits))
            at += (size_t)snprintf(text + at, room - at, " nan");
        else
            at += (size_t)snprintf(text + at, room - at, " %08" PRIx32, bits);
    }
}

/* A line of floats alone. */
static void answer_floats(const float *xs, int n)
{
    char text[1024] = "";
    spell(text, sizeof text, xs, n);
    compare(text + 1, 1);
}

/* ---- what is lent */

#define PATTERN 0x5a
#define GUARD 64

static int is_pattern(const void *memory, size_t len)
{
    const unsigned char *bytes = memory;
    for (size_t i = 0; i < len; i++)
        if (bytes[i] != PATTERN)
            return 0;
    return 1;
}

/* Makes a shape into floats that hold a pattern; a refusal leaves it there. */
static uint32_t make(const float *sizes, float *shape)
{
    float lent[SHACKLETONGUE_SHAPE_LEN + 1];
    uint32_t number;
    memset(lent, PATTERN, sizeof lent);
    number = shackletongue_shape(sizes, 12, lent, SHACKLETONGUE_SHAPE_LEN);
    if (number != 0)
        hold(is_pattern(lent, sizeof lent), "a shape that is refused was written");
    hold(is_pattern(&lent[SHACKLETONGUE_SHAPE_LEN], sizeof(float)), "a shape writes past its end");
    memcpy(shape, lent, SHACKLETONGUE_SHAPE_LEN * sizeof(float));
    return number;
}

/* ---- floats */

static void replay_floats(void)
{
    while (take_line()) {
        const char *name = word_count > 0 ? words[0] : "";
        float x[2], r[2] = {0, 0};
        double w;
        size_t len;
        if (word_count == 0)
            continue;
        if (is("narrow") && word_count == 2 && wide(words[1], &w)) {
            r[0] = shackletongue_narrow(w);
        } else if ((is("sqrt") || is("tan")) && floats(1, 1, x)) {
            r[0] = *name == 's' ? shackletongue_sqrt(x[0]) : shackletongue_tan(x[0]);
        } else if ((is("pow") || is("atan2")) && floats(2, 1, x)) {
            r[0] = *name == 'p' ? shackletongue_pow(x[0], x[1]) : shackletongue_atan2(x[0], x[1]);
        } else if (is("sin_cos") && floats(1, 1, x)) {
            shackletongue_sin_cos(x[0], &r[0], &r[1]);
            answer_floats(r, 2);
            continue;
        } else {
            /* another function's, or no line at all */
            hold(next_line(&answered, &len) != NULL, "no answer is stored");
            continue;
        }
        answer_floats(r, 1);
    }
}

/* ---- shapes */

static void replay_shapes(void)
{
    while (take_line()) {
        float sizes[12], shape[SHACKLETONGUE_SHAPE_LEN];
        char text[1024] = "";
        uint32_t number;
        if (word_count == 0)
            continue;
        if (!floats(12, 0, sizes)) {
            answer("bad");
            continue;
        }
        number = make(sizes, shape);
        if (number != 0) {
            answer("refused %" PRIu32, number);
            continue;
        }
        spell(text, sizeof text, shape, SHACKLETONGUE_SHAPE_LEN - 1);
        hold(shape[88] == 0 || shape[88] == 1, "the last float of a shape is neither 0 nor 1");
        strcat(text, shape[88] == 1 ? " 1" : " 0");
        compare(text + 1, 1);
    }
}

/* ---- paths */

#define MOST_VERBS 4096
#define MOST_FLOATS 16384

/* A path, and what is lent to be read; bytes behind the lengths hold a pattern. */
static struct path {
    uint64_t counts[SHACKLETONGUE_COUNTS_LEN], guard_counts;
    float places[SHACKLETONGUE_PLACES_LEN], guard_places;
    uint8_t verbs[MOST_VERBS + GUARD];
    float points[MOST_FLOATS + GUARD];
} path, before;

static size_t verbs_len, points_len;

static enum { NOTHING, LIST, RAW, RAW_ASKED } current;

#define PATH                                                                                                           \
    path.counts, SHACKLETONGUE_COUNTS_LEN, path.places, SHACKLETONGUE_PLACES_LEN, path.verbs, verbs_len, path.points,  \
        points_len

static const char *const names[] = {"move", "line", "quad", "cubic", "close", "end"};
static const int floats_of[] = {2, 2, 4, 6, 0, 0};

static void begin(size_t verbs, size_t points)
{
    memset(&path, PATTERN, sizeof path);
    memset(path.counts, 0, sizeof path.counts);
    memset(path.places, 0, sizeof path.places);
    memset(path.verbs, 0, verbs);
    memset(path.points, 0, points * sizeof(float));
    verbs_len = verbs;
    points_len = points;
}

static int same(const void *a, const void *b, size_t len)
{
    return memcmp(a, b, len) == 0;
}

/* After a call that was accepted: the places behind what was held, up to what is, may have changed, and no others. */
static void others_stay(void)
{
    size_t v = (size_t)before.counts[0], w = (size_t)path.counts[0];
    size_t p = 2 * (size_t)before.counts[1], q = 2 * (size_t)path.counts[1];
    hold(v <= w && w <= verbs_len && p <= q && q <= points_len, "counts that do not suit the buffers");
    hold(same(path.verbs, before.verbs, v) && same(path.verbs + w, before.verbs + w, sizeof path.verbs - w),
         "verbs changed that should not");
    hold(same(path.points, before.points, p * sizeof(float))
             && same(path.points + q, before.points + q, sizeof path.points - q * sizeof(float)),
         "floats changed that should not");
    hold(path.guard_counts == before.guard_counts && same(&path.guard_places, &before.guard_places, sizeof(float)),
         "a record is written past its end");
}

/* The answer to a building call, which was made over a copy `before`. */
static void told(uint32_t number, int is_conic)
{
    if (number != 0) {
        hold(same(&path, &before, sizeof path), "a refused call changed what it was lent");
        answer("refused %" PRIu32, number);
        return;
    }
    others_stay();
    if (is_conic) {
        answer("ok %" PRIu64 " %" PRIu64 " word %016" PRIx64, path.counts[0], path.counts[1], path.counts[2]);
    } else {
        hold(path.counts[2] == 0, "a call that is no conic leaves a joint word");
        answer("ok %" PRIu64 " %" PRIu64, path.counts[0], path.counts[1]);
    }
}

/* What a call was said to need is what it added. */
static void needed(uint32_t number, const uint64_t *need)
{
    if (number == 0)
        hold(path.counts[0] - before.counts[0] == need[0] && path.counts[1] - before.counts[1] == need[1],
             "a call added something else than it needed");
}

static void conic(const float *x)
{
    uint64_t need[2] = {0, 0};
    uint32_t number;
    hold(shackletongue_conic_need(path.counts, 3, path.places, 4, x[0], x[1], x[2], x[3], x[4], need, 2) == 0,
         "the need of a conic is refused");
    hold(same(&path, &before, sizeof path), "a need that is asked changed the path");
    number = shackletongue_conic_to(PATH, x[0], x[1], x[2], x[3], x[4]);
    needed(number, need);
    told(number, 1);
}

static void outline(const float *sizes)
{
    float shape[SHACKLETONGUE_SHAPE_LEN];
    uint64_t need[2] = {0, 0};
    uint32_t number = make(sizes, shape);
    if (number != 0) {
        answer("refused %" PRIu32, number);
        return;
    }
    hold(shackletongue_outline_need(shape, SHACKLETONGUE_SHAPE_LEN, need, 2) == 0, "the need of an outline is refused");
    number = shackletongue_add_to(shape, SHACKLETONGUE_SHAPE_LEN, PATH);
    needed(number, need);
    told(number, 0);
}

static void contains(const float *x)
{
    float shape[SHACKLETONGUE_SHAPE_LEN];
    uint32_t number = make(x, shape);
    if (number != 0)
        answer("refused %" PRIu32, number);
    else
        answer("%" PRIu32, shackletongue_contains(shape, SHACKLETONGUE_SHAPE_LEN, x[12], x[13]));
}

/* Reads at a cursor: the number, and on 0 the segment as a line begins. On 6 the verb's index is the cursor's. */
static uint32_t read_at(uint64_t *cursor, char *text, size_t room)
{
    uint64_t asked_at[3] = {cursor[0], cursor[1], cursor[2]};
    float segment[SHACKLETONGUE_SEGMENT_LEN + 1], pattern[SHACKLETONGUE_SEGMENT_LEN + 1];
    uint32_t number;
    int n;
    memset(pattern, PATTERN, sizeof pattern);
    memcpy(segment, pattern, sizeof segment);
    before = path;
    number = shackletongue_read(PATH, cursor, 3, segment, SHACKLETONGUE_SEGMENT_LEN);
    hold(same(&path, &before, sizeof path), "a reading changed what it reads");
    if (number != 0) {
        hold(same(cursor, asked_at, sizeof asked_at) && same(segment, pattern, sizeof segment),
             "a refused reading changed what it was lent");
        return number;
    }
    hold(cursor[2] <= SHACKLETONGUE_END, "no such kind of segment");
    n = floats_of[cursor[2]];
    hold(same(segment + n, pattern + n, sizeof segment - (size_t)n * sizeof(float)),
         "a reading wrote floats that are none of the segment's");
    if (cursor[2] != SHACKLETONGUE_END) {
        hold(path.verbs[asked_at[0]] == cursor[2], "a verb is read as another");
        hold(same(segment, path.points + 2 * asked_at[1], (size_t)n * sizeof(float)), "points are read as others");
    }
    strcpy(text, names[cursor[2]]);
    spell(text, room, segment, n);
    return 0;
}

static void cursor(uint64_t verb, uint64_t point)
{
    uint64_t at[3] = {verb, point, 0};
    char text[256];
    uint32_t number = read_at(at, text, sizeof text);
    if (number == SHACKLETONGUE_MALFORMED)
        answer("refused 6 at %" PRIu64, at[0]);
    else if (number != 0)
        answer("refused %" PRIu32, number);
    else
        answer("%s next %" PRIu64 " %" PRIu64, text, at[0], at[1]);
}

static void box(void)
{
    float rect[5], pattern[5];
    uint64_t place[2] = {77, 77};
    char text[64] = "box";
    uint32_t number;
    memset(pattern, PATTERN, sizeof pattern);
    memcpy(rect, pattern, sizeof rect);
    before = path;
    number = shackletongue_box(PATH, rect, SHACKLETONGUE_RECT_LEN, place, 1);
    hold(same(&path, &before, sizeof path), "a box changed what it is round");
    hold(same(rect + (number == 0 ? 4 : 0), pattern, (number == 0 ? 1 : 5) * sizeof(float)), "a box wrote floats that it should not");
    hold(place[1] == 77 && (number == SHACKLETONGUE_MALFORMED || place[0] == 77), "a box wrote a place that it should not");
    if (number == SHACKLETONGUE_MALFORMED)
        answer("refused 6 at %" PRIu64, place[0]);
    else if (number == SHACKLETONGUE_NONE)
        answer("empty");
    else if (number != 0)
        answer("refused %" PRIu32, number);
    else {
        spell(text, sizeof text, rect, 4);
        answer("%s", text);
    }
}

/* Where a list or a raw stream ends: its segments, of a list the record, and `end`; a refusal in place of the rest. */
static void finish(void)
{
    uint64_t at[3] = {0, 0, 0};
    char text[256];
    if (current == NOTHING)
        return;
    for (;;) {
        uint32_t number = read_at(at, text, sizeof text);
        if (number == SHACKLETONGUE_MALFORMED) {
            answer("refused 6 at %" PRIu64, at[0]);
            return;
        }
        if (number != 0) {
            answer("refused %" PRIu32, number);
            return;
        }
        if (at[2] == SHACKLETONGUE_END)
            break;
        answer("%s", text);
    }
    if (current == LIST) {
        snprintf(text, sizeof text, "record %" PRIu64 " %" PRIu64, path.counts[0], path.counts[1]);
        spell(text, sizeof text, path.places, 4);
        answer("%s", text);
    }
    answer("end");
}

/* Two whole numbers behind the name. */
static int two(uint64_t *n)
{
    return word_count >= 3 && decimal(words[1], &n[0]) && decimal(words[2], &n[1]);
}

/* Bytes of two digits each behind those of the raw stream. */
static int more_verbs(void)
{
    for (int i = 1; i < word_count; i++) {
        for (const char *digits = words[i]; *digits != '\0'; digits += 2) {
            char pair[3] = {digits[0], digits[1], '\0'};
            uint64_t byte;
            if (!hexadecimal(pair, 2, &byte) || verbs_len == MOST_VERBS)
                return 0;
            path.verbs[verbs_len++] = (uint8_t)byte;
        }
    }
    return word_count > 1;
}

static int more_floats(void)
{
    for (int i = 1; i < word_count; i++)
        if (points_len == MOST_FLOATS || !single(words[i], &path.points[points_len++]))
            return 0;
    return word_count > 1;
}

/* One line; 0 for one that asks nothing known. */
static int ask(void)
{
    float x[14];
    uint64_t n[2];
    before = path;
    if (is("contains") && floats(14, 1, x)) {
        contains(x);
    } else if (is("buffers") && word_count == 3 && two(n) && n[0] <= MOST_VERBS && n[1] <= MOST_FLOATS) {
        finish();
        begin((size_t)n[0], (size_t)n[1]);
        current = LIST;
    } else if (is("raw") && word_count == 3 && two(n)) {
        finish();
        begin(0, 0);
        path.counts[0] = n[0];
        path.counts[1] = n[1];
        current = RAW;
    } else if (is("verbs") && current == RAW) {
        return more_verbs();
    } else if (is("floats") && current == RAW) {
        return more_floats();
    } else if (is("cursor") && current != NOTHING && word_count == 3 && two(n)) {
        current = current == RAW ? RAW_ASKED : current;
        cursor(n[0], n[1]);
    } else if (is("box") && current != NOTHING && word_count == 1) {
        current = current == RAW ? RAW_ASKED : current;
        box();
    } else if (current != LIST) {
        return 0;
    } else if (is("record") && two(n) && floats(4, 3, x)) {
        path.counts[0] = n[0];
        path.counts[1] = n[1];
        memcpy(path.places, x, sizeof path.places);
    } else if (is("move") && floats(2, 1, x)) {
        told(shackletongue_move_to(PATH, x[0], x[1]), 0);
    } else if (is("line") && floats(2, 1, x)) {
        told(shackletongue_line_to(PATH, x[0], x[1]), 0);
    } else if (is("quad") && floats(4, 1, x)) {
        told(shackletongue_quad_to(PATH, x[0], x[1], x[2], x[3]), 0);
    } else if (is("conic") && floats(5, 1, x)) {
        conic(x);
    } else if (is("cubic") && floats(6, 1, x)) {
        told(shackletongue_cubic_to(PATH, x[0], x[1], x[2], x[3], x[4], x[5]), 0);
    } else if (is("close") && word_count == 1) {
        told(shackletongue_close(PATH), 0);
    } else if (is("outline") && floats(12, 1, x)) {
        outline(x);
    } else {
        return 0;
    }
    return 1;
}

static void replay_paths(void)
{
    while (take_line()) {
        if (word_count != 0 && !ask()) {
            answer("bad line %d", asked.line);
            asked.at = asked.len;
            return;
        }
    }
    finish();
}

/* ---- panel files */

#define FILE_ROOM 131072

static uint8_t file[FILE_ROOM];
static size_t file_len;

/* A record, into floats that hold a pattern behind those that it has. */
static uint32_t record_at(uint64_t *place, float *record)
{
    float pattern[SHACKLETONGUE_SIZES_LEN];
    uint64_t kind_before = place[1];
    size_t n;
    uint32_t number;
    memset(pattern, PATTERN, sizeof pattern);
    memset(record, PATTERN, sizeof pattern);
    number = shackletongue_record(file, file_len, place, 2, record, SHACKLETONGUE_SIZES_LEN);
    if (number == 0)
        n = place[1] == SHACKLETONGUE_BUTTON ? 12 : place[1] == SHACKLETONGUE_TOUCH ? 2 : 0;
    else {
        n = 0;
        hold(place[1] == kind_before, "the kind of a broken record was written");
    }
    hold(same(record + n, pattern, sizeof pattern - n * sizeof(float)), "floats behind a record's own were written");
    return number;
}

/* Writes the records of the file that is held into another, and compares: every byte, but for those of a NaN. */
static void write_back(void)
{
    static uint8_t made[65536 + GUARD];
    uint64_t read[2] = {0, 0}, write[2] = {0, 0};
    float record[SHACKLETONGUE_SIZES_LEN];
    memset(made, PATTERN, sizeof made);
    for (;;) {
        uint64_t at = read[0], asked_at = write[0], stale[2];
        size_t n;
        uint8_t shorter[64];
        hold(record_at(read, record) == 0, "a record of a good file is refused");
        if (read[1] == SHACKLETONGUE_FILE_END)
            break;
        n = (size_t)(read[0] - at);
        write[1] = read[1];
        /* with one byte too few it is refused */
        memcpy(stale, write, sizeof stale);
        memset(shorter, PATTERN, sizeof shorter);
        stale[0] = 3;
        hold(shackletongue_put_record(shorter, n + 2, stale, 2, record, 12) == SHACKLETONGUE_NO_ROOM && stale[0] == 3
                 && stale[1] == write[1] && is_pattern(shorter, sizeof shorter),
             "a record was written into a file that is too short");
        hold(shackletongue_put_record(shorter, n + 3, stale, 2, record, 12) == 0 && stale[0] == n + 3
                 && is_pattern(shorter, 3) && is_pattern(shorter + n + 3, sizeof shorter - n - 3),
             "a record was not written where it just fits");
        hold(shackletongue_put_record(made, sizeof made, write, 2, record, 12) == 0, "a record is not written");
        hold(write[0] == read[0] && write[1] == read[1], "the offset behind a record that was written is another");
        hold(same(made + asked_at, shorter + 3, n), "a record is written otherwise elsewhere");
        hold(is_pattern(made + write[0], sizeof made - write[0]), "bytes behind a record were written");
        compared++;
    }
    hold(write[0] == file_len, "the records that were written are not as long as the file");
    for (size_t i = 0; i < file_len;) {
        size_t payload = file[i] + 256u * file[i + 1];
        hold(same(made + i, file + i, 4), "a record's header is written otherwise");
        for (i += 4; payload > 0; payload -= 4, i += 4) {
            static const uint8_t nan[4] = {0x00, 0x00, 0xc0, 0x7f};
            uint32_t bits = (uint32_t)file[i] | (uint32_t)file[i + 1] << 8 | (uint32_t)file[i + 2] << 16
                | (uint32_t)file[i + 3] << 24;
            hold(same(made + i, is_nan_bits(bits) ? nan : file + i, 4), "a float is written otherwise");
        }
    }
}

static uint32_t results[SHACKLETONGUE_RESULTS_LEN + 1];

/* All touches at once; a broken file leaves the results alone. */
static uint32_t all_touches(uint64_t *place)
{
    uint64_t lent[2] = {*place, 77};
    size_t n;
    uint32_t number;
    memset(results, PATTERN, sizeof results);
    number = shackletongue_touch_all(file, file_len, results, SHACKLETONGUE_RESULTS_LEN, lent, 1);
    hold(lent[1] == 77, "a place is written past its end");
    n = number == 0 ? (size_t)lent[0] : 0;
    hold(is_pattern(results + n, sizeof results - n * sizeof results[0]), "results behind the touches were written");
    *place = lent[0];
    return number;
}

static uint64_t button_index, touch_index;

static void print_button(const float *sizes)
{
    float shape[SHACKLETONGUE_SHAPE_LEN];
    uint64_t need[2];
    uint32_t number = make(sizes, shape);
    if (number != 0) {
        answer("shape %" PRIu64 " refused %" PRIu32, button_index++, number);
        return;
    }
    begin(SHACKLETONGUE_OUTLINE_VERBS, SHACKLETONGUE_OUTLINE_FLOATS);
    before = path;
    hold(shackletongue_outline_need(shape, SHACKLETONGUE_SHAPE_LEN, need, 2) == 0, "the need of an outline is refused");
    hold(shackletongue_add_to(shape, SHACKLETONGUE_SHAPE_LEN, PATH) == 0, "an outline is not drawn");
    needed(0, need);
    others_stay();
    answer("shape %" PRIu64 " %" PRIu64 " %" PRIu64, button_index++, path.counts[0], path.counts[1]);
}

static void print_touch(const float *point)
{
    uint64_t place[1] = {77};
    uint32_t number = shackletongue_touch(file, file_len, point[0], point[1], place, 1);
    uint32_t among_all = results[touch_index++];
    if (number == SHACKLETONGUE_NONE) {
        hold(place[0] == 77 && among_all == SHACKLETONGUE_NOWHERE, "a touch that goes nowhere goes somewhere among all");
        answer("touch none");
    } else {
        hold(number == 0 && place[0] == among_all, "a touch goes elsewhere among all");
        answer("touch %" PRIu64, place[0]);
    }
}

/* The report on the file, as `fascia` writes it. */
static void report(void)
{
    uint64_t place[2] = {0, 77}, touches[1] = {77}, touched[1] = {77};
    float record[SHACKLETONGUE_SIZES_LEN];
    uint32_t number, all = all_touches(touches);
    do {
        number = record_at(place, record);
    } while (number == 0 && place[1] != SHACKLETONGUE_FILE_END);
    hold(all == number, "all touches are answered and a record is not, or the other way round");
    if (number != 0) {
        hold(shackletongue_touch(file, file_len, 0, 0, touched, 1) == number && touched[0] == place[0]
                 && touches[0] == place[0],
             "a touch finds the file broken elsewhere");
        answer("refused %" PRIu32 " at %" PRIu64, number, place[0]);
        return;
    }
    place[0] = button_index = touch_index = 0;
    while (record_at(place, record) == 0 && place[1] != SHACKLETONGUE_FILE_END) {
        if (place[1] == SHACKLETONGUE_BUTTON)
            print_button(record);
        else
            print_touch(record);
    }
    hold(touches[0] == touch_index, "the number of touches is another");
    answer("end");
    write_back();
}

/* A line's bytes, so many times. */
static void more_bytes(void)
{
    uint8_t part[512];
    size_t len = 0;
    uint64_t times;
    hold(decimal(words[0], &times), "no such line of a panel file");
    for (int i = 1; i < word_count; i++) {
        size_t digits = strlen(words[i]);
        uint64_t n;
        hold((digits == 2 || digits == 4 || digits == 8) && hexadecimal(words[i], digits, &n), "no such field");
        for (; digits > 0; digits -= 2, n >>= 8)
            part[len++] = (uint8_t)n;
    }
    for (; times > 0 && file_len + len <= sizeof file; times--) {
        memcpy(file + file_len, part, len);
        file_len += len;
    }
}

static void replay_panels(void)
{
    while (take_line()) {
        if (is("report")) {
            report();
            file_len = 0;
        } else if (word_count > 0) {
            more_bytes();
        }
    }
}

/* ---- verdicts: of each button of one panel file, whether outline and touch area are consistent */

static void replay_verdicts(void)
{
    uint64_t place[2] = {0, 0};
    float record[SHACKLETONGUE_SIZES_LEN], shape[SHACKLETONGUE_SHAPE_LEN];
    hold(asked.len <= sizeof file, "the panel file is too long");
    memcpy(file, asked.bytes, file_len = asked.len);
    while (record_at(place, record) == 0 && place[1] != SHACKLETONGUE_FILE_END) {
        uint32_t number;
        char text[64];
        if (place[1] != SHACKLETONGUE_BUTTON)
            continue;
        number = make(record, shape);
        if (number != 0)
            answer("shape %" PRIu64 " refused %" PRIu32, button_index, number);
        else if (shackletongue_is_consistent(record, 12, shape, SHACKLETONGUE_SHAPE_LEN) == 1)
            answer("shape %" PRIu64 " ok", button_index);
        else {
            /* why not, the program says and the function does not */
            snprintf(text, sizeof text, "shape %" PRIu64 " parts company", button_index);
            compare(text, 0);
        }
        button_index++;
    }
}

int main(int argc, char **argv)
{
    static const struct {
        const char *name;
        void (*replay)(void);
    } kinds[] = {
        {"floats", replay_floats}, {"shapes", replay_shapes},     {"paths", replay_paths},
        {"panels", replay_panels}, {"verdicts", replay_verdicts},
    };
    for (size_t i = 0; argc == 4 && i < sizeof kinds / sizeof kinds[0]; i++) {
        if (strcmp(argv[1], kinds[i].name) == 0) {
            size_t len;
            kind = argv[1];
            asked = whole(argv[2]);
            answered = whole(argv[3]);
            kinds[i].replay();
            if (strcmp(kind, "verdicts") != 0 && next_line(&answered, &len) != NULL)
                fail("more answers are stored than were asked for, from line %d on", answered.line);
            printf("replay %s: %d answers\n", kind, compared);
            return EXIT_SUCCESS;
        }
    }
    fprintf(stderr, "usage: replay floats|shapes|paths|panels|verdicts ASKED ANSWERED\n");
    return 2;
}
