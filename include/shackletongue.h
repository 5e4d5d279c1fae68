/*
 * shackletongue.h: rounded superellipses, their outlines and their touch areas, for C and C++ on x86-64.
 * Link with libshackletongue.a, which `bindings/build` makes, for every such processor, or with the one beside it for
 * x86-64-v2; it needs nothing but the C library's memory functions.
 *
 * Each function does what its definition says for every argument: the proof stands beside its source, in the
 * crates ffi_floats, ffi_shape, ffi_path, ffi_outline, ffi_reader, ffi_panel and ffi_refusals.
 *
 * SLICES. Where a parameter NAME is followed by NAME_len, the two are a slice: a pointer to its first element and the
 * number of its elements (elements, not bytes). The caller owns and lends it for the duration of the call; nothing is
 * allocated, freed or kept. What the library cannot test is the caller's to keep:
 *   - the pointer is aligned for its type and not NULL, unless the length is 0: of a slice of length 0 no element is
 *     read or written, so its pointer may be any, NULL too;
 *   - all the elements lie in one object and have been given a value;
 *   - a slice that a call may change (its pointer is not const) overlaps no other slice of the same call.
 * Everything else may be anything: any floats, NaNs and infinities included, any counts, any bytes, any lengths.
 *
 * NUMBERS. Unless it is said otherwise a function returns 0 when it is done, or one of the numbers below. A slice that
 * is not const changes only if 0 is returned, with one exception: where a function reads, `place` also says where, if 6
 * or 7 is returned. Of several causes the first in this list is returned: 100, then 1 to 7.
 *
 * THREADS. There is no global state: calls on different memory may run at the same time.
 *
 * STACK. What a call takes is bounded, whatever it is lent: shackletongue_touch_all takes under 64 KiB,
 * shackletongue_is_consistent under 32, what makes, draws or looks up a shape (shape, outline_need, add_to, touch)
 * under 8, and every other function under 1. bindings/c/stack.c measures it.
 *
 * FLOATS. Every operation is rounded once, to nearest, ties to even. The caller leaves the floating-point environment
 * as C sets it up:
 *   - rounding to nearest;
 *   - no exception unmasked. With traps on (feenableexcept) usual shapes raise SIGFPE, since numbers are also computed
 *     that turn out not to be wanted, as a quotient by zero. Which flags a call leaves raised says nothing;
 *   - subnormals neither flushed nor taken for zero (as some programs do that are linked with -ffast-math): that
 *     changes numbers.
 * The sign and payload of a NaN say nothing.
 */
#ifndef SHACKLETONGUE_H
#define SHACKLETONGUE_H

#include <stddef.h>
#include <stdint.h>

#ifdef __cplusplus
extern "C" {
#endif

/* ---- numbers */

#define SHACKLETONGUE_DONE 0u
/* The record's verb count is over the length of `verbs`, its point count is over half the length of `points`, or it
 * holds points and no verb. */
#define SHACKLETONGUE_BAD_RECORD 1u
/* A bound or radius is not finite, or over 16,384 in magnitude. */
#define SHACKLETONGUE_BEYOND_LIMIT 2u
/* A radius is below zero. */
#define SHACKLETONGUE_NEGATIVE_RADIUS 3u
/* The maximum is below the minimum, in x or in y. */
#define SHACKLETONGUE_INVERTED 4u
/* The call needs more verbs or points than are free; a record does not end within its file. */
#define SHACKLETONGUE_NO_ROOM 5u
/* A verb over 4, or fewer points than the verb takes. */
#define SHACKLETONGUE_MALFORMED 6u
/* The panel file is cut short, is over 65,536 bytes, or has a record of unknown kind or of the wrong length. */
#define SHACKLETONGUE_BROKEN_FILE 7u
/* A slice does not have the length that its comment gives. */
#define SHACKLETONGUE_WRONG_LENGTH 100u
/* The answer is that there is none: a box of no points, a touch that goes nowhere, a number without a text. */
#define SHACKLETONGUE_NONE 101u

/* ---- lengths */

#define SHACKLETONGUE_SIZES_LEN 12
#define SHACKLETONGUE_SHAPE_LEN 89
#define SHACKLETONGUE_COUNTS_LEN 3
#define SHACKLETONGUE_PLACES_LEN 4
#define SHACKLETONGUE_NEED_LEN 2
#define SHACKLETONGUE_CURSOR_LEN 3
#define SHACKLETONGUE_SEGMENT_LEN 6
#define SHACKLETONGUE_RECT_LEN 4
#define SHACKLETONGUE_TEXT_LEN 64
/* The most touches that a panel file holds. */
#define SHACKLETONGUE_RESULTS_LEN 5461
/* Buffers of these lengths hold every outline: 1,035 verbs and 2,074 points. */
#define SHACKLETONGUE_OUTLINE_VERBS 1035
#define SHACKLETONGUE_OUTLINE_FLOATS 4148

/* The version of this interface. The function has that of the library: where the two are not the same, the header does
 * not describe the library that was linked. */
#define SHACKLETONGUE_VERSION 2
uint32_t shackletongue_version(void);

/* The text of a number above, in English and ASCII, to be shown to people. Returns 0, 100, or 101 if the number has
 * none, as 0 has. */
uint32_t shackletongue_refusal_text(uint32_t number,
                                    char *text, size_t text_len); /* 64; on 0: the text, and zeros to the end */

/*
 * ---- shapes
 *
 * sizes (12 floats): min x, min y, max x, max y, then the x and y radius of each corner: top left, top right, bottom
 * left, bottom right. y grows downwards: "top" is at min y.
 *
 * shape (89 floats): what shackletongue_shape makes of sizes. It may be copied and stored as it is. Most callers need
 * not look inside; it is four quadrants of 22 floats (top right, bottom right, bottom left, top left), then 1 where all
 * corners are the same, else 0.
 *   a quadrant: 0 its center, 2 its signed scale (each x, y), 4 its top octant, 13 its right octant;
 *   an octant:  0 its offset (x, y), 2 the half-extent, 3 the degree (0 for a square corner), 4 the circle's start,
 *               6 the circle's center (each x, y), 8 the circle's greatest angle.
 * A shape of other floats is answered by the same definitions; it is harmless, but only a shape made from sizes is sure
 * to look like one.
 */

/* Makes a shape. Returns 0, 2, 3, 4 or 100. */
uint32_t shackletongue_shape(const float *sizes, size_t sizes_len, /* 12 */
                             float *shape, size_t shape_len);      /* 89; set on 0 */

/* Whether the shape contains the point: returns 1 if so, 0 if not, or 100. A NaN is contained by IEEE comparison. */
uint32_t shackletongue_contains(const float *shape, size_t shape_len, /* 89 */
                                float x, float y);

/*
 * Whether outline and touch area of a shape are consistent: no corner looks the wrong way, the middle is inside, the
 * sides are not too small where they lie, no corner is too oval, and the outline keeps to the bounds; then the two are
 * at most 0.3 % of the longer side apart, as measured. Returns 1 if so, 0 if not, or 100. Ask before you cut: the
 * program `inspect` says which it is, and docs/SPECIFICATION.md, "Consistency", what helps. `sizes` is what `shape` was
 * made of.
 */
uint32_t shackletongue_is_consistent(const float *sizes, size_t sizes_len,  /* 12 */
                                     const float *shape, size_t shape_len); /* 89 */

/* How many verbs and points the outline adds to a path. Returns 0 or 100. */
uint32_t shackletongue_outline_need(const float *shape, size_t shape_len, /* 89 */
                                    uint64_t *need, size_t need_len);     /* 2; on 0: verbs, points */

/*
 * ---- building a path
 *
 * A path is a record and two buffers.
 *   counts (3): the number of verbs held, the number of points held, and the joint word of the last accepted call (0
 *               unless it was a conic; see shackletongue_conic_to).
 *   places (4): the contour's start x, y and the pen's x, y; they mean nothing while no verb is held.
 *   verbs:      one byte per segment: 0 move, 1 line, 2 quad, 3 cubic, 4 close. Any length: it is the room for verbs.
 *   points:     x, y of each point: a move and a line have 1, a quad 2, a cubic 3, a close none. Any length: half of it
 *               is the room for points; an odd last float is never used.
 * An empty path is a record of zeros. Clearing the record empties a path; the buffers need not be cleared.
 *
 * Every building call returns 0, 1, 5 or 100, and writes all of what it adds or nothing. On 0 the record changes, and
 * the places of the buffers right behind the held ones; whatever lies beyond them stays. On any other number all four
 * slices are as they were. A line, quad, conic or cubic on an empty path first adds a move to (0, 0).
 */

uint32_t shackletongue_move_to(uint64_t *counts, size_t counts_len, /* 3 */
                               float *places, size_t places_len,    /* 4 */
                               uint8_t *verbs, size_t verbs_len,    /* any */
                               float *points, size_t points_len,    /* any */
                               float x, float y);

uint32_t shackletongue_line_to(uint64_t *counts, size_t counts_len, /* 3 */
                               float *places, size_t places_len,    /* 4 */
                               uint8_t *verbs, size_t verbs_len,    /* any */
                               float *points, size_t points_len,    /* any */
                               float x, float y);

/* With the control (cx, cy). */
uint32_t shackletongue_quad_to(uint64_t *counts, size_t counts_len, /* 3 */
                               float *places, size_t places_len,    /* 4 */
                               uint8_t *verbs, size_t verbs_len,    /* any */
                               float *points, size_t points_len,    /* any */
                               float cx, float cy, float x, float y);

/*
 * A conic section with the control (cx, cy), lowered to 1 to 64 quads; a line where the weight is not finite or at most
 * 0, or the control or the target is not finite. counts[2] becomes the joint word: the conic is 0 to 64, and bit k is
 * set where a quad starts at k; it is 0 for a line.
 */
uint32_t shackletongue_conic_to(uint64_t *counts, size_t counts_len, /* 3 */
                                float *places, size_t places_len,    /* 4 */
                                uint8_t *verbs, size_t verbs_len,    /* any */
                                float *points, size_t points_len,    /* any */
                                float cx, float cy, float x, float y, float weight);

/* With the controls (ax, ay) and (bx, by). */
uint32_t shackletongue_cubic_to(uint64_t *counts, size_t counts_len, /* 3 */
                                float *places, size_t places_len,    /* 4 */
                                uint8_t *verbs, size_t verbs_len,    /* any */
                                float *points, size_t points_len,    /* any */
                                float ax, float ay, float bx, float by, float x, float y);

/* Back to the contour's start. On an empty path it is accepted and adds nothing. */
uint32_t shackletongue_close(uint64_t *counts, size_t counts_len, /* 3 */
                             float *places, size_t places_len,    /* 4 */
                             uint8_t *verbs, size_t verbs_len,    /* any */
                             float *points, size_t points_len);   /* any */

/* The outline of a shape, as a closed contour of its own. 1,035 verbs and 2,074 points at most. */
uint32_t shackletongue_add_to(const float *shape, size_t shape_len, /* 89 */
                              uint64_t *counts, size_t counts_len,  /* 3 */
                              float *places, size_t places_len,     /* 4 */
                              uint8_t *verbs, size_t verbs_len,     /* any */
                              float *points, size_t points_len);    /* any */

/* How many verbs and points shackletongue_conic_to would add to the path of this record. Returns 0 or 100. */
uint32_t shackletongue_conic_need(const uint64_t *counts, size_t counts_len, /* 3 */
                                  const float *places, size_t places_len,    /* 4 */
                                  float cx, float cy, float x, float y, float weight,
                                  uint64_t *need, size_t need_len);          /* 2; on 0: verbs, points */

/* ---- reading a path */

/* Kinds of segments, as cursor[2] has them. The first five are the verbs. */
#define SHACKLETONGUE_MOVE 0u
#define SHACKLETONGUE_LINE 1u
#define SHACKLETONGUE_QUAD 2u
#define SHACKLETONGUE_CUBIC 3u
#define SHACKLETONGUE_CLOSE 4u
#define SHACKLETONGUE_END 5u

/*
 * The segment at a cursor. Returns 0, 1, 6 or 100; 6 is about the verb at cursor[0].
 *   cursor (3):  verb index and point index to read from, 0 and 0 for the first segment. On 0 these become the next
 *                cursor and cursor[2] the kind. At or past the last verb the kind is 5 (end) and the cursor stays.
 *   segment (6): on 0 the first floats become x, y of the segment's points, controls first: 2 for a move or a line, 4
 *                for a quad, 6 for a cubic, none for a close or the end. The others stay.
 */
uint32_t shackletongue_read(const uint64_t *counts, size_t counts_len, /* 3 */
                            const float *places, size_t places_len,    /* 4 */
                            const uint8_t *verbs, size_t verbs_len,    /* any */
                            const float *points, size_t points_len,    /* any */
                            uint64_t *cursor, size_t cursor_len,       /* 3 */
                            float *segment, size_t segment_len);       /* 6 */

/*
 * The least box round the points of all segments, controls included; points that are not finite are passed over.
 * Returns 0, 1, 6, 100, or 101 if there are no points.
 */
uint32_t shackletongue_box(const uint64_t *counts, size_t counts_len, /* 3 */
                           const float *places, size_t places_len,    /* 4 */
                           const uint8_t *verbs, size_t verbs_len,    /* any */
                           const float *points, size_t points_len,    /* any */
                           float *rect, size_t rect_len,              /* 4; on 0: min x, min y, max x, max y */
                           uint64_t *place, size_t place_len);        /* 1; on 6: the verb's index */

/*
 * ---- panel files
 *
 * A file is any bytes. It is good if it is at most 65,536 bytes of whole records, little-endian: payload length (16
 * bits), kind (16 bits), payload. Kind 1, length 48, is a button: its 12 sizes. Kind 2, length 8, is a touch: x, y.
 */

/* Kinds of records, as place[1] has them. */
#define SHACKLETONGUE_FILE_END 0u
#define SHACKLETONGUE_BUTTON 1u
#define SHACKLETONGUE_TOUCH 2u

/*
 * The record at an offset. Returns 0, 7 or 100.
 *   place (2):   the offset to read from, 0 for the first record. On 0 place[0] becomes the offset of the next record
 *                and place[1] the kind: at or past the end of the file 0. On 7 place[0] becomes the offset of the
 *                broken record, which is 0 for a file that is too long, and place[1] stays.
 *   floats (12): on 0 all become a button's sizes, or the first two a touch's x, y. The others stay.
 */
uint32_t shackletongue_record(const uint8_t *file, size_t file_len, /* any */
                              uint64_t *place, size_t place_len,    /* 2 */
                              float *floats, size_t floats_len);    /* 12 */

/*
 * The other way round: writes a record at an offset. Returns 0, 5, 7 or 100. (A record of unknown kind has no length,
 * so 5 and 7 never meet.) Where it is not 0 nothing changes, place included.
 *   file:        on 0 the record's bytes stand at the offset; all others stay. 5 where the record does not end within
 *                the file and within 65,536 bytes.
 *   place (2):   the offset to write at, and the kind, 1 or 2; 7 where it is another. On 0 place[0] becomes the offset
 *                behind the record, where the next one goes.
 *   floats (12): a button's sizes, or in front a touch's x, y; the others are not looked at. Any floats: every bit is
 *                kept, but for a NaN, which is written as 00 00 c0 7f whatever its sign and payload.
 * The file holds whatever it held behind the record; a file that is made so ends at the last place[0].
 */
uint32_t shackletongue_put_record(uint8_t *file, size_t file_len,          /* any */
                                  uint64_t *place, size_t place_len,       /* 2 */
                                  const float *floats, size_t floats_len); /* 12 */

/* No button: what shackletongue_touch_all has for a touch that goes nowhere. */
#define SHACKLETONGUE_NOWHERE 0xffffffffu

/*
 * Which button a touch at (x, y) goes to: the last in file order that contains it, since later buttons lie on top.
 * Buttons count from 0; those whose shape is refused count too, but contain nothing. Returns 0, 7, 100, or 101 if it goes nowhere.
 */
uint32_t shackletongue_touch(const uint8_t *file, size_t file_len, /* any */
                             float x, float y,
                             uint64_t *place, size_t place_len);   /* 1; on 0: the index, on 7: the offset */

/* The same for all touches of the file, in file order; each shape is made once. Returns 0, 7 or 100. */
uint32_t shackletongue_touch_all(const uint8_t *file, size_t file_len,    /* any */
                                 uint32_t *results, size_t results_len,   /* 5461; on 0 the first ones are the indices */
                                 uint64_t *place, size_t place_len);      /* 1; on 0: how many, on 7: the offset */

/*
 * ---- the float functions that everything rests on
 *
 * They take the place of the platform's, whose last bits differ. sqrt and narrow are IEEE 754's, to nearest, ties to
 * even; the others are sums of series in double precision, narrowed. sin_cos and tan answer a NaN beyond 8 in magnitude.
 */

float shackletongue_narrow(double x);
float shackletongue_sqrt(float x);
float shackletongue_pow(float b, float y);
/* sin and cos are two different places. */
void shackletongue_sin_cos(float t, float *sin, float *cos);
float shackletongue_tan(float t);
float shackletongue_atan2(float y, float x);

#ifdef __cplusplus
}
#endif

#endif
