/* The canvas calls of libtuyrashka.a, for x86-64 Linux. C99 or C++.
 *
 * A call returns TUYRASHKA_OK, or why it was refused. A refused call leaves the lent bytes and words as they were, and every
 * number that it gives back is 0.
 *
 * Pointers. A buffer's pointer may be NULL where its length is 0, in every call. No other pointer may be NULL. What a call writes
 * to must not overlap anything else that it is given. No call keeps a pointer.
 */
#ifndef TUYRASHKA_H
#define TUYRASHKA_H

#include <stdbool.h>
#include <stddef.h>
#include <stdint.h>

#ifdef __cplusplus
extern "C" {
#endif

#define TUYRASHKA_VERSION_MAJOR 0
#define TUYRASHKA_VERSION_MINOR 4
#define TUYRASHKA_VERSION_PATCH 0
#define TUYRASHKA_VERSION "0.4.0"

/* Formats. A pixel is a little-endian word. */
#define TUYRASHKA_RGB332 0u /* 1 byte */
#define TUYRASHKA_RGB565 1u /* 2 bytes */
#define TUYRASHKA_RGB8 2u   /* 4 bytes, 00RRGGBB; the top byte is ignored in reading */
#define TUYRASHKA_ARGB 3u   /* 4 bytes, AARRGGBB */
#define TUYRASHKA_ABGR 4u   /* 4 bytes, AABBGGRR */

/* Blending rules: what tuyrashka_draw with XOR off makes of a channel c of alpha a over a channel bg. */
#define TUYRASHKA_DOWN 1u    /* c*f + bg*(1 - f), f being a/255, each step rounded to a float, cut downward to a whole number */
#define TUYRASHKA_NEAREST 2u /* (c*a + bg*(255 - a) + 127) / 255 in whole numbers: the nearest one */

/* What a call returns. On a canvas the first that holds is given, in this order: FORMAT, RULE, SIZE, ROW, LENGTH, SOURCE, ANGLE,
 * SHAPE. A file gets the first that is met. */
#define TUYRASHKA_OK 0u
#define TUYRASHKA_FORMAT 1u   /* the format is above 4 */
#define TUYRASHKA_SIZE 2u     /* a side of the canvas is above 32,767 */
#define TUYRASHKA_LENGTH 3u   /* data_len is not row times height times the bytes of a pixel */
#define TUYRASHKA_SOURCE 4u   /* tuyrashka_draw: FORMAT, RULE, SIZE, ROW or LENGTH holds of the source */
#define TUYRASHKA_ANGLE 5u    /* arcs and pies: an angle is outside -720..720 */
#define TUYRASHKA_SHAPE 6u    /* arcs, pies, round rectangles: x or y outside -32,768..32,767, or w or h above 32,767 */
#define TUYRASHKA_INVALID 10u /* LBMP: a bad header, or bytes are missing */
#define TUYRASHKA_TYPE 11u    /* LBMP: the type is not 2, 8 or 16 */
#define TUYRASHKA_ROOM 12u    /* LBMP: out_len is below the number of pixels */
#define TUYRASHKA_RES 13u     /* RES: no start or first offset; pixels or a count of frames are missing */
#define TUYRASHKA_DEPTH 14u   /* RES: a record's depth is not 8 */
#define TUYRASHKA_RESTYPE 15u /* RES: a record's type is not 2 or 3 */
#define TUYRASHKA_NOICON 16u  /* RES: the file ends before an icon */
#define TUYRASHKA_ROW 18u     /* row is below the width or above 32,767 */
#define TUYRASHKA_RULE 23u    /* rule is not 1 or 2 */

/* A canvas, beside its bytes: height rows from the top, each of row pixels, of which the first width are the canvas. A side may
 * be 0.
 *
 * What a row has beyond the width is its tail. Tails are lent with the rest, that of the last row too, and stay as they are in
 * every call; a point there is off the canvas. Where rows have none, row is the width. A record whose initialiser leaves row out
 * has a row of 0, and is refused unless its width is 0; tuyrashka_canvas_of makes one whose row is its width.
 *
 * rule is the blending rule, by which tuyrashka_draw with XOR off blends; no other call goes by it, and each refuses what is no
 * rule. A record whose initialiser leaves it out has a rule of 0, and is refused; tuyrashka_canvas_of takes TUYRASHKA_DOWN.
 *
 * With XOR off a plot stores its colour; a format without alpha drops it. With XOR on (xor_mode is not 0) a colour of alpha 0
 * changes nothing, and any other is XORed with the pixel, so that drawing again takes it away; ARGB and ABGR then XOR r, g and b
 * and set alpha to 255. */
struct tuyrashka_canvas {
    uint32_t format, width, height, xor_mode, row, rule;
};

/* A canvas whose rows have no tails, with XOR off and rule 1. */
static inline struct tuyrashka_canvas tuyrashka_canvas_of(uint32_t format, uint32_t width, uint32_t height)
{
    struct tuyrashka_canvas canvas = {format, width, height, 0, width, TUYRASHKA_DOWN};
    return canvas;
}

/* What a call may touch: columns from x up to but not including x + width, and rows likewise, without wrap. It may lie off the
 * canvas, and a side may be 0. */
struct tuyrashka_clip {
    int32_t x, y;
    uint32_t width, height;
};

/* What became of a drawing: how many of its plots are on the canvas and inside the clip, whatever their colour; of a copy or an
 * inversion how many pixels were written. */
struct tuyrashka_drawn {
    uint64_t landed;
};

struct tuyrashka_size {
    uint32_t width, height;
};

/* Coordinates are any int32_t and sizes any uint32_t, but for TUYRASHKA_SHAPE; y goes down. A colour is
 * a<<24 | r<<16 | g<<8 | b. */

/* Plots one point. */
uint32_t tuyrashka_put_pixel(const struct tuyrashka_canvas *canvas, uint8_t *data, size_t data_len,
                             int32_t x, int32_t y, uint32_t argb,
                             const struct tuyrashka_clip *clip, struct tuyrashka_drawn *drawn);

/* Plots a line from (x1, y1) to (x2, y2), both ends included. The way back plots other points in general. */
uint32_t tuyrashka_draw_line(const struct tuyrashka_canvas *canvas, uint8_t *data, size_t data_len,
                             int32_t x1, int32_t y1, int32_t x2, int32_t y2, uint32_t argb,
                             const struct tuyrashka_clip *clip, struct tuyrashka_drawn *drawn);

/* Plots each border point of the box once: all of it, where a side is 1. */
uint32_t tuyrashka_draw_rect(const struct tuyrashka_canvas *canvas, uint8_t *data, size_t data_len,
                             int32_t x, int32_t y, uint32_t w, uint32_t h, uint32_t argb,
                             const struct tuyrashka_clip *clip, struct tuyrashka_drawn *drawn);

/* Fills the box. */
uint32_t tuyrashka_fill_rect(const struct tuyrashka_canvas *canvas, uint8_t *data, size_t data_len,
                             int32_t x, int32_t y, uint32_t w, uint32_t h, uint32_t argb,
                             const struct tuyrashka_clip *clip, struct tuyrashka_drawn *drawn);

/* Angles are in degrees: 0 is to the right of the centre, and they go counter-clockwise, so that 90 is above it. An arc or a pie
 * goes from start_angle on by arc_angle, clockwise where that is negative. */

/* Plots an arc of the box's oval, as a row of points, some of them more than once. */
uint32_t tuyrashka_draw_arc(const struct tuyrashka_canvas *canvas, uint8_t *data, size_t data_len,
                            int32_t x, int32_t y, uint32_t w, uint32_t h, int32_t start_angle, int32_t arc_angle,
                            uint32_t argb, const struct tuyrashka_clip *clip, struct tuyrashka_drawn *drawn);

/* Fills a pie of the box's oval. */
uint32_t tuyrashka_fill_arc(const struct tuyrashka_canvas *canvas, uint8_t *data, size_t data_len,
                            int32_t x, int32_t y, uint32_t w, uint32_t h, int32_t start_angle, int32_t arc_angle,
                            uint32_t argb, const struct tuyrashka_clip *clip, struct tuyrashka_drawn *drawn);

/* Plots the outline of the box with round corners: the edges between them and four quarters of an oval of arc_w by arc_h, some
 * points more than once; where an arc size is 0, the plain outline. */
uint32_t tuyrashka_draw_round_rect(const struct tuyrashka_canvas *canvas, uint8_t *data, size_t data_len,
                                   int32_t x, int32_t y, uint32_t w, uint32_t h, uint32_t arc_w, uint32_t arc_h,
                                   uint32_t argb, const struct tuyrashka_clip *clip, struct tuyrashka_drawn *drawn);

/* Fills the box with round corners; where an arc size is 0, the plain box. */
uint32_t tuyrashka_fill_round_rect(const struct tuyrashka_canvas *canvas, uint8_t *data, size_t data_len,
                                   int32_t x, int32_t y, uint32_t w, uint32_t h, uint32_t arc_w, uint32_t arc_h,
                                   uint32_t argb, const struct tuyrashka_clip *clip, struct tuyrashka_drawn *drawn);

/* Inverts the colours of the box and keeps alpha, whatever xor_mode is. Inverting again takes it away, but that Rgb8's top
 * bytes are 0 then; among drawings with XOR on it may come at any turn. */
uint32_t tuyrashka_invert_rect(const struct tuyrashka_canvas *canvas, uint8_t *data, size_t data_len,
                               int32_t x, int32_t y, uint32_t w, uint32_t h,
                               const struct tuyrashka_clip *clip, struct tuyrashka_drawn *drawn);

/* Copies the box at (sx, sy) to (dx, dy), as if all were read before any is written, whatever xor_mode is. Points that come from
 * off the canvas are left out. */
uint32_t tuyrashka_copy_area(const struct tuyrashka_canvas *canvas, uint8_t *data, size_t data_len,
                             int32_t dx, int32_t dy, int32_t sx, int32_t sy, uint32_t w, uint32_t h,
                             const struct tuyrashka_clip *clip, struct tuyrashka_drawn *drawn);

/* Draws the box at (sx, sy) of an image at (dx, dy). Points that come from off the image are left out. source's xor_mode and rule
 * say nothing, but that a rule which is none is refused. With XOR off a pixel of alpha 255 is stored and any other blended with
 * the one below by the canvas's rule, and the pixel gets alpha 255, also at alpha 0; with XOR on alpha 0 changes nothing, and any
 * other scales r, g and b before the XOR, by either rule alike. */
uint32_t tuyrashka_draw(const struct tuyrashka_canvas *canvas, uint8_t *data, size_t data_len,
                        int32_t dx, int32_t dy, uint32_t w, uint32_t h,
                        const struct tuyrashka_canvas *source, const uint8_t *image, size_t image_len,
                        int32_t sx, int32_t sy,
                        const struct tuyrashka_clip *clip, struct tuyrashka_drawn *drawn);

/* Reads one point: *found says whether it is on the canvas, and *argb is its colour, alpha 255 in a format without it. Off the
 * canvas *argb is 0. */
uint32_t tuyrashka_get_pixel(const struct tuyrashka_canvas *canvas, const uint8_t *data, size_t data_len,
                             int32_t x, int32_t y, bool *found, uint32_t *argb);

/* What two clips share: the larger corner, and a side of 0 where they share nothing. */
void tuyrashka_clip_intersect(const struct tuyrashka_clip *a, const struct tuyrashka_clip *b, struct tuyrashka_clip *both);

/* Decodes an LBMP file to ARGB words in rows, width times height of them, written to out; out_len is a number of words, and those
 * past the last pixel are not written. *clear is the number of transparent pixels. */
uint32_t tuyrashka_decode_lbmp(const uint8_t *file, size_t file_len, uint32_t *out, size_t out_len,
                               struct tuyrashka_size *size, uint64_t *clear);

/* Finds the first static icon of a RES file: its pixels are the width times height bytes of the file from *start on, in rows. As
 * the image of tuyrashka_draw, by tuyrashka_canvas_of with the format TUYRASHKA_RGB332, they are never refused. */
uint32_t tuyrashka_decode_res(const uint8_t *file, size_t file_len, size_t *start, struct tuyrashka_size *size);

#ifdef __cplusplus
}
#endif

#endif
