/* The library with one fault at a time, by its number in FAULT: what hostile calls must find. The linker puts these functions
 * before those of the library. */
#include "hostile.h"

#define CANVAS const struct tuyrashka_canvas *canvas, uint8_t *data, size_t data_len
#define CORNER int32_t x, int32_t y
#define BOX CORNER, uint32_t w, uint32_t h
#define REST const struct tuyrashka_clip *clip, struct tuyrashka_drawn *drawn

static bool is(int number)
{
    static int fault;
    if (fault == 0)
        fault = atoi(getenv("FAULT"));
    return fault == number;
}

static void touch(const volatile uint8_t *byte)
{
    (void)*byte;
}

static void store(const void *byte)
{
    *(volatile uint8_t *)byte = 0;
}

static size_t pixel_bytes(const struct tuyrashka_canvas *canvas)
{
    return canvas->format == TUYRASHKA_RGB332 ? 1 : canvas->format == TUYRASHKA_RGB565 ? 2 : 4;
}

/* The bytes of its rows. */
static size_t exact_bytes(const struct tuyrashka_canvas *canvas)
{
    return (size_t)canvas->row * canvas->height * pixel_bytes(canvas);
}

/* Declares the library's function, and puts one before it. */
#define BEFORE(name, ...)                          \
    uint32_t __real_tuyrashka_##name(__VA_ARGS__); \
    uint32_t __wrap_tuyrashka_##name(__VA_ARGS__); \
    uint32_t __wrap_tuyrashka_##name(__VA_ARGS__)

/* The canvas by rule 1, whatever it says: what a library takes that lets its rule pass. */
static struct tuyrashka_canvas lax(const struct tuyrashka_canvas *canvas)
{
    struct tuyrashka_canvas by_rule_1 = *canvas;
    by_rule_1.rule = TUYRASHKA_DOWN;
    return by_rule_1;
}

/* 1: a byte past the end is stored. 21: a byte of the first tail is. 27: a rule of 0 passes. */
BEFORE(put_pixel, CANVAS, CORNER, uint32_t argb, REST)
{
    const struct tuyrashka_canvas any_rule = lax(canvas), *taken = is(27) && canvas->rule == 0 ? &any_rule : canvas;
    uint32_t status = __real_tuyrashka_put_pixel(taken, data, data_len, x, y, argb, clip, drawn);
    if (is(1) && drawn->landed != 0)
        store(data + data_len);
    if (is(21) && drawn->landed != 0 && canvas->row > canvas->width)
        data[canvas->width * pixel_bytes(canvas)]++;
    return status;
}

/* 2: a length is tested wrongly, so that one byte too few passes. 3: and one too many. 28: a rule of 3 passes. */
BEFORE(draw_line, CANVAS, CORNER, int32_t x2, int32_t y2, uint32_t argb, REST)
{
    size_t exact = exact_bytes(canvas);
    bool passes = (is(2) && data_len + 1 == exact) || (is(3) && data_len == exact + 1);
    const struct tuyrashka_canvas any_rule = lax(canvas), *taken = is(28) && canvas->rule == 3 ? &any_rule : canvas;
    return __real_tuyrashka_draw_line(taken, data, passes ? exact : data_len, x, y, x2, y2, argb, clip, drawn);
}

/* 4: the count stays as it was on a refusal. 22: the length is that of the width. */
BEFORE(draw_rect, CANVAS, BOX, uint32_t argb, REST)
{
    uint64_t before = drawn->landed;
    struct tuyrashka_canvas narrow = *canvas;
    narrow.row = narrow.width;
    const struct tuyrashka_canvas *taken = is(22) && data_len == exact_bytes(&narrow) ? &narrow : canvas;
    uint32_t status = __real_tuyrashka_draw_rect(taken, data, data_len, x, y, w, h, argb, clip, drawn);
    if (is(4) && status != TUYRASHKA_OK)
        drawn->landed = before;
    return status;
}

/* 5: a byte before the first is stored. 23: a row that is one too long passes. 29: the top bit of a rule is not
 * looked at. */
BEFORE(fill_rect, CANVAS, BOX, uint32_t argb, REST)
{
    bool passes = is(29) && ((canvas->rule & 0x7FFFFFFF) == 1 || (canvas->rule & 0x7FFFFFFF) == 2);
    const struct tuyrashka_canvas any_rule = lax(canvas), *taken = passes ? &any_rule : canvas;
    uint32_t status = __real_tuyrashka_fill_rect(taken, data, data_len, x, y, w, h, argb, clip, drawn);
    if (is(5) && drawn->landed != 0)
        store(data - 1);
    return is(23) && status == TUYRASHKA_ROW && canvas->row == 32768 ? TUYRASHKA_OK : status;
}

/* 6: an angle of 721 passes. 30: the rule is judged behind the sides. */
BEFORE(draw_arc, CANVAS, BOX, int32_t start_angle, int32_t arc_angle, uint32_t argb, REST)
{
    int32_t held = is(6) && arc_angle == 721 ? 720 : arc_angle;
    uint32_t status = __real_tuyrashka_draw_arc(canvas, data, data_len, x, y, w, h, start_angle, held, argb, clip, drawn);
    bool large = canvas->width > 32767 || canvas->height > 32767;
    return is(30) && status == TUYRASHKA_RULE && large ? TUYRASHKA_SIZE : status;
}

/* 7: a byte is stored before the angles are judged. 31: the rule is judged before the format. */
BEFORE(fill_arc, CANVAS, BOX, int32_t start_angle, int32_t arc_angle, uint32_t argb, REST)
{
    uint32_t status = __real_tuyrashka_fill_arc(canvas, data, data_len, x, y, w, h, start_angle, arc_angle, argb, clip, drawn);
    if (is(7) && status >= TUYRASHKA_ANGLE && data_len > 0)
        data[0]++;
    return is(31) && status == TUYRASHKA_FORMAT && canvas->rule != 1 && canvas->rule != 2 ? TUYRASHKA_RULE : status;
}

/* 8: the answer is written twice, the second time behind itself. 32: a field behind the rule is read. */
BEFORE(draw_round_rect, CANVAS, BOX, uint32_t arc_w, uint32_t arc_h, uint32_t argb, REST)
{
    uint32_t status = __real_tuyrashka_draw_round_rect(canvas, data, data_len, x, y, w, h, arc_w, arc_h, argb, clip, drawn);
    if (is(8))
        store(drawn + 1);
    if (is(32))
        touch((const uint8_t *)(canvas + 1));
    return status;
}

/* 9: a side of 32,768 passes. */
BEFORE(fill_round_rect, CANVAS, BOX, uint32_t arc_w, uint32_t arc_h, uint32_t argb, REST)
{
    uint32_t held = is(9) && w == 32768 ? 32767 : w;
    return __real_tuyrashka_fill_round_rect(canvas, data, data_len, x, y, held, h, arc_w, arc_h, argb, clip, drawn);
}

/* 10: the clip is forgotten. 24: the row is judged behind the length. */
BEFORE(invert_rect, CANVAS, BOX, REST)
{
    static const struct tuyrashka_clip whole = {0, 0, UINT32_MAX, UINT32_MAX};
    uint32_t status = __real_tuyrashka_invert_rect(canvas, data, data_len, x, y, w, h, is(10) ? &whole : clip, drawn);
    return is(24) && status == TUYRASHKA_ROW && data_len != exact_bytes(canvas) ? TUYRASHKA_LENGTH : status;
}

/* 11: the caller's record is written. */
BEFORE(copy_area, CANVAS, CORNER, int32_t sx, int32_t sy, uint32_t w, uint32_t h, REST)
{
    if (is(11))
        store(&canvas->xor_mode);
    return __real_tuyrashka_copy_area(canvas, data, data_len, x, y, sx, sy, w, h, clip, drawn);
}

/* 12: a byte behind the image is read. 13: the image is written. 25: its row has a number of its own. 33: so has its rule. 34:
 * its rule is not judged. */
BEFORE(draw, CANVAS, BOX, const struct tuyrashka_canvas *source, const uint8_t *image, size_t image_len, int32_t sx, int32_t sy,
       REST)
{
    const struct tuyrashka_canvas any_rule = lax(source), *taken = is(34) ? &any_rule : source;
    uint32_t status = __real_tuyrashka_draw(canvas, data, data_len, x, y, w, h, taken, image, image_len, sx, sy, clip, drawn);
    if (is(12) && drawn->landed != 0)
        touch(image + image_len);
    if (is(13) && drawn->landed != 0)
        store(image);
    if (is(33) && status == TUYRASHKA_SOURCE && source->rule != 1 && source->rule != 2)
        return TUYRASHKA_RULE;
    return is(25) && status == TUYRASHKA_SOURCE && source->row < source->width ? TUYRASHKA_ROW : status;
}

/* 14: a byte is read before the length is judged. 15: off the canvas there is a colour. 26: a tail is on the canvas. 35: the rule
 * is not judged. */
BEFORE(get_pixel, const struct tuyrashka_canvas *canvas, const uint8_t *data, size_t data_len, CORNER, bool *found,
       uint32_t *argb)
{
    const struct tuyrashka_canvas any_rule = lax(canvas), *taken = is(35) ? &any_rule : canvas;
    uint32_t status = __real_tuyrashka_get_pixel(taken, data, data_len, x, y, found, argb);
    if (is(14))
        touch(data);
    if (is(15) && !*found)
        *argb = 0xFF000000u;
    if (is(26) && status == TUYRASHKA_OK && (uint32_t)x < canvas->row && (uint32_t)y < canvas->height)
        *found = true;
    return status;
}

/* 16: a word past the last pixel is stored. 17: a byte behind the file is read. */
BEFORE(decode_lbmp, const uint8_t *file, size_t file_len, uint32_t *out, size_t out_len, struct tuyrashka_size *size,
       uint64_t *clear)
{
    uint32_t status = __real_tuyrashka_decode_lbmp(file, file_len, out, out_len, size, clear);
    if (is(16) && status == TUYRASHKA_OK)
        out[size->width * size->height] = 0;
    if (is(17))
        touch(file + file_len);
    return status;
}

/* 18: a byte behind the file is read. 19: a side stays on a refusal. */
BEFORE(decode_res, const uint8_t *file, size_t file_len, size_t *start, struct tuyrashka_size *size)
{
    uint32_t status = __real_tuyrashka_decode_res(file, file_len, start, size);
    if (is(18))
        touch(file + file_len);
    if (is(19) && status == TUYRASHKA_RES)
        size->height = 1;
    return status;
}

void __real_tuyrashka_clip_intersect(const struct tuyrashka_clip *a, const struct tuyrashka_clip *b, struct tuyrashka_clip *both);
void __wrap_tuyrashka_clip_intersect(const struct tuyrashka_clip *a, const struct tuyrashka_clip *b, struct tuyrashka_clip *both);

/* 20: a clip's end is worked out with wrap. */
void __wrap_tuyrashka_clip_intersect(const struct tuyrashka_clip *a, const struct tuyrashka_clip *b, struct tuyrashka_clip *both)
{
    struct tuyrashka_clip wrapped = *a;
    if (is(20) && (int64_t)a->x + a->width > INT32_MAX)
        wrapped.width = 0;
    __real_tuyrashka_clip_intersect(&wrapped, b, both);
}
