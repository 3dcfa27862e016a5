/* Calls on a canvas, with arguments by chance. What is expected of an answer is worked out here from the header's words. */
#include "hostile.h"

/* A canvas or an image: the record, the bytes, and the number by which the pair is refused as a canvas. */
struct board {
    struct arena small, large, record_lent;
    struct arena *bytes;
    struct tuyrashka_canvas record;
    uint32_t fault;
    bool null;
};

enum { PUT, LINE, RECT, FILL, ARC, PIE, ROUND, FULL, INVERT, COPY, DRAW };

/* Their own numbers: x y a point of the canvas, u v one of its first quarter, X Y one of the image, w h a box, g an angle, a an
 * arc size, c a colour. Whether no pixel can land twice. */
static const struct {
    const char *name, *numbers;
    bool once;
} functions[DRAWING] = {
    {"tuyrashka_put_pixel", "xyc", true},
    {"tuyrashka_draw_line", "xyxyc", true},
    {"tuyrashka_draw_rect", "xywhc", true},
    {"tuyrashka_fill_rect", "xywhc", true},
    {"tuyrashka_draw_arc", "uvwhggc", false},
    {"tuyrashka_fill_arc", "uvwhggc", true},
    {"tuyrashka_draw_round_rect", "uvwhaac", false},
    {"tuyrashka_fill_round_rect", "uvwhaac", true},
    {"tuyrashka_invert_rect", "xywh", true},
    {"tuyrashka_copy_area", "xyxywh", true},
    {"tuyrashka_draw", "xywhXY", true},
};

static struct board canvas, image;
static struct arena clip_lent, drawn_lent, found_lent, argb_lent;
static struct tuyrashka_clip clip;
static uint32_t numbers[8];

void make_drawing_arenas(void)
{
    for (struct board *b = &canvas; b != NULL; b = b == &canvas ? &image : NULL) {
        b->small = arena(1, 1024);
        b->large = arena(64, PAGE);
        b->record_lent = arena(1, 0);
        for (size_t i = 0; i < b->small.size; i++)
            b->small.write[i] = (uint8_t)any();
        for (size_t i = 0; i < b->large.size; i++)
            b->large.write[i] = (uint8_t)any();
    }
    clip_lent = arena(1, 0);
    drawn_lent = arena(1, 64);
    found_lent = arena(1, 64);
    argb_lent = arena(1, 64);
}

static void show_board(const char *what, const struct board *b)
{
    printf("  %s: format %u, %u by %u, rows of %u, XOR %u, rule %u, %zu bytes%s\n", what, b->record.format, b->record.width,
           b->record.height, b->record.row, b->record.xor_mode, b->record.rule, b->bytes->length, b->null ? " (NULL)" : "");
}

static void show_call(void)
{
    show_board("canvas", &canvas);
    show_board("image", &image);
    printf("  clip: %d %d %u %u\n  numbers:", clip.x, clip.y, clip.width, clip.height);
    for (int i = 0; i < 8; i++)
        printf(" %d", (int32_t)numbers[i]);
    printf("\n");
}

static uint64_t pixel_bytes(uint32_t format)
{
    return format == TUYRASHKA_RGB332 ? 1 : format == TUYRASHKA_RGB565 ? 2 : 4;
}

static uint32_t fault_of(const struct tuyrashka_canvas *c, size_t length)
{
    if (c->format > TUYRASHKA_ABGR)
        return TUYRASHKA_FORMAT;
    if (c->rule != TUYRASHKA_DOWN && c->rule != TUYRASHKA_NEAREST)
        return TUYRASHKA_RULE;
    if (c->width > 32767 || c->height > 32767)
        return TUYRASHKA_SIZE;
    if (c->row < c->width || c->row > 32767)
        return TUYRASHKA_ROW;
    return length == (uint64_t)c->row * c->height * pixel_bytes(c->format) ? TUYRASHKA_OK : TUYRASHKA_LENGTH;
}

/* A row by chance: the width or some pixels more, and at times 32,767 or so, of a canvas that is not high. */
static void choose_row(struct tuyrashka_canvas *c)
{
    c->row = one_in(2) ? c->width : c->width + 1 + below(c->height > 16 ? 1 : 8);
    if (one_in(1000)) {
        c->height = 1 + below(2);
        c->row = 32765 + below(5);
    }
}

/* A record by chance: small sides, or one of 32,767 or so, or numbers near the edges. */
static void choose_record(struct tuyrashka_canvas *c)
{
    c->format = below(5);
    c->width = one_in(50) ? 0 : 1 + below(16);
    c->height = one_in(50) ? 0 : 1 + below(16);
    c->xor_mode = one_in(2) ? 0 : one_in(2) ? 1 : extreme();
    c->rule = 1 + below(2);
    if (one_in(500)) {
        uint32_t longer = 32765 + below(3);
        c->width = one_in(2) ? longer : 1;
        c->height = c->width == 1 ? longer : 1 + below(2);
    }
    choose_row(c);
    if (!one_in(20))
        return;
    if (one_in(3))
        c->format = extreme();
    if (one_in(3))
        c->width = extreme();
    if (one_in(3))
        c->height = extreme();
    if (one_in(3))
        c->row = one_in(2) ? c->width - 1 : extreme();
    if (one_in(3))
        c->rule = one_in(2) ? below(5) : extreme();
}

/* The bytes of a record: as many as it says or as 32 bits keep of that, where there is room, and at times one more or less, or as
 * many as there would be without tails. */
static size_t choose_length(const struct tuyrashka_canvas *c, size_t room)
{
    uint64_t exact = (uint64_t)(one_in(80) ? c->width : c->row) * c->height * pixel_bytes(c->format);
    size_t length = exact <= room ? exact : (uint32_t)exact <= room ? (uint32_t)exact : below(64);
    if (one_in(40) && length < room)
        return length + 1;
    if (one_in(40) && length > 0)
        return length - 1;
    return one_in(80) ? 0 : length;
}

static void choose_board(struct board *b)
{
    choose_record(&b->record);
    size_t length = choose_length(&b->record, b->large.size);
    b->bytes = length <= b->small.size ? &b->small : &b->large;
    b->fault = fault_of(&b->record, length);
    b->null = length == 0 && one_in(2);
    lend(b->bytes, length, one_in(2));
    if (one_in(16))
        shift(b->bytes, 1 + below(3));
    lend_record(&b->record_lent, &b->record, sizeof b->record, one_in(2));
}

/* A point of a side, mostly: at times up to three beside it. */
static uint32_t point(uint32_t side)
{
    uint32_t within = side < 32767 ? side : 32767;
    return one_in(16) ? below(within + 7) - 3 : below(within);
}

/* A length of some pixels or of most of a side, and at times more. */
static uint32_t extent(uint32_t side)
{
    uint32_t within = side < 32767 ? side : 32767;
    return one_in(8) ? 1 + below(3) : within / 2 + below(within / 2 + 4);
}

static uint32_t choose_number(char kind, bool wild)
{
    if (wild && one_in(3))
        return extreme();
    switch (kind) {
    case 'x': return point(canvas.record.width);
    case 'y': return point(canvas.record.height);
    case 'u': return point(canvas.record.width / 2);
    case 'v': return point(canvas.record.height / 2);
    case 'X': return point(image.record.width);
    case 'Y': return point(image.record.height);
    case 'w': return extent(canvas.record.width);
    case 'h': return extent(canvas.record.height);
    case 'g': return below(1441) - 720;
    case 'a': return below(9);
    default: return one_in(4) ? any() : any() | 0xFF000000u;
    }
}

static void choose_clip(bool wild)
{
    clip.x = 0;
    clip.y = 0;
    clip.width = one_in(2) ? canvas.record.width : UINT32_MAX;
    clip.height = one_in(2) ? canvas.record.height : UINT32_MAX;
    if (one_in(4)) {
        clip.x = (int32_t)point(canvas.record.width / 2);
        clip.y = (int32_t)point(canvas.record.height / 2);
        clip.width = extent(canvas.record.width);
        clip.height = extent(canvas.record.height);
    }
    if (wild && one_in(4))
        clip.x = (int32_t)extreme();
    if (wild && one_in(4))
        clip.y = (int32_t)extreme();
    if (wild && one_in(4))
        clip.width = extreme();
    if (wild && one_in(4))
        clip.height = extreme();
    lend_record(&clip_lent, &clip, sizeof clip, one_in(2));
}

static bool is_far(int32_t n)
{
    return n < -32768 || n > 32767;
}

static bool is_wide(int32_t angle)
{
    return angle < -720 || angle > 720;
}

/* The number that the header gives to this call. */
static uint32_t expected(int function)
{
    const uint32_t *n = numbers;
    if (canvas.fault != TUYRASHKA_OK)
        return canvas.fault;
    if (function == DRAW && image.fault != TUYRASHKA_OK)
        return TUYRASHKA_SOURCE;
    if ((function == ARC || function == PIE) && (is_wide((int32_t)n[4]) || is_wide((int32_t)n[5])))
        return TUYRASHKA_ANGLE;
    if (function >= ARC && function <= FULL && (is_far((int32_t)n[0]) || is_far((int32_t)n[1]) || n[2] > 32767 || n[3] > 32767))
        return TUYRASHKA_SHAPE;
    return TUYRASHKA_OK;
}

static int64_t least(int64_t a, int64_t b)
{
    return a < b ? a : b;
}

/* From where to where a clip takes a side. */
static void held(int32_t from, uint32_t length, uint32_t side, int64_t *start, int64_t *end)
{
    *start = least(from < 0 ? 0 : from, side);
    *end = least((int64_t)from + length, side);
    if (*end < *start)
        *end = *start;
}

/* Whether the pixels outside the clip, and the tails, are as they were; how many are inside. */
static bool clip_kept(int64_t *inside)
{
    const struct tuyrashka_canvas *c = &canvas.record;
    const struct arena *a = canvas.bytes;
    size_t pixel = pixel_bytes(c->format), row = c->row * pixel;
    int64_t left, right, top, bottom;
    held(clip.x, clip.width, c->width, &left, &right);
    held(clip.y, clip.height, c->height, &top, &bottom);
    *inside = (right - left) * (bottom - top);
    size_t start = (size_t)left * pixel, end = (size_t)right * pixel;
    for (int64_t y = 0; y < c->height; y++) {
        size_t at = a->at + (size_t)y * row;
        bool cut = y < top || y >= bottom;
        if (!same(a, at, at + (cut ? row : start)) || !same(a, at + (cut ? row : end), at + row))
            return false;
    }
    return true;
}

static uint32_t call(int function, uint8_t *data, const uint8_t *pixels, const struct tuyrashka_canvas *c,
                     const struct tuyrashka_canvas *source, const struct tuyrashka_clip *k, struct tuyrashka_drawn *drawn)
{
    const uint32_t *n = numbers;
    size_t length = canvas.bytes->length;
    int32_t x = (int32_t)n[0], y = (int32_t)n[1], x2 = (int32_t)n[2], y2 = (int32_t)n[3];
    int32_t from = (int32_t)n[4], by = (int32_t)n[5];
    switch (function) {
    case PUT: return tuyrashka_put_pixel(c, data, length, x, y, n[2], k, drawn);
    case LINE: return tuyrashka_draw_line(c, data, length, x, y, x2, y2, n[4], k, drawn);
    case RECT: return tuyrashka_draw_rect(c, data, length, x, y, n[2], n[3], n[4], k, drawn);
    case FILL: return tuyrashka_fill_rect(c, data, length, x, y, n[2], n[3], n[4], k, drawn);
    case ARC: return tuyrashka_draw_arc(c, data, length, x, y, n[2], n[3], from, by, n[6], k, drawn);
    case PIE: return tuyrashka_fill_arc(c, data, length, x, y, n[2], n[3], from, by, n[6], k, drawn);
    case ROUND: return tuyrashka_draw_round_rect(c, data, length, x, y, n[2], n[3], n[4], n[5], n[6], k, drawn);
    case FULL: return tuyrashka_fill_round_rect(c, data, length, x, y, n[2], n[3], n[4], n[5], n[6], k, drawn);
    case INVERT: return tuyrashka_invert_rect(c, data, length, x, y, n[2], n[3], k, drawn);
    case COPY: return tuyrashka_copy_area(c, data, length, x, y, x2, y2, n[4], n[5], k, drawn);
    default: return tuyrashka_draw(c, data, length, x, y, n[2], n[3], source, pixels, image.bytes->length, from, by, k, drawn);
    }
}

static void judge(int function, uint32_t status)
{
    struct tuyrashka_drawn drawn;
    int64_t inside = 0;
    memcpy(&drawn, to_read(&drawn_lent), sizeof drawn);
    expect(status == expected(function), "another number was expected");
    expect(outside_kept(canvas.bytes), "bytes beside the canvas have changed");
    expect(outside_kept(&drawn_lent), "bytes beside the answer have changed");
    expect(status == TUYRASHKA_OK || drawn.landed == 0, "refused, and something landed");
    expect(drawn.landed != 0 || lent_kept(canvas.bytes), "nothing landed, and bytes have changed");
    expect(status != TUYRASHKA_OK || clip_kept(&inside), "bytes outside the clip or in a tail have changed");
    expect(!functions[function].once || drawn.landed <= (uint64_t)inside, "more landed than the clip has");
    count(status, drawn.landed != 0);
}

/* What a board's bytes are lent as. */
static const uint8_t *bytes_of(const struct board *b, const uint8_t *view)
{
    return b->null ? NULL : view + b->bytes->at;
}

void draw_once(int function)
{
    now.name = functions[function].name;
    now.show = show_call;
    choose_board(&canvas);
    choose_board(&image);
    bool wild = one_in(8);
    choose_clip(wild);
    for (size_t i = 0; functions[function].numbers[i] != 0; i++)
        numbers[i] = choose_number(functions[function].numbers[i], wild);
    keep(canvas.bytes);
    lend_output(&drawn_lent, sizeof(struct tuyrashka_drawn));
    judge(function, call(function, (uint8_t *)bytes_of(&canvas, canvas.bytes->write), bytes_of(&image, image.bytes->read),
                         to_read(&canvas.record_lent), to_read(&image.record_lent), to_read(&clip_lent), to_write(&drawn_lent)));
}

void read_once(void)
{
    uint32_t argb;
    now.name = "tuyrashka_get_pixel";
    now.show = show_call;
    choose_board(&canvas);
    bool wild = one_in(8);
    numbers[0] = choose_number('x', wild);
    numbers[1] = choose_number('y', wild);
    lend_output(&found_lent, sizeof(bool));
    lend_output(&argb_lent, sizeof argb);
    uint32_t status =
        tuyrashka_get_pixel(to_read(&canvas.record_lent), bytes_of(&canvas, canvas.bytes->read), canvas.bytes->length,
                            (int32_t)numbers[0], (int32_t)numbers[1], to_write(&found_lent), to_write(&argb_lent));
    uint8_t found = found_lent.write[found_lent.at];
    memcpy(&argb, to_read(&argb_lent), sizeof argb);
    bool there = numbers[0] < canvas.record.width && numbers[1] < canvas.record.height;
    expect(status == canvas.fault, "another number was expected");
    expect(outside_kept(&found_lent) && outside_kept(&argb_lent), "bytes beside the answer have changed");
    expect(found == (status == TUYRASHKA_OK && there ? 1 : 0), "found is wrong");
    expect(found == 1 || argb == 0, "nothing is found, and the colour is not 0");
    count(status, found == 1);
}
