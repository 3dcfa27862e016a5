/* The largest canvas, 32,767 rows of 32,767 pixels, in every format, without tails and with the right half of each row as its
 * tail: the last row ends at a guard, 4,294,705,156 bytes behind the first byte. */
#include "hostile.h"

#define SIDE 32767

static struct tuyrashka_canvas board;

static void show_board(void)
{
    printf("  a canvas of format %u, %u by %u, rows of %u, rule %u\n", board.format, board.width, board.height, board.row,
           board.rule);
}

/* The calls at a corner, each of which lands so many plots there. The last leave white, and its lowest byte is 255 in every
 * format. */
static void draw_at(uint8_t *data, size_t length, int32_t x, int32_t y)
{
    static const struct tuyrashka_canvas dot = {TUYRASHKA_RGB332, 2, 2, 0, 3, TUYRASHKA_DOWN};
    static const uint8_t pixels[6] = {0xE0, 0xFF, 0, 0x03, 0x1C, 0};
    const struct tuyrashka_clip k = {x, y, 2, 2};
    struct tuyrashka_drawn d;
    bool found;
    uint32_t argb = 0, white = 0xFFFFFFFFu;
#define LANDS(function, number, ...)                                                                    \
    now.name = "tuyrashka_" #function;                                                                  \
    expect(tuyrashka_##function(&board, data, length, __VA_ARGS__, &k, &d) == TUYRASHKA_OK, "refused"); \
    expect(d.landed == number, "another count was expected");                                           \
    count(TUYRASHKA_OK, true)
    LANDS(draw, 4, x, y, 2, 2, &dot, pixels, sizeof pixels, 0, 0);
    LANDS(invert_rect, 4, 0, 0, SIDE, SIDE);
    LANDS(copy_area, 1, x, y, x + 1, y + 1, 1, 1);
    LANDS(fill_rect, 4, 0, 0, SIDE, SIDE, white);
    LANDS(draw_rect, 4, x, y, 2, 2, white);
    LANDS(draw_line, 2, x, y, x + 1, y + 1, white);
    LANDS(fill_round_rect, 4, x - 9, y - 9, 20, 20, 2, 2, white);
    LANDS(fill_arc, 4, x - 9, y - 9, 20, 20, 0, 360, white);
    LANDS(draw_arc, 15, x, y, 2, 2, 0, 360, white);
    LANDS(draw_round_rect, 20, x, y, 2, 2, 2, 2, white);
    LANDS(put_pixel, 1, x + 1, y + 1, white);
    now.name = "tuyrashka_get_pixel";
    expect(tuyrashka_get_pixel(&board, data, length, x + 1, y + 1, &found, &argb) == TUYRASHKA_OK, "refused");
    expect(found && argb == (board.format == TUYRASHKA_RGB332 ? 0xFFFCFCFFu : white), "another colour was expected");
    count(TUYRASHKA_OK, true);
    size_t at = (size_t)(y + 1) * SIDE + (size_t)x + 1;
    expect(data[at * (length / SIDE / SIDE)] == 255, "the pixel is stored elsewhere");
#undef LANDS
}

void draw_on_largest(void)
{
    now.show = show_board;
    for (uint32_t format = TUYRASHKA_RGB332; format <= TUYRASHKA_ABGR; format++) {
        size_t length = (size_t)SIDE * SIDE * (format == TUYRASHKA_RGB332 ? 1 : format == TUYRASHKA_RGB565 ? 2 : 4);
        uint8_t *data = guarded(-1, length, PROT_READ | PROT_WRITE);
        for (uint32_t width = SIDE; width >= SIDE / 2; width -= SIDE / 2) {
            struct tuyrashka_canvas largest = {format, width, SIDE, 0, SIDE, width == SIDE ? TUYRASHKA_DOWN : TUYRASHKA_NEAREST};
            board = largest;
            draw_at(data, length, (int32_t)width - 2, SIDE - 2);
            draw_at(data, length, 0, 0);
        }
        munmap((void *)((uintptr_t)data / PAGE * PAGE), length);
    }
}
