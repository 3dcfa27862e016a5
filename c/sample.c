/* sample FILE.ppm: draws a phone's screen, writes it as a picture, and takes the XOR box in it away again. */
#include <stdio.h>
#include <string.h>

#include "tuyrashka.h"

#define WIDTH 240
#define HEIGHT 320
#define SIDE 48

static uint8_t bytes[WIDTH * HEIGHT * 2];
static struct tuyrashka_canvas screen;
static const struct tuyrashka_clip whole = {0, 0, WIDTH, HEIGHT};

/* Draws a box with XOR on: once to show it, and again to take it away. */
static uint32_t xor_box(struct tuyrashka_drawn *drawn)
{
    struct tuyrashka_canvas xored = tuyrashka_canvas_of(TUYRASHKA_RGB565, WIDTH, HEIGHT);
    xored.xor_mode = 1;
    return tuyrashka_draw_rect(&xored, bytes, sizeof bytes, 14, 96, 156, 120, 0xFFFFFFFFu, &whole, drawn);
}

/* The sky in bands, the ground, and a bar at the top, inverted. As those below, returns 0 where no call is refused. */
static uint32_t draw_ground(struct tuyrashka_drawn *drawn)
{
    uint32_t refused = 0;
    for (int32_t band = 0; band < 24; band++)
        refused |= tuyrashka_fill_rect(&screen, bytes, sizeof bytes, 0, 10 * band, WIDTH, 10,
                                       0xFF2040A0u + (uint32_t)band * 0x040401u, &whole, drawn);
    refused |= tuyrashka_fill_rect(&screen, bytes, sizeof bytes, 0, 240, WIDTH, 80, 0xFF3C7828u, &whole, drawn);
    for (int32_t x = -60; x <= 300; x += 30)
        refused |= tuyrashka_draw_line(&screen, bytes, sizeof bytes, 120, 236, 4 * x - 360, 320, 0xFF58A03Cu, &whole, drawn);
    return refused | tuyrashka_invert_rect(&screen, bytes, sizeof bytes, 0, 0, WIDTH, 18, &whole, drawn);
}

/* A round box with a pie of three parts in it. */
static uint32_t draw_pie(struct tuyrashka_drawn *drawn)
{
    static const int32_t angles[4] = {90, 210, 290, 450};
    static const uint32_t colours[3] = {0xFFE04030u, 0xFFF0C030u, 0xFF30A0E0u};
    uint32_t refused =
        tuyrashka_fill_round_rect(&screen, bytes, sizeof bytes, 30, 40, 180, 110, 40, 40, 0xFFF4ECD8u, &whole, drawn);
    refused |= tuyrashka_draw_round_rect(&screen, bytes, sizeof bytes, 34, 44, 172, 102, 34, 34, 0xFF806040u, &whole, drawn);
    for (int part = 0; part < 3; part++)
        refused |= tuyrashka_fill_arc(&screen, bytes, sizeof bytes, 80, 55, 81, 81, angles[part], angles[part + 1] - angles[part],
                                      colours[part], &whole, drawn);
    return refused | tuyrashka_draw_arc(&screen, bytes, sizeof bytes, 76, 51, 89, 89, 0, 360, 0xFF000000u, &whole, drawn);
}

/* An image whose alpha grows from column to column, blended with what is below it. */
static uint32_t draw_image(struct tuyrashka_drawn *drawn)
{
    static uint8_t pixels[SIDE * SIDE * 4];
    const struct tuyrashka_canvas image = tuyrashka_canvas_of(TUYRASHKA_ARGB, SIDE, SIDE);
    const struct tuyrashka_clip all = {0, 0, SIDE, SIDE};
    uint32_t refused = 0;
    for (uint32_t x = 0; x < SIDE; x++)
        refused |= tuyrashka_fill_rect(&image, pixels, sizeof pixels, (int32_t)x, 0, 1, SIDE, (x * 5 + 20) << 24 | 0xFF40C0u,
                                       &all, drawn);
    return refused |
           tuyrashka_draw(&screen, bytes, sizeof bytes, 40, 180, SIDE, SIDE, &image, pixels, sizeof pixels, 0, 0, &whole, drawn);
}

/* The first icon of a RES file, drawn in a row. */
static uint32_t draw_icons(struct tuyrashka_drawn *drawn)
{
    static const uint8_t file[] = "\xCE\xFA\xAD\xDE\0\0\x08\0"
                                  "\x02\x04\x04\x08\0\0\0\0"
                                  "\xE0\xFC\xFC\xE0\xFC\x03\x03\xFC\xFC\x03\x03\xFC\xE0\xFC\xFC\xE0";
    struct tuyrashka_size size;
    size_t start;
    uint32_t refused = tuyrashka_decode_res(file, sizeof file, &start, &size);
    const struct tuyrashka_canvas icon = tuyrashka_canvas_of(TUYRASHKA_RGB332, size.width, size.height);
    for (int32_t i = 0; i < 24; i++)
        refused |= tuyrashka_draw(&screen, bytes, sizeof bytes, 120 + i % 12 * 8, 190 + i / 12 * 10, size.width, size.height,
                                  &icon, file + start, (size_t)size.width * size.height, 0, 0, &whole, drawn);
    return refused;
}

/* The screen as a PPM file: three bytes a pixel. */
static bool write_picture(const char *name)
{
    FILE *file = fopen(name, "wb");
    if (file == NULL)
        return false;
    fprintf(file, "P6\n%d %d\n255\n", WIDTH, HEIGHT);
    for (int32_t i = 0; i < WIDTH * HEIGHT; i++) {
        bool found;
        uint32_t argb;
        tuyrashka_get_pixel(&screen, bytes, sizeof bytes, i % WIDTH, i / WIDTH, &found, &argb);
        putc((int)(argb >> 16 & 255), file);
        putc((int)(argb >> 8 & 255), file);
        putc((int)(argb & 255), file);
    }
    bool failed = ferror(file) != 0;
    return fclose(file) == 0 && !failed;
}

static int fail(const char *why)
{
    fprintf(stderr, "%s\n", why);
    return 1;
}

int main(int argc, char **argv)
{
    static uint8_t before[sizeof bytes];
    struct tuyrashka_drawn drawn, gone;
    if (argc != 2)
        return fail("usage: sample FILE.ppm");
    screen = tuyrashka_canvas_of(TUYRASHKA_RGB565, WIDTH, HEIGHT);
    if ((draw_ground(&drawn) | draw_pie(&drawn) | draw_image(&drawn) | draw_icons(&drawn)) != TUYRASHKA_OK)
        return fail("a call was refused");
    memcpy(before, bytes, sizeof bytes);
    if (xor_box(&drawn) != TUYRASHKA_OK || memcmp(before, bytes, sizeof bytes) == 0)
        return fail("the box is not seen");
    if (!write_picture(argv[1]))
        return fail("the picture cannot be written");
    if (xor_box(&gone) != TUYRASHKA_OK || memcmp(before, bytes, sizeof bytes) != 0)
        return fail("the box is not taken away");
    if (tuyrashka_invert_rect(&screen, bytes, sizeof bytes - 1, 0, 0, 9, 9, &whole, &gone) != TUYRASHKA_LENGTH ||
        gone.landed != 0)
        return fail("a wrong length is not refused");
    printf("a screen of %d by %d, and in it a box of %d pixels, shown and taken away\n", WIDTH, HEIGHT, (int)drawn.landed);
    return 0;
}
