/* Calls on files and clips, with arguments by chance. */
#include "hostile.h"

static struct arena file_lent, words_lent, size_lent, clear_lent, start_lent, a_lent, b_lent, both_lent;
static size_t room;

void make_file_arenas(void)
{
    file_lent = arena(1, 0);
    words_lent = arena(1, PAGE);
    size_lent = arena(1, 64);
    clear_lent = arena(1, 64);
    start_lent = arena(1, 64);
    a_lent = arena(1, 0);
    b_lent = arena(1, 0);
    both_lent = arena(1, 64);
}

static void show_file(void)
{
    printf("  room for %zu words; %zu bytes:", room, file_lent.length);
    for (size_t i = 0; i < file_lent.length; i++)
        printf(" %02X", file_lent.write[file_lent.at + i]);
    printf("\n");
}

static void show_clips(void)
{
    struct tuyrashka_clip c[2];
    memcpy(&c[0], to_read(&a_lent), sizeof *c);
    memcpy(&c[1], to_read(&b_lent), sizeof *c);
    for (int i = 0; i < 2; i++)
        printf("  clip: %d %d %u %u\n", c[i].x, c[i].y, c[i].width, c[i].height);
}

static struct tuyrashka_clip choose_clip(void)
{
    struct tuyrashka_clip c;
    c.x = (int32_t)(one_in(6) ? extreme() : below(100));
    c.y = (int32_t)(one_in(6) ? extreme() : below(100));
    c.width = one_in(6) ? extreme() : 50 + below(100);
    c.height = one_in(6) ? extreme() : 50 + below(100);
    return c;
}

/* What two spans share, in whole numbers. */
static void shared(int64_t a, int64_t a_length, int64_t b, int64_t b_length, int32_t *from, uint32_t *length)
{
    int64_t start = a > b ? a : b;
    int64_t end = a + a_length < b + b_length ? a + a_length : b + b_length;
    *from = (int32_t)start;
    *length = end > start ? (uint32_t)(end - start) : 0;
}

void intersect_once(void)
{
    struct tuyrashka_clip a = choose_clip(), b = choose_clip(), c, both;
    now.name = "tuyrashka_clip_intersect";
    now.show = show_clips;
    lend_record(&a_lent, &a, sizeof a, one_in(2));
    lend_record(&b_lent, &b, sizeof b, one_in(2));
    lend_output(&both_lent, sizeof both);
    tuyrashka_clip_intersect(to_read(&a_lent), to_read(&b_lent), to_write(&both_lent));
    memcpy(&both, to_read(&both_lent), sizeof both);
    shared(a.x, a.width, b.x, b.width, &c.x, &c.width);
    shared(a.y, a.height, b.y, b.height, &c.y, &c.height);
    expect(memcmp(&both, &c, sizeof c) == 0, "another clip was expected");
    expect(outside_kept(&both_lent), "bytes beside the answer have changed");
    count(TUYRASHKA_OK, both.width != 0 && both.height != 0);
}

/* Lends a file, NULL at times where it is empty. */
static const uint8_t *lend_file(const uint8_t *file, size_t length)
{
    lend_record(&file_lent, file, length, one_in(2));
    return length == 0 && one_in(2) ? NULL : to_read(&file_lent);
}

/* The six numbers of an LBMP header, good ones mostly. */
static void choose_fields(uint32_t *f)
{
    static const uint32_t types[] = {2, 8, 16};
    f[0] = any();
    f[1] = types[below(3)];
    f[2] = 1 + below(20);
    f[3] = 1 + below(20);
    f[5] = below(2);
    f[4] = f[1] == 2 ? (f[3] + 7) / 8 * f[2] : f[1] / 8 * f[2] * f[3];
    uint32_t field = 1 + below(5);
    if (one_in(8))
        f[field] = extreme();
    if (one_in(16)) {
        f[2] = extreme();
        f[3] = extreme();
        f[4] = f[2] * f[3];
    }
}

/* The number that document 01 gives to a file of this header and length; *pixels is how many it has. */
static uint32_t lbmp_number(const uint32_t *f, uint64_t length, uint64_t *pixels)
{
    *pixels = (uint64_t)f[2] * f[3];
    uint64_t plane = ((uint64_t)f[3] + 7) / 8 * f[2];
    uint64_t size = f[1] == 2 ? plane : f[1] == 8 ? *pixels : 2 * *pixels;
    if (length < 24 || *pixels > UINT32_MAX || (f[1] == 16 && 2 * *pixels > UINT32_MAX))
        return TUYRASHKA_INVALID;
    if (f[1] != 2 && f[1] != 8 && f[1] != 16)
        return TUYRASHKA_TYPE;
    if (*pixels == 0 || f[4] != size || f[5] > 1)
        return TUYRASHKA_INVALID;
    size *= f[1] == 2 ? 2 : 1;
    if (size > UINT32_MAX || length < 24 + size + (f[5] == 1 ? plane : 0))
        return TUYRASHKA_INVALID;
    return room < *pixels ? TUYRASHKA_ROOM : TUYRASHKA_OK;
}

/* The room for an image: as many words as pixels mostly, and at times one more or less, or none. */
static size_t choose_room(uint64_t pixels)
{
    size_t most = words_lent.size / 4, words = pixels < most ? (size_t)pixels : most;
    if (one_in(16) && words > 0)
        words--;
    else if (one_in(4) && words < most)
        words++;
    return one_in(40) ? 0 : words;
}

static void judge_lbmp(const uint32_t *f, uint32_t status, uint32_t wanted, uint64_t pixels)
{
    struct tuyrashka_size size;
    uint64_t clear, found = status == TUYRASHKA_OK ? pixels : 0;
    memcpy(&size, to_read(&size_lent), sizeof size);
    memcpy(&clear, to_read(&clear_lent), sizeof clear);
    expect(status == wanted, "another number was expected");
    expect((uint64_t)size.width * size.height == found && (found == 0 || size.width == f[2]), "other sides were expected");
    expect(found != 0 || (size.width == 0 && size.height == 0), "refused, and a side is not 0");
    expect(clear <= (f[5] == 0 ? 0 : found), "too many pixels are clear");
    expect(outside_kept(&size_lent) && outside_kept(&clear_lent), "bytes beside the answer have changed");
    words_lent.length = 4 * found;
    expect(outside_kept(&words_lent), "words past the last pixel have changed");
    count(status, true);
}

void decode_lbmp_once(void)
{
    static uint8_t file[2048];
    uint32_t fields[6];
    uint64_t pixels;
    now.name = "tuyrashka_decode_lbmp";
    now.show = show_file;
    for (int i = 0; i < 16; i++) {
        uint32_t word = any();
        memcpy(file + 24 + below(sizeof file - 28), &word, sizeof word);
    }
    choose_fields(fields);
    memcpy(file, fields, sizeof fields);
    uint64_t plane = ((uint64_t)fields[3] + 7) / 8 * fields[2];
    uint64_t whole = 24 + (uint64_t)fields[4] * (fields[1] == 2 ? 2 : 1) + fields[5] * plane;
    size_t length = whole <= sizeof file - 1 ? whole : below(sizeof file);
    length = one_in(20) && length > 0 ? length - 1 : one_in(4) ? length + 1 : one_in(40) ? below(30) : length;
    room = choose_room((uint64_t)fields[2] * fields[3]);
    uint32_t wanted = lbmp_number(fields, length, &pixels);
    const uint8_t *lent = lend_file(file, length);
    lend(&words_lent, 4 * room, one_in(2));
    keep(&words_lent);
    lend_output(&size_lent, sizeof(struct tuyrashka_size));
    lend_output(&clear_lent, sizeof(uint64_t));
    uint32_t *out = room == 0 && one_in(2) ? NULL : to_write(&words_lent);
    uint32_t status = tuyrashka_decode_lbmp(lent, length, out, room, to_write(&size_lent), to_write(&clear_lent));
    judge_lbmp(fields, status, wanted, pixels);
}

/* A RES file by chance: a start, up to three records of frames, and an icon. */
static size_t choose_res(uint8_t *file)
{
    static const uint8_t start[8] = {0xCE, 0xFA, 0xAD, 0xDE, 0, 0, 8, 0};
    size_t length = 8;
    memcpy(file, start, sizeof start);
    for (uint32_t left = below(4) + 1; left > 0; left--) {
        uint8_t width = (uint8_t)below(9), height = (uint8_t)below(9), frames = (uint8_t)below(3);
        uint8_t record[8] = {left == 1 ? 2 : 3, width, height, 8, 0, 0, 0, 0};
        memcpy(file + length, record, sizeof record);
        length += sizeof record;
        if (left > 1)
            file[length++] = frames;
        length += (size_t)width * height * (left > 1 ? frames : 1u);
    }
    uint8_t *changed = file + below((uint32_t)length);
    if (one_in(5))
        *changed = (uint8_t)extreme();
    return one_in(10) ? below((uint32_t)length + 1) : one_in(8) ? length - 1 : one_in(3) ? length + below(9) : length;
}

/* The number that document 02 gives to a file; *at and *size are those of its icon. */
static uint32_t res_number(const uint8_t *f, size_t length, size_t *at, struct tuyrashka_size *size)
{
    if (length < 8 || memcmp(f, "\xCE\xFA\xAD\xDE", 4) != 0)
        return TUYRASHKA_RES;
    for (size_t p = f[6] + 256u * f[7];;) {
        if (p + 8 > length)
            return TUYRASHKA_NOICON;
        size_t pixels = (size_t)f[p + 1] * f[p + 2];
        if (f[p + 3] != 8)
            return TUYRASHKA_DEPTH;
        if (f[p] != 2 && f[p] != 3)
            return TUYRASHKA_RESTYPE;
        if (f[p] == 2) {
            *at = p + 8;
            size->width = f[p + 1];
            size->height = f[p + 2];
            return p + 8 + pixels > length ? TUYRASHKA_RES : TUYRASHKA_OK;
        }
        if (p + 8 == length)
            return TUYRASHKA_RES;
        p += 9 + f[p + 8] * pixels;
    }
}

void decode_res_once(void)
{
    static uint8_t file[1024];
    struct tuyrashka_size wanted_size = {0, 0}, size;
    size_t wanted_start = 0, start, length = choose_res(file);
    now.name = "tuyrashka_decode_res";
    now.show = show_file;
    uint32_t wanted = res_number(file, length, &wanted_start, &wanted_size);
    if (wanted != TUYRASHKA_OK)
        wanted_start = wanted_size.width = wanted_size.height = 0;
    const uint8_t *lent = lend_file(file, length);
    lend_output(&start_lent, sizeof start);
    lend_output(&size_lent, sizeof size);
    uint32_t status = tuyrashka_decode_res(lent, length, to_write(&start_lent), to_write(&size_lent));
    memcpy(&start, to_read(&start_lent), sizeof start);
    memcpy(&size, to_read(&size_lent), sizeof size);
    expect(status == wanted, "another number was expected");
    expect(start == wanted_start && memcmp(&size, &wanted_size, sizeof size) == 0, "another icon was expected");
    expect(outside_kept(&start_lent) && outside_kept(&size_lent), "bytes beside the answer have changed");
    count(status, true);
}
